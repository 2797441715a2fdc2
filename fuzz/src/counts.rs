//! What was compared, printed when the process ends.
use comparison::departure::Departure;
use std::sync::atomic::{AtomicU64, Ordering::Relaxed};

/// Rows and errors, by a scan and by a table.
static COMPARED: [[AtomicU64; 2]; 2] = [const { [const { AtomicU64::new(0) }; 2] }; 2];
/// Passes over whole sections and headers.
static PASSES: AtomicU64 = AtomicU64::new(0);
/// Tables that are faithful, and others.
static CHECKED: [AtomicU64; 2] = [const { AtomicU64::new(0) }; 2];
/// Requests of memory that were refused.
static REFUSED: AtomicU64 = AtomicU64::new(0);
static DEPARTED: [AtomicU64; Departure::ALL.len()] =
    [const { AtomicU64::new(0) }; Departure::ALL.len()];

unsafe extern "C" {
    fn atexit(call: extern "C" fn()) -> i32;
}

pub fn print_at_exit() {
    // SAFETY: `print` may be called at any time.
    unsafe { atexit(print) };
}

pub fn compared(by_table: bool, is_row: bool) {
    COMPARED[usize::from(by_table)][usize::from(!is_row)].fetch_add(1, Relaxed);
}

pub fn compared_passes(number: u64) {
    PASSES.fetch_add(number, Relaxed);
}

pub fn checked(is_faithful: bool) {
    CHECKED[usize::from(!is_faithful)].fetch_add(1, Relaxed);
}

pub fn refused(requests: u64) {
    REFUSED.fetch_add(requests, Relaxed);
}

pub fn departed(departure: Departure) {
    DEPARTED[departure as usize].fetch_add(1, Relaxed);
}

/// How much was compared.
pub fn text() -> String {
    let [
        [rows_by_scan, errors_by_scan],
        [rows_by_table, errors_by_table],
    ] = COMPARED
        .each_ref()
        .map(|counts| counts.each_ref().map(|count| count.load(Relaxed)));
    let rows = rows_by_scan + rows_by_table;
    let results = rows + errors_by_scan + errors_by_table;
    let passes = PASSES.load(Relaxed);
    format!("{results} results for addresses, {rows} of them rows; {passes} passes")
}

/// `run` adds these lines up over all processes.
extern "C" fn print() {
    for (how, counts) in ["by scan", "by table"].iter().zip(&COMPARED) {
        eprintln!("count: rows {how}: {}", counts[0].load(Relaxed));
        eprintln!("count: errors {how}: {}", counts[1].load(Relaxed));
    }
    eprintln!("count: passes: {}", PASSES.load(Relaxed));
    eprintln!("count: faithful tables: {}", CHECKED[0].load(Relaxed));
    eprintln!("count: other tables: {}", CHECKED[1].load(Relaxed));
    eprintln!("count: refused requests: {}", REFUSED.load(Relaxed));
    for departure in Departure::ALL {
        let count = DEPARTED[departure as usize].load(Relaxed);
        eprintln!("count: departures on purpose, {departure:?}: {count}");
    }
}
