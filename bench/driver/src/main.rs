//! gimli and gimli_cfi side by side, in one process: passes of each measure in turn, by both, over one section.
//!
//!     side_by_side compare NAME ORDER BASE SECTION [HEADER HEADERBASE]             a line of the table for each measure
//!     side_by_side run WHO MEASURE PASSES ORDER BASE SECTION [HEADER HEADERBASE]   passes of one alone, for a profiler
//!
//! ORDER is le or be, WHO is gimli or ours. Beside SECTION there may be SECTION.addresses, 8 bytes each, the least
//! significant first: the addresses that are looked up, instead of random ones. The status is 1 where any pass of
//! the two had different answers.
mod case;
mod gimli_passes;
mod our_passes;
mod sums;

use case::{COMPILE, COMPILED, Case, NAMES};
use std::hint::black_box;
use std::process::exit;
use std::time::{Duration, Instant};
use sums::Done;

/// The times of a measure's passes in nanoseconds, and the answers.
struct Times {
    gimli: Vec<f64>,
    ours: Vec<f64>,
    answers: Done,
    different: Option<(Done, Done)>,
    /// Of the measure `compile`: how many steps and results the table has.
    made: Option<Done>,
}

/// Whether one more pass by both is wanted: as many as go into 2.5 seconds, but 7 where they take less than 30, and 3.
fn wants_more(passes: usize, spent: Duration) -> bool {
    passes < 3
        || (passes < 7 && spent.as_secs() < 30)
        || (passes < 2000 && spent.as_millis() < 2500)
}

fn timed(pass: impl FnOnce() -> Done) -> (Done, f64) {
    let begin = Instant::now();
    let done = black_box(pass());
    (done, begin.elapsed().as_nanos() as f64)
}

/// How often all addresses are looked up in a compiled table that is made once.
const LOOKUPS: u64 = 40;

/// One pass by gimli_cfi, and its time. A pass by a compiled table is timed without making the table: it is made for
/// `LOOKUPS` passes, and once more for none.
fn our_pass(case: &Case, measure: usize) -> (Done, f64) {
    let addresses = case.addresses(measure);
    match measure {
        COMPILED => {
            let (_, making) = timed(|| our_passes::by_compiled(case, addresses, 0));
            let (done, time) = timed(|| our_passes::by_compiled(case, addresses, LOOKUPS));
            (done, (time - making).max(0.0) / LOOKUPS as f64)
        }
        COMPILE => timed(|| our_passes::by_compiled(case, addresses, 0)),
        _ => timed(|| our_passes::pass(case, measure)),
    }
}

fn times(case: &Case, measure: usize) -> Times {
    let mut times = Times { gimli: Vec::new(), ours: Vec::new(), answers: Done::default(), different: None, made: None };
    let begin = Instant::now();
    while wants_more(times.gimli.len(), begin.elapsed()) {
        let (theirs, time) = timed(|| gimli_passes::pass(case, measure));
        times.gimli.push(time);
        let (ours, time) = our_pass(case, measure);
        times.ours.push(time);
        if measure == COMPILE {
            times.answers = theirs;
            times.made = Some(ours);
            continue;
        }
        times.answers = theirs;
        if theirs != ours {
            times.different = Some((theirs, ours));
        }
    }
    times
}

fn least_and_median(values: &mut [f64]) -> (f64, f64) {
    values.sort_by(|a, b| a.total_cmp(b));
    (values[0], values[values.len() / 2])
}

/// Prints the line of a measure, and tells whether the answers are equal.
fn print_line(name: &str, measure: usize, mut times: Times) -> bool {
    let mut ratios: Vec<f64> = times.ours.iter().zip(&times.gimli).map(|(a, b)| a / b).collect();
    let (_, ratio) = least_and_median(&mut ratios);
    let (gimli, _) = least_and_median(&mut times.gimli);
    let (ours, _) = least_and_median(&mut times.ours);
    let units = times.answers.count.max(1) as f64;
    let answers = match (times.made, times.different) {
        (Some(made), _) => format!("{} steps, {} results", made.count, made.sum),
        (None, None) => "equal".to_string(),
        (None, Some((theirs, ours))) => format!("DIFFERENT: gimli {theirs}, gimli_cfi {ours}"),
    };
    println!(
        "| {name} | {} | {} | {:.2} | {:.2} | {:.2} | {ratio:.2} | {answers} |",
        NAMES[measure],
        times.answers.count,
        gimli / units,
        ours / units,
        ours / gimli
    );
    times.different.is_none()
}

/// A line for each measure. Where answers differ the others are still measured.
fn compare(name: &str, case: &Case) -> bool {
    let mut equal = true;
    for measure in case.measures() {
        equal &= print_line(name, measure, times(case, measure));
    }
    equal
}

/// Passes of one library alone, and what the last one answered.
fn run(who: &str, measure: &str, passes: u64, case: &Case) {
    let Some(place) = NAMES.iter().position(|name| *name == measure) else {
        usage(&format!("no measure {measure}"));
    };
    let pass = match (who, place) {
        ("gimli", _) => gimli_passes::pass,
        ("ours", COMPILED) => {
            // All passes by one table.
            let done = black_box(our_passes::by_compiled(case, case.addresses(place), passes));
            return println!("{who} {measure} {done}");
        }
        ("ours", COMPILE) => |case: &Case, _| our_passes::by_compiled(case, &[], 0),
        ("ours", _) => our_passes::pass,
        _ => usage(&format!("no library {who}")),
    };
    let mut last = Done::default();
    for _ in 0..passes {
        last = black_box(pass(case, place));
    }
    println!("{who} {measure} {last}");
}

fn usage(why: &str) -> ! {
    eprintln!("side_by_side: {why}");
    eprintln!("usage: side_by_side compare NAME ORDER BASE SECTION [HEADER HEADERBASE]");
    eprintln!("       side_by_side run WHO MEASURE PASSES ORDER BASE SECTION [HEADER HEADERBASE]");
    exit(2)
}

fn main() {
    let words: Vec<String> = std::env::args().skip(1).collect();
    let words: Vec<&str> = words.iter().map(String::as_str).collect();
    match words.as_slice() {
        ["compare", name, rest @ ..] if rest.len() >= 3 => {
            if !compare(name, &Case::read(rest)) {
                eprintln!("side_by_side: {name}: answers differ");
                exit(1);
            }
        }
        ["run", who, measure, passes, rest @ ..] if rest.len() >= 3 => {
            run(who, measure, case::number(passes), &Case::read(rest));
        }
        _ => usage("wrong words"),
    }
}
