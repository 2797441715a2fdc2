//! gimli and gimli_cfi are asked the same questions, and the process stops where what they return
//! differs. [`input`] tells what is asked, README.md which differences are meant. libFuzzer calls
//! [`LLVMFuzzerTestOneInput`], and the program `compare_inputs` calls [`compare_input`].
pub mod counts;
mod deep;
mod event;
mod guarded;
mod input;
mod memory;
mod our_answers;

use answer::{Answer, Fde, text, truncated};
use comparison::{answer, c_library, departure, gimli_side, passes, question, sums};
use departure::{Departure, Expected};
use guarded::Guarded;
pub use input::FIXED;
use input::Input;
use question::Question;
use std::cell::RefCell;

/// gimli, asked what crates/cfi_beside_gimli is asked.
mod plain {
    use comparison::gimli_side;
    include!("gimli_answers.rs");
}

/// gimli with the extensions of gimli_cfi: letter `B` and opcode 0x2f (`extend.py`).
#[allow(dead_code)]
mod extended {
    pub mod gimli_side {
        use gimli_extended as gimli;
        include!("../../tools/comparison/src/gimli_side.rs");
    }
    use gimli_extended as gimli;
    include!("gimli_answers.rs");
}

/// At most so many addresses are asked for in a section.
const ADDRESSES: usize = 20;
/// Addresses are those of so many FDEs.
const FDES: usize = 6;
/// In a section of more bytes only the first few addresses are asked for.
const LARGE: usize = 8192;
const FEW_ADDRESSES: usize = 2;
/// So many registers are asked for at least, and at most unless an input asks for all of them: each
/// costs a search of the row.
const FEW_REGISTERS: usize = 24;
const MANY_REGISTERS: usize = 200;
const ALL_REGISTERS: usize = 65536;
/// Rules of each row by `cfi_rows`.
const PER_ROW: usize = 20;

/// What is used for all inputs. Contexts are, since what an input left in them must not matter.
struct State {
    contexts: Contexts,
    deep: deep::Contexts,
    section: Guarded,
    header: Guarded,
}

struct Contexts {
    ours: c_library::Context,
    gimli: gimli_side::Context,
    extended: extended::gimli_side::Context,
}

impl State {
    fn new() -> State {
        let contexts = Contexts {
            ours: c_library::Context::new(),
            gimli: gimli_side::context(),
            extended: extended::gimli_side::context(),
        };
        State {
            contexts,
            deep: deep::Contexts::new(),
            section: Guarded::new(),
            header: Guarded::new(),
        }
    }
}

thread_local! {
    static STATE: RefCell<State> = RefCell::new(State::new());
}

#[unsafe(no_mangle)]
pub extern "C" fn LLVMFuzzerInitialize(_: *const i32, _: *const *const *const u8) -> i32 {
    counts::print_at_exit();
    0
}

/// # Safety
/// `data` has `length` bytes.
#[unsafe(no_mangle)]
pub unsafe extern "C" fn LLVMFuzzerTestOneInput(data: *const u8, length: usize) -> i32 {
    // SAFETY: as the caller promises. A null pointer may come with no bytes.
    let data = if length == 0 {
        &[]
    } else {
        unsafe { std::slice::from_raw_parts(data, length) }
    };
    if compare_input(data) { 0 } else { -1 }
}

/// Compares what both libraries return for an input, and stops the process where it differs. Returns
/// whether the bytes are an input.
pub fn compare_input(data: &[u8]) -> bool {
    let Some(input) = input::read(data) else {
        return false;
    };
    STATE.with_borrow_mut(|state| compare(state, input));
    true
}

fn compare(state: &mut State, input: Input) {
    let State {
        contexts,
        deep,
        section,
        header,
    } = state;
    let section = section.hold(&input.section);
    let mut question = Question {
        settings: input.settings,
        section,
        header: None,
    };
    // The first FDEs that can be read, also those that gimli alone can't read.
    let fdes = extended::gimli_side::entries(&question).fdes;
    let mut fdes: Vec<_> = fdes.into_iter().flatten().collect();
    if let Some(bytes) = &input.header {
        let built = bytes
            .is_empty()
            .then(|| input::build_header(&question, &fdes));
        question.header = Some(header.hold(built.as_ref().unwrap_or(bytes)));
    }
    fdes.truncate(FDES);
    let most = if section.len() > LARGE {
        FEW_ADDRESSES
    } else {
        ADDRESSES
    };
    let mut addresses = Addresses::new(input.address, &fdes, most);
    let mut answers: Vec<Answer> = Vec::new();
    while let Some(&address) = addresses.0.get(answers.len()) {
        let all = input.all && answers.is_empty();
        let answer = compare_row(contexts, &question, address, all);
        if let Ok(row) = &answer {
            addresses.add(row.end);
        }
        answers.push(answer);
    }
    compare_rows(contexts, &question, &addresses.0, &answers);
    if passes::are_possible(&question) {
        compare_passes(contexts, &question, &addresses.0);
    }
    let steps = steps(&input);
    let settings = input.settings_without();
    let mut comparison = deep::Comparison {
        contexts: deep,
        question: Question {
            settings,
            ..question
        },
        storage: input.storage,
        refusal: input.refusal,
        addresses: &addresses.0,
        steps: &steps,
    };
    comparison.all();
}

/// Calls of `next` and `nth`: by each byte of two numbers of the input, and by a whole one.
fn steps(input: &Input) -> Vec<u64> {
    let [first, second] = [input.address, input.settings.text].map(u64::to_le_bytes);
    let bytes = first.into_iter().chain(second).map(u64::from);
    bytes.chain([input.settings.data, 1]).collect()
}

/// Different addresses, up to a number.
struct Addresses(Vec<u64>, usize);

impl Addresses {
    /// An address, and the first, the last and the end of each FDE.
    fn new(address: u64, fdes: &[Fde], most: usize) -> Addresses {
        let mut addresses = Addresses(vec![address], most);
        for fde in fdes {
            for address in [fde.start, fde.end.wrapping_sub(1), fde.end] {
                addresses.add(address);
            }
        }
        addresses
    }

    fn add(&mut self, address: u64) {
        if self.0.len() < self.1 && !self.0.contains(&address) {
            self.0.push(address);
        }
    }
}

/// Compares the rows of an address, and returns that of gimli_cfi.
fn compare_row(contexts: &mut Contexts, question: &Question, address: u64, all: bool) -> Answer {
    let mut expected = gimli_side::answer(question, address, &mut contexts.gimli);
    let mut ours = contexts
        .ours
        .row(question, address, registers_of(&mut expected, all));
    if !expected.allows(&ours)
        && expected
            .answer
            .as_ref()
            .is_err_and(|error| error.is_avoided_by_extension())
    {
        expected = extended::gimli_side::answer(question, address, &mut contexts.extended);
        expected.departure = Some(Departure::Extension);
        // The first call may have asked for the rules of too few registers.
        ours = contexts
            .ours
            .row(question, address, registers_of(&mut expected, false));
    }
    if !expected.allows(&ours) {
        stop_at_row(question, address, &expected, &ours);
    }
    if let Some(departure) = expected.departure {
        counts::departed(departure);
    }
    counts::compared(question.header.is_some(), ours.is_ok());
    ours
}

/// How many registers to ask for: those for which gimli's row has rules and one more, within the
/// limits. Rules of further registers are removed from gimli's row.
fn registers_of(expected: &mut Expected, all: bool) -> usize {
    let Ok(row) = &mut expected.answer else {
        return FEW_REGISTERS;
    };
    let needed = row.rules.last().map_or(0, |rule| usize::from(rule.0) + 2);
    let registers = needed.clamp(
        FEW_REGISTERS,
        if all { ALL_REGISTERS } else { MANY_REGISTERS },
    );
    row.truncate(registers);
    registers
}

/// Compares what `cfi_rows` returns for all addresses with what was returned for each alone.
fn compare_rows(
    contexts: &mut Contexts,
    question: &Question,
    addresses: &[u64],
    answers: &[Answer],
) {
    // `cfi_rows` takes an empty header for none.
    if question.header.is_some_and(<[u8]>::is_empty) {
        return;
    }
    let rows = contexts.ours.rows(question, addresses, PER_ROW);
    for ((address, answer), row) in addresses.iter().zip(answers).zip(rows) {
        let answer = truncated(answer, PER_ROW);
        if answer != row {
            eprintln!("DIFFERENT: {}", question.command(*address));
            eprintln!("  cfi_rows: {}\n  one row:  {}", text(&row), text(&answer));
            std::process::abort();
        }
    }
}

/// Compares the checksums of passes over the section and the header, without bases of text and
/// data.
fn compare_passes(contexts: &mut Contexts, question: &Question, addresses: &[u64]) {
    let question = Question {
        settings: question.settings.of_passes(),
        ..*question
    };
    let ours = passes::of_section(&question);
    let gimli = gimli_side::section_passes(&question, &mut contexts.gimli);
    if ours != gimli {
        if ours != extended::gimli_side::section_passes(&question, &mut contexts.extended) {
            stop_at_pass(&question, &format!("{gimli:?}"), &format!("{ours:?}"));
        }
        counts::departed(Departure::Extension);
    }
    counts::compared_passes(ours.len() as u64);
    if question.header.is_some() {
        let ours = passes::of_header(&question, addresses);
        let gimli = gimli_side::header_passes(&question, addresses);
        if gimli.0.is_some_and(|lookups| lookups != ours.0) || gimli.1 != ours.1 {
            stop_at_pass(&question, &format!("{gimli:?}"), &format!("{ours:?}"));
        }
        counts::compared_passes(2);
    }
}

fn stop_at_row(question: &Question, address: u64, expected: &Expected, ours: &Answer) -> ! {
    eprintln!("DIFFERENT: {}", question.command(address));
    eprintln!(
        "  expected:  {}\n  gimli_cfi: {}",
        text(&expected.answer),
        text(ours)
    );
    let gimli = gimli_side::answer(question, address, &mut gimli_side::context());
    let ours = c_library::Context::new().row(question, address, ALL_REGISTERS);
    eprintln!("  in fresh contexts, expected:  {}", text(&gimli.answer));
    eprintln!("  in fresh contexts, gimli_cfi: {}", text(&ours));
    std::process::abort()
}

fn stop_at_pass(question: &Question, gimli: &str, ours: &str) -> ! {
    eprintln!("DIFFERENT in passes: {}", question.command(0));
    eprintln!("  gimli:     {gimli}\n  gimli_cfi: {ours}");
    std::process::abort()
}
