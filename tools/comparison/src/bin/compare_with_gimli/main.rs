//! Compares the call frames of ELF files by gimli and by gimli_cfi.
//!
//!     compare_with_gimli FILE..
//!
//! Of `.eh_frame` and `.debug_frame` of each file, all rows of all FDEs are compared with all
//! rules, and errors with the values that they carry. Each FDE is cut out with its CIE for that.
//! Whole sections are compared by scans for a sample of addresses, and by the header's table for
//! three addresses of each FDE. Of `.eh_frame` with addresses of 8 bytes, checksums are compared:
//! of all entries, all rows by `next_row`, all rows of the table, and what a compiled table has for
//! as many random addresses as there are FDEs, most of them within FDEs.
//!
//! Prints a line for each section, and a last one with totals. Status 0: all is the same; 1: not;
//! 2: there is nothing to compare.
mod cut;
mod elf;

use comparison::answer::{Answer, Entries, Fde, text, truncated};
use comparison::question::{Question, Settings};
use comparison::{c_library, gimli_side, passes};
use cut::Cut;
use elf::Elf;
use std::ops::AddAssign;
use std::process::ExitCode;

/// Rules of the first registers are compared at least.
const REGISTERS: usize = 20;
/// Scans of a file go past about so many FDEs together.
const SCANNED: usize = 400_000;
/// Addresses that are looked up by one call.
const BATCH: usize = 3000;

#[derive(Clone, Copy, Default)]
struct Counts {
    entries: usize,
    fdes: usize,
    rows: usize,
    lookups: usize,
    scans: usize,
    /// Addresses that were looked up in a compiled table.
    compiled: usize,
    /// Answers that gimli_cfi has by an extension, where gimli has an error.
    extended: usize,
}

impl AddAssign for Counts {
    fn add_assign(&mut self, other: Counts) {
        self.entries += other.entries;
        self.fdes += other.fdes;
        self.rows += other.rows;
        self.lookups += other.lookups;
        self.scans += other.scans;
        self.compiled += other.compiled;
        self.extended += other.extended;
    }
}

impl std::fmt::Display for Counts {
    fn fmt(&self, f: &mut std::fmt::Formatter<'_>) -> std::fmt::Result {
        let Counts {
            entries,
            fdes,
            rows,
            lookups,
            scans,
            compiled,
            extended,
        } = self;
        write!(
            f,
            "{entries} entries, {fdes} FDEs, {rows} rows, {lookups} lookups, {scans} scans, \
             {compiled} by a compiled table"
        )?;
        if *extended > 0 {
            write!(f, ", {extended} by extensions")?;
        }
        Ok(())
    }
}

/// The contexts of both libraries, which are used for all files, and counts of one section.
struct Comparison {
    ours: c_library::Context,
    gimli: gimli_side::Context,
    counts: Counts,
}

/// `Err` describes the first difference.
type Compared = Result<(), String>;

impl Comparison {
    fn new() -> Comparison {
        let (ours, gimli) = (c_library::Context::new(), gimli_side::context());
        Comparison {
            ours,
            gimli,
            counts: Counts::default(),
        }
    }

    fn section(&mut self, question: &Question) -> Compared {
        self.counts = Counts::default();
        let entries = gimli_side::entries(&Question {
            header: None,
            ..*question
        });
        let fdes: Vec<_> = entries.fdes.iter().flatten().copied().collect();
        self.counts.entries = entries.offsets.len();
        self.counts.fdes = fdes.len();
        for fde in &fdes {
            self.rows(question, fde)?;
        }
        self.scans(question, &fdes)?;
        self.lookups(question, &fdes)?;
        self.compiled(question, &entries, &fdes)?;
        self.passes(question, &entries)
    }

    /// Compares all rows of an FDE, and what both return where the rows end.
    fn rows(&mut self, question: &Question, fde: &Fde) -> Compared {
        let cut = Cut::new(question, fde);
        let question = cut.question();
        let rows = gimli_side::rows(&question, cut.offset, &mut self.gimli);
        let rows: Vec<_> = rows.into_iter().map_while(Answer::ok).collect();
        let rules = rows.iter().flat_map(|row| row.rules.last());
        let registers = rules
            .map(|rule| usize::from(rule.0) + 2)
            .fold(REGISTERS, usize::max);
        let mut addresses: Vec<_> = rows.iter().map(|row| row.start).collect();
        addresses.extend([rows.last().map_or(fde.start, |row| row.end), fde.end]);
        self.counts.rows += rows.len();
        let describe = |address| {
            format!(
                "of the FDE at {:#x}: {}",
                fde.offset,
                question.command(address)
            )
        };
        self.answers(&question, &addresses, registers, &describe)
    }

    /// Compares scans of the whole section for addresses in FDEs at even distances.
    fn scans(&mut self, question: &Question, fdes: &[Fde]) -> Compared {
        let question = Question {
            header: None,
            ..*question
        };
        let count = (SCANNED / fdes.len().max(1)).clamp(5, 200).min(fdes.len());
        let chosen = (0..count).map(|i| &fdes[i * fdes.len() / count]);
        let addresses: Vec<_> = chosen
            .map(|fde| fde.start.wrapping_add(fde.length / 2))
            .collect();
        self.counts.scans += addresses.len();
        let describe = |address| format!("by a scan for {address:#x}");
        self.answers(&question, &addresses, REGISTERS, &describe)
    }

    /// Compares three addresses of each FDE by the header's table.
    fn lookups(&mut self, question: &Question, fdes: &[Fde]) -> Compared {
        if question.header.is_none_or(<[u8]>::is_empty) {
            return Ok(());
        }
        let of_fde = |fde: &Fde| [fde.start, fde.end.wrapping_sub(1), fde.end];
        let addresses: Vec<_> = fdes.iter().flat_map(of_fde).collect();
        self.counts.lookups += addresses.len();
        let describe = |address| format!("by the table for {address:#x}");
        for addresses in addresses.chunks(BATCH) {
            self.answers(question, addresses, REGISTERS, &describe)?;
        }
        let question = Question {
            settings: question.settings.of_passes(),
            ..*question
        };
        if !passes::are_possible(&question) {
            return Ok(());
        }
        let (lookups, rows) = gimli_side::header_passes(&question, &addresses);
        let found = passes::of_header(&question, &addresses);
        if lookups.is_some_and(|lookups| lookups != found.0) || rows != found.1 {
            return Err(format!(
                "of the table: {lookups:?} {rows:?}\n  gimli_cfi: {found:?}"
            ));
        }
        Ok(())
    }

    /// Compares what a compiled table has for as many random addresses as there are FDEs. Sections
    /// with an error among their entries are left out.
    fn compiled(&mut self, question: &Question, entries: &Entries, fdes: &[Fde]) -> Compared {
        let question = Question {
            settings: question.settings.of_passes(),
            header: None,
            ..*question
        };
        let is_whole = entries.error.is_none() && entries.fdes.len() == fdes.len();
        if !passes::are_possible(&question) || !is_whole {
            return Ok(());
        }
        let addresses = random_addresses(fdes);
        self.counts.compiled += addresses.len();
        let mut differ = |addresses: &[u64]| {
            let gimli = gimli_side::parts_of_rows(&question, fdes, addresses, &mut self.gimli);
            gimli != passes::of_compiled(&question, addresses)
        };
        // Halves the addresses up to the first for which the two differ.
        let mut rest = &addresses[..];
        if !differ(rest) {
            return Ok(());
        }
        while rest.len() > 1 {
            let (first, last) = rest.split_at(rest.len() / 2);
            rest = if differ(first) { first } else { last };
        }
        Err(format!("by a compiled table for {:#x}", rest[0]))
    }

    /// Compares the checksums of passes over the whole section.
    fn passes(&mut self, question: &Question, entries: &Entries) -> Compared {
        let settings = question.settings.of_passes();
        let question = Question {
            settings,
            header: None,
            ..*question
        };
        if !passes::are_possible(&question) {
            return Ok(());
        }
        let gimli = gimli_side::section_passes(&question, &mut self.gimli);
        let ours = passes::of_section(&question);
        if gimli == ours {
            return Ok(());
        }
        let mut errors = entries
            .fdes
            .iter()
            .filter_map(|fde| fde.err())
            .chain(entries.error);
        if errors.any(|error| error.is_avoided_by_extension()) {
            self.counts.extended += 1;
            return Ok(());
        }
        Err(format!(
            "of the whole section: {gimli:?}\n  gimli_cfi: {ours:?}"
        ))
    }

    /// Compares the answers for addresses. `describe` says of an address what is asked.
    fn answers(
        &mut self,
        question: &Question,
        addresses: &[u64],
        registers: usize,
        describe: &dyn Fn(u64) -> String,
    ) -> Compared {
        let answers = self.ours.rows(question, addresses, registers);
        for (&address, ours) in addresses.iter().zip(answers) {
            let mut expected = gimli_side::answer(question, address, &mut self.gimli);
            expected.answer = truncated(&expected.answer, registers);
            if expected.allows(&ours) {
                continue;
            }
            if !expected
                .answer
                .is_err_and(|error| error.is_avoided_by_extension())
            {
                let gimli = gimli_side::answer(question, address, &mut self.gimli).answer;
                let (gimli, ours) = (text(&gimli), text(&ours));
                let what = describe(address);
                return Err(format!("{what}\n  gimli:     {gimli}\n  gimli_cfi: {ours}"));
            }
            self.counts.extended += 1;
        }
        Ok(())
    }
}

/// As many addresses as there are FDEs, the same in each run: seven of eight within an FDE, the
/// others anywhere from a little before the first FDE to a little after the last.
fn random_addresses(fdes: &[Fde]) -> Vec<u64> {
    let first = fdes.iter().map(|fde| fde.start).min().unwrap_or(0);
    let last = fdes.iter().map(|fde| fde.end).max().unwrap_or(0);
    let mut state = 1_u64;
    let mut below = |end: u64| {
        state = state.wrapping_mul(0x5851_f42d_4c95_7f2d).wrapping_add(1);
        ((u128::from(state ^ (state >> 32)) * u128::from(end)) >> 64) as u64
    };
    let mut address = |i: usize| {
        let fde = &fdes[below(fdes.len() as u64) as usize];
        if i % 8 < 7 && fde.length > 0 {
            return fde.start.wrapping_add(below(fde.length));
        }
        let around = last.wrapping_sub(first).saturating_add(128);
        first.wrapping_sub(64).wrapping_add(below(around))
    };
    (0..fdes.len()).map(&mut address).collect()
}

/// The sections of a file that are compared, by name. A missing section is left out.
fn questions<'a>(elf: &Elf<'a>) -> Vec<(&'static str, Question<'a>)> {
    let header = elf.section(".eh_frame_hdr");
    let settings = Settings {
        debug_frame: false,
        big_endian: elf.big_endian,
        address_size: elf.address_size,
        aarch64: elf.aarch64,
        section: 0,
        header: header.map_or(0, |header| header.address),
        text: elf.address(".text"),
        data: elf.address(".got"),
        unset: 0,
    };
    let find = |name, debug_frame| {
        let section = elf
            .section(name)
            .filter(|section| !section.bytes.is_empty())?;
        let settings = Settings {
            debug_frame,
            section: section.address,
            ..settings
        };
        let header = header.filter(|_| !debug_frame).map(|header| header.bytes);
        Some((
            name,
            Question {
                settings,
                section: section.bytes,
                header,
            },
        ))
    };
    [find(".eh_frame", false), find(".debug_frame", true)]
        .into_iter()
        .flatten()
        .collect()
}

fn main() -> ExitCode {
    let files: Vec<String> = std::env::args().skip(1).collect();
    let mut comparison = Comparison::new();
    let (mut total, mut sections, mut different) = (Counts::default(), 0, 0);
    for file in &files {
        let bytes = std::fs::read(file).unwrap_or_default();
        let Some(elf) = Elf::parse(&bytes) else {
            continue;
        };
        for (name, question) in questions(&elf) {
            let compared = comparison.section(&question);
            total += comparison.counts;
            sections += 1;
            print!("{file} {name}: {}", comparison.counts);
            match compared {
                Ok(()) => println!(": same"),
                Err(difference) => {
                    different += 1;
                    println!(": DIFFERENT {difference}");
                }
            }
        }
    }
    println!(
        "{sections} sections of {} files: {total}: {different} differ",
        files.len()
    );
    match (sections, different) {
        (0, _) => ExitCode::from(2),
        (_, 0) => ExitCode::SUCCESS,
        _ => ExitCode::from(1),
    }
}
