//! Whole passes of gimli_cfi over a section or a header, by the static library of crates/cfi_beside_gimli.
//!
//! Its sections are `.eh_frame` with addresses of 8 bytes. The bases of text and data are absent,
//! and there is no vendor: gimli is asked with `Settings::of_passes`.
use crate::question::Question;
use crate::sums::Done;

unsafe extern "C" {
    fn cfi_passes_section_le(
        measure: u32,
        section: *const u8,
        length: usize,
        base: u64,
        addresses: *const u64,
        number: usize,
        count: *mut u64,
    ) -> u64;
    fn cfi_passes_section_be(
        measure: u32,
        section: *const u8,
        length: usize,
        base: u64,
        addresses: *const u64,
        number: usize,
        count: *mut u64,
    ) -> u64;
    fn cfi_passes_compiled_le(
        measure: u32,
        section: *const u8,
        length: usize,
        base: u64,
        addresses: *const u64,
        number: usize,
        passes: u64,
        count: *mut u64,
    ) -> u64;
    fn cfi_passes_compiled_be(
        measure: u32,
        section: *const u8,
        length: usize,
        base: u64,
        addresses: *const u64,
        number: usize,
        passes: u64,
        count: *mut u64,
    ) -> u64;
    fn cfi_passes_header_le(
        measure: u32,
        section: *const u8,
        length: usize,
        base: u64,
        header: *const u8,
        header_length: usize,
        header_base: u64,
        addresses: *const u64,
        number: usize,
        count: *mut u64,
    ) -> u64;
    fn cfi_passes_header_be(
        measure: u32,
        section: *const u8,
        length: usize,
        base: u64,
        header: *const u8,
        header_length: usize,
        header_base: u64,
        addresses: *const u64,
        number: usize,
        count: *mut u64,
    ) -> u64;
}

/// The passes over a section, by their numbers in crates/cfi_beside_gimli: the offset of each entry; the
/// initial address and the length of each FDE; each row by `next_row`, with all rules.
const OF_SECTION: [u32; 3] = [0, 1, 7];
/// The passes over a header: the pointer that a lookup of each address returns; the start and the
/// target of each row of the table.
const LOOKUPS: u32 = 4;
const TABLE_ROWS: u32 = 6;

/// All that the rows of a compiled table say.
const COMPILED: u32 = 9;

/// Whether the passes can be made: they are of `.eh_frame` with addresses of 8 bytes alone.
pub fn are_possible(question: &Question) -> bool {
    !question.settings.debug_frame && question.settings.address_size == 8
}

/// The entries, the FDEs, and all rows with all rules.
pub fn of_section(question: &Question) -> [Done; 3] {
    OF_SECTION.map(|measure| section_pass(question, measure))
}

/// The pointers that lookups of the addresses return, and the rows of the table. Without a header,
/// as for one without a table, both are `Done::FAILED`.
pub fn of_header(question: &Question, addresses: &[u64]) -> (Done, Done) {
    let lookups = header_pass(question, LOOKUPS, addresses);
    (lookups, header_pass(question, TABLE_ROWS, &[]))
}

/// What the rows of the addresses say by a compiled table, which is made for this call.
pub fn of_compiled(question: &Question, addresses: &[u64]) -> Done {
    let Question {
        settings, section, ..
    } = question;
    let call = if settings.big_endian {
        cfi_passes_compiled_be
    } else {
        cfi_passes_compiled_le
    };
    let mut count = 0;
    // SAFETY: each pointer leads to as many values as is said, and none is kept after the call.
    let sum = unsafe {
        call(
            COMPILED,
            section.as_ptr(),
            section.len(),
            settings.section,
            addresses.as_ptr(),
            addresses.len(),
            1,
            &mut count,
        )
    };
    Done { count, sum }
}

fn section_pass(question: &Question, measure: u32) -> Done {
    let Question {
        settings, section, ..
    } = question;
    let call = if settings.big_endian {
        cfi_passes_section_be
    } else {
        cfi_passes_section_le
    };
    let (at, length) = (section.as_ptr(), section.len());
    let none: &[u64] = &[];
    let mut count = 0;
    // SAFETY: each pointer leads to as many values as is said, and none is kept after the call.
    let sum = unsafe {
        call(
            measure,
            at,
            length,
            settings.section,
            none.as_ptr(),
            0,
            &mut count,
        )
    };
    Done { count, sum }
}

fn header_pass(question: &Question, measure: u32, addresses: &[u64]) -> Done {
    let Question {
        settings,
        section,
        header: Some(header),
    } = question
    else {
        return Done::FAILED;
    };
    let call = if settings.big_endian {
        cfi_passes_header_be
    } else {
        cfi_passes_header_le
    };
    let mut count = 0;
    // SAFETY: each pointer leads to as many values as is said, and none is kept after the call.
    let sum = unsafe {
        call(
            measure,
            section.as_ptr(),
            section.len(),
            settings.section,
            header.as_ptr(),
            header.len(),
            settings.header,
            addresses.as_ptr(),
            addresses.len(),
            &mut count,
        )
    };
    Done { count, sum }
}
