//! The passes of crates/cfi_beside_gimli, by its C interface.
use crate::case::{COMPILED, Case};
use crate::sums::Done;

/// The arguments of a pass over a section: a slice is its first place and its length.
type OfSection = unsafe extern "C" fn(u32, *const u8, usize, u64, *const u64, usize, *mut u64) -> u64;
/// The same, with the number of passes behind the addresses.
type OfCompiled = unsafe extern "C" fn(u32, *const u8, usize, u64, *const u64, usize, u64, *mut u64) -> u64;
/// The arguments of `OfSection`, with the header and its address before the addresses.
type OfHeader =
    unsafe extern "C" fn(u32, *const u8, usize, u64, *const u8, usize, u64, *const u64, usize, *mut u64) -> u64;

unsafe extern "C" {
    fn cfi_passes_section_le(
        measure: u32, section: *const u8, length: usize, base: u64,
        addresses: *const u64, number: usize, count: *mut u64,
    ) -> u64;
    fn cfi_passes_section_be(
        measure: u32, section: *const u8, length: usize, base: u64,
        addresses: *const u64, number: usize, count: *mut u64,
    ) -> u64;
    fn cfi_passes_header_le(
        measure: u32, section: *const u8, length: usize, base: u64,
        header: *const u8, header_length: usize, header_base: u64,
        addresses: *const u64, number: usize, count: *mut u64,
    ) -> u64;
    fn cfi_passes_header_be(
        measure: u32, section: *const u8, length: usize, base: u64,
        header: *const u8, header_length: usize, header_base: u64,
        addresses: *const u64, number: usize, count: *mut u64,
    ) -> u64;
    fn cfi_passes_compiled_le(
        measure: u32, section: *const u8, length: usize, base: u64,
        addresses: *const u64, number: usize, passes: u64, count: *mut u64,
    ) -> u64;
    fn cfi_passes_compiled_be(
        measure: u32, section: *const u8, length: usize, base: u64,
        addresses: *const u64, number: usize, passes: u64, count: *mut u64,
    ) -> u64;
}

/// Makes the compiled table of the section, and then looks up all addresses in it, `passes` times.
/// Without a pass the answers are the number of its steps and that of its results.
pub fn by_compiled(case: &Case, addresses: &[u64], passes: u64) -> Done {
    let pass: OfCompiled = if case.big { cfi_passes_compiled_be } else { cfi_passes_compiled_le };
    let mut count = 0;
    // SAFETY: as in `pass`.
    let sum = unsafe {
        pass(
            COMPILED as u32, case.section.as_ptr(), case.section.len(), case.base,
            addresses.as_ptr(), addresses.len(), passes, &mut count,
        )
    };
    Done { count, sum }
}

pub fn pass(case: &Case, measure: usize) -> Done {
    let (section, header, addresses) = (&case.section, &case.header, case.addresses(measure));
    let mut count = 0;
    // SAFETY: each place has as many values as are said beside it, and nothing is kept after the call.
    let sum = unsafe {
        if Case::is_of_header(measure) {
            let pass: OfHeader = if case.big { cfi_passes_header_be } else { cfi_passes_header_le };
            pass(
                measure as u32, section.as_ptr(), section.len(), case.base,
                header.as_ptr(), header.len(), case.header_base,
                addresses.as_ptr(), addresses.len(), &mut count,
            )
        } else {
            let pass: OfSection = if case.big { cfi_passes_section_be } else { cfi_passes_section_le };
            pass(
                measure as u32, section.as_ptr(), section.len(), case.base,
                addresses.as_ptr(), addresses.len(), &mut count,
            )
        }
    };
    Done { count, sum }
}
