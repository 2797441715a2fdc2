//! gimli and gimli_cfi, asked the same questions: what is asked, what is returned, and the calls of
//! both. `tools/compare_with_gimli` and the fuzz target in `fuzz/` compare by it.
//!
//! gimli_cfi is asked through two static libraries: crates/cfi_c for the rows of addresses, and
//! crates/cfi_beside_gimli for passes over whole sections.
pub mod answer;
pub mod c_library;
pub mod departure;
pub mod gimli_side;
pub mod passes;
pub mod question;
pub mod sums;
