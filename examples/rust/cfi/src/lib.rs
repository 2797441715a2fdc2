//! Unwind rows and stacks by DWARF call frame information: `.eh_frame`, `.eh_frame_hdr` and `.debug_frame`.
//!
//! A safe interface to the C library of gimli_cfi, whose answers are proved for all bytes and all addresses. A section
//! is a slice with its address ([`Section`]); nothing is kept of it after a call. A [`Context`] looks up the [`Row`] of
//! an address, by the table of the section's header or by a scan; a [`Table`] is made of a section once, and has the
//! rows of all its addresses. [`Section::check`] tells whether the header's table is
//! faithful. [`Context::unwind`] goes from frame to frame of a stack.
//!
//! ```
//! use cfi::{Cfa, Context, Rule, Section};
//!
//! // A CIE and an FDE: the function at 0x1000 pushes rbp, and then makes it the frame pointer.
//! let bytes = [
//!     0x10, 0, 0, 0, 0xff, 0xff, 0xff, 0xff, 4, 0, 8, 0, 1, 0x78, 0x10, 0x0c, 7, 8, 0x90, 1, 0x1c, 0, 0, 0, 0, 0, 0, 0, 0,
//!     0x10, 0, 0, 0, 0, 0, 0, 0x20, 0, 0, 0, 0, 0, 0, 0, 0x41, 0x0e, 0x10, 0x86, 2, 0x43, 0x0d, 6,
//! ];
//! let mut context = Context::new()?;
//! let row = context.row::<17>(&Section::debug_frame(&bytes), 0x1002)?;
//! assert_eq!((row.start, row.end), (0x1001, 0x1004));
//! assert_eq!(row.cfa, Cfa::RegisterAndOffset { register: 7, offset: 16 });
//! assert_eq!(row.rule(6), Some(Rule::Offset(-16)));
//! # Ok::<(), cfi::Error>(())
//! ```
#![deny(unsafe_op_in_unsafe_fn)]

mod context;
mod error;
mod row;
mod section;
mod stack;
mod table;
mod verdict;

pub use context::Context;
pub use error::{Error, ErrorKind};
pub use row::{Cfa, Row, Rule};
pub use section::Section;
pub use stack::{End, Frame, Module, Registers, Stack};
pub use table::Table;
pub use verdict::Verdict;

/// What a call returns: a value, or an error of the section.
pub type Result<T> = std::result::Result<T, Error>;
