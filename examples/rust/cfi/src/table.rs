use std::ptr;

use crate::row::answer_of;
use crate::{Error, Result, Row, Section};

/// The rows of a section for all addresses, made once. It doesn't read the section any more.
///
/// A table may go to another thread, and is used by one at a time: it is `Send`, and a lookup borrows it mutably.
/// Threads that look up at once have a table each.
#[derive(Debug)]
pub struct Table(cfi_sys::CfiTable);

// SAFETY: what a table holds may be handed to another thread (cfi_c.h), and a move or a mutable borrow does.
unsafe impl Send for Table {}
// SAFETY: a shared borrow of a table reaches nothing: each call that reads it borrows it mutably.
unsafe impl Sync for Table {}

impl Table {
    /// Makes the table of a section, without its header. Fails with `OutOfMemory`, or with `UnsupportedAddressSize` for
    /// a size that is none. An error in the section is that of the addresses that it is for.
    pub fn new(section: &Section<'_>) -> Result<Table> {
        let mut table = Table(cfi_sys::CfiTable {
            at: ptr::null_mut(),
            live: false,
        });
        let (bytes, length) = (section.bytes.as_ptr(), section.bytes.len());
        // SAFETY: the table is none yet, as cfi_c.h asks; a slice isn't null.
        match unsafe { cfi_sys::cfi_table_new(&mut table.0, bytes, length, &section.bases) } {
            cfi_sys::CFI_Ok => Ok(table),
            status => Err(Error::new(status, 0)),
        }
    }

    /// Returns what [`crate::Context::row`] returns for the address by a scan, but for `start` and `end`, which are 0.
    /// It takes a binary search, and doesn't allocate.
    pub fn row<const REGISTERS: usize>(&mut self, address: u64) -> Result<Row<REGISTERS>> {
        let mut row = cfi_sys::CfiRow::default();
        let mut rules = [cfi_sys::CfiRule::default(); REGISTERS];
        // SAFETY: the table is live; what is written is borrowed mutably.
        unsafe { cfi_sys::cfi_table_row(&mut self.0, address, &mut row, rules.as_mut_ptr(), REGISTERS) };
        answer_of(&row, rules)
    }
}

impl Drop for Table {
    fn drop(&mut self) {
        // SAFETY: the table is the library's, and no one else's.
        unsafe { cfi_sys::cfi_table_free(&mut self.0) }
    }
}
