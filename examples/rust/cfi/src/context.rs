use std::ptr;

use crate::row::answer_of;
use crate::{End, Error, Frame, Module, Registers, Result, Row, Section, Stack};

/// The memory of lookups: made once, and used for any number of addresses of any sections. Only [`Context::new`]
/// allocates in the library. What a context was used for before doesn't change an answer.
///
/// A context stays on its thread, so it is neither `Send` nor `Sync`; threads have one each.
///
/// ```compile_fail
/// let context = cfi::Context::new().unwrap();
/// std::thread::spawn(move || drop(context));
/// ```
#[derive(Debug)]
pub struct Context(cfi_sys::CfiContext);

impl Context {
    /// Makes a context. Fails with `OutOfMemory` alone.
    pub fn new() -> Result<Context> {
        let mut context = Context(cfi_sys::CfiContext {
            at: ptr::null_mut(),
            live: false,
        });
        // SAFETY: the context is none yet, as cfi_c.h asks, and borrowed for the call.
        match unsafe { cfi_sys::cfi_context_new(&mut context.0) } {
            cfi_sys::CFI_Ok => Ok(context),
            status => Err(Error::new(status, 0)),
        }
    }

    /// Returns the row of an address, with the rules of the registers below `REGISTERS`: by the table of the section's
    /// header, or by a scan if it has none. A return address is looked up as the address less 1.
    ///
    /// `NoUnwindInfoForAddress` where no FDE contains the address, and else the first error on the way to the row.
    pub fn row<const REGISTERS: usize>(&mut self, section: &Section<'_>, address: u64) -> Result<Row<REGISTERS>> {
        let mut row = cfi_sys::CfiRow::default();
        let mut rules = [cfi_sys::CfiRule::default(); REGISTERS];
        let (bytes, header) = (section.bytes, section.header);
        // SAFETY: slices aren't null, and what is written is borrowed mutably; the context is live, and of this thread.
        unsafe {
            if header.is_empty() {
                cfi_sys::cfi_row_by_scan(
                    &mut self.0,
                    bytes.as_ptr(),
                    bytes.len(),
                    &section.bases,
                    address,
                    &mut row,
                    rules.as_mut_ptr(),
                    REGISTERS,
                );
            } else {
                cfi_sys::cfi_row_by_table(
                    &mut self.0,
                    bytes.as_ptr(),
                    bytes.len(),
                    header.as_ptr(),
                    header.len(),
                    &section.bases,
                    address,
                    &mut row,
                    rules.as_mut_ptr(),
                    REGISTERS,
                );
            }
        }
        answer_of(&row, rules)
    }

    /// Returns the rows of many addresses, each as [`Context::row`] returns it, by one call of the library. Allocates
    /// what is returned, and aborts without memory, as `Vec` does.
    pub fn rows<const REGISTERS: usize>(
        &mut self,
        section: &Section<'_>,
        addresses: &[u64],
    ) -> Vec<Result<Row<REGISTERS>>> {
        let mut rows = vec![cfi_sys::CfiRow::default(); addresses.len()];
        let mut rules = vec![[cfi_sys::CfiRule::default(); REGISTERS]; addresses.len()];
        // SAFETY: as for a row; the array of rules has REGISTERS for each address.
        let answered = unsafe {
            cfi_sys::cfi_rows(
                &mut self.0,
                section.bytes.as_ptr(),
                section.bytes.len(),
                section.header.as_ptr(),
                section.header.len(),
                &section.bases,
                addresses.as_ptr(),
                addresses.len(),
                rows.as_mut_ptr(),
                rows.len(),
                rules.as_mut_ptr().cast(),
                rules.len() * REGISTERS,
                REGISTERS,
            )
        };
        debug_assert_eq!(answered, addresses.len());
        rows.iter()
            .zip(rules)
            .map(|(row, rules)| answer_of(row, rules))
            .collect()
    }

    /// Writes the frames of a stack, from the innermost one out, as many as `frames` has room for. Returns those that
    /// are written, and why there are no more.
    ///
    /// A frame's module is the first whose code its address is in. Only the bytes of the stack and of the modules'
    /// sections are read, so a corrupt stack ends the walk, and no more. It doesn't allocate.
    pub fn unwind<'f>(
        &mut self,
        modules: &[Module<'_>],
        stack: &Stack<'_>,
        pc: u64,
        registers: &Registers,
        frames: &'f mut [Frame],
    ) -> (&'f [Frame], End) {
        let mut end = cfi_sys::CfiEnd::default();
        // SAFETY: as for a row; a Module and a Frame are the library's structs, whose slices the borrows keep.
        let count = unsafe {
            cfi_sys::cfi_unwind(
                &mut self.0,
                modules.as_ptr().cast(),
                modules.len(),
                &stack.raw(),
                pc,
                registers.values.as_ptr(),
                registers.values.len(),
                frames.as_mut_ptr().cast(),
                frames.len(),
                &mut end,
            )
        };
        (&frames[..count.min(frames.len())], End::of(&end))
    }
}

impl Drop for Context {
    fn drop(&mut self) {
        // SAFETY: the context is the library's, and no one else's.
        unsafe { cfi_sys::cfi_context_free(&mut self.0) }
    }
}
