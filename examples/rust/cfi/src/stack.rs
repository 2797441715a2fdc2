use std::fmt;
use std::marker::PhantomData;
use std::ops::Range;

use crate::{Error, Section};

/// A loaded module: the addresses of its code, and its `.eh_frame`, with a header or without, or its `.debug_frame`.
#[derive(Clone, Copy, Debug)]
#[repr(transparent)]
pub struct Module<'a>(cfi_sys::CfiModule, PhantomData<&'a [u8]>);

impl<'a> Module<'a> {
    /// Returns the module with this code and section, with addresses as they are loaded. Without a header its rows are
    /// found by a scan, which takes far longer.
    pub fn new(code: Range<u64>, section: Section<'a>) -> Module<'a> {
        let (eh_frame, header) = (section.bytes, section.header);
        let module = cfi_sys::CfiModule {
            start: code.start,
            end: code.end,
            eh_frame: eh_frame.as_ptr(),
            eh_frame_len: eh_frame.len(),
            header: header.as_ptr(),
            header_len: header.len(),
            bases: section.bases,
        };
        Module(module, PhantomData)
    }

    /// Returns the addresses of its code.
    pub fn code(&self) -> Range<u64> {
        self.0.start..self.0.end
    }
}

/// The registers of the innermost frame, by DWARF's numbers. There are 256; those that aren't set aren't known.
#[derive(Clone, Debug)]
pub struct Registers {
    pub(crate) values: [cfi_sys::CfiValue; 256],
}

impl Registers {
    /// Returns registers none of which is known.
    pub fn new() -> Registers {
        Registers {
            values: [cfi_sys::CfiValue::default(); 256],
        }
    }

    /// Sets the value of a register; without effect from 256 on, which aren't read.
    pub fn set(&mut self, register: usize, value: u64) -> &mut Registers {
        if let Some(known) = self.values.get_mut(register) {
            *known = cfi_sys::CfiValue { value, known: true };
        }
        self
    }
}

impl Default for Registers {
    fn default() -> Registers {
        Registers::new()
    }
}

/// The bytes that are there of a stack, or a copy of them, and what the ABI says.
#[derive(Clone, Copy, Debug)]
pub struct Stack<'a> {
    /// The address of the first byte.
    pub base: u64,
    /// The bytes from there on.
    pub bytes: &'a [u8],
    /// The bits of a return address that hold its signature (AArch64); 0 if none is signed.
    pub signature_mask: u64,
    /// How many operations an expression may do.
    pub max_iterations: u32,
    /// DWARF's number of the stack pointer.
    pub stack_pointer: u16,
    /// Whether the stack's numbers are big-endian.
    pub big_endian: bool,
    /// How many bytes an address has: 1, 2, 4 or 8.
    pub address_size: u8,
}

impl<'a> Stack<'a> {
    /// Returns a stack of the machine that this is compiled for, x86-64 or AArch64.
    pub fn new(base: u64, bytes: &'a [u8]) -> Stack<'a> {
        let stack_pointer = if cfg!(target_arch = "aarch64") { 31 } else { 7 };
        Stack {
            base,
            bytes,
            signature_mask: 0,
            max_iterations: 1000,
            stack_pointer,
            big_endian: false,
            address_size: 8,
        }
    }

    pub(crate) fn raw(&self) -> cfi_sys::CfiStack {
        cfi_sys::CfiStack {
            base: self.base,
            bytes: self.bytes.as_ptr(),
            len: self.bytes.len(),
            signature_mask: self.signature_mask,
            max_iterations: self.max_iterations,
            stack_pointer: self.stack_pointer,
            big_endian: self.big_endian,
            address_size: self.address_size,
        }
    }
}

/// A frame of a stack. [`Frame::default`] is room for one.
#[derive(Clone, Copy, Default)]
#[repr(transparent)]
pub struct Frame(cfi_sys::CfiFrame);

impl Frame {
    /// Returns where the frame goes on, or was interrupted.
    pub fn pc(&self) -> u64 {
        self.0.pc
    }

    /// Returns the canonical frame address; none where the walk ends here without it.
    pub fn cfa(&self) -> Option<u64> {
        self.0.has_cfa.then_some(self.0.cfa)
    }

    /// Returns whether it was interrupted, as the innermost frame is, and one that a signal interrupted. Else
    /// [`Frame::pc`] is a return address, and that of the call is less 1.
    pub fn is_interrupted(&self) -> bool {
        self.0.is_interrupted
    }
}

impl fmt::Debug for Frame {
    fn fmt(&self, f: &mut fmt::Formatter<'_>) -> fmt::Result {
        let (pc, cfa, is_interrupted) = (self.pc(), self.cfa(), self.is_interrupted());
        write!(
            f,
            "Frame {{ pc: {pc:#x}, cfa: {cfa:x?}, is_interrupted: {is_interrupted} }}"
        )
    }
}

impl PartialEq for Frame {
    fn eq(&self, other: &Frame) -> bool {
        (self.pc(), self.cfa(), self.is_interrupted()) == (other.pc(), other.cfa(), other.is_interrupted())
    }
}

impl Eq for Frame {}

/// Why a stack has no more frames. From `NoRow` on the last frame has no caller that can be found.
#[derive(Clone, Copy, Debug, PartialEq, Eq, Hash)]
#[non_exhaustive]
pub enum End {
    /// The last frame is the outermost one: its return address is undefined.
    Outermost,
    /// Its pc is in the code of no module.
    NoModule,
    /// Its canonical frame address isn't above that of the frame it called: a corrupt stack.
    NotRising,
    /// There is no room for another frame.
    NoRoom,
    /// Its pc has no row.
    NoRow(Error),
    /// The bytes of an expression can't be read.
    Unreadable(Error),
    /// An expression has an operation, with this opcode, that isn't one of call frames.
    UnsupportedOperation(u64),
    /// An expression reads so many bytes.
    UnsupportedSize(u64),
    /// The value of this register isn't known.
    UnknownRegister(u64),
    /// This address is outside of the stack's bytes.
    UnreadableMemory(u64),
    /// An operation needs more items than the stack of the expression has.
    NotEnoughItems,
    /// An expression has more than 32 items.
    ItemsFull,
    /// An expression divides by zero.
    DivisionByZero,
    /// An expression branches to outside of itself, by this distance modulo 65536.
    BadBranchTarget(u64),
    /// An expression does more operations than it may.
    TooManyIterations,
    /// A register has the rule of the machine's ABI.
    ArchitecturalRule,
    /// Nothing was walked, since the address size is none.
    NotWalked(Error),
    /// A reason that this version doesn't know.
    Unknown(u32),
}

impl End {
    pub(crate) fn of(end: &cfi_sys::CfiEnd) -> End {
        let error = Error::new(end.status, end.refused);
        match end.kind {
            0 => End::Outermost,
            1 => End::NoModule,
            2 => End::NotRising,
            3 => End::NoRoom,
            4 => End::NoRow(error),
            5 => End::Unreadable(error),
            6 => End::UnsupportedOperation(end.refused),
            7 => End::UnsupportedSize(end.refused),
            8 => End::UnknownRegister(end.refused),
            9 => End::UnreadableMemory(end.refused),
            10 => End::NotEnoughItems,
            11 => End::ItemsFull,
            12 => End::DivisionByZero,
            13 => End::BadBranchTarget(end.refused),
            14 => End::TooManyIterations,
            15 => End::ArchitecturalRule,
            16 => End::NotWalked(error),
            kind => End::Unknown(kind),
        }
    }
}
