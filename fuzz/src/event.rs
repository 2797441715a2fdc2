//! Answers one after the other, in one form for both libraries.
use comparison::answer::{Error, Row};

/// A direct or an indirect pointer.
#[derive(Clone, Copy, Debug, PartialEq)]
pub struct Target {
    pub indirect: bool,
    pub value: u64,
}

#[derive(Clone, Copy, Debug, PartialEq)]
pub struct Cie {
    pub offset: u64,
    pub length: u64,
    /// Whether it is in the 64-bit format.
    pub wide: bool,
    pub version: u64,
    pub address_size: u64,
    pub code_alignment_factor: u64,
    pub data_alignment_factor: i64,
    pub return_address_register: u64,
    pub lsda_encoding: Option<u8>,
    pub address_encoding: Option<u8>,
    pub personality: Option<(u8, Target)>,
    pub is_signal_trampoline: bool,
    pub has_lsda: bool,
}

#[derive(Clone, Copy, Debug, PartialEq)]
pub struct Fde {
    pub offset: u64,
    pub length: u64,
    pub cie: u64,
    pub start: u64,
    pub addresses: u64,
    pub end: u64,
    pub lsda: Option<Target>,
    pub personality: Option<Target>,
    pub is_signal_trampoline: bool,
}

/// Why a table isn't faithful: `Unfaithful` of gimli_cfi.
#[derive(Clone, Copy, Debug, PartialEq)]
pub enum Reason {
    Header(Error),
    Row { row: u64, error: Error },
    Order { row: u64, before: u64, start: u64 },
    Entry { offset: u64, error: Error },
    Fde { offset: u64, error: Error },
    NoRow { offset: u64, address: u64 },
    Overlap { offset: u64, end: u64, next: u64 },
    Count { rows: u64, fdes: u64 },
}

#[derive(Clone, Debug, PartialEq)]
pub enum Event {
    Cie(Cie),
    /// Offset and length of an FDE, before it is read whole.
    Partial(u64, u64),
    Fde(Fde),
    Error(Error),
    /// No more.
    End,
    Row(Row),
    /// The pointer to `.eh_frame`, and whether there is a table.
    Header(Target, bool),
    Pointer(Target),
    Number(u64),
    Unfaithful(Reason),
}

impl Event {
    /// The number of `OutOfMemory`, which gimli doesn't have.
    pub const OUT_OF_MEMORY: i32 = 31;

    pub fn is_out_of_memory(&self) -> bool {
        *self == Event::Error(Error::new(Event::OUT_OF_MEMORY, 0))
    }
}
