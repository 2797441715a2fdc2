//! What both libraries return, in one form, so that it can be compared and printed.
use std::fmt::{self, Display, Formatter};

/// An FDE of a section.
#[derive(Clone, Copy)]
pub struct Fde {
    pub offset: usize,
    pub cie_offset: usize,
    pub start: u64,
    pub length: u64,
    pub end: u64,
}

/// What the iteration over a section's entries meets.
#[derive(Default)]
pub struct Entries {
    /// The offset of each entry.
    pub offsets: Vec<u64>,
    pub fdes: Vec<Result<Fde, Error>>,
    /// The error that ends the iteration.
    pub error: Option<Error>,
}

/// How the canonical frame address is found.
#[derive(Clone, Debug, PartialEq)]
pub enum Cfa {
    RegisterAndOffset(u32, i64),
    /// Place and length of the expression in the section.
    Expression(u64, u64),
}

/// Where the caller's value of a register is.
#[derive(Clone, Debug, PartialEq)]
pub enum Rule {
    Undefined,
    SameValue,
    Offset(i64),
    ValOffset(i64),
    Register(i64),
    /// Place and length of the expression in the section.
    Expression(u64, u64),
    ValExpression(u64, u64),
    Architectural,
    Constant(u64),
    /// A number that is not a kind of rule.
    Unknown(u64),
}

/// A row, with its rules by rising register.
#[derive(Clone, Debug, PartialEq)]
pub struct Row {
    pub start: u64,
    pub end: u64,
    pub args_size: u64,
    pub cfa: Cfa,
    pub rules: Vec<(u16, Rule)>,
}

impl Row {
    /// Removes the rules of registers from `registers` on.
    pub fn truncate(&mut self, registers: usize) {
        self.rules
            .retain(|(register, _)| usize::from(*register) < registers);
    }
}

/// An error by its number in `cfi_c.h`, with the value that it carries, or 0.
#[derive(Clone, Copy, Debug, PartialEq)]
pub struct Error {
    pub status: i32,
    pub value: u64,
}

impl Error {
    pub const UNEXPECTED_EOF: i32 = 1;
    pub const UNSUPPORTED_OFFSET: i32 = 6;
    pub const UNKNOWN_AUGMENTATION: i32 = 11;
    pub const OFFSET_OUT_OF_BOUNDS: i32 = 23;
    pub const UNKNOWN_INSTRUCTION: i32 = 24;

    pub fn new(status: i32, value: u64) -> Error {
        Error { status, value }
    }

    /// Whether gimli has this error where gimli_cfi may read on by an extension.
    pub fn is_avoided_by_extension(&self) -> bool {
        *self == Error::new(Error::UNKNOWN_AUGMENTATION, 0)
            || *self == Error::new(Error::UNKNOWN_INSTRUCTION, 0x2f)
    }
}

/// The row of an address, or the error.
pub type Answer = Result<Row, Error>;

/// The answer without the rules of registers from `registers` on.
pub fn truncated(answer: &Answer, registers: usize) -> Answer {
    let mut answer = answer.clone();
    if let Ok(row) = &mut answer {
        row.truncate(registers);
    }
    answer
}

/// The answer as a line of text.
pub fn text(answer: &Answer) -> String {
    match answer {
        Ok(row) => row.to_string(),
        Err(error) => error.to_string(),
    }
}

impl Display for Error {
    fn fmt(&self, f: &mut Formatter<'_>) -> fmt::Result {
        let name = crate::c_library::status_name(self.status);
        write!(f, "error {} {name} ({:#x})", self.status, self.value)
    }
}

impl Display for Row {
    /// The line of the program cfi_rows.
    fn fmt(&self, f: &mut Formatter<'_>) -> fmt::Result {
        write!(
            f,
            "{:#x} {:#x} cfa={} args={}",
            self.start, self.end, self.cfa, self.args_size
        )?;
        for (register, rule) in &self.rules {
            write!(f, " r{register}={rule}")?;
        }
        Ok(())
    }
}

impl Display for Cfa {
    fn fmt(&self, f: &mut Formatter<'_>) -> fmt::Result {
        match self {
            Cfa::RegisterAndOffset(register, offset) => write!(f, "r{register}{offset:+}"),
            Cfa::Expression(place, length) => write!(f, "expr@{place}:{length}"),
        }
    }
}

impl Display for Rule {
    fn fmt(&self, f: &mut Formatter<'_>) -> fmt::Result {
        match self {
            Rule::Undefined => write!(f, "undefined"),
            Rule::SameValue => write!(f, "same"),
            Rule::Offset(offset) => write!(f, "offset({offset})"),
            Rule::ValOffset(offset) => write!(f, "val_offset({offset})"),
            Rule::Register(register) => write!(f, "r{register}"),
            Rule::Expression(place, length) => write!(f, "expr@{place}:{length}"),
            Rule::ValExpression(place, length) => write!(f, "val_expr@{place}:{length}"),
            Rule::Architectural => write!(f, "architectural"),
            Rule::Constant(value) => write!(f, "constant({value})"),
            Rule::Unknown(kind) => write!(f, "unknown({kind})"),
        }
    }
}
