use std::fmt;

use crate::{Error, Result};

/// How the canonical frame address is computed.
#[derive(Clone, Copy, Debug, PartialEq, Eq, Hash)]
pub enum Cfa {
    /// The value of a register, plus an offset in bytes.
    RegisterAndOffset {
        /// DWARF's number of the register.
        register: u32,
        /// The offset.
        offset: i64,
    },
    /// The value of a DWARF expression.
    Expression {
        /// Where its bytes begin in the section.
        place: u64,
        /// How many there are.
        length: u64,
    },
}

/// Where the caller's value of a register is (DWARF 5 section 6.4.1).
#[derive(Clone, Copy, Debug, PartialEq, Eq, Hash)]
#[non_exhaustive]
pub enum Rule {
    /// It can't be recovered.
    Undefined,
    /// The register has it still.
    SameValue,
    /// Saved at the canonical frame address plus this.
    Offset(i64),
    /// It is the canonical frame address plus this.
    ValOffset(i64),
    /// In another register.
    Register(i64),
    /// Saved at the address that an expression has.
    Expression {
        /// Where its bytes begin in the section.
        place: u64,
        /// How many there are.
        length: u64,
    },
    /// It is the value of an expression.
    ValExpression {
        /// Where its bytes begin in the section.
        place: u64,
        /// How many there are.
        length: u64,
    },
    /// As the machine's ABI says.
    Architectural,
    /// It is a constant: on AArch64 whether the return address is signed.
    Constant(u64),
}

/// The unwind row of an address, with the rules of the registers below `REGISTERS`. 17 is enough for x86-64, whose
/// return address is register 16, and 35 for the general registers of AArch64 and whether its return address is signed.
#[derive(Clone, Copy, Debug, PartialEq, Eq, Hash)]
pub struct Row<const REGISTERS: usize> {
    /// The first address for which the row holds; 0 by a [`crate::Table`].
    pub start: u64,
    /// The first address after it for which it doesn't; 0 by a [`crate::Table`].
    pub end: u64,
    /// How many bytes of arguments were pushed for calls (`DW_CFA_GNU_args_size`).
    pub args_size: u64,
    /// How the canonical frame address is computed.
    pub cfa: Cfa,
    /// The rule of each register by its number, or none.
    pub rules: [Option<Rule>; REGISTERS],
}

impl<const REGISTERS: usize> Row<REGISTERS> {
    /// Returns the rule of a register; none where it has none, or isn't below `REGISTERS`.
    pub fn rule(&self, register: usize) -> Option<Rule> {
        *self.rules.get(register)?
    }
}

/// The answer to a lookup, of what the library has written.
pub(crate) fn answer_of<const REGISTERS: usize>(
    row: &cfi_sys::CfiRow,
    rules: [cfi_sys::CfiRule; REGISTERS],
) -> Result<Row<REGISTERS>> {
    if row.status != cfi_sys::CFI_Ok {
        return Err(Error::new(row.status, row.refused));
    }
    let cfa = match row.cfa_kind {
        0 => Cfa::RegisterAndOffset {
            register: row.cfa_register,
            offset: row.cfa_offset,
        },
        _ => Cfa::Expression {
            place: row.cfa_place,
            length: row.cfa_length,
        },
    };
    let rules = rules.map(rule_of);
    Ok(Row {
        start: row.start,
        end: row.end,
        args_size: row.args_size,
        cfa,
        rules,
    })
}

fn rule_of(rule: cfi_sys::CfiRule) -> Option<Rule> {
    let (place, length) = (rule.place, rule.length);
    Some(match rule.kind {
        0 => return None,
        1 => Rule::Undefined,
        2 => Rule::SameValue,
        3 => Rule::Offset(rule.value),
        4 => Rule::ValOffset(rule.value),
        5 => Rule::Register(rule.value),
        6 => Rule::Expression { place, length },
        7 => Rule::ValExpression { place, length },
        8 => Rule::Architectural,
        _ => Rule::Constant(place),
    })
}

impl<const REGISTERS: usize> fmt::Display for Row<REGISTERS> {
    /// The line that the program `cfi_rows` prints.
    fn fmt(&self, f: &mut fmt::Formatter<'_>) -> fmt::Result {
        write!(
            f,
            "{:#x} {:#x} cfa={} args={}",
            self.start, self.end, self.cfa, self.args_size
        )?;
        for (register, rule) in self.rules.iter().enumerate() {
            if let Some(rule) = rule {
                write!(f, " r{register}={rule}")?;
            }
        }
        Ok(())
    }
}

impl fmt::Display for Cfa {
    fn fmt(&self, f: &mut fmt::Formatter<'_>) -> fmt::Result {
        match self {
            Cfa::RegisterAndOffset { register, offset } => write!(f, "r{register}{offset:+}"),
            Cfa::Expression { place, length } => write!(f, "expr@{place}:{length}"),
        }
    }
}

impl fmt::Display for Rule {
    fn fmt(&self, f: &mut fmt::Formatter<'_>) -> fmt::Result {
        match self {
            Rule::Undefined => write!(f, "undefined"),
            Rule::SameValue => write!(f, "same"),
            Rule::Offset(offset) => write!(f, "offset({offset})"),
            Rule::ValOffset(offset) => write!(f, "val_offset({offset})"),
            Rule::Register(register) => write!(f, "r{register}"),
            Rule::Expression { place, length } => write!(f, "expr@{place}:{length}"),
            Rule::ValExpression { place, length } => write!(f, "val_expr@{place}:{length}"),
            Rule::Architectural => write!(f, "architectural"),
            Rule::Constant(value) => write!(f, "constant({value})"),
        }
    }
}
