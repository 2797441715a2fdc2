//! Checksums of gimli's answers, by the steps of crates/cfi_answers/src/sums.rt.
use gimli::{CfaRule, Register, RegisterRule, StoreOnHeap, UnwindTableRow};
use std::fmt;

/// What a pass did: how many answers there were, and their checksum.
#[derive(Clone, Copy, Debug, Default, PartialEq, Eq)]
pub struct Done {
    pub count: u64,
    pub sum: u64,
}

impl Done {
    pub fn take(&mut self, number: u64) {
        self.count = self.count.wrapping_add(1);
        self.sum = mix(self.sum, number);
    }
}

impl fmt::Display for Done {
    fn fmt(&self, f: &mut fmt::Formatter<'_>) -> fmt::Result {
        write!(f, "{} {:#x}", self.count, self.sum)
    }
}

/// What stands for a refused row in the checksum of a walk.
pub const REFUSED: u64 = u64::MAX;

fn mix(sum: u64, number: u64) -> u64 {
    sum.rotate_left(5) ^ number
}

/// Addresses and CFA of a row.
pub fn row_sum(row: &UnwindTableRow<usize, StoreOnHeap>) -> u64 {
    mix(mix(row.start_address(), row.end_address()), cfa_sum(row.cfa()))
}

/// The CFA alone.
pub fn cfa_sum(cfa: &CfaRule<usize>) -> u64 {
    match cfa {
        CfaRule::RegisterAndOffset { register, offset } => u64::from(register.0) ^ offset.cast_unsigned(),
        CfaRule::Expression(e) => e.offset as u64 ^ (e.length as u64).rotate_left(32),
    }
}

/// A row with every rule. The order in which registers are walked is open, so their numbers are added.
pub fn rules_sum(row: &UnwindTableRow<usize, StoreOnHeap>) -> u64 {
    let mut sum = mix(row_sum(row), row.saved_args_size());
    for (register, rule) in row.registers() {
        sum = sum.wrapping_add(rule_sum(*register, rule));
    }
    sum
}

fn rule_sum(register: Register, rule: &RegisterRule<usize>) -> u64 {
    let (kind, value) = match *rule {
        RegisterRule::Undefined => (1, 0),
        RegisterRule::SameValue => (2, 0),
        RegisterRule::Offset(offset) => (3, offset.cast_unsigned()),
        RegisterRule::ValOffset(offset) => (4, offset.cast_unsigned()),
        RegisterRule::Register(other) => (5, u64::from(other.0)),
        RegisterRule::Expression(e) => (6, mix(e.offset as u64, e.length as u64)),
        RegisterRule::ValExpression(e) => (7, mix(e.offset as u64, e.length as u64)),
        RegisterRule::Architectural => (8, 0),
        RegisterRule::Constant(value) => (9, value),
    };
    mix(mix(u64::from(register.0), kind), value).wrapping_mul(0x9e37_79b9_7f4a_7c15)
}
