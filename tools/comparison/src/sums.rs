//! Counts and checksums of whole passes, by the steps of crates/cfi_answers/src/sums.rt.
use crate::answer::{Answer, Cfa, Row, Rule};

/// How many values a pass met, and their checksum.
#[derive(Clone, Copy, Debug, Default, PartialEq)]
pub struct Done {
    pub count: u64,
    pub sum: u64,
}

impl Done {
    /// What a pass returns that fails as a whole.
    pub const FAILED: Done = Done {
        count: u64::MAX,
        sum: 0,
    };

    pub fn take(&mut self, number: u64) {
        self.count = self.count.wrapping_add(1);
        self.sum = mix(self.sum, number);
    }

    /// Takes all that the row of an address says but its addresses. An error counts as the
    /// complement of the address.
    pub fn take_parts(&mut self, address: u64, row: &Answer) {
        self.take(row.as_ref().map_or(!address, parts_sum));
    }

    /// Takes a row of a walk, with all its rules. An error counts as `u64::MAX`.
    pub fn take_row(&mut self, row: &Answer) {
        self.take(row.as_ref().map_or(u64::MAX, rules_sum));
    }
}

fn mix(sum: u64, number: u64) -> u64 {
    sum.rotate_left(5) ^ number
}

/// The rules' sums are added, so that their order doesn't matter.
fn rules_sum(row: &Row) -> u64 {
    add_rules(mix(row_sum(row), row.args_size), row)
}

/// Of all but the addresses.
fn parts_sum(row: &Row) -> u64 {
    add_rules(mix(cfa_sum(&row.cfa), row.args_size), row)
}

fn add_rules(sum: u64, row: &Row) -> u64 {
    row.rules.iter().fold(sum, |sum, (register, rule)| {
        sum.wrapping_add(rule_sum(*register, rule))
    })
}

/// Of the addresses and the CFA alone.
fn row_sum(row: &Row) -> u64 {
    mix(mix(row.start, row.end), cfa_sum(&row.cfa))
}

fn cfa_sum(cfa: &Cfa) -> u64 {
    match cfa {
        Cfa::RegisterAndOffset(register, offset) => {
            u64::from(*register) ^ offset.cast_unsigned()
        }
        Cfa::Expression(place, length) => place ^ length.rotate_left(32),
    }
}

fn rule_sum(register: u16, rule: &Rule) -> u64 {
    let (kind, value) = match *rule {
        Rule::Undefined => (1, 0),
        Rule::SameValue => (2, 0),
        Rule::Offset(offset) => (3, offset.cast_unsigned()),
        Rule::ValOffset(offset) => (4, offset.cast_unsigned()),
        Rule::Register(other) => (5, other.cast_unsigned()),
        Rule::Expression(place, length) => (6, mix(place, length)),
        Rule::ValExpression(place, length) => (7, mix(place, length)),
        Rule::Architectural => (8, 0),
        Rule::Constant(value) => (9, value),
        Rule::Unknown(kind) => (kind, 0),
    };
    mix(mix(u64::from(register), kind), value).wrapping_mul(0x9e37_79b9_7f4a_7c15)
}
