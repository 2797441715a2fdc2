//! Expressions and frames that follow from a number.
use crate::Question;

/// What an operation has behind its opcode.
#[derive(Clone, Copy)]
enum Operand {
    None,
    Bytes(usize),
    Address,
    Unsigned,
    Signed,
    /// A register and a signed number.
    Register,
    /// A jump.
    Near,
}

/// Opcodes, up to and with the second, what is behind them, and how many entries they take and
/// leave.
const OPERATIONS: [(u8, u8, Operand, usize, usize); 26] = [
    (0x03, 0x03, Operand::Address, 0, 1),
    (0x06, 0x06, Operand::None, 1, 1),
    (0x08, 0x09, Operand::Bytes(1), 0, 1),
    (0x0a, 0x0b, Operand::Bytes(2), 0, 1),
    (0x0c, 0x0d, Operand::Bytes(4), 0, 1),
    (0x0e, 0x0f, Operand::Bytes(8), 0, 1),
    (0x10, 0x10, Operand::Unsigned, 0, 1),
    (0x11, 0x11, Operand::Signed, 0, 1),
    (0x12, 0x12, Operand::None, 1, 2),
    (0x13, 0x13, Operand::None, 1, 0),
    (0x14, 0x14, Operand::None, 2, 3),
    (0x15, 0x15, Operand::Bytes(1), 1, 2),
    (0x16, 0x16, Operand::None, 2, 2),
    (0x17, 0x17, Operand::None, 3, 3),
    (0x19, 0x19, Operand::None, 1, 1),
    (0x1a, 0x1e, Operand::None, 2, 1),
    (0x1f, 0x20, Operand::None, 1, 1),
    (0x21, 0x22, Operand::None, 2, 1),
    (0x23, 0x23, Operand::Unsigned, 1, 1),
    (0x24, 0x27, Operand::None, 2, 1),
    (0x28, 0x28, Operand::Near, 1, 0),
    (0x29, 0x2e, Operand::None, 2, 1),
    (0x2f, 0x2f, Operand::Near, 0, 0),
    (0x30, 0x4f, Operand::None, 0, 1),
    (0x70, 0x8f, Operand::Signed, 0, 1),
    (0x92, 0x92, Operand::Register, 0, 1),
];

const NUMBERS: [u64; 14] = [
    0,
    1,
    2,
    7,
    8,
    0x7f,
    0x80,
    0xff,
    0x7fff,
    0x8000,
    0x7fff_ffff,
    0x8000_0000,
    1 << 63,
    u64::MAX,
];

struct Random(u64);

impl Random {
    fn next(&mut self) -> u64 {
        self.0 = self.0.wrapping_add(0x9e37_79b9_7f4a_7c15);
        let mixed = (self.0 ^ self.0 >> 30).wrapping_mul(0xbf58_476d_1ce4_e5b9);
        let mixed = (mixed ^ mixed >> 27).wrapping_mul(0x94d0_49bb_1331_11eb);
        mixed ^ mixed >> 31
    }

    fn below(&mut self, end: usize) -> usize {
        (self.next() % end as u64) as usize
    }

    /// A number that matters, or one near it, or any.
    fn number(&mut self, base: u64) -> u64 {
        match self.below(5) {
            0 => base.wrapping_add(self.below(72) as u64).wrapping_sub(4),
            1 => self.next(),
            2 => self.below(40) as u64,
            _ => NUMBERS[self.below(NUMBERS.len())]
                .wrapping_add(self.below(3) as u64)
                .wrapping_sub(1),
        }
    }
}

pub fn question(number: u64) -> Question {
    let mut random = Random(number.wrapping_mul(0xd134_2543_de82_ef95));
    let address_size = [1, 2, 4, 8, 8, 8][random.below(6)];
    let mask = u64::MAX >> (64 - 8 * u32::from(address_size));
    let base = [0x10, 0x40, 0x1000, 0x7fff_ffff_e000, u64::MAX - 32][random.below(5)] & mask;
    let mut question = Question {
        expression: Vec::new(),
        registers: (0..33).map(|_| random.number(base) & mask).collect(),
        known: random.next() | random.next(),
        base,
        memory: (0..random.below(96)).map(|_| random.next() as u8).collect(),
        initial: [None, Some(random.number(base) & mask)][random.below(2)],
        max_iterations: [3, 20, 1000][random.below(3)],
        address_size,
        big_endian: random.below(2) == 0,
    };
    put_operations(&mut question, &mut random);
    question
}

/// Operations for which the stack is mostly high enough, and then a few changes.
fn put_operations(question: &mut Question, random: &mut Random) {
    let mut height = usize::from(question.initial.is_some());
    for _ in 0..random.below(24) {
        let (first, last, operand, takes, leaves) = OPERATIONS[random.below(OPERATIONS.len())];
        if takes > height && random.below(20) != 0 {
            question.expression.push(0x30 + random.below(32) as u8);
            height += 1;
            continue;
        }
        height = height.saturating_sub(takes) + leaves;
        question
            .expression
            .push(first + random.below(usize::from(last - first) + 1) as u8);
        put_operand(question, random, operand);
    }
    let bytes = &mut question.expression;
    if random.below(8) == 0 && !bytes.is_empty() {
        let place = random.below(bytes.len());
        bytes[place] = random.next() as u8;
    }
    if random.below(16) == 0 {
        bytes.truncate(random.below(bytes.len() + 1));
    }
}

fn put_operand(question: &mut Question, random: &mut Random, operand: Operand) {
    let number = random.number(question.base);
    match operand {
        Operand::None => {}
        Operand::Bytes(size) => put_fixed(question, number, size),
        Operand::Address => put_fixed(question, number, question.address_size.into()),
        Operand::Unsigned => put_leb128(&mut question.expression, number, false),
        Operand::Signed => put_leb128(&mut question.expression, number, true),
        Operand::Register => {
            let register = [random.below(40) as u64, random.below(70_000) as u64][random.below(2)];
            put_leb128(&mut question.expression, register, false);
            put_leb128(&mut question.expression, number, true);
        }
        Operand::Near => {
            let distance = random.below(48) as i64 - 24;
            put_fixed(question, distance as u64, 2);
        }
    }
}

fn put_fixed(question: &mut Question, number: u64, size: usize) {
    let bytes = number.to_be_bytes();
    if question.big_endian {
        question.expression.extend(&bytes[8 - size..]);
    } else {
        question.expression.extend(bytes.iter().rev().take(size));
    }
}

/// A LEB128 number, of the shortest form.
fn put_leb128(bytes: &mut Vec<u8>, number: u64, is_signed: bool) {
    let mut left = number as i64;
    loop {
        let byte = (left & 0x7f) as u8;
        left = if is_signed {
            left >> 7
        } else {
            (left as u64 >> 7) as i64
        };
        let sign = is_signed && byte & 0x40 != 0;
        if left == if sign { -1 } else { 0 } {
            bytes.push(byte);
            return;
        }
        bytes.push(byte | 0x80);
    }
}
