//! What gimli_cfi returns, by the static library of crates/cfi_beside_gimli.
use crate::{Outcome, Question};

#[repr(C)]
struct RawAsked {
    initial: u64,
    known: u64,
    base: u64,
    max_iterations: u32,
    address_size: u8,
    has_initial: bool,
    big_endian: bool,
}

unsafe extern "C" {
    fn cfi_answers_expression(
        asked: *const RawAsked,
        expression: *const u8,
        expression_len: usize,
        registers: *const u64,
        registers_len: usize,
        memory: *const u8,
        memory_len: usize,
        room: *mut u64,
        room_len: usize,
    ) -> usize;
}

pub fn outcome(question: &Question) -> Outcome {
    let asked = RawAsked {
        initial: question.initial.unwrap_or_default(),
        known: question.known,
        base: question.base,
        max_iterations: question.max_iterations,
        address_size: question.address_size,
        has_initial: question.initial.is_some(),
        big_endian: question.big_endian,
    };
    let mut room = [0; 8];
    // Each slice is passed with its length, and the struct is laid out as the library's.
    let count = unsafe {
        cfi_answers_expression(
            &asked,
            question.expression.as_ptr(),
            question.expression.len(),
            question.registers.as_ptr(),
            question.registers.len(),
            question.memory.as_ptr(),
            question.memory.len(),
            room.as_mut_ptr(),
            room.len(),
        )
    };
    match room[..count] {
        [10, value] => Outcome::Value(value),
        [12, 2, 0, 4, error, _] => Outcome::Unreadable(error),
        [12, 3, opcode] => Outcome::Unsupported(opcode as u8),
        [12, 4, size] => Outcome::UnsupportedSize(size as u8),
        [12, 5, register] => Outcome::UnknownRegister(register as u16),
        [12, 6, address] => Outcome::UnreadableMemory(address),
        [12, 7, 0] => Outcome::NotEnoughStackItems,
        [12, 8, 0] => Outcome::StackFull,
        [12, 9, 0] => Outcome::DivisionByZero,
        [12, 10, _] => Outcome::BadBranchTarget,
        [12, 11, 0] => Outcome::TooManyIterations,
        ref other => panic!("numbers that are no answer: {other:?}"),
    }
}
