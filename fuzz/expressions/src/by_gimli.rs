//! What gimli returns, for what call frames may have (DWARF 5 section 6.4.2).
use crate::{Outcome, Question};
use gimli::{
    Encoding, EndianSlice, Error, Evaluation, EvaluationResult, EvaluationStorage, Format,
    Location, Piece, RunTimeEndian, Value,
};

type Reader<'a> = EndianSlice<'a, RunTimeEndian>;

/// A stack of 32 entries, as gimli_cfi has it.
struct Room;

impl<'a> EvaluationStorage<Reader<'a>> for Room {
    type Stack = [Value; 32];
    type ExpressionStack = [(Reader<'a>, Reader<'a>); 0];
    type Result = [Piece<Reader<'a>>; 1];
}

/// Opcodes that mean nothing in call frames, or whose operands are types, entries or addresses of
/// other sections, or that name a place and have no value.
fn is_left_out(opcode: u8) -> bool {
    // xderef, reg0 to reg31, regx, fbreg, piece, xderef_size, push_object_address to bit_piece
    // without nop, implicit_value and stack_value, implicit_pointer to reinterpret, and vendors'
    matches!(opcode, 0x18 | 0x50..=0x6f | 0x90 | 0x91 | 0x93 | 0x95 | 0x97..)
}

pub fn outcome(question: &Question) -> Outcome {
    let endian = if question.big_endian {
        RunTimeEndian::Big
    } else {
        RunTimeEndian::Little
    };
    let encoding = Encoding {
        format: Format::Dwarf32,
        version: 5,
        address_size: question.address_size,
    };
    let bytes = EndianSlice::new(&question.expression, endian);
    let mut evaluation = Evaluation::<_, Room>::new_in(bytes, encoding);
    if let Some(initial) = question.initial {
        evaluation.set_initial_value(initial);
    }
    evaluation.set_max_iterations(question.max_iterations);
    let mut step = evaluation.evaluate();
    loop {
        step = match step {
            Ok(EvaluationResult::Complete) => return value_of(&evaluation),
            Ok(EvaluationResult::RequiresMemory { address, size, .. }) => {
                match number_at(question, address, size) {
                    Ok(number) => evaluation.resume_with_memory(Value::Generic(number)),
                    Err(outcome) => return outcome,
                }
            }
            Ok(EvaluationResult::RequiresRegister { register, .. }) => {
                match register_of(question, register.0) {
                    Some(value) => evaluation.resume_with_register(Value::Generic(value)),
                    None => return Outcome::UnknownRegister(register.0),
                }
            }
            Ok(EvaluationResult::RequiresRelocatedAddress(address)) => {
                evaluation.resume_with_relocated_address(address)
            }
            Ok(other) => panic!("an operation that is left out: {other:?}"),
            Err(error) => return outcome_of(error),
        };
    }
}

fn value_of(evaluation: &Evaluation<Reader<'_>, Room>) -> Outcome {
    match evaluation.as_result() {
        [
            Piece {
                location: Location::Address { address },
                ..
            },
        ] => Outcome::Value(*address),
        other => panic!("a place that is no value: {other:?}"),
    }
}

fn register_of(question: &Question, register: u16) -> Option<u64> {
    let known = register < 64 && question.known >> register & 1 == 1;
    question
        .registers
        .get(usize::from(register))
        .copied()
        .filter(|_| known)
}

/// The number at an address, of the sizes that memory has.
fn number_at(question: &Question, address: u64, size: u8) -> Result<u64, Outcome> {
    if !matches!(size, 1 | 2 | 4 | 8) || size > question.address_size {
        return Err(Outcome::UnsupportedSize(size));
    }
    let behind = address
        .checked_sub(question.base)
        .and_then(|n| usize::try_from(n).ok());
    let bytes = behind.and_then(|n| question.memory.get(n..n.checked_add(size.into())?));
    let bytes = bytes.ok_or(Outcome::UnreadableMemory(address))?;
    let add = |number, byte: &u8| number << 8 | u64::from(*byte);
    Ok(if question.big_endian {
        bytes.iter().fold(0, add)
    } else {
        bytes.iter().rev().fold(0, add)
    })
}

fn outcome_of(error: Error) -> Outcome {
    match error {
        Error::UnexpectedEof(_) => Outcome::Unreadable(1),
        Error::BadUnsignedLeb128 => Outcome::Unreadable(2),
        Error::BadSignedLeb128 => Outcome::Unreadable(3),
        Error::UnsupportedRegister(_) => Outcome::Unreadable(7),
        Error::InvalidExpression(opcode) => Outcome::Unsupported(opcode.0),
        Error::NotEnoughStackItems => Outcome::NotEnoughStackItems,
        Error::StackFull => Outcome::StackFull,
        Error::DivisionByZero => Outcome::DivisionByZero,
        Error::BadBranchTarget(_) => Outcome::BadBranchTarget,
        Error::TooManyIterations => Outcome::TooManyIterations,
        other => panic!("an error that no operation here has: {other:?}"),
    }
}

/// Whether an operation would be met that is left out: the one that gimli_cfi refuses.
pub fn leaves_out(outcome: Outcome) -> bool {
    matches!(outcome, Outcome::Unsupported(opcode) if is_left_out(opcode))
}
