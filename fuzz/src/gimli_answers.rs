// What gimli returns where the fuzz target asks crates/cfi_beside_gimli. The fuzz target includes this file
// twice, like tools/comparison/src/gimli_side.rs.
use self::gimli_side::{
    Slice, bases, debug_frame, eh_frame, end_of_table, error_of, has_product, parse_header, row_of,
    row_size,
};
use crate::event::{Cie, Event, Fde, Target};
use crate::our_answers::Storage;
use comparison::answer::Error;
use comparison::departure::{Departure, Expected};
use comparison::question::Question;
use gimli::{
    BaseAddresses, CieOrFde, CommonInformationEntry, EhHdrTable, EhHdrTableIter,
    FrameDescriptionEntry, Pointer, Register, RegisterRule, StoreOnHeap, UnwindContext,
    UnwindContextStorage, UnwindSection, UnwindTableRow,
};

/// The storage without limits.
struct Growing;

impl UnwindContextStorage<usize> for Growing {
    type Rules = Vec<(Register, RegisterRule<usize>)>;
    type Stack = Vec<UnwindTableRow<usize, Self>>;
}

/// Room for three rules in a row and for two rows, as in crates/cfi_beside_gimli.
struct Small;

impl UnwindContextStorage<usize> for Small {
    type Rules = [(Register, RegisterRule<usize>); 3];
    type Stack = [UnwindTableRow<usize, Self>; 2];
}

/// The contexts of each storage, which are used for all inputs.
pub struct Contexts {
    heap: UnwindContext<usize, StoreOnHeap>,
    growing: UnwindContext<usize, Growing>,
    small: UnwindContext<usize, Small>,
}

impl Contexts {
    pub fn new() -> Contexts {
        Contexts {
            heap: UnwindContext::new_in(),
            growing: UnwindContext::new_in(),
            small: UnwindContext::new_in(),
        }
    }
}

/// All entries, each FDE with its CIE.
pub fn entries(question: &Question) -> Vec<Event> {
    if question.settings.debug_frame {
        entries_in(question, &debug_frame(question))
    } else {
        entries_in(question, &eh_frame(question))
    }
}

fn entries_in<'a, S: UnwindSection<Slice<'a>>>(question: &Question<'a>, section: &S) -> Vec<Event> {
    let (bases, mut events) = (bases(question), Vec::new());
    let mut entries = section.entries(&bases);
    loop {
        match entries.next() {
            Ok(None) => break,
            Ok(Some(CieOrFde::Cie(cie))) => events.push(Event::Cie(cie_of(&cie))),
            Ok(Some(CieOrFde::Fde(partial))) => {
                let (offset, length) = (partial.offset(), partial.entry_len());
                events.push(Event::Partial(offset as u64, length as u64));
                events.push(match partial.parse(S::cie_from_offset) {
                    Ok(fde) => Event::Fde(fde_of(&fde)),
                    Err(error) => Event::Error(error_of(question, error)),
                });
            }
            Err(error) => events.push(Event::Error(error_of(question, error))),
        }
    }
    events.push(Event::End);
    events
}

/// Each FDE with its rows by `next_row`, in a context of the storage.
pub fn rows(question: &Question, storage: Storage, contexts: &mut Contexts) -> Vec<Event> {
    match storage {
        Storage::Heap => rows_by(question, &mut contexts.heap),
        Storage::Growing => rows_by(question, &mut contexts.growing),
        Storage::Small => rows_by(question, &mut contexts.small),
    }
}

fn rows_by<S: UnwindContextStorage<usize>>(
    question: &Question,
    context: &mut UnwindContext<usize, S>,
) -> Vec<Event> {
    if question.settings.debug_frame {
        rows_in(question, &debug_frame(question), context)
    } else {
        rows_in(question, &eh_frame(question), context)
    }
}

fn rows_in<'a, Section: UnwindSection<Slice<'a>>, S: UnwindContextStorage<usize>>(
    question: &Question<'a>,
    section: &Section,
    context: &mut UnwindContext<usize, S>,
) -> Vec<Event> {
    let (bases, mut events) = (bases(question), Vec::new());
    let mut entries = section.entries(&bases);
    while let Ok(Some(entry)) = entries.next() {
        let CieOrFde::Fde(partial) = entry else {
            continue;
        };
        let Ok(fde) = partial.parse(Section::cie_from_offset) else {
            continue;
        };
        events.push(Event::Fde(fde_of(&fde)));
        match fde.rows(section, &bases, context) {
            Err(error) => events.push(Event::Error(error_of(question, error))),
            Ok(mut table) => {
                while let Some(row) = table.next_row().transpose() {
                    events.push(match row {
                        Ok(row) => Event::Row(row_of(row)),
                        Err(error) => Event::Error(error_of(question, error)),
                    });
                }
            }
        }
    }
    events.push(Event::End);
    events
}

/// What has to be returned for an address: by the header where there is one, else by a scan.
pub fn expected(
    question: &Question,
    address: u64,
    storage: Storage,
    contexts: &mut Contexts,
) -> Expected {
    match storage {
        Storage::Heap => gimli_side::answer(question, address, &mut contexts.heap),
        Storage::Growing => gimli_side::answer(question, address, &mut contexts.growing),
        Storage::Small => gimli_side::answer(question, address, &mut contexts.small),
    }
}

/// The pointer to `.eh_frame`, and whether there is a table; or the error of the header.
pub fn header(question: &Question) -> Event {
    match parse_header(question, &bases(question)) {
        Ok(header) => Event::Header(target_of(header.eh_frame_ptr()), header.table().is_some()),
        Err(error) => Event::Error(error_of(question, error)),
    }
}

/// The table's rows by `next` and `nth`: an odd number is a call of `next`, and another one a call
/// of `nth` with half of it. Before each is the number of rows that remain.
pub fn steps(question: &Question, numbers: &[u64], met: &mut dyn FnMut(Departure)) -> Vec<Event> {
    let bases = bases(question);
    let Some(header) = parse_header(question, &bases).ok() else {
        return Vec::new();
    };
    let Some(table) = header.table() else {
        return Vec::new();
    };
    let (mut events, mut steps) = (Vec::new(), Steps::new(&table, &bases));
    let size = row_size(question.header.expect("a header")[3]);
    for &number in numbers {
        events.push(Event::Number(steps.left() as u64));
        let (found, departure) = if number & 1 == 1 {
            (steps.next(), None)
        } else {
            steps.nth(number as usize / 2, size)
        };
        departure.into_iter().for_each(&mut *met);
        match found {
            Ok(None) => events.push(Event::End),
            Ok(Some((start, target))) => {
                events.push(Event::Pointer(target_of(start)));
                events.push(Event::Pointer(target_of(target)));
            }
            Err(error) => events.push(Event::Error(error_of(question, error))),
        }
    }
    events
}

type FoundRow = gimli::Result<Option<(Pointer, Pointer)>>;

/// gimli's iterator over a table's rows, held to what gimli_cfi promises of `nth`.
struct Steps<'a, 'b> {
    table: &'a EhHdrTable<'a, Slice<'b>>,
    bases: &'a BaseAddresses,
    rows: EhHdrTableIter<'a, 'a, Slice<'b>>,
    /// The calls that had an effect: `None` is `next`. By them the iterator is made again.
    done: Vec<Option<usize>>,
    /// Whether a call of `nth` went past the last row.
    ended: bool,
}

impl<'a, 'b> Steps<'a, 'b> {
    fn new(table: &'a EhHdrTable<'a, Slice<'b>>, bases: &'a BaseAddresses) -> Steps<'a, 'b> {
        Steps {
            table,
            bases,
            rows: table.iter(bases),
            done: Vec::new(),
            ended: false,
        }
    }

    fn left(&self) -> usize {
        if self.ended {
            0
        } else {
            self.rows.size_hint().0
        }
    }

    fn next(&mut self) -> FoundRow {
        if self.ended {
            return Ok(None);
        }
        self.done.push(None);
        EhHdrTableIter::next(&mut self.rows)
    }

    /// `size` is that of a row, `None` where the format can't be searched.
    fn nth(&mut self, n: usize, size: Option<u64>) -> (FoundRow, Option<Departure>) {
        let left = self.left();
        if size.is_some() && n >= left {
            self.ended = true;
            return (Ok(None), Some(Departure::PastTheRows));
        }
        if size.is_some_and(|size| (n as u64).checked_mul(size).is_none()) {
            return (
                Err(gimli::Error::UnsupportedOffset),
                Some(Departure::Product),
            );
        }
        let found = EhHdrTableIter::nth(&mut self.rows, n);
        let skipped = size.is_some() && self.rows.size_hint().0 + n + 1 == left;
        if skipped {
            self.done.push(Some(n));
            return (found, None);
        }
        // The call had no effect.
        self.rows = self.table.iter(self.bases);
        for call in &self.done {
            let _ = match call {
                None => EhHdrTableIter::next(&mut self.rows),
                Some(n) => EhHdrTableIter::nth(&mut self.rows, *n),
            };
        }
        (found, (n > 0).then_some(Departure::Unchanged))
    }
}

/// What a lookup of each address returns and its offset, or the departure.
pub enum Lookup {
    Events(Vec<Event>),
    Expected(Expected),
}

pub fn lookup(question: &Question, address: u64) -> Option<Lookup> {
    let bases = bases(question);
    let header = parse_header(question, &bases).ok()?;
    let table = header.table()?;
    if has_product(question, &table, &bases) {
        return Some(Lookup::Expected(Expected::departs(
            Departure::Product,
            Error::UNSUPPORTED_OFFSET,
            0,
        )));
    }
    let pointer = match table.lookup(address, &bases) {
        Ok(pointer) => pointer,
        Err(error @ gimli::Error::UnexpectedEof(_)) => {
            let expected = end_of_table(question, error_of(question, error));
            return Some(Lookup::Expected(expected));
        }
        Err(error) => {
            let error = Event::Error(error_of(question, error));
            return Some(Lookup::Events(vec![error]));
        }
    };
    let offset = match (pointer, header.eh_frame_ptr()) {
        (Pointer::Direct(value), Pointer::Direct(base)) if value < base => {
            Event::Error(Error::new(Error::OFFSET_OUT_OF_BOUNDS, value))
        }
        _ => match table.pointer_to_offset(pointer) {
            Ok(offset) => Event::Number(offset.0 as u64),
            Err(error) => Event::Error(error_of(question, error)),
        },
    };
    let pointer = Event::Pointer(target_of(pointer));
    Some(Lookup::Events(vec![pointer, offset]))
}

/// The pointer to `.eh_frame` and the encoding of the rows, where there is a table.
pub fn table(question: &Question) -> Option<(Target, u8)> {
    let header = parse_header(question, &bases(question)).ok()?;
    header.table()?;
    let encoding = question.header.expect("a header")[3];
    Some((target_of(header.eh_frame_ptr()), encoding))
}

/// The row of the table at an index, by itself.
pub fn table_row(question: &Question, index: usize) -> Option<Result<(Target, Target), Error>> {
    let bases = bases(question);
    let header = parse_header(question, &bases).ok()?;
    let table = header.table()?;
    let row = table.iter(&bases).nth(index).transpose()?;
    Some(match row {
        Ok((start, target)) => Ok((target_of(start), target_of(target))),
        Err(error) => Err(error_of(question, error)),
    })
}

/// How many rows the table has.
pub fn table_count(question: &Question) -> u64 {
    let bases = bases(question);
    let header = parse_header(question, &bases).ok();
    let table = header.as_ref().and_then(|header| header.table());
    table.map_or(0, |table| table.iter(&bases).size_hint().0 as u64)
}

fn cie_of(cie: &CommonInformationEntry<Slice>) -> Cie {
    let personality = cie.personality_with_encoding();
    Cie {
        offset: cie.offset() as u64,
        length: cie.entry_len() as u64,
        wide: cie.encoding().format == gimli::Format::Dwarf64,
        version: cie.version().into(),
        address_size: cie.address_size().into(),
        code_alignment_factor: cie.code_alignment_factor(),
        data_alignment_factor: cie.data_alignment_factor(),
        return_address_register: cie.return_address_register().0.into(),
        lsda_encoding: cie.lsda_encoding().map(|encoding| encoding.0),
        address_encoding: cie.fde_address_encoding().map(|encoding| encoding.0),
        personality: personality.map(|(encoding, target)| (encoding.0, target_of(target))),
        is_signal_trampoline: cie.is_signal_trampoline(),
        has_lsda: cie.has_lsda(),
    }
}

fn fde_of(fde: &FrameDescriptionEntry<Slice>) -> Fde {
    Fde {
        offset: fde.offset() as u64,
        length: fde.entry_len() as u64,
        cie: fde.cie().offset() as u64,
        start: fde.initial_address(),
        addresses: fde.len(),
        end: fde.end_address(),
        lsda: fde.lsda().map(target_of),
        personality: fde.personality().map(target_of),
        is_signal_trampoline: fde.is_signal_trampoline(),
    }
}

fn target_of(pointer: Pointer) -> Target {
    Target {
        indirect: matches!(pointer, Pointer::Indirect(_)),
        value: pointer.pointer(),
    }
}
