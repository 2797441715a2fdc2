// What gimli returns. The fuzz target includes this file once more, with a copy of gimli that reads
// the extensions of gimli_cfi under the name `gimli`.
use crate::answer::{Answer, Cfa, Entries, Error, Fde, Row, Rule};
use crate::departure::{Departure, Expected};
use crate::question::{self, Question};
use crate::sums::Done;
use gimli::{
    BaseAddresses, CfaRule, CieOrFde, DebugFrame, EhFrame, EhFrameHdr, EhHdrTable, EndianSlice,
    ParsedEhFrameHdr, Pointer, RegisterRule, RunTimeEndian, SectionBaseAddresses, StoreOnHeap,
    UnwindContext, UnwindContextStorage, UnwindOffset, UnwindSection, UnwindTableRow, Vendor,
};

pub type Slice<'a> = EndianSlice<'a, RunTimeEndian>;
pub type Context = UnwindContext<usize, StoreOnHeap>;

/// A fresh context of gimli.
pub fn context() -> Context {
    UnwindContext::new_in()
}

/// Reads all entries of the section.
pub fn entries(question: &Question) -> Entries {
    if question.settings.debug_frame {
        entries_in(question, &debug_frame(question))
    } else {
        entries_in(question, &eh_frame(question))
    }
}

fn entries_in<'a, S: UnwindSection<Slice<'a>>>(question: &Question<'a>, section: &S) -> Entries {
    let bases = bases(question);
    let (mut found, mut entries) = (Entries::default(), section.entries(&bases));
    loop {
        match entries.next() {
            Ok(None) => return found,
            Ok(Some(CieOrFde::Cie(cie))) => found.offsets.push(cie.offset() as u64),
            Ok(Some(CieOrFde::Fde(partial))) => {
                found.offsets.push(partial.offset() as u64);
                let fde = partial.parse(S::cie_from_offset).map(|fde| Fde {
                    offset: fde.offset(),
                    cie_offset: UnwindOffset::into(partial.cie_offset()),
                    start: fde.initial_address(),
                    length: fde.len(),
                    end: fde.end_address(),
                });
                found
                    .fdes
                    .push(fde.map_err(|error| error_of(question, error)));
            }
            Err(error) => {
                found.error = Some(error_of(question, error));
                return found;
            }
        }
    }
}

/// The rows of the FDE at an offset by `next_row`, which is called until there are no more, also
/// after errors. There are none where the CIE's instructions fail.
pub fn rows(question: &Question, offset: usize, context: &mut Context) -> Vec<Answer> {
    if question.settings.debug_frame {
        rows_in(question, &debug_frame(question), offset, context)
    } else {
        rows_in(question, &eh_frame(question), offset, context)
    }
}

fn rows_in<'a, S: UnwindSection<Slice<'a>>>(
    question: &Question<'a>,
    section: &S,
    offset: usize,
    context: &mut Context,
) -> Vec<Answer> {
    let (bases, mut found) = (bases(question), Vec::new());
    let fde = section.fde_from_offset(&bases, offset.into(), S::cie_from_offset);
    let fde = fde.expect("an FDE that was read before");
    if let Ok(mut table) = fde.rows(section, &bases, context) {
        while let Some(row) = table.next_row().transpose() {
            found.push(row.map(row_of).map_err(|error| error_of(question, error)));
        }
    }
    found
}

/// What the rows of addresses say, each of the first FDE that contains it, in the order of the
/// entries. `fdes` are all FDEs of the section, without an error.
pub fn parts_of_rows(
    question: &Question,
    fdes: &[Fde],
    addresses: &[u64],
    context: &mut Context,
) -> Done {
    let (bases, section) = (bases(question), eh_frame(question));
    let mut done = Done::default();
    let first = FirstFde::of(fdes);
    for &address in addresses {
        let row = match first.containing(address) {
            None => Err(error_of(question, gimli::Error::NoUnwindInfoForAddress)),
            Some(fde) => {
                let get_cie = EhFrame::cie_from_offset;
                let fde = section.fde_from_offset(&bases, fde.offset.into(), get_cie);
                let fde = fde.expect("an FDE that was read before");
                let row = fde.unwind_info_for_address(&section, &bases, context, address);
                row.map(row_of).map_err(|error| error_of(question, error))
            }
        };
        done.take_parts(address, &row);
    }
    done
}

/// Finds the first FDE that contains an address: by a binary search if no two overlap.
struct FirstFde<'a> {
    fdes: &'a [Fde],
    sorted: Option<Vec<&'a Fde>>,
}

impl<'a> FirstFde<'a> {
    fn of(fdes: &'a [Fde]) -> FirstFde<'a> {
        let mut sorted: Vec<_> = fdes.iter().filter(|fde| fde.start < fde.end).collect();
        sorted.sort_by_key(|fde| fde.start);
        let apart = sorted.windows(2).all(|pair| pair[0].end <= pair[1].start);
        FirstFde {
            fdes,
            sorted: apart.then_some(sorted),
        }
    }

    fn containing(&self, address: u64) -> Option<&'a Fde> {
        let contains = |fde: &&Fde| fde.start <= address && address < fde.end;
        let Some(sorted) = &self.sorted else {
            return self.fdes.iter().find(contains);
        };
        let above = sorted.partition_point(|fde| fde.start <= address);
        above.checked_sub(1).map(|last| sorted[last]).filter(contains)
    }
}

/// The passes over a section: its entries, its FDEs, and all rows with all rules.
pub fn section_passes(question: &Question, context: &mut Context) -> [Done; 3] {
    let found = entries(question);
    if found.error.is_some() {
        return [Done::FAILED; 3];
    }
    let [mut offsets, mut extents, mut rules] = [Done::default(); 3];
    for offset in found.offsets {
        offsets.take(offset);
    }
    for fde in found.fdes {
        let Ok(fde) = fde else {
            return [offsets, Done::FAILED, Done::FAILED];
        };
        extents.take(fde.start ^ fde.length);
        for row in rows(question, fde.offset, context) {
            rules.take_row(&row);
        }
    }
    [offsets, extents, rules]
}

/// The row of an address. Where gimli_cfi departs from gimli on purpose, what it has to return.
pub fn answer<S: UnwindContextStorage<usize>>(
    question: &Question,
    address: u64,
    context: &mut UnwindContext<usize, S>,
) -> Expected {
    let bases = bases(question);
    if question.header.is_some() {
        return by_header(question, &bases, address, context);
    }
    Expected::same(if question.settings.debug_frame {
        scan(question, &debug_frame(question), &bases, address, context)
    } else {
        scan(question, &eh_frame(question), &bases, address, context)
    })
}

fn scan<'a, Section: UnwindSection<Slice<'a>>, S: UnwindContextStorage<usize>>(
    question: &Question<'a>,
    section: &Section,
    bases: &BaseAddresses,
    address: u64,
    context: &mut UnwindContext<usize, S>,
) -> Answer {
    let get_cie = Section::cie_from_offset;
    let row = section.unwind_info_for_address(bases, context, address, get_cie);
    row.map(row_of).map_err(|error| error_of(question, error))
}

fn by_header<S: UnwindContextStorage<usize>>(
    question: &Question,
    bases: &BaseAddresses,
    address: u64,
    context: &mut UnwindContext<usize, S>,
) -> Expected {
    let frame = eh_frame(question);
    let header = match parse_header(question, bases) {
        Ok(header) => header,
        Err(error) => return Expected::same(Err(error_of(question, error))),
    };
    let Some(table) = header.table() else {
        return Expected::same(scan(question, &frame, bases, address, context));
    };
    if has_product(question, &table, bases) {
        return Expected::departs(Departure::Product, Error::UNSUPPORTED_OFFSET, 0);
    }
    match table.lookup(address, bases) {
        Err(error @ gimli::Error::UnexpectedEof(_)) => {
            return end_of_table(question, error_of(question, error));
        }
        Ok(Pointer::Direct(pointer)) => {
            if let Pointer::Direct(start) = header.eh_frame_ptr()
                && pointer < start
            {
                return Expected::departs(Departure::Below, Error::OFFSET_OUT_OF_BOUNDS, pointer);
            }
        }
        Err(_) | Ok(Pointer::Indirect(_)) => {}
    }
    let get_cie = EhFrame::cie_from_offset;
    let row = table.unwind_info_for_address(&frame, bases, context, address, get_cie);
    Expected::same(row.map(row_of).map_err(|error| error_of(question, error)))
}

/// What `UnexpectedEof` of a lookup carries: the table's first place where the way to a row fails,
/// which is where there is room for a value at gimli's place; otherwise either of the two.
pub fn end_of_table(question: &Question, error: Error) -> Expected {
    let (header, start) = (header_of(question), table_place(question));
    let mut expected = Expected::same(Err(error));
    if error.value != start {
        expected.departure = Some(Departure::Place);
        let room = header.len() as u64 - error.value;
        if row_size(header[3]).is_some_and(|size| room >= size / 2) {
            expected.answer = Err(Error::new(Error::UNEXPECTED_EOF, start));
        } else {
            expected.or_place = Some(start);
        }
    }
    expected
}

/// The pointers that lookups of the addresses return, and the rows of the header's table. Lookups
/// are `None` where gimli_cfi departs from gimli on purpose.
pub fn header_passes(question: &Question, addresses: &[u64]) -> (Option<Done>, Done) {
    let bases = bases(question);
    let Ok(header) = parse_header(question, &bases) else {
        return (Some(Done::FAILED), Done::FAILED);
    };
    let Some(table) = header.table() else {
        return (Some(Done::FAILED), Done::FAILED);
    };
    let (mut lookups, mut rows) = (Done::default(), Done::default());
    let comparable = !has_product(question, &table, &bases);
    if comparable {
        for address in addresses {
            let pointer = table.lookup(*address, &bases);
            lookups.take(pointer.map_or(!*address, Pointer::pointer));
        }
    }
    let mut iter = table.iter(&bases);
    loop {
        match iter.next() {
            Ok(None) => break,
            Ok(Some((start, target))) => rows.take(start.pointer() ^ target.pointer()),
            Err(_) => {
                rows = Done::FAILED;
                break;
            }
        }
    }
    (comparable.then_some(lookups), rows)
}

pub fn parse_header<'a>(
    question: &Question<'a>,
    bases: &BaseAddresses,
) -> gimli::Result<ParsedEhFrameHdr<Slice<'a>>> {
    let header = EhFrameHdr::new(header_of(question), endian(question));
    header.parse(bases, question.settings.address_size)
}

fn header_of<'a>(question: &Question<'a>) -> &'a [u8] {
    question.header.expect("a question by a header")
}

/// Whether half the number of rows times the size of one is not a `u64`.
pub fn has_product(question: &Question, table: &EhHdrTable<Slice>, bases: &BaseAddresses) -> bool {
    let count = table.iter(bases).size_hint().0 as u64;
    let size = row_size(header_of(question)[3]);
    size.is_some_and(|size| (count / 2).checked_mul(size).is_none())
}

/// The size of a row of the table in an encoding that can be searched.
pub fn row_size(encoding: u8) -> Option<u64> {
    match encoding & 15 {
        2 | 10 => Some(4),
        3 | 11 => Some(8),
        4 | 12 => Some(16),
        _ => None,
    }
}

/// Where the table of a header that has one begins.
fn table_place(question: &Question) -> u64 {
    let (header, mut place) = (header_of(question), 4);
    for encoding in &header[1..3] {
        place += match encoding & 15 {
            2 | 10 => 2,
            3 | 11 => 4,
            4 | 12 => 8,
            1 | 9 => {
                header[place..]
                    .iter()
                    .take_while(|byte| **byte >= 128)
                    .count()
                    + 1
            }
            _ => question.settings.address_size.into(),
        };
    }
    place as u64
}

fn endian(question: &Question) -> RunTimeEndian {
    if question.settings.big_endian {
        RunTimeEndian::Big
    } else {
        RunTimeEndian::Little
    }
}

fn vendor(question: &Question) -> Vendor {
    if question.settings.aarch64 {
        Vendor::AArch64
    } else {
        Vendor::Default
    }
}

pub fn bases(question: &Question) -> BaseAddresses {
    let base = |base| question.settings.base(base);
    BaseAddresses {
        eh_frame_hdr: SectionBaseAddresses {
            section: base(question::HEADER),
            text: base(question::HEADER_TEXT),
            data: base(question::HEADER_DATA),
        },
        eh_frame: SectionBaseAddresses {
            section: base(question::SECTION),
            text: base(question::TEXT),
            data: base(question::DATA),
        },
    }
}

pub fn eh_frame<'a>(question: &Question<'a>) -> EhFrame<Slice<'a>> {
    let mut section = EhFrame::new(question.section, endian(question));
    section.set_address_size(question.settings.address_size);
    section.set_vendor(vendor(question));
    section
}

pub fn debug_frame<'a>(question: &Question<'a>) -> DebugFrame<Slice<'a>> {
    let mut section = DebugFrame::new(question.section, endian(question));
    section.set_address_size(question.settings.address_size);
    section.set_vendor(vendor(question));
    section
}

pub fn row_of<S: UnwindContextStorage<usize>>(row: &UnwindTableRow<usize, S>) -> Row {
    let rules = row
        .registers()
        .map(|(register, rule)| (register.0, rule_of(rule)));
    let mut rules: Vec<_> = rules.collect();
    rules.sort_by_key(|rule| rule.0);
    Row {
        start: row.start_address(),
        end: row.end_address(),
        args_size: row.saved_args_size(),
        cfa: match row.cfa() {
            CfaRule::RegisterAndOffset { register, offset } => {
                Cfa::RegisterAndOffset(register.0.into(), *offset)
            }
            CfaRule::Expression(e) => Cfa::Expression(e.offset as u64, e.length as u64),
        },
        rules,
    }
}

fn rule_of(rule: &RegisterRule<usize>) -> Rule {
    match rule {
        RegisterRule::Undefined => Rule::Undefined,
        RegisterRule::SameValue => Rule::SameValue,
        RegisterRule::Offset(offset) => Rule::Offset(*offset),
        RegisterRule::ValOffset(offset) => Rule::ValOffset(*offset),
        RegisterRule::Register(register) => Rule::Register(register.0.into()),
        RegisterRule::Expression(e) => Rule::Expression(e.offset as u64, e.length as u64),
        RegisterRule::ValExpression(e) => Rule::ValExpression(e.offset as u64, e.length as u64),
        RegisterRule::Architectural => Rule::Architectural,
        RegisterRule::Constant(value) => Rule::Constant(*value),
    }
}

/// The error's number in `cfi_c.h`, and the value that it carries.
pub fn error_of(question: &Question, error: gimli::Error) -> Error {
    use gimli::Error::*;
    let (status, value) = match error {
        UnexpectedEof(id) => (1, place_of(question, id.0)),
        BadUnsignedLeb128 => (2, 0),
        BadSignedLeb128 => (3, 0),
        UnknownReservedLength(length) => (4, length.into()),
        UnsupportedAddressSize(size) => (5, size.into()),
        UnsupportedOffset => (6, 0),
        UnsupportedRegister(register) => (7, register),
        AddressOverflow => (8, 0),
        UnknownVersion(version) => (9, version),
        UnsupportedSegmentSize(size) => (10, size.into()),
        UnknownAugmentation => (11, 0),
        UnknownPointerEncoding(encoding) => (12, encoding.0.into()),
        CannotParseOmitPointerEncoding => (13, 0),
        UnsupportedPointerEncoding(encoding) => (14, encoding.0.into()),
        PcRelativePointerButSectionBaseIsUndefined => (15, 0),
        TextRelativePointerButTextBaseIsUndefined => (16, 0),
        DataRelativePointerButDataBaseIsUndefined => (17, 0),
        FuncRelativePointerInBadContext => (18, 0),
        UnsupportedIndirectPointer => (19, 0),
        NotCieId(offset) => (20, offset),
        NotCiePointer(offset) => (21, offset),
        NoEntryAtGivenOffset(offset) => (22, offset),
        OffsetOutOfBounds(offset) => (23, offset),
        UnknownCallFrameInstruction(opcode) => (24, opcode.0.into()),
        CfiInstructionInInvalidContext => (25, 0),
        InvalidCfiSetLoc(address) => (26, address),
        StackFull => (27, 0),
        PopWithEmptyStack => (28, 0),
        TooManyRegisterRules => (29, 0),
        NoUnwindInfoForAddress => (30, 0),
        other => panic!("{other:?} is not an error of call frames"),
    };
    Error::new(status, value)
}

/// gimli's id of a place is its address in memory. Returns the place in the section or the header.
fn place_of(question: &Question, id: u64) -> u64 {
    let slices = [question.section, question.header.unwrap_or_default()];
    let places = slices.map(|bytes| (id.wrapping_sub(bytes.as_ptr() as u64), bytes.len() as u64));
    let found = places.into_iter().find(|(place, length)| place <= length);
    found.expect("a place in section or header").0
}
