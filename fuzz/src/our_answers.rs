//! What gimli_cfi returns, by the static library of crates/cfi_beside_gimli.
use crate::event::{Cie, Event, Fde, Reason, Target};
use crate::memory;
use comparison::answer::{Cfa, Error, Row, Rule};
use comparison::question::Question;

/// Which storage a context has.
#[derive(Clone, Copy, Debug, PartialEq)]
pub enum Storage {
    Heap,
    Growing,
    Small,
}

/// Which answers, by the numbers of crates/cfi_beside_gimli.
#[derive(Clone, Copy, Debug, PartialEq)]
pub enum Pass {
    Entries,
    Rows,
    Scans,
    Steps,
    Lookups,
    ByHeader,
    Check,
    Faithful,
}

#[repr(C)]
struct RawAsked {
    section: u64,
    text: u64,
    data_base: u64,
    header: u64,
    header_text: u64,
    header_data: u64,
    set: u32,
    what: u32,
    storage: u32,
    address_size: u8,
    big_endian: bool,
    debug_frame: bool,
    aarch64: bool,
}

unsafe extern "C" {
    fn cfi_answers_section(
        asked: *const RawAsked,
        section: *const u8,
        section_len: usize,
        addresses: *const u64,
        addresses_len: usize,
        room: *mut u64,
        room_len: usize,
    ) -> usize;
    fn cfi_answers_header(
        asked: *const RawAsked,
        section: *const u8,
        section_len: usize,
        header: *const u8,
        header_len: usize,
        numbers: *const u64,
        numbers_len: usize,
        room: *mut u64,
        room_len: usize,
    ) -> usize;
}

/// What the room holds before a call, and after its end.
const UNTOUCHED: u64 = 0x5a5a_5a5a_5a5a_5a5a;

/// Room for the numbers of a call. It grows as needed.
pub struct Room {
    numbers: Vec<u64>,
}

impl Room {
    pub fn new() -> Room {
        Room {
            numbers: vec![UNTOUCHED; 1 << 12],
        }
    }

    /// The answers of a pass. Requests of memory are refused as is said.
    pub fn answers(
        &mut self,
        question: &Question,
        pass: Pass,
        storage: Storage,
        numbers: &[u64],
        refusal: memory::Refusal,
    ) -> Vec<Event> {
        loop {
            let room = self.numbers.len() - 1;
            let count = call(
                question,
                pass,
                storage,
                numbers,
                &mut self.numbers[..room],
                refusal,
            );
            assert_eq!(self.numbers[room], UNTOUCHED, "past the room");
            if count <= room {
                let events = Numbers(&self.numbers[..count]).events();
                self.numbers[..count].fill(UNTOUCHED);
                return events;
            }
            self.numbers.clear();
            self.numbers.resize(count + 1, UNTOUCHED);
        }
    }
}

fn call(
    question: &Question,
    pass: Pass,
    storage: Storage,
    numbers: &[u64],
    room: &mut [u64],
    refusal: memory::Refusal,
) -> usize {
    let settings = &question.settings;
    let asked = RawAsked {
        section: settings.section,
        text: settings.text,
        data_base: settings.data,
        header: settings.header,
        header_text: settings.text,
        header_data: settings.header,
        set: u32::from(!settings.unset & 63),
        what: pass as u32,
        storage: storage as u32,
        address_size: settings.address_size,
        big_endian: settings.big_endian,
        debug_frame: settings.debug_frame,
        aarch64: settings.aarch64,
    };
    let (section, header) = (question.section, question.header.unwrap_or_default());
    let (at, length) = (section.as_ptr(), section.len());
    let (first, count) = (numbers.as_ptr(), numbers.len());
    let (to, size) = (room.as_mut_ptr(), room.len());
    // SAFETY: each pointer leads to as many values as is said, and none is kept after the call.
    memory::watched(refusal, || unsafe {
        match pass {
            Pass::Entries | Pass::Rows | Pass::Scans => {
                cfi_answers_section(&asked, at, length, first, count, to, size)
            }
            _ => cfi_answers_header(
                &asked,
                at,
                length,
                header.as_ptr(),
                header.len(),
                first,
                count,
                to,
                size,
            ),
        }
    })
}

/// Numbers that are left to be read.
struct Numbers<'a>(&'a [u64]);

impl Numbers<'_> {
    fn events(mut self) -> Vec<Event> {
        let mut events = Vec::new();
        while !self.0.is_empty() {
            let event = self.event();
            events.push(event);
        }
        events
    }

    fn next(&mut self) -> u64 {
        let (first, rest) = self.0.split_first().expect("a number");
        self.0 = rest;
        *first
    }

    fn event(&mut self) -> Event {
        match self.next() {
            1 => Event::Cie(self.cie()),
            2 => Event::Partial(self.next(), self.next()),
            3 => Event::Fde(self.fde()),
            4 => Event::Error(self.error()),
            5 => Event::End,
            6 => Event::Row(self.row()),
            8 => Event::Header(self.target().expect("a pointer"), self.next() != 0),
            9 => Event::Pointer(self.target().expect("a pointer")),
            10 => Event::Number(self.next()),
            11 => Event::Unfaithful(self.reason()),
            kind => panic!("an answer of kind {kind}"),
        }
    }

    fn error(&mut self) -> Error {
        let status = self.next() as i32;
        Error::new(status, self.next())
    }

    /// An error with its kind before it.
    fn error_after(&mut self) -> Error {
        assert_eq!(self.next(), 4, "an error follows");
        self.error()
    }

    fn target(&mut self) -> Option<Target> {
        let kind = self.next();
        let value = self.next();
        (kind != 0).then_some(Target {
            indirect: kind == 2,
            value,
        })
    }

    fn encoding(&mut self) -> Option<u8> {
        self.next().checked_sub(1).map(|encoding| encoding as u8)
    }

    fn cie(&mut self) -> Cie {
        Cie {
            offset: self.next(),
            length: self.next(),
            wide: self.next() == 12,
            version: self.next(),
            address_size: self.next(),
            code_alignment_factor: self.next(),
            data_alignment_factor: self.next().cast_signed(),
            return_address_register: self.next(),
            lsda_encoding: self.encoding(),
            address_encoding: self.encoding(),
            personality: {
                let encoding = self.encoding();
                let target = self.target();
                encoding.zip(target)
            },
            is_signal_trampoline: self.next() != 0,
            has_lsda: self.next() != 0,
        }
    }

    fn fde(&mut self) -> Fde {
        Fde {
            offset: self.next(),
            length: self.next(),
            cie: self.next(),
            start: self.next(),
            addresses: self.next(),
            end: self.next(),
            lsda: self.target(),
            personality: self.target(),
            is_signal_trampoline: self.next() != 0,
        }
    }

    /// A row and the rules after it, by rising register.
    fn row(&mut self) -> Row {
        let (start, end, args_size) = (self.next(), self.next(), self.next());
        let (kind, first, second) = (self.next(), self.next(), self.next());
        let cfa = match kind {
            0 => Cfa::RegisterAndOffset(first as u32, second.cast_signed()),
            1 => Cfa::Expression(first, second),
            kind => panic!("a CFA of kind {kind}"),
        };
        let mut rules = Vec::new();
        while self.0.first() == Some(&7) {
            self.next();
            let register = self.next() as u16;
            rules.push((register, self.rule()));
        }
        rules.sort_by_key(|rule| rule.0);
        Row {
            start,
            end,
            args_size,
            cfa,
            rules,
        }
    }

    fn rule(&mut self) -> Rule {
        let (kind, value, length) = (self.next(), self.next(), self.next());
        match kind {
            1 => Rule::Undefined,
            2 => Rule::SameValue,
            3 => Rule::Offset(value.cast_signed()),
            4 => Rule::ValOffset(value.cast_signed()),
            5 => Rule::Register(value.cast_signed()),
            6 => Rule::Expression(value, length),
            7 => Rule::ValExpression(value, length),
            8 => Rule::Architectural,
            9 => Rule::Constant(value),
            kind => Rule::Unknown(kind),
        }
    }

    fn reason(&mut self) -> Reason {
        let kind = self.next();
        let (first, second, third) = (self.next(), self.next(), self.next());
        match kind {
            0 => Reason::Header(self.error_after()),
            1 => Reason::Row {
                row: first,
                error: self.error_after(),
            },
            2 => Reason::Order {
                row: first,
                before: second,
                start: third,
            },
            3 => Reason::Entry {
                offset: first,
                error: self.error_after(),
            },
            4 => Reason::Fde {
                offset: first,
                error: self.error_after(),
            },
            5 => Reason::NoRow {
                offset: first,
                address: second,
            },
            6 => Reason::Overlap {
                offset: first,
                end: second,
                next: third,
            },
            7 => Reason::Count {
                rows: first,
                fdes: second,
            },
            kind => panic!("a reason of kind {kind}"),
        }
    }
}
