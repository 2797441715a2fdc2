//! What only crates/cfi_beside_gimli is asked: entries with all their fields, rows one by one, storages,
//! absent bases, refused memory, `nth`, and whether a table is faithful.
use crate::counts;
use crate::event::{Event, Reason, Target};
use crate::memory::{self, Refusal};
use crate::our_answers::{Pass, Room, Storage};
use crate::{extended, plain};
use comparison::answer::Error;
use comparison::departure::{Departure, Expected};
use comparison::question::Question;

/// What is used for all inputs.
pub struct Contexts {
    room: Room,
    plain: plain::Contexts,
    extended: extended::Contexts,
}

impl Contexts {
    pub fn new() -> Contexts {
        Contexts {
            room: Room::new(),
            plain: plain::Contexts::new(),
            extended: extended::Contexts::new(),
        }
    }
}

/// What is compared of an input.
pub struct Comparison<'a> {
    pub contexts: &'a mut Contexts,
    pub question: Question<'a>,
    pub storage: Storage,
    pub refusal: Refusal,
    pub addresses: &'a [u64],
    /// Calls of `next` and `nth`.
    pub steps: &'a [u64],
}

impl Comparison<'_> {
    pub fn all(&mut self) {
        let scanned = Question {
            header: None,
            ..self.question
        };
        self.entries(&scanned);
        self.rows(&scanned);
        self.answers(&scanned, Pass::Scans);
        if self.question.header.is_some() {
            let question = self.question;
            self.answers(&question, Pass::ByHeader);
            self.steps();
            self.lookups();
            self.check();
        }
    }

    fn ours(&mut self, question: &Question, pass: Pass, refusal: Refusal) -> Vec<Event> {
        let numbers = match pass {
            Pass::Steps => self.steps,
            _ => self.addresses,
        };
        counts::compared_passes(1);
        let room = &mut self.contexts.room;
        room.answers(question, pass, self.storage, numbers, refusal)
    }

    fn entries(&mut self, question: &Question) {
        let ours = self.ours(question, Pass::Entries, Refusal::None);
        let expected = plain::entries(question);
        if ours != expected {
            self.hold(question, Pass::Entries, &extended::entries(question), &ours);
            counts::departed(Departure::Extension);
        }
        assert_eq!(memory::requests().0, 0, "entries allocate");
    }

    fn rows(&mut self, question: &Question) {
        let ours = self.ours(question, Pass::Rows, Refusal::None);
        let requests = memory::requests().0;
        let expected = plain::rows(question, self.storage, &mut self.contexts.plain);
        if ours != expected {
            let contexts = &mut self.contexts.extended;
            let expected = extended::rows(question, self.storage, contexts);
            self.hold(question, Pass::Rows, &expected, &ours);
            counts::departed(Departure::Extension);
        }
        if self.refuses(requests) {
            let refused = self.ours(question, Pass::Rows, self.refusal);
            self.count_refused(question, Pass::Rows, &refused, &ours);
            self.hold_refused_rows(question, &refused, &ours);
        }
    }

    /// Compares the rows of the addresses, by a scan or by the header.
    fn answers(&mut self, question: &Question, pass: Pass) {
        let ours = self.ours(question, pass, Refusal::None);
        let requests = memory::requests().0;
        if ours.len() != self.addresses.len() {
            self.stop(question, pass, "an answer for each address", &ours);
        }
        for (&address, ours) in self.addresses.iter().zip(&ours) {
            self.answer(question, pass, address, ours);
        }
        if self.refuses(requests) {
            let refused = self.ours(question, pass, self.refusal);
            self.count_refused(question, pass, &refused, &ours);
            self.hold_refused_answers(question, pass, &refused, &ours);
        }
    }

    fn answer(&mut self, question: &Question, pass: Pass, address: u64, ours: &Event) {
        let answer = match ours {
            Event::Row(row) => Ok(row.clone()),
            Event::Error(error) => Err(*error),
            _ => self.stop(question, pass, "a row or an error", ours),
        };
        let contexts = &mut self.contexts;
        let mut expected = plain::expected(question, address, self.storage, &mut contexts.plain);
        let avoided = |error: &Error| error.is_avoided_by_extension();
        if !expected.allows(&answer) && expected.answer.as_ref().is_err_and(avoided) {
            expected = extended::expected(question, address, self.storage, &mut contexts.extended);
            expected.departure = Some(Departure::Extension);
        }
        if !expected.allows(&answer) {
            self.stop(question, pass, (address, &expected.answer), ours);
        }
        counts::compared(question.header.is_some(), answer.is_ok());
        expected.departure.into_iter().for_each(counts::departed);
    }

    fn steps(&mut self) {
        let question = self.question;
        let ours = self.ours(&question, Pass::Steps, Refusal::None);
        let header = plain::header(&question);
        let mut expected = vec![header];
        let steps = plain::steps(&question, self.steps, &mut counts::departed);
        expected.extend(steps);
        self.hold(&question, Pass::Steps, &expected, &ours);
    }

    fn lookups(&mut self) {
        let question = self.question;
        let ours = self.ours(&question, Pass::Lookups, Refusal::None);
        let mut left = &ours[1..];
        for &address in self.addresses {
            let (count, matches) = match plain::lookup(&question, address) {
                None => (0, true),
                Some(plain::Lookup::Events(events)) => (events.len(), left.starts_with(&events)),
                Some(plain::Lookup::Expected(expected)) => {
                    expected.departure.into_iter().for_each(counts::departed);
                    (
                        1,
                        left.first().is_some_and(|event| allows(&expected, event)),
                    )
                }
            };
            if !matches {
                self.stop(&question, Pass::Lookups, address, left);
            }
            left = &left[count..];
        }
        if !left.is_empty() {
            self.stop(&question, Pass::Lookups, "no more", left);
        }
    }

    /// Holds the verdict of `check_table` to gimli's answers. Where the table is faithful, its rows
    /// are those of a scan.
    fn check(&mut self) {
        let question = self.question;
        let ours = self.ours(&question, Pass::Check, Refusal::None);
        let Some(verdict) = ours.get(1) else {
            return;
        };
        let listing = Listing::new(&question);
        if !listing.allows(&question, verdict) {
            self.stop(&question, Pass::Check, &listing, verdict);
        }
        let rows = self.ours(&question, Pass::Faithful, Refusal::None);
        counts::checked(*verdict == Event::End);
        if *verdict != Event::End {
            self.hold(&question, Pass::Faithful, &ours, &rows);
            return;
        }
        let scanned = Question {
            header: None,
            ..question
        };
        let scans = self.ours(&scanned, Pass::Scans, Refusal::None);
        self.hold(&question, Pass::Faithful, &scans, &rows[1..]);
    }

    /// Whether a call with so many requests is to be made again, with some of them refused.
    fn refuses(&self, requests: u64) -> bool {
        match self.refusal {
            Refusal::None => false,
            Refusal::One(first) | Refusal::From(first) => first < requests,
        }
    }

    /// Where a request is refused, `OutOfMemory` has to be returned, and nowhere else.
    fn count_refused(&self, question: &Question, pass: Pass, refused: &[Event], ours: &[Event]) {
        let errors = refused.iter().filter(|event| event.is_out_of_memory());
        let (errors, requests) = (errors.count() as u64, memory::requests().1);
        if errors != requests || ours.iter().any(Event::is_out_of_memory) {
            let expected = format!("{requests} times OutOfMemory by {:?}", self.refusal);
            self.stop(question, pass, expected, refused);
        }
        counts::refused(requests);
    }

    /// Each answer is the one that comes with enough memory, or `OutOfMemory`.
    fn hold_refused_answers(
        &self,
        question: &Question,
        pass: Pass,
        refused: &[Event],
        ours: &[Event],
    ) {
        // Without a context there is one answer for all.
        if refused.len() == 1 && refused[0].is_out_of_memory() {
            return;
        }
        let same =
            |(refused, ours): (&Event, &Event)| refused == ours || refused.is_out_of_memory();
        if refused.len() != ours.len() || !refused.iter().zip(ours).all(same) {
            self.stop(question, pass, (self.refusal, ours), refused);
        }
    }

    /// The rows of each FDE are those that come with enough memory, up to `OutOfMemory`.
    fn hold_refused_rows(&self, question: &Question, refused: &[Event], ours: &[Event]) {
        if refused.len() == 1 && refused[0].is_out_of_memory() {
            return;
        }
        let is_fde = |event: &Event| matches!(event, Event::Fde(_));
        let of_fdes = |events: &[Event]| -> Vec<Vec<Event>> {
            let starts = events.split_inclusive(|event| is_fde(event) || *event == Event::End);
            starts.map(<[Event]>::to_vec).collect()
        };
        let (refused_rows, rows) = (of_fdes(refused), of_fdes(ours));
        let same = |(refused, ours): (&Vec<Event>, &Vec<Event>)| match refused
            .iter()
            .position(Event::is_out_of_memory)
        {
            Some(end) => ours.starts_with(&refused[..end]) && refused.last() == ours.last(),
            None => refused == ours,
        };
        if refused_rows.len() != rows.len() || !refused_rows.iter().zip(&rows).all(same) {
            self.stop(question, Pass::Rows, (self.refusal, ours), refused);
        }
    }

    fn hold(&self, question: &Question, pass: Pass, expected: &[Event], ours: &[Event]) {
        if ours != expected {
            let same = ours
                .iter()
                .zip(expected)
                .take_while(|(a, b)| a == b)
                .count();
            let first = (same, expected.get(same));
            self.stop(question, pass, first, ours.get(same));
        }
    }

    fn stop<T: std::fmt::Debug, U: std::fmt::Debug>(
        &self,
        question: &Question,
        pass: Pass,
        expected: T,
        ours: U,
    ) -> ! {
        let address = self.addresses.first().copied().unwrap_or(0);
        eprintln!("DIFFERENT in {pass:?}: {}", question.command(address));
        eprintln!(
            "  {:?}, bases not set: {:#b}",
            self.storage, question.settings.unset
        );
        eprintln!(
            "  addresses: {:x?}, steps: {:x?}",
            self.addresses, self.steps
        );
        eprintln!("  expected:  {expected:x?}\n  gimli_cfi: {ours:x?}");
        std::process::abort()
    }
}

/// The start of a row whose target may be cut off.
fn start_of(question: &Question, row: usize) -> Option<u64> {
    let mut header = question.header?.to_vec();
    header.extend([0; 8]);
    let longer = Question {
        header: Some(&header),
        ..*question
    };
    let (start, _) = plain::table_row(&longer, row)?.ok()?;
    Some(start.value)
}

fn allows(expected: &Expected, event: &Event) -> bool {
    match event {
        Event::Error(error) => expected.allows(&Err(*error)),
        _ => false,
    }
}

/// What a header and its section list, by gimli's answers.
#[derive(Debug)]
struct Listing {
    /// The pointer to `.eh_frame`.
    base: Target,
    encoding: u8,
    count: u64,
    /// The rows up to the first that can't be read.
    rows: Vec<(Target, Target)>,
    /// Whether the row after these can't be read.
    refused: bool,
    /// Whether each row starts above the one before it.
    is_rising: bool,
    fdes: Vec<crate::event::Fde>,
    /// Errors of FDEs with their offsets.
    refused_fdes: Vec<(u64, Error)>,
    /// The error that ends the entries.
    error: Option<Error>,
}

impl Listing {
    fn new(question: &Question) -> Listing {
        let (base, encoding) = plain::table(question).expect("a header with a table");
        let count = plain::table_count(question);
        let mut listing = Listing {
            base,
            encoding,
            count,
            rows: Vec::new(),
            refused: false,
            is_rising: true,
            fdes: Vec::new(),
            refused_fdes: Vec::new(),
            error: None,
        };
        listing.read_rows(question);
        let mut pairs = listing.rows.windows(2);
        listing.is_rising = pairs.all(|pair| pair[0].0.value < pair[1].0.value);
        let mut offset = None;
        for event in extended::entries(question) {
            match (event, offset.take()) {
                (Event::Partial(place, _), _) => offset = Some(place),
                (Event::Fde(fde), _) => listing.fdes.push(fde),
                (Event::Error(error), Some(place)) => listing.refused_fdes.push((place, error)),
                (Event::Error(error), None) => listing.error = Some(error),
                _ => {}
            }
        }
        listing
    }

    fn read_rows(&mut self, question: &Question) {
        if !self.is_searchable() {
            return;
        }
        for index in 0..self.count {
            match plain::table_row(question, index as usize) {
                Some(Ok(row)) => self.rows.push(row),
                _ => {
                    self.refused = true;
                    return;
                }
            }
        }
    }

    fn is_searchable(&self) -> bool {
        matches!(self.encoding & 15, 2..=4 | 10..=12)
    }

    /// Whether the table lists the FDEs of the section faithfully.
    fn is_faithful(&self, question: &Question) -> bool {
        !self.base.indirect
            && self.is_searchable()
            && !self.refused
            && !self.rows.iter().any(|row| row.0.indirect)
            && self.is_rising
            && self.error.is_none()
            && self.refused_fdes.is_empty()
            && self.fdes.len() as u64 == self.count
            && self
                .fdes
                .iter()
                .all(|fde| self.has_row(fde) && self.overlap(question, fde).is_none())
    }

    fn target(&self, fde: &crate::event::Fde) -> Option<Target> {
        let value = self.base.value.checked_add(fde.offset)?;
        Some(Target {
            indirect: false,
            value,
        })
    }

    /// Whether a row has the FDE's first address as start and the FDE as target.
    fn has_row(&self, fde: &crate::event::Fde) -> bool {
        let is_its = |row: &(Target, Target)| {
            row.0.value == fde.start && !row.0.indirect && Some(row.1) == self.target(fde)
        };
        match self.row_from(fde.start) {
            Some(row) if self.is_rising => is_its(&self.rows[row]),
            _ => self.rows.iter().any(is_its),
        }
    }

    /// The row that starts at an address, where the rows rise.
    fn row_from(&self, start: u64) -> Option<usize> {
        self.rows
            .binary_search_by_key(&start, |row| row.0.value)
            .ok()
    }

    /// The start of a row, whose target may be cut off.
    fn start(&self, question: &Question, row: usize) -> Option<u64> {
        match self.rows.get(row) {
            Some(row) => Some(row.0.value),
            None => start_of(question, row),
        }
    }

    /// The start of the row after the FDE's, where the FDE contains it.
    fn overlap(&self, question: &Question, fde: &crate::event::Fde) -> Option<u64> {
        let next = self.start(question, self.row_from(fde.start)? + 1)?;
        (next < fde.end).then_some(next)
    }

    /// Whether the verdict is right: the table is faithful, or the reason is one why it isn't.
    fn allows(&self, question: &Question, verdict: &Event) -> bool {
        let start = |row: u64| self.start(question, row as usize);
        let reason = match verdict {
            Event::End => return self.is_faithful(question),
            Event::Unfaithful(reason) => reason,
            _ => return false,
        };
        if self.is_faithful(question) {
            return false;
        }
        let fde_at = |offset: u64| self.fdes.iter().find(|fde| fde.offset == offset);
        match *reason {
            Reason::Header(error) => {
                (self.base.indirect && error == Error::new(19, 0))
                    || (!self.is_searchable() && error == Error::new(14, self.encoding.into()))
            }
            Reason::Row { row, error } => match plain::table_row(question, row as usize) {
                None => false,
                Some(Err(other)) => {
                    let is_indirect = self.encoding & 128 != 0 && error == Error::new(19, 0);
                    error.status == other.status || is_indirect
                }
                Some(Ok((start, target))) => {
                    (start.indirect || target.indirect) && error == Error::new(19, 0)
                }
            },
            Reason::Order {
                row,
                before,
                start: own,
            } => {
                row > 0
                    && start(row - 1) == Some(before)
                    && start(row) == Some(own)
                    && own <= before
            }
            Reason::Entry { error, .. } => self.error == Some(error),
            Reason::Fde { offset, error } => self.refused_fdes.contains(&(offset, error)),
            Reason::NoRow { offset, address } => {
                fde_at(offset).is_some_and(|fde| fde.start == address && !self.has_row(fde))
            }
            Reason::Overlap { offset, end, next } => {
                let is_next = |fde| self.overlap(question, fde) == Some(next);
                fde_at(offset).is_some_and(|fde| fde.end == end && is_next(fde))
            }
            Reason::Count { rows, fdes } => {
                rows == self.count && fdes == self.fdes.len() as u64 && fdes < rows
            }
        }
    }
}
