//! The C library of gimli_cfi: rows of addresses, as `cfi_c.h` declares its calls.
use crate::answer::{Answer, Cfa, Error, Row, Rule};
use crate::question::Question;
use std::ffi::c_void;

#[repr(C)]
struct RawContext {
    at: *mut c_void,
    live: bool,
}

#[repr(C)]
struct RawBases {
    section: u64,
    header: u64,
    text: u64,
    data_base: u64,
    big_endian: bool,
    debug_frame: bool,
    aarch64: bool,
    address_size: u8,
}

#[repr(C)]
#[derive(Clone, Copy, PartialEq, Debug)]
struct RawRow {
    start: u64,
    end: u64,
    args_size: u64,
    cfa_kind: u32,
    cfa_register: u32,
    cfa_offset: i64,
    cfa_place: u64,
    cfa_length: u64,
    refused: u64,
    status: i32,
}

#[repr(C)]
#[derive(Clone, Copy, PartialEq, Debug)]
struct RawRule {
    kind: u64,
    value: i64,
    place: u64,
    length: u64,
}

unsafe extern "C" {
    fn cfi_context_new(context: *mut RawContext) -> i32;
    fn cfi_context_free(context: *mut RawContext);
    fn cfi_row_by_scan(
        context: *mut RawContext,
        section: *const u8,
        section_len: usize,
        bases: *const RawBases,
        address: u64,
        row: *mut RawRow,
        rules: *mut RawRule,
        rules_len: usize,
    ) -> i32;
    fn cfi_row_by_table(
        context: *mut RawContext,
        eh_frame: *const u8,
        eh_frame_len: usize,
        header: *const u8,
        header_len: usize,
        bases: *const RawBases,
        address: u64,
        row: *mut RawRow,
        rules: *mut RawRule,
        rules_len: usize,
    ) -> i32;
    fn cfi_rows(
        context: *mut RawContext,
        section: *const u8,
        section_len: usize,
        header: *const u8,
        header_len: usize,
        bases: *const RawBases,
        addresses: *const u64,
        addresses_len: usize,
        rows: *mut RawRow,
        rows_len: usize,
        rules: *mut RawRule,
        rules_len: usize,
        per_row: usize,
    ) -> usize;
    fn cfi_status_name(status: i32, name: *mut u8, name_len: usize) -> usize;
}

/// The name of a status, as in `UnexpectedEof`.
pub fn status_name(status: i32) -> String {
    let mut name = [0; 64];
    // SAFETY: the array has as many bytes as is said, and they are only written during the call.
    let length = unsafe { cfi_status_name(status, name.as_mut_ptr(), name.len()) };
    String::from_utf8_lossy(&name[..length.min(name.len())]).into_owned()
}

/// What the arrays hold before a call: values that no call writes by chance.
const UNTOUCHED_RULE: RawRule = RawRule {
    kind: 0x5a5a,
    value: 0x5a5a,
    place: 0x5a5a,
    length: 0x5a5a,
};
const UNTOUCHED_ROW: RawRow = RawRow {
    start: 0x5a5a,
    end: 0x5a5a,
    args_size: 0x5a5a,
    cfa_kind: 0x5a5a,
    cfa_register: 0x5a5a,
    cfa_offset: 0x5a5a,
    cfa_place: 0x5a5a,
    cfa_length: 0x5a5a,
    refused: 0x5a5a,
    status: 0x5a5a,
};

/// A context of the library, with the arrays that its calls write.
pub struct Context {
    raw: RawContext,
    rows: Vec<RawRow>,
    rules: Vec<RawRule>,
}

impl Context {
    pub fn new() -> Context {
        let mut raw = RawContext {
            at: std::ptr::null_mut(),
            live: false,
        };
        // SAFETY: a context of zeros is one that isn't there yet.
        assert_eq!(unsafe { cfi_context_new(&mut raw) }, 0, "cfi_context_new");
        Context {
            raw,
            rows: Vec::new(),
            rules: Vec::new(),
        }
    }

    /// The row of an address, with the rules of the first `registers` registers. It is found by
    /// the header's table where there is a header, and otherwise by a scan.
    pub fn row(&mut self, question: &Question, address: u64, registers: usize) -> Answer {
        self.prepare(1, registers);
        let Question {
            section, header, ..
        } = *question;
        let bases = bases_of(question);
        let (at, length) = (section.as_ptr(), section.len());
        let (row, rules) = (self.rows.as_mut_ptr(), self.rules.as_mut_ptr());
        let context = &mut self.raw;
        // SAFETY: each array has at least the length that is passed, and `prepare` made one row.
        let status = unsafe {
            match header {
                None => {
                    cfi_row_by_scan(context, at, length, &bases, address, row, rules, registers)
                }
                Some(header) => cfi_row_by_table(
                    context,
                    at,
                    length,
                    header.as_ptr(),
                    header.len(),
                    &bases,
                    address,
                    row,
                    rules,
                    registers,
                ),
            }
        };
        assert_eq!(status, self.rows[0].status, "the status that is returned");
        self.check_ends(1, registers);
        answer_of(&self.rows[0], &self.rules[..registers])
    }

    /// The rows of many addresses by one call, each with the rules of the first `per_row`
    /// registers. An empty header is none for this call.
    pub fn rows(&mut self, question: &Question, addresses: &[u64], per_row: usize) -> Vec<Answer> {
        let count = addresses.len();
        self.prepare(count, count * per_row);
        let Question {
            section, header, ..
        } = *question;
        let (header, bases) = (header.unwrap_or_default(), bases_of(question));
        // SAFETY: each array has at least the length that is passed.
        let written = unsafe {
            cfi_rows(
                &mut self.raw,
                section.as_ptr(),
                section.len(),
                header.as_ptr(),
                header.len(),
                &bases,
                addresses.as_ptr(),
                count,
                self.rows.as_mut_ptr(),
                count,
                self.rules.as_mut_ptr(),
                count * per_row,
                per_row,
            )
        };
        assert_eq!(written, count, "the number of rows that is returned");
        self.check_ends(count, count * per_row);
        let rules = |i: usize| &self.rules[i * per_row..][..per_row];
        (0..count)
            .map(|i| answer_of(&self.rows[i], rules(i)))
            .collect()
    }

    /// Makes room for rows and rules, and one more of each.
    fn prepare(&mut self, rows: usize, rules: usize) {
        self.rows.clear();
        self.rows.resize(rows + 1, UNTOUCHED_ROW);
        self.rules.clear();
        self.rules.resize(rules + 1, UNTOUCHED_RULE);
    }

    /// Checks that nothing was written past the room.
    fn check_ends(&self, rows: usize, rules: usize) {
        assert_eq!(self.rows[rows], UNTOUCHED_ROW, "past the rows");
        assert_eq!(self.rules[rules], UNTOUCHED_RULE, "past the rules");
    }
}

impl Default for Context {
    fn default() -> Context {
        Context::new()
    }
}

impl Drop for Context {
    fn drop(&mut self) {
        // SAFETY: `new` made the context, and it isn't used afterwards.
        unsafe { cfi_context_free(&mut self.raw) };
    }
}

fn bases_of(question: &Question) -> RawBases {
    let settings = &question.settings;
    assert_eq!(settings.unset, 0, "the C library has no absent bases");
    RawBases {
        section: settings.section,
        header: settings.header,
        text: settings.text,
        data_base: settings.data,
        big_endian: settings.big_endian,
        debug_frame: settings.debug_frame,
        aarch64: settings.aarch64,
        address_size: settings.address_size,
    }
}

fn answer_of(row: &RawRow, rules: &[RawRule]) -> Answer {
    if row.status != 0 {
        return Err(Error::new(row.status, row.refused));
    }
    assert_eq!(row.refused, 0, "a row carries no value of an error");
    let rules = rules.iter().enumerate().filter(|(_, rule)| rule.kind != 0);
    Ok(Row {
        start: row.start,
        end: row.end,
        args_size: row.args_size,
        cfa: match row.cfa_kind {
            0 => Cfa::RegisterAndOffset(row.cfa_register, row.cfa_offset),
            1 => Cfa::Expression(row.cfa_place, row.cfa_length),
            kind => panic!("a CFA of kind {kind}"),
        },
        rules: rules
            .map(|(register, rule)| (register as u16, rule_of(rule)))
            .collect(),
    })
}

fn rule_of(rule: &RawRule) -> Rule {
    match rule.kind {
        1 => Rule::Undefined,
        2 => Rule::SameValue,
        3 => Rule::Offset(rule.value),
        4 => Rule::ValOffset(rule.value),
        5 => Rule::Register(rule.value),
        6 => Rule::Expression(rule.place, rule.length),
        7 => Rule::ValExpression(rule.place, rule.length),
        8 => Rule::Architectural,
        9 => Rule::Constant(rule.place),
        kind => Rule::Unknown(kind),
    }
}
