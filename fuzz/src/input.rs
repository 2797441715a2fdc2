//! What the fuzzer's bytes mean. Their numbers are little-endian:
//!
//! | Bytes | Meaning |
//! |---|---|
//! | 0 | flags, see below |
//! | 1 | the length of the header; 0: a header is made whose table lists the first FDEs |
//! | 2..42 | five numbers of 8 bytes: the address, and those of section, header, text and data |
//! | 42 | which bases are not set, by the bits of `Settings::unset`; bits 6 and 7: the storage |
//! | 43 | which requests of memory are refused: bits 0 to 6 the first; bit 7: all after it too |
//! | 44.. | the header, then the section or its pieces |
//!
//! Flags: bits 0 and 1 are the size of an address as a power of 2; bit 2 is big-endian; bit 3 is
//! `.eh_frame`; bit 4 is AArch64; bit 5 asks by the table of a header, of `.eh_frame`; bit 6 puts
//! the section together of pieces; bit 7 asks for the rules of all registers at the first address.
//!
//! Pieces end at the two bytes 5c ff. The first byte of a piece tells what it is: bit 0 an FDE, and
//! otherwise a CIE; bit 1 in the 64-bit format; bit 2 bytes that are taken as they are; from bit 3
//! on, for an FDE, how many CIEs back its own is. The rest follows length and id. These are filled
//! in, so that a section can still be read after the length of a piece has changed. Where both of
//! the first bits and bit 2 are set, the pieces before it are put once more, as often as the first
//! two bytes that follow say, up to the longest section. So a short input has a large section.
use crate::memory::Refusal;
use crate::our_answers::Storage;
use comparison::answer::Fde;
use comparison::question::{Question, Settings};

pub struct Input {
    pub settings: Settings,
    /// Whether the rules of all registers are asked for at the first address.
    pub all: bool,
    pub address: u64,
    pub section: Vec<u8>,
    /// Empty where a header is to be made.
    pub header: Option<Vec<u8>>,
    pub storage: Storage,
    pub refusal: Refusal,
    /// Which bases are not set in `settings_without`.
    unset: u8,
}

impl Input {
    /// The settings with the bases that the input leaves out.
    pub fn settings_without(&self) -> Settings {
        Settings {
            unset: self.unset,
            ..self.settings
        }
    }
}

/// Bytes before the header, which each input has.
pub const FIXED: usize = 44;
/// Bytes of a section that is put together of pieces.
const LONGEST: usize = 80_000;
const SEPARATOR: [u8; 2] = [0x5c, 0xff];

/// Returns `None` for too few bytes.
pub fn read(data: &[u8]) -> Option<Input> {
    let (fixed, rest) = data.split_at_checked(FIXED)?;
    let flag = |bit: u8| fixed[0] >> bit & 1 != 0;
    let number =
        |i: usize| u64::from_le_bytes(fixed[2 + 8 * i..][..8].try_into().expect("8 bytes"));
    let by_table = flag(5);
    let settings = Settings {
        debug_frame: !flag(3) && !by_table,
        big_endian: flag(2),
        address_size: 1 << (fixed[0] & 3),
        aarch64: flag(4),
        section: number(1),
        header: number(2),
        text: number(3),
        data: number(4),
        unset: 0,
    };
    let request = u64::from(fixed[43] & 127);
    let length = if by_table {
        usize::from(fixed[1]).min(rest.len())
    } else {
        0
    };
    let (header, section) = rest.split_at(length);
    Some(Input {
        settings,
        all: flag(7),
        address: number(0),
        section: if flag(6) {
            assemble(&settings, section)
        } else {
            section.to_vec()
        },
        header: by_table.then(|| header.to_vec()),
        storage: match fixed[42] >> 6 {
            0 => Storage::Heap,
            3 => Storage::Small,
            _ => Storage::Growing,
        },
        refusal: if fixed[43] < 128 {
            Refusal::One(request)
        } else {
            Refusal::From(request)
        },
        unset: fixed[42] & 63,
    })
}

/// A section that is put together of pieces.
fn assemble(settings: &Settings, mut pieces: &[u8]) -> Vec<u8> {
    let (mut section, mut cies, mut before) = (Vec::new(), Vec::new(), Vec::new());
    while !pieces.is_empty() {
        let end = pieces.windows(2).position(|pair| pair == SEPARATOR);
        let piece = &pieces[..end.unwrap_or(pieces.len())];
        pieces = &pieces[end.map_or(pieces.len(), |end| end + 2)..];
        let Some((&kind, body)) = piece.split_first() else {
            continue;
        };
        if kind & 7 != 7 {
            before.push((kind, body));
            put_piece(&mut section, settings, &mut cies, kind, body);
            continue;
        }
        let times = body
            .first_chunk()
            .map_or(0, |bytes| u16::from_le_bytes(*bytes));
        for _ in 0..times {
            let longest = before
                .iter()
                .map(|(_, body)| body.len() + 20)
                .sum::<usize>();
            if section.len() + longest > LONGEST {
                break;
            }
            for (kind, body) in &before {
                put_piece(&mut section, settings, &mut cies, *kind, body);
            }
        }
    }
    section
}

fn put_piece(
    section: &mut Vec<u8>,
    settings: &Settings,
    cies: &mut Vec<u64>,
    kind: u8,
    body: &[u8],
) {
    if kind & 4 == 0 {
        put_entry(section, settings, cies, kind, body);
    } else {
        section.extend(body);
    }
}

/// Puts a CIE or an FDE behind the section. `cies` has the offsets of the CIEs before it.
fn put_entry(
    section: &mut Vec<u8>,
    settings: &Settings,
    cies: &mut Vec<u64>,
    kind: u8,
    body: &[u8],
) {
    let wide = kind & 2 != 0;
    let id_size = if wide && settings.debug_frame { 8 } else { 4 };
    let offset = section.len() as u64;
    if wide {
        put(section, settings, 0xffff_ffff, 4);
    }
    put(
        section,
        settings,
        body.len() as u64 + id_size as u64,
        if wide { 8 } else { 4 },
    );
    let id = if kind & 1 != 0 {
        let back = usize::from(kind >> 3);
        let cie = cies.len().checked_sub(1 + back).map_or(0, |i| cies[i]);
        if settings.debug_frame {
            cie
        } else {
            section.len() as u64 - cie
        }
    } else {
        cies.push(offset);
        if settings.debug_frame { u64::MAX } else { 0 }
    };
    put(section, settings, id, id_size);
    section.extend(body);
}

/// A header whose table lists the FDEs by rising start. Its pointers have four bytes and count from
/// the header, as linkers write them, or eight bytes.
pub fn build_header(question: &Question, fdes: &[Fde]) -> Vec<u8> {
    let settings = &question.settings;
    let row = |fde: &Fde| (fde.start, settings.section.wrapping_add(fde.offset as u64));
    let mut rows: Vec<_> = fdes.iter().map(row).collect();
    rows.sort();
    let short = settings.header & 1 == 0;
    let (mut header, base, size) = if short {
        (vec![1, 0x1b, 3, 0x3b], settings.header, 4)
    } else {
        (vec![1, 4, 3, 4], 0, 8)
    };
    let place = if short { 4 } else { 0 };
    put(
        &mut header,
        settings,
        settings.section.wrapping_sub(base).wrapping_sub(place),
        size,
    );
    put(&mut header, settings, rows.len() as u64, 4);
    for (start, target) in rows {
        put(&mut header, settings, start.wrapping_sub(base), size);
        put(&mut header, settings, target.wrapping_sub(base), size);
    }
    header
}

/// Puts the low bytes of a number behind the others.
fn put(bytes: &mut Vec<u8>, settings: &Settings, number: u64, size: usize) {
    if settings.big_endian {
        bytes.extend(&number.to_be_bytes()[8 - size..]);
    } else {
        bytes.extend(&number.to_le_bytes()[..size]);
    }
}
