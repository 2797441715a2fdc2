//! The sections of an ELF file, of 32 or 64 bits and either byte order.
use std::ops::Range;

const SHT_NOBITS: u64 = 8;
const SHF_COMPRESSED: u64 = 0x800;
const EM_AARCH64: u64 = 183;

pub struct Elf<'a> {
    bytes: &'a [u8],
    pub big_endian: bool,
    /// In bytes: 4 or 8.
    pub address_size: u8,
    pub aarch64: bool,
    sections: Vec<Header>,
    /// The section of names.
    names: usize,
}

/// What the comparison needs of a section header.
struct Header {
    name: usize,
    kind: u64,
    flags: u64,
    address: u64,
    place: Range<usize>,
}

/// A section's address and bytes.
#[derive(Clone, Copy)]
pub struct Section<'a> {
    pub address: u64,
    pub bytes: &'a [u8],
}

impl<'a> Elf<'a> {
    /// Returns `None` for a file that is not ELF, or whose section headers can't be read.
    pub fn parse(bytes: &'a [u8]) -> Option<Elf<'a>> {
        let ident = bytes.get(..16)?;
        if &ident[..4] != b"\x7fELF" || !(1..=2).contains(&ident[4]) || !(1..=2).contains(&ident[5])
        {
            return None;
        }
        let (big_endian, wide) = (ident[5] == 2, ident[4] == 2);
        let number = |place, size| number(bytes, big_endian, place, size);
        let (table, sizes) = if wide {
            (number(40, 8)?, 58)
        } else {
            (number(32, 4)?, 46)
        };
        let (size, count) = (number(sizes, 2)?, number(sizes + 2, 2)?);
        let mut elf = Elf {
            bytes,
            big_endian,
            address_size: if wide { 8 } else { 4 },
            aarch64: number(18, 2)? == EM_AARCH64,
            sections: Vec::new(),
            names: number(sizes + 4, 2)? as usize,
        };
        for i in 0..count {
            let place = usize::try_from(table.checked_add(i * size)?).ok()?;
            elf.sections.push(elf.header(place)?);
        }
        Some(elf)
    }

    fn header(&self, place: usize) -> Option<Header> {
        let word = usize::from(self.address_size);
        let number = |offset, size| number(self.bytes, self.big_endian, place + offset, size);
        let field = |i: usize| number(8 + i * word, word);
        let (start, length) = (field(2)?, field(3)?);
        Some(Header {
            name: number(0, 4)? as usize,
            kind: number(4, 4)?,
            flags: field(0)?,
            address: field(1)?,
            place: usize::try_from(start).ok()?
                ..usize::try_from(start.checked_add(length)?).ok()?,
        })
    }

    /// The section of a name, unless it has no bytes in the file or is compressed.
    pub fn section(&self, name: &str) -> Option<Section<'a>> {
        let names = self
            .bytes
            .get(self.sections.get(self.names)?.place.clone())?;
        let is_named = |header: &&Header| {
            let rest = names.get(header.name..).unwrap_or_default();
            rest.strip_prefix(name.as_bytes())
                .is_some_and(|rest| rest.first() == Some(&0))
        };
        let header = self.sections.iter().find(is_named)?;
        if header.kind == SHT_NOBITS || header.flags & SHF_COMPRESSED != 0 {
            return None;
        }
        let bytes = self.bytes.get(header.place.clone())?;
        Some(Section {
            address: header.address,
            bytes,
        })
    }

    /// The address of a section, or 0 without one.
    pub fn address(&self, name: &str) -> u64 {
        self.section(name).map_or(0, |section| section.address)
    }
}

/// The number of up to 8 bytes at a place.
pub fn number(bytes: &[u8], big_endian: bool, place: usize, size: usize) -> Option<u64> {
    let bytes = bytes.get(place..place.checked_add(size)?)?;
    let add = |sum: u64, byte: &u8| sum << 8 | u64::from(*byte);
    Some(if big_endian {
        bytes.iter().fold(0, add)
    } else {
        bytes.iter().rev().fold(0, add)
    })
}
