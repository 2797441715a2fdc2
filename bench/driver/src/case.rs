//! A section with its header and the addresses that are looked up in it.
use gimli::{BaseAddresses, BigEndian, CieOrFde, EhFrame, EndianSlice, Endianity, LittleEndian, UnwindSection};
use std::fs;

/// The measures; the first eight by their number in crates/cfi_beside_gimli.
pub const NAMES: [&str; 10] =
    ["entries", "fdes", "walk", "scan", "lookup", "table", "hdr_walk", "rules", "compiled", "compile"];

const SCAN: usize = 3;
const LOOKUP: usize = 4;
const TABLE: usize = 5;
/// A row by the table of the header by gimli, and by a compiled table.
pub const COMPILED: usize = 8;
/// All FDEs and then all rows by gimli, and a compiled table of them.
pub const COMPILE: usize = 9;

pub struct Case {
    pub big: bool,
    pub section: Vec<u8>,
    pub base: u64,
    /// Empty where there is none.
    pub header: Vec<u8>,
    pub header_base: u64,
    scanned: Vec<u64>,
    looked_up: Vec<u64>,
}

impl Case {
    /// The case of the words ORDER BASE SECTION [HEADER HEADERBASE].
    pub fn read(words: &[&str]) -> Case {
        let big = words[0] == "be";
        let base = number(words[1]);
        let section = contents(words[2]);
        let (header, header_base) = match words[3..] {
            [] => (Vec::new(), 0),
            [header, header_base] => (contents(header), number(header_base)),
            _ => panic!("HEADER and HEADERBASE go together"),
        };
        let (scanned, looked_up) = match fs::read(format!("{}.addresses", words[2])) {
            Ok(given) => (numbers(&given), numbers(&given)),
            Err(_) => random_addresses(&extents_of(big, &section, base)),
        };
        Case { big, section, base, header, header_base, scanned, looked_up }
    }

    /// Whether a measure is one of the header's table.
    pub fn is_of_header(measure: usize) -> bool {
        (LOOKUP..=6).contains(&measure) || measure == COMPILED
    }

    /// Those that the case can be measured by.
    pub fn measures(&self) -> impl Iterator<Item = usize> {
        (0..NAMES.len()).filter(|measure| !self.header.is_empty() || !Case::is_of_header(*measure))
    }

    /// The addresses that a measure looks up.
    pub fn addresses(&self, measure: usize) -> &[u64] {
        match measure {
            SCAN => &self.scanned,
            LOOKUP | TABLE | COMPILED => &self.looked_up,
            _ => &[],
        }
    }
}

fn contents(path: &str) -> Vec<u8> {
    fs::read(path).unwrap_or_else(|why| panic!("{path}: {why}"))
}

fn numbers(bytes: &[u8]) -> Vec<u64> {
    bytes.as_chunks().0.iter().map(|number| u64::from_le_bytes(*number)).collect()
}

pub fn number(word: &str) -> u64 {
    let number = match word.strip_prefix("0x") {
        Some(digits) => u64::from_str_radix(digits, 16),
        None => word.parse(),
    };
    number.unwrap_or_else(|why| panic!("{word}: {why}"))
}

/// Initial address and length of each FDE that contains addresses.
fn extents_of(big: bool, section: &[u8], base: u64) -> Vec<(u64, u64)> {
    if big { extents(BigEndian, section, base) } else { extents(LittleEndian, section, base) }
}

fn extents<E: Endianity>(endian: E, section: &[u8], base: u64) -> Vec<(u64, u64)> {
    let bases = BaseAddresses::default().set_eh_frame(base);
    let mut frame = EhFrame::from(EndianSlice::new(section, endian));
    frame.set_address_size(8);
    let mut extents = Vec::new();
    let mut entries = frame.entries(&bases);
    while let Ok(Some(entry)) = entries.next() {
        if let CieOrFde::Fde(partial) = entry {
            let Ok(fde) = partial.parse(EhFrame::cie_from_offset) else { break };
            if fde.end_address() > fde.initial_address() {
                extents.push((fde.initial_address(), fde.len()));
            }
        }
    }
    extents
}

/// Addresses for scans, fewer where there are more FDEs to go through, and for lookups. They are the same in each run.
fn random_addresses(extents: &[(u64, u64)]) -> (Vec<u64>, Vec<u64>) {
    if extents.is_empty() {
        return (Vec::new(), Vec::new());
    }
    let scans = (4_000_000 / extents.len()).clamp(5, 20_000);
    (addresses_in(extents, scans), addresses_in(extents, 100_000))
}

fn addresses_in(extents: &[(u64, u64)], number: usize) -> Vec<u64> {
    let mut random = SplitMix(1);
    (0..number)
        .map(|_| {
            let (start, length) = extents[random.below(extents.len() as u64) as usize];
            start + random.below(length)
        })
        .collect()
}

/// Steele, Lea and Flood's generator of random numbers.
struct SplitMix(u64);

impl SplitMix {
    fn next(&mut self) -> u64 {
        self.0 = self.0.wrapping_add(0x9e37_79b9_7f4a_7c15);
        let mut z = self.0;
        z = (z ^ (z >> 30)).wrapping_mul(0xbf58_476d_1ce4_e5b9);
        z = (z ^ (z >> 27)).wrapping_mul(0x94d0_49bb_1331_11eb);
        z ^ (z >> 31)
    }

    fn below(&mut self, end: u64) -> u64 {
        ((u128::from(self.next()) * u128::from(end)) >> 64) as u64
    }
}
