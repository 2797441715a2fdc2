//! Prints the unwind rows at the entry point of an ELF file and of what it defines as `.eh_frame`, by slices of the
//! file alone: `elf [FILE]`, of itself without one. 64 bits and little-endian.
use cfi::{Context, Section, Table};

/// The bytes at an offset of a file, as many as a length says; none where they aren't there.
fn part(file: &[u8], offset: u64, length: u64) -> Option<&[u8]> {
    let start = usize::try_from(offset).ok()?;
    file.get(start..start.checked_add(usize::try_from(length).ok()?)?)
}

/// The number of up to eight bytes at an offset.
fn number(file: &[u8], offset: u64, length: u64) -> Option<u64> {
    Some(
        part(file, offset, length)?
            .iter()
            .rev()
            .fold(0, |sum, byte| sum << 8 | u64::from(*byte)),
    )
}

/// The bytes and the address of the section of a name (gABI, chapter "Sections").
fn section<'f>(file: &'f [u8], name: &str) -> Option<(&'f [u8], u64)> {
    let table = number(file, 0x28, 8)?;
    let (size, count, names) = (number(file, 0x3a, 2)?, number(file, 0x3c, 2)?, number(file, 0x3e, 2)?);
    let header = |index: u64| part(file, table.checked_add(index.checked_mul(size)?)?, 64);
    let names = header(names)?;
    let names = part(file, number(names, 0x18, 8)?, number(names, 0x20, 8)?)?;
    let found = (0..count).filter_map(header).find(|header| {
        let start = number(header, 0, 4).unwrap_or(0) as usize;
        names
            .get(start..)
            .is_some_and(|rest| rest.starts_with(name.as_bytes()) && rest.get(name.len()) == Some(&0))
    })?;
    Some((
        part(file, number(found, 0x18, 8)?, number(found, 0x20, 8)?)?,
        number(found, 0x10, 8)?,
    ))
}

fn print(file: &[u8]) -> Result<(), Box<dyn std::error::Error>> {
    if !file.starts_with(b"\x7fELF\x02\x01") {
        return Err("not a little-endian ELF file of 64 bits".into());
    }
    let (bytes, address) = section(file, ".eh_frame").ok_or("no .eh_frame")?;
    let aarch64 = number(file, 0x12, 2) == Some(183);
    let mut eh_frame = Section::eh_frame(bytes, address).with_aarch64(aarch64);
    let mut table = Table::new(&eh_frame)?;
    if let Some((header, address)) = section(file, ".eh_frame_hdr") {
        eh_frame = eh_frame.with_header(header, address);
    }
    let entry = number(file, 0x18, 8).ok_or("no entry point")?;
    let row = Context::new()?.row::<35>(&eh_frame, entry)?;
    println!("{row}");
    // A table has what a scan has for every address, but the addresses of the row.
    let by_table = table.row::<35>(entry)?;
    assert_eq!((by_table.cfa, by_table.rules), (row.cfa, row.rules));
    Ok(())
}

fn main() -> Result<(), Box<dyn std::error::Error>> {
    let name = std::env::args_os().nth(1).unwrap_or_else(|| "/proc/self/exe".into());
    print(&std::fs::read(name)?)
}
