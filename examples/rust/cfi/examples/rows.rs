//! Prints the rows of a function as the program cfi_rows does: from `.debug_frame`, and from `.eh_frame` by the table
//! of its header. Each address is looked up alone, among all, and in a table of the section.
use cfi::{Context, Result, Row, Section, Table};

const ADDRESSES: [u64; 4] = [0x1000, 0x1002, 0x1004, 0x1020];

fn bytes(hexadecimal: &str) -> Vec<u8> {
    let digits: Vec<u8> = hexadecimal
        .chars()
        .filter_map(|digit| digit.to_digit(16))
        .map(|digit| digit as u8)
        .collect();
    digits.chunks(2).map(|pair| pair[0] * 16 + pair[1]).collect()
}

fn print_rows(context: &mut Context, section: &Section<'_>) -> Result<()> {
    let mut table = Table::new(section)?;
    let among_all = context.rows::<17>(section, &ADDRESSES);
    for (address, among_all) in ADDRESSES.into_iter().zip(among_all) {
        let alone = context.row::<17>(section, address);
        assert_eq!(alone, among_all);
        assert_eq!(
            table.row(address),
            alone.map(|row| Row {
                start: 0,
                end: 0,
                ..row
            })
        );
        match alone {
            Ok(row) => println!("{row}"),
            Err(error) => println!("refused {}", error.kind()),
        }
    }
    Ok(())
}

fn main() -> Result<()> {
    let mut context = Context::new()?;
    let debug_frame = bytes(include_str!("../../debug_frame.hex"));
    print_rows(&mut context, &Section::debug_frame(&debug_frame))?;

    // .eh_frame in the first line, at 0x2000, and .eh_frame_hdr in the second, at 0x1f00
    let lines: Vec<Vec<u8>> = include_str!("../../eh_frame.hex").lines().map(bytes).collect();
    print_rows(
        &mut context,
        &Section::eh_frame(&lines[0], 0x2000).with_header(&lines[1], 0x1f00),
    )
}
