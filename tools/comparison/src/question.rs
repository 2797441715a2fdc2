//! What both libraries are asked.
use std::fmt::Write;

/// How a section is read, and the addresses from which its pointers count.
#[derive(Clone, Copy, Debug)]
pub struct Settings {
    /// `.debug_frame`; otherwise `.eh_frame`.
    pub debug_frame: bool,
    pub big_endian: bool,
    /// In bytes: 1, 2, 4 or 8.
    pub address_size: u8,
    /// The opcodes are those of AArch64.
    pub aarch64: bool,
    /// The address of the section.
    pub section: u64,
    /// The address of `.eh_frame_hdr`.
    pub header: u64,
    /// The bases of text and data.
    pub text: u64,
    pub data: u64,
    /// Which bases are not set, as `TEXT` and the others say. The C library is asked with all.
    pub unset: u8,
}

/// The section's address, text and data, for its entries.
pub const SECTION: u8 = 1;
pub const TEXT: u8 = 2;
pub const DATA: u8 = 4;
/// The header's address, text and data, for its own pointers. Its data is at its address.
pub const HEADER: u8 = 8;
pub const HEADER_TEXT: u8 = 16;
pub const HEADER_DATA: u8 = 32;

impl Settings {
    /// Those of the passes of crates/cfi_beside_gimli: no bases of text and data, and no vendor.
    pub fn of_passes(self) -> Settings {
        Settings {
            aarch64: false,
            unset: TEXT | DATA | HEADER_TEXT,
            ..self
        }
    }

    /// The base, unless it is not set.
    pub fn base(&self, base: u8) -> Option<u64> {
        let value = match base {
            SECTION => self.section,
            TEXT | HEADER_TEXT => self.text,
            DATA => self.data,
            _ => self.header,
        };
        (self.unset & base == 0).then_some(value)
    }
}

/// A section, and the header by whose table rows are found. Without one the section is scanned.
#[derive(Clone, Copy)]
pub struct Question<'a> {
    pub settings: Settings,
    pub section: &'a [u8],
    pub header: Option<&'a [u8]>,
}

impl Question<'_> {
    /// The words of the program cfi_rows for an address, then a bar and its input in hexadecimal.
    /// A slash separates the section from the header; the program takes a line end there.
    pub fn command(&self, address: u64) -> String {
        let settings = &self.settings;
        let mut line = format!(
            "{} {} {} {address:#x}",
            if settings.debug_frame {
                "debug_frame"
            } else {
                "eh_frame"
            },
            if settings.big_endian { "be" } else { "le" },
            settings.address_size,
        );
        for (name, base) in [("section", SECTION), ("text", TEXT), ("data", DATA)] {
            if let Some(base) = settings.base(base) {
                let _ = write!(line, " {name}={base:#x}");
            }
        }
        if self.header.is_some() {
            let _ = write!(line, " header={:#x}", settings.header);
        }
        if settings.aarch64 {
            line.push_str(" vendor=aarch64");
        }
        let _ = write!(line, " | {}", hexadecimal(self.section));
        if let Some(header) = self.header {
            let _ = write!(line, " / {}", hexadecimal(header));
        }
        line
    }
}

fn hexadecimal(bytes: &[u8]) -> String {
    bytes.iter().map(|byte| format!("{byte:02x}")).collect()
}
