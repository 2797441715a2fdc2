//! A section of one CIE and one FDE, cut out of a larger one. A scan of it is short.
use crate::elf::number;
use comparison::answer::Fde;
use comparison::question::{Question, Settings};

pub struct Cut {
    settings: Settings,
    section: Vec<u8>,
    /// Where the FDE is.
    pub offset: usize,
}

impl Cut {
    /// Cuts out an FDE that was read, and its CIE. The section's address is chosen so that the FDE
    /// keeps its own; what the CIE's pointers count from isn't kept.
    pub fn new(question: &Question, fde: &Fde) -> Cut {
        let (cie, _) = entry_at(question, fde.cie_offset);
        let (entry, pointer) = entry_at(question, fde.offset);
        let mut section = [cie, entry].concat();
        let offset = cie.len();
        let place = offset + pointer;
        let wide = pointer == 12 && question.settings.debug_frame;
        let value = if question.settings.debug_frame {
            0
        } else {
            place as u64
        };
        put(
            &mut section[place..],
            value,
            wide,
            question.settings.big_endian,
        );
        let moved = fde.offset.wrapping_sub(offset) as u64;
        let address = question.settings.section.wrapping_add(moved);
        let settings = Settings {
            section: address,
            ..question.settings
        };
        Cut {
            settings,
            section,
            offset,
        }
    }

    /// The row of an address by a scan.
    pub fn question(&self) -> Question<'_> {
        Question {
            settings: self.settings,
            section: &self.section,
            header: None,
        }
    }
}

/// The bytes of the entry at an offset, and where in them its id or CIE pointer is.
fn entry_at<'a>(question: &Question<'a>, offset: usize) -> (&'a [u8], usize) {
    let read = |place, size| {
        let found = number(question.section, question.settings.big_endian, place, size);
        found.expect("an entry that was read before")
    };
    let (length, start) = match read(offset, 4) {
        0xffff_ffff => (read(offset + 4, 8), 12),
        length => (length, 4),
    };
    (
        &question.section[offset..offset + start + length as usize],
        start,
    )
}

/// Writes a CIE pointer of 8 bytes, or of 4.
fn put(bytes: &mut [u8], value: u64, wide: bool, big_endian: bool) {
    let size = if wide { 8 } else { 4 };
    if big_endian {
        bytes[..size].copy_from_slice(&value.to_be_bytes()[8 - size..]);
    } else {
        bytes[..size].copy_from_slice(&value.to_le_bytes()[..size]);
    }
}
