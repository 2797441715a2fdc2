use crate::{Error, Section};

/// What a check of a header's table found. Rows are counted from 0, offsets from the beginning of `.eh_frame`.
#[derive(Clone, Copy, Debug, PartialEq, Eq, Hash)]
#[non_exhaustive]
pub enum Verdict {
    /// For every address the row by the table is the one by a scan. The table has so many rows.
    Faithful(u64),
    /// There is no header, or it has no rows.
    NoTable,
    /// The header can't be read before its rows.
    HeaderRefused(Error),
    /// The rows have a format that can't be searched, or the pointer to `.eh_frame` is indirect.
    Unsearchable(Error),
    /// A row can't be read.
    RowRefused {
        /// The index of the row.
        row: u64,
        /// Why.
        error: Error,
    },
    /// A row doesn't start above the one before it.
    NotRising {
        /// The index of the row.
        row: u64,
        /// The start of the row before.
        before: u64,
        /// Its own start.
        start: u64,
    },
    /// A scan can't read an entry.
    EntryRefused {
        /// The offset of the entry.
        offset: u64,
        /// Why.
        error: Error,
    },
    /// An FDE or its CIE can't be read.
    FdeRefused {
        /// The offset of the FDE.
        offset: u64,
        /// Why.
        error: Error,
    },
    /// An FDE has no row.
    FdeWithoutRow {
        /// The offset of the FDE.
        offset: u64,
        /// Its first address.
        address: u64,
    },
    /// An FDE contains the start of the next row.
    Overlap {
        /// The offset of the FDE.
        offset: u64,
        /// The first address after it.
        end: u64,
        /// The start of the next row.
        next: u64,
    },
    /// There are fewer FDEs than rows.
    FewerFdes {
        /// How many rows the table has.
        rows: u64,
        /// How many FDEs the section has.
        fdes: u64,
    },
    /// A verdict that this version doesn't know.
    Unknown(u32),
}

impl Section<'_> {
    /// Checks whether the header's table lists the FDEs of the section faithfully: whether for every address the row by
    /// the table is the one by a scan. Reads the whole section.
    pub fn check(&self) -> Verdict {
        let mut verdict = cfi_sys::CfiVerdict::default();
        unsafe {
            cfi_sys::cfi_check_table(
                self.bytes.as_ptr(),
                self.bytes.len(),
                self.header.as_ptr(),
                self.header.len(),
                &self.bases,
                &mut verdict,
            )
        };
        Verdict::of(&verdict)
    }
}

impl Verdict {
    fn of(verdict: &cfi_sys::CfiVerdict) -> Verdict {
        let error = Error::new(verdict.status, verdict.refused);
        let (first, second, third) = (verdict.first, verdict.second, verdict.third);
        match verdict.kind {
            0 => Verdict::Faithful(first),
            1 => Verdict::NoTable,
            2 => Verdict::HeaderRefused(error),
            3 => Verdict::Unsearchable(error),
            4 => Verdict::RowRefused { row: first, error },
            5 => Verdict::NotRising {
                row: first,
                before: second,
                start: third,
            },
            6 => Verdict::EntryRefused { offset: first, error },
            7 => Verdict::FdeRefused { offset: first, error },
            8 => Verdict::FdeWithoutRow {
                offset: first,
                address: second,
            },
            9 => Verdict::Overlap {
                offset: first,
                end: second,
                next: third,
            },
            10 => Verdict::FewerFdes {
                rows: first,
                fdes: second,
            },
            kind => Verdict::Unknown(kind),
        }
    }
}

#[cfg(test)]
mod tests {
    use super::*;

    /// A CIE and the FDE of 0x1000 to 0x1010 at 0x18, of a section at 0x2000; and its header at 0x1f00.
    #[test]
    fn verdicts() {
        let section = [
            0x14, 0, 0, 0, 0, 0, 0, 0, 1, 0x7a, 0x52, 0, 1, 0x78, 0x10, 1, 0x1b, 0x0c, 7, 8, 0x90, 1, 0, 0, 0x10, 0, 0,
            0, 0x1c, 0, 0, 0, 0xe0, 0xef, 0xff, 0xff, 0x10, 0, 0, 0, 0, 0, 0, 0,
        ];
        let mut header = [
            1, 0x1b, 3, 0x3b, 0xfc, 0, 0, 0, 1, 0, 0, 0, 0, 0xf1, 0xff, 0xff, 0x18, 1, 0, 0,
        ];
        let plain = Section::eh_frame(&section, 0x2000);
        assert_eq!(plain.check(), Verdict::NoTable);
        assert_eq!(plain.with_header(&header, 0x1f00).check(), Verdict::Faithful(1));
        header[12] = 4;
        let without_row = Verdict::FdeWithoutRow {
            offset: 0x18,
            address: 0x1000,
        };
        assert_eq!(plain.with_header(&header, 0x1f00).check(), without_row);
    }
}
