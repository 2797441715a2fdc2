/// A section of call frames: its bytes, where it lies, and how its numbers are read. Without further calls it is that
/// of a little-endian program with addresses of 8 bytes.
#[derive(Clone, Copy, Debug)]
pub struct Section<'a> {
    pub(crate) bytes: &'a [u8],
    /// Empty: none.
    pub(crate) header: &'a [u8],
    pub(crate) bases: cfi_sys::CfiBases,
}

impl<'a> Section<'a> {
    /// Returns `.debug_frame` of these bytes.
    pub fn debug_frame(bytes: &'a [u8]) -> Section<'a> {
        Section::new(bytes, 0, true)
    }

    /// Returns `.eh_frame` of these bytes, which lies at this address.
    pub fn eh_frame(bytes: &'a [u8], address: u64) -> Section<'a> {
        Section::new(bytes, address, false)
    }

    fn new(bytes: &'a [u8], section: u64, debug_frame: bool) -> Section<'a> {
        let aarch64 = cfg!(target_arch = "aarch64");
        let bases = cfi_sys::CfiBases {
            section,
            debug_frame,
            aarch64,
            address_size: 8,
            ..Default::default()
        };
        Section {
            bytes,
            header: &[],
            bases,
        }
    }

    /// With `.eh_frame_hdr` of these bytes at this address: rows are then found by its table, if it has one. Where the
    /// table lists the FDEs faithfully they are those of a scan. Without effect for `.debug_frame`, and for no bytes.
    pub fn with_header(mut self, bytes: &'a [u8], address: u64) -> Section<'a> {
        self.header = if self.bases.debug_frame { &[] } else { bytes };
        self.bases.header = address;
        self
    }

    /// With the base of text-relative pointers.
    pub fn with_text(mut self, address: u64) -> Section<'a> {
        self.bases.text = address;
        self
    }

    /// With the base of data-relative pointers, the address of `.got`.
    pub fn with_data(mut self, address: u64) -> Section<'a> {
        self.bases.data_base = address;
        self
    }

    /// With big-endian numbers.
    pub fn big_endian(mut self) -> Section<'a> {
        self.bases.big_endian = true;
        self
    }

    /// With addresses of so many bytes: 1, 2, 4 or 8. Another size is an error of each lookup.
    pub fn with_address_size(mut self, size: u8) -> Section<'a> {
        self.bases.address_size = size;
        self
    }

    /// With the opcodes of AArch64, or without: by default those of the machine that this is compiled for.
    pub fn with_aarch64(mut self, aarch64: bool) -> Section<'a> {
        self.bases.aarch64 = aarch64;
        self
    }
}
