use std::fmt;

/// An error of a section: which, and the value that it carries.
#[derive(Clone, Copy, Debug, PartialEq, Eq, Hash)]
pub struct Error {
    kind: ErrorKind,
    carries: u64,
}

/// Which error it is, by the library's names, which are those of the Rust crate gimli where that has them.
#[derive(Clone, Copy, Debug, PartialEq, Eq, Hash)]
#[non_exhaustive]
pub enum ErrorKind {
    /// The bytes ended too early. Carries the place of the read that failed.
    UnexpectedEof,
    /// An unsigned LEB128 number takes more than ten bytes or 64 bits.
    BadUnsignedLeb128,
    /// A signed LEB128 number takes more than ten bytes or 64 bits.
    BadSignedLeb128,
    /// An initial length of at least 0xfffffff0 that does not mark the 64-bit format. Carries the length.
    UnknownReservedLength,
    /// An address size other than 1, 2, 4 and 8. Carries the size.
    UnsupportedAddressSize,
    /// A length, an id or a product does not fit the offset type of the reader.
    UnsupportedOffset,
    /// A register above 65535. Carries the register.
    UnsupportedRegister,
    /// A sum is above the greatest address of the address size, for example where an instruction advances the location.
    AddressOverflow,
    /// The version of a CIE is not 1, 3 or 4, or that of `.eh_frame_hdr` is not 1. Carries the version.
    UnknownVersion,
    /// A CIE of version 4 has segment selectors. Carries their size.
    UnsupportedSegmentSize,
    /// The augmentation string of a CIE has an unknown letter, or one out of place.
    UnknownAugmentation,
    /// A byte that should be a pointer encoding is not one. Carries the byte.
    UnknownPointerEncoding,
    /// A required pointer is encoded as omitted.
    CannotParseOmitPointerEncoding,
    /// An aligned pointer; in `.eh_frame_hdr` also a count whose encoding is more than a format, or a table that cannot
    /// be searched, since its rows differ in size. Carries the encoding.
    UnsupportedPointerEncoding,
    /// A pointer is relative to its section, whose address is not set.
    PcRelativePointerButSectionBaseIsUndefined,
    /// A pointer is relative to the text base, which is not set (`Section::with_text`).
    TextRelativePointerButTextBaseIsUndefined,
    /// A pointer is relative to the data base, which is not set (`Section::with_data`).
    DataRelativePointerButDataBaseIsUndefined,
    /// A pointer is relative to its function, but is not the LSDA pointer of an FDE.
    FuncRelativePointerInBadContext,
    /// A pointer is indirect: its value would have to be read from memory.
    UnsupportedIndirectPointer,
    /// There is an FDE where a CIE should be. Carries the offset in the section.
    NotCieId,
    /// There is a CIE where an FDE should be. Carries the offset in the section.
    NotCiePointer,
    /// There is a length of zero where an entry should be. Carries the offset in the section.
    NoEntryAtGivenOffset,
    /// A pointer points before the start of the section. Carries the id of an FDE, which is the distance back to its
    /// CIE, or the pointer in a row of `.eh_frame_hdr`.
    OffsetOutOfBounds,
    /// An unknown opcode, or one of a vendor that is not set (`set_vendor`). Carries the opcode.
    UnknownCallFrameInstruction,
    /// An instruction that is not valid in its context: a restore in a CIE, a change of the CFA's register or offset
    /// while the CFA is an expression, or a toggle of the signing state while register 34 has a rule that is not a
    /// constant.
    CfiInstructionInInvalidContext,
    /// An instruction sets the location to a lower address. Carries the address.
    InvalidCfiSetLoc,
    /// More states are pushed than the storage has rows for.
    StackFull,
    /// A state is popped, and none was pushed.
    PopWithEmptyStack,
    /// More registers have a rule than the storage has room for.
    TooManyRegisterRules,
    /// No FDE contains the address, or the FDE has no row for it.
    NoUnwindInfoForAddress,
    /// Out of memory, when a context is made or copied or a growing storage grows.
    OutOfMemory,
    /// A status that this version doesn't know.
    Unknown(i32),
}

/// The errors by their statuses, from 1 on.
const KINDS: [ErrorKind; 31] = [
    ErrorKind::UnexpectedEof,
    ErrorKind::BadUnsignedLeb128,
    ErrorKind::BadSignedLeb128,
    ErrorKind::UnknownReservedLength,
    ErrorKind::UnsupportedAddressSize,
    ErrorKind::UnsupportedOffset,
    ErrorKind::UnsupportedRegister,
    ErrorKind::AddressOverflow,
    ErrorKind::UnknownVersion,
    ErrorKind::UnsupportedSegmentSize,
    ErrorKind::UnknownAugmentation,
    ErrorKind::UnknownPointerEncoding,
    ErrorKind::CannotParseOmitPointerEncoding,
    ErrorKind::UnsupportedPointerEncoding,
    ErrorKind::PcRelativePointerButSectionBaseIsUndefined,
    ErrorKind::TextRelativePointerButTextBaseIsUndefined,
    ErrorKind::DataRelativePointerButDataBaseIsUndefined,
    ErrorKind::FuncRelativePointerInBadContext,
    ErrorKind::UnsupportedIndirectPointer,
    ErrorKind::NotCieId,
    ErrorKind::NotCiePointer,
    ErrorKind::NoEntryAtGivenOffset,
    ErrorKind::OffsetOutOfBounds,
    ErrorKind::UnknownCallFrameInstruction,
    ErrorKind::CfiInstructionInInvalidContext,
    ErrorKind::InvalidCfiSetLoc,
    ErrorKind::StackFull,
    ErrorKind::PopWithEmptyStack,
    ErrorKind::TooManyRegisterRules,
    ErrorKind::NoUnwindInfoForAddress,
    ErrorKind::OutOfMemory,
];

impl Error {
    pub(crate) fn new(status: i32, carries: u64) -> Error {
        let place = usize::try_from(status).ok().and_then(|status| status.checked_sub(1));
        let kind = place
            .and_then(|place| KINDS.get(place).copied())
            .unwrap_or(ErrorKind::Unknown(status));
        Error { kind, carries }
    }

    /// Returns which error it is.
    pub fn kind(&self) -> ErrorKind {
        self.kind
    }

    /// Returns the place, byte or number that the error carries, as the documentation of its kind says; else 0.
    pub fn carries(&self) -> u64 {
        self.carries
    }
}

impl fmt::Display for ErrorKind {
    /// The name of the error, as in `UnexpectedEof`.
    fn fmt(&self, f: &mut fmt::Formatter<'_>) -> fmt::Result {
        fmt::Debug::fmt(self, f)
    }
}

impl fmt::Display for Error {
    /// The name of the error, with the value that it carries.
    fn fmt(&self, f: &mut fmt::Formatter<'_>) -> fmt::Result {
        match self.carries {
            0 => write!(f, "{}", self.kind),
            carries => write!(f, "{} ({carries:#x})", self.kind),
        }
    }
}

impl std::error::Error for Error {}

#[cfg(test)]
mod tests {
    use super::*;

    /// The names are those that the library gives its statuses, and there is one for each.
    #[test]
    fn names() {
        for status in 1..=KINDS.len() as i32 {
            let mut name = [0; 64];
            let length = unsafe { cfi_sys::cfi_status_name(status, name.as_mut_ptr(), name.len()) };
            let kind = Error::new(status, 0).kind();
            assert_eq!(kind.to_string().as_bytes(), &name[..length]);
            assert!(!matches!(kind, ErrorKind::Unknown(_)));
        }
        assert_eq!(Error::new(99, 0).kind(), ErrorKind::Unknown(99));
    }
}
