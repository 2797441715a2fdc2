//! The declarations of `cfi_c.h` in Rust, word for word. The crate `cfi` is a safe interface to them.
//!
//! What each call asks for and does is said in `cfi_c.h` and in the manual page `cfi_c(3)`. In short: pointers are not
//! null and are aligned, lengths are those of what they point to, and what is written overlaps nothing else.
#![no_std]
#![allow(non_upper_case_globals)]

use core::ffi::c_void;

/// A row, or what was asked for, is there.
pub const CFI_Ok: i32 = 0;
/// The error `UnexpectedEof`.
pub const CFI_UnexpectedEof: i32 = 1;
/// The error `BadUnsignedLeb128`.
pub const CFI_BadUnsignedLeb128: i32 = 2;
/// The error `BadSignedLeb128`.
pub const CFI_BadSignedLeb128: i32 = 3;
/// The error `UnknownReservedLength`.
pub const CFI_UnknownReservedLength: i32 = 4;
/// The error `UnsupportedAddressSize`.
pub const CFI_UnsupportedAddressSize: i32 = 5;
/// The error `UnsupportedOffset`.
pub const CFI_UnsupportedOffset: i32 = 6;
/// The error `UnsupportedRegister`.
pub const CFI_UnsupportedRegister: i32 = 7;
/// The error `AddressOverflow`.
pub const CFI_AddressOverflow: i32 = 8;
/// The error `UnknownVersion`.
pub const CFI_UnknownVersion: i32 = 9;
/// The error `UnsupportedSegmentSize`.
pub const CFI_UnsupportedSegmentSize: i32 = 10;
/// The error `UnknownAugmentation`.
pub const CFI_UnknownAugmentation: i32 = 11;
/// The error `UnknownPointerEncoding`.
pub const CFI_UnknownPointerEncoding: i32 = 12;
/// The error `CannotParseOmitPointerEncoding`.
pub const CFI_CannotParseOmitPointerEncoding: i32 = 13;
/// The error `UnsupportedPointerEncoding`.
pub const CFI_UnsupportedPointerEncoding: i32 = 14;
/// The error `PcRelativePointerButSectionBaseIsUndefined`.
pub const CFI_PcRelativePointerButSectionBaseIsUndefined: i32 = 15;
/// The error `TextRelativePointerButTextBaseIsUndefined`.
pub const CFI_TextRelativePointerButTextBaseIsUndefined: i32 = 16;
/// The error `DataRelativePointerButDataBaseIsUndefined`.
pub const CFI_DataRelativePointerButDataBaseIsUndefined: i32 = 17;
/// The error `FuncRelativePointerInBadContext`.
pub const CFI_FuncRelativePointerInBadContext: i32 = 18;
/// The error `UnsupportedIndirectPointer`.
pub const CFI_UnsupportedIndirectPointer: i32 = 19;
/// The error `NotCieId`.
pub const CFI_NotCieId: i32 = 20;
/// The error `NotCiePointer`.
pub const CFI_NotCiePointer: i32 = 21;
/// The error `NoEntryAtGivenOffset`.
pub const CFI_NoEntryAtGivenOffset: i32 = 22;
/// The error `OffsetOutOfBounds`.
pub const CFI_OffsetOutOfBounds: i32 = 23;
/// The error `UnknownCallFrameInstruction`.
pub const CFI_UnknownCallFrameInstruction: i32 = 24;
/// The error `CfiInstructionInInvalidContext`.
pub const CFI_CfiInstructionInInvalidContext: i32 = 25;
/// The error `InvalidCfiSetLoc`.
pub const CFI_InvalidCfiSetLoc: i32 = 26;
/// The error `StackFull`.
pub const CFI_StackFull: i32 = 27;
/// The error `PopWithEmptyStack`.
pub const CFI_PopWithEmptyStack: i32 = 28;
/// The error `TooManyRegisterRules`.
pub const CFI_TooManyRegisterRules: i32 = 29;
/// The error `NoUnwindInfoForAddress`.
pub const CFI_NoUnwindInfoForAddress: i32 = 30;
/// The error `OutOfMemory`.
pub const CFI_OutOfMemory: i32 = 31;
/// There is no context.
pub const CFI_NoContext: i32 = 64;
/// There is no table.
pub const CFI_NoTable: i32 = 65;
/// No segment is loaded.
pub const CFI_NoSegments: i32 = 66;
/// No segment is that of `.eh_frame_hdr`.
pub const CFI_NoHeader: i32 = 67;
/// The header points to no segment that is loaded.
pub const CFI_NoSection: i32 = 68;
/// No window has all bytes of the header or of the section.
pub const CFI_NotInMemory: i32 = 69;

/// A context, or none: all zero. The caller keeps this struct, and neither writes its fields nor copies it while it is
/// live; it may be moved. It stays on the thread that made it.
#[repr(C)]
#[derive(Debug)]
pub struct CfiContext {
    /// The library's.
    pub at: *mut c_void,
    /// Whether there is a context.
    pub live: bool,
}

/// A table, or none: all zero. It is the library's as a context is, but may be handed to another thread.
#[repr(C)]
#[derive(Debug)]
pub struct CfiTable {
    /// The library's.
    pub at: *mut c_void,
    /// Whether there is a table.
    pub live: bool,
}

/// A cache of rows, or none: all zero. It is the library's as a context is.
#[repr(C)]
#[derive(Debug)]
pub struct CfiCache {
    /// The library's.
    pub at: *mut c_void,
    /// Whether there is a cache.
    pub live: bool,
}

/// Where the sections lie, and how their numbers are read.
#[repr(C)]
#[derive(Clone, Copy, Debug, Default)]
pub struct CfiBases {
    /// The address of the section.
    pub section: u64,
    /// The address of `.eh_frame_hdr`; only the table reads it.
    pub header: u64,
    /// The base of text.
    pub text: u64,
    /// The base of data.
    pub data_base: u64,
    /// The byte order.
    pub big_endian: bool,
    /// Whether the section is `.debug_frame`.
    pub debug_frame: bool,
    /// Whether the opcodes are those of AArch64.
    pub aarch64: bool,
    /// 1, 2, 4 or 8.
    pub address_size: u8,
}

/// A row, but for its rules. It holds from `start` up to, and without, `end`; by a table both are 0.
#[repr(C)]
#[derive(Clone, Copy, Debug, Default)]
pub struct CfiRow {
    /// The first address.
    pub start: u64,
    /// The first address after it.
    pub end: u64,
    /// Bytes of arguments that were pushed.
    pub args_size: u64,
    /// 0: register and offset; 1: an expression.
    pub cfa_kind: u32,
    /// The register.
    pub cfa_register: u32,
    /// The offset.
    pub cfa_offset: i64,
    /// Where the expression is in the section.
    pub cfa_place: u64,
    /// Its bytes.
    pub cfa_length: u64,
    /// What an error carries, else 0.
    pub refused: u64,
    /// 0, or the error; then all but `status` and `refused` is open.
    pub status: i32,
}

/// The rule of one register.
#[repr(C)]
#[derive(Clone, Copy, Debug, Default)]
pub struct CfiRule {
    /// Which rule: `CfiRuleKind` of the header.
    pub kind: u64,
    /// An offset or a register.
    pub value: i64,
    /// Where an expression is in the section; a constant.
    pub place: u64,
    /// Its bytes.
    pub length: u64,
}

/// A module as it is loaded. Of the bases `address_size` is not read, and beside a header neither is `debug_frame`.
#[repr(C)]
#[derive(Clone, Copy, Debug)]
pub struct CfiModule {
    /// The first address of its code.
    pub start: u64,
    /// The first address after it.
    pub end: u64,
    /// The bytes of `.eh_frame`, or of `.debug_frame` if the bases say so and there is no header.
    pub eh_frame: *const u8,
    /// How many there are.
    pub eh_frame_len: usize,
    /// The bytes of `.eh_frame_hdr`; not null.
    pub header: *const u8,
    /// How many there are; 0: none.
    pub header_len: usize,
    /// Where they lie.
    pub bases: CfiBases,
}

/// The bytes of a stack from the address `base` on, or a copy of them; and what the ABI says.
#[repr(C)]
#[derive(Clone, Copy, Debug)]
pub struct CfiStack {
    /// The address of the first byte.
    pub base: u64,
    /// The bytes.
    pub bytes: *const u8,
    /// How many there are.
    pub len: usize,
    /// The bits of a return address that hold its signature (AArch64).
    pub signature_mask: u64,
    /// How many operations an expression may do.
    pub max_iterations: u32,
    /// The stack pointer's number: 7 on x86-64, 31 on AArch64.
    pub stack_pointer: u16,
    /// The order of the bytes of the stack.
    pub big_endian: bool,
    /// 1, 2, 4 or 8.
    pub address_size: u8,
}

/// The value of a register, if it is known.
#[repr(C)]
#[derive(Clone, Copy, Debug, Default)]
pub struct CfiValue {
    /// The value.
    pub value: u64,
    /// Whether it is known.
    pub known: bool,
}

/// A frame of a stack.
#[repr(C)]
#[derive(Clone, Copy, Debug, Default)]
pub struct CfiFrame {
    /// Where it goes on, or was interrupted.
    pub pc: u64,
    /// The canonical frame address; 0 where the walk ends without it.
    pub cfa: u64,
    /// Whether there is one.
    pub has_cfa: bool,
    /// As the innermost frame is, and one that a signal interrupted.
    pub is_interrupted: bool,
}

/// Why there are no more frames.
#[repr(C)]
#[derive(Clone, Copy, Debug, Default)]
pub struct CfiEnd {
    /// What the end carries.
    pub refused: u64,
    /// `CfiEndKind` of the header.
    pub kind: u32,
    /// The error of a row that is not found, else 0.
    pub status: i32,
}

/// Some addresses.
#[repr(C)]
#[derive(Clone, Copy, Debug, Default)]
pub struct CfiRange {
    /// The first address.
    pub start: u64,
    /// The first address after them.
    pub end: u64,
}

/// A program header of an ELF file of 64 bits: `Elf64_Phdr` of `elf.h`.
#[repr(C)]
#[derive(Clone, Copy, Debug, Default)]
pub struct CfiProgramHeader {
    /// What the segment is.
    pub p_type: u32,
    /// Its flags.
    pub p_flags: u32,
    /// Where it is in the file.
    pub p_offset: u64,
    /// Where it is loaded, before the bias.
    pub p_vaddr: u64,
    /// Not read.
    pub p_paddr: u64,
    /// How many bytes the file has of it.
    pub p_filesz: u64,
    /// How many it takes in memory.
    pub p_memsz: u64,
    /// Not read.
    pub p_align: u64,
}

/// Some bytes of memory, from the address `base` on.
#[repr(C)]
#[derive(Clone, Copy, Debug)]
pub struct CfiWindow {
    /// The address of the first byte.
    pub base: u64,
    /// The bytes.
    pub bytes: *const u8,
    /// How many there are.
    pub len: usize,
}

/// Memory, as far as it is there, and what the ABI says: as `CfiStack`, with any number of windows, in any order.
#[repr(C)]
#[derive(Clone, Copy, Debug)]
pub struct CfiMemory {
    /// The windows.
    pub windows: *const CfiWindow,
    /// How many there are.
    pub windows_len: usize,
    /// The bits of a return address that hold its signature (AArch64).
    pub signature_mask: u64,
    /// How many operations an expression may do.
    pub max_iterations: u32,
    /// The stack pointer's number: 7 on x86-64, 31 on AArch64.
    pub stack_pointer: u16,
    /// The order of the bytes of the memory.
    pub big_endian: bool,
    /// 1, 2, 4 or 8.
    pub address_size: u8,
}

/// What an FDE and its CIE say of a function, beside its rows.
#[repr(C)]
#[derive(Clone, Copy, Debug, Default)]
pub struct CfiFunction {
    /// Its first address.
    pub start: u64,
    /// The first address after it.
    pub end: u64,
    /// The language-specific data area; 0 where there is none.
    pub lsda: u64,
    /// The personality routine; 0 where there is none.
    pub personality: u64,
    /// The offset of the FDE in the section.
    pub fde: u64,
    /// The register that has the return address.
    pub return_address: u16,
    /// Whether there is an FDE; else all of this is 0.
    pub is_known: bool,
    /// Whether there is an LSDA.
    pub has_lsda: bool,
    /// Whether there is a personality routine.
    pub has_personality: bool,
    /// Whether `lsda` is the address of the pointer.
    pub lsda_is_indirect: bool,
    /// Whether `personality` is the address of the pointer.
    pub personality_is_indirect: bool,
    /// Whether a signal interrupted the caller.
    pub is_signal_trampoline: bool,
}

/// The caller of a frame.
#[repr(C)]
#[derive(Clone, Copy, Debug, Default)]
pub struct CfiCaller {
    /// The canonical frame address of the frame itself.
    pub cfa: u64,
    /// The pc of the caller; 0 if the frame is the outermost one.
    pub pc: u64,
    /// Bytes of arguments that the frame has pushed.
    pub args_size: u64,
    /// Whether a signal interrupted the caller.
    pub is_interrupted: bool,
}

/// What a check of a header's table found.
#[repr(C)]
#[derive(Clone, Copy, Debug, Default)]
pub struct CfiVerdict {
    /// What the kind says: how many rows, the index of a row, or the offset of an entry.
    pub first: u64,
    /// A start, a first address, an end, or how many FDEs there are.
    pub second: u64,
    /// A start.
    pub third: u64,
    /// What an error carries, else 0.
    pub refused: u64,
    /// `CfiVerdictKind` of the header.
    pub kind: u32,
    /// The error of what can't be read, else 0.
    pub status: i32,
}

/// The version that these declarations are of, as `cfi_version` tells it.
pub const CFI_VERSION: u32 = 100;

extern "C" {
    /// Makes a context, and frees one that was there.
    ///
    /// # Safety
    ///
    /// As the head of the crate asks.
    pub fn cfi_context_new(context: *mut CfiContext) -> i32;
    /// Frees the context.
    ///
    /// # Safety
    ///
    /// As the head of the crate asks.
    pub fn cfi_context_free(context: *mut CfiContext);
    /// Writes the row of the address, found by going through the section, and the rules of the registers from 0 on.
    ///
    /// # Safety
    ///
    /// As the head of the crate asks.
    pub fn cfi_row_by_scan(
        context: *mut CfiContext,
        section: *const u8,
        section_len: usize,
        bases: *const CfiBases,
        address: u64,
        row: *mut CfiRow,
        rules: *mut CfiRule,
        rules_len: usize,
    ) -> i32;
    /// The same of .eh_frame by the table of its header, .eh_frame_hdr.
    ///
    /// # Safety
    ///
    /// As the head of the crate asks.
    pub fn cfi_row_by_table(
        context: *mut CfiContext,
        eh_frame: *const u8,
        eh_frame_len: usize,
        header: *const u8,
        header_len: usize,
        bases: *const CfiBases,
        address: u64,
        row: *mut CfiRow,
        rules: *mut CfiRule,
        rules_len: usize,
    ) -> i32;
    /// The rows of many addresses, each as cfi_row_by_table answers it, or as cfi_row_by_scan where header_len is 0.
    ///
    /// # Safety
    ///
    /// As the head of the crate asks.
    pub fn cfi_rows(
        context: *mut CfiContext,
        section: *const u8,
        section_len: usize,
        header: *const u8,
        header_len: usize,
        bases: *const CfiBases,
        addresses: *const u64,
        addresses_len: usize,
        rows: *mut CfiRow,
        rows_len: usize,
        rules: *mut CfiRule,
        rules_len: usize,
        per_row: usize,
    ) -> usize;
    /// Makes the table of a section, and frees one that was there.
    ///
    /// # Safety
    ///
    /// As the head of the crate asks.
    pub fn cfi_table_new(table: *mut CfiTable, section: *const u8, section_len: usize, bases: *const CfiBases) -> i32;
    /// Frees the table.
    ///
    /// # Safety
    ///
    /// As the head of the crate asks.
    pub fn cfi_table_free(table: *mut CfiTable);
    /// Writes what the row of the address says, by a binary search in the table, and the rules of the registers from 0
    /// on.
    ///
    /// # Safety
    ///
    /// As the head of the crate asks.
    pub fn cfi_table_row(
        table: *mut CfiTable,
        address: u64,
        row: *mut CfiRow,
        rules: *mut CfiRule,
        rules_len: usize,
    ) -> i32;
    /// Writes the frames of a stack, from the innermost one out, as far as there is room, and in *end why there are no
    /// more.
    ///
    /// # Safety
    ///
    /// As the head of the crate asks.
    pub fn cfi_unwind(
        context: *mut CfiContext,
        modules: *const CfiModule,
        modules_len: usize,
        stack: *const CfiStack,
        pc: u64,
        registers: *const CfiValue,
        registers_len: usize,
        frames: *mut CfiFrame,
        frames_len: usize,
        end: *mut CfiEnd,
    ) -> usize;
    /// The same, with the registers of each frame.
    ///
    /// # Safety
    ///
    /// As the head of the crate asks.
    pub fn cfi_unwind_registers(
        context: *mut CfiContext,
        modules: *const CfiModule,
        modules_len: usize,
        stack: *const CfiStack,
        pc: u64,
        registers: *const CfiValue,
        registers_len: usize,
        frames: *mut CfiFrame,
        frames_len: usize,
        values: *mut CfiValue,
        values_len: usize,
        end: *mut CfiEnd,
    ) -> usize;
    /// Writes the addresses that the loaded segments of a file take in a process.
    ///
    /// # Safety
    ///
    /// As the head of the crate asks.
    pub fn cfi_range_of_headers(
        headers: *const CfiProgramHeader,
        headers_len: usize,
        bias: u64,
        range: *mut CfiRange,
    ) -> i32;
    /// Writes the module of a file as the loader has mapped it, by its program headers.
    ///
    /// # Safety
    ///
    /// As the head of the crate asks.
    pub fn cfi_module_of_headers(
        headers: *const CfiProgramHeader,
        headers_len: usize,
        bias: u64,
        bases: *const CfiBases,
        windows: *const CfiWindow,
        windows_len: usize,
        module: *mut CfiModule,
    ) -> i32;
    /// Writes the caller of one frame, and what the FDE of its pc says.
    ///
    /// # Safety
    ///
    /// As the head of the crate asks.
    pub fn cfi_step(
        context: *mut CfiContext,
        module: *const CfiModule,
        memory: *const CfiMemory,
        pc: u64,
        is_interrupted: bool,
        registers: *const CfiValue,
        registers_len: usize,
        caller_registers: *mut CfiValue,
        caller_registers_len: usize,
        function: *mut CfiFunction,
        caller: *mut CfiCaller,
        end: *mut CfiEnd,
    ) -> u32;
    /// Checks whether the table of `.eh_frame_hdr` lists the FDEs of `.eh_frame` faithfully.
    ///
    /// # Safety
    ///
    /// As the head of the crate asks.
    pub fn cfi_check_table(
        eh_frame: *const u8,
        eh_frame_len: usize,
        header: *const u8,
        header_len: usize,
        bases: *const CfiBases,
        verdict: *mut CfiVerdict,
    ) -> u32;
    /// Makes a cache of rows, four in each set, and frees one that was there.
    ///
    /// # Safety
    ///
    /// As the head of the crate asks.
    pub fn cfi_cache_new(sets: usize, cache: *mut CfiCache) -> i32;
    /// Frees the cache.
    ///
    /// # Safety
    ///
    /// As the head of the crate asks.
    pub fn cfi_cache_free(cache: *mut CfiCache);
    /// Forgets all rows of the cache.
    ///
    /// # Safety
    ///
    /// As the head of the crate asks.
    pub fn cfi_cache_clear(cache: *mut CfiCache);
    /// As `cfi_step`, by the row that the cache holds for the file and the address, if it does.
    ///
    /// # Safety
    ///
    /// As the head of the crate asks.
    pub fn cfi_step_cached(
        context: *mut CfiContext,
        cache: *mut CfiCache,
        file: u64,
        module: *const CfiModule,
        memory: *const CfiMemory,
        pc: u64,
        is_interrupted: bool,
        registers: *const CfiValue,
        registers_len: usize,
        caller_registers: *mut CfiValue,
        caller_registers_len: usize,
        function: *mut CfiFunction,
        caller: *mut CfiCaller,
        end: *mut CfiEnd,
    ) -> u32;
    /// As `cfi_step_cached` if the cache holds the row, with the registers of the caller in the
    /// place of the frame's; returns whether it does.
    ///
    /// # Safety
    ///
    /// As the head of the crate asks.
    pub fn cfi_step_held(
        cache: *mut CfiCache,
        file: u64,
        memory: *const CfiMemory,
        pc: u64,
        is_interrupted: bool,
        registers: *mut CfiValue,
        registers_len: usize,
        function: *mut CfiFunction,
        caller: *mut CfiCaller,
        end: *mut CfiEnd,
    ) -> bool;
    /// The version of the library.
    ///
    /// # Safety
    ///
    /// As the head of the crate asks.
    pub fn cfi_version() -> u32;
    /// Writes the name of a status, as in "UnexpectedEof", and a zero after it, as far as there is room.
    ///
    /// # Safety
    ///
    /// As the head of the crate asks.
    pub fn cfi_status_name(status: i32, name: *mut u8, name_len: usize) -> usize;
}
