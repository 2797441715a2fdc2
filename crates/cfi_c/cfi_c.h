/* The unwind row of an address, from the bytes of .eh_frame or .debug_frame, the frames of a stack, and the caller of one: the
 * library gimli_cfi for C.
 *
 * The library is built for x86-64 Linux by rt, for AArch64 Linux by examples/aarch64, which has only been tried under qemu.
 * The sections may be those of any machine.
 *
 * A context is made once, by cfi_context_new, used for any number of addresses of any sections, and freed by
 * cfi_context_free. Only the first takes memory, by malloc; the calls between the two take none.
 *
 * A table is made of one section, by cfi_table_new, asked for any number of addresses, and freed by cfi_table_free. Only
 * the first takes memory. Whoever asks one section for many addresses makes a table of it.
 *
 * A cache is made by cfi_cache_new, used by cfi_step_cached and cfi_step_held, and freed by cfi_cache_free. Only the first takes
 * memory. Whoever steps from frames of the same places again and again has one.
 *
 * All other memory is the caller's, and is read or written only during a call; nothing of it is kept. Pointers are not
 * null, also where a length is 0 and in structs, and what is written overlaps nothing else that is handed in. What they
 * point to is aligned as C aligns its type. A bool is 0 or 1.
 *
 * Calls with different contexts, tables and caches may run at the same time. A context and a cache stay on the thread that
 * made them. A table may be handed to another thread, by a lock, a thread's start or join, or a SeqCst atomic; one call at a
 * time has it. The calls that make or free a context, a table or a cache are made neither from a signal handler nor in the
 * forked child of a process with threads. The others call neither malloc nor free, take no lock, and keep nothing outside of
 * what they are passed: they may be made there, with a context, tables and a cache that no interrupted call has. A handler
 * that does not return loses the context and the cache of the call that it interrupted. malloc and free are those of one
 * allocator, and align as C asks. */
#ifndef CFI_C_H
#define CFI_C_H

#include <stdbool.h>
#include <stddef.h>
#include <stdint.h>

#ifdef __cplusplus
extern "C" {
#endif

/* 10,000 times the first number of the version, 100 times the second, and the third. */
#define CFI_VERSION 100 /* 0.1.0 */

/* Status 0 is a row; from 1 on are the refusals of the library, by its names, and from 64 on those of this header: without a
 * context, without a table, and without a module. */
#define CFI_REFUSALS(X) \
    X(1, UnexpectedEof) \
    X(2, BadUnsignedLeb128) \
    X(3, BadSignedLeb128) \
    X(4, UnknownReservedLength) \
    X(5, UnsupportedAddressSize) \
    X(6, UnsupportedOffset) \
    X(7, UnsupportedRegister) \
    X(8, AddressOverflow) \
    X(9, UnknownVersion) \
    X(10, UnsupportedSegmentSize) \
    X(11, UnknownAugmentation) \
    X(12, UnknownPointerEncoding) \
    X(13, CannotParseOmitPointerEncoding) \
    X(14, UnsupportedPointerEncoding) \
    X(15, PcRelativePointerButSectionBaseIsUndefined) \
    X(16, TextRelativePointerButTextBaseIsUndefined) \
    X(17, DataRelativePointerButDataBaseIsUndefined) \
    X(18, FuncRelativePointerInBadContext) \
    X(19, UnsupportedIndirectPointer) \
    X(20, NotCieId) \
    X(21, NotCiePointer) \
    X(22, NoEntryAtGivenOffset) \
    X(23, OffsetOutOfBounds) \
    X(24, UnknownCallFrameInstruction) \
    X(25, CfiInstructionInInvalidContext) \
    X(26, InvalidCfiSetLoc) \
    X(27, StackFull) \
    X(28, PopWithEmptyStack) \
    X(29, TooManyRegisterRules) \
    X(30, NoUnwindInfoForAddress) \
    X(31, OutOfMemory)

typedef enum {
    CFI_Ok = 0,
#define CFI_STATUS(number, name) CFI_##name = number,
    CFI_REFUSALS(CFI_STATUS)
#undef CFI_STATUS
    CFI_NoContext = 64,
    CFI_NoTable = 65,
    CFI_NoSegments = 66, /* no segment is loaded */
    CFI_NoHeader = 67,   /* no segment is that of .eh_frame_hdr */
    CFI_NoSection = 68,  /* the header points to no loaded segment's bytes of the file */
    CFI_NotInMemory = 69 /* no window has all bytes of the header or of the section */
} CfiStatus;

/* A context, or none: all zero, as `CfiContext context = {0};` makes it. The caller keeps this struct, and neither writes
 * its fields nor copies it while it is live; it may be moved, as long as the old place is no longer used. What it leads to
 * is the library's. A context that isn't freed stays allocated. */
typedef struct {
    void *at;
    bool live;
} CfiContext;

/* A table, or none: all zero, as `CfiTable table = {0};` makes it. It is the library's as a context is. */
typedef struct {
    void *at;
    bool live;
} CfiTable;

/* A cache of rows, or none: all zero, as `CfiCache cache = {0};` makes it. It is the library's as a context is. */
typedef struct {
    void *at;
    bool live;
} CfiCache;

/* Where the sections lie, and how their numbers are read. */
typedef struct {
    uint64_t section;         /* the address of the section */
    uint64_t header;          /* the address of .eh_frame_hdr; only the table reads it */
    uint64_t text, data_base; /* the bases of text and data; most sections need none */
    bool big_endian;
    bool debug_frame;         /* the section is .debug_frame; the table's is .eh_frame, whatever stands here */
    bool aarch64;             /* the opcodes are those of AArch64 */
    uint8_t address_size;     /* 1, 2, 4 or 8 */
} CfiBases;

/* A row, but for its rules. It holds from start up to, and without, end; by a CfiTable both are 0. */
typedef struct {
    uint64_t start, end;
    uint64_t args_size;
    uint32_t cfa_kind;              /* 0: register and offset; 1: an expression */
    uint32_t cfa_register;          /* this and cfa_offset are 0 for an expression */
    int64_t cfa_offset;
    uint64_t cfa_place, cfa_length; /* the expression's bytes in the section, else 0 */
    uint64_t refused;               /* after a refusal the place, byte or number that it carries, else 0 */
    int32_t status;                 /* 0, or the refusal; then all but status and refused is open */
} CfiRow;

typedef enum {
    CFI_NO_RULE = 0,
    CFI_UNDEFINED = 1,
    CFI_SAME_VALUE = 2,
    CFI_OFFSET = 3,         /* saved at CFA + value */
    CFI_VAL_OFFSET = 4,     /* is CFA + value */
    CFI_REGISTER = 5,       /* saved in the register value */
    CFI_EXPRESSION = 6,     /* saved where the expression says: place and length in the section */
    CFI_VAL_EXPRESSION = 7, /* is what the expression says */
    CFI_ARCHITECTURAL = 8,
    CFI_CONSTANT = 9        /* is the constant place */
} CfiRuleKind;

/* The rule of one register. */
typedef struct {
    uint64_t kind;
    int64_t value;
    uint64_t place, length;
} CfiRule;

/* A module as it is loaded: its code, from start up to, and without, end; its .eh_frame; and its .eh_frame_hdr, none where
 * header_len is 0: then rows are found by a scan. A module without a header whose bases say debug_frame has its .debug_frame in
 * the place of .eh_frame; beside a header debug_frame isn't read. Of the bases address_size isn't read: all addresses of a stack
 * have one size. */
typedef struct {
    uint64_t start, end;
    const uint8_t *eh_frame;
    size_t eh_frame_len;
    const uint8_t *header;
    size_t header_len;
    CfiBases bases;
} CfiModule;

/* The bytes of a stack from the address base on, or a copy of them, as far as they are there; and what the ABI says. */
typedef struct {
    uint64_t base;
    const uint8_t *bytes;
    size_t len;
    uint64_t signature_mask; /* the bits of a return address that hold its signature (AArch64); 0: none is signed */
    uint32_t max_iterations; /* how many operations an expression may do */
    uint16_t stack_pointer;  /* the number of the stack pointer: 7 on x86-64, 31 on AArch64 */
    bool big_endian;         /* the order of the bytes of the stack */
    uint8_t address_size;    /* 1, 2, 4 or 8 */
} CfiStack;

/* The value of a register, if it is known. */
typedef struct {
    uint64_t value;
    bool known;
} CfiValue;

/* Some bytes of memory, from the address base on. */
typedef struct {
    uint64_t base;
    const uint8_t *bytes;
    size_t len;
} CfiWindow;

/* Some addresses, from start up to, and without, end. */
typedef struct {
    uint64_t start, end;
} CfiRange;

/* A program header of an ELF file of 64 bits. It is Elf64_Phdr of <elf.h>: an array of those may be passed as one of these. */
typedef struct {
    uint32_t p_type, p_flags;
    uint64_t p_offset, p_vaddr, p_paddr, p_filesz, p_memsz, p_align;
} CfiProgramHeader;

/* Memory, as far as it is there, and what the ABI says: as CfiStack, with any number of windows, in any order. A signal
 * handler's stack, a fiber's or the segments of a core file are a window each. A number is read of the first window that has
 * all its bytes, so the one that is read most stands first. */
typedef struct {
    const CfiWindow *windows;
    size_t windows_len;
    uint64_t signature_mask;
    uint32_t max_iterations;
    uint16_t stack_pointer;
    bool big_endian;
    uint8_t address_size;
} CfiMemory;

/* What an FDE and its CIE say of a function, beside its rows. */
typedef struct {
    uint64_t start, end;           /* its first address, and the first after it */
    uint64_t lsda, personality;    /* 0 where there is none */
    uint64_t fde;                  /* the FDE's offset in the section */
    uint16_t return_address;       /* the register that has the return address */
    bool is_known;                 /* there is an FDE; else all of this is 0 */
    bool has_lsda, has_personality;
    bool lsda_is_indirect, personality_is_indirect; /* what stands there is the address of the pointer */
    bool is_signal_trampoline;     /* by the augmentation's letter S: a signal interrupted the caller */
} CfiFunction;

/* The caller of a frame. */
typedef struct {
    uint64_t cfa;        /* the frame's own */
    uint64_t pc;         /* the return address; where 0 was saved the frame is the outermost one */
    uint64_t args_size;  /* of the frame itself: how many bytes of arguments it has pushed, by DW_CFA_GNU_args_size */
    bool is_interrupted; /* a signal interrupted the caller: its pc is looked up as it is */
} CfiCaller;

/* A frame of a stack. */
typedef struct {
    uint64_t pc;         /* where it goes on, or was interrupted */
    uint64_t cfa;        /* 0 where the walk ends here without it */
    bool has_cfa;
    bool is_interrupted; /* as the innermost frame is, and one that a signal interrupted */
} CfiFrame;

/* Why there are no more frames. Behind each kind is what CfiEnd.refused holds, else it is 0. From 4 on the last frame has no
 * caller that can be found. */
typedef enum {
    CFI_END_OUTERMOST = 0,   /* the last frame is the outermost one: its return address is undefined or, in a walk, 0 */
    CFI_END_NO_MODULE = 1,   /* its pc is in the code of no module */
    CFI_END_NOT_RISING = 2,  /* its CFA isn't above that of the frame it called: a corrupt stack */
    CFI_END_NO_ROOM = 3,     /* there is no room for another frame */
    CFI_END_NO_ROW = 4,      /* its pc has no row: status, and what the refusal carries */
    CFI_END_UNREADABLE = 5,  /* the bytes of an expression can't be read: status, and what the refusal carries */
    CFI_END_UNSUPPORTED_OPERATION = 6, /* of an expression: its opcode */
    CFI_END_UNSUPPORTED_SIZE = 7,      /* of what an expression reads: the size in bytes */
    CFI_END_UNKNOWN_REGISTER = 8,      /* the register's number */
    CFI_END_UNREADABLE_MEMORY = 9,     /* the address, which is outside of the stack's bytes */
    CFI_END_NOT_ENOUGH_ITEMS = 10,     /* on the stack of an expression */
    CFI_END_ITEMS_FULL = 11,           /* an expression has more than 32 of them */
    CFI_END_DIVISION_BY_ZERO = 12,
    CFI_END_BAD_BRANCH_TARGET = 13,    /* the distance modulo 65536 */
    CFI_END_TOO_MANY_ITERATIONS = 14,
    CFI_END_ARCHITECTURAL_RULE = 15,
    CFI_END_NOT_WALKED = 16, /* no frame is written: status is CFI_NoContext, or CFI_UnsupportedAddressSize: the size */
    CFI_END_NONE = 17        /* by cfi_step, cfi_step_cached and cfi_step_held alone: there is a caller */
} CfiEndKind;

typedef struct {
    uint64_t refused;
    uint32_t kind;  /* CfiEndKind */
    int32_t status; /* by CFI_END_NO_ROW, CFI_END_UNREADABLE and CFI_END_NOT_WALKED, else 0 */
} CfiEnd;

/* What a check of a header's table found. Behind each kind is what CfiVerdict has. From 2 to 4, 6 and 7 the status is the
 * refusal, with what it carries in refused; else both are 0. */
typedef enum {
    CFI_FAITHFUL = 0,       /* a row by the table is that by a scan for every address; first: how many rows it has */
    CFI_NO_TABLE = 1,       /* there is no header, or it has no rows */
    CFI_HEADER_REFUSED = 2, /* the header can't be read before its rows */
    CFI_UNSEARCHABLE = 3,   /* its rows have a format that can't be searched, or its pointer to .eh_frame is indirect */
    CFI_ROW_REFUSED = 4,    /* a row can't be read; first: its index */
    CFI_NOT_RISING = 5,     /* a row doesn't start above the one before it; its index, the start before, its own */
    CFI_ENTRY_REFUSED = 6,  /* a scan can't read an entry; first: its offset */
    CFI_FDE_REFUSED = 7,    /* an FDE or its CIE can't be read; first: the FDE's offset */
    CFI_FDE_WITHOUT_ROW = 8, /* an FDE has no row; its offset, its first address */
    CFI_OVERLAP = 9,        /* an FDE contains the start of the next row; its offset, its end, that start */
    CFI_FEWER_FDES = 10     /* there are fewer FDEs than rows; first: rows, second: FDEs */
} CfiVerdictKind;

typedef struct {
    uint64_t first, second, third; /* 0 where the kind says nothing of it */
    uint64_t refused;
    uint32_t kind;                 /* CfiVerdictKind */
    int32_t status;
} CfiVerdict;

/* Makes a context, and frees one that was there. CFI_OutOfMemory where malloc fails: then the one that was there stays. */
int32_t cfi_context_new(CfiContext *context);

/* Frees the context; without one it does nothing. Then there is none. */
void cfi_context_free(CfiContext *context);

/* Writes the row of the address, found by going through the section, and the rules of the registers 0 .. rules_len - 1.
 * Returns row->status: 0, or the number of the refusal, with what it carries in row->refused; what the rest of the row and
 * the rules hold then is open. CFI_NoContext without a context, CFI_UnsupportedAddressSize for a size that is none, never
 * CFI_OutOfMemory. A return address is looked up as the address less 1. */
int32_t cfi_row_by_scan(CfiContext *context, const uint8_t *section, size_t section_len, const CfiBases *bases,
                        uint64_t address, CfiRow *row, CfiRule *rules, size_t rules_len);

/* The same of .eh_frame by the table of its header, .eh_frame_hdr; by going through the section where the header has no
 * rows. Where the table lists the section's FDEs faithfully, the answer is that of cfi_row_by_scan. */
int32_t cfi_row_by_table(CfiContext *context, const uint8_t *eh_frame, size_t eh_frame_len, const uint8_t *header,
                         size_t header_len, const CfiBases *bases, uint64_t address, CfiRow *row, CfiRule *rules,
                         size_t rules_len);

/* Checks whether the table of .eh_frame_hdr lists the FDEs of .eh_frame faithfully, and writes what it found. Returns
 * verdict->kind: CFI_FAITHFUL only where cfi_row_by_table has for every address the row that cfi_row_by_scan has, and a reason
 * only where it holds. bases->debug_frame isn't read. A size of an address that is none is CFI_HEADER_REFUSED. */
uint32_t cfi_check_table(const uint8_t *eh_frame, size_t eh_frame_len, const uint8_t *header, size_t header_len,
                         const CfiBases *bases, CfiVerdict *verdict);

/* The rows of many addresses, each as cfi_row_by_table answers it, or as cfi_row_by_scan where header_len is 0: rows[i],
 * and the per_row rules from rules[i * per_row] on, are those of addresses[i]. Returns how many are answered: as many as
 * there are addresses, rows, and rules for each row. Nothing behind them is written. */
size_t cfi_rows(CfiContext *context, const uint8_t *section, size_t section_len, const uint8_t *header, size_t header_len,
                const CfiBases *bases, const uint64_t *addresses, size_t addresses_len, CfiRow *rows, size_t rows_len,
                CfiRule *rules, size_t rules_len, size_t per_row);

/* Makes the table of a section, and frees one that was there. The table has for every address what cfi_row_by_scan writes
 * for the section, but row->start and row->end. CFI_OutOfMemory where malloc fails, CFI_UnsupportedAddressSize for a size
 * that is none: then the one that was there stays. A refusal of the section is not returned here, but by cfi_table_row for
 * the addresses that it is for. Once the table is made the section isn't read any more. */
int32_t cfi_table_new(CfiTable *table, const uint8_t *section, size_t section_len, const CfiBases *bases);

/* Frees the table; without one it does nothing. Then there is none. */
void cfi_table_free(CfiTable *table);

/* Writes what the row of the address says, by a binary search in the table, and the rules of the registers
 * 0 .. rules_len - 1, as cfi_row_by_scan does; row->start and row->end are 0. Returns row->status: CFI_NoTable without a
 * table. The places of expressions are those in the section. The table stays as it is. */
int32_t cfi_table_row(CfiTable *table, uint64_t address, CfiRow *row, CfiRule *rules, size_t rules_len);

/* Writes the frames of a stack, from the innermost one out, as far as there is room, and in *end why there are no more.
 * Returns how many. Nothing behind them is written. pc and registers are those of the innermost frame: registers[k] has
 * DWARF's number k; those from 256 on aren't read, and those that aren't passed aren't known. A frame's module is the first
 * of the array whose code has its pc, or the address before it where it is a return address; the row is that of
 * cfi_row_by_table, or of cfi_row_by_scan where the module has no header. Only the bytes of the stack and of the modules'
 * sections are read. */
size_t cfi_unwind(CfiContext *context, const CfiModule *modules, size_t modules_len, const CfiStack *stack, uint64_t pc,
                  const CfiValue *registers, size_t registers_len, CfiFrame *frames, size_t frames_len, CfiEnd *end);

/* As cfi_unwind, with the registers of each frame, as a debugger shows them: values[i * n + k] is register k of frames[i], where
 * n is registers_len, or 256 if that is more. They are those that the frame had where it goes on: of the innermost frame those
 * that are passed, of each other those that the step from the frame before it recovers. A register that isn't known is 0. Ends
 * with CFI_END_NO_ROOM also where values has no room for the n registers of another frame. Nothing behind them is written. */
size_t cfi_unwind_registers(CfiContext *context, const CfiModule *modules, size_t modules_len, const CfiStack *stack,
                            uint64_t pc, const CfiValue *registers, size_t registers_len, CfiFrame *frames, size_t frames_len,
                            CfiValue *values, size_t values_len, CfiEnd *end);

/* Writes the caller of one frame. The pc and the registers are those of the frame; is_interrupted says that the pc is looked
 * up as it is, as that of the innermost frame and of one that a signal interrupted, and not as a return address. The module is
 * the one whose code has the pc: its start and end aren't read. The row is found as by cfi_unwind.
 *
 * Returns end->kind. CFI_END_NONE: *caller and caller_registers are the caller's. CFI_END_OUTERMOST: there is no caller; both
 * are written, and caller->pc is 0. Else, as by cfi_unwind, CFI_END_NO_ROW and those after it; then neither is written. Whether
 * the CFA rises is not checked.
 *
 * *function is what the FDE of the frame's pc says, also where there is no caller, if there is an FDE.
 *
 * registers[k] and caller_registers[k] have DWARF's number k. Those from 256 on aren't read, and aren't known of a caller. On
 * x86-64 register 16 is the pc: pass it, since rows of procedure linkage tables read it. Only the bytes of memory that the
 * rules name are read, and the module's sections. A register of the caller that is saved outside of the windows isn't known:
 * that is no error, so pass what memory there is. */
uint32_t cfi_step(CfiContext *context, const CfiModule *module, const CfiMemory *memory, uint64_t pc, bool is_interrupted,
                  const CfiValue *registers, size_t registers_len, CfiValue *caller_registers, size_t caller_registers_len,
                  CfiFunction *function, CfiCaller *caller, CfiEnd *end);

/* Makes a cache for sets * 4 rows, without one, and frees the cache that was there. A row takes 64 bytes. CFI_OutOfMemory where
 * malloc fails: then the one that was there stays. */
int32_t cfi_cache_new(size_t sets, CfiCache *cache);

/* Frees the cache; without one it does nothing. Then there is none. */
void cfi_cache_free(CfiCache *cache);

/* Forgets all rows of the cache, which keeps its memory. */
void cfi_cache_clear(CfiCache *cache);

/* As cfi_step in all that it returns and writes, with a cache of rows: a frame whose row the cache has is stepped from without
 * its FDE, its header or an instruction; else the row is found as by cfi_step, and kept if it is a plain one, as compilers
 * write them: at most 13 rules, of registers that are undefined, saved at the CFA plus -1000 to 1016 bytes, a multiple of 8, or 0
 * or 1, as the sign state of AArch64; the CFA a register plus a multiple of 8; pushed arguments of up to 504 bytes, a multiple of
 * 8. Which row is replaced is open. Of a file whose number is 2^32 or more no row is kept. Without a cache it is cfi_step.
 *
 * file is the caller's number for the module's file: all modules that are passed with this cache and this number have the same
 * eh_frame, header and bases, and the size of an address is the same with all numbers. Whoever closes a module, and then uses
 * its number for another, calls cfi_cache_clear before. Otherwise the caller that is found may be that of another module's row;
 * nothing else is read or written then than by cfi_step. */
uint32_t cfi_step_cached(CfiContext *context, CfiCache *cache, uint64_t file, const CfiModule *module, const CfiMemory *memory,
                         uint64_t pc, bool is_interrupted, const CfiValue *registers, size_t registers_len,
                         CfiValue *caller_registers, size_t caller_registers_len, CfiFunction *function, CfiCaller *caller,
                         CfiEnd *end);

/* The step of cfi_step_cached if the cache has the row of the frame, with the registers of the caller in the place of those of
 * the frame. Returns whether it has; the kind is in end. What is known of the registers, the function, the caller and the end
 * are then what cfi_step writes; the value of a register that isn't known is open. Else the registers and the caller stay as
 * they were, and cfi_step_cached makes the step, and keeps the row. With more than 256 registers, or if addresses don't have 8
 * bytes, it returns false. file is that of cfi_step_cached. */
bool cfi_step_held(CfiCache *cache, uint64_t file, const CfiMemory *memory, uint64_t pc, bool is_interrupted,
                   CfiValue *registers, size_t registers_len, CfiFunction *function, CfiCaller *caller, CfiEnd *end);

/* Writes the addresses that the loaded segments of a file, those of type PT_LOAD, take in a process: from the lowest one to the
 * highest. bias is what the loader has added to the addresses of the file, modulo 2^64: dlpi_addr of dl_iterate_phdr. Returns
 * CFI_Ok; or CFI_NoSegments, and then writes nothing. */
int32_t cfi_range_of_headers(const CfiProgramHeader *headers, size_t headers_len, uint64_t bias, CfiRange *range);

/* Writes the module of a file as the loader has mapped it, by its program headers, so that nobody parses ELF by hand: the code
 * is all of cfi_range_of_headers; .eh_frame_hdr is the segment of type PT_GNU_EH_FRAME; .eh_frame begins where that points, and
 * goes on to the end of the file's bytes of that segment, so what follows it there comes with it, which no call minds.
 *
 * dl_iterate_phdr has the program headers (dlpi_phdr) and the bias (dlpi_addr) of each module of the own process. One window over
 * its range has the bytes, as examples/process.h makes it: what lies between segments need not be there, since only the bytes of
 * the header are read. Of another process, or of a core file, each segment may be a window of its own. Either section is of the
 * first window that has all its bytes.
 *
 * Of bases, text, data_base, big_endian, aarch64 and address_size become those of the module; the other fields aren't read.
 *
 * Returns CFI_Ok; CFI_NoSegments, CFI_NoHeader, CFI_NoSection or CFI_NotInMemory; the refusal of the header, as
 * CFI_UnsupportedIndirectPointer for a pointer that isn't direct; CFI_UnsupportedAddressSize for a size that is none. Then
 * *module stays as it was. */
int32_t cfi_module_of_headers(const CfiProgramHeader *headers, size_t headers_len, uint64_t bias, const CfiBases *bases,
                              const CfiWindow *windows, size_t windows_len, CfiModule *module);

/* Writes the name of a status, as in "UnexpectedEof", and a zero after it, as far as there is room. Returns how long the name
 * is, without the zero; 64 bytes have room for each. "Unknown" for a number that is no status. */
size_t cfi_status_name(int32_t status, uint8_t *name, size_t name_len);

/* CFI_VERSION of the header that the library was built with. */
uint32_t cfi_version(void);

#ifdef __cplusplus
}
#endif

#endif
