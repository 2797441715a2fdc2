/* Prints how many bytes of the stack each call of the C library takes: it is made on a stack of its own, that was painted before.
 * A row that remembers states, a context's first that does, and registers of more than 32 are calls of their own. With an argument,
 * fails if a call that a signal handler may make takes more bytes than that. x86-64 and AArch64 with glibc, for makecontext. */
#include <stdio.h>
#include <stdlib.h>
#include <string.h>
#include <ucontext.h>

#include "cfi_c.h"

enum { ROOM = 1 << 18, PAINT = 0xa5, RULES = 17, FRAMES = 4, MANY = 100 };

/* .eh_frame at 0x8000 for x86-64: a CIE and FDEs of 16 bytes, of 0x1000, 0x2000, .. : a plain one; an outermost one; one that
 * remembers three states and restores them. .eh_frame_hdr at 0x9000 has a table of them. */
static const char EH_FRAME[] = "1000000000000000 0100017810 0c0708 9001 0000"
                               "1c00000018000000 0010000000000000 1000000000000000 410e108602 000000"
                               "1c00000038000000 0020000000000000 1000000000000000 0710 000000000000"
                               "2000000058000000 0030000000000000 1000000000000000 0a410a410a410b0b0b 000000";
static const char HEADER[] = "011b033b fcefffff 03000000 0080ffff 14f0ffff 0090ffff 34f0ffff 00a0ffff 54f0ffff";

static uint8_t section[256], header[64], stack_bytes[64];
static size_t section_len, header_len;
static CfiBases bases = {.section = 0x8000, .header = 0x9000, .address_size = 8};
static CfiModule module;
static CfiWindow window;
static CfiMemory memory;
static CfiStack stack;
static CfiContext context, fresh;
static CfiCache cache;
static CfiTable table;
static CfiValue registers[MANY], found[MANY], values[FRAMES * MANY];
static CfiFrame frames[FRAMES];
static CfiRow row, rows[2];
static CfiRule rules[2 * RULES];
static CfiVerdict verdict;
static CfiFunction function;
static CfiCaller caller;
static CfiEnd end;
static CfiRange range;
static CfiModule made;
static const CfiProgramHeader headers[2] = {{.p_type = 1, .p_vaddr = 0x1000, .p_memsz = 0x9000, .p_filesz = 0x9000},
                                            {.p_type = 0x6474e550, .p_vaddr = 0x9000, .p_memsz = 0x24, .p_filesz = 0x24}};
static uint8_t name[64];

static size_t unhex(const char *text, uint8_t *bytes) {
    size_t length = 0;
    for (unsigned byte; *text; text += *text == ' ' ? 1 : 2)
        if (*text != ' ' && sscanf(text, "%2x", &byte) == 1)
            bytes[length++] = (uint8_t)byte;
    return length;
}

static void by_scan(uint64_t address) {
    cfi_row_by_scan(&context, section, section_len, &bases, address, &row, rules, RULES);
}

static void step_from(uint64_t pc, size_t count) {
    cfi_step(&context, &module, &memory, pc, true, registers, count, found, count, &function, &caller, &end);
}

static void nothing(void) {}
static void context_new(void) { cfi_context_new(&fresh); }
static void context_free(void) { cfi_context_free(&fresh); }
static void cache_new(void) { cfi_cache_new(8, &cache); }
static void cache_clear(void) { cfi_cache_clear(&cache); }
static void table_new(void) { cfi_table_new(&table, section, section_len, &bases); }
static void row_by_scan(void) { by_scan(0x1001); }
static void row_remembered(void) { by_scan(0x3004); }
static void row_by_table(void) {
    cfi_row_by_table(&context, section, section_len, header, header_len, &bases, 0x1001, &row, rules, RULES);
}
static void check_table(void) { cfi_check_table(section, section_len, header, header_len, &bases, &verdict); }
static void rows_of_two(void) {
    static const uint64_t addresses[2] = {0x1000, 0x1001};
    cfi_rows(&context, section, section_len, header, header_len, &bases, addresses, 2, rows, 2, rules, 2 * RULES,
             RULES);
}
static void table_row(void) { cfi_table_row(&table, 0x1001, &row, rules, RULES); }
static void range_of(void) { cfi_range_of_headers(headers, 2, 0, &range); }
static void module_of(void) {
    CfiWindow of_header = {0x9000, header, header_len};
    cfi_module_of_headers(headers, 2, 0, &bases, &of_header, 1, &made);
}
static void unwind(void) { cfi_unwind(&context, &module, 1, &stack, 0x1001, registers, RULES, frames, FRAMES, &end); }
static void unwind_many(void) { cfi_unwind(&context, &module, 1, &stack, 0x1001, registers, MANY, frames, FRAMES, &end); }
static void unwind_registers(void) {
    cfi_unwind_registers(&context, &module, 1, &stack, 0x1001, registers, RULES, frames, FRAMES, values, FRAMES * RULES, &end);
}
static void step(void) { step_from(0x1001, RULES); }
static void step_many(void) { step_from(0x1001, MANY); }
static void step_remembered(void) { step_from(0x3004, RULES); }
static void step_cached(void) {
    cfi_step_cached(&context, &cache, 1, &module, &memory, 0x1001, true, registers, RULES, found, RULES, &function, &caller, &end);
}
static void step_held(void) { cfi_step_held(&cache, 1, &memory, 0x1001, true, registers, RULES, &function, &caller, &end); }
static void status_name(void) { cfi_status_name(1, name, sizeof name); }

static const struct {
    const char *name;
    void (*call)(void);
    int in_handler;
} CALLS[] = {
    {"cfi_context_new", context_new, 0}, {"cfi_context_free", context_free, 0}, {"cfi_cache_new", cache_new, 0},
    {"cfi_table_new", table_new, 0}, {"cfi_cache_clear", cache_clear, 1}, {"cfi_row_by_scan", row_by_scan, 1},
    {"cfi_row_by_table", row_by_table, 1}, {"cfi_check_table", check_table, 1}, {"cfi_rows", rows_of_two, 1},
    {"cfi_table_row", table_row, 1}, {"cfi_range_of_headers", range_of, 1}, {"cfi_module_of_headers", module_of, 1},
    {"cfi_unwind", unwind, 1}, {"cfi_unwind, 100 registers", unwind_many, 1}, {"cfi_unwind_registers", unwind_registers, 1},
    {"cfi_step", step, 1}, {"cfi_step, 100 registers", step_many, 1}, {"cfi_step_cached, a new row", step_cached, 1},
    {"cfi_step_cached, a kept row", step_cached, 1}, {"cfi_step_held", step_held, 1}, {"cfi_status_name", status_name, 1},
    {"cfi_row_by_scan, the first states", row_remembered, 1}, {"cfi_row_by_scan, states again", row_remembered, 1},
    {"cfi_step, states", step_remembered, 1},
};

/* The bytes of a painted stack that a call takes. */
static size_t taken_by(void (*call)(void)) {
    static uint8_t *room;
    static ucontext_t here, there;
    size_t left = 0;
    if (!room && !(room = malloc(ROOM)))
        exit(1);
    memset(room, PAINT, ROOM);
    getcontext(&there);
    there.uc_stack.ss_sp = room;
    there.uc_stack.ss_size = ROOM;
    there.uc_link = &here;
    makecontext(&there, call, 0);
    swapcontext(&here, &there);
    while (left < ROOM && room[left] == PAINT)
        left++;
    return ROOM - left;
}

int main(int count, char **arguments) {
    size_t most = count > 1 ? strtoul(arguments[1], NULL, 0) : 0, base = 0;
    int failures = 0;
    section_len = unhex(EH_FRAME, section);
    header_len = unhex(HEADER, header);
    module = (CfiModule){.start = 0x1000, .end = 0x8000, .eh_frame = section, .eh_frame_len = section_len,
                         .header = header, .header_len = header_len, .bases = bases};
    unhex("6600000000000000 0820000000000000 0820000000000000", stack_bytes);
    window = (CfiWindow){0x7000, stack_bytes, sizeof stack_bytes};
    memory = (CfiMemory){.windows = &window, .windows_len = 1, .max_iterations = 100, .stack_pointer = 7, .address_size = 8};
    stack = (CfiStack){.base = 0x7000, .bytes = stack_bytes, .len = sizeof stack_bytes, .max_iterations = 100, .stack_pointer = 7,
                       .address_size = 8};
    registers[6] = (CfiValue){0x7100, true};
    registers[7] = (CfiValue){0x7000, true};
    registers[16] = (CfiValue){0x1001, true};
    if (cfi_context_new(&context) != CFI_Ok)
        return 1;
    base = taken_by(nothing);
    for (size_t i = 0; i < sizeof CALLS / sizeof CALLS[0]; i++) {
        size_t taken = taken_by(CALLS[i].call) - base;
        printf("%7zu %s\n", taken, CALLS[i].name);
        if (most && CALLS[i].in_handler && taken > most)
            failures++;
    }
    return failures > 0;
}
