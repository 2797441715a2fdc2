/* Looks up the worked rows that worked_rows.py prints, read from standard input, through the C library, and prints which
 * differ from the expected line. Each is looked up alone and among many, and the bytes after each array that the library
 * writes to are checked. Rows by a scan are also looked up in a table of the section. Then tests what no line has: contexts,
 * tables, memory, names, and the values that errors carry. Linked
 * with --wrap=malloc, --wrap=realloc, --wrap=free. */
#include <inttypes.h>
#include <stdio.h>
#include <stdlib.h>
#include <string.h>

#include "cfi_c.h"

/* The rules of registers 0 to 4096: the worked rows have none above. */
enum { REGISTERS = 4097, MANY = 3, GUARD = 0x5a };

static int failures, calls_for_memory, memory_fails;

void *__real_malloc(size_t size);
void *__real_realloc(void *at, size_t size);
void __real_free(void *at);

void *__wrap_malloc(size_t size) {
    calls_for_memory++;
    return memory_fails ? NULL : __real_malloc(size);
}

void *__wrap_realloc(void *at, size_t size) {
    calls_for_memory++;
    return memory_fails ? NULL : __real_realloc(at, size);
}

void __wrap_free(void *at) {
    calls_for_memory++;
    __real_free(at);
}

static void expect(int holds, const char *what) {
    if (!holds) {
        failures++;
        printf("c library: %s\n", what);
    }
}

static size_t unhex(const char *text, uint8_t *bytes) {
    size_t length = strcmp(text, "-") ? strlen(text) / 2 : 0;
    for (size_t i = 0; i < length; i++)
        sscanf(text + 2 * i, "%2hhx", &bytes[i]);
    return length;
}

static int print_rule(char *out, const CfiRule *rule) {
    switch (rule->kind) {
    case CFI_UNDEFINED:
        return sprintf(out, "undefined");
    case CFI_SAME_VALUE:
        return sprintf(out, "same");
    case CFI_OFFSET:
        return sprintf(out, "offset(%" PRId64 ")", rule->value);
    case CFI_VAL_OFFSET:
        return sprintf(out, "val_offset(%" PRId64 ")", rule->value);
    case CFI_REGISTER:
        return sprintf(out, "r%" PRId64, rule->value);
    case CFI_EXPRESSION:
        return sprintf(out, "expr@%" PRIu64 ":%" PRIu64, rule->place, rule->length);
    case CFI_VAL_EXPRESSION:
        return sprintf(out, "val_expr@%" PRIu64 ":%" PRIu64, rule->place, rule->length);
    case CFI_ARCHITECTURAL:
        return sprintf(out, "architectural");
    default:
        return sprintf(out, "constant(%" PRIu64 ")", rule->place);
    }
}

/* The answer in the program's words. */
static void print_answer(char *out, const CfiRow *row, const CfiRule *rules) {
    if (row->status != CFI_Ok) {
        uint8_t name[64];
        cfi_status_name(row->status, name, sizeof name);
        sprintf(out, "refused %s", (char *)name);
        return;
    }
    out += sprintf(out, "0x%" PRIx64 " 0x%" PRIx64 " cfa=", row->start, row->end);
    if (row->cfa_kind == 0)
        out += sprintf(out, "r%u%+" PRId64, row->cfa_register, row->cfa_offset);
    else
        out += sprintf(out, "expr@%" PRIu64 ":%" PRIu64, row->cfa_place, row->cfa_length);
    out += sprintf(out, " args=%" PRIu64, row->args_size);
    for (int i = 0; i < REGISTERS; i++) {
        if (rules[i].kind != CFI_NO_RULE) {
            out += sprintf(out, " r%d=", i);
            out += print_rule(out, &rules[i]);
        }
    }
}

static int is_guarded(const void *at, size_t length) {
    const uint8_t *bytes = at;
    for (size_t i = 0; i < length; i++)
        if (bytes[i] != GUARD)
            return 0;
    return 1;
}

typedef struct {
    uint8_t section[4096], header[4096];
    size_t section_len, header_len;
    int has_header;
    CfiBases bases;
    uint64_t address;
} Case;

static int32_t answer_alone(CfiContext *context, const Case *c, CfiRow *row, CfiRule *rules) {
    if (!c->has_header)
        return cfi_row_by_scan(context, c->section, c->section_len, &c->bases, c->address, row, rules, REGISTERS);
    return cfi_row_by_table(context, c->section, c->section_len, c->header, c->header_len, &c->bases, c->address, row, rules,
                            REGISTERS);
}

/* The address among two others; one row and one register's rules are left over behind them. */
static void check_many(CfiContext *context, const Case *c, const char *due) {
    uint64_t addresses[MANY] = {c->address + 3, c->address, 0};
    CfiRow rows[MANY + 1];
    CfiRule rules[MANY * REGISTERS + 1];
    char line[4096];
    memset(rows, GUARD, sizeof rows);
    memset(rules, GUARD, sizeof rules);
    size_t count = cfi_rows(context, c->section, c->section_len, c->header, c->has_header ? c->header_len : 0, &c->bases,
                            addresses, MANY, rows, MANY + 1, rules, MANY * REGISTERS + 1, REGISTERS);
    print_answer(line, &rows[1], &rules[REGISTERS]);
    expect(count == MANY && !strcmp(line, due), due);
    expect(is_guarded(&rows[MANY], sizeof rows[0]) && is_guarded(&rules[MANY * REGISTERS], sizeof rules[0]),
           "cfi_rows wrote behind its rows");
    memset(rows, GUARD, sizeof rows);
    count = cfi_rows(context, c->section, c->section_len, c->header, c->has_header ? c->header_len : 0, &c->bases, addresses,
                     MANY, rows, MANY, rules, 2 * REGISTERS - 1, REGISTERS);
    expect(count == 1 && is_guarded(&rows[1], sizeof rows[1]), "cfi_rows answers without room for the rules");
}

/* What a table of the section has for the address: the same line, but the row's two addresses. */
static void check_table(CfiTable *table, const Case *c, const char *due) {
    CfiRow row;
    CfiRule rules[REGISTERS + 1];
    char line[4096];
    memset(rules, GUARD, sizeof rules);
    int32_t made = cfi_table_new(table, c->section, c->section_len, &c->bases);
    if (made != CFI_Ok) {
        expect(made == CFI_UnsupportedAddressSize && !strcmp(due, "refused UnsupportedAddressSize"), "no table is made");
        return;
    }
    int before = calls_for_memory;
    int32_t status = cfi_table_row(table, c->address, &row, rules, REGISTERS);
    print_answer(line, &row, rules);
    expect(calls_for_memory == before, "memory was asked for by cfi_table_row");
    const char *said = strstr(line, "cfa="), *due_says = strstr(due, "cfa=");
    expect(status == row.status && !strcmp(said ? said : line, due_says ? due_says : due), due);
    expect(status != CFI_Ok || (row.start == 0 && row.end == 0), "a row by a table has addresses");
    expect(is_guarded(&rules[REGISTERS], sizeof rules[0]), "rules behind the array were written by cfi_table_row");
}

static void check_case(CfiContext *context, const Case *c, const char *due) {
    CfiRow row;
    CfiRule rules[REGISTERS + 1];
    char line[4096];
    memset(rules, GUARD, sizeof rules);
    int32_t status = answer_alone(context, c, &row, rules);
    print_answer(line, &row, rules);
    expect(status == row.status && !strcmp(line, due), due);
    expect(is_guarded(&rules[REGISTERS], sizeof rules[0]), "rules behind the array were written");
    if (!c->has_header || c->header_len)
        check_many(context, c, due);
}

static int read_case(char *line, Case *c) {
    char kind[16], order[4], section[4096], header[4096], vendor[16];
    unsigned size;
    memset(c, 0, sizeof *c);
    int n = sscanf(line, "%15s %3s %u %" SCNi64 " %" SCNi64 " %" SCNi64 " %" SCNi64 " %15s %" SCNi64 " %4095s %4095s", kind, order,
                   &size, (int64_t *)&c->address, (int64_t *)&c->bases.section, (int64_t *)&c->bases.text,
                   (int64_t *)&c->bases.data_base, vendor, (int64_t *)&c->bases.header, section, header);
    c->bases.debug_frame = !strcmp(kind, "debug_frame");
    c->bases.big_endian = !strcmp(order, "be");
    c->bases.aarch64 = !strcmp(vendor, "aarch64");
    c->bases.address_size = (uint8_t)size;
    c->section_len = unhex(section, c->section);
    c->has_header = strcmp(header, "none") != 0;
    c->header_len = c->has_header ? unhex(header, c->header) : 0;
    return n == 11;
}

static void check_contexts(void) {
    Case c = {.bases = {.address_size = 3}};
    CfiContext context = {0}, none = {0};
    CfiRow row;
    CfiRule rules[REGISTERS];
    expect(answer_alone(&context, &c, &row, rules) == CFI_NoContext && row.status == CFI_NoContext, "no context");
    cfi_context_free(&context);
    expect(!memcmp(&context, &none, sizeof none), "a context that was never made is freed");
    memory_fails = 1;
    expect(cfi_context_new(&context) == CFI_OutOfMemory && !context.live, "out of memory");
    memory_fails = 0;
    expect(cfi_context_new(&context) == CFI_Ok && cfi_context_new(&context) == CFI_Ok && context.live, "made twice");
    memory_fails = 1;
    expect(cfi_context_new(&context) == CFI_OutOfMemory && context.live, "out of memory keeps the context");
    memory_fails = 0;
    expect(answer_alone(&context, &c, &row, rules) == CFI_UnsupportedAddressSize && row.refused == 3, "a size that is none");
    cfi_context_free(&context);
    cfi_context_free(&context);
    expect(!memcmp(&context, &none, sizeof none), "freed twice");
}

static void check_tables(void) {
    Case c = {.bases = {.address_size = 8}};
    CfiTable table = {0}, none = {0};
    CfiRow row;
    CfiRule rules[REGISTERS];
    expect(cfi_table_row(&table, 1, &row, rules, REGISTERS) == CFI_NoTable && row.status == CFI_NoTable, "no table");
    cfi_table_free(&table);
    expect(!memcmp(&table, &none, sizeof none), "a table that was never made is freed");
    memory_fails = 1;
    expect(cfi_table_new(&table, c.section, 0, &c.bases) == CFI_OutOfMemory && !table.live, "a table without memory");
    memory_fails = 0;
    expect(cfi_table_new(&table, c.section, 0, &c.bases) == CFI_Ok && table.live, "a table");
    memory_fails = 1;
    expect(cfi_table_new(&table, c.section, 0, &c.bases) == CFI_OutOfMemory && table.live, "out of memory keeps the table");
    memory_fails = 0;
    c.bases.address_size = 3;
    expect(cfi_table_new(&table, c.section, 0, &c.bases) == CFI_UnsupportedAddressSize && table.live, "a table's size");
    expect(cfi_table_row(&table, 1, &row, rules, REGISTERS) == CFI_NoUnwindInfoForAddress, "no FDE");
    cfi_table_free(&table);
    cfi_table_free(&table);
    expect(!memcmp(&table, &none, sizeof none), "a table is freed twice");
}

static void check_names(void) {
    uint8_t name[64];
#define CHECK_NAME(number, text) \
    expect(cfi_status_name(number, name, sizeof name) == strlen(#text) && !memcmp(name, #text, sizeof #text), #text);
    CFI_REFUSALS(CHECK_NAME)
    CHECK_NAME(0, Ok)
    CHECK_NAME(32, Unknown)
    CHECK_NAME(63, Unknown)
    CHECK_NAME(64, NoContext)
    CHECK_NAME(65, NoTable)
    CHECK_NAME(66, NoSegments)
    CHECK_NAME(67, NoHeader)
    CHECK_NAME(68, NoSection)
    CHECK_NAME(69, NotInMemory)
    CHECK_NAME(70, Unknown)
    CHECK_NAME(-1, Unknown)
    memset(name, GUARD, sizeof name);
    expect(cfi_status_name(CFI_StackFull, name, 5) == 9 && !memcmp(name, "Stack", 5) && name[5] == GUARD, "a short name");
    expect(cfi_version() == CFI_VERSION, "the version");
}

/* A CIE and the FDEs of 0x1000 to 0x1010, 0x1010 to 0x1020 and 0x1020 to 0x1040, at 0x18, 0x2c and 0x40 of a section at
 * 0x2000; the header of its table, at 0x1f00, up to the count; and its rows. */
static const char listed[] = "140000000000000001" "7a5200017810011b0c070890010000" "100000001c000000e0efffff1000000000000000"
                             "1000000030000000dcefffff1000000000410e10" "1000000044000000d8efffff2000000000000000";
static const char head[] = "011b033bfc000000", row_1[] = "00f1ffff18010000", row_2[] = "10f1ffff2c010000",
                  row_3[] = "20f1ffff40010000";

/* Checks the table of these rows, and compares the kind and what goes with it. */
static void check_verdict(const char *count, const char *rows, uint8_t size, CfiVerdict due) {
    uint8_t section[sizeof listed / 2], header[64];
    char text[129];
    CfiBases bases = {.section = 0x2000, .header = 0x1f00, .address_size = size};
    CfiVerdict verdict = {.kind = GUARD};
    int before = calls_for_memory;
    snprintf(text, sizeof text, "%s%s%s", *count ? head : "-", count, rows);
    size_t header_len = unhex(text, header);
    uint32_t kind = cfi_check_table(section, unhex(listed, section), header, header_len, &bases, &verdict);
    expect(kind == due.kind && verdict.kind == kind && verdict.status == due.status && verdict.refused == due.refused
               && verdict.first == due.first && verdict.second == due.second && verdict.third == due.third,
           "another verdict on a table");
    expect(calls_for_memory == before, "memory was asked for by cfi_check_table");
}

static void check_verdicts(void) {
    char rows[64];
    snprintf(rows, sizeof rows, "%s%s%s", row_1, row_2, row_3);
    check_verdict("03000000", rows, 8, (CfiVerdict){.kind = CFI_FAITHFUL, .first = 3});
    check_verdict("03000000", rows, 3, (CfiVerdict){.kind = CFI_HEADER_REFUSED, .status = CFI_UnsupportedAddressSize, .refused = 3});
    check_verdict("", "", 8, (CfiVerdict){.kind = CFI_NO_TABLE});
    check_verdict("00000000", "", 8, (CfiVerdict){.kind = CFI_NO_TABLE});
    snprintf(rows, sizeof rows, "%s%s", row_1, row_3);
    check_verdict("02000000", rows, 8, (CfiVerdict){.kind = CFI_FDE_WITHOUT_ROW, .first = 0x2c, .second = 0x1010});
    snprintf(rows, sizeof rows, "%s%s", row_3, row_1);
    check_verdict("02000000", rows, 8, (CfiVerdict){.kind = CFI_NOT_RISING, .first = 1, .second = 0x1020, .third = 0x1000});
}

int main(void) {
    static char line[16384];
    static Case c;
    int cases = 0;
    CfiContext context = {0};
    CfiTable table = {0};
    check_contexts();
    check_tables();
    check_verdicts();
    check_names();
    expect(cfi_context_new(&context) == CFI_Ok, "a context");
    while (fgets(line, sizeof line, stdin)) {
        char *bar = strstr(line, " | ");
        line[strcspn(line, "\n")] = 0;
        expect(bar && read_case(line, &c), "a line can't be read");
        int before = calls_for_memory;
        check_case(&context, &c, bar + 3);
        expect(calls_for_memory == before, "memory was asked for");
        if (!c.has_header)
            check_table(&table, &c, bar + 3);
        cases++;
    }
    cfi_context_free(&context);
    cfi_table_free(&table);
    printf("c library: %d worked rows, %d failures\n", cases, failures);
    return failures != 0 || cases == 0;
}
