/* Makes modules of program headers through the C library, and prints which differ from those that were worked out by hand. What
 * an error leaves is checked too. */
#include <inttypes.h>
#include <stdio.h>
#include <string.h>

#include "cfi_c.h"

enum { LOAD = 1, DYNAMIC = 2, EH_FRAME_HDR = 0x6474e550, GUARD = 0x5a };

#define BIAS UINT64_C(0x7f5500000000)

/* A library of three segments, not in order: 0x2000 to 0x2140 with 0x100 bytes of the file, 0 to 0x1000, and 0x4000 to 0x4040.
 * .eh_frame_hdr is at 0x2010, with 8 bytes. */
#define DATA {LOAD, 6, 0x2000, 0x2000, 0x2000, 0x100, 0x140, 0x1000}
#define CODE {LOAD, 5, 0, 0, 0, 0x1000, 0x1000, 0x1000}
#define LAST {LOAD, 6, 0x3000, 0x4000, 0x4000, 0x40, 0x40, 0x1000}
#define HEADER {EH_FRAME_HDR, 4, 0x2010, 0x2010, 0x2010, 8, 8, 4}
#define OTHER {DYNAMIC, 6, 0x3000, 0x4000, 0x4000, 0x10, 0x10, 8}

typedef struct {
    const char *name;
    CfiProgramHeader headers[5];
    size_t headers_len;
    uint64_t bias;
    uint8_t header[8];         /* the bytes at 0x2010 */
    size_t missing;            /* of the window's bytes, at its end */
    uint8_t address_size;
    int32_t status;
    CfiRange range;
    uint64_t section, section_len; /* .eh_frame, from the address on */
} Case;

/* The header's version, its three encodings (0x1b: four bytes with a sign from the pointer on; 0xff: none) and its pointer. From
 * 0x2014 it is 0x20 to 0x2034, and 0xcc bytes from there to the end of the segment in the file. */
static const Case CASES[] = {
    {"a library with its header", {DATA, HEADER, CODE, OTHER, LAST}, 5, BIAS, {1, 0x1b, 0xff, 0xff, 0x20}, 0, 8, CFI_Ok,
     {BIAS, BIAS + 0x4040}, BIAS + 0x2034, 0xcc},
    {"without its last segment", {DATA, HEADER, CODE}, 3, BIAS, {1, 0x1b, 0xff, 0xff, 0x20}, 0, 8, CFI_Ok, {BIAS, BIAS + 0x2140},
     BIAS + 0x2034, 0xcc},
    {"an executable that isn't moved", {CODE, DATA, HEADER}, 3, 0, {1, 0x1b, 0xff, 0xff, 0x20}, 0, 8, CFI_Ok, {0, 0x2140}, 0x2034,
     0xcc},
    {"a bias that moves it down: 0x2000 less 0x1000", {DATA, HEADER}, 2, -UINT64_C(0x1000), {1, 0x1b, 0xff, 0xff, 0x20}, 0, 8,
     CFI_Ok, {0x1000, 0x1140}, 0x1034, 0xcc},
    {"a pointer back to the first segment: 0x1f14 less", {DATA, HEADER, CODE}, 3, BIAS, {1, 0x1b, 0xff, 0xff, 0xec, 0xe0, 0xff, 0xff},
     0, 8, CFI_Ok, {BIAS, BIAS + 0x2140}, BIAS + 0x100, 0xf00},
    {"the last byte of the file's in the segment", {DATA, HEADER}, 2, BIAS, {1, 0x1b, 0xff, 0xff, 0xeb}, 0, 8, CFI_Ok,
     {BIAS + 0x2000, BIAS + 0x2140}, BIAS + 0x20ff, 1},
    {"a byte behind those of the file", {DATA, HEADER}, 2, BIAS, {1, 0x1b, 0xff, 0xff, 0xec}, 0, 8, CFI_NoSection,
     {BIAS + 0x2000, BIAS + 0x2140}, 0, 0},
    {"no headers", {DATA}, 0, BIAS, {0}, 0, 8, CFI_NoSegments, {0, 0}, 0, 0},
    {"no loaded segment", {HEADER, OTHER}, 2, BIAS, {1, 0x1b, 0xff, 0xff, 0x20}, 0, 8, CFI_NoSegments, {0, 0}, 0, 0},
    {"no header", {DATA, CODE}, 2, BIAS, {1, 0x1b, 0xff, 0xff, 0x20}, 0, 8, CFI_NoHeader, {BIAS, BIAS + 0x2140}, 0, 0},
    {"a header of another version", {DATA, HEADER}, 2, BIAS, {2, 0x1b, 0xff, 0xff, 0x20}, 0, 8, CFI_UnknownVersion,
     {BIAS + 0x2000, BIAS + 0x2140}, 0, 0},
    {"an indirect pointer", {DATA, HEADER}, 2, BIAS, {1, 0x9b, 0xff, 0xff, 0x20}, 0, 8, CFI_UnsupportedIndirectPointer,
     {BIAS + 0x2000, BIAS + 0x2140}, 0, 0},
    {"a section that isn't all there", {DATA, HEADER}, 2, BIAS, {1, 0x1b, 0xff, 0xff, 0x20}, 0x41, 8, CFI_NotInMemory,
     {BIAS + 0x2000, BIAS + 0x2140}, 0, 0},
    {"all that the file has is there", {DATA, HEADER}, 2, BIAS, {1, 0x1b, 0xff, 0xff, 0x20}, 0x40, 8, CFI_Ok,
     {BIAS + 0x2000, BIAS + 0x2140}, BIAS + 0x2034, 0xcc},
    {"no size of an address", {DATA, HEADER}, 2, BIAS, {1, 0x1b, 0xff, 0xff, 0x20}, 0, 3, CFI_UnsupportedAddressSize,
     {BIAS + 0x2000, BIAS + 0x2140}, 0, 0},
};

static uint8_t code[0x1000], data[0x140];
static int failures;

static void check(const Case *c, const char *what, int holds) {
    failures += !holds;
    if (!holds)
        printf("modules: %s: %s\n", c->name, what);
}

static int is_guarded(const void *at, size_t length) {
    for (size_t i = 0; i < length; i++)
        if (((const uint8_t *)at)[i] != GUARD)
            return 0;
    return 1;
}

static void check_range(const Case *c) {
    CfiRange range;
    memset(&range, GUARD, sizeof range);
    int32_t status = cfi_range_of_headers(c->headers, c->headers_len, c->bias, &range);
    check(c, "range", status == (c->status == CFI_NoSegments ? CFI_NoSegments : CFI_Ok));
    check(c, "addresses", status == CFI_Ok ? range.start == c->range.start && range.end == c->range.end
                                           : is_guarded(&range, sizeof range));
}

/* One window has what lies in the first segment, another what lies in that of the header. */
static void check_module(const Case *c) {
    CfiWindow windows[] = {{c->bias, code, sizeof code}, {c->bias + 0x2000, data, sizeof data - c->missing}};
    CfiBases bases = {1, 2, 3, 4, false, true, true, c->address_size};
    CfiModule module;
    memcpy(data + 0x10, c->header, sizeof c->header);
    memset(&module, GUARD, sizeof module);
    int32_t status = cfi_module_of_headers(c->headers, c->headers_len, c->bias, &bases, windows, 2, &module);
    check(c, "status", status == c->status);
    if (status != CFI_Ok) {
        check(c, "nothing is written", is_guarded(&module, sizeof module));
        return;
    }
    uint64_t place = c->section - c->bias;
    check(c, "code", module.start == c->range.start && module.end == c->range.end);
    check(c, "header", module.header == data + 0x10 && module.header_len == 8 && module.bases.header == c->bias + 0x2010);
    check(c, "section", module.eh_frame == (place < 0x1000 ? code + place : data + place - 0x2000) &&
                            module.eh_frame_len == c->section_len && module.bases.section == c->section);
    check(c, "bases", module.bases.text == 3 && module.bases.data_base == 4 && !module.bases.big_endian &&
                          !module.bases.debug_frame && module.bases.aarch64 && module.bases.address_size == c->address_size);
}

int main(void) {
    size_t count = sizeof CASES / sizeof CASES[0];
    for (size_t i = 0; i < count; i++) {
        check_range(&CASES[i]);
        check_module(&CASES[i]);
    }
    printf("modules: %zu of program headers, %d differ\n", count, failures);
    return failures != 0;
}
