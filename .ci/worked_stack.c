/* Unwinds stacks whose frames were worked out by hand, of .eh_frame and of .debug_frame, through the C library, by cfi_unwind,
 * by cfi_unwind_registers, whose registers are those of cfi_step, and by cfi_step again and again, and prints which differ. Each
 * step is also made by cfi_step_cached: without a cache, by one that is empty, and by one with the row; and in place, by
 * cfi_step_held. The bytes behind the frames are checked. Linked with --wrap=malloc, --wrap=realloc, --wrap=free. */
#include <inttypes.h>
#include <stdio.h>
#include <stdlib.h>
#include <string.h>

#include "cfi_c.h"

enum { FRAMES = 3, REGISTERS = 17, GUARD = 0x5a };

/* .eh_frame at 0x8000. By the first CIE the CFA is r7+8 and the return address, r16, is saved at CFA-8. Its FDEs:
 * - 0x1000 to 0x1020: from 0x1001 on the CFA is r7+16, and r6 is saved at CFA-16;
 * - 0x2000 to 0x2010: r16 is undefined, so a frame here is the outermost one;
 * - 0x3000 to 0x3010: the CFA is r6, and r16 keeps its value, so that a frame here calls itself;
 * - 0x4000 to 0x4010: the return address is signed (AArch64);
 * - 0x2100 to 0x2110: the CFA is r7, and r16 is undefined, as in _start on AArch64.
 * The second CIE is the same for signal trampolines, and has the FDE 0x5000 to 0x5010. */
static const char *const EH_FRAME = "1000000000000000 0100017810 0c0708 9001 0000"
                                    "1c00000018000000 0010000000000000 2000000000000000 410e108602 000000"
                                    "1800000038000000 0020000000000000 1000000000000000 0710 0000"
                                    "1c00000054000000 0030000000000000 1000000000000000 0c0600 0810 000000"
                                    "1800000074000000 0040000000000000 1000000000000000 2d 000000"
                                    "1400000000000000 017a530001781000 0c0708 9001 000000"
                                    "180000001c000000 0050000000000000 1000000000000000 00 000000"
                                    "1c000000c4000000 0021000000000000 1000000000000000 0c0700 0710 000000";

/* .eh_frame_hdr at 0x9000: .eh_frame is 0x1004 before its pointer, and the table has one row, of 0x1000 and the FDE at 0x8014,
 * both from 0x9000 on. */
static const char *const HEADER = "011b033b fcefffff 01000000 0080ffff 14f0ffff";

typedef struct {
    const char *name, *stack; /* the stack's bytes from 0x7000 on */
    uint64_t pc;
    size_t room, count;
    CfiFrame frames[FRAMES];
    CfiEnd end;
} Stack;

/* r6 is 0x7100, r7 is 0x7000, and r16 is the pc. A frame is its pc, its CFA, whether it has one, and whether it was
 * interrupted. */
static const Stack STACKS[] = {
    {"a caller in another module: CFA r7+16, then from r7=0x7010 on r7+8",
     "6600000000000000 0820000000000000", 0x1001, 3, 2,
     {{0x1001, 0x7010, true, true}, {0x2008, 0x7018, true, false}}, {0, CFI_END_OUTERMOST, 0}},
    {"a return address behind its function's last instruction: 0x1020 is looked up as 0x101f",
     "6600000000000000 2010000000000000 6700000000000000 0820000000000000", 0x1001, 3, 3,
     {{0x1001, 0x7010, true, true}, {0x1020, 0x7020, true, false}, {0x2008, 0x7028, true, false}}, {0, CFI_END_OUTERMOST, 0}},
    {"an outermost frame without bytes on the stack: its CFA is that of the frame it called",
     "6600000000000000 0821000000000000", 0x1001, 3, 2,
     {{0x1001, 0x7010, true, true}, {0x2108, 0x7010, true, false}}, {0, CFI_END_OUTERMOST, 0}},
    {"as many frames as there is room for", "6600000000000000 0820000000000000", 0x1001, 1, 1,
     {{0x1001, 0x7010, true, true}}, {0, CFI_END_NO_ROOM, 0}},
    {"no room", "", 0x1001, 0, 0, {{0, 0, false, false}}, {0, CFI_END_NO_ROOM, 0}},
    {"a caller in no module", "6600000000000000 0890000000000000", 0x1001, 3, 2,
     {{0x1001, 0x7010, true, true}, {0x9008, 0, false, false}}, {0, CFI_END_NO_MODULE, 0}},
    {"a return address outside of the bytes, at CFA-8", "6600000000000000 08200000000000", 0x1001, 3, 1,
     {{0x1001, 0, false, true}}, {0x7008, CFI_END_UNREADABLE_MEMORY, 0}},
    {"code without an FDE", "", 0x1500, 3, 1, {{0x1500, 0, false, true}}, {0, CFI_END_NO_ROW, CFI_NoUnwindInfoForAddress}},
    {"a frame that calls itself: the second CFA is r6 again", "", 0x3004, 3, 2,
     {{0x3004, 0x7100, true, true}, {0x3004, 0, false, false}}, {0, CFI_END_NOT_RISING, 0}},
    {"a signed return address, with its signature in the upper 16 bits", "082000000000aa00", 0x4001, 3, 2,
     {{0x4001, 0x7008, true, true}, {0x2008, 0x7010, true, false}}, {0, CFI_END_OUTERMOST, 0}},
    {"a signal trampoline: its caller's pc is looked up as it is", "0020000000000000", 0x5001, 3, 2,
     {{0x5001, 0x7008, true, true}, {0x2000, 0x7010, true, true}}, {0, CFI_END_OUTERMOST, 0}},
};

static int failures, stacks, calls_for_memory, memory_is_refused;

void *__real_malloc(size_t size);
void *__real_realloc(void *at, size_t size);
void __real_free(void *at);

void *__wrap_malloc(size_t size) {
    calls_for_memory++;
    return memory_is_refused ? NULL : __real_malloc(size);
}

void *__wrap_realloc(void *at, size_t size) {
    calls_for_memory++;
    return __real_realloc(at, size);
}

void __wrap_free(void *at) {
    calls_for_memory++;
    __real_free(at);
}

static size_t unhex(const char *text, uint8_t *bytes) {
    size_t length = 0;
    for (; *text; text++) {
        if (*text != ' ') {
            sscanf(text, "%2hhx", &bytes[length++]);
            text++;
        }
    }
    return length;
}

static int is_frame(const CfiFrame *frame, const CfiFrame *due) {
    return frame->pc == due->pc && frame->cfa == due->cfa && frame->has_cfa == due->has_cfa &&
           frame->is_interrupted == due->is_interrupted;
}

static int is_guarded(const CfiFrame *frames, size_t count) {
    const uint8_t *bytes = (const uint8_t *)frames;
    for (size_t i = 0; i < count * sizeof frames[0]; i++)
        if (bytes[i] != GUARD)
            return 0;
    return 1;
}

typedef struct {
    CfiModule modules[2];
    CfiStack stack;
    CfiValue registers[REGISTERS];
    size_t registers_len;
    uint8_t section[512], header[64], bytes[64];
} Process;

/* Two modules of the one section, the lower of which comes last. */
static void begin(Process *p, const Stack *s) {
    memset(p, 0, sizeof *p);
    CfiModule module = {.eh_frame = p->section, .eh_frame_len = unhex(EH_FRAME, p->section), .header = p->header};
    module.bases = (CfiBases){.section = 0x8000, .header = 0x9000, .aarch64 = true};
    p->modules[0] = p->modules[1] = module;
    p->modules[0].start = 0x2000, p->modules[0].end = 0x6000;
    p->modules[1].start = 0x1000, p->modules[1].end = 0x2000;
    p->stack = (CfiStack){.base = 0x7000, .bytes = p->bytes, .len = unhex(s->stack, p->bytes), .max_iterations = 100,
                          .stack_pointer = 7, .signature_mask = 0xffff000000000000, .address_size = 8};
    p->registers[6] = (CfiValue){0x7100, true};
    p->registers[7] = (CfiValue){0x7000, true};
    p->registers[16] = (CfiValue){s->pc, true};
    p->registers_len = REGISTERS;
}

/* Makes .debug_frame of .eh_frame: a CIE has the id 0xffffffff, an FDE the offset of its CIE, and there is no header. */
static void as_debug_frame(Process *p) {
    uint8_t *section = p->section;
    for (size_t at = 0; at < p->modules[0].eh_frame_len;) {
        uint32_t size, id;
        memcpy(&size, section + at, 4);
        memcpy(&id, section + at + 4, 4);
        id = id ? (uint32_t)at + 4 - id : UINT32_MAX;
        memcpy(section + at + 4, &id, 4);
        at += 4 + size;
    }
    p->modules[0].bases.debug_frame = p->modules[1].bases.debug_frame = true;
}

static const CfiModule *module_of(const Process *p, uint64_t address) {
    for (size_t i = 0; i < 2; i++)
        if (p->modules[i].start <= address && address < p->modules[i].end)
            return &p->modules[i];
    return NULL;
}

/* A step as cfi_step and cfi_step_cached write it; without a cache it is cfi_step's. */
typedef struct {
    uint32_t kind;
    CfiValue registers[REGISTERS];
    CfiFunction function;
    CfiCaller caller;
    CfiEnd end;
} Step;

static Step step_of(CfiContext *context, CfiCache *cache, uint64_t file, const CfiModule *module, const CfiMemory *memory,
                    const CfiFrame *frame, const CfiValue *registers, size_t count) {
    Step step;
    memset(&step, 0, sizeof step);
    step.kind = cache ? cfi_step_cached(context, cache, file, module, memory, frame->pc, frame->is_interrupted, registers, count,
                                        step.registers, count, &step.function, &step.caller, &step.end)
                      : cfi_step(context, module, memory, frame->pc, frame->is_interrupted, registers, count, step.registers,
                                 count, &step.function, &step.caller, &step.end);
    return step;
}

static int is_value(const CfiValue *value, const CfiValue *due) {
    return value->known == due->known && value->value == due->value;
}

static int is_step(const Step *step, const Step *due) {
    const CfiFunction *f = &step->function, *g = &due->function;
    const CfiCaller *c = &step->caller, *d = &due->caller;
    for (size_t k = 0; k < REGISTERS; k++)
        if (!is_value(&step->registers[k], &due->registers[k]))
            return 0;
    return step->kind == due->kind && step->end.kind == due->end.kind && step->end.status == due->end.status &&
           step->end.refused == due->end.refused && f->start == g->start && f->end == g->end && f->lsda == g->lsda &&
           f->personality == g->personality && f->fde == g->fde && f->return_address == g->return_address &&
           f->is_known == g->is_known && f->has_lsda == g->has_lsda && f->has_personality == g->has_personality &&
           f->lsda_is_indirect == g->lsda_is_indirect && f->personality_is_indirect == g->personality_is_indirect &&
           f->is_signal_trampoline == g->is_signal_trampoline && c->cfa == d->cfa && c->pc == d->pc &&
           c->args_size == d->args_size && c->is_interrupted == d->is_interrupted;
}

/* The number of the file: another one where the module is. */
static uint64_t file_of(const CfiModule *module, const CfiMemory *memory) {
    return (module->header_len ? 2 : 0) + (memory->address_size == 8 ? 0 : 4) + (module->bases.debug_frame ? 16 : 0);
}

static CfiCache cache;
static unsigned held; /* how many steps were made in place */

/* Whether the step in place is the one that is due, or isn't made because no row is kept. */
static int is_held(uint64_t file, const CfiMemory *memory, const CfiFrame *frame, const CfiValue *registers, size_t count,
                   const Step *due) {
    Step step, before;
    memset(&step, 0, sizeof step);
    for (size_t k = 0; k < count && k < REGISTERS; k++)
        step.registers[k] = registers[k];
    before = step;
    int is_made = cfi_step_held(&cache, file, memory, frame->pc, frame->is_interrupted, step.registers, count, &step.function,
                                &step.caller, &step.end);
    if (!is_made || (step.end.kind != CFI_END_NONE && step.end.kind != CFI_END_OUTERMOST))
        for (size_t k = 0; k < REGISTERS; k++)
            if (!is_value(&step.registers[k], &before.registers[k]))
                return 0;
    if (!is_made)
        return step.caller.cfa == 0 && step.caller.pc == 0;
    step.kind = step.end.kind;
    for (size_t k = 0; k < REGISTERS; k++)
        if (step.kind != CFI_END_NONE && step.kind != CFI_END_OUTERMOST)
            step.registers[k] = due->registers[k];
        else if (!step.registers[k].known)
            step.registers[k].value = 0;
    held++;
    return is_step(&step, due);
}

/* Whether the step with a cache is that without: by none, by an empty one, and by the row that it then has. */
static int is_cached(CfiContext *context, uint64_t file, const CfiModule *module, const CfiMemory *memory, const CfiFrame *frame,
                     const CfiValue *registers, size_t count) {
    CfiCache none = {0}, *caches[4] = {NULL, &none, &cache, &cache};
    Step steps[4];
    int same = 1;
    for (size_t i = 0; i < 4; i++) {
        steps[i] = step_of(context, caches[i], file, module, memory, frame, registers, count);
        same = same && is_step(&steps[i], &steps[0]);
    }
    return same && (!context->live || is_held(file, memory, frame, registers, count, &steps[0]));
}

/* A CIE as the first one, and an FDE 0x1000 to 0x1010 whose row has 13 rules, with a CFA of r7 and a number that is to come; and two
 * nops, or one more rule. */
static const char *const MANY_RULES = "1000000000000000 0100017810 0c0708 9001 0000"
                                      "3000000018000000 0010000000000000 1000000000000000 0e%s"
                                      "8002 8103 8204 8305 8406 8507 8608 8809 890a 8a0b 8b0c 8c0d %s";

/* Rows with as many rules as are kept, of two modules, which have one address but other numbers of their files; a row with one more,
 * which isn't kept; and no memory for a cache. */
enum { MANY = 3 };

static void check_many_rules(CfiContext *context) {
    static uint8_t sections[MANY][128], bytes[128];
    CfiModule modules[MANY];
    CfiWindow window = {0x7000, bytes, sizeof bytes};
    CfiMemory memory = {&window, 1, 0, 100, 7, false, 8};
    CfiFrame frame = {.pc = 0x1008, .is_interrupted = true};
    CfiValue registers[REGISTERS];
    CfiCache other = {0};
    for (size_t i = 0; i < sizeof bytes; i++)
        bytes[i] = i;
    for (size_t k = 0; k < REGISTERS; k++)
        registers[k] = (CfiValue){k == 7 ? 0x7000 : 2 * k, k != 9};
    for (size_t i = 0; i < MANY; i++) {
        char text[256];
        sprintf(text, MANY_RULES, i == 1 ? "70" : "78", i == 2 ? "8d0e" : "0000");
        memset(&modules[i], 0, sizeof modules[i]);
        modules[i].start = 0x1000, modules[i].end = 0x1010, modules[i].eh_frame = sections[i];
        modules[i].eh_frame_len = unhex(text, sections[i]), modules[i].bases.section = 0x8000;
    }
    for (uint64_t round = 0; round < 2 * MANY; round++) {
        uint64_t file = 8 + round % MANY;
        const CfiModule *module = &modules[round % MANY];
        Step step = step_of(context, &cache, file, module, &memory, &frame, registers, REGISTERS);
        uint64_t cfa = round % MANY == 1 ? 0x7070 : 0x7078;
        unsigned more = held + (round % MANY < 2);
        stacks++;
        if (!is_cached(context, file, module, &memory, &frame, registers, REGISTERS) || held != more || step.caller.cfa != cfa ||
            step.kind != CFI_END_NONE || step.registers[7].value != cfa || step.registers[14].known != true) {
            failures++;
            printf("c library: many rules, round %d: cfa %#" PRIx64 "\n", (int)round, step.caller.cfa);
        }
    }
    memory_is_refused = 1;
    if (cfi_cache_new(4, &other) != CFI_OutOfMemory || other.live || cfi_cache_new(4, &cache) != CFI_OutOfMemory || !cache.live ||
        cfi_cache_new(SIZE_MAX / 2, &other) != CFI_OutOfMemory) {
        failures++;
        printf("c library: a cache without memory\n");
    }
    memory_is_refused = 0;
}

/* The registers of each frame, as the steps have them. */
static CfiValue due_registers[FRAMES + 1][REGISTERS];

/* The same frames by cfi_step, over a memory of two windows that part the stack's bytes at the first eight. */
static int are_steps(CfiContext *context, const Process *p, const Stack *s) {
    const CfiStack *k = &p->stack;
    size_t part = k->len < 8 ? k->len : 8, count = 0;
    CfiWindow windows[2] = {{k->base + part, k->bytes + part, k->len - part}, {k->base, k->bytes, part}};
    CfiMemory memory = {windows, 2, k->signature_mask, k->max_iterations, k->stack_pointer, k->big_endian, k->address_size};
    CfiValue registers[REGISTERS], found[REGISTERS];
    CfiFrame frame = {.pc = s->pc, .is_interrupted = true};
    CfiEnd end = {.kind = CFI_END_NONE};
    CfiCaller caller = {0};
    memcpy(registers, p->registers, sizeof registers);
    while (end.kind == CFI_END_NONE) {
        const CfiModule *module = module_of(p, frame.is_interrupted ? frame.pc : frame.pc - 1);
        uint64_t callee_cfa = caller.cfa;
        CfiFunction function = {0};
        end = (CfiEnd){.kind = count == s->room ? CFI_END_NO_ROOM : CFI_END_NO_MODULE};
        if (end.kind == CFI_END_NO_MODULE && module) {
            cfi_step(context, module, &memory, frame.pc, frame.is_interrupted, registers, p->registers_len, found,
                     p->registers_len, &function, &caller, &end);
            if (!is_cached(context, file_of(module, &memory), module, &memory, &frame, registers, p->registers_len))
                return 0;
            if (function.is_known != (end.kind != CFI_END_NOT_WALKED && end.kind != CFI_END_NO_ROW))
                return 0;
        }
        if (end.kind == CFI_END_NO_ROOM || end.kind == CFI_END_NOT_WALKED)
            break;
        if (end.kind == CFI_END_NONE && !frame.is_interrupted && caller.cfa <= callee_cfa)
            end = (CfiEnd){.kind = CFI_END_NOT_RISING};
        frame.has_cfa = end.kind == CFI_END_NONE || end.kind == CFI_END_OUTERMOST;
        frame.cfa = frame.has_cfa ? caller.cfa : 0;
        if (count == s->count || !is_frame(&frame, &s->frames[count]))
            return 0;
        for (size_t k = 0; k < REGISTERS; k++)
            due_registers[count][k] = registers[k].known ? registers[k] : (CfiValue){0, false};
        count++;
        frame.pc = caller.pc, frame.is_interrupted = caller.is_interrupted;
        memcpy(registers, found, sizeof found);
    }
    return count == s->count && end.kind == s->end.kind && end.refused == s->end.refused && end.status == s->end.status;
}

/* The same frames with their registers; and with room for the registers of one frame less, one frame less. */
static int are_with_registers(CfiContext *context, const Process *p, const Stack *s) {
    CfiFrame frames[FRAMES + 1];
    CfiValue values[FRAMES + 1][REGISTERS];
    CfiValue *written = values[0];
    size_t n = p->registers_len;
    for (size_t less = 0; less < 2 && less <= s->count; less++) {
        size_t count = s->count - less, room = less ? n * count + n - 1 : n * count;
        CfiEnd end, due = less ? (CfiEnd){.kind = CFI_END_NO_ROOM} : s->end;
        memset(frames, GUARD, sizeof frames);
        memset(values, GUARD, sizeof values);
        memset(&end, GUARD, sizeof end);
        if (cfi_unwind_registers(context, p->modules, 2, &p->stack, s->pc, p->registers, n, frames, s->room, written, room,
                                 &end) != count)
            return 0;
        for (size_t i = 0; i < count; i++) {
            if (!is_frame(&frames[i], &s->frames[i]))
                return 0;
            for (size_t k = 0; k < n; k++)
                if (!is_value(&written[i * n + k], &due_registers[i][k]))
                    return 0;
        }
        for (size_t i = n * count; i < sizeof values / sizeof written[0]; i++)
            if (((uint8_t *)&written[i])[0] != GUARD)
                return 0;
        if (!is_guarded(&frames[count], FRAMES + 1 - count) || end.kind != due.kind || end.refused != due.refused ||
            end.status != due.status)
            return 0;
    }
    return 1;
}

static void check(CfiContext *context, const Process *p, const Stack *s) {
    CfiFrame frames[FRAMES + 1];
    CfiEnd end;
    int before = calls_for_memory, same = 1;
    memset(frames, GUARD, sizeof frames);
    memset(&end, GUARD, sizeof end);
    size_t count = cfi_unwind(context, p->modules, 2, &p->stack, s->pc, p->registers, p->registers_len, frames, s->room, &end);
    for (size_t i = 0; i < count && i < s->count; i++)
        same = same && is_frame(&frames[i], &s->frames[i]);
    stacks++;
    same = same && count == s->count && is_guarded(&frames[s->count], FRAMES + 1 - s->count);
    same = same && end.kind == s->end.kind && end.refused == s->end.refused && end.status == s->end.status;
    if (!are_steps(context, p, s)) {
        failures++;
        printf("c library: %s: not by steps\n", s->name);
    }
    if (!are_with_registers(context, p, s)) {
        failures++;
        printf("c library: %s: not with registers\n", s->name);
    }
    if (!same || calls_for_memory != before) {
        failures++;
        printf("c library: %s: %zu frames, end %u, status %d, refused %#" PRIx64 "\n", s->name, count, end.kind, end.status,
               end.refused);
    }
}

int main(void) {
    static Process p;
    CfiContext none = {0}, context = {0};
    const Stack *first = &STACKS[0];
    if (cfi_context_new(&context) != CFI_Ok || cfi_cache_new(64, &cache) != CFI_Ok)
        return 1;
    for (size_t i = 0; i < sizeof STACKS / sizeof STACKS[0]; i++) {
        begin(&p, &STACKS[i]);
        check(&context, &p, &STACKS[i]);
        as_debug_frame(&p);
        check(&context, &p, &STACKS[i]);
    }

    begin(&p, first);
    p.modules[0].header_len = unhex(HEADER, p.header);
    check(&context, &p, &(Stack){"a header's table without the caller's FDE", NULL, first->pc, 3, 2,
                                 {{0x1001, 0x7010, true, true}, {0x2008, 0, false, false}},
                                 {0, CFI_END_NO_ROW, CFI_NoUnwindInfoForAddress}});
    begin(&p, first);
    p.modules[1].header_len = unhex(HEADER, p.header);
    check(&context, &p, first);
    p.modules[1].bases.debug_frame = true; /* beside a header it is .eh_frame */
    check(&context, &p, first);
    begin(&p, first);
    p.registers_len = 7;
    check(&context, &p, &(Stack){"a stack pointer that isn't passed", NULL, first->pc, 3, 1,
                                 {{0x1001, 0, false, true}}, {7, CFI_END_UNKNOWN_REGISTER, 0}});
    begin(&p, first);
    p.registers[7].known = false;
    check(&context, &p, &(Stack){"a stack pointer that isn't known", NULL, first->pc, 3, 1,
                                 {{0x1001, 0, false, true}}, {7, CFI_END_UNKNOWN_REGISTER, 0}});
    begin(&p, first);
    p.stack.address_size = 3;
    check(&context, &p, &(Stack){"a size that is none", NULL, first->pc, 3, 0, {{0, 0, false, false}},
                                 {3, CFI_END_NOT_WALKED, CFI_UnsupportedAddressSize}});
    check(&none, &p, &(Stack){"no context", NULL, first->pc, 3, 0, {{0, 0, false, false}},
                              {0, CFI_END_NOT_WALKED, CFI_NoContext}});
    cfi_cache_clear(&cache);
    check_many_rules(&context);
    cfi_cache_free(&cache);
    cfi_context_free(&context);
    failures += held == 0;
    printf("c library: %d worked stacks, %d failures\n", stacks, failures);
    return failures != 0;
}
