/* Compares the steps of the C library with each other. See run. */
#include <elf.h>
#include <fcntl.h>
#include <stdio.h>
#include <stdlib.h>
#include <string.h>
#include <sys/mman.h>
#include <sys/stat.h>
#include <unistd.h>

#include "cfi_c.h"

enum { PAGE = 4096, REGISTERS = 17, MANY = 300, WINDOWS = 3, ROOM = 2 * PAGE, CHANGES = 4, NEAR = 96, FRAMES = 12 };

/* ---- numbers */

static uint64_t state;

/* The next number of splitmix64. */
static uint64_t number(void) {
    uint64_t mixed = state += 0x9e3779b97f4a7c15;
    mixed = (mixed ^ (mixed >> 30)) * 0xbf58476d1ce4e5b9;
    mixed = (mixed ^ (mixed >> 27)) * 0x94d049bb133111eb;
    return mixed ^ (mixed >> 31);
}

static uint64_t below(uint64_t end) {
    return number() % end;
}

/* ---- memory that ends before what can't be read */

static uint8_t *guarded(size_t size) {
    size_t pages = (size + PAGE - 1) / PAGE * PAGE;
    uint8_t *at = mmap(NULL, pages + PAGE, PROT_READ | PROT_WRITE, MAP_PRIVATE | MAP_ANONYMOUS, -1, 0);
    if (at == MAP_FAILED || mprotect(at + pages, PAGE, PROT_NONE) != 0)
        abort();
    return at + pages - size;
}

/* ---- the sections of a file */

/* From where one file is loaded to where the next one is. */
static const uint64_t BIAS = (uint64_t)1 << 40;

struct file {
    CfiModule module;
    uint8_t *section, *header; /* that may be changed */
    const uint8_t *as_was;     /* the section */
    uint32_t rows;             /* of the header's table */
};

static const Elf64_Shdr *section_named(const uint8_t *bytes, const char *name) {
    const Elf64_Ehdr *elf = (const Elf64_Ehdr *)bytes;
    const Elf64_Shdr *all = (const Elf64_Shdr *)(bytes + elf->e_shoff);
    const char *names = (const char *)bytes + all[elf->e_shstrndx].sh_offset;
    for (int i = 0; i < elf->e_shnum; i++)
        if (strcmp(names + all[i].sh_name, name) == 0)
            return &all[i];
    fprintf(stderr, "steps: no %s\n", name);
    exit(2);
}

static uint8_t *copy_of(const uint8_t *bytes, const Elf64_Shdr *section) {
    uint8_t *copy = guarded(section->sh_size);
    memcpy(copy, bytes + section->sh_offset, section->sh_size);
    return copy;
}

/* The file as it is loaded from the address bias on. */
static struct file read_file(const char *path, uint64_t bias) {
    struct stat status;
    int descriptor = open(path, O_RDONLY);
    if (descriptor < 0 || fstat(descriptor, &status) != 0) {
        perror(path);
        exit(2);
    }
    const uint8_t *bytes = mmap(NULL, (size_t)status.st_size, PROT_READ, MAP_PRIVATE, descriptor, 0);
    const Elf64_Shdr *frame = section_named(bytes, ".eh_frame"), *header = section_named(bytes, ".eh_frame_hdr");
    struct file file = {.section = copy_of(bytes, frame), .header = copy_of(bytes, header), .as_was = bytes + frame->sh_offset};
    memcpy(&file.rows, file.header + 8, sizeof file.rows);
    file.module = (CfiModule){.start = bias,
                              .end = bias + BIAS,
                              .eh_frame = file.section,
                              .eh_frame_len = frame->sh_size,
                              .header = file.header,
                              .header_len = header->sh_size,
                              .bases = {.section = bias + frame->sh_addr, .header = bias + header->sh_addr, .address_size = 8}};
    close(descriptor);
    return file;
}

static struct file *files;
static size_t files_len;

/* A row of the header's table: where a function begins, and its FDE's offset. */
static uint64_t row_of(const struct file *file, uint32_t row, size_t *fde) {
    int32_t distances[2];
    memcpy(distances, file->header + 12 + 8 * (size_t)row, sizeof distances);
    uint64_t header = file->module.bases.header;
    *fde = header + (uint64_t)(int64_t)distances[1] - file->module.bases.section;
    return header + (uint64_t)(int64_t)distances[0];
}

/* An address of code of one of the files. */
static uint64_t any_code(void) {
    const struct file *file = &files[below(files_len)];
    size_t fde;
    return row_of(file, (uint32_t)below(file->rows), &fde) + below(64);
}

/* ---- a frame, and what becomes of it */

struct frame {
    CfiMemory memory;
    CfiWindow windows[WINDOWS];
    uint64_t pc;
    bool is_interrupted;
    size_t count; /* of the registers that are passed */
    CfiValue registers[MANY];
};

struct outcome {
    CfiValue registers[MANY];
    CfiFunction function;
    CfiCaller caller;
    CfiEnd end;
};

static uint8_t *rooms[WINDOWS];

/* Windows that overlap, touch, lie at the last addresses, go past them or are empty. */
static void make_windows(struct frame *frame) {
    uint64_t base = number() >> below(60);
    for (int i = 0; i < WINDOWS; i++) {
        size_t length = below(8) ? below(ROOM) : below(12);
        uint8_t *bytes = rooms[i] + ROOM - length;
        uint64_t last = -(below(2) ? length : below(length + 1));
        frame->windows[i] = (CfiWindow){below(40) ? base : last, bytes, length};
        for (size_t k = 0; k + 8 <= length; k += 8 + 8 * below(32)) {
            uint64_t word = below(3) ? base + below(ROOM) : below(2) ? any_code() : number();
            memcpy(bytes + k, &word, sizeof word);
        }
        base += below(3) ? length : below(2 * ROOM) - ROOM / 2;
    }
    frame->memory = (CfiMemory){.windows = frame->windows,
                                .windows_len = below(WINDOWS + 1),
                                .signature_mask = below(8) ? 0 : number(),
                                .max_iterations = 100,
                                .stack_pointer = (uint16_t)(below(16) ? 7 : below(20)),
                                .big_endian = below(32) == 0,
                                .address_size = 8};
}

static void make_frame(struct frame *frame, uint64_t start) {
    make_windows(frame);
    frame->is_interrupted = below(2);
    frame->pc = start + below(below(4) ? 64 : 4096);
    frame->count = below(16) ? REGISTERS : below(8) ? below(REGISTERS) : MANY - below(64);
    for (size_t k = 0; k < frame->count; k++) {
        const CfiWindow *window = &frame->windows[below(WINDOWS)];
        uint64_t value = below(8) ? window->base + below(window->len + 64) : number();
        frame->registers[k] = (CfiValue){value, below(16) != 0};
    }
}

static bool are_same_values(const CfiValue *one, const CfiValue *other, size_t count) {
    for (size_t k = 0; k < count; k++)
        if (one[k].known != other[k].known || (one[k].known && one[k].value != other[k].value))
            return false;
    return true;
}

/* Whether what is known of what was written is the same. */
static bool is_same(const struct outcome *one, const struct outcome *other, size_t count) {
    uint32_t kind = one->end.kind;
    bool same = memcmp(&one->end, &other->end, sizeof one->end) == 0;
    same &= memcmp(&one->function, &other->function, offsetof(CfiFunction, is_signal_trampoline)) == 0;
    same &= one->function.is_signal_trampoline == other->function.is_signal_trampoline;
    if (kind != CFI_END_NONE && kind != CFI_END_OUTERMOST)
        return same;
    same &= one->caller.cfa == other->caller.cfa && one->caller.pc == other->caller.pc;
    same &= one->caller.args_size == other->caller.args_size && one->caller.is_interrupted == other->caller.is_interrupted;
    return same && are_same_values(one->registers, other->registers, count);
}

static CfiContext context;
static CfiCache cache;
static uint64_t seed, steps, callers, held, scanned, walked, walked_frames, differences;

static void differs(const char *call, const struct outcome *expected, const struct outcome *found) {
    differences++;
    printf("DIFFERENT: frame %lu, %s: end %u, cfa %#lx, pc %#lx; by cfi_step %u, %#lx, %#lx\n", seed, call, found->end.kind,
           found->caller.cfa, found->caller.pc, expected->end.kind, expected->caller.cfa, expected->caller.pc);
}

static void compare(const char *call, const struct outcome *expected, const struct outcome *found, size_t count) {
    if (!is_same(expected, found, count))
        differs(call, expected, found);
}

static void plain_step(const CfiModule *module, const struct frame *frame, struct outcome *found) {
    cfi_step(&context, module, &frame->memory, frame->pc, frame->is_interrupted, frame->registers, frame->count,
             found->registers, frame->count, &found->function, &found->caller, &found->end);
}

/* ---- the frames of a stack */

struct walk {
    CfiFrame frames[FRAMES];
    CfiValue values[FRAMES * MANY + MANY];
    CfiEnd end;
    size_t count;
};

static const CfiModule *module_of(const CfiModule *modules, size_t count, const struct frame *frame) {
    uint64_t address = frame->pc - !frame->is_interrupted;
    for (size_t i = 0; i < count; i++)
        if (modules[i].start <= address && address < modules[i].end)
            return &modules[i];
    return NULL;
}

/* By plain steps, as cfi_c.h says what cfi_unwind does: no call returns to 0, and the CFA rises but behind a signal's frame. */
static void walk_by_steps(const CfiModule *modules, size_t modules_len, struct frame frame, size_t room, struct walk *walk) {
    uint64_t callee = 0;
    walk->count = 0;
    walk->end = (CfiEnd){.kind = CFI_END_NO_ROOM};
    frame.is_interrupted = true;
    while (walk->count < room) {
        const CfiModule *module = module_of(modules, modules_len, &frame);
        struct outcome step = {.end = {.kind = CFI_END_NO_MODULE}};
        if (module)
            plain_step(module, &frame, &step);
        bool returns_to_0 = step.caller.pc == 0 && !step.caller.is_interrupted;
        if (step.end.kind == CFI_END_NONE && returns_to_0)
            step.end.kind = CFI_END_OUTERMOST;
        if (step.end.kind == CFI_END_NONE && walk->count && !frame.is_interrupted && step.caller.cfa <= callee)
            step.end.kind = CFI_END_NOT_RISING;
        bool has_cfa = step.end.kind == CFI_END_NONE || step.end.kind == CFI_END_OUTERMOST;
        memcpy(walk->values + walk->count * frame.count, frame.registers, frame.count * sizeof *frame.registers);
        walk->frames[walk->count++] = (CfiFrame){frame.pc, has_cfa ? step.caller.cfa : 0, has_cfa, frame.is_interrupted};
        if (step.end.kind != CFI_END_NONE) {
            walk->end = step.end;
            return;
        }
        frame.pc = step.caller.pc;
        frame.is_interrupted = step.caller.is_interrupted;
        callee = step.caller.cfa;
        memcpy(frame.registers, step.registers, frame.count * sizeof *frame.registers);
    }
}

/* Whether the frames are the same, and nothing is written behind them. */
static bool are_same_frames(const struct walk *one, const struct walk *other) {
    static const CfiFrame nothing;
    bool same = one->count == other->count && memcmp(&one->end, &other->end, sizeof one->end) == 0;
    for (size_t i = 0; same && i < FRAMES; i++) {
        const CfiFrame *expected = i < one->count ? &one->frames[i] : &nothing, *found = &other->frames[i];
        same = expected->pc == found->pc && expected->cfa == found->cfa && expected->has_cfa == found->has_cfa &&
               expected->is_interrupted == found->is_interrupted;
    }
    return same;
}

/* Whether the registers are the same, those that aren't known are 0, and nothing is written behind them, up to end. */
static bool are_same_registers(const struct walk *one, const struct walk *other, size_t each, size_t end) {
    size_t count = one->count * each;
    bool same = are_same_values(one->values, other->values, count);
    for (size_t k = 0; same && k < end; k++)
        same = (k < count && other->values[k].known) || other->values[k].value == 0;
    return same;
}

static void compare_walks(const char *call, const struct walk *expected, const struct walk *found, bool is_same) {
    if (is_same)
        return;
    differences++;
    printf("DIFFERENT: frame %lu, %s: %zu frames, end %u; by cfi_step %zu, %u\n", seed, call, found->count, found->end.kind,
           expected->count, expected->end.kind);
}

/* By cfi_unwind and cfi_unwind_registers, over the first window alone, with room for some frames and registers. */
static void compare_walk(struct frame frame) {
    static struct walk expected, found, with_registers;
    CfiModule modules[8];
    const CfiMemory *memory = &frame.memory;
    size_t modules_len = 0, room = below(8) ? FRAMES : below(FRAMES), each = frame.count < 256 ? frame.count : 256;
    for (size_t i = 0; i < files_len && modules_len < 8; i++)
        if (below(16))
            modules[modules_len++] = files[i].module;
    if (modules_len && below(4) == 0) {
        CfiModule last = modules[modules_len - 1];
        modules[modules_len - 1] = modules[0];
        modules[0] = last;
    }
    frame.memory.windows_len = 1;
    frame.count = each;
    memset(found.frames, 0, sizeof found.frames);
    memset(with_registers.frames, 0, sizeof with_registers.frames);
    memset(with_registers.values, 0, (room * each + MANY) * sizeof *with_registers.values);
    walk_by_steps(modules, modules_len, frame, room, &expected);
    CfiStack stack = {frame.windows[0].base, frame.windows[0].bytes, frame.windows[0].len, memory->signature_mask,
                      memory->max_iterations, memory->stack_pointer, memory->big_endian, memory->address_size};
    found.count = cfi_unwind(&context, modules, modules_len, &stack, frame.pc, frame.registers, frame.count, found.frames, room,
                             &found.end);
    compare_walks("cfi_unwind", &expected, &found, are_same_frames(&expected, &found));
    walked++;
    walked_frames += expected.count;
    size_t room_of_values = below(8) ? room * each : below(room * each + 1), fitting = each ? room_of_values / each : room;
    if (fitting < room)
        walk_by_steps(modules, modules_len, frame, fitting, &expected);
    with_registers.count = cfi_unwind_registers(&context, modules, modules_len, &stack, frame.pc, frame.registers, frame.count,
                                                with_registers.frames, room, with_registers.values, room_of_values,
                                                &with_registers.end);
    compare_walks("cfi_unwind_registers", &expected, &with_registers,
                  are_same_frames(&expected, &with_registers) && are_same_registers(&expected, &with_registers, each, room * each + MANY));
}

/* ---- one step, in each way */

/* Where no byte is changed, the scan has the row of the header's table. */
static void compare_scan(const struct frame *frame, CfiModule module, const struct outcome *plain) {
    struct outcome scan = {0};
    module.header_len = 0;
    plain_step(&module, frame, &scan);
    scanned++;
    compare("cfi_step by a scan", plain, &scan, frame->count);
}

/* Steps from the frame in each way; twice by the cache, which has the row then. */
static void compare_steps(const CfiModule *module, uint64_t number_of_file, const struct frame *frame, bool is_changed) {
    static struct outcome plain, cached, in_place;
    const CfiMemory *memory = &frame->memory;
    size_t count = frame->count;
    memset(&plain, 0, sizeof plain);
    plain_step(module, frame, &plain);
    for (int i = 0; i < 2; i++) {
        memset(&cached, 0, sizeof cached);
        cfi_step_cached(&context, &cache, number_of_file, module, memory, frame->pc, frame->is_interrupted, frame->registers,
                        count, cached.registers, count, &cached.function, &cached.caller, &cached.end);
        compare(i ? "cfi_step_cached again" : "cfi_step_cached", &plain, &cached, count);
    }
    memset(&in_place, 0, sizeof in_place);
    memcpy(in_place.registers, frame->registers, count * sizeof *frame->registers);
    if (cfi_step_held(&cache, number_of_file, memory, frame->pc, frame->is_interrupted, in_place.registers, count,
                      &in_place.function, &in_place.caller, &in_place.end)) {
        compare("cfi_step_held", &plain, &in_place, count);
        held++;
    } else if (memcmp(in_place.registers, frame->registers, count * sizeof *frame->registers) != 0) {
        differs("cfi_step_held without a row", &plain, &in_place);
    }
    steps++;
    callers += plain.end.kind == CFI_END_NONE;
    if (!is_changed && below(64) == 0)
        compare_scan(frame, *module, &plain);
    compare_walk(*frame);
}

/* Another cache, of none to 64 sets, or the same without its rows. */
static void change_cache(void) {
    if (below(2))
        cfi_cache_clear(&cache);
    else if (cfi_cache_new(below(2) ? 64 : below(8), &cache) != CFI_Ok)
        abort();
}

/* Changes some bytes in and around an FDE, in half of all cases, and steps from frames of its function. */
static void compare_function(struct file *file) {
    size_t fde, places[CHANGES];
    uint64_t start = row_of(file, (uint32_t)below(file->rows), &fde);
    int changes = below(2) ? (int)below(CHANGES) + 1 : 0;
    for (int i = 0; i < changes; i++) {
        places[i] = (fde + below(NEAR)) % file->module.eh_frame_len;
        file->section[places[i]] = (uint8_t)(below(2) ? number() : file->section[places[i]] ^ 1u << below(8));
    }
    if (below(256) == 0)
        change_cache();
    for (int i = 0; i < 4; i++) {
        static struct frame frame;
        make_frame(&frame, start);
        compare_steps(&file->module, seed + 1, &frame, changes != 0);
    }
    for (int i = 0; i < changes; i++)
        file->section[places[i]] = file->as_was[places[i]];
}

int main(int count, char **arguments) {
    if (count < 4)
        return 2;
    uint64_t last = strtoull(arguments[1], NULL, 0), first = strtoull(arguments[2], NULL, 0);
    files_len = (size_t)count - 3;
    files = calloc(files_len, sizeof *files);
    for (size_t i = 0; i < files_len; i++)
        files[i] = read_file(arguments[3 + i], (i + 1) * BIAS);
    for (int i = 0; i < WINDOWS; i++)
        rooms[i] = guarded(ROOM);
    if (cfi_context_new(&context) != CFI_Ok || cfi_cache_new(64, &cache) != CFI_Ok)
        return 2;
    for (seed = first; seed < first + (last + 3) / 4 && differences < 100; seed++) {
        state = seed;
        compare_function(&files[below(files_len)]);
    }
    cfi_context_free(&context);
    cfi_cache_free(&cache);
    printf("%lu frames, %lu with a caller, %lu by rows that were held, %lu by a scan, %lu walks of %lu frames: %lu differences\n",
           steps, callers, held, scanned, walked, walked_frames, differences);
    free(files);
    return differences != 0;
}
