/* Unwinds its own stack, by cfi_step again and again and by one call of cfi_unwind, and prints the frames of both beside those of
 * backtrace() of glibc: on x86-64 Linux, and on AArch64 Linux, where an earlier form has been tested under qemu (examples/aarch64).
 *
 * dl_iterate_phdr has the program headers of the program and its libraries, of which cfi_module_of_headers makes modules (see
 * process.h). One context is used for all frames. */
#define _GNU_SOURCE
#include "process.h"

#include <execinfo.h>
#include <stdio.h>
#include <stdlib.h>
#include <string.h>

enum { FRAMES = 50 };

/* The registers that a call preserves, of the function that this is written into; the caller's frame doesn't need the others.
 * Returns the pc. */
#if defined(__x86_64__)

/* rbx, rbp, rsp, r12 to r15, and rip */
__attribute__((always_inline)) static inline uint64_t read_registers(CfiValue registers[REGISTERS]) {
    uint64_t values[8];
    static const int numbers[8] = {3, 6, SP, 12, 13, 14, 15, PC};
    __asm__ volatile(
        "mov %%rbx, (%0)\n mov %%rbp, 8(%0)\n mov %%rsp, 16(%0)\n mov %%r12, 24(%0)\n"
        "mov %%r13, 32(%0)\n mov %%r14, 40(%0)\n mov %%r15, 48(%0)\n lea 0(%%rip), %%rax\n mov %%rax, 56(%0)"
        :
        : "r"(values)
        : "rax", "memory");
    memset(registers, 0, REGISTERS * sizeof registers[0]);
    for (int i = 0; i < 8; i++)
        registers[numbers[i]] = (CfiValue){values[i], true};
    return values[7];
}

#else

/* x19 to x30, and sp */
__attribute__((always_inline)) static inline uint64_t read_registers(CfiValue registers[REGISTERS]) {
    uint64_t values[14];
    __asm__ volatile(
        "stp x19, x20, [%0]\n stp x21, x22, [%0, 16]\n stp x23, x24, [%0, 32]\n stp x25, x26, [%0, 48]\n"
        "stp x27, x28, [%0, 64]\n stp x29, x30, [%0, 80]\n mov x9, sp\n adr x10, .\n stp x9, x10, [%0, 96]"
        :
        : "r"(values)
        : "x9", "x10", "memory");
    memset(registers, 0, REGISTERS * sizeof registers[0]);
    for (int i = 0; i < 13; i++)
        registers[19 + i] = (CfiValue){values[i], true};
    return values[13];
}

#endif

/* Writes the pcs of the callers, and returns how many they are; 0 unless the last is the outermost frame's. */
static int step_by_step(CfiContext *context, const Modules *modules, const CfiStack *stack, uint64_t pc,
                        const CfiValue innermost[REGISTERS], uint64_t *pcs) {
    CfiWindow window = {stack->base, stack->bytes, stack->len};
    CfiMemory memory = {.windows = &window,
                        .windows_len = 1,
                        .signature_mask = stack->signature_mask,
                        .max_iterations = stack->max_iterations,
                        .stack_pointer = stack->stack_pointer,
                        .address_size = stack->address_size};
    CfiValue registers[REGISTERS], caller_registers[REGISTERS];
    CfiFunction function;
    CfiCaller caller = {.pc = pc, .is_interrupted = true};
    CfiEnd end = {.kind = CFI_END_NONE};
    int count = 0;
    memcpy(registers, innermost, sizeof registers);
    while (end.kind == CFI_END_NONE && count < FRAMES) {
        const CfiModule *module = module_of(modules, caller.pc - !caller.is_interrupted);
        if (!module)
            return 0;
        if (cfi_step(context, module, &memory, caller.pc, caller.is_interrupted, registers, REGISTERS, caller_registers,
                     REGISTERS, &function, &caller, &end) == CFI_END_NONE)
            pcs[count++] = caller.pc;
        memcpy(registers, caller_registers, sizeof registers);
    }
    return end.kind == CFI_END_OUTERMOST ? count : 0;
}

typedef struct {
    uint64_t ours[FRAMES];
    CfiFrame at_once[FRAMES];
    void *theirs[FRAMES];
    int our_count, at_once_count, their_count;
} Frames;

__attribute__((noinline)) static void unwind(Frames *frames) {
    static Modules modules;
    CfiValue registers[REGISTERS];
    uint64_t pc = read_registers(registers);
    CfiStack stack = stack_from(registers[SP].value);
    CfiContext context = {0};
    CfiEnd end;
    if (cfi_context_new(&context) != CFI_Ok)
        return;
    dl_iterate_phdr(add_module, &modules);
    size_t count = cfi_unwind(&context, modules.all, modules.count, &stack, pc, registers, REGISTERS, frames->at_once, FRAMES, &end);
    frames->at_once_count = end.kind == CFI_END_OUTERMOST ? (int)count : 0;
    frames->our_count = step_by_step(&context, &modules, &stack, pc, registers, frames->ours);
    cfi_context_free(&context);
}

static Frames *frames_of_sort;

static int deep(int depth, Frames *frames);

/* Called by the C library, so that the stack has frames of its own. */
static int compare(const void *left, const void *right) {
    (void)left;
    (void)right;
    if (frames_of_sort->our_count == 0)
        deep(0, frames_of_sort);
    return 0;
}

__attribute__((noinline)) static int deep(int depth, Frames *frames) {
    if (depth == 0) {
        unwind(frames);
        frames->their_count = backtrace(frames->theirs, FRAMES);
        return 1;
    }
    if (depth == 3) {
        int two[2] = {1, 2};
        frames_of_sort = frames;
        qsort(two, 2, sizeof two[0], compare);
        return 1;
    }
    volatile int below = deep(depth - 1, frames);
    return below + 1;
}

/* The innermost of the callers' frames differs, since unwind and backtrace are called from two places. Returns 0 if all others
 * agree. The first frame of cfi_unwind is that of unwind itself. */
int main(void) {
    static Frames frames;
    int same = 1;
    deep(5, &frames);
    for (int i = 0; i < frames.our_count; i++) {
        uint64_t theirs = i < frames.their_count ? (uint64_t)frames.theirs[i] : 0;
        uint64_t at_once = i + 1 < frames.at_once_count ? frames.at_once[i + 1].pc : 0;
        int is_same = frames.ours[i] == at_once && (i == 0 || frames.ours[i] == theirs);
        same = same && is_same;
        printf("%2d %#18lx %#18lx %#18lx %s\n", i, frames.ours[i], at_once, theirs, !is_same ? "DIFFERS" : i ? "same" : "");
    }
    printf("%d frames, cfi_unwind has %d, backtrace() %d\n", frames.our_count, frames.at_once_count - 1, frames.their_count);
    return !(same && frames.our_count == frames.their_count && frames.at_once_count == frames.our_count + 1);
}
