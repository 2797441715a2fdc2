/* Prints its own stack where it crashes, from the handler of the signal: crash by a null pointer, crash overflow by endless calls.
 * Then the signal ends it, as without a handler. On x86-64 Linux; on AArch64 Linux it hasn't been tried.
 *
 * All that allocates or locks is done at the start: the context, and the modules (those that are loaded later aren't known). The
 * handler has a stack of its own, since that of the thread may be used up. It calls cfi_unwind and write alone. */
#define _GNU_SOURCE
#include "process.h"

#include <signal.h>
#include <stdio.h>
#include <string.h>
#include <unistd.h>

enum { FRAMES = 32, HANDLER_STACK = 65536 };

static CfiContext context;
static Modules modules;

/* One line: how deep the frame is, where it goes on, and where that is in its module. */
static void print_frame(size_t index, const CfiFrame *frame) {
    static const char digits[] = "0123456789abcdef";
    const CfiModule *module = module_of(&modules, frame->pc - !frame->is_interrupted);
    uint64_t numbers[3] = {index, frame->pc, module ? frame->pc - module->start : 0};
    char line[] = "#00 0x0000000000000000 +0x0000000000000000\n";
    static const size_t ends[3] = {2, 21, 41};
    for (int i = 0; i < 3; i++)
        for (size_t at = ends[i], k = 0; k < (i ? 16u : 2u); k++, numbers[i] >>= 4)
            line[at - k] = digits[numbers[i] & 15];
    if (write(STDERR_FILENO, line, strlen(line)) < 0)
        _exit(1);
}

static void on_crash(int number, siginfo_t *information, void *interrupted) {
    (void)number;
    (void)information;
    static CfiFrame frames[FRAMES];
    CfiValue registers[REGISTERS];
    uint64_t pc = registers_of_signal(interrupted, registers);
    CfiStack stack = stack_from(registers[SP].value);
    CfiEnd end;
    size_t count = cfi_unwind(&context, modules.all, modules.count, &stack, pc, registers, REGISTERS, frames, FRAMES, &end);
    for (size_t i = 0; i < count; i++)
        print_frame(i, &frames[i]);
}

/* The first signal calls the handler; after it the same instruction crashes without one. */
static int set_handler(void) {
    static char stack_bytes[HANDLER_STACK];
    stack_t stack = {.ss_sp = stack_bytes, .ss_size = sizeof stack_bytes};
    struct sigaction action = {.sa_sigaction = on_crash, .sa_flags = SA_SIGINFO | SA_ONSTACK | (int)SA_RESETHAND};
    return sigaltstack(&stack, NULL) == 0 && sigaction(SIGSEGV, &action, NULL) == 0;
}

__attribute__((noinline)) static int read_from(const volatile int *place) {
    return *place + 1;
}

__attribute__((noinline)) static int read_null(void) {
    return read_from(NULL) + 1;
}

__attribute__((noinline)) static int call_again(volatile int *depth) {
    *depth += 1;
    return *depth < 0 ? 0 : call_again(depth) + *depth;
}

int main(int argc, char **argv) {
    (void)argv;
    volatile int depth = 0;
    if (cfi_context_new(&context) != CFI_Ok || !set_handler())
        return 2;
    dl_iterate_phdr(add_module, &modules);
    return argc == 1 ? read_null() : call_again(&depth);
}
