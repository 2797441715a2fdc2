/* Samples its own stack while it works, and at the end prints how often each stack was seen, in the lines of a flame graph: the
 * functions from the outermost to the innermost one, and the count. On x86-64 Linux, of one thread; on AArch64 Linux it
 * hasn't been tried.
 *
 * A timer sends SIGPROF after each millisecond of processor time. The handler calls cfi_unwind, which neither allocates nor locks,
 * with a context that nothing else uses, and writes the frames into memory that was there before. Names are looked up at the end.
 * Link it with -rdynamic, so that the program's own functions have names too. */
#define _GNU_SOURCE
#include "process.h"

#include <dlfcn.h>
#include <signal.h>
#include <stdio.h>
#include <stdlib.h>
#include <string.h>
#include <sys/time.h>

enum { SAMPLES = 4096, FRAMES = 64, LINE = 4096 };

typedef struct {
    CfiFrame frames[FRAMES];
    size_t count;
} Sample;

static CfiContext context;
static Modules modules;
static Sample samples[SAMPLES];
static volatile sig_atomic_t sample_count;

static void on_timer(int number, siginfo_t *information, void *interrupted) {
    (void)number;
    (void)information;
    if (sample_count == SAMPLES)
        return;
    Sample *sample = &samples[sample_count];
    CfiValue registers[REGISTERS];
    uint64_t pc = registers_of_signal(interrupted, registers);
    CfiStack stack = stack_from(registers[SP].value);
    CfiEnd end;
    sample->count = cfi_unwind(&context, modules.all, modules.count, &stack, pc, registers, REGISTERS, sample->frames, FRAMES, &end);
    sample_count++;
}

/* The time between samples in microseconds; 0 ends them. */
static int set_timer(suseconds_t interval) {
    struct itimerval time = {{0, interval}, {0, interval}};
    return setitimer(ITIMER_PROF, &time, NULL) == 0;
}

/* A return address may be behind its function. */
static const char *name_of(const CfiFrame *frame) {
    Dl_info information;
    const void *address = (const void *)(frame->pc - !frame->is_interrupted);
    return dladdr(address, &information) && information.dli_sname ? information.dli_sname : "[unknown]";
}

static void fold(const Sample *sample, char line[LINE]) {
    size_t length = 0;
    line[0] = 0;
    for (size_t i = sample->count; i > 0 && length < LINE; i--)
        length += (size_t)snprintf(line + length, LINE - length, "%s%s", length ? ";" : "", name_of(&sample->frames[i - 1]));
}

static int compare_lines(const void *left, const void *right) {
    return strcmp(left, right);
}

static void print_stacks(size_t count) {
    char(*lines)[LINE] = calloc(count, LINE);
    if (!lines)
        return;
    for (size_t i = 0; i < count; i++)
        fold(&samples[i], lines[i]);
    qsort(lines, count, LINE, compare_lines);
    for (size_t first = 0, i = 1; i <= count; i++) {
        if (i == count || strcmp(lines[first], lines[i]) != 0) {
            printf("%s %zu\n", lines[first], i - first);
            first = i;
        }
    }
    free(lines);
}

/* ---- the work: about a third of the time in slow, and the rest in slower */

__attribute__((noinline)) uint64_t turn(uint64_t number, int times) {
    for (int i = 0; i < times; i++)
        number = (number ^ (number >> 7)) * 0x9e3779b97f4a7c15;
    return number;
}

__attribute__((noinline)) uint64_t slow(uint64_t number) {
    return turn(number, 100000) + 1;
}

__attribute__((noinline)) uint64_t slower(uint64_t number) {
    return turn(number, 200000) + 1;
}

int main(void) {
    struct sigaction action = {.sa_sigaction = on_timer, .sa_flags = SA_SIGINFO | SA_RESTART};
    uint64_t number = 1;
    if (cfi_context_new(&context) != CFI_Ok || sigaction(SIGPROF, &action, NULL) != 0)
        return 2;
    dl_iterate_phdr(add_module, &modules);
    if (!set_timer(1000))
        return 2;
    while (sample_count < 200)
        number = slower(slow(number));
    set_timer(0);
    print_stacks((size_t)sample_count);
    cfi_context_free(&context);
    return number == 0;
}
