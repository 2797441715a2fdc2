/* A signal's trampoline that has no unwind information, as some programs make their own: it is known by its code, and what was
 * interrupted by the kernel's frame above it. */
#include <signal.h>
#include <stddef.h>
#include <string.h>
#include <ucontext.h>

#include "unwinder.h"

#if defined(__x86_64__)

/* mov $__NR_rt_sigreturn, %rax; syscall */
static const uint8_t CODE[] = {0x48, 0xc7, 0xc0, 0x0f, 0, 0, 0, 0x0f, 0x05};

static bool may_be_code(uint64_t pc) {
    return is_readable_code(pc, sizeof CODE);
}

/* What of the kernel's frame is read. */
typedef ucontext_t Interrupted;
static const uint64_t READ = offsetof(Interrupted, uc_mcontext.gregs) + sizeof(gregset_t);

/* Writes the registers that were interrupted, and returns their pc. */
static uint64_t read_interrupted(uint64_t stack_pointer, CfiValue *registers) {
    static const uint8_t places[] = {REG_RAX, REG_RDX, REG_RCX, REG_RBX, REG_RSI, REG_RDI, REG_RBP, REG_RSP,
                                     REG_R8, REG_R9, REG_R10, REG_R11, REG_R12, REG_R13, REG_R14, REG_R15};
    const Interrupted *interrupted = (const Interrupted *)stack_pointer;
    for (size_t k = 0; k < sizeof places; k++)
        registers[k] = (CfiValue){(uint64_t)interrupted->uc_mcontext.gregs[places[k]], true};
    return (uint64_t)interrupted->uc_mcontext.gregs[REG_RIP];
}

#elif defined(__aarch64__)

/* mov x8, #__NR_rt_sigreturn; svc #0: the kernel's own has no unwind information, so that this is looked for. */
static const uint32_t CODE[] = {0xd2801168, 0xd4000001};

/* It is in no module where there is no vDSO. */
static bool may_be_code(uint64_t pc) {
    return pc % sizeof *CODE == 0 && is_readable(pc);
}

typedef struct {
    siginfo_t info;
    ucontext_t context;
} Interrupted;
static const uint64_t READ =
    offsetof(Interrupted, context.uc_mcontext.__reserved) + sizeof(struct fpsimd_context);

static uint64_t read_interrupted(uint64_t stack_pointer, CfiValue *registers) {
    const Interrupted *saved = (const Interrupted *)stack_pointer;
    const mcontext_t *interrupted = &saved->context.uc_mcontext;
    const struct fpsimd_context *vectors = (const void *)interrupted->__reserved;
    for (int k = 0; k < 31; k++)
        registers[k] = (CfiValue){interrupted->regs[k], true};
    registers[STACK_POINTER] = (CfiValue){interrupted->sp, true};
    for (int k = 8; k < 16 && vectors->head.magic == FPSIMD_MAGIC; k++)
        registers[64 + k] = (CfiValue){(uint64_t)vectors->vregs[k], true};
    return interrupted->pc;
}

#endif

bool step_from_trampoline(struct walk *walk) {
    uint64_t at = walk->frame.pc, saved = walk->frame.value[STACK_POINTER];
    if (!may_be_code(at) || memcmp((const void *)at, CODE, sizeof CODE) != 0)
        return false;
    /* less than a page: its ends are in all pages that it has bytes in */
    if (saved > UINT64_MAX - READ || !is_readable(saved) || !is_readable(saved + READ - sizeof(uint64_t)))
        return false;
    uint64_t pc = read_interrupted(saved, walk->registers);
    walk->facts = (CfiFunction){.start = at, .is_signal_trampoline = true};
    walk->caller = (CfiCaller){.cfa = walk->registers[STACK_POINTER].value, .pc = pc, .is_interrupted = true};
    walk->is_caller_plain = false;
    return true;
}
