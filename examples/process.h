/* What the examples share: the modules of the own process, the stack of its first thread, and the registers of a signal's context,
 * by DWARF's numbers: on x86-64 Linux, and on AArch64 Linux, where it hasn't been tried.
 * Include it first, after defining _GNU_SOURCE. */
#ifndef PROCESS_H
#define PROCESS_H

#include <link.h>
#include <ucontext.h>

#include "cfi_c.h"

enum { MODULES = 64 };

/* The highest address of the stack of the first thread. */
extern void *__libc_stack_end;

#if defined(__x86_64__)

/* 16 stands for the return address, and for the pc. */
enum { IS_AARCH64 = 0, SP = 7, PC = 16, REGISTERS = 17 };

static inline uint64_t registers_of_signal(const ucontext_t *signal, CfiValue registers[REGISTERS]) {
    static const int places[REGISTERS] = {REG_RAX, REG_RDX, REG_RCX, REG_RBX, REG_RSI, REG_RDI, REG_RBP, REG_RSP, REG_R8,
                                          REG_R9, REG_R10, REG_R11, REG_R12, REG_R13, REG_R14, REG_R15, REG_RIP};
    for (int i = 0; i < REGISTERS; i++)
        registers[i] = (CfiValue){(uint64_t)signal->uc_mcontext.gregs[places[i]], true};
    return registers[PC].value;
}

#elif defined(__aarch64__)

/* 0 to 30 are x0 to x30, of which x30 has the return address; 34 says whether that is signed. */
enum { IS_AARCH64 = 1, SP = 31, REGISTERS = 35 };

static inline uint64_t registers_of_signal(const ucontext_t *signal, CfiValue registers[REGISTERS]) {
    for (int i = 0; i < REGISTERS; i++)
        registers[i] = (CfiValue){i < SP ? signal->uc_mcontext.regs[i] : signal->uc_mcontext.sp, i <= SP};
    return signal->uc_mcontext.pc;
}

#else
#error "The registers of x86-64 and AArch64 alone are known here."
#endif

/* The bits of a return address that hold its signature. */
static const uint64_t SIGNATURE = IS_AARCH64 ? 0xff7f000000000000 : 0;

typedef struct {
    CfiModule all[MODULES];
    size_t count;
} Modules;

/* Adds a program or library, for dl_iterate_phdr. Those without a header have no place here. */
static inline int add_module(struct dl_phdr_info *info, size_t size, void *data) {
    Modules *modules = data;
    const CfiProgramHeader *headers = (const CfiProgramHeader *)info->dlpi_phdr;
    CfiBases bases = {.aarch64 = IS_AARCH64, .address_size = 8};
    CfiRange range;
    (void)size;
    if (modules->count == MODULES ||
        cfi_range_of_headers(headers, info->dlpi_phnum, info->dlpi_addr, &range) != CFI_Ok)
        return 0;
    CfiWindow window = {range.start, (const uint8_t *)range.start, range.end - range.start};
    if (cfi_module_of_headers(headers, info->dlpi_phnum, info->dlpi_addr, &bases, &window, 1,
                              &modules->all[modules->count]) == CFI_Ok)
        modules->count++;
    return 0;
}

/* The module of an address, or NULL. */
static inline const CfiModule *module_of(const Modules *modules, uint64_t address) {
    for (size_t i = 0; i < modules->count; i++)
        if (modules->all[i].start <= address && address < modules->all[i].end)
            return &modules->all[i];
    return NULL;
}

/* The bytes of the first thread's stack, from the stack pointer on. */
static inline CfiStack stack_from(uint64_t stack_pointer) {
    return (CfiStack){.base = stack_pointer,
                      .bytes = (const uint8_t *)stack_pointer,
                      .len = (uint64_t)__libc_stack_end - stack_pointer,
                      .signature_mask = SIGNATURE,
                      .max_iterations = 1000,
                      .stack_pointer = SP,
                      .address_size = 8};
}

#endif
