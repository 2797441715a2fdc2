/* What differs by machine: DWARF's numbers of the registers that the entries save and a landing pad needs. */
#ifndef MACHINE_H
#define MACHINE_H

#include <stdbool.h>
#include <stdint.h>

#if defined(__x86_64__)

/* REGISTERS: the rows' registers. GCC_REGISTERS: for how many GCC's contexts have room (see unwinder.h). BELOW: how many bytes
 * below the stack pointer belong to a frame (the red zone of System V). */
enum { STACK_POINTER = 7, RETURN_ADDRESS = 16, REGISTERS = 17, GCC_REGISTERS = 18, BELOW = 128 };

/* rbx rbp rsp r12 r13 r14 r15, as entry_x86_64.S saves them. */
#define SAVED_REGISTERS {3, 6, STACK_POINTER, 12, 13, 14, 15}
enum { SAVED = 7, SAVED_STACK_POINTER = 2 };

/* rax rdx rcx rsi rdi r8 r9 r10 r11, in the order of their numbers. */
#define OTHER_REGISTERS {0, 1, 2, 4, 5, 8, 9, 10, 11}
enum { OTHERS = 9 };

/* rax rdx rbx rbp rsp r12 r13 r14 r15: as it loads them. The first two are for the personality's arguments. */
#define LOADED_REGISTERS {0, 1, 3, 6, STACK_POINTER, 12, 13, 14, 15}
enum { LOADED = 9 };

/* The bits of a return address that hold its signature. */
static const uint64_t SIGNATURE = 0;
#define IS_AARCH64 false

enum { REGION = 4096 /* what regions are aligned to: the largest page that the machine has */ };

/* What tells a thread from others that run. */
static inline uint64_t thread_pointer(void) {
    uint64_t pointer;
    __asm__("movq %%fs:0, %0" : "=r"(pointer));
    return pointer;
}

/* Says that the processor waits for another. */
static inline void pause_processor(void) {
    __asm__ volatile("pause");
}

/* A request of valgrind.h. These instructions do nothing but where valgrind runs them. */
static inline uint64_t ask_valgrind(uint64_t number, uint64_t first, uint64_t second) {
    volatile uint64_t request[6] = {number, first, second, 0, 0, 0};
    uint64_t result = 0;
    __asm__ volatile("rolq $3, %%rdi; rolq $13, %%rdi; rolq $61, %%rdi; rolq $51, %%rdi; xchgq %%rbx, %%rbx"
                     : "+d"(result)
                     : "a"(request)
                     : "cc", "memory");
    return result;
}

#elif defined(__aarch64__)

/* 0 to 30 are x0 to x30, 34 says whether the return address is signed, 72 to 79 are d8 to d15. */
enum { STACK_POINTER = 31, RETURN_ADDRESS = 30, REGISTERS = 80, GCC_REGISTERS = 98, BELOW = 0 };

#define SAVED_REGISTERS {19, 20, 21, 22, 23, 24, 25, 26, 27, 28, 29, 30, STACK_POINTER, 72, 73, 74, 75, 76, 77, 78, 79}
enum { SAVED = 21, SAVED_STACK_POINTER = 12 };

/* x0 to x18, the rest but for 34, which rows set for each frame that signs its address, and d0 to d7. */
#define OTHER_REGISTERS \
    {0, 1, 2, 3, 4, 5, 6, 7, 8, 9, 10, 11, 12, 13, 14, 15, 16, 17, 18, 32, 33, 35, 36, 37, 38, 39, 40, 41, 42, 43, 44, 45, 46, \
     47, 48, 49, 50, 51, 52, 53, 54, 55, 56, 57, 58, 59, 60, 61, 62, 63, 64, 65, 66, 67, 68, 69, 70, 71}
enum { OTHERS = 58 };

#define LOADED_REGISTERS \
    {0, 1, 2, 3, 19, 20, 21, 22, 23, 24, 25, 26, 27, 28, 29, 30, STACK_POINTER, 72, 73, 74, 75, 76, 77, 78, 79}
enum { LOADED = 25 };

static const uint64_t SIGNATURE = 0x007f000000000000; /* of 48 bits of address; the top byte is data */
#define IS_AARCH64 true

enum { REGION = 1 << 16 };

static inline uint64_t thread_pointer(void) {
    return (uint64_t)__builtin_thread_pointer();
}

static inline void pause_processor(void) {
    __asm__ volatile("yield");
}

/* A request of valgrind.h. These instructions do nothing but where valgrind runs them. */
static inline uint64_t ask_valgrind(uint64_t number, uint64_t first, uint64_t second) {
    volatile uint64_t request[6] = {number, first, second, 0, 0, 0};
    register uint64_t result __asm__("x3") = 0;
    register volatile uint64_t *passed __asm__("x4") = request;
    __asm__ volatile("ror x12, x12, #3; ror x12, x12, #13; ror x12, x12, #51; ror x12, x12, #61; orr x10, x10, x10"
                     : "+r"(result)
                     : "r"(passed)
                     : "cc", "memory");
    return result;
}

#else
#error "x86-64 and AArch64 alone"
#endif

/* The caller's registers where an entry was called. The last two: where it goes on, and the shadow stack or 0. */
struct entry {
    uint64_t registers[SAVED];
    uint64_t pc;
    uint64_t shadow_stack;
};

/* What a landing pad begins with, and how many words the shadow stack gives up. */
struct landing {
    uint64_t registers[LOADED];
    uint64_t pc;
    uint64_t shadow_stack;
};

#endif
