// Stacks that lie side by side: functions that call on another one, fibers, rules for the stack pointer.
#include <initializer_list>
#include <pthread.h>
#include <stdint.h>
#include <ucontext.h>
#include <unwind.h>

#include "test.h"

enum { SIZE = 16384, COUNT = 16 };
alignas(4096) static char stacks[COUNT][SIZE];

struct Says {
    int n;
    ~Says() { printf("~%d ", n); }
};

#if defined(__x86_64__)
extern "C" void call_on(void (*callee)(void *), void *argument, void *top);
extern "C" void call_saved(void (*callee)(void *), void *argument, void *top);
extern "C" void through_popped(void (*callee)());
__asm__(R"(
    .text
    .globl call_on              # the CFA by rbp, as most have it
    .type call_on, @function
call_on:
    .cfi_startproc
    push %rbp
    .cfi_def_cfa_offset 16
    .cfi_offset rbp, -16
    mov %rsp, %rbp
    .cfi_def_cfa_register rbp
    mov %rdi, %rax
    mov %rsi, %rdi
    mov %rdx, %rsp
    call *%rax
    mov %rbp, %rsp
    pop %rbp
    .cfi_def_cfa rsp, 8
    ret
    .cfi_endproc
    .size call_on, . - call_on

    .globl call_saved           # the CFA by what the new stack has
    .type call_saved, @function
call_saved:
    .cfi_startproc
    mov %rdi, %rax
    mov %rsi, %rdi
    lea -16(%rdx), %rdx
    mov %rsp, (%rdx)
    mov %rdx, %rsp
    .cfi_escape 0x0f, 5, 0x77, 0, 6, 0x23, 8    # what rsp points to, and 8
    call *%rax
    mov (%rsp), %rsp
    .cfi_def_cfa rsp, 8
    ret
    .cfi_endproc
    .size call_saved, . - call_saved

    .type pops, @function       # it pops its arguments, so that its caller's rsp is not the CFA
pops:
    .cfi_startproc
    push %rbp
    .cfi_def_cfa_offset 16
    .cfi_offset rbp, -16
    mov %rsp, %rbp
    .cfi_def_cfa rbp, 16
    .cfi_val_offset rsp, 16
    call *%rdi
    pop %rbp
    ret $16
    .cfi_endproc
    .globl through_popped
    .type through_popped, @function
through_popped:
    .cfi_startproc
    sub $24, %rsp
    .cfi_def_cfa_offset 16
    call pops
    add $8, %rsp
    .cfi_def_cfa_offset 8
    ret
    .cfi_endproc
)");

static int order[COUNT + 1];
static void (*call)(void (*)(void *), void *, void *);

// Each of the stacks in turn, and at last a throw.
static void go_on(void *at) {
    const int *next = (const int *)at;
    Says says{*next};
    if (next[1] < 0)
        throw *next;
    call(go_on, (void *)(next + 1), stacks[next[1]] + SIZE);
}

// The same without a cleanup on the way.
static void go_plainly(void *at) {
    const int *next = (const int *)at;
    if (next[1] < 0)
        throw *next;
    call(go_plainly, (void *)(next + 1), stacks[next[1]] + SIZE);
    __asm__ volatile("");
}

static void in_order(const char *name, void (*by)(void (*)(void *), void *, void *), const int *stacks_in_order) {
    call = by;
    int count = 0;
    do
        order[count] = stacks_in_order[count];
    while (stacks_in_order[count++] >= 0);
    for (auto first : {go_on, go_on, go_plainly, go_plainly})
        try {
            by(first, order, stacks[order[0]] + SIZE);
        } catch (int n) {
            printf("%s: caught %d\n", name, n);
        }
}

static _Unwind_Reason_Code count_frame(_Unwind_Context *, void *count) {
    return ++*(int *)count < 1000 ? _URC_NO_REASON : _URC_NORMAL_STOP;
}

static void count_frames(void *count) { _Unwind_Backtrace(count_frame, count); }

static void thrower() { throw 5; }

static void switches() {
    for (auto by : {call_on, call_saved}) {
        const char *name = by == call_on ? "by a register" : "by memory";
        for (int k = 0; k < COUNT; k++)
            if (k != 8) {
                const int two[] = {8, k, -1};
                in_order(name, by, two);
            }
        const int up[] = {1, 3, 4, 5, 9, -1}, down[] = {12, 9, 8, 7, 2, -1}, mixed[] = {5, 9, 2, 8, 6, 7, 3, -1};
        in_order(name, by, up);
        in_order(name, by, down);
        in_order(name, by, mixed);
        int count = 0;
        by(count_frames, &count, stacks[3] + SIZE);
        printf("a backtrace %s\n", count > 3 && count < 1000 ? "is whole" : "isn't");
        // on a stack that lies in the frame of its caller
        alignas(16) char room[SIZE];
        order[0] = 1, order[1] = -1;
        try {
            by(go_on, order, room + SIZE);
        } catch (int n) {
            printf("in a frame: caught %d\n", n);
        }
    }
    for (int i = 0; i < 3; i++)
        try {
            through_popped(thrower);
        } catch (int n) {
            printf("popped arguments: caught %d\n", n);
        }
}
#else
static void switches() {}
#endif

// Threads with as little of a stack as there may be: their first throws.
static void *throw_in_little(void *caught) {
    for (int i = 0; i < 3; i++)
        try {
            throw_below(i, i);
        } catch (int n) {
            *(int *)caught += n == i;
        }
    return nullptr;
}

static void in_little() {
    for (size_t size : {16384, 20480, 32768}) {
        int caught = 0;
        pthread_t thread;
        pthread_attr_t attributes;
        pthread_attr_init(&attributes);
        pthread_attr_setstacksize(&attributes, size);
        if (pthread_create(&thread, &attributes, throw_in_little, &caught) == 0)
            pthread_join(thread, nullptr);
        printf("a thread with %d bytes: caught %d\n", (int)size, caught);
    }
}

static ucontext_t main_context, fibers[COUNT];
static int caught;

static void fiber(int n) {
    for (int i = 0; i < 3; i++) {
        try {
            throw_below(n, n);
        } catch (int found) {
            caught += found == n;
            swapcontext(&fibers[n], &main_context);
        }
    }
}

int main() {
    setvbuf(stdout, nullptr, _IOLBF, 0);
    in_little();
    switches();
    for (int n = 0; n < COUNT; n++) {
        getcontext(&fibers[n]);
        fibers[n].uc_stack.ss_sp = stacks[n];
        fibers[n].uc_stack.ss_size = SIZE;
        fibers[n].uc_link = &main_context;
        makecontext(&fibers[n], (void (*)())fiber, 1, n);
    }
    for (int round = 0; round < 4; round++)
        for (int n = 0; n < COUNT; n++)
            swapcontext(&main_context, &fibers[n * 7 % COUNT]);
    printf("fibers: caught %d\n", caught);
}
