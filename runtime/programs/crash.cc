// backtrace() in a handler of SIGSEGV, on a stack of its own, after a call of an address that is no code, a return to one, and a
// fault amid a stack that was overwritten. Each case is a process; those whose handler doesn't end are counted.
#include <execinfo.h>
#include <initializer_list>
#include <signal.h>
#include <stdint.h>
#include <stdio.h>
#include <sys/wait.h>
#include <unistd.h>

#define NOINLINE __attribute__((noinline, noclone))

static void take_backtrace(int) {
    void *frames[60];
    _exit(backtrace(frames, 60) < 0);
}

static NOINLINE void call(uint64_t to, int) {
    ((void (*)())to)();
    __asm__ volatile("");
}

static NOINLINE void overwrite(uint64_t with, int words) {
    volatile uint64_t room[2], *at = room;
    for (int i = 0; i < words; i++)
        at[i] = with;
    __asm__ volatile("" : : "r"(room) : "memory");
}

static NOINLINE void overwrite_and_fault(uint64_t with, int words) {
    volatile uint64_t room[2], *at = room;
    for (int i = 0; i < words; i++)
        at[i] = with;
    *(volatile int *)8 = 1;
    __asm__ volatile("" : : "r"(room) : "memory");
}

static const uint64_t NO_ADDRESS = 0x4141414141414141, NOT_MAPPED = 0x7fff00000000;

static const struct {
    void (*crash)(uint64_t, int);
    uint64_t number;
    int words;
} cases[] = {
    {call, 0, 0}, {call, 0x10, 0}, {call, 0x1000, 0}, {call, NOT_MAPPED, 0}, {call, NO_ADDRESS, 0},
    {overwrite, 0, 8}, {overwrite, 0x10, 8}, {overwrite, NOT_MAPPED, 8}, {overwrite, NO_ADDRESS, 8}, {overwrite, NO_ADDRESS, 40},
    {overwrite_and_fault, 0, 8}, {overwrite_and_fault, 0x10, 8}, {overwrite_and_fault, NOT_MAPPED, 40},
    {overwrite_and_fault, NO_ADDRESS, 8},
};

int main() {
    static char room[1 << 16];
    int count = 0, crashed = 0;
    void *first[4];
    stack_t stack = {room, 0, sizeof room};
    struct sigaction action = {};
    action.sa_handler = take_backtrace;
    action.sa_flags = SA_ONSTACK | SA_RESETHAND;
    backtrace(first, 4); // the C library loads libgcc_s now
    sigaltstack(&stack, nullptr);
    for (int signal : {SIGSEGV, SIGBUS, SIGILL})
        sigaction(signal, &action, nullptr);
    for (auto &each : cases) {
        int status = 1;
        pid_t child = fork();
        if (child == 0) {
            alarm(20);
            each.crash(each.number, each.words);
            _exit(0);
        }
        waitpid(child, &status, 0);
        count++;
        crashed += status != 0;
    }
    printf("crash handlers: %d of %d crash\n", crashed, count);
}
