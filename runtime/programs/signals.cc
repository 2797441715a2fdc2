// Throws out of signal handlers, on the thread's stack and on one of their own; backtraces in handlers. -fnon-call-exceptions
#include <execinfo.h>
#include <pthread.h>
#include <signal.h>
#include <string>
#include <sys/mman.h>
#include <sys/time.h>
#include <ucontext.h>
#include <unwind.h>

#include "test.h"

static void throw_signal(int number) { throw number; }

static void throw_text(int, siginfo_t *info, void *) {
    throw std::string(info->si_code == FPE_INTDIV ? "division by zero" : "another");
}

static void handle(int number, int flags, void (*handler)(int)) {
    struct sigaction action = {};
    action.sa_handler = handler;
    action.sa_flags = SA_NODEFER | flags;
    sigaction(number, &action, nullptr);
}

NOINLINE static int divide(int a, int b) {
    Counted counted;
    return a / b;
}

NOINLINE static int load(const int *place) {
    Counted counted;
    return *place;
}

static void load_null(const char *name) {
    try {
        printf("%d\n", load(hidden((int *)nullptr)));
    } catch (int number) {
        printf("%s: signal %d, alive %d\n", name, number, alive);
    }
}

static void faults() {
    handle(SIGSEGV, 0, throw_signal);
    for (int i = 0; i < 2; i++)
        load_null("a load of null");
    in_child("a call of null", [] {
        try {
            hidden((void (*)())nullptr)();
        } catch (int number) {
            printf("signal %d\n", number);
        }
    });
    struct sigaction action = {};
    action.sa_sigaction = throw_text;
    action.sa_flags = SA_NODEFER | SA_SIGINFO;
    sigaction(SIGFPE, &action, nullptr);
    try {
        printf("%d\n", divide(1, hidden(0)));
    } catch (std::string &text) {
        printf("%s, alive %d\n", text.c_str(), alive);
    }
}

static void on_own_stack(const char *name) {
    stack_t stack = {};
    stack.ss_size = 1 << 16;
    stack.ss_sp = malloc(stack.ss_size);
    sigaltstack(&stack, nullptr);
    handle(SIGSEGV, SA_ONSTACK, throw_signal);
    for (int i = 0; i < 2; i++)
        load_null(name);
    stack.ss_flags = SS_DISABLE;
    sigaltstack(&stack, nullptr);
    free(stack.ss_sp);
}

static void *on_own_stack_of_thread(void *) {
    on_own_stack("a handler's stack in a thread");
    return nullptr;
}

// A stack overflow, which a handler on its own stack makes an exception.
NOINLINE static int overflow(int n) {
    char room[512];
    *hidden(&room[0]) = (char)n; // for the compiler this may fail
    return overflow(n + 1) + *hidden(&room[0]);
}

static void *overflows(void *) {
    stack_t stack = {};
    stack.ss_size = 1 << 16;
    stack.ss_sp = malloc(stack.ss_size);
    sigaltstack(&stack, nullptr);
    handle(SIGSEGV, SA_ONSTACK, throw_signal);
    try {
        overflow(0);
    } catch (int number) {
        printf("a stack overflow: signal %d\n", number);
    }
    return nullptr;
}

static _Unwind_Reason_Code count_frame(_Unwind_Context *context, void *count) {
    int is_before = 0;
    if (_Unwind_GetIPInfo(context, &is_before) && _Unwind_GetCFA(context))
        ++*(int *)count;
    return _URC_NO_REASON;
}

static int traced, interrupted;

static void trace(int) {
    void *places[64];
    traced = backtrace(places, 64);
    interrupted = 0;
    _Unwind_Backtrace(
        [](_Unwind_Context *context, void *count) {
            int is_before = 0;
            _Unwind_GetIPInfo(context, &is_before);
            *(int *)count += is_before;
            return _URC_NO_REASON;
        },
        &interrupted);
}

NOINLINE static int trace_below(int frames) {
    if (frames > 0) {
        int result = trace_below(frames - 1);
        __asm__ volatile("");
        return result;
    }
    int count = 0;
    void *places[64];
    _Unwind_Backtrace(count_frame, &count);
    int by_libc = backtrace(places, 64);
    handle(SIGUSR1, 0, trace);
    raise(SIGUSR1);
    printf("backtraces of %d and %d frames, in a handler %d with %d interrupted\n", count, by_libc, traced, interrupted);
    return _Unwind_FindEnclosingFunction(places[0]) != nullptr;
}

// A timer's signal takes backtraces at any place, also in the unwinder. libgcc_s may crash there.
static volatile sig_atomic_t ticks, short_ones;

static void tick(int) {
    int count = 0;
    _Unwind_Backtrace(count_frame, &count);
    ticks = ticks + 1;
    if (count < 3)
        short_ones = short_ones + 1;
}

static void at_any_place() {
    signal(SIGALRM, tick);
    struct itimerval interval = {{0, 200}, {0, 200}};
    setitimer(ITIMER_REAL, &interval, nullptr);
    int caught = 0;
    while (ticks < 200)
        try {
            throw_below(caught % 16, 1);
        } catch (int n) {
            caught += n;
        }
    interval = {};
    setitimer(ITIMER_REAL, &interval, nullptr);
    printf("throws and %d or more backtraces, %d too short\n", 200, (int)short_ones);
}

int main(int count, char **) {
    setvbuf(stdout, nullptr, _IOLBF, 0);
    if (count > 1) {
        at_any_place();
        return 0;
    }
    faults();
    on_own_stack("a handler's stack");
    pthread_t thread;
    for (void *(*body)(void *) : {on_own_stack_of_thread, overflows}) {
        pthread_create(&thread, nullptr, body, nullptr);
        pthread_join(thread, nullptr);
    }
    signal(SIGSEGV, SIG_DFL);
    signal(SIGFPE, SIG_DFL);
    printf("enclosing function %d\n", trace_below(5));
}
