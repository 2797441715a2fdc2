// Frames with unusual rows, foreign exceptions and forced unwinding, and stacks that a program makes itself.
#include <alloca.h>
#include <pthread.h>
#include <string>
#include <sys/mman.h>
#include <ucontext.h>
#include <unwind.h>

#include "test.h"

// A frame whose alignment is greater than the stack's: its CFA is an expression.
NOINLINE static int align(int size) {
    alignas(64) char room[128];
    Counted counted;
    char *more = (char *)alloca(size);
    memset(more, 1, size);
    memset(room, size, sizeof room);
    __asm__ volatile("" : : "r"(more), "r"(room) : "memory");
    if (((unsigned long)room & 63) != 0 || size > 3000)
        throw size;
    return align(size * 2) + room[1] + more[0];
}

// Calls with so many arguments that some are pushed, in code that pops them behind the call.
#ifdef __clang__
#define PUSHES
#else
#define PUSHES __attribute__((optimize("Os", "no-accumulate-outgoing-args")))
#endif
NOINLINE PUSHES static int add_many(int a, int b, int c, int d, int e, int f, int g, int h, std::string text, int i) {
    if (a)
        throw i + g + h + (int)text.size();
    return b + c + d + e + f;
}
NOINLINE PUSHES static int push(int n) {
    int result = 0;
    for (int i = 0; i < 3; i++)
        try {
            Counted counted;
            result += add_many(n, 2, 3, 4, 5, 6, 7, 8, std::string("abc"), i);
        } catch (int k) {
            result += k * 100;
        }
    return result;
}

static void rows() {
    try {
        align(20);
    } catch (int size) {
        printf("aligned %d, alive %d\n", size, alive);
    }
    printf("pushed %d, alive %d\n", push(1), alive);
}

// What a caller keeps in registers is there in its handler.
NOINLINE static long keep(long a, long b, long c, long d, long e) {
    long before = hidden(a) * 2, kept[5] = {hidden(a), hidden(b), hidden(c), hidden(d), hidden(e)};
    try {
        throw_below(20, 3);
    } catch (int n) {
        return before + kept[0] + 10 * kept[1] + 100 * kept[2] + 1000 * kept[3] + 10000 * kept[4] + n;
    }
    return 0;
}

NOINLINE static void thrower(int n) { throw n; }

// Whether a handler has its registers, where no frame below has saved them but the runtime's.
NOINLINE static bool are_kept(int a, int b, int c, int d, int e) {
    __asm__ volatile("" : "+r"(a), "+r"(b), "+r"(c), "+r"(d), "+r"(e));
    try {
        thrower(a);
    } catch (int n) {
        __asm__ volatile("" : "+r"(a), "+r"(b), "+r"(c), "+r"(d), "+r"(e));
        return n == a && a == 1 && b == 2 && c == 3 && d == 4 && e == 5;
    }
    return false;
}

// The first throw of a process from each place of a page: saved registers lie in two of them.
static void at_page_boundaries() {
    int kept = 0;
    fflush(stdout);
    for (int i = 0; i < 256; i++) {
        pid_t child = fork();
        if (child == 0) {
            volatile char *room = (volatile char *)alloca(16 * i + 16);
            room[0] = 1;
            _exit(are_kept(1, 2, 3, 4, 5));
        }
        int status = 0;
        waitpid(child, &status, 0);
        kept += WIFEXITED(status) && WEXITSTATUS(status) == 1;
    }
    printf("registers are kept at %d places\n", kept);
}

static void forget(_Unwind_Reason_Code code, _Unwind_Exception *exception) {
    printf("deleted with %d\n", code);
    free(exception);
}

static _Unwind_Exception *foreign() {
    _Unwind_Exception *made = (_Unwind_Exception *)aligned_alloc(16, sizeof *made);
    memset(made, 0, sizeof *made);
    made->exception_class = 0x1234;
    made->exception_cleanup = forget;
    return made;
}

static _Unwind_Reason_Code stop_at_end(int, _Unwind_Action actions, _Unwind_Exception_Class, _Unwind_Exception *,
                                       _Unwind_Context *, void *count) {
    ++*(int *)count;
    if (actions & _UA_END_OF_STACK) {
        printf("the end of the stack after %s, alive %d\n", *(int *)count > 2 ? "some frames" : "none", alive);
        fflush(stdout);
        _exit(4);
    }
    return _URC_NO_REASON;
}

static void foreign_exceptions() {
    try {
        Counted counted;
        printf("returned %d\n", _Unwind_RaiseException(foreign()));
    } catch (...) {
        printf("a foreign exception, alive %d\n", alive);
    }
    try {
        try {
            Counted counted;
            printf("returned %d\n", _Unwind_RaiseException(foreign()));
        } catch (...) {
            throw;
        }
    } catch (...) {
        printf("thrown again\n");
    }
    in_child("without a handler", [] {
        Counted counted;
        printf("returned %d\n", _Unwind_RaiseException(foreign()));
    });
    in_child("forced", [] {
        int count = 0;
        Counted counted;
        _Unwind_ForcedUnwind(foreign(), stop_at_end, &count);
    });
    in_child("forced out of noexcept", [] {
        int count = 0;
        [&]() noexcept { _Unwind_ForcedUnwind(foreign(), stop_at_end, &count); }();
    });
}

static ucontext_t outside, inside;

static void in_fiber() {
    for (int frames : {20, 2, 300}) {
        try {
            throw_below(frames, frames);
        } catch (int n) {
            printf("in a fiber %d\n", n);
        }
        swapcontext(&inside, &outside);
    }
}

// Two fibers one after the other, the second where the first was.
static void fibers() {
    size_t size = 1 << 17;
    for (int i = 0; i < 2; i++) {
        void *stack = mmap(nullptr, size, PROT_READ | PROT_WRITE, MAP_PRIVATE | MAP_ANONYMOUS, -1, 0);
        getcontext(&inside);
        inside.uc_stack.ss_size = size;
        inside.uc_stack.ss_sp = stack;
        inside.uc_link = &outside;
        makecontext(&inside, in_fiber, 0);
        for (int k = 0; k < 3; k++)
            try {
                swapcontext(&outside, &inside);
                throw_below(3, k);
            } catch (int n) {
                printf("outside %d\n", n);
            }
        munmap(stack, size);
    }
}

static void *throw_on_little(void *) {
    try {
        Counted counted;
        throw 8;
    } catch (int n) {
        alive += n;
    }
    return nullptr;
}

static void little_stack() {
    pthread_attr_t attributes;
    pthread_attr_init(&attributes);
    pthread_attr_setstacksize(&attributes, 32768);
    pthread_t thread;
    pthread_create(&thread, &attributes, throw_on_little, nullptr);
    pthread_join(thread, nullptr);
    printf("on a stack of 32 kB %d\n", alive);
    alive = 0;
}

int main() {
    setvbuf(stdout, nullptr, _IOLBF, 0);
    at_page_boundaries();
    rows();
    printf("kept %ld\n", keep(1, 2, 3, 4, 5));
    foreign_exceptions();
    fibers();
    little_stack();
}
