// Threads that throw in turn: what they take of memory, and calls of many at once, of each amid another, and of some that are left.
// With an argument: threads that throw, and are interrupted by handlers that take backtraces, or leave those of their threads.
#include <atomic>
#include <pthread.h>
#include <setjmp.h>
#include <signal.h>
#include <time.h>
#include <unwind.h>
#include <vector>

#include "test.h"

enum { MANY = 2000, AT_ONCE = 150, STACK = 65536 };

static long resident_kilobytes() {
    long all = 0, pages = 0;
    FILE *file = fopen("/proc/self/statm", "r");
    if (!file || fscanf(file, "%ld %ld", &all, &pages) != 2)
        pages = 0;
    if (file)
        fclose(file);
    return pages * (sysconf(_SC_PAGESIZE) / 1024);
}

static int throw_some(int throws) {
    int caught = 0;
    for (int i = 0; i < throws; i++)
        try {
            throw_below(i % 9, 1);
        } catch (int n) {
            caught += n;
        }
    return caught;
}

static std::atomic<int> begun, is_over, wrong;

static void *throw_and_stay(void *throws) {
    if (throw_some((int)(long)throws) != (int)(long)throws)
        wrong++;
    begun++;
    while (!is_over)
        usleep(10000);
    return nullptr;
}

// Each has its stack elsewhere, and of another size.
static std::vector<pthread_t> start(int count, void *(*run)(void *), void *argument) {
    std::vector<pthread_t> threads(count);
    begun = is_over = 0;
    for (int i = 0; i < count; i++) {
        pthread_attr_t attributes;
        pthread_attr_init(&attributes);
        pthread_attr_setstacksize(&attributes, STACK + i % 5 * 4096);
        if (pthread_create(&threads[i], &attributes, run, argument) != 0)
            wrong++;
        pthread_attr_destroy(&attributes);
    }
    return threads;
}

static void join(const std::vector<pthread_t> &threads) {
    is_over = 1;
    for (pthread_t thread : threads)
        pthread_join(thread, nullptr);
}

// libgcc_s takes 11 kB for each, with the thread itself.
static void print_memory(long throws) {
    long before = resident_kilobytes();
    std::vector<pthread_t> threads = start(MANY, throw_and_stay, (void *)throws);
    while (begun < MANY)
        usleep(1000);
    long each = (resident_kilobytes() - before) / MANY;
    join(threads);
    printf("threads that threw %ld times take %s\n", throws, each < 16 ? "little" : "much");
}

struct Visit {
    int frames, caught;
    bool waits, leaves;
    jmp_buf *back;
};

static _Unwind_Reason_Code visit(_Unwind_Context *, void *argument) {
    Visit *here = (Visit *)argument;
    here->frames++;
    here->caught += throw_some(1);
    if (here->waits && here->frames == 2) {
        begun++;
        while (begun < AT_ONCE)
            usleep(100);
    }
    if (here->leaves && here->frames == 2)
        longjmp(*here->back, 1);
    return _URC_NO_REASON;
}

static NOINLINE int trace_below(int frames, Visit *here) {
    if (frames <= 0)
        return _Unwind_Backtrace(visit, here);
    int result = trace_below(frames - 1, here);
    __asm__ volatile("" : "+r"(result));
    return result;
}

// All are amid a backtrace at the same time, and throw there.
static void *trace_at_once(void *) {
    Visit here = {0, 0, true, false, nullptr};
    int code = trace_below(5, &here);
    if (code != _URC_END_OF_STACK || here.frames < 7 || here.caught != here.frames || throw_some(20) != 20)
        wrong++;
    return nullptr;
}

// A backtrace that is left does no harm to others, nor to what is thrown above it.
static void *leave_backtraces(void *) {
    jmp_buf back;
    static thread_local volatile int left;
    for (volatile int i = 0; i < 50; i = i + 1) {
        Visit here = {0, 0, false, true, &back};
        if (setjmp(back) == 0)
            trace_below(i % 7 + 1, &here);
        else
            left = left + 1;
        if (throw_some(i % 4) != i % 4)
            wrong++;
    }
    if (left != 50)
        wrong++;
    return nullptr;
}

static void print_wrong(const char *name) {
    printf("%s: %d wrong\n", name, wrong.load());
}

// The other threads are amid a backtrace when the process forks; they aren't in the child.
static void fork_amid() {
    std::vector<pthread_t> threads = start(AT_ONCE - 1, trace_at_once, nullptr);
    while (begun < AT_ONCE - 1)
        usleep(1000);
    in_child("child", [] {
        wrong = 0;
        std::vector<pthread_t> more = start(20, throw_and_stay, (void *)30);
        int caught = throw_some(30);
        join(more);
        printf("caught %d, %d wrong\n", caught, wrong.load());
    });
    begun++;
    join(threads);
}

static thread_local sigjmp_buf way_out;
static thread_local volatile sig_atomic_t may_leave, interruptions;

static _Unwind_Reason_Code count_frame(_Unwind_Context *, void *frames) {
    ++*(int *)frames;
    return _URC_NO_REASON;
}

static void interrupt(int) {
    int frames = 0;
    interruptions = interruptions + 1;
    _Unwind_Backtrace(count_frame, &frames);
    if (may_leave && interruptions % 4 == 0)
        siglongjmp(way_out, 1);
}

static void *throw_and_trace(void *) {
    for (int i = 0; !is_over; i++) {
        volatile int number = i;
        if (number % 2 == 0 && throw_some(3) != 3)
            wrong++;
        if (number % 2 == 1 && sigsetjmp(way_out, 1) == 0) {
            may_leave = 1;
            for (int k = 0; k < 3; k++) {
                int frames = 0;
                _Unwind_Backtrace(count_frame, &frames);
            }
        }
        may_leave = 0;
        i = number;
    }
    return nullptr;
}

static int interrupt_threads(int count) {
    struct sigaction action = {};
    action.sa_handler = interrupt;
    sigaction(SIGUSR1, &action, nullptr);
    std::vector<pthread_t> threads = start(count, throw_and_trace, nullptr);
    int sent = 0;
    for (time_t end = time(nullptr) + 3; time(nullptr) < end; sent++) {
        pthread_kill(threads[sent * 7 % count], SIGUSR1);
        if (sent % 8 == 0)
            usleep(20);
    }
    join(threads);
    printf("%d threads were interrupted: %d wrong\n", count, wrong.load());
    return wrong != 0 || sent == 0;
}

int main(int count, char **arguments) {
    if (count > 1)
        return interrupt_threads(atoi(arguments[1]));
    printf("first %d\n", throw_some(1));
    print_memory(1);
    print_memory(40);
    print_wrong("memory");
    join(start(AT_ONCE, trace_at_once, nullptr));
    print_wrong("at once");
    join(start(20, leave_backtraces, nullptr));
    print_wrong("left");
    fork_amid();
    print_wrong("fork");
    printf("last %d\n", throw_some(3));
}
