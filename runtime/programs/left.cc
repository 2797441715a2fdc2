// Handlers of signals that leave throws and backtraces by siglongjmp, at any place of them: throws go on, in this thread and in
// others, and nothing is used up.
#include <csetjmp>
#include <csignal>
#include <stdexcept>
#include <sys/time.h>
#include <thread>
#include <ucontext.h>
#include <unwind.h>
#include <vector>

#include "test.h"

static thread_local sigjmp_buf place;
static thread_local volatile sig_atomic_t is_armed;

static void leave(int) {
    if (is_armed) {
        is_armed = 0;
        siglongjmp(place, 1);
    }
}

static _Unwind_Reason_Code go_on(_Unwind_Context *, void *count) {
    ++*(int *)count;
    return _URC_NO_REASON;
}

NOINLINE static int below(int frames) {
    volatile char room[64];
    room[0] = (char)frames;
    if (frames)
        return below(frames - 1) + room[0];
    for (;;) {
        int count = 0;
        _Unwind_Backtrace(go_on, &count);
        if (count > 100000)
            return count;
    }
}

static bool catches() {
    for (int frames : {0, 3, 60})
        try {
            throw_below(frames, frames);
        } catch (int n) {
            if (n != frames)
                return false;
        }
    return true;
}

// A timer that signals this thread alone.
static void start_timer(timer_t timer, int i) {
    struct itimerspec when = {};
    when.it_value.tv_nsec = 200000 + i * 37001 % 299999;
    timer_settime(timer, 0, &when, nullptr);
}

static int leave_often(int times, int (*frames_of)(int)) {
    struct sigevent event = {};
    event.sigev_notify = SIGEV_THREAD_ID;
    event.sigev_signo = SIGALRM;
    event._sigev_un._tid = gettid();
    timer_t timer;
    if (timer_create(CLOCK_MONOTONIC, &event, &timer) != 0)
        return -1;
    volatile int good = 0;
    for (volatile int i = 0; i < times; i = i + 1) {
        if (!sigsetjmp(place, 1)) {
            is_armed = 1;
            start_timer(timer, i);
            below(frames_of(i));
        }
        good = good + catches();
    }
    timer_delete(timer);
    return good;
}

static long resident() {
    long all = 0, pages = 0;
    FILE *file = fopen("/proc/self/statm", "r");
    if (!file || fscanf(file, "%ld %ld", &all, &pages) != 2)
        pages = 0;
    if (file)
        fclose(file);
    return pages;
}

int main() {
    struct sigaction action = {};
    action.sa_handler = leave;
    sigaction(SIGALRM, &action, nullptr);
    setvbuf(stdout, nullptr, _IOLBF, 0);
    printf("at one depth %d\n", leave_often(40, [](int) { return 50; }));
    printf("each time deeper %d\n", leave_often(40, [](int i) { return i * 2; }));
    printf("each time less deep %d\n", leave_often(40, [](int i) { return 80 - i * 2; }));
    long before = resident();
    printf("at any depth %d\n", leave_often(200, [](int i) { return i * 7919 % 97; }));
    printf("takes %s\n", resident() - before < 100 ? "nothing" : "memory");
    std::vector<std::thread> threads;
    int good[4] = {};
    for (int &each : good)
        threads.emplace_back([&each] { each = leave_often(40, [](int i) { return i * 31 % 53; }); });
    for (std::thread &thread : threads)
        thread.join();
    printf("in threads %d %d %d %d\n", good[0], good[1], good[2], good[3]);
    std::thread([] { printf("in another thread %d\n", catches()); }).join();
    in_child("in a child", [] { printf("%d %d\n", catches(), leave_often(10, [](int i) { return i; })); });
    int count = 0;
    _Unwind_Backtrace(go_on, &count);
    printf("a backtrace %s\n", count >= 2 ? "is whole" : "is short");
}
