// Times of throws and backtraces: usage: bench CHAIN DEPTHS THREADS LIBRARIES
//
// CHAIN says what the frames are of: functions (each frame another function), cleanups (one function, with a destructor in each
// frame), libraries (the frames go round all LIBRARIES) or backtrace (_Unwind_Backtrace over frames of functions). LIBRARIES m0.so, m1.so .. of the working folder are loaded. DEPTHS are
// numbers of frames, with commas between them. Prints for each the least mean of some rounds, in nanoseconds: of the thread's own
// time if there is one thread, else of the clock.
//
// Three more chains take throws over the first of DEPTHS alone. first: the nanoseconds and the page faults of the process's first.
// stack: how many bytes of the stack the first takes, and how many another. memory: how many kilobytes THREADS take that are there
// and have thrown once.
#include <algorithm>
#include <atomic>
#include <dlfcn.h>
#include <stdio.h>
#include <stdlib.h>
#include <string.h>
#include <string>
#include <sys/resource.h>
#include <thread>
#include <time.h>
#include <unistd.h>
#include <unwind.h>
#include <vector>

#define NOINLINE __attribute__((noinline, noclone))

static clockid_t used_clock = CLOCK_THREAD_CPUTIME_ID;

static double now() {
    struct timespec time;
    clock_gettime(used_clock, &time);
    return time.tv_sec * 1e9 + time.tv_nsec;
}

static bool traces;

static _Unwind_Reason_Code go_on(_Unwind_Context *context, void *sum) {
    *(_Unwind_Ptr *)sum += _Unwind_GetIP(context);
    return _URC_NO_REASON;
}

static int bottom(int n) {
    _Unwind_Ptr sum = 0;
    if (!traces)
        throw n;
    _Unwind_Backtrace(go_on, &sum);
    return (int)sum;
}

template <int N> struct Chain {
    static NOINLINE int go(int frames) {
        if (frames <= 0)
            return bottom(frames);
        int result = Chain<N + 1>::go(frames - 1);
        if (N % 3 == 0)
            __asm__ volatile("" : "+r"(result) : : "rbx", "r12", "r13");
        if (N % 3 == 1) {
            char room[40 + N % 7 * 32];
            __asm__ volatile("" : "+r"(result) : "r"(room) : "rbx");
        }
        return result + 1;
    }
};
template <> struct Chain<1001> {
    static NOINLINE int go(int frames) { return bottom(frames); }
};

typedef int Step(int frames, const void *all, int next, int count);
static std::vector<Step *> steps;

static int through_libraries(int frames) {
    return frames <= 0 ? bottom(frames) : steps[0](frames - 1, steps.data(), 1, (int)steps.size());
}

static volatile int cleaned;
struct Cleans {
    ~Cleans() { cleaned = cleaned + 1; }
};

static NOINLINE int over_cleanups(int frames) {
    Cleans cleans;
    if (frames <= 0)
        return bottom(frames);
    int result = over_cleanups(frames - 1);
    __asm__ volatile("" : "+r"(result));
    return result + 1;
}

static int (*chain)(int) = Chain<0>::go;

static double mean_of(int frames, int rounds) {
    double begin = now();
    for (int i = 0; i < rounds; i++)
        try {
            chain(frames);
        } catch (int) {
        }
    return (now() - begin) / rounds;
}

static double mean_in_threads(int frames, int rounds, int threads) {
    std::vector<std::thread> all;
    std::vector<double> took(threads);
    std::atomic<int> ready{0};
    for (double &each : took)
        all.emplace_back([&, frames, rounds, threads] {
            mean_of(frames, 3);
            ready++;
            while (ready < threads)
                ;
            each = mean_of(frames, rounds);
        });
    double sum = 0;
    for (int i = 0; i < threads; i++) {
        all[i].join();
        sum += took[i];
    }
    return sum / threads;
}

static int print_first(int frames) {
    struct rusage before, after;
    getrusage(RUSAGE_THREAD, &before);
    double took = mean_of(frames, 1);
    getrusage(RUSAGE_THREAD, &after);
    printf("first: %.0f faults: %ld\n", took, after.ru_minflt - before.ru_minflt);
    return 0;
}

enum { PAINTED = 1 << 16 };
static unsigned char *paint; // where it begins, and the stack ends for now

static NOINLINE void paint_stack() {
    unsigned char room[PAINTED];
    paint = room;
    memset(room, 0xa5, sizeof room);
    __asm__ volatile("" : : "r"(room) : "memory");
}

static NOINLINE int not_painted() {
    int at = 0;
    while (at < PAINTED && paint[at] == 0xa5)
        at++;
    return PAINTED - at;
}

static int print_stack(int frames) {
    for (const char *name : {"first", "another"}) {
        paint_stack();
        mean_of(frames, 1);
        printf("%s: %d ", name, not_painted());
    }
    puts("");
    return 0;
}

static long resident_kilobytes() {
    long all = 0, pages = 0;
    FILE *file = fopen("/proc/self/statm", "r");
    if (!file || fscanf(file, "%ld %ld", &all, &pages) != 2)
        pages = 0;
    if (file)
        fclose(file);
    return pages * (sysconf(_SC_PAGESIZE) / 1024);
}

static std::atomic<int> thrown, are_over;

static void *throw_and_stay(void *frames) {
    mean_of((int)(long)frames, 1);
    thrown++;
    while (!are_over)
        usleep(10000);
    return nullptr;
}

static int print_memory(int frames, int count) {
    std::vector<pthread_t> threads(count);
    pthread_attr_t small;
    pthread_attr_init(&small);
    pthread_attr_setstacksize(&small, 1 << 16);
    for (pthread_t &thread : threads)
        if (pthread_create(&thread, &small, throw_and_stay, (void *)(long)frames) != 0)
            return 1;
    while (thrown < count)
        usleep(1000);
    printf("resident: %ld\n", resident_kilobytes());
    are_over = 1;
    for (pthread_t thread : threads)
        pthread_join(thread, nullptr);
    return 0;
}

int main(int count, char **arguments) {
    if (count < 5)
        return 2;
    if (!strcmp(arguments[1], "first"))
        return print_first(atoi(arguments[2]));
    if (!strcmp(arguments[1], "stack"))
        return print_stack(atoi(arguments[2]));
    if (!strcmp(arguments[1], "memory"))
        return print_memory(atoi(arguments[2]), atoi(arguments[3]));
    int threads = atoi(arguments[3]);
    if (threads > 1)
        used_clock = CLOCK_MONOTONIC;
    for (int i = 0; i < atoi(arguments[4]); i++) {
        void *library = dlopen(("./m" + std::to_string(i) + ".so").c_str(), RTLD_NOW);
        if (!library) {
            puts(dlerror());
            return 1;
        }
        steps.push_back((Step *)dlsym(library, "step"));
    }
    if (!strcmp(arguments[1], "libraries"))
        chain = through_libraries;
    if (!strcmp(arguments[1], "cleanups"))
        chain = over_cleanups;
    traces = !strcmp(arguments[1], "backtrace");
    for (char *depth = strtok(arguments[2], ","); depth; depth = strtok(nullptr, ",")) {
        int frames = atoi(depth), rounds = 5 + 20000 / (frames + 20);
        double best = 1e18;
        for (int round = 0; round < 5; round++)
            best = std::min(best, threads == 1 ? mean_of(frames, rounds) : mean_in_threads(frames, rounds, threads));
        printf("%d: %.0f ", frames, best);
    }
    printf("\n");
}
