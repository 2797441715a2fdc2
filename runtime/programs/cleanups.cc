// Cleanups between a throw and its handler that throw themselves, that are more than a throw's trail has room for, that are amid
// frames without any, and whose stack goes on in another thread.
#include <initializer_list>
#include <pthread.h>
#include <signal.h>
#include <stdio.h>
#include <thread>
#include <ucontext.h>

#define NOINLINE __attribute__((noinline, noclone))

static long cleaned, inner;
static bool throws_inside, signals_inside, moves_inside;
static ucontext_t stopped, outside;

static NOINLINE void throw_below(int frames) {
    struct Counts {
        ~Counts() { inner++; }
    } counts;
    if (frames == 0)
        throw 2L;
    throw_below(frames - 1);
    __asm__ volatile("");
}

static void throw_and_catch(int) {
    try {
        throw_below(3);
    } catch (long) {
        inner += 100;
    }
}

struct Cleans {
    int number;
    ~Cleans() {
        cleaned += number;
        if (throws_inside && number % 3 == 0)
            throw_and_catch(0);
        if (signals_inside && number % 4 == 0)
            raise(SIGUSR1);
        if (moves_inside && number % 5 == 0)
            swapcontext(&stopped, &outside);
    }
};

// Registers that a function has to save which changes them.
#ifdef __x86_64__
#define SAVED_ONE "rbx"
#define SAVED_OTHERS "r12", "r13"
#else
#define SAVED_ONE "x19"
#define SAVED_OTHERS "x20", "x21", "d8", "d9"
#endif

static NOINLINE int plain(int frames, long *sum);

static NOINLINE int over_cleanups(int frames, long *sum) {
    Cleans cleans{frames};
    long kept = frames * 7L;
    if (frames <= 0)
        throw frames;
    int result = (frames % 2 ? plain : over_cleanups)(frames - 1, sum);
    __asm__ volatile("" : "+r"(result), "+r"(kept) : : SAVED_ONE);
    return result + (int)kept;
}

// A frame that has nothing to clean, and registers to save.
static NOINLINE int plain(int frames, long *sum) {
    int result = over_cleanups(frames, sum);
    __asm__ volatile("" : "+r"(result) : : SAVED_ONE, SAVED_OTHERS);
    return result + 1;
}

static NOINLINE void catch_and_rethrow(int frames, long *sum) {
    try {
        over_cleanups(frames, sum);
    } catch (int) {
        Cleans cleans{1};
        throw;
    }
}

static void run(const char *name, int frames) {
    long sum = 0;
    cleaned = inner = 0;
    for (int i = 0; i < 3; i++) {
        volatile long before = 41, after = i;
        try {
            catch_and_rethrow(frames, &sum);
        } catch (int) {
            sum += before + after;
        }
    }
    printf("%s %d: cleaned %ld, inner %ld, sum %ld\n", name, frames, cleaned, inner, sum);
}

static void on_other_stack() {
    for (int i = 0; i < 4; i++)
        run("moved", 21);
    moves_inside = false;
    swapcontext(&stopped, &outside);
}

// Each time that a cleanup stops, another thread goes on with it.
static void run_in_two_threads() {
    static char stack[1 << 18];
    moves_inside = true;
    getcontext(&stopped);
    stopped.uc_stack.ss_sp = stack;
    stopped.uc_stack.ss_size = sizeof stack;
    makecontext(&stopped, on_other_stack, 0);
    for (bool is_here = true; moves_inside; is_here = !is_here) {
        ucontext_t next = stopped;
        if (is_here)
            swapcontext(&outside, &next);
        else
            std::thread([&] { swapcontext(&outside, &next); }).join();
    }
}

int main() {
    for (int frames : {0, 1, 2, 15, 16, 17, 200, 3000})
        run("cleanups", frames);
    throws_inside = true;
    for (int frames : {3, 20, 300})
        run("throwing", frames);
    throws_inside = false;
    signals_inside = true;
    signal(SIGUSR1, throw_and_catch);
    for (int frames : {4, 20, 300})
        run("signalled", frames);
    signals_inside = false;
    run_in_two_threads();
    puts("end");
}
