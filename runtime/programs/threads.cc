// Threads that throw, that end in the middle, and forked children.
#include <cxxabi.h>
#include <pthread.h>
#include <string>
#include <thread>
#include <vector>

#include "test.h"

static void at_once() {
    std::vector<std::thread> all;
    int sums[8] = {};
    for (int &sum : sums)
        all.emplace_back([&sum] {
            for (int i = 0; i < 300; i++)
                try {
                    struct Local {
                        int &sum;
                        ~Local() { sum++; }
                    } local{sum};
                    if (i % 2)
                        throw i;
                    throw std::string("even");
                } catch (int n) {
                    sum += n & 1;
                } catch (std::string &) {
                }
        });
    for (std::thread &thread : all)
        thread.join();
    for (int sum : sums)
        printf("%d ", sum);
    printf("in threads\n");
}

// Many threads that throw once: what a thread is given it gives back.
static long mapped() {
    long pages = 0;
    FILE *file = fopen("/proc/self/statm", "r");
    if (!file || fscanf(file, "%ld", &pages) != 1)
        pages = 0;
    if (file)
        fclose(file);
    return pages;
}

static void one_after_another() {
    auto once = [] {
        try {
            throw 1;
        } catch (int) {
        }
    };
    for (int i = 0; i < 20; i++)
        std::thread(once).join();
    long before = mapped();
    for (int i = 0; i < 200; i++)
        std::thread(once).join();
    printf("200 threads leave %s\n", mapped() - before < 200 ? "nothing" : "memory");
}

struct OnEnd {
    const char *name;
    ~OnEnd() { printf("end of %s\n", name); }
};

static void pushed(void *name) { printf("pushed %s\n", (const char *)name); }

static void *wait_or_exit(void *exits) {
    OnEnd outer{"outer"};
    pthread_cleanup_push(pushed, (void *)"cleanup");
    try {
        OnEnd inner{"inner"};
        if (exits)
            pthread_exit((void *)42);
        for (;;)
            sleep(100);
    } catch (abi::__forced_unwind &) {
        printf("forced\n");
        throw;
    }
    pthread_cleanup_pop(0);
    return nullptr;
}

static void *spin(void *) {
    pthread_setcanceltype(PTHREAD_CANCEL_ASYNCHRONOUS, nullptr);
    OnEnd end{"a loop"};
    for (;;)
        __asm__ volatile("" ::: "memory");
}

static void cancels() {
    pthread_t thread;
    void *result;
    for (void *(*body)(void *) : {wait_or_exit, spin}) {
        pthread_create(&thread, nullptr, body, nullptr);
        usleep(10000);
        pthread_cancel(thread);
        pthread_join(thread, &result);
        printf("cancelled %d\n", result == PTHREAD_CANCELED);
    }
    pthread_create(&thread, nullptr, wait_or_exit, (void *)1);
    pthread_join(thread, &result);
    printf("exited with %ld\n", (long)result);
    in_child("a handler that swallows it", [] {
        pthread_t thread;
        auto body = [](void *) -> void * {
            try {
                pthread_exit(nullptr);
            } catch (...) {
            }
            return nullptr;
        };
        pthread_create(&thread, nullptr, body, nullptr);
        pthread_join(thread, nullptr);
    });
}

static void through_c() {
    static pthread_once_t once = PTHREAD_ONCE_INIT;
    for (int i = 0; i < 2; i++)
        try {
            pthread_once(&once, [] {
                static int calls;
                if (calls++ == 0)
                    throw 5;
            });
            printf("once\n");
        } catch (int n) {
            printf("through pthread_once %d\n", n);
        }
    auto compare = [](const void *a, const void *b) -> int {
        Counted counted;
        if (*(const int *)a == 7 || *(const int *)b == 7)
            throw 7;
        return *(const int *)a - *(const int *)b;
    };
    int numbers[64];
    for (int i = 0; i < 64; i++)
        numbers[i] = 63 - i;
    try {
        qsort(numbers, 64, sizeof *numbers, compare);
    } catch (int n) {
        printf("through qsort %d, alive %d\n", n, alive);
    }
}

// At a thread's end, after the unwinder gave back what it has for the thread.
static void at_end(void *) {
    try {
        throw_below(2, 4);
    } catch (int n) {
        printf("at the end of a thread %d\n", n);
    }
}

static void ends_of_threads() {
    pthread_key_t key;
    pthread_key_create(&key, at_end);
    std::thread([key] {
        at_end(nullptr);
        pthread_setspecific(key, &alive);
    }).join();
}

static void children() {
    in_child("a child", [] {
        at_end(nullptr);
        std::thread([] { at_end(nullptr); }).join();
    });
    std::thread([] { in_child("a child of a thread", [] { at_end(nullptr); }); }).join();
}

int main() {
    setvbuf(stdout, nullptr, _IOLBF, 0);
    at_once();
    one_after_another();
    cancels();
    through_c();
    ends_of_threads();
    children();
}
