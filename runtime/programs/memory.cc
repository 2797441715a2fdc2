// The first throw of a process, and of a thread, when no memory is left.
#include <initializer_list>
#include <new>
#include <pthread.h>
#include <sys/resource.h>

#include "test.h"

// Takes all that is left, also of the smallest blocks.
static void take_all() {
    struct rlimit limit = {1 << 28, 1 << 28};
    setrlimit(RLIMIT_AS, &limit);
    static void *last;
    for (size_t size = 1 << 20; size >= 16;) {
        void **block = (void **)malloc(size);
        if (!block) {
            size /= 2;
            continue;
        }
        *block = last;
        last = block;
    }
}

static int throw_some() {
    int caught = 0;
    for (int frames : {0, 5, 30})
        try {
            throw_below(frames, 1);
        } catch (int n) {
            caught += n;
        }
    try {
        delete[] new char[1 << 26];
    } catch (std::bad_alloc &) {
        caught++;
    }
    return caught;
}

static volatile bool is_taken;
static int in_thread;

static void *throw_later(void *) {
    while (!is_taken)
        usleep(1000);
    in_thread = throw_some();
    return nullptr;
}

static void say(const char *text, int n) {
    char line[64];
    int length = snprintf(line, sizeof line, "%s %d\n", text, n);
    if (write(1, line, length) != length)
        _exit(1);
}

int main() {
    setvbuf(stdout, nullptr, _IONBF, 0);
    in_child("without memory", [] {
        take_all();
        say("caught", throw_some());
    });
    in_child("threads without memory", [] {
        pthread_t threads[3];
        for (pthread_t &thread : threads)
            pthread_create(&thread, nullptr, throw_later, nullptr);
        take_all();
        is_taken = true;
        for (pthread_t &thread : threads)
            pthread_join(thread, nullptr);
        say("caught in threads", in_thread);
    });
}
