// A throw with cleanups, a rethrow and a cancellation, for each linker and code model.
#include <pthread.h>
#include <stdexcept>
#include <string>

#include "test.h"

struct Says {
    const char *what;
    ~Says() { printf("leaves %s\n", what); }
};

NOINLINE static void thrower(int n) {
    Says says{"a frame"};
    if (n)
        thrower(n - 1);
    else
        throw std::runtime_error("thrown");
    __asm__ volatile("");
}

static void *wait_for_it(void *is_exit) {
    Says says{"a thread"};
    if (is_exit)
        pthread_exit(nullptr);
    for (;;)
        pause();
}

int main() {
    try {
        try {
            thrower(3);
        } catch (int) {
            printf("wrong\n");
        } catch (...) {
            Says says{"a handler"};
            throw;
        }
    } catch (std::exception &error) {
        printf("caught %s\n", error.what());
    }
    pthread_t thread;
    for (bool is_exit : {true, false}) {
        pthread_create(&thread, nullptr, wait_for_it, is_exit ? &thread : nullptr);
        if (!is_exit)
            pthread_cancel(thread);
        pthread_join(thread, nullptr);
    }
}
