// Libraries that come and go: usage: modules LIBRARY LIBRARY.., in pairs
#include <atomic>
#include <dlfcn.h>
#include <link.h>
#include <thread>

#include "test.h"

static void thrower(int n) { throw n; }

// The second library of a pair lies where the first did, with the same header but other rows.
static void at_one_place(char **names) {
    unsigned long last = 0;
    int same = 0, caught = 0;
    for (int i = 0; i < 100; i++) {
        void *library = dlopen(names[i % 2], RTLD_NOW);
        struct link_map *map = nullptr;
        if (!library || dlinfo(library, RTLD_DI_LINKMAP, &map)) {
            printf("%s\n", dlerror());
            return;
        }
        same += map->l_addr == last;
        last = map->l_addr;
        auto through = (int (*)(void (*)(int), int))dlsym(library, "through");
        auto catches = (int (*)(int))dlsym(library, "catches");
        for (int k = 0; k < 3; k++)
            try {
                through(thrower, 1);
            } catch (int n) {
                caught += n + catches(k) % 2;
            }
        dlclose(library);
    }
    printf("at one place %s, caught %d\n", same > 50 ? "mostly" : "seldom", caught);
}

// The same, each time by the first throw of another thread: it has what the one before left.
static void by_threads(char **names) {
    int caught = 0;
    for (int i = 0; i < 100; i++) {
        void *library = dlopen(names[i % 2], RTLD_NOW);
        if (!library) {
            printf("%s\n", dlerror());
            return;
        }
        auto through = (int (*)(void (*)(int), int))dlsym(library, "through");
        std::thread([&] {
            try {
                through(thrower, 1);
            } catch (int n) {
                caught += n;
            }
        }).join();
        dlclose(library);
    }
    printf("by threads, caught %d\n", caught);
}

static std::atomic<bool> is_over;

// Threads throw meanwhile.
static void at_once(char **names) {
    std::atomic<long> wrong{0};
    auto throws = [&wrong] {
        for (int i = 0; !is_over; i++)
            try {
                throw_below(i % 20, i);
                wrong++;
            } catch (int n) {
                wrong += n != i;
            }
    };
    std::thread one(throws), two(throws);
    for (int i = 0; i < 200; i++) {
        void *library = dlopen(names[i % 2], RTLD_NOW);
        auto catches = library ? (int (*)(int))dlsym(library, "catches") : nullptr;
        if (!catches || catches(5) != (i % 2 ? 334 : 206))
            wrong++;
        if (library)
            dlclose(library);
    }
    is_over = true;
    one.join();
    two.join();
    printf("wrong %ld\n", wrong.load());
}

int main(int count, char **names) {
    if (count < 3)
        return 2;
    for (int i = 1; i + 1 < count; i += 2) {
        at_one_place(names + i);
        by_threads(names + i);
        is_over = false;
        at_once(names + i);
    }
}
