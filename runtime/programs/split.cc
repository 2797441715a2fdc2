// Split stacks: each function looks whether its segment of the stack has room, and goes on on another one.
#include <cstdio>
#include <initializer_list>
#include <pthread.h>

struct Runs {
    ~Runs() { __asm__ volatile(""); }
};

__attribute__((noinline)) static int below(int frames) {
    Runs runs;
    volatile char room[300];
    room[0] = (char)frames;
    if (frames)
        return below(frames - 1) + room[0];
    throw frames;
}

static void *run(void *) {
    for (int frames : {0, 100, 20000})
        try {
            below(frames);
        } catch (int n) {
            printf("caught %d below %d\n", n, frames);
        }
    return nullptr;
}

int main() {
    run(nullptr);
    pthread_t thread;
    pthread_attr_t attributes;
    pthread_attr_init(&attributes);
    pthread_attr_setstacksize(&attributes, 65536);
    pthread_create(&thread, &attributes, run, nullptr);
    pthread_join(thread, nullptr);
}
