/* The personality of C: a thread that is cancelled, and one that ends, run the cleanups of their variables. The C library loads
 * libgcc_s.so.1 for them. */
#include <pthread.h>
#include <stdio.h>
#include <unistd.h>

static void leave(int *number) {
    printf("leaves %d\n", *number);
}

static void go_down(int depth, int is_exit) {
    __attribute__((cleanup(leave))) int number = depth;
    if (depth)
        go_down(depth - 1, is_exit);
    else if (is_exit)
        pthread_exit(NULL);
    else
        for (;;)
            pause();
    __asm__ volatile("");
}

static void *run(void *is_exit) {
    go_down(3, is_exit != NULL);
    return NULL;
}

int main(void) {
    pthread_t thread;
    for (int i = 0; i < 2; i++) {
        pthread_create(&thread, NULL, run, i ? &thread : NULL);
        if (!i)
            pthread_cancel(thread);
        pthread_join(thread, NULL);
    }
    puts("end");
    return 0;
}
