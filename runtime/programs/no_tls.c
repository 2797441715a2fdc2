/* Libraries have taken the memory that the C library has for variables of threads in libraries that are loaded late. Then it
 * loads libgcc_s.so.1 for pthread_exit, pthread_cancel and backtrace: usage: no_tls LIBRARY.. */
#include <dlfcn.h>
#include <execinfo.h>
#include <pthread.h>
#include <stdio.h>
#include <unistd.h>

static void leave(void *number) {
    printf("leaves %d\n", *(int *)number);
}

static void *run(void *is_exit) {
    int number = 1;
    pthread_cleanup_push(leave, &number);
    if (is_exit)
        pthread_exit(NULL);
    for (;;)
        pause();
    pthread_cleanup_pop(0);
    return NULL;
}

int main(int count, char **names) {
    void *frames[8];
    int loaded = 1;
    while (loaded < count && dlopen(names[loaded], RTLD_NOW))
        loaded++;
    printf("%s\n", loaded < count ? "no more are loaded" : "all are loaded");
    pthread_t thread;
    pthread_create(&thread, NULL, run, &thread);
    pthread_join(thread, NULL);
    pthread_create(&thread, NULL, run, NULL);
    pthread_cancel(thread);
    pthread_join(thread, NULL);
    printf("a backtrace of %d\n", backtrace(frames, 8) >= 2);
    return 0;
}
