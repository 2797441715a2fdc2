/* A library that throws is loaded once no key is left by which something could be called at the ends of threads: what these have
 * is taken again: usage: no_keys LIBRARY */
#include <dlfcn.h>
#include <pthread.h>
#include <stdio.h>
#include <stdlib.h>
#include <sys/wait.h>
#include <unistd.h>

enum { THREADS = 16, ROUNDS = 40 };

static int (*throw_once)(void);

static void *run(void *good) {
    *(int *)good = throw_once();
    return NULL;
}

/* Each time other stacks, which lie at other places. */
static void run_all(int round) {
    pthread_t threads[THREADS];
    int good[THREADS] = {0};
    pthread_attr_t attributes;
    pthread_attr_init(&attributes);
    pthread_attr_setstacksize(&attributes, 65536 + (size_t)(round * 7 % 11) * 16384);
    for (int i = 0; i < THREADS; i++)
        pthread_create(&threads[i], &attributes, run, &good[i]);
    for (int i = 0; i < THREADS; i++) {
        pthread_join(threads[i], NULL);
        if (good[i] != 3)
            printf("%d is wrong\n", i);
    }
    pthread_attr_destroy(&attributes);
}

static long resident(void) {
    long all = 0, pages = 0;
    FILE *file = fopen("/proc/self/statm", "r");
    if (!file || fscanf(file, "%ld %ld", &all, &pages) != 2)
        pages = 0;
    if (file)
        fclose(file);
    return pages;
}

int main(int count, char **names) {
    pthread_key_t key;
    while (pthread_key_create(&key, NULL) == 0)
        ;
    void *library = count > 1 ? dlopen(names[1], RTLD_NOW) : NULL;
    if (!library || !(throw_once = (int (*)(void))dlsym(library, "throw_once")))
        return 2;
    printf("%d\n", throw_once());
    long before = 0;
    for (int round = 0; round < ROUNDS; round++) {
        run_all(round);
        if (round == ROUNDS / 4)
            before = resident();
    }
    printf("%d threads take %s\n", ROUNDS * THREADS, resident() - before < 400 ? "nothing" : "memory");
    fflush(stdout);
    pid_t child = fork();
    if (child == 0) {
        run_all(0);
        _exit(throw_once() == 3 ? 0 : 1);
    }
    int status = 1;
    waitpid(child, &status, 0);
    printf("a child ends with %d\n", status);
    return 0;
}
