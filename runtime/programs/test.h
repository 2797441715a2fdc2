// What the tests share. Each prints lines that are the same by every unwinder.
#ifndef TEST_H
#define TEST_H
#include <stdio.h>
#include <stdlib.h>
#include <string.h>
#include <sys/wait.h>
#include <unistd.h>

#define NOINLINE __attribute__((noinline, noclone))

// How many of these are alive: 0 after each test, if all destructors ran.
extern int alive;
struct Counted {
    Counted() { alive++; }
    Counted(const Counted &) { alive++; }
    ~Counted() { alive--; }
};

// A value that the compiler does not know.
template <class T> NOINLINE T hidden(T value) {
    __asm__ volatile("" : "+r"(value));
    return value;
}

// Throws n below so many frames.
NOINLINE int throw_below(int frames, int n);

// Runs in a forked child, and prints how that ended.
template <class Body> void in_child(const char *name, Body body) {
    fflush(stdout);
    pid_t child = fork();
    if (child == 0) {
        if (!freopen("/dev/null", "w", stderr))
            _exit(99);
        body();
        fflush(stdout);
        _exit(0);
    }
    int status = 0;
    waitpid(child, &status, 0);
    if (WIFSIGNALED(status))
        printf("%s: signal %d\n", name, WTERMSIG(status));
    else
        printf("%s: status %d\n", name, WEXITSTATUS(status));
}
#endif
