/* Work inside of handlers with SA_SIGINFO: of a timer, of raise, of a fault, and on a stack of its
 * own. */
#define _GNU_SOURCE
#include <signal.h>
#include <stdio.h>
#include <stdlib.h>
#include <string.h>
#include <sys/mman.h>
#include <sys/time.h>
#include <ucontext.h>
#include <unistd.h>
static volatile unsigned sink;
static volatile int alarms, faults;
static char *page;
__attribute__((noinline)) static void work(unsigned n) {
    for (unsigned k = 0; k < n; k++)
        sink = sink * 5 + k;
}
static int by_value(const void *a, const void *b) {
    int x = *(const int *)a, y = *(const int *)b;
    sink++;
    return x < y ? -1 : x > y;
}
static void on_alarm(int s, siginfo_t *i, void *c) {
    alarms++;
    work(400000);
    if (alarms % 3 == 0)
        raise(SIGUSR1);
}
static void on_user(int s, siginfo_t *i, void *c) { work(200000); }
static void on_fault(int s, siginfo_t *i, void *c) {
    faults++;
    work(100000);
    mprotect(page, 4096, PROT_READ | PROT_WRITE);
}
static void set(int s, void (*f)(int, siginfo_t *, void *), int flags) {
    struct sigaction a;
    memset(&a, 0, sizeof a);
    a.sa_sigaction = f;
    a.sa_flags = SA_SIGINFO | flags;
    sigaction(s, &a, 0);
}
int main(int argc, char **argv) {
    int rounds = argc > 1 ? atoi(argv[1]) : 40;
    stack_t st = {.ss_sp = malloc(65536), .ss_size = 65536};
    sigaltstack(&st, 0);
    page = mmap(0, 4096, PROT_READ, MAP_PRIVATE | MAP_ANONYMOUS, -1, 0);
    set(SIGALRM, on_alarm, SA_RESTART);
    set(SIGUSR1, on_user, SA_ONSTACK);
    set(SIGSEGV, on_fault, 0);
    struct itimerval t = {{0, 3000}, {0, 3000}};
    setitimer(ITIMER_REAL, &t, 0);
    int n = 60000, *v = malloc(n * sizeof *v);
    for (int r = 0; r < rounds; r++) {
        for (int k = 0; k < n; k++)
            v[k] = (int)((k + r) * 2654435761u);
        qsort(v, n, sizeof *v, by_value);
        mprotect(page, 4096, PROT_READ);
        page[r] = r;
    }
    printf("%d alarms, %d faults\n", alarms, faults);
}
