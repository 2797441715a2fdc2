/* Calls of a shared library through a procedure linkage table, code written into memory, and
 * clock_gettime. */
#include <stdio.h>
#include <stdlib.h>
#include <string.h>
#include <sys/mman.h>
#include <time.h>
extern unsigned step_a(unsigned), step_b(unsigned);
static volatile unsigned sink;
__attribute__((noinline)) unsigned back(unsigned x) {
    for (unsigned k = 0; k < 60; k++)
        sink += x ^ k;
    return sink;
}
__attribute__((noinline)) static unsigned through_plt(unsigned n) {
    unsigned x = n;
    for (unsigned k = 0; k < n; k++)
        x = step_a(x) + step_b(k);
    return x;
}
__attribute__((noinline)) static unsigned through_code(unsigned (*f)(unsigned), unsigned n) {
    unsigned x = 0;
    for (unsigned k = 0; k < n; k++)
        x += f(k);
    return x;
}
int main(int argc, char **argv) {
    long rounds = argc > 1 ? atol(argv[1]) : 300;
    unsigned x = 0;
    /* sub rsp, 24; mov rax, back; call rax; mov ecx, 40; 1: dec ecx; jnz 1b; add rsp, 24; ret */
    unsigned char code[] = {0x48, 0x83, 0xec, 0x18, 0x48, 0xb8, 0,    0,    0,    0,
                            0,    0,    0,    0,    0xff, 0xd0, 0xb9, 40,   0,    0,
                            0,    0xff, 0xc9, 0x75, 0xfc, 0x48, 0x83, 0xc4, 0x18, 0xc3};
    void *b = (void *)back;
    memcpy(code + 6, &b, 8);
    void *m = mmap(0, 4096, PROT_READ | PROT_WRITE, MAP_PRIVATE | MAP_ANONYMOUS, -1, 0);
    memcpy(m, code, sizeof code);
    mprotect(m, 4096, PROT_READ | PROT_EXEC);
    for (long k = 0; k < rounds; k++) {
        x += through_plt(200000);
        x += through_code((unsigned (*)(unsigned))m, 8000);
        struct timespec t;
        for (int j = 0; j < 8000; j++) {
            clock_gettime(CLOCK_MONOTONIC, &t);
            x += t.tv_nsec;
        }
    }
    printf("%u\n", x);
}
