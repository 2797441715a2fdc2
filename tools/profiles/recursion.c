/* Deep recursion of two functions of different frames. */
#include <stdio.h>
#include <stdlib.h>
static volatile unsigned sink;
__attribute__((noinline)) unsigned even(unsigned n, unsigned x);
__attribute__((noinline)) unsigned odd(unsigned n, unsigned x) {
    volatile unsigned room[6];
    room[n % 6] = x;
    unsigned r = n ? even(n - 1, x * 3 + room[n % 6]) : x;
    return r ^ room[(n + 1) % 6 == n % 6 ? 0 : n % 6];
}
__attribute__((noinline)) unsigned even(unsigned n, unsigned x) {
    if (n == 0) {
        for (unsigned k = 0; k < 20000; k++)
            sink += k ^ x;
        return x;
    }
    return odd(n - 1, x + 1) + sink;
}
int main(int argc, char **argv) {
    unsigned long rounds = argc > 1 ? strtoul(argv[1], 0, 0) : 1000;
    unsigned depth = argc > 2 ? atoi(argv[2]) : 400, sum = 0;
    for (unsigned long k = 0; k < rounds; k++)
        sum += even(depth + k % 7 * 2, k);
    printf("%u\n", sum);
}
