// Throws and catches through several frames, in a loop.
#include <cstdio>
#include <cstdlib>
#include <stdexcept>
#include <string>
#include <vector>
struct Guard {
    int *n;
    ~Guard() { ++*n; }
};
static volatile int sink;
__attribute__((noinline)) int leaf(int depth, int *n) {
    Guard g{n};
    if (depth == 0)
        throw std::runtime_error("bottom " + std::to_string(*n));
    std::vector<int> v(depth + 3, *n);
    int r = leaf(depth - 1, n) + v[depth];
    return r;
}
__attribute__((noinline)) int attempt(int depth, int *n) {
    try {
        return leaf(depth, n);
    } catch (const std::logic_error &e) {
        return 1;
    } catch (const std::exception &e) {
        sink = e.what()[0];
        if (depth % 3 == 0)
            throw;
        return depth;
    }
}
int main(int argc, char **argv) {
    long rounds = argc > 1 ? atol(argv[1]) : 20000;
    long sum = 0;
    int n = 0;
    for (long k = 0; k < rounds; k++) {
        try {
            sum += attempt(k % 12, &n);
        } catch (std::runtime_error &) {
            sum++;
        }
    }
    printf("%ld %d\n", sum, n);
}
