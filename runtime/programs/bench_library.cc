// A library of bench.cc: a frame of its chain, and other functions, for a table of some length.
typedef int Step(int frames, const void *all, int next, int count);

extern "C" int step(int frames, const void *all, int next, int count) {
    Step *const *steps = (Step *const *)all;
    if (frames <= 0)
        throw frames;
    int result = steps[next](frames - 1, all, next + 1 == count ? 0 : next + 1, count);
    __asm__ volatile("" : "+r"(result) : : "rbx");
    return result + 1;
}

template <int N> int other(int a, int b) {
    __asm__ volatile("" : "+r"(a) : : "rbx", "r12");
    return a * b + N + other<N - 1>(b, a);
}
template <> int other<0>(int a, int b) { return a * b; }
template int other<99>(int, int);
