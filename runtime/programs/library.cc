// Two libraries of one layout, whose frames have other sizes: -DSIZE.
struct Adds {
    int *sum;
    ~Adds() { ++*sum; }
};

extern "C" __attribute__((noinline)) int through(void (*call)(int), int n) {
    volatile char room[SIZE];
    room[1] = (char)n;
    call(room[1]);
    return room[1];
}

extern "C" int catches(int n) {
    int sum = 0;
    try {
        Adds adds{&sum};
        throw n + SIZE;
    } catch (int k) {
        return k + sum;
    }
}
