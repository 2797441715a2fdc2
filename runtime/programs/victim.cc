// A library whose unwind information mutations.cc damages: frames with cleanups, a dynamic alignment. The
// cleanups need no register but the stack pointer.
#define NOINLINE __attribute__((noinline, noclone))

static int cleaned;
struct Cleans {
    ~Cleans() { cleaned++; }
};

typedef void Call(int);

NOINLINE static int align(Call *call, int size, long kept) {
    alignas(64) volatile char room[128];
    volatile char *more = (volatile char *)__builtin_alloca(size);
    room[1] = more[1] = (char)kept;
    call(size);
    return room[1] + more[1];
}

NOINLINE static int clean(Call *call, int size, long a, long b, long c, long d) {
    Cleans cleans;
    volatile long room[24];
    for (volatile long &each : room)
        each = 0x5a5a5a5a;
    int result = align(call, size, a + b);
    return result + (int)(room[3] + a * b + c * d);
}

extern "C" int pass(Call *call, int size) {
    Cleans cleans;
    int sum = clean(call, size, 1, 2, 3, 4);
    return sum + clean(call, size + sum, sum, 2, 3, 4);
}
