// Throws in a program of any C library, since it includes no header: for musl, for which Debian has no C++ library but that of
// the exceptions, which needs none of glibc's.
extern "C" {
int printf(const char *format, ...);
int fflush(void *file);
int pthread_create(unsigned long *thread, const void *attributes, void *(*run)(void *), void *argument);
int pthread_join(unsigned long thread, void **result);
void (*signal(int number, void (*handler)(int)))(int);
}

static int alive;
struct Counted {
    Counted() { alive++; }
    ~Counted() { alive--; }
};

__attribute__((noinline)) static int throw_below(int frames, int n) {
    Counted counted;
    char room[40];
    __asm__ volatile("" : : "r"(room) : "memory");
    if (frames == 0)
        throw n;
    return throw_below(frames - 1, n) + room[0];
}

static void *run(void *sum) {
    for (int i = 0; i < 200; i++)
        try {
            struct Local {
                int *sum;
                ~Local() { ++*sum; }
            } local{(int *)sum};
            int *kept = (int *)sum;
            __asm__ volatile("" : "+r"(kept));
            if (i % 30 == 0)
                throw *kept;
        } catch (int) {
        }
    return nullptr;
}

static void throw_once(int number) {
    throw number;
}

__attribute__((noinline)) static int read_at(volatile int *place) {
    Counted counted;
    return *place;
}

int main() {
    for (int frames = 0; frames < 30000; frames = frames * 3 + 1)
        try {
            throw_below(frames, frames);
        } catch (int n) {
            printf("caught %d, alive %d\n", n, alive);
        }
    try {
        try {
            throw_below(3, 4);
        } catch (int) {
            throw;
        }
    } catch (...) {
        printf("again, alive %d\n", alive);
    }
    unsigned long threads[4];
    int sums[4] = {0};
    for (int i = 0; i < 4; i++)
        pthread_create(&threads[i], nullptr, run, &sums[i]);
    for (int i = 0; i < 4; i++) {
        pthread_join(threads[i], nullptr);
        printf("a thread: %d\n", sums[i]);
    }
    signal(11, throw_once);
    volatile int *nowhere = nullptr;
    __asm__ volatile("" : "+r"(nowhere));
    try {
        printf("wrong %d\n", read_at(nowhere));
    } catch (int number) {
        printf("signal %d, alive %d\n", number, alive);
    }
    fflush(nullptr);
    throw_below(2, 2); // nobody catches it
}
