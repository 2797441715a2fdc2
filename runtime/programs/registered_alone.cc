// Threads that throw through registered code all the time, while another one registers and takes back sections, and forks.
// libgcc_s doesn't come to an end of it in each child, so what is to be printed stands here: usage: registered_alone
#include <atomic>
#include <chrono>
#include <sys/mman.h>
#include <thread>
#include <vector>

#include "test.h"

#if defined(__x86_64__)
extern "C" void __register_frame(void *);
extern "C" void __deregister_frame(void *);

static void thrower() { throw 77; }

struct Made {
    unsigned char *code;
    alignas(8) unsigned char frame[64];

    Made() {
        // push %rbx; call *%rdi; pop %rbx; ret
        static const unsigned char body[] = {0x53, 0xff, 0xd7, 0x5b, 0xc3};
        static const unsigned char entries[64] = {
            20, 0, 0, 0, 0, 0, 0, 0, 1, 0, 1, 0x78, 16, 0x0c, 7, 8, 0x90, 1, 0, 0, 0, 0, 0, 0,
            28, 0, 0, 0, 28, 0, 0, 0, 0, 0, 0, 0, 0, 0, 0, 0, sizeof body, 0, 0, 0, 0, 0, 0, 0,
            0x41, 0x0e, 16, 0x83, 2, 0, 0, 0, 0, 0, 0, 0};
        code = (unsigned char *)mmap(nullptr, 4096, PROT_READ | PROT_WRITE | PROT_EXEC, MAP_PRIVATE | MAP_ANONYMOUS, -1, 0);
        memcpy(code, body, sizeof body);
        memcpy(frame, entries, sizeof frame);
        memcpy(frame + 32, &code, 8);
    }
    ~Made() { munmap(code, 4096); }
    int call() {
        try {
            ((void (*)(void (*)()))code)(thrower);
        } catch (int n) {
            return n;
        }
        return 0;
    }
};

static std::atomic<bool> is_over;
static std::atomic<long> wrong, thrown;

static void throw_all_the_time(Made *made) {
    while (!is_over) {
        wrong += made->call() != 77;
        thrown++;
    }
}

// The child has what was registered, and registers and takes back more.
static int in_forked_child(Made &before) {
    pid_t child = fork();
    if (child == 0) {
        alarm(20);
        if (before.call() != 77)
            _exit(1);
        for (int i = 0; i < 3; i++) {
            Made made;
            __register_frame(made.frame);
            if (made.call() != 77)
                _exit(2);
            __deregister_frame(made.frame);
        }
        std::thread([&] { _exit(before.call() == 77 ? 0 : 3); }).join();
    }
    int status = 0;
    waitpid(child, &status, 0);
    return status;
}

int main() {
    std::vector<Made> all(16);
    for (Made &made : all)
        __register_frame(made.frame);
    for (int count : {0, 1, 4, 12}) {
        is_over = false;
        std::vector<std::thread> threads;
        for (int i = 0; i < count; i++)
            threads.emplace_back(throw_all_the_time, &all[i]);
        double worst = 0;
        for (int i = 0; i < 100; i++) {
            Made made;
            __register_frame(made.frame);
            wrong += made.call() != 77;
            auto start = std::chrono::steady_clock::now();
            __deregister_frame(made.frame);
            double took = std::chrono::duration<double>(std::chrono::steady_clock::now() - start).count();
            worst = took > worst ? took : worst;
        }
        int hung = 0;
        for (int i = 0; i < 10; i++)
            hung += in_forked_child(all[15]) != 0;
        is_over = true;
        for (std::thread &thread : threads)
            thread.join();
        fprintf(stderr, "%d threads: %ld throws, worst __deregister_frame %.0f us\n", count, (long)thrown, worst * 1e6);
        printf("%d threads: %ld wrong, %d children end elsewhere, in time %d\n", count, (long)wrong, hung, worst < 1);
    }
    return wrong != 0;
}
#else
int main() {}
#endif
