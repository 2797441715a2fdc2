// Code that is made at run time, whose frames are registered.
#include <sys/mman.h>
#include <thread>
#include <vector>

#include "test.h"

#if defined(__x86_64__)
extern "C" void __register_frame(void *);
extern "C" void __deregister_frame(void *);
extern "C" void __register_frame_table(void *);
extern "C" void *__deregister_frame_info(const void *);
struct dwarf_eh_bases {
    void *text, *data, *function;
};
extern "C" const void *_Unwind_Find_FDE(void *, struct dwarf_eh_bases *);

static void thrower() { throw 77; }

// sub $8, %rsp; mov $thrower, %rax; call *%rax; add $8, %rsp; ret
struct Made {
    unsigned char *code;
    unsigned char frame[64];

    Made() {
        static const unsigned char body[] = {0x48, 0x83, 0xec, 8,    0x48, 0xb8, 0, 0,    0, 0, 0, 0,
                                             0,    0,    0xff, 0xd0, 0x48, 0x83, 0xc4, 8, 0xc3};
        // a CIE, an FDE with absolute addresses, and the end
        static const unsigned char entries[64] = {
            20, 0, 0, 0, 0, 0, 0, 0, 1, 0, 1, 0x78, 16, 0x0c, 7, 8, 0x90, 1, 0, 0, 0, 0, 0, 0,
            28, 0, 0, 0, 28, 0, 0, 0, 0, 0, 0, 0, 0, 0, 0, 0, sizeof body, 0, 0, 0, 0, 0, 0, 0,
            0x44, 0x0e, 16, 0x50, 0x0e, 8, 0, 0, 0, 0, 0, 0};
        code = (unsigned char *)mmap(nullptr, 4096, PROT_READ | PROT_WRITE | PROT_EXEC, MAP_PRIVATE | MAP_ANONYMOUS, -1, 0);
        memcpy(code, body, sizeof body);
        void (*callee)() = thrower;
        memcpy(code + 6, &callee, 8);
        memcpy(frame, entries, sizeof frame);
        memcpy(frame + 32, &code, 8);
    }
    ~Made() { munmap(code, 4096); }
    // takes so many bytes of the stack: other rows at the same place
    void take(unsigned char bytes) {
        code[3] = code[19] = bytes;
        frame[24 + 26] = (unsigned char)(bytes + 8);
    }
    int call() {
        try {
            ((void (*)())code)();
        } catch (int n) {
            return n;
        }
        return 0;
    }
};

int main() {
    setvbuf(stdout, nullptr, _IOLBF, 0);
    Made made, other;
    for (int i = 0; i < 2; i++) {
        __register_frame(made.frame);
        printf("through code made at run time %d\n", made.call());
        struct dwarf_eh_bases bases = {};
        const void *found = _Unwind_Find_FDE(made.code + 5, &bases);
        printf("its FDE %d, its start %d\n", found == made.frame + 24, bases.function == made.code);
        __deregister_frame(made.frame);
    }
    printf("found after that %d\n", _Unwind_Find_FDE(made.code + 5, new dwarf_eh_bases) != nullptr);
    for (int i = 0; i < 20; i++) {
        made.take((unsigned char)(8 + i % 3 * 16));
        __register_frame(made.frame);
        if (made.call() != 77 || made.call() != 77)
            printf("wrong\n");
        __deregister_frame(made.frame);
    }
    printf("with other rows at one place\n");
    made.take(8);
    void *table[] = {made.frame, other.frame, nullptr};
    __register_frame_table(table);
    printf("by a table %d %d\n", made.call(), other.call());
    __deregister_frame_info(table);
    in_child("registered no more", [&] { made.call(); });
    std::vector<std::thread> all;
    for (int i = 0; i < 4; i++)
        all.emplace_back([] {
            for (int k = 0; k < 50; k++) {
                Made own;
                __register_frame(own.frame);
                if (own.call() != 77)
                    printf("wrong\n");
                __deregister_frame(own.frame);
            }
        });
    for (std::thread &thread : all)
        thread.join();
    printf("in threads\n");
}
#else
int main() {}
#endif
