// What test.h declares.
#include "test.h"

int alive;

NOINLINE int throw_below(int frames, int n) {
    Counted counted;
    char room[48];
    memset(room, frames, sizeof room);
    __asm__ volatile("" : : "r"(room) : "memory");
    if (frames == 0)
        throw n;
    return throw_below(frames - 1, n) + room[0];
}
