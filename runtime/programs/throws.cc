// A library that throws, for programs that aren't linked to any that does.
#include <initializer_list>

#include "test.h"

extern "C" int throw_once() {
    int caught = 0;
    for (int frames : {0, 3, 20})
        try {
            throw_below(frames, frames);
        } catch (int n) {
            caught += n == frames;
        }
    return caught;
}
