// What a debugger steps over: a call that throws. Its `next` and `finish` stop in the function that has the handler.
#include <cstdio>

__attribute__((noinline)) void thrower() { throw 1; }

__attribute__((noinline)) int catcher() {
    int result = 0;
    try {
        thrower(); // from here
        result = 1;
    } catch (int) {
        result = 2; // to here
    }
    return result;
}

int main() {
    printf("%d\n", catcher());
    return 0;
}
