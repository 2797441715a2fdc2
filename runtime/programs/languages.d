// Exceptions of D: thrown, caught by kind, cleaned up after, chained, in threads and through frames of C.
import core.stdc.stdio : printf;
import core.thread : Thread;

class Named : Exception {
    int number;
    this(int number) {
        super("named");
        this.number = number;
    }
}

__gshared int alive;

struct Counted {
    int number;
    this(int number) {
        this.number = number;
        alive++;
    }
    ~this() {
        alive--;
    }
}

pragma(inline, false) int throwBelow(int frames, int number) {
    auto counted = Counted(frames);
    scope (failure)
        if (frames && frames % 50 == 0)
            printf("leaves %d\n", frames);
    if (frames == 0)
        throw new Named(number);
    return throwBelow(frames - 1, number) + counted.number;
}

void caught() {
    foreach (frames; [0, 1, 10, 100])
        try
            throwBelow(frames, frames + 1);
        catch (Named named)
            printf("caught %d, alive %d\n", named.number, alive);
}

void byKind() {
    try {
        try
            throwBelow(3, 7);
        catch (Error error)
            printf("wrong\n");
        finally
            printf("finally\n");
    } catch (Exception exception)
        printf("an exception, %d\n", cast(int) exception.msg.length);
}

void chained() {
    try {
        try
            throwBelow(2, 1);
        finally
            throwBelow(1, 2);
    } catch (Named named) {
        Named next = cast(Named) named.next;
        printf("%d, and then %d, alive %d\n", named.number, next ? next.number : -1, alive);
    }
}

void again() {
    try {
        try
            throwBelow(4, 5);
        catch (Named named) {
            named.number++;
            throw named;
        }
    } catch (Named named)
        printf("again %d\n", named.number);
}

// The library's declaration says that it doesn't throw.
extern (C) void qsort(void* base, size_t count, size_t size, int function(const void*, const void*));

extern (C) int compareNumbers(const void* one, const void* other) {
    if (*cast(int*) one == 3)
        throw new Named(3);
    return *cast(int*) one - *cast(int*) other;
}

void throughC() {
    int[4] numbers = [3, 2, 3, 1];
    try
        qsort(numbers.ptr, numbers.length, int.sizeof, &compareNumbers);
    catch (Named named)
        printf("through qsort %d\n", named.number);
}

void inThreads() {
    Thread[4] threads;
    int[4] sums;
    Thread begun(int which) {
        return new Thread({
            foreach (i; 0 .. 300)
                try
                    throwBelow(i % 20, 1);
                catch (Named named)
                    sums[which] += named.number;
        });
    }
    foreach (i, ref thread; threads)
        thread = begun(cast(int) i).start();
    foreach (thread; threads)
        thread.join();
    printf("in threads %d %d %d %d\n", sums[0], sums[1], sums[2], sums[3]);
    try
        new Thread({ throwBelow(2, 9); }).start().join();
    catch (Named named)
        printf("from a thread %d\n", named.number);
}

void assertion() {
    int[] numbers = [1, 2];
    try
        printf("%d\n", numbers[numbers.length + hidden(0)]);
    catch (Throwable throwable)
        printf("a range error, next %d\n", throwable.next !is null);
}

pragma(inline, false) int hidden(int value) {
    return value;
}

void main() {
    caught();
    byKind();
    chained();
    again();
    throughC();
    assertion();
    inThreads();
}
