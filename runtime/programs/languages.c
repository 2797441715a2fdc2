/* The personality of C, __gcc_personality_v0: cleanups of variables by an exception of C++ that goes through, by cancellation, by
 * the end of a thread, by forced unwinding and by a cancellation that interrupts a sleep in a cleanup's function. */
#include <pthread.h>
#include <stdio.h>
#include <stdlib.h>
#include <string.h>
#include <unistd.h>
#include <unwind.h>

static volatile int left;

static void leave(int *number) {
    left++;
    if (*number % 50 == 0)
        printf("leaves %d\n", *number);
}

/* Calls end below so many frames with a cleanup each. */
static __attribute__((noinline)) int go_down(int depth, void (*end)(void)) {
    __attribute__((cleanup(leave))) int number = depth;
    char room[40];
    memset(room, depth, sizeof room);
    __asm__ volatile("" : : "r"(room) : "memory");
    if (depth == 0)
        end();
    else
        number = go_down(depth - 1, end);
    return number + room[1] - room[0];
}

static void sleep_on(void) {
    for (;;)
        pause();
}

static void exit_here(void) {
    pthread_exit((void *)7);
}

static void *cancelled(void *depth) {
    go_down((int)(long)depth, sleep_on);
    return NULL;
}

static void *exits(void *depth) {
    go_down((int)(long)depth, exit_here);
    return NULL;
}

/* One that may be cancelled anywhere. */
static void turn(void) {
    static volatile unsigned turns;
    pthread_setcanceltype(PTHREAD_CANCEL_ASYNCHRONOUS, NULL);
    for (;;)
        turns++;
}

static void *turns(void *depth) {
    go_down((int)(long)depth, turn);
    return NULL;
}

static void pushed(void *text) {
    printf("pushed %s\n", (const char *)text);
}

static void *pushes(void *depth) {
    pthread_cleanup_push(pushed, "one");
    pthread_cleanup_push(pushed, "two");
    go_down((int)(long)depth, sleep_on);
    pthread_cleanup_pop(0);
    pthread_cleanup_pop(0);
    return NULL;
}

static void in_thread(const char *name, void *(*run)(void *), long depth, int is_cancelled) {
    pthread_t thread;
    void *result;
    left = 0;
    pthread_create(&thread, NULL, run, (void *)depth);
    if (is_cancelled) {
        usleep(1000);
        pthread_cancel(thread);
    }
    pthread_join(thread, &result);
    printf("%s: left %d of %ld, %s\n", name, left, depth + 1, result == PTHREAD_CANCELED ? "cancelled" : result ? "ended" : "wrong");
}

/* ---- forced unwinding, and an exception that nobody handles */

static struct _Unwind_Exception thrown;

static void forget(_Unwind_Reason_Code code, struct _Unwind_Exception *exception) {
    (void)code, (void)exception;
}

static _Unwind_Reason_Code stop(int version, _Unwind_Action actions, _Unwind_Exception_Class class, struct _Unwind_Exception *exception,
                                struct _Unwind_Context *context, void *seen) {
    (void)version, (void)class, (void)exception, (void)context;
    ++*(int *)seen;
    if (actions & _UA_END_OF_STACK) {
        printf("the end of the stack: left %d\n", left);
        exit(0);
    }
    return _URC_NO_REASON;
}

static void force(void) {
    static int seen;
    thrown = (struct _Unwind_Exception){.exception_class = 1, .exception_cleanup = forget};
    _Unwind_ForcedUnwind(&thrown, stop, &seen);
}

static void raise_unhandled(void) {
    thrown = (struct _Unwind_Exception){.exception_class = 1, .exception_cleanup = forget};
    _Unwind_RaiseException(&thrown);
    printf("nobody handles it\n");
}

int main(void) {
    in_thread("cancelled", cancelled, 0, 1);
    in_thread("cancelled", cancelled, 200, 1);
    in_thread("exits", exits, 0, 0);
    in_thread("exits", exits, 200, 0);
    in_thread("turns", turns, 100, 1);
    in_thread("pushes", pushes, 3, 1);
    left = 0;
    go_down(3, raise_unhandled);
    printf("left %d\n", left);
    left = 0;
    go_down(100, force);
    return 1;
}
