/* The threads that threw, by their pointers, and what differs by the kernel. No memory of each thread is used: where a library is
 * loaded late, as the C library loads this one to cancel a thread, there may be none left, or it may be made by malloc, in a
 * handler of a signal.
 *
 * A thread takes an entry at its first call and gives it back at its end. Where no key is left by which the C library would call
 * something then, its number says whether it is there still. In a forked child the keys of other threads are those of no
 * thread. */
#include <errno.h>
#include <pthread.h>
#include <signal.h>
#include <sys/auxv.h>
#include <sys/mman.h>
#include <sys/syscall.h>
#include <unistd.h>

#include "unwinder.h"

enum {
    WAYS = 4,         /* places of a thread in a table: others have the same */
    FIRST_SETS = 4,   /* in the first table; */
    GROWTH = 16,      /* the next has so many times as many */
    FORKS = 48,       /* above the bits of a pointer a key has how often the process forked, */
    LOOKS = 64        /* how many entries of threads that may have ended are looked at */
};

/* The first part of a table: as many bytes as an entry has. */
struct table {
    _Atomic(struct table *) next;
    uint64_t sets;
    struct thread *threads; /* of each set WAYS */
};

static struct thread first_threads[FIRST_SETS * WAYS];
static struct table first_table = {.sets = FIRST_SETS, .threads = first_threads};
static uint64_t forks;
static _Atomic(bool) has_numbers; /* some entry has one */

static pthread_key_t key;
static bool has_key;

/* ---- the kernel */

Mask block_signals(void) {
    Mask all = UINT64_MAX, before = 0;
    syscall(SYS_rt_sigprocmask, SIG_SETMASK, &all, &before, sizeof all);
    return before;
}

void set_signals(Mask mask) {
    int was = errno;
    syscall(SYS_rt_sigprocmask, SIG_SETMASK, &mask, NULL, sizeof mask);
    errno = was;
}

_Atomic(int) is_valgrind;

int ask_whether_valgrind(void) {
    enum { RUNNING_ON_VALGRIND = 0x1001 };
    int is = ask_valgrind(RUNNING_ON_VALGRIND, 0, 0) ? YES : NO;
    atomic_store_explicit(&is_valgrind, is, memory_order_relaxed);
    return is;
}

/* The kernel reads the mask before it looks at the first argument, which is none. Valgrind would report what is read so. */
bool is_readable(uint64_t address) {
    int was = errno;
    if (is_on_valgrind())
        return true;
    bool is = syscall(SYS_rt_sigprocmask, ~0, address, NULL, sizeof(Mask)) == 0 || errno != EFAULT;
    errno = was;
    return is;
}

uint64_t page_size(void) {
    static _Atomic(uint64_t) size;
    uint64_t known = atomic_load_explicit(&size, memory_order_relaxed);
    if (!known) {
        known = getauxval(AT_PAGESZ);
        known = known ? known : 4096;
        atomic_store_explicit(&size, known, memory_order_relaxed);
    }
    return known;
}

/* ---- entries */

static uint64_t own_key(void) {
    return thread_pointer() ^ forks << FORKS;
}

/* Whether it is that of a thread of this process. */
static bool is_of_process(uint64_t key) {
    return key && key >> FORKS == (forks & UINT16_MAX);
}

/* The first of the set that has the key. */
static struct thread *set_of(const struct table *table, uint64_t key) {
    uint64_t hash = (key >> 6) * 0x9e3779b97f4a7c15 >> 32;
    return table->threads + (hash & (table->sets - 1)) * WAYS;
}

static struct table *next_of(struct table *table) {
    return atomic_load_explicit(&table->next, memory_order_acquire);
}

static struct thread *look_up(uint64_t key) {
    for (struct table *table = &first_table; table; table = next_of(table)) {
        struct thread *set = set_of(table, key);
        for (int way = 0; way < WAYS; way++)
            if (atomic_load_explicit(&set[way].key, memory_order_relaxed) == key)
                return &set[way];
    }
    return NULL;
}

static int own_number(void) {
    return (int)syscall(SYS_gettid);
}

/* The entry of a thread that ended, whose pointer this one has. False if another thread took it. */
static bool adopt(struct thread *thread, int number) {
    int before = atomic_load(&thread->number);
    return before > 0 && atomic_compare_exchange_strong(&thread->number, &before, number);
}

struct thread *find_thread(void) {
    struct thread *thread = look_up(own_key());
    if (!thread || !atomic_load_explicit(&thread->number, memory_order_relaxed))
        return thread;
    int number = own_number();
    if (atomic_load(&thread->number) == number)
        return thread;
    if (!adopt(thread, number))
        return NULL;
    leave_workspaces(thread);
    return thread;
}

static void free_thread(struct thread *thread) {
    leave_workspaces(thread);
    atomic_store_explicit(&thread->key, 0, memory_order_release);
}

/* Frees the thread if it ended, without a call of what is to be called then. */
static bool free_ended(struct thread *thread) {
    int number = atomic_load(&thread->number), was = errno;
    if (number <= 0 || !is_of_process(atomic_load(&thread->key)))
        return false;
    bool is_there = syscall(SYS_tgkill, getpid(), number, 0) == 0 || errno != ESRCH;
    errno = was;
    if (is_there || !atomic_compare_exchange_strong(&thread->number, &number, -1))
        return false;
    free_thread(thread);
    return true;
}

/* Some of the threads that have ended, if any. */
static void free_some(void) {
    static _Atomic(uint64_t) next;
    for (struct table *table = &first_table; table; table = next_of(table)) {
        uint64_t count = table->sets * WAYS, looks = count < LOOKS ? count : LOOKS, first = atomic_fetch_add(&next, looks);
        for (uint64_t i = 0; i < looks; i++)
            free_ended(&table->threads[(first + i) % count]);
    }
}

/* Takes a free entry of the key's set. One of a thread of the process that this one was forked of is free, too. */
static struct thread *take_entry(const struct table *table, uint64_t key) {
    static _Atomic(uint64_t) users = 1;
    struct thread *set = set_of(table, key);
    for (int way = 0; way < WAYS; way++) {
        uint64_t before = atomic_load(&set[way].key);
        if (is_of_process(before) || !atomic_compare_exchange_strong(&set[way].key, &before, key))
            continue;
        if (before)
            leave_workspaces(&set[way]);
        set[way].calls = 0;
        set[way].user = atomic_fetch_add(&users, 1);
        set[way].made = NULL;
        atomic_store(&set[way].number, 0);
        return &set[way];
    }
    return NULL;
}

/* Makes the table after the last one; NULL where there is no memory. */
static struct table *make_table(struct table *last) {
    uint64_t sets = last->sets * GROWTH;
    size_t size = (1 + sets * WAYS) * sizeof(struct thread);
    struct table *none = NULL, *made = mmap(NULL, size, PROT_READ | PROT_WRITE, MAP_PRIVATE | MAP_ANONYMOUS | MAP_NORESERVE, -1, 0);
    if (made == MAP_FAILED)
        return NULL;
    *made = (struct table){.sets = sets, .threads = (struct thread *)made + 1};
    if (atomic_compare_exchange_strong(&last->next, &none, made))
        return made;
    munmap(made, size);
    return none;
}

/* Another entry for this thread. Nothing is called at its end if there is no key for that: then its number is written. */
static struct thread *add_thread(void) {
    uint64_t own = own_key();
    struct thread *thread = NULL;
    if (!has_key)
        free_some();
    for (struct table *table = &first_table; table && !thread;) {
        thread = take_entry(table, own);
        struct table *next = next_of(table);
        table = next || thread ? next : make_table(table);
    }
    if (thread && (!has_key || pthread_setspecific(key, thread) != 0)) {
        atomic_store(&thread->number, own_number());
        atomic_store(&has_numbers, true);
    }
    return thread;
}

/* Without memory for an entry calls have other numbers than those of threads that have one. */
void begin_call(struct call *call) {
    static _Atomic(uint64_t) others = (uint64_t)1 << 63;
    struct thread *thread = find_thread();
    if (!thread) {
        int was = errno;
        Mask mask = block_signals();
        thread = add_thread();
        set_signals(mask);
        errno = was;
    }
    *call = (struct call){thread ? ++thread->calls : atomic_fetch_add(&others, 1), thread};
    if (thread)
        take_turn(call);
}

void visit_others(void (*visit)(struct thread *thread, void *argument), void *argument) {
    uint64_t own = own_key();
    for (struct table *table = &first_table; table; table = next_of(table))
        for (uint64_t i = 0; i < table->sets * WAYS; i++) {
            uint64_t key = atomic_load(&table->threads[i].key);
            if (key != own && is_of_process(key))
                visit(&table->threads[i], argument);
        }
}

/* ---- the end of a thread, and forks */

/* What the thread throws after that takes another entry, and this is called again. */
static void end_thread(void *thread) {
    Mask mask = block_signals();
    free_thread(thread);
    set_signals(mask);
}

/* Forgets the numbers of the process that this one was forked of. */
static void forget_numbers(void) {
    for (struct table *table = &first_table; table; table = next_of(table))
        for (uint64_t i = 0; i < table->sets * WAYS; i++)
            if (!is_of_process(atomic_load(&table->threads[i].key)))
                atomic_store(&table->threads[i].number, 0);
}

/* Other threads are not in a forked child. */
static void begin_child(void) {
    struct thread *own = look_up(own_key());
    forks++;
    if (own) {
        atomic_store(&own->key, own_key());
        if (atomic_load(&own->number))
            atomic_store(&own->number, own_number());
    }
    if (atomic_load(&has_numbers))
        forget_numbers();
    mend_workspaces(own);
    mend_sections();
}

__attribute__((constructor)) static void begin(void) {
    has_key = pthread_key_create(&key, end_thread) == 0;
    pthread_atfork(NULL, NULL, begin_child);
}
