/* What a thread needs to step: a context of the library, a cache of rows, and the modules that it knows. A thread has it during a
 * call: then it is idle, and another thread may take it, which has rows from the start. So there are few of them, though many
 * threads throw now and then. A thread that throws often finds its own again, as long as there are not too many such threads.
 * The first is in the library, others are mapped. If there is no memory, all threads share one that is held in reserve.
 *
 * A signal handler that interrupts a step takes another one, and all signals are blocked while that is used, as while the
 * reserve is: so no more are needed, and no handler leaves these. Where a handler doesn't return, but leaves by siglongjmp, the
 * thread's first is in use for ever, by a call whose stack is gone. It is made anew once that stack has other contents. */
#include <errno.h>
#include <sched.h>
#include <string.h>
#include <sys/mman.h>

#include "unwinder.h"

enum {
    LINE = 64,            /* of the processor's cache: a row takes one */
    SETS = 325,           /* of four rows: so that 128 kB of all this are touched */
    FIRST_SETS = 32,      /* at first, */
    FIRST_ROWS = 64,      /* for so many rows: a thread that throws once touches fewer pages */
    CACHE = 2 * LINE,     /* what a cache takes beside its rows */
    ROWS = CACHE + SETS * 4 * LINE,
    FIRST = CACHE + FIRST_SETS * 4 * LINE,
    CONTEXT = 196 * LINE, /* what a context takes, */
    SELDOM = 2037 * LINE, /* but for the rows that it remembers, which few have; more is taken here too */
    MOST = 685 * LINE,    /* as much of a stack as is taken to make a context now: with what lies behind it 14 pages of 4 kB */
    STACK = 64 * 1024,    /* as much as it has once the rows have its first place */
    FIRST_MODULES = 2,    /* most throws meet the program and the library of its language */
    LEFT = 4,             /* so many of those without a place are kept */
    SHARED = 64,          /* so many have a place */
    KEPT = 8,             /* and so many of these stay as they are when their thread ends */
    FEW = 16              /* a thread that called more often is to find its own again */
};

/* What stands at a place: the number of its user, and whether that is in a call. 0: nothing was made there. */
enum { IS_IDLE = 1, IS_KEPT = 2 /* for its user, if there are other places */, USER = 4 };

/* Pages are touched only when they are needed. What a first throw touches lies together. All from the stack up to the context is
 * that on which the context is made, as on a stack, before anything is there. */
struct region {
    _Alignas(REGION) char seldom[SELDOM];
    char stack[STACK];
    _Alignas(LINE) char rows[ROWS]; /* the first ones at its end */
    struct remembered remembered[REMEMBERED];
    struct trail trail;
    struct known_modules modules;
    _Alignas(LINE) char context[CONTEXT];
    struct workspace workspace;
    struct known_module all_modules[KNOWN_MODULES];
    struct trail_frame more_frames[MORE_FRAMES];
};

/* A workspace that threads take in turn. It never moves. */
struct place {
    _Alignas(LINE) _Atomic(uint64_t) state;
    struct workspace *workspace; /* NULL: no memory has been mapped for it */
};

static struct place places[SHARED];

/* That of the first place, and the one that all share where there is no memory. They lie behind all other memory of the library, in a
 * section of their own: what a program's start and a first throw touch of that lies together, in the page of what isn't 0. */
#define BEHIND __attribute__((section(".sbss.regions")))
static BEHIND struct region first, reserve;
BEHIND struct last_throw last_throws[LAST_THROWS];
static struct workspace *made_in_reserve;
static _Atomic(struct section *) read_in_reserve;

/* What one thread has at a time: its pointer, or 0. */
typedef _Atomic(uint64_t) Taken;
static Taken reserve_thread;

static bool take(Taken *thread) {
    uint64_t none = 0;
    return atomic_compare_exchange_strong(thread, &none, thread_pointer());
}

static void give(Taken *thread) {
    atomic_store(thread, 0);
}

/* Waits until no other thread has it; false if this one has it already. */
static bool wait_for(Taken *thread) {
    while (!take(thread)) {
        if (atomic_load(thread) == thread_pointer())
            return false;
        sched_yield();
    }
    return true;
}

/* Where the workspace is written whose memory the library takes. */
static struct workspace **made_here(void) {
    struct thread *thread = find_thread();
    return thread ? &thread->made : &made_in_reserve;
}

/* ---- memory for the library: these three are the toolchain's bridge to malloc, in whose place they stand */

typedef struct {
    bool is_block;
    void *at; /* never null */
} Tried;

HIDDEN Tried rattle_alloc(size_t length, size_t alignment);
HIDDEN Tried rattle_realloc(void *block, size_t kept, size_t length, size_t alignment);
HIDDEN void rattle_dealloc(void *block);

/* Alignments are divisors of 16. What is made is made once and given back whole, so nothing is freed alone. */
Tried rattle_alloc(size_t length, size_t alignment) {
    static char nothing;
    size_t size = (length + LINE) & -(size_t)LINE;
    struct workspace *made = *made_here();
    (void)alignment;
    for (int i = 0; made && size > length && i < ROOMS; i++) {
        struct room *room = &made->rooms[i];
        char *at = room->free;
        if ((size_t)(room->end - at) < size)
            continue;
        room->free = at + size;
        return (Tried){true, at};
    }
    return (Tried){false, &nothing};
}

Tried rattle_realloc(void *block, size_t kept, size_t length, size_t alignment) {
    Tried moved = rattle_alloc(length, alignment);
    if (moved.is_block)
        __builtin_memcpy(moved.at, block, kept < length ? kept : length);
    return moved;
}

void rattle_dealloc(void *block) {
    (void)block;
}

/* ---- workspaces */

/* Has the kernel make pages that will be touched, all at once, if it can. */
static void touch(void *start, size_t size) {
#ifdef MADV_POPULATE_WRITE
    int was = errno;
    uint64_t page = page_of((uint64_t)start);
    madvise((void *)page, (uint64_t)start + size - page, MADV_POPULATE_WRITE);
    errno = was;
#else
    (void)start, (void)size;
#endif
}

static struct region *region_of(struct workspace *workspace) {
    return (struct region *)((char *)workspace - offsetof(struct region, workspace));
}

static struct room room_of(char *start, size_t size) {
    return (struct room){start, start + size};
}

/* Valgrind's tools take a switch of stacks for other things, so it is not done there. */
int32_t call_while_blocked(struct workspace *workspace, int32_t (*call)(void *), void *argument) {
    return is_on_valgrind() ? call(argument) : call_on_stack(call, argument, workspace->stack.end);
}

int32_t call_on_own_stack(struct workspace *workspace, int32_t (*call)(void *), void *argument) {
    if (is_on_valgrind())
        return call(argument);
    Mask mask = block_signals();
    int32_t result = call_while_blocked(workspace, call, argument);
    set_signals(mask);
    return result;
}

/* Without memory for the cache there is none: then each row is found anew. */
static void make_cache(struct workspace *workspace, size_t sets, size_t size) {
    struct region *region = region_of(workspace);
    struct workspace **made = made_here(), *was = *made;
    workspace->rooms[0] = room_of(region->rows + ROWS - size, size);
    *made = workspace;
    cfi_cache_new(sets, &workspace->cache);
    *made = was;
}

void enlarge_cache(struct workspace *workspace) {
    struct region *region = region_of(workspace);
    Mask mask = block_signals();
    cfi_cache_free(&workspace->cache);
    touch(region->rows, ROWS - FIRST - MOST);
    workspace->stack = room_of(region->stack, STACK);
    make_cache(workspace, SETS, ROWS);
    set_signals(mask);
}

static int32_t make_context(void *workspace) {
    return cfi_context_new(&((struct workspace *)workspace)->context);
}

/* What lies there is empty after the context was made on it. */
static void begin_empty(struct region *region) {
    struct workspace *workspace = &region->workspace;
    memset(region->remembered, 0, (size_t)(region->context - (char *)region->remembered));
    region->modules.all = region->all_modules;
    region->trail.more = region->more_frames;
    workspace->modules = &region->modules;
    workspace->remembered = region->remembered;
    workspace->trail = &region->trail;
    workspace->stack = room_of(region->stack, (size_t)(region->rows + ROWS - FIRST - region->stack));
    workspace->first_rows = FIRST_ROWS;
    make_cache(workspace, FIRST_SETS, FIRST);
}

/* Makes the workspace of a region, with signals blocked. A larger stack has room too. Later steps have theirs in the place of the rows, until there are
 * more of them. */
static bool make(struct region *region) {
    struct workspace *workspace = &region->workspace, **made = made_here(), *was = *made;
    char *top = region->context;
    touch(top - MOST, (size_t)((char *)&region->all_modules[FIRST_MODULES] - (top - MOST)));
    workspace->rooms[0] = room_of(region->context, CONTEXT);
    workspace->rooms[1] = room_of(region->seldom, SELDOM);
    workspace->stack = room_of(region->stack, (size_t)(top - region->stack));
    *made = workspace;
    int32_t status = call_while_blocked(workspace, make_context, workspace);
    *made = was;
    if (status != CFI_Ok)
        return false;
    begin_empty(region);
    return true;
}

static struct region *map_region(void) {
    int was = errno;
    void *at = mmap(NULL, sizeof(struct region), PROT_READ | PROT_WRITE, MAP_PRIVATE | MAP_ANONYMOUS | MAP_NORESERVE, -1, 0);
    errno = was;
    return at == MAP_FAILED ? NULL : at;
}

/* Has the region be of zeros again. */
static void clear(struct region *region) {
    if (madvise(region, sizeof *region, MADV_DONTNEED) != 0)
        memset(region, 0, sizeof *region);
}

static void unmap(struct region *region) {
    int was = errno;
    munmap(region, sizeof *region);
    errno = was;
}

static struct workspace *make_workspace(void) {
    struct region *region = map_region();
    if (!region)
        return NULL;
    if (make(region))
        return &region->workspace;
    unmap(region);
    return NULL;
}

/* Those without a place, for other threads. Their rows stay: each has the number of its file. */
static _Atomic(struct workspace *) left[LEFT];

/* One that was left; NULL where there is none. */
static struct workspace *take_left(void) {
    for (int i = 0; i < LEFT; i++) {
        struct workspace *workspace = atomic_exchange(&left[i], NULL);
        if (workspace) {
            say_after(workspace);
            return workspace;
        }
    }
    return NULL;
}

/* Forgets what is of its thread alone. */
static void forget_thread(struct workspace *workspace) {
    workspace->windows = (struct windows){0};
    workspace->view = (struct view){0};
    memset(workspace->personalities, 0, sizeof workspace->personalities);
    workspace->trail->exception = NULL;
    forget_calls(workspace->modules);
}

/* Leaves one. Unmaps it where there are enough, or if it is not whole: a handler that did not return interrupted its last
 * use. */
static void leave(struct workspace *workspace) {
    forget_thread(workspace);
    say_before(workspace);
    for (int i = 0; i < LEFT && !workspace->holder; i++) {
        struct workspace *none = NULL;
        if (atomic_compare_exchange_strong(&left[i], &none, workspace))
            return;
    }
    unmap(region_of(workspace));
}

/* ---- places: workspaces that threads take in turn */

static bool is_idle(uint64_t state) {
    return !state || state & IS_IDLE;
}

static uint64_t user_of(uint64_t state) {
    return state / USER;
}

/* Takes the place, if that stands there. */
static bool take_place(struct place *place, uint64_t state, const struct thread *thread) {
    return atomic_compare_exchange_strong(&place->state, &state, thread->user * USER);
}

/* Makes the workspace of a place that the thread took, if there is none. */
static bool make_place(struct place *place) {
    struct region *region = place == places ? &first : NULL;
    if (place->workspace)
        return place->workspace->context.live || make(region_of(place->workspace));
    if (!region && !(region = map_region()))
        return false;
    place->workspace = &region->workspace;
    return make(region);
}

/* Takes an idle place: the thread's last one, else one that isn't kept for its user, else one where nothing was made, else
 * any. */
static struct place *find_place(const struct thread *thread, bool *is_own) {
    enum { OPEN, EMPTY, ANY, PASSES };
    struct place *last = thread->place;
    uint64_t state = last ? atomic_load(&last->state) : 0;
    *is_own = last && is_idle(state) && user_of(state) == thread->user && take_place(last, state, thread);
    if (*is_own)
        return last;
    if (take_place(&places[0], 0, thread)) /* a page that is read first is touched twice */
        return &places[0];
    for (int pass = OPEN; pass < PASSES; pass++)
        for (unsigned i = 0; i < SHARED; i++) {
            struct place *place = &places[pass == ANY ? (thread->user + i) % SHARED : i];
            state = atomic_load(&place->state);
            bool fits = pass == OPEN ? state && is_idle(state) && !(state & IS_KEPT) : pass == EMPTY ? !state : is_idle(state);
            if (fits && take_place(place, state, thread))
                return place;
        }
    return NULL;
}

/* The call is the one that is to give the workspace back. */
static void begin_outermost(struct thread *thread, const struct call *call) {
    thread->inner_calls = 0;
    thread->outermost.number = call->number;
    atomic_signal_fence(memory_order_seq_cst);
    thread->outermost.call = call;
}

/* Takes a place for the call. Where there is none that is idle, or no memory for it, a workspace is made when one is needed, and
 * left at the call's end. Signals are blocked. */
static void find_turn(struct thread *thread, const struct call *call) {
    bool is_own = false;
    struct place *place = find_place(thread, &is_own);
    if (place && !make_place(place)) {
        atomic_store(&place->state, 0);
        place = NULL;
    }
    thread->place = place;
    thread->workspaces[0] = place ? place->workspace : NULL;
    begin_outermost(thread, call);
    atomic_store(&thread->reading[0], NULL);
    if (!place)
        return;
    say_after(place);
    if (!is_own)
        forget_thread(place->workspace);
    place->workspace->reading = &thread->reading[0];
    place->workspace->is_closed = false;
}

/* Whether a call is gone, though it wasn't ended: its stack has other contents. */
static bool is_gone(const struct call *call, uint64_t number) {
    return !is_readable((uint64_t)&call->number) || call->number != number;
}

/* Whether a call of the thread has its place, or has no place. */
static bool has_turn(const struct thread *thread) {
    return thread->outermost.call || (thread->place && atomic_load(&thread->place->state) == thread->user * USER);
}

/* A call that interrupted another one, or that is made for a frame of that one, uses its workspace. If that one was left it takes its part,
 * unless another call is there that began in it: what was left may be known as such only later. */
static void begin_inner(struct thread *thread, const struct call *call) {
    uint64_t *count = &thread->inner_calls;
    while (*count && is_gone(thread->inner[*count - 1].call, thread->inner[*count - 1].number))
        --*count;
    if (!*count && is_gone(thread->outermost.call, thread->outermost.number))
        begin_outermost(thread, call);
    else if (*count < INNER_CALLS)
        thread->inner[(*count)++] = (struct began){call, call->number};
}

/* As take_turn, where the thread's last place isn't taken. */
static __attribute__((noinline)) void take_turn_anew(struct thread *thread, const struct call *call) {
    Mask mask = block_signals();
    if (!has_turn(thread))
        find_turn(thread, call);
    else if (thread->outermost.call)
        begin_inner(thread, call);
    set_signals(mask);
}

/* A handler may run between any two of these. */
void take_turn(const struct call *call) {
    struct thread *thread = call->thread;
    struct place *place = thread->place;
    if (!place || thread->outermost.call || !take_place(place, thread->idle, thread)) {
        take_turn_anew(thread, call);
    } else if (place == thread->place) {
        begin_outermost(thread, call);
    } else { /* a handler took another one */
        atomic_store(&place->state, thread->user * USER + IS_IDLE);
        take_turn_anew(thread, call);
    }
}

/* Leaves the workspace that has no place. */
static __attribute__((noinline)) void end_without_place(struct thread *thread) {
    Mask mask = block_signals();
    struct workspace *workspace = thread->workspaces[0];
    thread->workspaces[0] = NULL;
    thread->outermost.call = NULL;
    if (workspace)
        leave(workspace);
    set_signals(mask);
}

/* Those that began in it were left, if they are there. */
static __attribute__((noinline)) void end_inner(struct thread *thread, const struct call *call) {
    for (uint64_t i = thread->inner_calls; i-- > 0;)
        if (thread->inner[i].call == call)
            thread->inner_calls = i;
}

void end_call(const struct call *call) {
    struct thread *thread = call->thread;
    if (!thread)
        return;
    if (thread->outermost.call != call) {
        end_inner(thread, call);
        return;
    }
    struct place *place = thread->place;
    if (!place) {
        end_without_place(thread);
        return;
    }
    thread->outermost.call = NULL;
    atomic_signal_fence(memory_order_seq_cst);
    thread->idle = thread->user * USER + IS_IDLE + (thread->calls > FEW ? IS_KEPT : 0);
    say_before(place);
    atomic_store_explicit(&place->state, thread->idle, memory_order_release);
}

/* The place of a thread that ended. What isn't whole, since a handler that did not return interrupted its last use, is made
 * anew. */
static void leave_place(struct thread *thread) {
    struct place *place = thread->place;
    thread->place = NULL;
    thread->outermost.call = NULL;
    if (!place)
        return;
    thread->workspaces[0] = NULL;
    uint64_t state = atomic_load(&place->state);
    if (user_of(state) != thread->user || (is_idle(state) && !take_place(place, state, thread)))
        return;
    bool stays = place < places + KEPT && !place->workspace->holder;
    if (!stays)
        clear(region_of(place->workspace));
    say_before(place);
    atomic_store(&place->state, stays ? IS_IDLE : 0);
}

/* In a forked child: what other threads had in hand isn't whole. */
static void mend_places(const struct thread *own) {
    for (struct place *place = places; place < places + SHARED; place++) {
        uint64_t state = atomic_load(&place->state);
        if (!state || (own && user_of(state) == own->user))
            continue;
        if (!is_idle(state) && place->workspace)
            clear(region_of(place->workspace));
        atomic_store(&place->state, is_idle(state) ? IS_IDLE : 0);
    }
}

void leave_workspaces(struct thread *thread) {
    leave_place(thread);
    for (int i = 0; i < NESTED; i++) {
        struct workspace *workspace = thread->workspaces[i];
        thread->workspaces[i] = NULL;
        atomic_store(&thread->reading[i], NULL);
        if (workspace)
            leave(workspace);
    }
}

void wait_for_reserve(const struct section *section) {
    while (atomic_load(&read_in_reserve) == section && atomic_load(&reserve_thread) != thread_pointer())
        sched_yield();
}

/* In a forked child no other thread has the reserve. What one has in hand is made anew. */
void mend_workspaces(const struct thread *own) {
    mend_places(own);
    uint64_t holder = atomic_load(&reserve_thread);
    if (!holder || holder == thread_pointer())
        return;
    clear(&reserve);
    made_in_reserve = NULL;
    atomic_store(&read_in_reserve, NULL);
    give(&reserve_thread);
}

/* The reserve, once no other thread has it. */
static struct workspace *take_reserve(void) {
    struct workspace *workspace = &reserve.workspace;
    if (!wait_for(&reserve_thread))
        return NULL;
    if (workspace->context.live || make(&reserve)) {
        workspace->windows = (struct windows){0}; /* the other thread's stacks */
        workspace->view = (struct view){0};
        workspace->reading = &read_in_reserve;
        forget_modules(workspace->modules); /* its calls have numbers of their own */
        return workspace;
    }
    give(&reserve_thread);
    return NULL;
}

/* Whether the call that has the workspace is gone, though it didn't give it back: its stack has other contents. */
static bool was_left(const struct workspace *workspace) {
    return is_gone(workspace->holder, workspace->holder_number);
}

/* Makes the thread's workspace anew, and so free; false where it can't be made. It stays where it is: a call that was interrupted
 * between two steps may know it. */
static bool renew(struct thread *thread, int i) {
    struct region *region = region_of(thread->workspaces[i]);
    clear(region);
    return make(region);
}

/* One of the thread that is free; NULL where there is none. */
static struct workspace *free_workspace(struct thread *thread, int i) {
    struct workspace *workspace = thread->workspaces[i];
    if (workspace && workspace->holder && (!was_left(workspace) || !renew(thread, i)))
        return NULL;
    if (!workspace)
        workspace = take_left();
    if (!workspace)
        workspace = make_workspace();
    if (!workspace)
        return NULL;
    thread->workspaces[i] = workspace;
    workspace->reading = &thread->reading[i];
    atomic_store(workspace->reading, NULL);
    workspace->is_closed = i > 0;
    return workspace;
}

/* All is done with blocked signals. They stay so where it isn't the thread's first. */
struct workspace *take_other_workspace(const struct call *call) {
    Mask mask = block_signals();
    struct workspace *workspace = NULL;
    for (int i = 0; i < NESTED && call->thread && !workspace; i++)
        workspace = free_workspace(call->thread, i);
    if (!workspace && (workspace = take_reserve()))
        workspace->is_closed = true;
    if (workspace) {
        hold_workspace(workspace, call);
        workspace->mask = mask;
    }
    if (!workspace || !workspace->is_closed)
        set_signals(mask);
    return workspace;
}

void give_other_back(struct workspace *workspace) {
    Mask mask = workspace->mask;
    if (workspace == &reserve.workspace)
        give(&reserve_thread);
    set_signals(mask);
}
