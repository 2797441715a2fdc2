/* What the parts of the unwinder share. */
#ifndef UNWINDER_H
#define UNWINDER_H

#include <stdatomic.h>
#include <stdbool.h>
#include <stddef.h>
#include <stdint.h>
#include <unwind.h>

#include "cfi_c.h"
#include "machine.h"

#define HIDDEN __attribute__((visibility("hidden")))
#ifdef HIDE_EXPORTS
#define EXPORT HIDDEN
#else
#define EXPORT __attribute__((visibility("default")))
#endif

/* ---- threads (thread.c) */

enum {
    NESTED = 2,     /* a throw, and a handler of a signal that interrupts it */
    INNER_CALLS = 5 /* so many calls within a call are known: by handlers, and by what is called for each frame */
};

struct workspace;
struct section;
struct call;
struct place;

/* A call that may have been left: its stack then has other contents, some time. */
struct began {
    const struct call *call;
    uint64_t number;
};

/* A thread that threw. It is found by its pointer: a library that is loaded late may not get memory of each thread. */
struct thread {
    _Alignas(64) _Atomic(uint64_t) key; /* of the thread and of the process; 0: free */
    uint64_t calls;        /* how often it called an entry */
    struct workspace *workspaces[NESTED];
    struct place *place;   /* of its first workspace, which is its own during a call; NULL: there was none */
    uint64_t user;         /* its number there, which no other thread has, */
    uint64_t idle;         /* and what it wrote there last */
    struct began outermost; /* the call that took the place and is to give it back; or NULL */
    struct began inner[INNER_CALLS]; /* those that began in it, the last of which began last */
    uint64_t inner_calls;
    struct workspace *made;                   /* while its context or its cache is made: whose memory the library takes */
    _Atomic(struct section *) reading[NESTED]; /* what each workspace reads of what was registered */
    _Atomic(int) number;                       /* the kernel's, where nothing is called at the thread's end; else 0 */
};

/* A call of an entry, on its thread's stack. */
struct call {
    uint64_t number;       /* no other call of the thread has it */
    struct thread *thread; /* NULL where there is no memory for one */
};

/* Begins a call, and ends it: then other threads may have the workspace that it used. A call that isn't ended, since it is left,
 * leaves it to its thread. */
HIDDEN void begin_call(struct call *call);
HIDDEN void end_call(const struct call *call);

/* This thread, if it threw before; else NULL. */
HIDDEN struct thread *find_thread(void);

/* Calls visit for each thread of this process but this one. */
HIDDEN void visit_others(void (*visit)(struct thread *thread, void *argument), void *argument);

/* Signals that are blocked. */
typedef uint64_t Mask;

/* Blocks all, and returns those that were. */
HIDDEN Mask block_signals(void);
HIDDEN void set_signals(Mask mask);

/* Whether eight bytes at the address can be read. It asks the kernel, but under valgrind. */
HIDDEN bool is_readable(uint64_t address);

/* Whether valgrind runs the program, if that was asked; else 0. */
enum { UNKNOWN, NO, YES };
HIDDEN extern _Atomic(int) is_valgrind;
HIDDEN int ask_whether_valgrind(void);

static inline bool is_on_valgrind(void) {
    int is = atomic_load_explicit(&is_valgrind, memory_order_relaxed);
    return (is == UNKNOWN ? ask_whether_valgrind() : is) == YES;
}

/* Tells valgrind that what was done before the first, of a place, is done before what comes after the second. The numbers are those of
 * helgrind.h, which drd knows too. */
static inline void say_before(const void *place) {
    enum { HAPPENS_BEFORE = 0x48470121 };
    if (is_on_valgrind())
        ask_valgrind(HAPPENS_BEFORE, (uint64_t)place, 0);
}

static inline void say_after(const void *place) {
    enum { HAPPENS_AFTER = 0x48470122 };
    if (is_on_valgrind())
        ask_valgrind(HAPPENS_AFTER, (uint64_t)place, 0);
}

/* The size of the kernel's pages. */
HIDDEN uint64_t page_size(void);

/* Where the address's page begins. */
static inline uint64_t page_of(uint64_t address) {
    return address & -page_size();
}

/* ---- frames (frame.c) */

/* A frame, as a personality sees it. The first part lies as GCC's unwinder lays out its contexts since GCC 4.3: a process has a
 * second unwinder where a part of it was linked with -static-libgcc, and a personality may ask either of them about the
 * other's contexts. */
struct _Unwind_Context {
    uint64_t value[GCC_REGISTERS]; /* of a register, or its address where by_value is 0 */
    uint64_t cfa;                  /* the CFA of the frame that it called: mostly its stack pointer */
    uint64_t pc, lsda, text_base, data_base, function;
    uint64_t flags, version, args_size;
    uint8_t by_value[GCC_REGISTERS];
    bool is_interrupted; /* this unwinder's own: the pc is looked up as it is */
};

/* Bits of flags: a signal interrupted the frame, and by_value is there. */
#define INTERRUPTED ((uint64_t)1 << 63)
#define EXTENDED ((uint64_t)1 << 62)

/* What is looked for in a module's parts. */
enum asked_part { POINTER_PART, LSDA_PART, ASKED_PARTS };

/* The way from an entry up the stack: a frame, and its caller once that is found. A plain frame has the registers that an entry
 * saves and no others, beside the return address, so that the values in its context are all of it. */
struct walk {
    struct _Unwind_Context frame;
    CfiValue registers[REGISTERS]; /* the frame's; once its caller is found, the caller's */
    bool is_plain, is_caller_plain;
    bool is_loaded;    /* the last module that had a pc is a loaded one, that was found in this call */
    CfiRange module;   /* where it is; else empty */
    CfiRange parts[ASKED_PARTS]; /* of it that can be read and had what was asked last, or empty */
    uint64_t personality_at;     /* of it: the last that was found to be code, and it; or 0 */
    _Unwind_Personality_Fn personality;
    uint64_t file;     /* the number of its file */
    struct call call;
    struct workspace *own; /* the thread's first, once it was taken in this call, else NULL */
    uint64_t steps_back;   /* how many callers had no greater stack pointer than their frames, */
    uint64_t back_pc, back_pointer; /* and where one of them was */
    struct trail *trail; /* where phase 1 records the frames that it asks, and phase 2 finds them; NULL: nowhere */
    uint64_t stamp, at;  /* that of the throw, and which of them the frame is */
    uint64_t asked;      /* how many phase 1 asked, */
    bool is_whole;       /* and whether all are recorded */
    bool keeps_blocked;  /* signals stay blocked after a step for which they were, until they are let through: */
    bool is_blocked;     /* they are, */
    Mask mask;           /* and before these were */
    CfiFunction facts; /* what the FDE of the frame's pc says */
    CfiCaller caller;
};

enum found { FOUND, AT_END, CORRUPT };

/* Begins a walk, that is at no frame yet. */
HIDDEN void open_walk(struct walk *walk);

/* Begins a walk: makes the frame that called an entry. */
HIDDEN void begin_walk(struct walk *walk, const struct entry *entry);

/* Goes to a plain frame with this pc and these registers, which are those that an entry saves. */
HIDDEN void go_to_frame(struct walk *walk, const uint64_t *registers, uint64_t pc);

/* Goes back to the frame that called the entry. */
static inline void first_frame(struct walk *walk, const struct entry *entry) {
    go_to_frame(walk, entry->registers, entry->pc);
}

/* Finds the FDE's facts and the caller of the frame. AT_END where there is none: its code has no unwind information, or its pc
 * is 0. CORRUPT where the unwind information or the stack is. */
HIDDEN enum found find_caller(struct walk *walk);

/* Signals that a step left blocked. */
static inline void let_signals(struct walk *walk) {
    if (!walk->is_blocked)
        return;
    walk->is_blocked = false;
    set_signals(walk->mask);
}

/* Calls trace for the frame and those above it, up to the one that has no caller, unless trace stops before. */
HIDDEN _Unwind_Reason_Code trace_frames(struct walk *walk, _Unwind_Trace_Fn trace, void *argument);

/* Has the context of a frame that isn't plain show all registers. */
HIDDEN void show_all(struct walk *walk);

/* Goes on to the caller that was found.
 *
 * A call overwrites the return address's register, so a row without a rule for it doesn't give the frame itself once more. On
 * x86-64 it stands for the pc, which rows of procedure linkage tables read: their frames are interrupted ones. */
static inline __attribute__((always_inline)) void go_up(struct walk *walk) {
    static const uint8_t saved[SAVED] = SAVED_REGISTERS;
    struct _Unwind_Context *frame = &walk->frame;
    CfiValue *return_address = &walk->registers[RETURN_ADDRESS];
    bool is_interrupted = walk->caller.is_interrupted;
    uint64_t pc = walk->caller.pc;
    frame->pc = pc;
    frame->is_interrupted = is_interrupted;
    frame->flags = EXTENDED | (uint64_t)is_interrupted << 63;
    frame->cfa = walk->caller.cfa;
    return_address->known = is_interrupted;
    if (!IS_AARCH64)
        frame->value[RETURN_ADDRESS] = return_address->value = pc;
#pragma GCC unroll 32
    for (int i = 0; i < SAVED; i++)
        frame->value[saved[i]] = walk->registers[saved[i]].value;
    walk->is_plain = walk->is_caller_plain;
    if (!walk->is_plain)
        show_all(walk);
}

/* What the FDE of an address says, and the module with it: whether there is one. */
HIDDEN bool find_function(const struct call *call, uint64_t address, CfiModule *module, CfiFunction *function);

/* The step in a section that was registered (registered.c), by a workspace. */
HIDDEN enum found step_with(struct workspace *workspace, struct walk *walk, const CfiModule *module, uint64_t file);

/* The same by a row that is kept for walk->file. False where there is none; then nothing is changed. */
HIDDEN bool step_by_kept(struct workspace *workspace, struct walk *walk);

/* What the FDE of an address of the module says, whose file has this number, by a workspace. */
HIDDEN bool function_with(struct workspace *workspace, const CfiModule *module, uint64_t file, uint64_t address,
                          CfiFunction *function);

/* ---- where sections lie (module.c, registered.c) */

enum {
    ID = 20,  /* bytes of a build id that are compared: all of it, as linkers make them */
    PARTS = 4 /* as many segments as linkers make; others count as holes */
};

/* A loaded module, and what tells its file from another that is loaded at the same place later. */
struct loaded {
    CfiModule module;
    uint64_t map_start, map_end; /* as the loader says, and its record; 0 where it wasn't asked */
    const void *record;
    CfiRange parts[PARTS]; /* that can be read: segments, and those that follow on each other as one */
    uint8_t part_count;
    uint64_t unloads;  /* without a build id: how many modules the process had unloaded by then */
    uint8_t id[ID];    /* the build id */
    uint8_t id_length; /* 0: there is none, or none that tells files apart */
    uint16_t id_at;    /* where it lies in the first page */
};

/* The loaded module of an address. Takes no lock where the loader has _dl_find_object, and the module a build id. */
HIDDEN bool find_loaded(uint64_t address, struct loaded *loaded);

/* Whether the loaded module of the address is still that one, by its build id. Takes no lock; false where it can't tell. */
HIDDEN bool is_still(const struct loaded *loaded, uint64_t address);

/* Whether the address is in a part of the module that can be read, and in which. */
HIDDEN bool is_in_parts(const struct loaded *loaded, uint64_t address, CfiRange *found);

/* The module alone. */
HIDDEN bool find_module(uint64_t address, CfiModule *module);

/* Whether the address is in a segment of code of a loaded module, and whether so many bytes there are in one that can be read.
 * Both take the loader's lock. */
HIDDEN bool is_code(uint64_t address);
HIDDEN bool is_readable_code(uint64_t address, size_t length);

/* Whether the address is one of these. */
static inline bool is_in(CfiRange range, uint64_t address) {
    return address - range.start < range.end - range.start;
}

/* The caller of a frame by the sections that were registered at run time. */
HIDDEN enum found step_in_registered(struct walk *walk);

/* As find_function, in these sections. */
HIDDEN bool find_registered_function(const struct call *call, uint64_t address, CfiModule *module, CfiFunction *function);

/* In a forked child: the sections that other threads were about to change. */
HIDDEN void mend_sections(void);

/* A signal's trampoline that has no unwind information (trampoline.c): its caller is what was interrupted. */
HIDDEN bool step_from_trampoline(struct walk *walk);

/* ---- modules that a thread knows (known.c) */

enum { KNOWN_MODULES = 512, PLACES = 1024 };

/* A module that was found before, with the number of its file: never that of another file's rows. */
struct known_module {
    struct loaded loaded;
    uint64_t file;
    uint64_t call; /* in which it was last found to be the one that is loaded */
    bool stays;    /* it is never unloaded */
};

/* Empty where all else is 0. */
struct known_modules {
    uint64_t files; /* the last number that was taken: they are even */
    unsigned count;
    uint16_t last;             /* the index of one that was found, */
    uint16_t by_page[PLACES];  /* by a page of their code: its index and 1, or 0 */
    uint16_t by_start[PLACES]; /* by their first address, as far on as there is room */
    struct known_module *all;  /* KNOWN_MODULES */
};

/* The loaded module of an address. Each is compared once a call with what is loaded, but for those that stay. */
HIDDEN const struct known_module *find_known(struct known_modules *known, uint64_t call, uint64_t address);

/* Forgets all, but which numbers are taken. */
HIDDEN void forget_modules(struct known_modules *known);

/* Forgets in which call each was last found: each is compared again. */
HIDDEN void forget_calls(struct known_modules *known);

/* ---- what a step reads (windows.c) */

enum { WINDOWS = 4 };

/* Parts of memory that are known to be mapped: stacks. */
struct windows {
    CfiWindow list[WINDOWS];
    unsigned count, next;
};

/* What a frame may read: the windows, but nothing below its stack pointer in its own stack, which is the first of them. All 0:
 * nothing. */
struct view {
    CfiWindow list[WINDOWS];
    CfiMemory memory; /* they, and what the ABI says */
};

/* The windows, and what the ABI says. */
HIDDEN CfiMemory memory_of(const CfiWindow *windows, size_t count);

/* The view of a frame with this stack pointer. */
HIDDEN void view_from(const struct windows *known, uint64_t stack_pointer, struct view *view);

/* Has the view show what is known below the stack pointer too; false where it shows that already. */
HIDDEN bool view_below(const struct windows *known, struct view *view);

/* Whether all pages from start to end are mapped. */
HIDDEN bool is_mapped(uint64_t start, uint64_t end);

/* Makes the memory at the address and around it known, if it is mapped and was not known. */
HIDDEN bool add_window(struct windows *known, uint64_t address);

/* ---- frames that phase 1 asked (trail.h) */

/* By what the personality of a frame is asked, and where it may land. */
struct asked {
    _Unwind_Personality_Fn personality; /* NULL: nothing is to be asked */
    uint64_t personality_at;            /* where the FDE says that it is, and whether its address lies there */
    uint64_t start, end, lsda;          /* of the function */
    uint64_t args_size;                 /* what has been pushed at the pc */
};

/* The same of a pc in a file. */
struct remembered {
    uint64_t file, pc; /* 0: nothing */
    struct asked asked;
};

/* A plain frame of a loaded module, so many calls above the entry. */
struct trail_frame {
    uint64_t registers[SAVED];
    uint64_t pc, file, calls;
    struct asked asked;
};

enum {
    REMEMBERED = 64,
    FIRST_FRAMES = 16, /* of a trail: they lie with what each throw touches */
    MORE_FRAMES = 120 * 1024 / sizeof(struct trail_frame)
};

/* The frames that phase 1 of a throw asked, from the first on, for phase 2. A throw by a handler of a signal, or by a cleanup,
 * takes it from the one that it interrupts. */
struct trail {
    uint64_t stamp;                       /* of the throw, which no other has */
    struct _Unwind_Exception *exception;  /* what was thrown, where phase 2 goes on after a cleanup; else NULL */
    uint64_t handler;                     /* its frame, as private_2 tells it */
    uint64_t landed, landed_pointer;      /* the last frame that was entered, and its stack pointer then */
    uint64_t count;
    struct trail_frame *more;             /* those after the first ones */
    struct trail_frame first[FIRST_FRAMES];
};

enum { LAST_THROWS = 16 };

/* The last throws, by the addresses of what was thrown: others have the same place. One that lies in another thread's trail, since
 * its stack went on in this thread, isn't met there again by an exception that is made at the same address later. */
struct last_throw {
    _Alignas(64) _Atomic(uint64_t) stamp;
};
HIDDEN extern struct last_throw last_throws[LAST_THROWS];

/* ---- what a thread needs for a step (workspace.c) */

/* Memory, from the first byte that is free to its end. */
struct room {
    char *free, *end;
};

enum { ROOMS = 2, PERSONALITIES = 3 };

/* A part that can be read of the module with this file's number; empty where there is none. */
struct file_part {
    uint64_t file;
    CfiRange part;
};

struct workspace {
    CfiContext context;
    CfiCache cache; /* of rows; none where there was no memory for it */
    struct windows windows;
    struct view view; /* of the frame that was stepped from last */
    const struct call *holder; /* the call that uses it, and its number; NULL: it is free */
    uint64_t holder_number;
    bool is_closed;  /* signals are blocked while it is used, */
    Mask mask;       /* and before these were */
    _Atomic(struct section *) *reading;                   /* what it reads of what was registered */
    _Unwind_Personality_Fn personalities[PERSONALITIES]; /* the last that were found to be code, or NULL */
    struct file_part parts[ASKED_PARTS];                 /* the last that were asked for */
    struct room rooms[ROOMS];           /* memory for the library: the first that has enough of it */
    struct room stack;                  /* for calls that may take more of a stack than the thread has */
    unsigned first_rows;                /* once so many rows were looked for the cache is made larger; never if 0 */
    struct known_modules *modules;
    struct remembered *remembered;      /* by their pcs */
    struct trail *trail;
};

/* Makes the view of a frame with this stack pointer, and its stack known. */
HIDDEN void look_anew(struct workspace *workspace, uint64_t stack_pointer);

/* Calls on the workspace's stack, with signals blocked: no handler runs there. Under valgrind, on the stack that it is on. */
HIDDEN int32_t call_on_own_stack(struct workspace *workspace, int32_t (*call)(void *), void *argument);

/* The same where they are blocked. */
HIDDEN int32_t call_while_blocked(struct workspace *workspace, int32_t (*call)(void *), void *argument);

/* Makes the cache as large as it gets, without a row. */
HIDDEN void enlarge_cache(struct workspace *workspace);

/* Where the first isn't free, and where signals were blocked for the one that is given back. */
HIDDEN struct workspace *take_other_workspace(const struct call *call);
HIDDEN void give_other_back(struct workspace *workspace);

/* In a forked child: what other threads had. own is the thread that is there; or NULL. */
HIDDEN void mend_workspaces(const struct thread *own);

/* Waits until nobody reads the section by the reserve. */
HIDDEN void wait_for_reserve(const struct section *section);

/* What a thread that ended had, for others to come. */
HIDDEN void leave_workspaces(struct thread *thread);

/* Finds a workspace for a call. */
HIDDEN void take_turn(const struct call *call);

/* For the first of a thread, while it is free. */
static inline void hold_workspace(struct workspace *workspace, const struct call *call) {
    workspace->holder_number = call->number;
    workspace->holder = call;
    atomic_signal_fence(memory_order_seq_cst);
}

static inline void let_workspace_go(struct workspace *workspace) {
    atomic_signal_fence(memory_order_seq_cst);
    workspace->holder = NULL;
}

/* The first of the call's thread; NULL where there is none. */
static inline struct workspace *first_workspace(const struct call *call) {
    return call->thread ? call->thread->workspaces[0] : NULL;
}

/* Takes a workspace of the call's thread; NULL where there is none. Each is given back before a call of what isn't the
 * library's. */
static inline struct workspace *take_workspace(const struct call *call) {
    struct workspace *workspace = first_workspace(call);
    if (!workspace || workspace->holder)
        return take_other_workspace(call);
    hold_workspace(workspace, call);
    return workspace;
}

static inline void give_workspace(struct workspace *workspace) {
    let_workspace_go(workspace);
    if (workspace->is_closed)
        give_other_back(workspace);
}

/* ---- personalities (personality.c) */

/* Finds by what the frame is asked, and shows the LSDA. False where its facts lead to no function, or to no LSDA of its module. */
HIDDEN bool find_asked(struct walk *walk, struct asked *asked);

/* Asks what was found; goes on where nothing is to be asked. */
static inline _Unwind_Reason_Code ask(_Unwind_Personality_Fn personality, _Unwind_Action actions,
                                      struct _Unwind_Exception *exception, struct walk *walk) {
    if (!personality)
        return _URC_CONTINUE_UNWIND;
    return personality(1, actions, exception->exception_class, exception, &walk->frame);
}

/* Whether the pc that a personality set is code of the frame's own function, or of another of its module that has an LSDA. */
HIDDEN bool may_land(const struct walk *walk);

/* ---- assembly (entry_*.S) */

/* Loads the registers and jumps. */
HIDDEN _Noreturn void land(const struct landing *landing);

/* Calls on another stack, that ends at top. */
HIDDEN int32_t call_on_stack(int32_t (*call)(void *), void *argument, void *top);

#endif
