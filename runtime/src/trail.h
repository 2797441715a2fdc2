/* The trail of a throw: the frames that phase 1 asked for a handler, with their registers, so that phase 2 finds none of them anew.
 * It is in the memory that the thread has for its calls, and stays there while a cleanup runs: a call preserves the registers that
 * are recorded, so after the cleanup the frames above are as phase 1 found them.
 *
 * It is taken only where it is that of the last throw of this exception in the process, and the exception goes on from the frame
 * that it entered last: with the same stack pointer, at a place that a step was made from before. Else each frame is found anew.
 *
 * A handler of a signal may throw between any two of the instructions here, and a personality too. What they record has another
 * stamp. While a frame is read the workspace is held: then a handler's throw takes another one.
 *
 * For raise.c alone: here is what it does with each frame, so all of it is inlined. */
#ifndef TRAIL_H
#define TRAIL_H

#include "unwinder.h"

static const uint8_t saved[SAVED] = SAVED_REGISTERS;

static inline _Atomic(uint64_t) *last_throw_of(const struct _Unwind_Exception *exception) {
    return &last_throws[((uint64_t)exception >> 4) * 0x9e3779b97f4a7c15 >> 32 & (LAST_THROWS - 1)].stamp;
}

/* No other throw of the process has it. */
static inline uint64_t stamp_of(const struct call *call) {
    return call->thread ? call->thread->user << 40 ^ call->number : call->number;
}

static inline struct trail_frame *place_in(struct trail *trail, uint64_t i) {
    return i < FIRST_FRAMES ? &trail->first[i] : &trail->more[i - FIRST_FRAMES];
}

/* ---- phase 1 */

static inline void begin_trail(struct walk *walk) {
    walk->stamp = stamp_of(&walk->call);
    walk->trail = walk->own ? walk->own->trail : NULL;
    if (!walk->trail)
        return;
    walk->trail->exception = NULL;
    walk->trail->count = 0;
    atomic_signal_fence(memory_order_seq_cst);
    walk->trail->stamp = walk->stamp;
}

/* Whether phase 2 can be at the frame by what is recorded. */
static inline bool can_be_recorded(const struct walk *walk) {
    const struct _Unwind_Context *frame = &walk->frame;
    return walk->is_plain && walk->is_loaded && walk->own && !frame->is_interrupted && frame->cfa == frame->value[STACK_POINTER];
}

/* Records the frame, whose personality is asked then. */
static inline void record_frame(struct walk *walk, uint64_t calls, const struct asked *asked) {
    uint64_t i = walk->asked++;
    if (i == 0)
        begin_trail(walk);
    struct trail *trail = walk->trail;
    walk->is_whole = walk->is_whole && trail && trail->stamp == walk->stamp && i < FIRST_FRAMES + MORE_FRAMES &&
                     can_be_recorded(walk);
    if (!walk->is_whole)
        return;
    struct trail_frame *frame = place_in(trail, i);
#pragma GCC unroll 32
    for (int k = 0; k < SAVED; k++)
        frame->registers[k] = walk->frame.value[saved[k]];
    frame->pc = walk->frame.pc;
    frame->file = walk->file;
    frame->calls = calls;
    frame->asked = *asked;
    trail->count = i + 1;
}

/* Ends phase 1, which found the handler. Returns whether frames were recorded, from the first that was asked on. */
static inline bool end_trail(const struct walk *walk, struct _Unwind_Exception *exception) {
    struct trail *trail = walk->trail;
    bool is_there = trail && trail->stamp == walk->stamp && trail->count;
    if (is_there && walk->is_whole && walk->asked == 1)
        return true; /* there is no cleanup that it goes on from */
    atomic_store_explicit(last_throw_of(exception), stamp_of(&walk->call), memory_order_relaxed);
    if (is_there) {
        trail->handler = exception->private_2;
        atomic_signal_fence(memory_order_seq_cst);
        trail->exception = exception;
    }
    return is_there;
}

/* ---- phase 2 */

/* Has the context show a frame. */
static inline void show_frame(struct walk *walk, const uint64_t *registers, uint64_t pc, const struct asked *asked) {
    struct _Unwind_Context *frame = &walk->frame;
    frame->pc = pc;
    frame->is_interrupted = false;
    frame->flags = EXTENDED;
    if (!IS_AARCH64)
        frame->value[RETURN_ADDRESS] = pc;
#pragma GCC unroll 32
    for (int k = 0; k < SAVED; k++)
        frame->value[saved[k]] = registers[k];
    frame->cfa = registers[SAVED_STACK_POINTER];
    frame->function = asked->start;
    frame->lsda = asked->lsda;
    frame->args_size = asked->args_size;
    walk->facts.start = asked->start;
    walk->facts.end = asked->end;
    walk->is_loaded = true;
}

/* Goes to a frame of the trail, and says how many calls above the first entry it is, and its personality. False where there is
 * none, or another throw has the trail now; then the walk stays where it is. */
static inline bool go_by_trail(struct walk *walk, uint64_t i, uint64_t *calls, _Unwind_Personality_Fn *personality) {
    struct trail *trail = walk->trail;
    struct workspace *workspace = first_workspace(&walk->call);
    hold_workspace(workspace, &walk->call);
    bool is_there = trail->stamp == walk->stamp && i < trail->count;
    if (is_there) {
        const struct trail_frame *frame = place_in(trail, i);
        show_frame(walk, frame->registers, frame->pc, &frame->asked);
        *calls = frame->calls;
        *personality = frame->asked.personality;
        walk->at = i;
    }
    let_workspace_go(workspace);
    return is_there;
}

/* The trail of the exception, if the call's thread has it. */
static inline struct trail *trail_of(const struct call *call, const struct _Unwind_Exception *exception) {
    struct workspace *workspace = first_workspace(call);
    struct trail *trail = workspace && !workspace->holder ? workspace->trail : NULL;
    return trail && trail->exception == exception ? trail : NULL;
}

/* The frame is about to be entered; the exception may go on from there, unless it is the handler's. Where the walk didn't come there
 * by the trail, the exception has none any more. */
static inline void land_in_frame(const struct walk *walk, const struct _Unwind_Exception *exception, bool is_handler) {
    struct trail *trail = walk->trail;
    if (!trail)
        trail = trail_of(&walk->call, exception);
    if (!trail || (walk->trail && trail->stamp != walk->stamp))
        return;
    if (is_handler || !walk->trail)
        trail->exception = NULL;
    trail->landed = walk->at;
    trail->landed_pointer = walk->frame.value[STACK_POINTER] + walk->frame.args_size;
}

static inline struct remembered *place_of(const struct workspace *workspace, uint64_t pc) {
    return &workspace->remembered[(pc * 0x9e3779b97f4a7c15 >> 32) % REMEMBERED];
}

/* Remembers by what the frame of the walk is asked, for an exception that goes on from there. */
static inline void remember_asked(const struct walk *walk, const struct asked *asked) {
    struct workspace *workspace = walk->own;
    if (!asked->personality || !can_be_recorded(walk) || workspace->holder || walk->facts.lsda_is_indirect)
        return;
    hold_workspace(workspace, &walk->call);
    *place_of(workspace, walk->frame.pc) = (struct remembered){walk->file, walk->frame.pc, *asked};
    let_workspace_go(workspace);
}

/* Goes to the frame that the exception goes on from, if it is remembered, and says its personality. That is the one that phase 1 asked,
 * if it is found at the same place: what was there when this was remembered may have been another one. */
static inline bool go_to_remembered(struct walk *walk, const struct entry *entry, const struct trail_frame *last,
                                    struct workspace *workspace, _Unwind_Personality_Fn *personality) {
    const struct remembered *place = place_of(workspace, entry->pc);
    if (place->pc != entry->pc || place->file != last->file || place->asked.personality_at != last->asked.personality_at)
        return false;
    show_frame(walk, entry->registers, entry->pc, &place->asked);
    *personality = last->asked.personality;
    return true;
}

/* Finds the trail by which the exception goes on from the entry; walk->trail is NULL where there is none. calls: of the frame there as
 * phase 1 had it. Returns whether the walk is at it then. */
static inline bool find_trail(struct walk *walk, const struct _Unwind_Exception *exception, const struct entry *entry,
                              uint64_t *calls, _Unwind_Personality_Fn *personality) {
    struct trail *trail = trail_of(&walk->call, exception);
    if (!trail)
        return false;
    struct workspace *workspace = first_workspace(&walk->call);
    bool is_at_it = false;
    hold_workspace(workspace, &walk->call);
    if (trail->exception == exception && trail->handler == exception->private_2 && trail->landed < trail->count &&
        trail->landed_pointer == entry->registers[SAVED_STACK_POINTER] &&
        trail->stamp == atomic_load_explicit(last_throw_of(exception), memory_order_relaxed)) {
        const struct trail_frame *last = place_in(trail, trail->landed);
        walk->trail = trail;
        walk->stamp = trail->stamp;
        walk->at = trail->landed;
        *calls = last->calls;
        is_at_it = go_to_remembered(walk, entry, last, workspace, personality);
    }
    let_workspace_go(workspace);
    return is_at_it;
}

#endif
