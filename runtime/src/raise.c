/* Level I of the Itanium C++ ABI for exception handling: raise, resume, forced unwinding, and backtraces. Frames are those of
 * frame.c; nothing here reads unwind information. Each call is made by its entry in entry_*.S, which saves the caller's
 * registers. */
#include <stdlib.h>

#include "trail.h"

/* These are called from assembly alone. */
HIDDEN _Unwind_Reason_Code raise_exception(struct _Unwind_Exception *exception, struct entry *entry);
HIDDEN void resume(struct _Unwind_Exception *exception, const struct entry *entry);
HIDDEN _Unwind_Reason_Code resume_or_rethrow(struct _Unwind_Exception *exception, struct entry *entry);
HIDDEN _Unwind_Reason_Code forced_unwind(struct _Unwind_Exception *exception, _Unwind_Stop_Fn stop, void *argument,
                                         const struct entry *entry);
HIDDEN _Unwind_Reason_Code backtrace(_Unwind_Trace_Fn trace, void *argument, const struct entry *entry);

/* What tells a frame from all others of the stack; GCC's unwinder computes the same. The stack pointer alone is that of a
 * signal's trampoline too. */
static uint64_t identity(const struct walk *walk) {
    return walk->frame.cfa - walk->frame.is_interrupted;
}

/* Debuggers stop here, and then where the second argument says, for their commands that go over a throw. */
HIDDEN void _Unwind_DebugHook(void *cfa, void *handler);

__attribute__((noinline, noclone)) void _Unwind_DebugHook(void *cfa, void *handler) {
    __asm__ volatile("" : : "r"(cfa), "r"(handler));
}

/* Enters the landing pad that a personality chose, so many calls above the entry. */
_Noreturn static void install(const struct walk *walk, const struct entry *entry, uint64_t calls) {
    static const uint8_t loaded[LOADED] = LOADED_REGISTERS;
    const struct _Unwind_Context *frame = &walk->frame;
    struct landing landing = {.pc = frame->pc, .shadow_stack = entry->shadow_stack + 8 * (calls + 1)};
    if (!may_land(walk))
        abort();
#pragma GCC unroll 32
    for (int i = 0; i < LOADED; i++)
        landing.registers[i] = frame->value[loaded[i]] + (loaded[i] == STACK_POINTER ? frame->args_size : 0);
    end_call(&walk->call);
    _Unwind_DebugHook((void *)frame->cfa, (void *)frame->pc);
    land(&landing);
}

/* Goes up to the frame that handles the exception. Signals may be blocked then. */
static inline _Unwind_Reason_Code look_for_handler(struct _Unwind_Exception *exception, struct walk *walk) {
    enum { BLOCKED = 32 /* frames at most, that signals wait for */ };
    for (uint64_t calls = 0;; calls++) {
        if (calls % BLOCKED == 0)
            let_signals(walk);
        enum found found = find_caller(walk);
        if (found != FOUND)
            return found == AT_END ? _URC_END_OF_STACK : _URC_FATAL_PHASE1_ERROR;
        if (walk->facts.has_personality) {
            struct asked asked;
            if (!find_asked(walk, &asked))
                return _URC_FATAL_PHASE1_ERROR;
            record_frame(walk, calls, &asked);
            let_signals(walk);
            _Unwind_Reason_Code code = ask(asked.personality, _UA_SEARCH_PHASE, exception, walk);
            if (code == _URC_HANDLER_FOUND)
                return code;
            if (code != _URC_CONTINUE_UNWIND)
                return _URC_FATAL_PHASE1_ERROR;
        }
        go_up(walk);
    }
}

/* Phase 1. Signals are blocked for steps whose rows are found, and from one to the next where nothing of the program's is called
 * between them: most of a first throw is such steps. */
static _Unwind_Reason_Code search(struct _Unwind_Exception *exception, struct walk *walk) {
    walk->keeps_blocked = true;
    _Unwind_Reason_Code code = look_for_handler(exception, walk);
    walk->keeps_blocked = false;
    let_signals(walk);
    return code;
}

/* Phase 2 asks a frame: whether a cleanup or the handler is to be entered there, or it goes on. */
static inline _Unwind_Reason_Code ask_in_phase_2(_Unwind_Personality_Fn personality, struct _Unwind_Exception *exception,
                                                 struct walk *walk) {
    bool is_handler = identity(walk) == exception->private_2;
    _Unwind_Action actions = _UA_CLEANUP_PHASE | (is_handler ? _UA_HANDLER_FRAME : 0);
    _Unwind_Reason_Code code = ask(personality, actions, exception, walk);
    if (code == _URC_INSTALL_CONTEXT)
        land_in_frame(walk, exception, is_handler);
    /* a handler's frame that has no handler now: the personality contradicts itself */
    else if (code != _URC_CONTINUE_UNWIND || is_handler)
        code = _URC_FATAL_PHASE2_ERROR;
    return code;
}

/* The same of a frame that isn't recorded. */
static _Unwind_Reason_Code find_and_ask(struct _Unwind_Exception *exception, struct walk *walk, bool is_resumed) {
    struct asked asked;
    if (find_caller(walk) != FOUND || !find_asked(walk, &asked))
        return _URC_FATAL_PHASE2_ERROR;
    if (is_resumed)
        remember_asked(walk, &asked);
    return ask_in_phase_2(asked.personality, exception, walk);
}

/* Phase 2: the cleanups up to the handler, whose frame private_2 tells, from a frame so many calls above the entry. Returns where one is
 * to be entered, or on an error. */
static _Unwind_Reason_Code clean_up(struct _Unwind_Exception *exception, struct walk *walk, uint64_t *calls) {
    walk->trail = NULL;
    for (;; ++*calls) {
        _Unwind_Reason_Code code = find_and_ask(exception, walk, false);
        if (code != _URC_CONTINUE_UNWIND)
            return code;
        go_up(walk);
    }
}

/* The same above a frame that has been asked at this pc, but wasn't stepped from. */
static __attribute__((noinline)) _Unwind_Reason_Code clean_up_above(struct _Unwind_Exception *exception, struct walk *walk,
                                                                    uint64_t pc, uint64_t *calls) {
    uint64_t registers[SAVED];
    for (int k = 0; k < SAVED; k++)
        registers[k] = walk->frame.value[saved[k]];
    go_to_frame(walk, registers, pc);
    if (find_caller(walk) != FOUND)
        return _URC_FATAL_PHASE2_ERROR;
    go_up(walk);
    ++*calls;
    return clean_up(exception, walk, calls);
}

/* Phase 2 over the frames of the trail, from its frame i on, and over those above them; counted from a frame that is so many calls above the
 * entry of phase 1. The walk is at a frame already, at this pc; or at none, if that is 0: then it goes on where there are no frames. */
static inline _Unwind_Reason_Code clean_up_by_trail(struct _Unwind_Exception *exception, struct walk *walk, uint64_t i,
                                                    uint64_t below, uint64_t pc, uint64_t *calls) {
    uint64_t above;
    for (_Unwind_Personality_Fn personality; go_by_trail(walk, i, &above, &personality); i++) {
        *calls = above - below;
        pc = walk->frame.pc;
        _Unwind_Reason_Code code = ask_in_phase_2(personality, exception, walk);
        if (code != _URC_CONTINUE_UNWIND)
            return code;
    }
    return pc ? clean_up_above(exception, walk, pc, calls) : _URC_CONTINUE_UNWIND;
}

/* Phase 2 after a cleanup, from the frame that has it. That is the first one that is asked. */
static inline _Unwind_Reason_Code clean_up_after(struct _Unwind_Exception *exception, struct walk *walk, const struct entry *entry,
                                                 uint64_t *calls) {
    uint64_t below = 0;
    _Unwind_Personality_Fn personality;
    _Unwind_Reason_Code code;
    if (find_trail(walk, exception, entry, &below, &personality)) {
        code = ask_in_phase_2(personality, exception, walk);
    } else {
        first_frame(walk, entry);
        code = find_and_ask(exception, walk, true);
    }
    if (code != _URC_CONTINUE_UNWIND)
        return code;
    if (walk->trail)
        return clean_up_by_trail(exception, walk, walk->at + 1, below, entry->pc, calls);
    go_up(walk);
    ++*calls;
    return clean_up(exception, walk, calls);
}

/* Phase 2 of forced unwinding: private_1 is the function that is asked at each frame whether to stop, private_2 its
 * argument. */
static _Unwind_Reason_Code clean_up_forced(struct _Unwind_Exception *exception, struct walk *walk,
                                           uint64_t *calls) {
    _Unwind_Stop_Fn stop = (_Unwind_Stop_Fn)exception->private_1;
    void *argument = (void *)exception->private_2;
    for (*calls = 0;; ++*calls) {
        enum found found = find_caller(walk);
        if (found == CORRUPT)
            return _URC_FATAL_PHASE2_ERROR;
        _Unwind_Action actions = _UA_FORCE_UNWIND | _UA_CLEANUP_PHASE | (found == AT_END ? _UA_END_OF_STACK : 0);
        if (stop(1, actions, exception->exception_class, exception, &walk->frame, argument) != _URC_NO_REASON)
            return _URC_FATAL_PHASE2_ERROR;
        if (found == AT_END)
            return _URC_END_OF_STACK;
        struct asked asked;
        if (!find_asked(walk, &asked))
            return _URC_FATAL_PHASE2_ERROR;
        _Unwind_Reason_Code code = ask(asked.personality, _UA_FORCE_UNWIND | _UA_CLEANUP_PHASE, exception, walk);
        if (code == _URC_INSTALL_CONTEXT)
            return code;
        if (code != _URC_CONTINUE_UNWIND)
            return _URC_FATAL_PHASE2_ERROR;
        go_up(walk);
    }
}

_Unwind_Reason_Code raise_exception(struct _Unwind_Exception *exception, struct entry *entry) {
    struct walk walk;
    uint64_t calls = 0;
    begin_walk(&walk, entry);
    _Unwind_Reason_Code code = search(exception, &walk);
    if (code == _URC_HANDLER_FOUND) {
        exception->private_1 = 0;
        exception->private_2 = identity(&walk);
        code = end_trail(&walk, exception) ? clean_up_by_trail(exception, &walk, 0, 0, 0, &calls) : _URC_CONTINUE_UNWIND;
        if (code == _URC_CONTINUE_UNWIND) {
            first_frame(&walk, entry);
            code = clean_up(exception, &walk, &calls);
        }
        if (code == _URC_INSTALL_CONTEXT)
            install(&walk, entry, calls);
    }
    end_call(&walk.call);
    return code;
}

/* After a cleanup: there is no way back. */
void resume(struct _Unwind_Exception *exception, const struct entry *entry) {
    struct walk walk;
    uint64_t calls = 0;
    open_walk(&walk);
    _Unwind_Reason_Code code;
    if (exception->private_1) {
        first_frame(&walk, entry);
        code = clean_up_forced(exception, &walk, &calls);
    } else {
        code = clean_up_after(exception, &walk, entry, &calls);
    }
    if (code != _URC_INSTALL_CONTEXT)
        abort();
    install(&walk, entry, calls);
}

_Unwind_Reason_Code resume_or_rethrow(struct _Unwind_Exception *exception, struct entry *entry) {
    if (!exception->private_1)
        return raise_exception(exception, entry);
    resume(exception, entry);
    return _URC_FATAL_PHASE2_ERROR; /* not reached */
}

_Unwind_Reason_Code forced_unwind(struct _Unwind_Exception *exception, _Unwind_Stop_Fn stop, void *argument,
                                  const struct entry *entry) {
    struct walk walk;
    uint64_t calls;
    begin_walk(&walk, entry);
    exception->private_1 = (uint64_t)stop;
    exception->private_2 = (uint64_t)argument;
    _Unwind_Reason_Code code = clean_up_forced(exception, &walk, &calls);
    if (code == _URC_INSTALL_CONTEXT)
        install(&walk, entry, calls);
    end_call(&walk.call);
    return code;
}

_Unwind_Reason_Code backtrace(_Unwind_Trace_Fn trace, void *argument, const struct entry *entry) {
    struct walk walk;
    begin_walk(&walk, entry);
    _Unwind_Reason_Code code = trace_frames(&walk, trace, argument);
    end_call(&walk.call);
    return code;
}

void _Unwind_DeleteException(struct _Unwind_Exception *exception) {
    if (exception->exception_cleanup)
        exception->exception_cleanup(_URC_FOREIGN_EXCEPTION_CAUGHT, exception);
}
