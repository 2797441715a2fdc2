/* From a frame to its caller, by the library. Rules, rows, CIEs and FDEs are read by the library alone. */
#include <string.h>

#include "unwinder.h"

enum {
    NEAR = 1 << 16, /* so much less than a stack */
    BEFORE = 1024,  /* registers are saved within so many bytes below the CFA */
    TRIES = 64      /* how often a step may name memory that was not known to be mapped */
};

/* The registers that an entry saves, and those that neither it saves nor a call sets. */
static const uint8_t saved[SAVED] = SAVED_REGISTERS, others[OTHERS] = OTHER_REGISTERS;

/* ---- registers */

/* Zeros whole words. By memset they would be an instruction that is slow to start. */
static inline __attribute__((always_inline)) void clear_words(void *start, size_t size) {
    typedef uint64_t Pair __attribute__((vector_size(16), may_alias, aligned(8)));
    typedef uint64_t Word __attribute__((may_alias));
    size_t pairs = size / sizeof(Pair);
#pragma GCC unroll 32
    for (size_t i = 0; i < pairs; i++) {
        ((Pair *)start)[i] = (Pair){0};
        __asm__ volatile("");
    }
    if (size % sizeof(Pair))
        ((Word *)start)[2 * pairs] = 0;
}

/* Whether all registers are known that calls preserve. */
static inline bool has_saved(const CfiValue *registers) {
    bool has_all = true;
#pragma GCC unroll 32
    for (int i = 0; i < SAVED; i++)
        has_all &= registers[saved[i]].known;
    return has_all;
}

/* Whether another one is. */
static inline bool has_other(const CfiValue *registers) {
    bool has_one = false;
#pragma GCC unroll 64
    for (int i = 0; i < OTHERS; i++)
        has_one |= registers[others[i]].known;
    return has_one;
}

/* The registers of a plain frame, as its context has them. */
static void make_plain(const struct walk *walk, CfiValue *registers) {
    const struct _Unwind_Context *frame = &walk->frame;
    memset(registers, 0, REGISTERS * sizeof *registers);
    for (int i = 0; i < SAVED; i++)
        registers[saved[i]] = (CfiValue){frame->value[saved[i]], true};
    registers[RETURN_ADDRESS] = (CfiValue){frame->value[RETURN_ADDRESS], frame->is_interrupted};
}

void show_all(struct walk *walk) {
    for (int k = 0; k < REGISTERS; k++)
        walk->frame.value[k] = walk->registers[k].value;
}

void open_walk(struct walk *walk) {
    struct _Unwind_Context *frame = &walk->frame;
    clear_words(frame, sizeof *frame);
    memset(frame->by_value, true, REGISTERS);
    begin_call(&walk->call);
    walk->is_loaded = false;
    walk->module = (CfiRange){0};
    memset(walk->parts, 0, sizeof walk->parts);
    walk->own = NULL;
    walk->personality_at = 0;
    walk->trail = NULL;
    walk->asked = 0;
    walk->is_whole = true;
    walk->keeps_blocked = false;
    walk->is_blocked = false;
}

void begin_walk(struct walk *walk, const struct entry *entry) {
    open_walk(walk);
    first_frame(walk, entry);
}

void go_to_frame(struct walk *walk, const uint64_t *registers, uint64_t pc) {
    clear_words(walk->registers, sizeof walk->registers);
#pragma GCC unroll 32
    for (int i = 0; i < SAVED; i++)
        walk->registers[saved[i]] = (CfiValue){registers[i], true};
    walk->caller = (CfiCaller){.pc = pc, .cfa = walk->registers[STACK_POINTER].value};
    walk->is_caller_plain = true;
    walk->steps_back = 0;
    go_up(walk);
}

/* ---- a step in a module */

/* Has the view of a frame with this stack pointer begin there. Mostly it is on the stack of the frame before. */
static inline void look_from(struct workspace *workspace, uint64_t stack_pointer) {
    CfiWindow *first = &workspace->view.list[0];
    uint64_t lowest = stack_pointer - BELOW, above = lowest - first->base;
    if (above < first->len) {
        *first = (CfiWindow){.base = lowest, .bytes = (const uint8_t *)lowest, .len = first->len - above};
        return;
    }
    look_anew(workspace, stack_pointer);
}

/* The step by a row that is kept, over the registers of a plain frame. False where there is none, and where a register that calls
 * preserve is lost, since the library takes one whose memory it can't read for unknown. */
static inline __attribute__((always_inline)) bool step_kept(struct workspace *workspace, struct walk *walk) {
    const struct _Unwind_Context *frame = &walk->frame;
    CfiEnd end;
    if (!walk->is_plain)
        return false;
    look_from(workspace, frame->value[STACK_POINTER]);
    if (!cfi_step_held(&workspace->cache, walk->file, &workspace->view.memory, frame->pc, frame->is_interrupted, walk->registers,
                       REGISTERS, &walk->facts, &walk->caller, &end))
        return false;
    walk->is_caller_plain = !has_other(walk->registers);
    return (end.kind == CFI_END_NONE || end.kind == CFI_END_OUTERMOST) && has_saved(walk->registers);
}

bool step_by_kept(struct workspace *workspace, struct walk *walk) {
    return step_kept(workspace, walk);
}

/* Whether the caller has lost a register that calls preserve. */
static bool lost_register(const struct walk *walk, const CfiValue *registers) {
    bool lost = false;
    for (int i = 0; i < SAVED; i++)
        lost |= registers[saved[i]].known && !walk->registers[saved[i]].known;
    return lost;
}

/* The memory that a step which ended so would have read too; 0 where there is none. */
static uint64_t missed_by(const struct walk *walk, const CfiValue *registers, const CfiEnd *end) {
    if (end->kind == CFI_END_UNREADABLE_MEMORY)
        return end->refused;
    return end->kind == CFI_END_NONE && lost_register(walk, registers) ? walk->caller.cfa - BEFORE : 0;
}

/* The address by which the frame's module is found: a return address may be behind the last instruction of the module. */
static inline uint64_t address_of(const struct _Unwind_Context *frame) {
    return frame->pc - !frame->is_interrupted;
}

/* What the frame's row says of stack pointers. */
struct pointers {
    bool is_cfa_counted; /* the CFA is counted from the frame's: it lies on the frame's own stack, above its pointer */
    bool is_up_counted;  /* the caller's is counted from the CFA */
};

/* On a stack of the workspace. */
static struct pointers pointers_of(struct workspace *workspace, const struct walk *walk, const CfiModule *module) {
    CfiRow row;
    CfiRule rules[STACK_POINTER + 1];
    if (cfi_row_by_table(&workspace->context, module->eh_frame, module->eh_frame_len, module->header, module->header_len,
                         &module->bases, address_of(&walk->frame), &row, rules, STACK_POINTER + 1) != CFI_Ok)
        return (struct pointers){0};
    return (struct pointers){row.cfa_kind == 0 && row.cfa_register == STACK_POINTER,
                             rules[STACK_POINTER].kind == CFI_VAL_OFFSET};
}

/* Has the view have more of what the step missed; false where it can't: memory that was not known, or what lies below the frame's
 * stack pointer, as another stack may. */
static bool look_further(struct workspace *workspace, const struct walk *walk, const CfiModule *module, uint64_t missed) {
    if (add_window(&workspace->windows, missed)) {
        view_from(&workspace->windows, walk->frame.value[STACK_POINTER], &workspace->view);
        return true;
    }
    return !pointers_of(workspace, walk, module).is_cfa_counted && view_below(&workspace->windows, &workspace->view);
}

static enum found found_by(const CfiEnd *end) {
    switch (end->kind) {
    case CFI_END_NONE:
    case CFI_END_OUTERMOST:
        return FOUND;
    case CFI_END_NO_ROW:
        return end->status == CFI_NoUnwindInfoForAddress ? AT_END : CORRUPT;
    default:
        return CORRUPT;
    }
}

/* ---- what finds a row: on a stack of the workspace, since the library may take more than a thread has */

struct step {
    struct workspace *workspace;
    struct walk *walk;
    const CfiModule *module;
    uint64_t file;
};

/* If the step names memory that was not known, that is looked for, and it steps again. */
static int32_t step_anyhow(void *argument) {
    const struct step *step = argument;
    struct workspace *workspace = step->workspace;
    struct walk *walk = step->walk;
    const struct _Unwind_Context *frame = &walk->frame;
    CfiValue registers[REGISTERS];
    CfiEnd end;
    if (walk->is_plain)
        make_plain(walk, registers);
    else
        memcpy(registers, walk->registers, sizeof registers);
    look_from(workspace, frame->value[STACK_POINTER]);
    for (int tries = 0; tries <= TRIES; tries++) {
        cfi_step_cached(&workspace->context, &workspace->cache, step->file, step->module, &workspace->view.memory, frame->pc,
                        frame->is_interrupted, registers, REGISTERS, walk->registers, REGISTERS, &walk->facts, &walk->caller,
                        &end);
        uint64_t missed = missed_by(walk, registers, &end);
        if (!missed || !look_further(workspace, walk, step->module, missed))
            break;
    }
    walk->is_caller_plain = has_saved(walk->registers) && !has_other(walk->registers);
    return (int32_t)found_by(&end);
}

enum found step_with(struct workspace *workspace, struct walk *walk, const CfiModule *module, uint64_t file) {
    struct step step = {workspace, walk, module, file};
    if (workspace->first_rows && !--workspace->first_rows)
        enlarge_cache(workspace);
    if (!walk->keeps_blocked || workspace != walk->own)
        return (enum found)call_on_own_stack(workspace, step_anyhow, &step);
    if (!walk->is_blocked) {
        walk->mask = block_signals();
        walk->is_blocked = true;
    }
    return (enum found)call_while_blocked(workspace, step_anyhow, &step);
}

struct search {
    struct workspace *workspace;
    const CfiModule *module;
    uint64_t file, address;
    CfiFunction *function;
};

/* Whatever becomes of the step, the FDE's facts are written. */
static int32_t find_facts(void *argument) {
    const struct search *search = argument;
    struct workspace *workspace = search->workspace;
    CfiValue none;
    CfiWindow nothing = {0};
    CfiMemory memory = memory_of(&nothing, 0);
    CfiCaller caller;
    CfiEnd end;
    cfi_step_cached(&workspace->context, &workspace->cache, search->file, search->module, &memory, search->address, true, &none,
                    0, &none, 0, search->function, &caller, &end);
    return search->function->is_known;
}

bool function_with(struct workspace *workspace, const CfiModule *module, uint64_t file, uint64_t address,
                   CfiFunction *function) {
    struct search search = {workspace, module, file, address, function};
    return call_on_own_stack(workspace, find_facts, &search) != 0;
}

bool find_function(const struct call *call, uint64_t address, CfiModule *module, CfiFunction *function) {
    struct workspace *workspace = take_workspace(call);
    if (!workspace)
        return false;
    const struct known_module *known = find_known(workspace->modules, call->number, address);
    bool is_known = false;
    if (known) {
        *module = known->loaded.module;
        is_known = function_with(workspace, module, known->file, address, function);
    }
    give_workspace(workspace);
    return known ? is_known : find_registered_function(call, address, module, function);
}

/* ---- the caller */

/* Finds the loaded module of the frame. */
static const struct known_module *find_module_of(struct workspace *workspace, struct walk *walk) {
    const struct known_module *known = NULL;
    if (walk->frame.pc)
        known = find_known(workspace->modules, walk->call.number, address_of(&walk->frame));
    walk->is_loaded = known;
    walk->module = known ? (CfiRange){known->loaded.module.start, known->loaded.module.end} : (CfiRange){0};
    walk->personality_at = 0;
    memset(walk->parts, 0, sizeof walk->parts);
    walk->file = known ? known->file : 0;
    return known;
}

/* The step of a frame whose row isn't kept, or that isn't plain, or that is of no loaded module, with a workspace that is given
 * back. */
static __attribute__((noinline)) enum found step_anew(struct workspace *workspace, struct walk *walk) {
    const struct known_module *known = find_module_of(workspace, walk);
    enum found found = AT_END;
    if (known)
        found = step_with(workspace, walk, &known->loaded.module, known->file);
    give_workspace(workspace);
    if (!known) {
        walk->facts = (CfiFunction){0};
        if (walk->frame.pc)
            found = step_in_registered(walk);
    }
    if (found == AT_END && walk->frame.pc && step_from_trampoline(walk))
        found = FOUND;
    return found;
}

struct pointers_step {
    struct workspace *workspace;
    const struct walk *walk;
    struct pointers pointers;
};

static int32_t look_for_pointers(void *argument) {
    struct pointers_step *step = argument;
    const struct known_module *known =
        find_known(step->workspace->modules, step->walk->call.number, address_of(&step->walk->frame));
    if (known)
        step->pointers = pointers_of(step->workspace, step->walk, &known->loaded.module);
    return 0;
}

/* The same, without a workspace. Nothing is said of a frame of code that was registered. */
static struct pointers find_pointers(const struct walk *walk) {
    struct pointers_step step = {.workspace = take_workspace(&walk->call), .walk = walk};
    if (step.workspace) {
        call_on_own_stack(step.workspace, look_for_pointers, &step);
        give_workspace(step.workspace);
    }
    return step.pointers;
}

/* Whether the number of eight bytes at the address can be read, and is that one. */
static bool is_at(uint64_t address, uint64_t number) {
    return address % sizeof number == 0 && is_readable(address) && *(const uint64_t *)address == number;
}

/* Whether a caller may have a stack pointer that isn't the CFA: its frame's row says what it is. It is counted from the CFA, or
 * comes from another stack; there, on x86-64, the return address lies below it. */
static __attribute__((noinline)) bool may_have(const struct walk *walk, uint64_t up) {
    return IS_AARCH64 || !walk->is_loaded || find_pointers(walk).is_up_counted || is_at(up - sizeof up, walk->caller.pc);
}

/* Whether callers go round in a circle. Each circle has a step that doesn't lead up; one of these is remembered, a later one
 * each time that there are twice as many. */
static bool is_met_again(struct walk *walk, uint64_t up) {
    if (walk->steps_back && walk->caller.pc == walk->back_pc && up == walk->back_pointer)
        return true;
    if ((walk->steps_back & (walk->steps_back + 1)) == 0) {
        walk->back_pc = walk->caller.pc;
        walk->back_pointer = up;
    }
    walk->steps_back++;
    return false;
}

/* Whether a caller may have a stack pointer that isn't above the frame's: on another stack, or where nothing was pushed, or by
 * a rule of its own. */
static __attribute__((noinline)) bool may_lead_back(struct walk *walk, uint64_t up) {
    uint64_t own = walk->frame.value[STACK_POINTER];
    if (own == up ? walk->caller.pc == walk->frame.pc : up == walk->caller.cfa && find_pointers(walk).is_cfa_counted)
        return false;
    return !is_met_again(walk, up);
}

/* Whether the caller has a stack pointer that no caller can have. On one stack it is above the frame's own and what the frame has
 * pushed, unless a signal interrupted the caller. */
static inline bool is_out_of_order(struct walk *walk) {
    uint64_t own = walk->frame.value[STACK_POINTER], up = walk->registers[STACK_POINTER].value;
    uint64_t pushed = walk->caller.args_size;
    if (up == walk->caller.cfa && up > own && pushed == 0) /* most */
        return false;
    if (walk->facts.is_signal_trampoline)
        return false;
    if (up != walk->caller.cfa && !may_have(walk, up))
        return true;
    if (up <= own)
        return !may_lead_back(walk, up);
    return up - own < NEAR && (pushed % sizeof pushed != 0 || pushed >= up - own);
}

/* The step of a frame that is in another module than the one before, or whose call has no workspace yet. */
static __attribute__((noinline)) enum found step_elsewhere(struct walk *walk) {
    struct workspace *workspace = take_workspace(&walk->call);
    if (!workspace)
        return CORRUPT;
    walk->own = workspace == first_workspace(&walk->call) ? workspace : NULL;
    if (!find_module_of(workspace, walk) || !step_kept(workspace, walk))
        return step_anew(workspace, walk);
    give_workspace(workspace);
    return FOUND;
}

/* The last module is not looked for again in a call: it has a frame on the stack. */
static inline __attribute__((always_inline)) enum found step_up(struct walk *walk) {
    struct workspace *workspace = walk->own;
    if (!is_in(walk->module, address_of(&walk->frame)) || !workspace || workspace->holder)
        return step_elsewhere(walk);
    hold_workspace(workspace, &walk->call);
    if (!step_kept(workspace, walk))
        return step_anew(workspace, walk);
    let_workspace_go(workspace);
    return FOUND;
}

static inline __attribute__((always_inline)) enum found look_for_caller(struct walk *walk) {
    struct _Unwind_Context *frame = &walk->frame;
    enum found found = step_up(walk);
    if (found == FOUND && is_out_of_order(walk))
        found = CORRUPT;
    if (found != FOUND)
        walk->caller = (CfiCaller){0};
    frame->function = walk->facts.start;
    frame->lsda = walk->facts.lsda_is_indirect ? 0 : walk->facts.lsda;
    frame->args_size = walk->caller.args_size;
    return found;
}

enum found find_caller(struct walk *walk) {
    return look_for_caller(walk);
}

/* ---- backtraces: so little is done with a frame that a call for each would take a good part of it */

/* The last call of trace is for the frame that has no caller. */
_Unwind_Reason_Code trace_frames(struct walk *walk, _Unwind_Trace_Fn trace, void *argument) {
    for (;;) {
        enum found found = look_for_caller(walk);
        if (found == CORRUPT || trace(&walk->frame, argument) != _URC_NO_REASON)
            return _URC_FATAL_PHASE1_ERROR;
        if (found == AT_END)
            return _URC_END_OF_STACK;
        go_up(walk);
    }
}
