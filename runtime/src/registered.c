/* Sections that a compiler at run time registers for the code that it makes, and the crtbegin.o of some static programs for their
 * own. They have no header, so the library scans them.
 *
 * No lock is taken. Each section has a place in a list that only grows, and its state says what stands there. A thread writes
 * which section it reads, and looks at its state again, before it reads it. Who takes a section out writes its state, and then
 * waits for the threads that read this one: no other begins to. */
#include <sched.h>
#include <stdlib.h>
#include <string.h>

#include "unwinder.h"

/* States: nothing stands there, or it is being written or taken out. Else the number of the section: another for each
 * registration, and for each section of a table; they are odd, and those of files of loaded modules even. */
enum { EMPTY = 0, CHANGING = 2 };

struct section {
    _Atomic(uint64_t) state;
    _Atomic(const void *) begin; /* what was registered: the section, or a table of sections */
    _Atomic(uint64_t) registration;
    uint64_t changer; /* the thread that changes it */
    void *object;
    CfiModule module;
    struct section *next;
};

static _Atomic(struct section *) sections;
static _Atomic(uint64_t) numbers = 1, registrations = 1;

static bool is_number(uint64_t state) {
    return state % 2;
}

/* A section in memory. */
struct bytes {
    const uint8_t *start;
    size_t length;
};

/* The section that begins there, or before: a CIE of one of its FDEs may lie before, as the crtbegin.o of a static program
 * registers .eh_frame from its own part on, and linkers leave one of equal CIEs. Entries begin with their lengths, and then an
 * FDE has how far back its CIE is, and a CIE 0. An entry of length 0 ends the section. */
static struct bytes section_at(const uint8_t *begin) {
    const uint8_t *at = begin, *first = begin;
    for (;;) {
        uint32_t length, distance;
        uint64_t extended = 0;
        memcpy(&length, at, sizeof length);
        at += sizeof length;
        if (length == 0)
            return (struct bytes){first, (size_t)(at - first)};
        if (length == UINT32_MAX) { /* the 64-bit format */
            memcpy(&extended, at, sizeof extended);
            at += sizeof extended;
        }
        memcpy(&distance, at, sizeof distance);
        if (distance && distance <= (uint64_t)at && at - distance < first)
            first = at - distance;
        at += length == UINT32_MAX ? extended : length;
    }
}

/* The first section from there on; NULL where there is none. */
static struct section *from(struct section *each) {
    while (each && !is_number(atomic_load(&each->state)))
        each = each->next;
    return each;
}

/* A place that nothing stands at. */
static struct section *take_place(void) {
    for (struct section *each = atomic_load(&sections); each; each = each->next) {
        uint64_t empty = EMPTY;
        if (atomic_compare_exchange_strong(&each->state, &empty, CHANGING))
            return each;
    }
    struct section *added = calloc(1, sizeof *added);
    if (!added)
        return NULL;
    atomic_store(&added->state, CHANGING);
    added->changer = thread_pointer();
    added->next = atomic_load(&sections);
    while (!atomic_compare_exchange_weak(&sections, &added->next, added))
        ;
    return added;
}

static void add(uint64_t registration, const void *begin, const uint8_t *section, void *object, uint64_t text, uint64_t data) {
    CfiModule module;
    /* a module that has a header is found by that */
    if (find_module((uint64_t)section, &module))
        return;
    struct section *added = take_place();
    if (!added)
        return;
    added->changer = thread_pointer();
    atomic_store(&added->begin, begin);
    atomic_store(&added->registration, registration);
    added->object = object;
    struct bytes bytes = section_at(section);
    added->module =
        (CfiModule){.end = UINT64_MAX, .eh_frame = bytes.start, .eh_frame_len = bytes.length, .header = bytes.start};
    added->module.bases = (CfiBases){
        .section = (uint64_t)bytes.start, .text = text, .data_base = data, .aarch64 = IS_AARCH64, .address_size = 8};
    atomic_store(&added->state, atomic_fetch_add(&numbers, 2));
}

/* A step takes microseconds, unless its thread lost the processor. */
static void wait_for_reader(struct thread *thread, void *section) {
    enum { SPINS = 4000 };
    for (int i = 0; i < NESTED; i++)
        for (int spins = 0; atomic_load(&thread->reading[i]) == section; spins++)
            if (spins < SPINS)
                pause_processor();
            else
                sched_yield();
}

/* The last registration of it; 0 where there is none. */
static uint64_t registration_of(const void *begin) {
    uint64_t last = 0;
    for (struct section *each = from(atomic_load(&sections)); each; each = from(each->next)) {
        uint64_t registration = atomic_load(&each->registration);
        if (atomic_load(&each->begin) == begin && registration > last)
            last = registration;
    }
    return last;
}

/* Takes the sections of a registration out; returns what was passed with it. */
static void *take_out(const void *begin) {
    void *object = NULL;
    uint64_t registration = registration_of(begin);
    for (struct section *each = atomic_load(&sections); each && registration; each = each->next) {
        uint64_t state = atomic_load(&each->state);
        if (!is_number(state) || atomic_load(&each->registration) != registration ||
            !atomic_compare_exchange_strong(&each->state, &state, CHANGING))
            continue;
        each->changer = thread_pointer();
        visit_others(wait_for_reader, each);
        wait_for_reserve(each);
        say_after(each);
        object = each->object;
        atomic_store(&each->state, EMPTY);
    }
    return object;
}

void mend_sections(void) {
    for (struct section *each = atomic_load(&sections); each; each = each->next)
        if (atomic_load(&each->state) == CHANGING && each->changer != thread_pointer())
            atomic_store(&each->state, EMPTY);
}

/* The number of the section that is read from now on, until stop_reading; 0 where none stands there. */
static uint64_t start_reading(struct workspace *workspace, struct section *section) {
    uint64_t state = atomic_load(&section->state);
    atomic_store(workspace->reading, section);
    return is_number(state) && atomic_load(&section->state) == state ? state : 0;
}

static void stop_reading(struct workspace *workspace, const struct section *section) {
    say_before(section);
    atomic_store_explicit(workspace->reading, NULL, memory_order_release);
}

static bool function_in(struct workspace *workspace, struct section *section, uint64_t address, CfiModule *module,
                        CfiFunction *function) {
    uint64_t file = start_reading(workspace, section);
    bool is_found = false;
    if (file) {
        *module = section->module;
        is_found = function_with(workspace, module, file, address, function);
    }
    stop_reading(workspace, section);
    return is_found;
}

bool find_registered_function(const struct call *call, uint64_t address, CfiModule *module, CfiFunction *function) {
    bool is_found = false;
    for (struct section *each = from(atomic_load(&sections)); each && !is_found; each = from(each->next)) {
        struct workspace *workspace = take_workspace(call);
        if (!workspace)
            return false;
        is_found = function_in(workspace, each, address, module, function);
        give_workspace(workspace);
    }
    return is_found;
}

/* The step in one section: by a row of it that is kept, or by any. */
static enum found step_in(struct workspace *workspace, struct walk *walk, struct section *section, bool is_kept) {
    enum found found = AT_END;
    walk->file = start_reading(workspace, section);
    if (walk->file && is_kept)
        found = step_by_kept(workspace, walk) ? FOUND : AT_END;
    else if (walk->file)
        found = step_with(workspace, walk, &section->module, walk->file);
    stop_reading(workspace, section);
    return found;
}

static enum found step_in_any(struct walk *walk, bool is_kept) {
    enum found found = AT_END;
    for (struct section *each = from(atomic_load(&sections)); each && found == AT_END; each = from(each->next)) {
        struct workspace *workspace = take_workspace(&walk->call);
        if (!workspace)
            return CORRUPT;
        found = step_in(workspace, walk, each, is_kept);
        give_workspace(workspace);
    }
    return found;
}

enum found step_in_registered(struct walk *walk) {
    enum found found = step_in_any(walk, true);
    return found == AT_END ? step_in_any(walk, false) : found;
}

/* ---- the calls, by the names of libgcc_s */

EXPORT void __register_frame_info_bases(const void *begin, void *object, void *text, void *data);
EXPORT void __register_frame_info(const void *begin, void *object);
EXPORT void __register_frame(void *begin);
EXPORT void __register_frame_info_table_bases(void *begin, void *object, void *text, void *data);
EXPORT void __register_frame_info_table(void *begin, void *object);
EXPORT void __register_frame_table(void *begin);
EXPORT void *__deregister_frame_info_bases(const void *begin);
EXPORT void *__deregister_frame_info(const void *begin);
EXPORT void __deregister_frame(void *begin);

static bool is_empty(const void *section) {
    return *(const uint32_t *)section == 0;
}

void __register_frame_info_bases(const void *begin, void *object, void *text, void *data) {
    if (!is_empty(begin))
        add(atomic_fetch_add(&registrations, 1), begin, begin, object, (uint64_t)text, (uint64_t)data);
}

void __register_frame_info(const void *begin, void *object) {
    __register_frame_info_bases(begin, object, NULL, NULL);
}

void __register_frame(void *begin) {
    __register_frame_info_bases(begin, NULL, NULL, NULL);
}

/* begin is an array of sections that ends with a null pointer. */
void __register_frame_info_table_bases(void *begin, void *object, void *text, void *data) {
    uint64_t registration = atomic_fetch_add(&registrations, 1);
    for (const uint8_t *const *each = begin; *each; each++)
        add(registration, begin, *each, object, (uint64_t)text, (uint64_t)data);
}

void __register_frame_info_table(void *begin, void *object) {
    __register_frame_info_table_bases(begin, object, NULL, NULL);
}

void __register_frame_table(void *begin) {
    __register_frame_info_table_bases(begin, NULL, NULL, NULL);
}

void *__deregister_frame_info_bases(const void *begin) {
    return is_empty(begin) ? NULL : take_out(begin);
}

void *__deregister_frame_info(const void *begin) {
    return __deregister_frame_info_bases(begin);
}

void __deregister_frame(void *begin) {
    __deregister_frame_info_bases(begin);
}
