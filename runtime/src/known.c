/* The modules that a thread met, each with the number of its file, so that the rows of a file are kept as long as it is loaded.
 *
 * A library may be closed, and another be loaded in its place. So each module is found anew in each call that meets it, and
 * has another number than before unless it lies at the same addresses with the same build id. Within a call it isn't looked for
 * again: it has a frame on the stack. A number is never taken twice. The program and the C library stay. */
#include <stdlib.h>
#include <string.h>
#include <sys/auxv.h>

#include "unwinder.h"

enum { PAGE_BITS = 12, WAYS = 4 /* places of a page: others have the same */ };

static unsigned place_of(uint64_t number) {
    return (unsigned)((number >> PAGE_BITS) * 0x9e3779b97f4a7c15 >> 54) % PLACES;
}

void forget_modules(struct known_modules *known) {
    known->count = 0;
    known->last = 0;
    known->all[0].file = 0;
    memset(known->by_page, 0, sizeof known->by_page);
    memset(known->by_start, 0, sizeof known->by_start);
}

void forget_calls(struct known_modules *known) {
    for (unsigned i = 0; i < known->count; i++)
        known->all[i].call = 0;
}

static CfiRange range_of(const CfiModule *module) {
    return (CfiRange){module->start, module->end};
}

/* The program is never unloaded, nor is the C library, which this one is bound to. */
static bool stays(const CfiModule *module) {
    return is_in(range_of(module), getauxval(AT_PHDR)) || is_in(range_of(module), (uint64_t)abort);
}

static bool is_same(const struct loaded *one, const struct loaded *other) {
    const CfiModule *a = &one->module, *b = &other->module;
    return a->start == b->start && a->end == b->end && a->eh_frame == b->eh_frame && a->eh_frame_len == b->eh_frame_len &&
           a->header == b->header && a->header_len == b->header_len && one->id_length == other->id_length &&
           one->unloads == other->unloads && memcmp(one->id, other->id, sizeof one->id) == 0;
}

/* The module that begins there as it was known, or room for it, with no number. */
static struct known_module *at_start(struct known_modules *known, uint64_t start) {
    if (known->count == KNOWN_MODULES)
        forget_modules(known);
    unsigned place = place_of(start);
    for (; known->by_start[place]; place = (place + 1) % PLACES) {
        struct known_module *module = &known->all[known->by_start[place] - 1];
        if (module->loaded.module.start == start)
            return module;
    }
    struct known_module *module = &known->all[known->count++];
    known->by_start[place] = (uint16_t)known->count;
    module->file = 0;
    return module;
}

static struct known_module *look_for(struct known_modules *known, uint64_t call, uint64_t address) {
    struct loaded loaded;
    if (!find_loaded(address, &loaded))
        return NULL;
    struct known_module *module = at_start(known, loaded.module.start);
    if (!module->file || !is_same(&module->loaded, &loaded)) {
        module->loaded = loaded;
        module->file = known->files += 2;
        module->stays = stays(&loaded.module);
    }
    module->call = call;
    return module;
}

/* The index and 1 of a module of the page's places, or 0 where none has the address. */
static uint16_t by_page(const struct known_modules *known, unsigned place, uint64_t address) {
    for (unsigned way = 0; way < WAYS; way++) {
        uint16_t index = known->by_page[place + way];
        const CfiModule *module = &known->all[index - 1].loaded.module;
        if (index && is_in(range_of(module), address))
            return index;
    }
    return 0;
}

/* Puts the index in one of the page's places: where it is, where there is none, or in place of another. */
static void put_by_page(struct known_modules *known, unsigned place, uint16_t index) {
    unsigned way = 0;
    while (way < WAYS && known->by_page[place + way] && known->by_page[place + way] != index)
        way++;
    known->by_page[place + (way < WAYS ? way : index % WAYS)] = index;
}

const struct known_module *find_known(struct known_modules *known, uint64_t call, uint64_t address) {
    struct known_module *last = &known->all[known->last];
    if (last->file && (last->call == call || last->stays) && is_in(range_of(&last->loaded.module), address)) {
        last->call = call;
        return last;
    }
    unsigned place = place_of(address) & -(unsigned)WAYS;
    uint16_t index = by_page(known, place, address);
    struct known_module *module = index ? &known->all[index - 1] : NULL;
    if (module && (module->call == call || module->stays || is_still(&module->loaded, address))) {
        module->call = call;
        known->last = index - 1;
        return module;
    }
    module = look_for(known, call, address);
    if (module)
        put_by_page(known, place, (uint16_t)(module - known->all + 1));
    return module;
}
