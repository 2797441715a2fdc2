/* Personalities, and the landing pads that they choose. Both come out of unwind information that may be damaged, so neither is
 * jumped to before it is known to be code. */
#include <string.h>

#include "unwinder.h"

/* Finds the part of the frame's module that has the address, by a workspace. The number of the frame's file is that of the
 * thread's first workspace, if the module was found there. */
static bool find_part_with(struct workspace *workspace, struct walk *walk, enum asked_part asked, uint64_t address) {
    struct file_part *last = &workspace->parts[asked];
    CfiRange *part = &walk->parts[asked];
    if (workspace == walk->own && last->file == walk->file && is_in(last->part, address)) {
        *part = last->part;
        return true;
    }
    const struct known_module *known = find_known(workspace->modules, walk->call.number, walk->module.start);
    if (!known || !is_in_parts(&known->loaded, address, part))
        return false;
    *last = (struct file_part){known->file, *part};
    return true;
}

static bool find_part(struct walk *walk, enum asked_part asked, uint64_t address) {
    struct workspace *workspace = take_workspace(&walk->call);
    bool is_found = workspace && find_part_with(workspace, walk, asked, address);
    if (workspace)
        give_workspace(workspace);
    return is_found;
}

/* Whether a word, or a byte, is there: in a segment of the module, if the frame's code is loaded. */
static inline bool has_bytes(struct walk *walk, enum asked_part asked, uint64_t address, uint64_t length) {
    const CfiRange *part = &walk->parts[asked];
    if (!walk->is_loaded)
        return is_readable(address);
    if (!is_in(*part, address) && !find_part(walk, asked, address))
        return false;
    return part->end - address >= length;
}

/* Whether a personality may be there: code of a loaded module. It need not be the first address of a function that has unwind
 * information, since a program that is linked to a fixed address has the entry of its procedure linkage table there. It isn't
 * amid a function that has a personality itself. Code that was registered may also have one in other memory. */
static bool may_be_personality(const struct walk *walk, uint64_t address) {
    CfiModule module;
    CfiFunction function;
    if (find_function(&walk->call, address, &module, &function)) {
        if (function.start == address)
            return true;
        if (function.has_personality)
            return false;
    }
    return is_code(address) || (!walk->is_loaded && is_readable(address));
}

/* Whether the personality is there: each frame of a throw has one, mostly the same. */
static bool is_personality(const struct walk *walk, _Unwind_Personality_Fn personality) {
    const struct workspace *first = first_workspace(&walk->call);
    for (int i = 0; first && i < PERSONALITIES; i++)
        if (first->personalities[i] == personality)
            return true;
    if (!may_be_personality(walk, (uint64_t)personality))
        return false;
    struct workspace *workspace = take_workspace(&walk->call);
    if (workspace) {
        memmove(workspace->personalities + 1, workspace->personalities, sizeof personality * (PERSONALITIES - 1));
        workspace->personalities[0] = personality;
        give_workspace(workspace);
    }
    return true;
}

/* The LSDA lies in the module too; 0 where there is none. */
static bool find_lsda(struct walk *walk) {
    const CfiFunction *facts = &walk->facts;
    uint64_t lsda = facts->has_lsda ? facts->lsda : 0;
    if (lsda && facts->lsda_is_indirect) {
        if (!has_bytes(walk, POINTER_PART, lsda, sizeof lsda))
            return false;
        lsda = *(const uint64_t *)lsda;
    }
    walk->frame.lsda = lsda;
    return !lsda || has_bytes(walk, LSDA_PART, lsda, 1);
}

/* Finds the personality, mostly that of the frame before. */
static __attribute__((noinline)) bool find_personality(struct walk *walk, uint64_t personality_at) {
    uint64_t address = walk->facts.personality;
    if (walk->facts.personality_is_indirect) {
        if (!has_bytes(walk, POINTER_PART, address, sizeof address))
            return false;
        address = *(const uint64_t *)address;
    }
    walk->personality = (_Unwind_Personality_Fn)address;
    walk->personality_at = address && is_personality(walk, walk->personality) ? personality_at : 0;
    return walk->personality_at;
}

bool find_asked(struct walk *walk, struct asked *asked) {
    const CfiFunction *facts = &walk->facts;
    uint64_t at = facts->has_personality ? facts->personality : 0;
    at ^= (uint64_t)(at && facts->personality_is_indirect) << 63;
    *asked = (struct asked){.personality_at = at, .start = facts->start, .end = facts->end, .args_size = walk->caller.args_size};
    if (!at)
        return true;
    if ((at != walk->personality_at && !find_personality(walk, at)) || !find_lsda(walk))
        return false;
    asked->personality = walk->personality;
    asked->lsda = walk->frame.lsda;
    return true;
}

bool may_land(const struct walk *walk) {
    const CfiFunction *facts = &walk->facts;
    uint64_t pc = walk->frame.pc;
    if (pc - facts->start < facts->end - facts->start)
        return true;
    CfiModule module = {0};
    CfiFunction part; /* of a function that the compiler split into a hot and a cold part */
    if (!walk->is_loaded)
        return find_registered_function(&walk->call, pc, &module, &part);
    return find_function(&walk->call, pc, &module, &part) && part.has_lsda &&
           is_in((CfiRange){module.start, module.end}, facts->start);
}
