/* The FDE of an address, for programs that ask libgcc_s for it. */
#include "unwinder.h"

struct dwarf_eh_bases {
    void *text, *data, *function;
};

EXPORT const void *_Unwind_Find_FDE(void *pc, struct dwarf_eh_bases *bases);

const void *_Unwind_Find_FDE(void *pc, struct dwarf_eh_bases *bases) {
    struct call call;
    CfiModule module;
    CfiFunction function;
    begin_call(&call);
    bool is_found = find_function(&call, (uint64_t)pc, &module, &function);
    end_call(&call);
    if (!is_found)
        return NULL;
    bases->text = (void *)module.bases.text;
    bases->data = (void *)module.bases.data_base;
    bases->function = (void *)function.start;
    return module.eh_frame + function.fde;
}

/* pc is a return address. */
void *_Unwind_FindEnclosingFunction(void *pc) {
    struct dwarf_eh_bases bases;
    return _Unwind_Find_FDE((char *)pc - 1, &bases) ? bases.function : NULL;
}

#ifdef __aarch64__
/* What code of compilers before GCC 3.0 asks at a throw. There is none for this machine: it finds nothing. */
EXPORT void *__frame_state_for(void *pc, void *state);

void *__frame_state_for(void *pc, void *state) {
    (void)pc, (void)state;
    return NULL;
}
#endif
