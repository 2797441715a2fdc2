/* What personalities, and the callers of _Unwind_Backtrace, ask about a frame and set in it. The frame may be one of a second
 * unwinder in the process (see unwinder.h), so only the part that both have is read. */
#include <stdlib.h>

#include "unwinder.h"

/* Where the value of a register is; NULL where it isn't known. */
static uint64_t *place_of(struct _Unwind_Context *frame, int number) {
    if (number < 0 || number >= GCC_REGISTERS)
        abort();
    return frame->by_value[number] ? &frame->value[number] : (uint64_t *)frame->value[number];
}

_Unwind_Word _Unwind_GetGR(struct _Unwind_Context *frame, int number) {
    const uint64_t *place = place_of(frame, number);
    return place ? *place : 0;
}

void _Unwind_SetGR(struct _Unwind_Context *frame, int number, _Unwind_Word value) {
    uint64_t *place = place_of(frame, number);
    if (!place)
        abort();
    *place = value;
}

_Unwind_Ptr _Unwind_GetIP(struct _Unwind_Context *frame) {
    return frame->pc;
}

_Unwind_Ptr _Unwind_GetIPInfo(struct _Unwind_Context *frame, int *is_before_instruction) {
    *is_before_instruction = (frame->flags & INTERRUPTED) != 0;
    return frame->pc;
}

void _Unwind_SetIP(struct _Unwind_Context *frame, _Unwind_Ptr pc) {
    frame->pc = pc;
}

_Unwind_Word _Unwind_GetCFA(struct _Unwind_Context *frame) {
    return frame->cfa;
}

void *_Unwind_GetLanguageSpecificData(struct _Unwind_Context *frame) {
    return (void *)frame->lsda;
}

_Unwind_Ptr _Unwind_GetRegionStart(struct _Unwind_Context *frame) {
    return frame->function;
}

_Unwind_Ptr _Unwind_GetTextRelBase(struct _Unwind_Context *frame) {
    return frame->text_base;
}

_Unwind_Ptr _Unwind_GetDataRelBase(struct _Unwind_Context *frame) {
    return frame->data_base;
}
