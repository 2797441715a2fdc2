/* What a step may read: parts of memory that are known to be mapped. They are looked for when a row names memory outside of
 * them, and kept by each thread, so that most steps make no system call.
 *
 * A stack reaches from its pointer up to its end. The first thread's end is the loader's __libc_stack_end, and those of other
 * threads are their control blocks, which lie above their stacks. A fiber's stack, or that of a signal handler, is taken as far
 * as it is mapped, a part at a time. */
#include <errno.h>
#include <pthread.h>
#include <sys/mman.h>

#include "unwinder.h"

extern void *__libc_stack_end __attribute__((weak));

enum {
    PART = 1 << 16,
    GAP = 1 << 24,
    WORD = 8,
    ITERATIONS = 10000 /* how many operations an expression may do */
};

/* The most that a stack has. Nothing is mapped so near below the first thread's. */
static const uint64_t FIRST_STACK = (uint64_t)1 << 27, OTHER_STACK = (uint64_t)1 << 30;

/* That of the stack that is used here: there is nothing to ask. */
static uint64_t own_page(void) {
    return page_of((uint64_t)__builtin_frame_address(0));
}

static uint64_t end_of(const CfiWindow *window) {
    return window->base + window->len;
}

static CfiWindow window_of(uint64_t start, uint64_t end) {
    return (CfiWindow){.base = start, .bytes = (const uint8_t *)start, .len = end - start};
}

/* Of the advices this is the one that changes nothing. */
bool is_mapped(uint64_t start, uint64_t end) {
    int was = errno;
    if (start == own_page() && end == start + page_size())
        return true;
    bool is = madvise((void *)start, end - start, MADV_NORMAL) == 0;
    errno = was;
    return is;
}

/* Where the mapped memory from the page on ends, as far as it is taken; the page itself where it can't be read. */
static uint64_t mapped_from(uint64_t page) {
    uint64_t first = &__libc_stack_end ? (uint64_t)__libc_stack_end : 0, own = (uint64_t)pthread_self();
    if (page <= first && first - page < FIRST_STACK && is_mapped(page, page + page_size()))
        return page_of(first) + page_size();
    if (page <= own && own - page < OTHER_STACK && is_mapped(page, page_of(own) + page_size()))
        return page_of(own) + page_size();
    uint64_t end = page;
    while (end < page + PART && is_readable(end))
        end += page_size();
    return end;
}

CfiMemory memory_of(const CfiWindow *windows, size_t count) {
    return (CfiMemory){.windows = windows,
                       .windows_len = count,
                       .signature_mask = SIGNATURE,
                       .max_iterations = ITERATIONS,
                       .stack_pointer = STACK_POINTER,
                       .address_size = 8};
}

void view_from(const struct windows *known, uint64_t stack_pointer, struct view *view) {
    uint64_t lowest = stack_pointer - BELOW;
    view->memory = memory_of(view->list, known->count);
    for (unsigned i = 0; i < known->count; i++) {
        const CfiWindow *window = &known->list[i];
        view->list[i] = *window;
        if (window->base <= lowest && lowest < end_of(window)) {
            view->list[i] = view->list[0];
            view->list[0] = window_of(lowest, end_of(window)); /* the one that is read most */
        }
    }
}

bool view_below(const struct windows *known, struct view *view) {
    bool is_more = false;
    for (unsigned i = 0; i < known->count; i++) {
        const CfiWindow *window = &known->list[i];
        CfiWindow *first = &view->list[0];
        if (window->base < first->base && end_of(window) == end_of(first)) {
            *first = *window;
            is_more = true;
        }
    }
    return is_more;
}

/* Takes out the windows that overlap or touch these pages, and returns the pages with them. */
static CfiWindow merged(struct windows *known, uint64_t start, uint64_t end) {
    unsigned kept = 0;
    for (unsigned i = 0; i < known->count; i++) {
        const CfiWindow *window = &known->list[i];
        if (window->base <= end && start <= end_of(window)) {
            start = window->base < start ? window->base : start;
            end = end_of(window) > end ? end_of(window) : end;
        } else {
            known->list[kept++] = *window;
        }
    }
    known->count = kept;
    return window_of(start, end);
}

/* Where the unknown memory begins that is made known for the address: at the end of the window before it, if all between is
 * mapped, or a page before it, since a frame's registers are saved below its return address, though none below this one. */
static uint64_t start_before(const struct windows *known, uint64_t address) {
    uint64_t page = page_of(address);
    for (unsigned i = 0; i < known->count; i++) {
        uint64_t end = end_of(&known->list[i]);
        if (end <= page && page - end < GAP && is_mapped(end, page + page_size()))
            return end;
    }
    return page != own_page() && is_readable(page - page_size()) ? page - page_size() : page;
}

/* Whether the memory at the address is known to be mapped. */
static bool is_known(const struct windows *known, uint64_t address) {
    for (unsigned i = 0; i < known->count; i++)
        if (address - known->list[i].base < known->list[i].len)
            return true;
    return false;
}

bool add_window(struct windows *known, uint64_t address) {
    if (address < 2 * page_size() || address > UINT64_MAX - 2 * PART)
        return false;
    if (is_known(known, address)) /* the number may end behind the window, else it is below the stack pointer */
        address += WORD - 1;
    if (is_known(known, address))
        return false;
    if (page_of(address) != own_page() && !is_readable(address & -(uint64_t)WORD))
        return false;
    uint64_t start = start_before(known, address), end = mapped_from(page_of(address));
    if (end <= page_of(address))
        return false;
    CfiWindow window = merged(known, start, end);
    unsigned at = known->count < WINDOWS ? known->count++ : known->next++ % WINDOWS;
    known->list[at] = window;
    return true;
}

void look_anew(struct workspace *workspace, uint64_t stack_pointer) {
    struct windows *known = &workspace->windows;
    if (!is_known(known, stack_pointer - BELOW) && !add_window(known, stack_pointer - BELOW))
        add_window(known, stack_pointer);
    view_from(known, stack_pointer, &workspace->view);
}
