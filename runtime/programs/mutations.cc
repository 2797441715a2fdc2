// Throws through a library whose unwind information is damaged, in many ways, each in a child: usage: mutations LIBRARY
//
// A throw has to end in its handler, as it does where the damage changes nothing that is read, or in std::terminate. Damaged
// rows may give a handler other registers than those that its caller had, so it uses none.
#include <dlfcn.h>
#include <link.h>
#include <stdint.h>
#include <sys/mman.h>
#include <unwind.h>

#include "test.h"

static int (*pass)(void (*)(int), int);

static _Unwind_Reason_Code go_on(_Unwind_Context *context, void *count) {
    _Unwind_GetIP(context);
    return ++*(int *)count < 100 ? _URC_NO_REASON : _URC_NORMAL_STOP;
}

static void thrower(int n) {
    int count = 0;
    _Unwind_Backtrace(go_on, &count);
    throw n;
}

enum Outcome { CAUGHT = 10, WRONG, PASSED, OUTCOMES };

NOINLINE static void throw_through() {
    try {
        pass(thrower, 20);
    } catch (int n) {
        _exit(n == 20 ? CAUGHT : WRONG);
    } catch (...) {
        _exit(WRONG);
    }
    _exit(PASSED);
}

// Where the sections lie: the first number is where the module is loaded.
struct Sections {
    uint64_t base, header, header_end, entries, entries_end;
};

static uint64_t number_at(uint64_t place, size_t size) {
    uint64_t number = 0;
    memcpy(&number, (const void *)place, size);
    return number;
}

static int find_sections(struct dl_phdr_info *info, size_t, void *data) {
    Sections *sections = (Sections *)data;
    if (info->dlpi_addr != sections->base)
        return 0;
    for (int i = 0; i < info->dlpi_phnum; i++)
        if (info->dlpi_phdr[i].p_type == PT_GNU_EH_FRAME) {
            sections->header = info->dlpi_addr + info->dlpi_phdr[i].p_vaddr;
            sections->header_end = sections->header + info->dlpi_phdr[i].p_memsz;
        }
    sections->entries = sections->header + 4 + (int64_t)(int32_t)number_at(sections->header + 4, 4);
    uint64_t at = sections->entries;
    while (number_at(at, 4) != 0)
        at += 4 + number_at(at, 4);
    sections->entries_end = at + 4;
    return 1;
}

// Whether the byte is one that nothing can be checked by: of the first address of a function, from which landing pads are
// counted, or of where its LSDA lies, which the personality reads. Both are in FDEs, the LSDA's address behind that of the code.
static bool is_taken_as_it_is(const Sections &sections, uint64_t place) {
    uint64_t at = sections.entries, next = at;
    while ((next = at + 4 + number_at(at, 4)) <= place)
        at = next;
    bool is_fde = number_at(at, 4) != 0 && number_at(at + 4, 4) != 0, has_lsda = number_at(at + 16, 1) == 4;
    uint64_t offset = place - at;
    return is_fde && ((8 <= offset && offset < 12) || (has_lsda && 17 <= offset && offset < 21));
}

struct Damage {
    const char *name;
    void (*make)(uint8_t *place, uint8_t *end);
};

static const Damage damages[] = {
    {"all bits", [](uint8_t *place, uint8_t *) { *place ^= 0xff; }},
    {"the lowest bit", [](uint8_t *place, uint8_t *) { *place ^= 1; }},
    {"bit 3", [](uint8_t *place, uint8_t *) { *place ^= 8; }},
    {"the highest bit", [](uint8_t *place, uint8_t *) { *place ^= 0x80; }},
    {"zero", [](uint8_t *place, uint8_t *) { *place = 0; }},
    {"cut", [](uint8_t *place, uint8_t *end) { memset(place, 0, end - place); }},
};

static int outcome_of(const Damage &damage, uint64_t place, uint64_t end) {
    pid_t child = fork();
    if (child == 0) {
        if (!freopen("/dev/null", "w", stderr))
            _exit(99);
        alarm(5);
        damage.make((uint8_t *)place, (uint8_t *)end);
        throw_through();
    }
    int status = 0;
    waitpid(child, &status, 0);
    return status;
}

static int tried, caught, ended, elsewhere;

static void damage_all(const char *section, uint64_t start, uint64_t end, const Sections &sections) {
    for (const Damage &damage : damages)
        for (uint64_t place = start; place < end; place++) {
            if (start == sections.entries && is_taken_as_it_is(sections, place))
                continue;
            int status = outcome_of(damage, place, end);
            tried++;
            if (WIFEXITED(status) && WEXITSTATUS(status) == CAUGHT) {
                caught++;
            } else if (WIFSIGNALED(status) && WTERMSIG(status) == SIGABRT) {
                ended++;
            } else {
                elsewhere++;
                printf("%s, byte %ld, %s: %s %d\n", section, (long)(place - start), damage.name,
                       WIFSIGNALED(status) ? "signal" : "status", WIFSIGNALED(status) ? WTERMSIG(status) : WEXITSTATUS(status));
            }
        }
}

int main(int count, char **names) {
    void *library = count > 1 ? dlopen(names[1], RTLD_NOW) : nullptr;
    struct link_map *map = nullptr;
    Sections sections = {};
    if (!library || dlinfo(library, RTLD_DI_LINKMAP, &map))
        return 2;
    pass = (int (*)(void (*)(int), int))dlsym(library, "pass");
    sections.base = map->l_addr;
    dl_iterate_phdr(find_sections, &sections);
    uint64_t first = sections.header & -4096ul;
    int protection = PROT_READ | PROT_WRITE;
#ifndef __x86_64__
    protection |= PROT_EXEC; // linkers put code in the same segment
#endif
    if (mprotect((void *)first, (sections.entries_end | 4095) + 1 - first, protection) != 0)
        return 3;
    damage_all(".eh_frame_hdr", sections.header, sections.header_end, sections);
    damage_all(".eh_frame", sections.entries, sections.entries_end, sections);
    printf("%d damages, %d caught all the same, %d terminated, %d elsewhere\n", tried, caught, ended, elsewhere);
    return elsewhere != 0;
}
