/* The loaded module of an address, where its .eh_frame and .eh_frame_hdr lie, and by what its file is told from others: its
 * build id, or else how many modules were unloaded before. Nothing is kept here from one call to the next (see known.c). */
#include <dlfcn.h>
#include <elf.h>
#include <link.h>
#include <string.h>

#include "unwinder.h"

enum {
    BEGINNING = 8, /* of the header: its version, three encodings, and a distance */
    PAGE = 4096    /* the first page of a module has so many bytes, or more */
};

/* The program headers of a module, and what to add to their addresses. */
struct headers {
    uint64_t bias;
    const ElfW(Phdr) * all;
    size_t count;
};

static uint64_t start_of(const struct headers *headers, size_t i) {
    return headers->bias + headers->all[i].p_vaddr;
}

/* The first of the headers that has the type and whose bytes in the file have the address. */
static const ElfW(Phdr) * header_with(const struct headers *headers, uint32_t type, uint64_t address) {
    for (size_t i = 0; i < headers->count; i++)
        if (headers->all[i].p_type == type && address - start_of(headers, i) < headers->all[i].p_filesz)
            return &headers->all[i];
    return NULL;
}

/* Where the section lies, as the header says: linkers write its distance from there. 0 where they didn't. */
static uint64_t section_by(uint64_t header) {
    const uint8_t *bytes = (const uint8_t *)header;
    int32_t distance;
    if (bytes[0] != 1 || bytes[1] != 0x1b) /* the version; DW_EH_PE_pcrel | DW_EH_PE_sdata4 */
        return 0;
    memcpy(&distance, bytes + 4, sizeof distance);
    return header + 4 + (uint64_t)(int64_t)distance;
}

/* Adds a segment to the parts: to the last one where no page is between them. */
static void add_part(struct loaded *loaded, uint64_t start, uint64_t end) {
    CfiRange *last = loaded->part_count ? &loaded->parts[loaded->part_count - 1] : NULL;
    if (last && start >= last->end && page_of(start) <= page_of(last->end + page_size() - 1))
        last->end = end;
    else if (loaded->part_count < PARTS)
        loaded->parts[loaded->part_count++] = (CfiRange){start, end};
}

/* Writes the first address of the module, and the first after it; and the parts that can be read. */
static void find_ends(const struct headers *headers, struct loaded *loaded) {
    CfiModule *module = &loaded->module;
    *module = (CfiModule){.start = UINT64_MAX};
    for (size_t i = 0; i < headers->count; i++) {
        uint64_t start = start_of(headers, i), end = start + headers->all[i].p_memsz;
        if (headers->all[i].p_type != PT_LOAD || start == end)
            continue;
        module->start = start < module->start ? start : module->start;
        module->end = end > module->end ? end : module->end;
        if (headers->all[i].p_flags & PF_R)
            add_part(loaded, start, end);
    }
}

/* Writes where the sections lie: the section up to the end of its segment, for its own length stands nowhere in memory. */
static bool find_sections(const struct headers *headers, uint64_t header, struct loaded *loaded) {
    CfiModule *module = &loaded->module;
    const ElfW(Phdr) *of_header = header_with(headers, PT_GNU_EH_FRAME, header);
    if (!of_header || headers->bias + of_header->p_vaddr != header || of_header->p_filesz < BEGINNING)
        return false;
    uint64_t section = section_by(header);
    const ElfW(Phdr) *segment = section ? header_with(headers, PT_LOAD, section) : NULL;
    if (!segment)
        return false;
    find_ends(headers, loaded);
    module->eh_frame = (const uint8_t *)section;
    module->eh_frame_len = headers->bias + segment->p_vaddr + segment->p_filesz - section;
    module->header = (const uint8_t *)header;
    module->header_len = of_header->p_filesz;
    module->bases = (CfiBases){.section = section, .header = header, .aarch64 = IS_AARCH64, .address_size = 8};
    return true;
}

/* ---- by what a file is told from others */

/* The build id that a segment of notes has, in the page that the module begins with, where linkers put it. Ids of less than
 * LEAST bytes are no checksums of files. */
static void find_id_in(uint64_t notes, uint64_t length, struct loaded *loaded) {
    enum { LEAST = 8 };
    while (length >= sizeof(ElfW(Nhdr))) {
        const ElfW(Nhdr) *note = (const ElfW(Nhdr) *)notes;
        uint64_t name = notes + sizeof *note, id = name + (((uint64_t)note->n_namesz + 3) & -(uint64_t)4);
        uint64_t next = id + (((uint64_t)note->n_descsz + 3) & -(uint64_t)4);
        if (next - notes > length)
            return;
        if (note->n_type == NT_GNU_BUILD_ID && note->n_namesz == 4 && memcmp((const void *)name, ELF_NOTE_GNU, 4) == 0 &&
            note->n_descsz >= LEAST && note->n_descsz <= ID && id + ID - loaded->module.start <= PAGE) {
            loaded->id_length = (uint8_t)note->n_descsz;
            loaded->id_at = (uint16_t)(id - loaded->module.start);
            memcpy(loaded->id, (const void *)id, note->n_descsz);
            return;
        }
        length -= next - notes;
        notes = next;
    }
}

static void find_id(const struct headers *headers, struct loaded *loaded) {
    for (size_t i = 0; i < headers->count && !loaded->id_length; i++) {
        uint64_t start = start_of(headers, i), length = headers->all[i].p_memsz;
        const ElfW(Phdr) *segment = headers->all[i].p_type == PT_NOTE ? header_with(headers, PT_LOAD, start) : NULL;
        if (segment && length <= headers->bias + segment->p_vaddr + segment->p_filesz - start)
            find_id_in(start, length, loaded);
    }
}

/* Takes the loader's lock, which no handler of a signal leaves. */
static int iterate(int (*look)(struct dl_phdr_info *info, size_t size, void *data), void *data) {
    Mask mask = block_signals();
    int result = dl_iterate_phdr(look, data);
    set_signals(mask);
    return result;
}

static int read_unloads(struct dl_phdr_info *info, size_t size, void *unloads) {
    *(uint64_t *)unloads = size >= offsetof(struct dl_phdr_info, dlpi_subs) + sizeof info->dlpi_subs ? info->dlpi_subs : 0;
    return 1;
}

/* Takes the loader's lock. */
static uint64_t count_unloads(void) {
    uint64_t unloads = 0;
    iterate(read_unloads, &unloads);
    return unloads;
}

static bool find_parts(const struct headers *headers, uint64_t header, struct loaded *loaded) {
    *loaded = (struct loaded){0};
    if (!find_sections(headers, header, loaded))
        return false;
    find_id(headers, loaded);
    return true;
}

/* ---- by dl_iterate_phdr, which takes the loader's lock */

struct wanted {
    uint64_t address;
    struct loaded *loaded;
    bool is_found;
};

static int look_in(struct dl_phdr_info *info, size_t size, void *data) {
    struct wanted *wanted = data;
    struct headers headers = {info->dlpi_addr, info->dlpi_phdr, info->dlpi_phnum};
    uint64_t header = 0;
    bool is_inside = false;
    (void)size;
    for (size_t i = 0; i < headers.count; i++) {
        if (headers.all[i].p_type == PT_GNU_EH_FRAME)
            header = start_of(&headers, i);
        if (headers.all[i].p_type == PT_LOAD)
            is_inside |= wanted->address - start_of(&headers, i) < headers.all[i].p_memsz;
    }
    if (!is_inside)
        return 0;
    wanted->is_found = header && find_parts(&headers, header, wanted->loaded);
    return 1;
}

static bool find_by_iteration(uint64_t address, struct loaded *loaded) {
    struct wanted wanted = {address, loaded, false};
    iterate(look_in, &wanted);
    return wanted.is_found;
}

/* ---- by _dl_find_object, which takes none */

#if defined(DLFO_STRUCT_HAS_EH_DBASE) && !defined(WITHOUT_FIND_OBJECT)

__attribute__((weak)) int _dl_find_object(void *address, struct dl_find_object *result);

/* The program headers, where they stand in the page that the module begins with, behind the ELF header. Linkers put them there;
 * tools that change files may not. */
static bool headers_in_first_page(const struct dl_find_object *object, struct headers *headers) {
    uint64_t start = (uint64_t)object->dlfo_map_start;
    const ElfW(Ehdr) *file = object->dlfo_map_start;
    if (memcmp(file->e_ident, ELFMAG, SELFMAG) != 0 || file->e_phentsize != sizeof(ElfW(Phdr)))
        return false;
    *headers = (struct headers){.count = file->e_phnum};
    if (file->e_phoff > PAGE || headers->count * sizeof(ElfW(Phdr)) > PAGE - file->e_phoff)
        return false;
    headers->all = (const ElfW(Phdr) *)(start + file->e_phoff);
    for (size_t i = 0; i < headers->count; i++)
        if (headers->all[i].p_type == PT_LOAD) {
            headers->bias = start - page_of(headers->all[i].p_vaddr);
            return headers->all[i].p_offset < PAGE;
        }
    return false;
}

static bool find_mapped(uint64_t address, struct loaded *loaded) {
    struct dl_find_object object;
    struct headers headers;
    if (!_dl_find_object)
        return find_by_iteration(address, loaded);
    if (_dl_find_object((void *)address, &object) != 0 || !object.dlfo_eh_frame)
        return false;
    if (headers_in_first_page(&object, &headers) && find_parts(&headers, (uint64_t)object.dlfo_eh_frame, loaded)) {
        loaded->map_start = (uint64_t)object.dlfo_map_start;
        loaded->map_end = (uint64_t)object.dlfo_map_end;
        loaded->record = object.dlfo_link_map;
        return true;
    }
    return find_by_iteration(address, loaded);
}

/* The first page is read: it has the headers. */
bool is_still(const struct loaded *loaded, uint64_t address) {
    struct dl_find_object object;
    if (!loaded->id_length || loaded->map_start != loaded->module.start)
        return false;
    if (!_dl_find_object || _dl_find_object((void *)address, &object) != 0)
        return false;
    return (uint64_t)object.dlfo_map_start == loaded->map_start && (uint64_t)object.dlfo_map_end == loaded->map_end &&
           object.dlfo_link_map == loaded->record && object.dlfo_eh_frame == (const void *)loaded->module.header &&
           memcmp((const void *)(loaded->map_start + loaded->id_at), loaded->id, loaded->id_length) == 0;
}

#else

bool is_still(const struct loaded *loaded, uint64_t address) {
    (void)loaded, (void)address;
    return false;
}

static bool find_mapped(uint64_t address, struct loaded *loaded) {
    return find_by_iteration(address, loaded);
}

#endif

bool find_loaded(uint64_t address, struct loaded *loaded) {
    if (!find_mapped(address, loaded))
        return false;
    if (!loaded->id_length)
        loaded->unloads = count_unloads();
    return true;
}

bool find_module(uint64_t address, CfiModule *module) {
    struct loaded loaded;
    bool is_found = find_mapped(address, &loaded);
    if (is_found)
        *module = loaded.module;
    return is_found;
}

/* Some bytes, and what the segment has to allow that they are in. */
struct part {
    uint64_t address;
    size_t length;
    uint32_t flags;
};

static int look_for_part(struct dl_phdr_info *info, size_t size, void *data) {
    const struct part *part = data;
    struct headers headers = {info->dlpi_addr, info->dlpi_phdr, info->dlpi_phnum};
    const ElfW(Phdr) *segment = header_with(&headers, PT_LOAD, part->address);
    (void)size;
    return segment && (segment->p_flags & part->flags) == part->flags &&
           part->length <= headers.bias + segment->p_vaddr + segment->p_filesz - part->address;
}

static bool is_part(struct part part) {
    return iterate(look_for_part, &part) != 0;
}

bool is_in_parts(const struct loaded *loaded, uint64_t address, CfiRange *found) {
    for (unsigned i = 0; i < loaded->part_count; i++)
        if (is_in(loaded->parts[i], address)) {
            *found = loaded->parts[i];
            return true;
        }
    return false;
}

bool is_code(uint64_t address) {
    return is_part((struct part){address, 1, PF_X});
}

bool is_readable_code(uint64_t address, size_t length) {
    return is_part((struct part){address, length, PF_R | PF_X});
}
