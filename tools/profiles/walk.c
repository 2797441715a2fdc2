/* Walks the stacks of a profile by libunwind's unw_step, as perf does
   (tools/perf/util/unwind-libunwind-local.c), and times the walks.

   usage: walk PROFILE TIMES

   Prints a line for each pass over all samples: frames, and nanoseconds of processor time. The
   profile and its files are read before. There is an address space for each program that a process
   runs, with the cache UNW_CACHE_GLOBAL, which is filled in the first pass. */
#define _GNU_SOURCE
#include <elf.h>
#include <fcntl.h>
#include <libunwind-x86_64.h>
#include <stdio.h>
#include <stdlib.h>
#include <string.h>
#include <sys/mman.h>
#include <sys/stat.h>
#include <time.h>
#include <unistd.h>

typedef unsigned long u64;
typedef unsigned u32;

enum { MMAP = 1, COMM = 3, FORK = 7, SAMPLE = 9, MMAP2 = 10 };
enum {
    TID = 2,
    TIME = 4,
    ADDR = 8,
    CALLCHAIN = 32,
    ID = 64,
    CPU = 128,
    PERIOD = 256,
    STREAM = 512,
    IDENTIFIER = 1 << 16
};
enum { EXEC = 1 << 13, FRAMES = 4096, PERF_SP = 7, PERF_PC = 8 };

extern int UNW_OBJ(dwarf_search_unwind_table)(unw_addr_space_t, unw_word_t, unw_dyn_info_t *,
                                              unw_proc_info_t *, int, void *);

/* A file, and the address of its .eh_frame_hdr, if it has one. */
struct file {
    char *name;
    const unsigned char *bytes;
    u64 header;
    int usable, count;
    const Elf64_Phdr *segments;
    struct file *next;
};

/* What is mapped: file address + bias = address. */
struct mapping {
    u64 start, end, bias;
    struct file *file;
};

/* A program that a process runs. A list of mappings isn't changed once it is there, so samples
 * share it. */
struct image {
    u32 pid;
    struct mapping *mappings;
    int count;
    unw_addr_space_t space;
    struct image *next;
};

struct sample {
    u64 registers[24], size;
    const unsigned char *stack;
    struct mapping *mappings;
    int count;
    struct image *image;
};

struct record {
    u64 time, kind, misc;
    unsigned char *start, *end;
};

static struct file *files;
static struct image *images;
static struct sample *current;
static struct mapping *last;

static u64 word(const void *at) {
    u64 value;
    memcpy(&value, at, sizeof value);
    return value;
}
static u32 half(const void *at) {
    u32 value;
    memcpy(&value, at, sizeof value);
    return value;
}

static struct file *file_named(const char *name) {
    struct stat st;
    for (struct file *f = files; f; f = f->next)
        if (!strcmp(f->name, name))
            return f;
    struct file *f = calloc(1, sizeof *f);
    f->name = strdup(name), f->next = files, files = f;
    int fd = name[0] == '/' ? open(name, O_RDONLY) : -1;
    if (fd < 0 || fstat(fd, &st) || !S_ISREG(st.st_mode) || st.st_size < 64)
        return f;
    f->bytes = mmap(0, st.st_size, PROT_READ, MAP_PRIVATE, fd, 0);
    close(fd);
    if (memcmp(f->bytes, "\177ELF\2", 5))
        return f;
    const Elf64_Ehdr *header = (const void *)f->bytes;
    f->segments = (const void *)(f->bytes + header->e_phoff), f->count = header->e_phnum;
    for (int k = 0; k < f->count; k++)
        if (f->segments[k].p_type == PT_GNU_EH_FRAME)
            f->header = f->segments[k].p_vaddr, f->usable = 1;
    return f;
}

static struct mapping *mapping_at(u64 address) {
    if (last && last >= current->mappings && last < current->mappings + current->count &&
        address >= last->start && address < last->end)
        return last;
    for (int k = current->count; k--;)
        if (address >= current->mappings[k].start && address < current->mappings[k].end)
            return last = &current->mappings[k];
    return 0;
}

/* The bytes of a file that are mapped there. */
static const unsigned char *bytes_at(const struct mapping *m, u64 address, u64 size) {
    u64 place = address - m->bias;
    for (int k = 0; k < m->file->count; k++) {
        const Elf64_Phdr *s = &m->file->segments[k];
        if (s->p_type == PT_LOAD && place >= s->p_vaddr && place + size <= s->p_vaddr + s->p_filesz)
            return m->file->bytes + s->p_offset + (place - s->p_vaddr);
    }
    return 0;
}

static int access_mem(unw_addr_space_t space, unw_word_t address, unw_word_t *value, int write,
                      void *arg) {
    u64 at = address - current->registers[PERF_SP];
    if (write)
        return -UNW_EINVAL;
    if (at < current->size && current->size - at >= 8) {
        *value = word(current->stack + at);
        return 0;
    }
    const struct mapping *m = mapping_at(address);
    const unsigned char *found = m && m->file->usable ? bytes_at(m, address, 8) : 0;
    if (!found)
        return -UNW_EINVAL;
    *value = word(found);
    return 0;
}

static int access_reg(unw_addr_space_t space, unw_regnum_t number, unw_word_t *value, int write,
                      void *arg) {
    static const signed char perf_number[] = {0,  3,  2,  1,  4,  5,  6,  7,      16,
                                              17, 18, 19, 20, 21, 22, 23, PERF_PC};
    if (write || number < 0 || number > UNW_X86_64_RIP)
        return -UNW_EINVAL;
    *value = current->registers[perf_number[number]];
    return 0;
}

static int find_proc_info(unw_addr_space_t space, unw_word_t ip, unw_proc_info_t *info, int need,
                          void *arg) {
    static const unsigned char encodings[] = {1, 0x1b, 3, 0x3b};
    const struct mapping *m = mapping_at(ip);
    if (!m || !m->file->usable)
        return -UNW_ENOINFO;
    const unsigned char *header = bytes_at(m, m->file->header + m->bias, 12);
    if (!header || memcmp(header, encodings, 4))
        return -UNW_ENOINFO;
    unw_dyn_info_t table = {
        .format = UNW_INFO_FORMAT_REMOTE_TABLE, .start_ip = m->start, .end_ip = m->end};
    table.u.rti.segbase = m->file->header + m->bias;
    table.u.rti.table_data = table.u.rti.segbase + 12;
    table.u.rti.table_len = half(header + 8);
    return UNW_OBJ(dwarf_search_unwind_table)(space, ip, &table, info, need, arg);
}

static void put_unwind_info(unw_addr_space_t space, unw_proc_info_t *info, void *arg) {}
static int no_list(unw_addr_space_t space, unw_word_t *address, void *arg) { return -UNW_ENOINFO; }
static int no_fpreg(unw_addr_space_t space, unw_regnum_t number, unw_fpreg_t *value, int write,
                    void *arg) {
    return -UNW_EINVAL;
}
static int no_resume(unw_addr_space_t space, unw_cursor_t *cursor, void *arg) {
    return -UNW_EINVAL;
}
static int no_name(unw_addr_space_t space, unw_word_t at, char *name, size_t size,
                   unw_word_t *offset, void *arg) {
    return -UNW_EINVAL;
}

static unw_accessors_t accessors = {
    find_proc_info, put_unwind_info, no_list, access_mem, access_reg, no_fpreg, no_resume, no_name,
};

/* The program that the process runs; a new one where it begins. */
static struct image *image_of(u32 pid, int is_new) {
    for (struct image *i = images; i && !is_new; i = i->next)
        if (i->pid == pid)
            return i;
    struct image *i = calloc(1, sizeof *i);
    i->pid = pid, i->next = images, images = i;
    return i;
}

/* Of the segments that could be mapped there, the one whose bias another mapping of the file has.
 */
static u64 bias_of(const struct mapping *before, int count, const struct file *f, u64 start,
                   u64 offset) {
    u64 found = 0;
    for (int k = 0, known = 0; k < f->count; k++) {
        const Elf64_Phdr *s = &f->segments[k];
        if (s->p_type != PT_LOAD || (s->p_offset & ~4095ul) > offset ||
            offset >= s->p_offset + s->p_filesz)
            continue;
        u64 bias = start - offset + s->p_offset - s->p_vaddr;
        int is_shared = 0;
        for (int j = 0; j < count; j++)
            is_shared |= before[j].file == f && before[j].bias == bias;
        if (!known || is_shared)
            found = bias;
        known = 1;
    }
    return found;
}

static void follow_mapping(const struct record *r) {
    struct image *i = image_of(half(r->start), 0);
    u64 start = word(r->start + 8), end = start + word(r->start + 16), offset = word(r->start + 24);
    struct mapping *kept = malloc((i->count + 1) * sizeof *kept);
    int count = 0;
    for (int k = 0; k < i->count; k++)
        if (start > i->mappings[k].start || i->mappings[k].end > end)
            kept[count++] = i->mappings[k];
    struct file *f = file_named((const char *)r->start + (r->kind == MMAP2 ? 64 : 32));
    kept[count] = (struct mapping){start, end, bias_of(kept, count, f, start, offset), f};
    i->mappings = kept, i->count = count + 1;
}

static void follow(const struct record *r) {
    u32 pid = half(r->start), parent = half(r->start + 4);
    if (r->kind == COMM && r->misc & EXEC) {
        image_of(pid, 1);
    } else if (r->kind == FORK && pid != parent) {
        struct image *from = image_of(parent, 0), *i = image_of(pid, 1);
        i->mappings = from->mappings, i->count = from->count;
    } else if (r->kind == MMAP || r->kind == MMAP2) {
        follow_mapping(r);
    }
}

/* Reads a sample. Returns whether it has registers and a stack. */
static int read_sample(const struct record *r, u64 type, u64 mask, struct sample *s) {
    const unsigned char *at = r->start + (type & IDENTIFIER ? 16 : 8);
    u32 pid = half(at);
    at += 16 + 8 * __builtin_popcountl(type & (ADDR | ID | STREAM | CPU | PERIOD));
    if (type & CALLCHAIN)
        at += 8 + 8 * word(at);
    if (!word(at))
        return 0;
    at += 8;
    for (int k = 0; k < 24; k++)
        if (mask >> k & 1)
            s->registers[k] = word(at), at += 8;
    u64 size = word(at);
    s->stack = at + 8, s->size = size ? word(at + 8 + size) : 0;
    s->image = image_of(pid, 0), s->mappings = s->image->mappings, s->count = s->image->count;
    return s->size > 0;
}

static u64 walk(struct sample *s) {
    unw_cursor_t cursor;
    unw_word_t ip;
    u64 frames = 1;
    current = s;
    if (!s->image->space) {
        s->image->space = unw_create_addr_space(&accessors, 0);
        unw_set_caching_policy(s->image->space, UNW_CACHE_GLOBAL);
    }
    if (unw_init_remote(&cursor, s->image->space, s))
        return 0;
    while (frames < FRAMES && unw_step(&cursor) > 0) {
        unw_get_reg(&cursor, UNW_REG_IP, &ip);
        unw_is_signal_frame(&cursor);
        frames++;
    }
    return frames;
}

static int is_earlier(const void *a, const void *b) {
    const struct record *x = a, *y = b;
    return x->time != y->time ? (x->time < y->time ? -1 : 1) : x->start < y->start ? -1 : 1;
}

static int read_records(unsigned char *data, u64 type, struct record *records) {
    u64 tail = 8 * __builtin_popcountl(type & (TID | TIME | ID | STREAM | CPU | IDENTIFIER));
    unsigned char *at = data + word(data + 40), *end = at + word(data + 48);
    int count = 0;
    while (at < end) {
        u64 kind = half(at), size = half(at + 4) >> 16;
        struct record r = {0, kind, half(at + 4) & 0xffff, at + 8, at + size};
        r.time =
            word(kind == SAMPLE ? at + 8 + (type & IDENTIFIER ? 8 : 0) + 16 : at + size - tail + 8);
        if (kind == SAMPLE || kind == MMAP || kind == MMAP2 || kind == COMM || kind == FORK)
            records[count++] = r;
        at += size;
    }
    qsort(records, count, sizeof *records, is_earlier);
    return count;
}

static u64 now(void) {
    struct timespec t;
    clock_gettime(CLOCK_PROCESS_CPUTIME_ID, &t);
    return t.tv_sec * 1000000000ul + t.tv_nsec;
}

int main(int argc, char **argv) {
    struct stat st;
    int fd = argc == 3 ? open(argv[1], O_RDONLY) : -1, count = 0;
    if (fd < 0 || fstat(fd, &st))
        return 2;
    unsigned char *data = mmap(0, st.st_size, PROT_READ, MAP_PRIVATE, fd, 0),
                  *attributes = data + word(data + 24);
    u64 type = word(attributes + 24), mask = word(attributes + 80);
    struct record *records = malloc((st.st_size / 8 + 1) * sizeof *records);
    int all = read_records(data, type, records);
    struct sample *samples = calloc(all + 1, sizeof *samples);
    for (int k = 0; k < all; k++) {
        if (records[k].kind == SAMPLE)
            count += read_sample(&records[k], type, mask, &samples[count]);
        else
            follow(&records[k]);
    }
    for (int pass = 0; pass < atoi(argv[2]); pass++) {
        u64 frames = 0, before = now();
        for (int k = 0; k < count; k++)
            frames += walk(&samples[k]);
        printf("%lu %lu\n", frames, now() - before);
    }
}
