/* The least that a pass over the entries of .eh_frame can do: of each entry it reads the length and the CIE id, checks that
 * both are in the section, and sums its offset as the driver does. Nothing is returned of the entry.
 *
 *     cc -O3 -o floor bench/floor.c && ./floor WORKFOLDER/sections/x86-64-libc.eh_frame
 *
 * Prints the entries and the nanoseconds of each, of the shortest of 2,000 passes. */
#include <stdint.h>
#include <stdio.h>
#include <stdlib.h>
#include <string.h>
#include <time.h>

struct done {
    uint64_t count, sum;
};

/* The sections of this machine's libraries are in the 32-bit format, the least significant byte first. */
static uint32_t word(const uint8_t *at) {
    uint32_t value;
    memcpy(&value, at, sizeof value);
    return value;
}

static struct done pass(const uint8_t *section, uint64_t size) {
    struct done done = {0, 0};
    uint64_t at = 0;
    while (size - at >= 8) {
        uint32_t length = word(section + at);
        if (length < 4 || length > size - at - 4)
            break;
        done.count += 1;
        /* (the id tells a CIE from an FDE, and is summed with the offset so that it is read) */
        done.sum = (done.sum << 5 | done.sum >> 59) ^ at ^ word(section + at + 4);
        at += 4 + (uint64_t)length;
    }
    return done;
}

int main(int argc, char **argv) {
    FILE *file = argc == 2 ? fopen(argv[1], "rb") : NULL;
    if (file == NULL || fseek(file, 0, SEEK_END) != 0)
        return 2;
    long size = ftell(file);
    uint8_t *section = malloc(size > 0 ? (size_t)size : 1);
    rewind(file);
    if (section == NULL || size < 0 || fread(section, 1, (size_t)size, file) != (size_t)size)
        return 2;
    struct done done = {0, 0};
    double least = 0;
    for (int passes = 0; passes < 2000; passes++) {
        struct timespec begin, end;
        clock_gettime(CLOCK_MONOTONIC, &begin);
        done = pass(section, (uint64_t)size);
        clock_gettime(CLOCK_MONOTONIC, &end);
        double time = (double)(end.tv_sec - begin.tv_sec) * 1e9 + (double)(end.tv_nsec - begin.tv_nsec);
        if (passes == 0 || time < least)
            least = time;
    }
    printf("%llu entries, %.2f ns each (sum %llx)\n", (unsigned long long)done.count, least / (double)done.count,
           (unsigned long long)done.sum);
    free(section);
    return fclose(file) != 0;
}
