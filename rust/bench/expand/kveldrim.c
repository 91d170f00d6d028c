/* Times one expansion of an entry for two files by the proved library: the median of many rounds. Argument: the entry's file. */
#include "kveldrim_words.h"

#include <stdio.h>
#include <stdlib.h>
#include <string.h>
#include <time.h>

#define ROUNDS 51
#define CALLS 2000

static double seconds(void) {
    struct timespec now;
    clock_gettime(CLOCK_MONOTONIC, &now);
    return now.tv_sec + now.tv_nsec * 1e-9;
}

static int compare(const void *a, const void *b) {
    double x = *(const double *)a, y = *(const double *)b;
    return (x > y) - (x < y);
}

/* One more record of a list of files. */
static size_t add(uint8_t *list, size_t at, const char *name) {
    size_t size = 6 + strlen(name);
    memset(list + at, 0, 6);
    list[at] = (uint8_t)size;
    list[at + 4] = 2;
    memcpy(list + at + 6, name, size - 6);
    return at + size;
}

int main(int argc, char **argv) {
    /* One byte more than a file may have, so that a longer one is refused and not cut. */
    uint8_t file[KVELDRIM_FILE_BOUND + 1], list[256], out[1024];
    FILE *entry = argc == 2 ? fopen(argv[1], "rb") : NULL;
    if (!entry) {
        fprintf(stderr, "usage: kveldrim FILE\n");
        return 2;
    }
    size_t size = fread(file, 1, sizeof file, entry);
    fclose(entry);
    size_t listed = add(list, add(list, 0, "/home/a b.odt"), "/home/c.odt");
    double times[ROUNDS];
    uint64_t place, byte, written = 0;
    for (int round = 0; round < ROUNDS; round++) {
        double start = seconds();
        for (int call = 0; call < CALLS; call++) {
            uint32_t code = kveldrim_expand(file, size, (const uint8_t *)"de", 2, (const uint8_t *)"", 0,
                                            list, listed, 0, out, sizeof out, &place, &byte, &written);
            if (code) {
                fprintf(stderr, "refused: %s, place %lu\n", kveldrim_words(code), (unsigned long)place);
                return 1;
            }
        }
        times[round] = (seconds() - start) / CALLS;
    }
    qsort(times, ROUNDS, sizeof *times, compare);
    printf("Kveldrim, reading included: %.1f us\n", times[ROUNDS / 2] * 1e6);
    return 0;
}
