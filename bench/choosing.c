// Choosing at 504 chunks and 60,000 entries, one in `dead` of which supersedes an earlier one: the time of a
// zkv_choose. By the chunks' sums it is a pass over 504 numbers, and a chunk's entries are read only where it has a
// chosen delete and its chosen puts alone do not rule it out.
#include <stdint.h>
#include <stdio.h>
#include <stdlib.h>
#include <string.h>
#include <time.h>

#include "zitskvoze.h"

enum { CHUNKS = 504, CHUNK = 512, ENTRIES = 60000, ROUNDS = 2000 };

static double now(void)
{
    struct timespec t;
    clock_gettime(CLOCK_MONOTONIC, &t);
    return t.tv_sec * 1e9 + t.tv_nsec;
}

static uint64_t state = 88172645463325252ull;

static uint64_t draw(void)
{
    state ^= state << 13;
    state ^= state >> 7;
    state ^= state << 17;
    return state;
}

// puts of 16 bytes, and deletes where `deletes` says so; every `dead`th entry is of an earlier key, one version on
static uint64_t *make_image(unsigned dead, unsigned deletes)
{
    uint64_t *w = aligned_alloc(64, CHUNKS * CHUNK * 8), *keys = malloc(ENTRIES * 8), *versions = malloc(ENTRIES * 8);
    size_t i = 0, known = 0;
    memset(w, 0, CHUNKS * CHUNK * 8);
    w[0] = 1;
    w[1] = CHUNKS;
    w[7] = -(w[0] + w[1]);
    for (size_t c = 1; c < CHUNKS && i < ENTRIES; c++) {
        size_t at = c * CHUNK, end = at + CHUNK;
        for (; at + 4 <= end && i < ENTRIES; i++) {
            size_t k = known;
            if (dead && known > 0 && draw() % dead == 0) {
                k = draw() % known;
                versions[k]++;
            } else {
                keys[known] = draw();
                versions[known++] = 1;
            }
            if (deletes && draw() % deletes == 0) {
                w[at] = 2 | versions[k] << 4;
                w[at + 1] = keys[k];
                at += 2;
            } else {
                w[at] = 1 | versions[k] << 4 | (uint64_t)16 << 24;
                w[at + 1] = keys[k];
                w[at + 2] = draw();
                w[at + 3] = draw();
                at += 4;
            }
        }
        w[8 + c] = 1 | (uint64_t)((at - c * CHUNK + 7) / 8) << 8;
    }
    free(keys);
    free(versions);
    return w;
}

static void measure(const char *what, unsigned dead, unsigned deletes)
{
    static zkv_record record;
    uint64_t *image = make_image(dead, deletes), *table = calloc(ZKV_TABLE_WORDS_MAX, 8);
    double best = 1e18;
    zkv_report r = zkv_open(&record, (uint8_t *)image, CHUNKS * CHUNK * 8, table, ZKV_TABLE_WORDS_MAX);
    if (r.kind != ZKV_OPENED) {
        fprintf(stderr, "%s: not opened\n", what);
        exit(1);
    }
    for (int k = 0; k < ROUNDS; k++) {
        double t = now();
        r = zkv_choose(&record, (uint8_t *)image, CHUNKS * CHUNK * 8, table, ZKV_TABLE_WORDS_MAX);
        t = now() - t;
        best = t < best ? t : best;
    }
    printf("%-34s %9.2f us   (report %d, %llu)\n", what, best / 1000, (int)r.kind, (unsigned long long)r.first);
    free(image);
    free(table);
}

int main(void)
{
    measure("no entry superseded", 0, 0);
    measure("one in 20 superseded", 20, 0);
    measure("one in 2 superseded", 2, 0);
    measure("one in 20, one in 1,000 a delete", 20, 1000);
    measure("one in 20, one in 20 a delete", 20, 20);
    return 0;
}
