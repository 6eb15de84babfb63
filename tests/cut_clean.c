/* Makes the image of a register whose cleaning was cut by a power failure just before the cleaned chunk is freed: no
 * chunk is free, and the labels of one stand twice. What clean.sh does with it would be stuck for good in a host that
 * commits first.
 *
 * cut_clean FILE [stuck]   4 chunks; labels 1 to 64 of a line each; 1 deleted, 2 to 32 printed anew, 65 to 96 put; then
 *                      the chunk that zkv_choose names is cleaned, up to its last three actions. With `stuck` the image
 *                      is opened and 97 to 128 are put, as by a host that does not ask for a free chunk first
 * Exit status: 0 the image is in FILE; 1 it is not. */
#include <inttypes.h>
#include <stdbool.h>
#include <stdio.h>
#include <stdlib.h>
#include <string.h>

#include "zitskvoze.h"

enum { CHUNKS = 4, LINE_LABEL = 48, FREEING = 3 };

static _Alignas(64) uint8_t image[CHUNKS * ZKV_CHUNK_BYTES];
static uint64_t table[1024];
static zkv_record record;

#define LENT &record, image, sizeof image, table, sizeof table / sizeof *table

static void fail(const char *what, zkv_report r)
{
    fprintf(stderr, "cut_clean: %s: %" PRIu64 " %" PRIu64 "\n", what, r.kind, r.first);
    exit(1);
}

/* All steps of a begun call but the last so many actions. Nothing is durable here, so that reports ask for nothing. */
static void steps(const char *what, zkv_report r, uint64_t left)
{
    if (r.kind != ZKV_BEGUN || r.first < left) {
        fail(what, r);
    }
    for (uint64_t n = left == 0 ? r.first + 1 : r.first - left; n > 0; n--) {
        r = zkv_step(LENT);
        if (r.kind == ZKV_REFUSED || r.kind == ZKV_IDLE) {
            fail(what, r);
        }
    }
}

static void put(uint64_t key, const char *word)
{
    char label[LINE_LABEL + 1];
    snprintf(label, sizeof label, "%.5s %-42" PRIu64, word, key);
    steps("put", zkv_put(LENT, key, (const uint8_t *)label, LINE_LABEL), 0);
    steps("commit", zkv_commit(LENT), 0);
}

static void puts_of(uint64_t first, uint64_t last)
{
    for (uint64_t key = first; key <= last; key++) {
        put(key, "label");
    }
}

static void opening(void)
{
    zkv_report r = zkv_open(LENT);
    if (r.kind != ZKV_OPENED) {
        fail("open", r);
    }
}

int main(int count, char **argument)
{
    bool stuck = count == 3 && strcmp(argument[2], "stuck") == 0;
    if (count != 2 && !stuck) {
        fputs("usage: cut_clean FILE [stuck]\n", stderr);
        return 1;
    }
    steps("format", zkv_format(LENT, ZKV_POWER_SMALL, 0, 0, 0, 0), 0);
    opening();
    puts_of(1, 64);
    steps("delete", zkv_delete(LENT, 1), 0);
    steps("commit", zkv_commit(LENT), 0);
    for (uint64_t key = 2; key <= 32; key++) {
        put(key, "print");
    }
    puts_of(65, 96);
    zkv_report r = zkv_choose(LENT);
    if (r.kind != ZKV_CHOSEN || zkv_free_chunks(image, sizeof image) != 1) {
        fail("choose", r);
    }
    steps("clean", zkv_clean(LENT, r.first), FREEING);
    if (stuck) {
        opening();
        puts_of(97, 128);
    }
    FILE *to = fopen(argument[1], "wb");
    if (to == NULL || fwrite(image, 1, sizeof image, to) != sizeof image || fclose(to) != 0) {
        perror(argument[1]);
        return 1;
    }
    return 0;
}
