// Instructions of the public calls, counted by callgrind between two marks: they do not depend on the machine's speed.
// instructions ROW      makes the calls of one row, and prints how many operations stand between the marks
#include <stdint.h>
#include <stdio.h>
#include <stdlib.h>
#include <string.h>
#include <valgrind/callgrind.h>

#include "zitskvoze.h"

enum { CHUNKS = 504, BYTES = CHUNKS * ZKV_CHUNK_BYTES, TABLE = 262144, KEYS = 100, LOOKS = 400, ENTRIES = 60000, CLEANINGS = 20 };

static _Alignas(4096) uint8_t image[BYTES];
static uint64_t table[TABLE];
static zkv_record record;
static uint8_t value[ZKV_VALUE_MAX];
static int by_steps;

#define LENT &record, image, BYTES, table, TABLE

static void finish_by_steps(uint64_t kind)
{
    while (kind >= ZKV_BEGUN && kind <= ZKV_FENCE) {
        kind = zkv_step(LENT).kind;
    }
}

// Carries a call out, of whose report this is the kind, by runs up to its end; flushes and fences are left out.
static inline void finish(uint64_t kind)
{
    if (kind == ZKV_REFUSED) {
        fprintf(stderr, "a call was refused\n");
        exit(1);
    }
    if (by_steps) {
        finish_by_steps(kind);
        return;
    }
    while (kind >= ZKV_BEGUN && kind <= ZKV_FENCE) {
        kind = zkv_run(LENT).kind;
    }
}

// A batch of puts and its commit: so many keys, spread by a multiplication, from number `first` on.
static void batch(uint64_t first, size_t items, size_t length)
{
    for (size_t i = 0; i < items; i++) {
        finish(zkv_put(LENT, (first + i) * 0x9E3779B97F4A7C15u, value, length).kind);
    }
    finish(zkv_commit(LENT).kind);
}

static int puts_counted(size_t items, size_t length)
{
    for (uint64_t k = 0; k < KEYS; k++) {
        batch(items * k, items, length);
    }
    CALLGRIND_START_INSTRUMENTATION;
    for (uint64_t i = 0; i < KEYS; i++) {
        batch(items * (37 * i % KEYS), items, length);
    }
    CALLGRIND_STOP_INSTRUMENTATION;
    return KEYS;
}

static int looks_counted(size_t length)
{
    uint64_t start, size, sum = 0;
    for (uint64_t k = 0; k < LOOKS; k++) {
        batch(k, 1, length);
    }
    CALLGRIND_START_INSTRUMENTATION;
    for (uint64_t k = 0; k < LOOKS; k++) {
        sum += zkv_look_up(LENT, k * 0x9E3779B97F4A7C15u, &start, &size) + start + size;
    }
    CALLGRIND_STOP_INSTRUMENTATION;
    return sum != 0 ? LOOKS : 0;
}

// The same with versions: look-ups that hand them out, and puts for the version that stands, which is 1.
static int versions_counted(size_t length)
{
    uint64_t start, size, version, sum = 0;
    for (uint64_t k = 0; k < LOOKS; k++) {
        batch(k, 1, length);
    }
    CALLGRIND_START_INSTRUMENTATION;
    for (uint64_t k = 0; k < LOOKS; k++) {
        sum += zkv_look_up_version(LENT, k * 0x9E3779B97F4A7C15u, &start, &size, &version) + start + size + version;
    }
    CALLGRIND_STOP_INSTRUMENTATION;
    return sum != 0 ? LOOKS : 0;
}

static int named_counted(size_t length)
{
    for (uint64_t k = 0; k < KEYS; k++) {
        batch(k, 1, length);
    }
    CALLGRIND_START_INSTRUMENTATION;
    for (uint64_t i = 0; i < KEYS; i++) {
        finish(zkv_put_at(LENT, 37 * i % KEYS * 0x9E3779B97F4A7C15u, value, length, 1).kind);
        finish(zkv_commit(LENT).kind);
    }
    CALLGRIND_STOP_INSTRUMENTATION;
    return KEYS;
}

static int opening_counted(void)
{
    for (uint64_t k = 0; k < ENTRIES / 16; k++) {
        batch(16 * k, 16, 8);
    }
    CALLGRIND_START_INSTRUMENTATION;
    finish(zkv_open(LENT).kind);
    CALLGRIND_STOP_INSTRUMENTATION;
    return ENTRIES;
}

// Deletes of present keys, each with its commit.
static int deletes_counted(void)
{
    for (uint64_t k = 0; k < KEYS; k++) {
        batch(k, 1, 16);
    }
    CALLGRIND_START_INSTRUMENTATION;
    for (uint64_t k = 0; k < KEYS; k++) {
        finish(zkv_delete(LENT, k * 0x9E3779B97F4A7C15u).kind);
        finish(zkv_commit(LENT).kind);
    }
    CALLGRIND_STOP_INSTRUMENTATION;
    return KEYS;
}

// Cleanings of log chunks of which about half is kept: choosing, begin, and the runs to the end.
static int cleanings_counted(void)
{
    for (uint64_t k = 0; k < 200; k++) {
        batch(16 * k, 16, 16);
    }
    for (uint64_t k = 0; k < 200; k += 2) {
        batch(16 * k, 16, 16);
    }
    CALLGRIND_START_INSTRUMENTATION;
    for (int i = 0; i < CLEANINGS; i++) {
        zkv_report chosen = zkv_choose(LENT);
        finish(zkv_clean(LENT, chosen.first).kind);
    }
    CALLGRIND_STOP_INSTRUMENTATION;
    return CLEANINGS;
}

int main(int count, char **words)
{
    const char *row = count == 2 ? words[1] : "";
    int operations = 0;
    memset(value, 7, sizeof value);
    finish(zkv_format(LENT, ZKV_POWER_SMALL, 0, 0, 0, 0).kind);
    finish(zkv_open(LENT).kind);
    by_steps = strcmp(row, "step16") == 0;
    if (strncmp(row, "put", 3) == 0) {
        operations = puts_counted(1, (size_t)atoi(row + 3));
    } else if (by_steps) {
        operations = puts_counted(1, 16);
    } else if (strcmp(row, "batch16") == 0) {
        operations = puts_counted(16, 16);
    } else if (strncmp(row, "look", 4) == 0) {
        operations = looks_counted((size_t)atoi(row + 4));
    } else if (strncmp(row, "version", 7) == 0) {
        operations = versions_counted((size_t)atoi(row + 7));
    } else if (strncmp(row, "named", 5) == 0) {
        operations = named_counted((size_t)atoi(row + 5));
    } else if (strcmp(row, "open") == 0) {
        operations = opening_counted();
    } else if (strcmp(row, "delete") == 0) {
        operations = deletes_counted();
    } else if (strcmp(row, "clean") == 0) {
        operations = cleanings_counted();
    }
    printf("%d\n", operations);
    return operations == 0;
}
