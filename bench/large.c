// Large chunks (65,536 bytes) beside plain C, in one run. Ours are the public calls, each run to its end by zkv_run with
// its write-backs and fences. Plain C makes the same stores, write-backs and fences, from a list that was noted down
// while the same calls were stepped; for an opening it is one pass that tests header, directory and every entry and
// fills a plain hash.
// - put of 16 and of 60,000 bytes with its commit, in a register of 504 chunks (33 MB) with 100 labels
// - cleaning of a chunk of 1,024 labels of 48 bytes, half of them live; and of one with 4,096 deletes that are all kept,
//   with what half as many take: twice as many are to take about twice as long
// - opening of 33 MB: 503 chunks full of entries, 2,060,288 of them, of 60,000 keys; and refused, as the lent table is
//   too small for one key or for most
// The middle of the runs counts; the sides take turns. Ratios are our time over C's.
// large [RUNS]         runs of each row (21)
#define _GNU_SOURCE
#include <inttypes.h>
#include <stdbool.h>
#include <stdio.h>
#include <stdlib.h>
#include <string.h>
#include <sys/mman.h>
#include <time.h>

#include "device.h"
#include "zitskvoze.h"

enum {
    CHUNK = ZKV_LARGE_CHUNK_BYTES,
    CHUNK_WORDS = CHUNK / 8,
    LINES = CHUNK / ZKV_LINE_BYTES,
    MOST_BYTES = ZKV_CHUNKS_MAX * CHUNK,
    FEW_CHUNKS = 8,                     // of the registers that are cleaned
    LABELS = 100,
    SHORT_PUTS = 200,
    LONG_PUTS = 10,
    LONG = 60000,
    DELETES = CHUNK_WORDS / 2,          // that a chunk holds
    KEYS = 60000,
    STRIDE = 7919,
    SLOTS = 131072,
    RUNS_MOST = 1000
};

static uint8_t *image, *other, *kept;
static size_t bytes = MOST_BYTES, words = ZKV_TABLE_WORDS_MAX;
static uint64_t table[ZKV_TABLE_WORDS_MAX], kept_table[ZKV_TABLE_WORDS_MAX];
static zkv_record record, kept_record;
static uint8_t value[LONG];
static enum write_back how;
static int runs = 21;

#define LENT &record, image, bytes, table, words

static double now(void)
{
    struct timespec t;
    clock_gettime(CLOCK_MONOTONIC, &t);
    return (double)t.tv_sec * 1e9 + (double)t.tv_nsec;
}

static void *memory(size_t length)
{
    void *at = mmap(NULL, length, PROT_READ | PROT_WRITE, MAP_PRIVATE | MAP_ANONYMOUS | MAP_POPULATE, -1, 0);
    if (at == MAP_FAILED) {
        perror("large: memory");
        exit(1);
    }
    return at;
}

static zkv_report ended(zkv_report r)
{
    if (r.kind == ZKV_REFUSED) {
        printf("refused %d\n", (int)r.first);
        exit(1);
    }
    return r;
}

static void finish(zkv_report r)
{
    for (; r.kind >= ZKV_BEGUN && r.kind <= ZKV_FENCE; r = zkv_run(LENT)) {
        if (r.kind == ZKV_FLUSH) {
            write_back_line(how, image + ZKV_LINE_BYTES * r.first);
        } else if (r.kind == ZKV_FENCE) {
            store_fence();
        }
    }
    ended(r);
}

// THE ACTIONS OF CALLS, noted down
static zkv_report *noted;
static size_t notes, room;

static void note(zkv_report r)
{
    for (ended(r); r.kind != ZKV_END; r = ended(zkv_step(LENT))) {
        if (r.kind == ZKV_BEGUN) {
            continue;
        }
        if (notes == room) {
            room = room == 0 ? 65536 : 2 * room;
            noted = realloc(noted, room * sizeof *noted);
            if (noted == NULL) {
                exit(1);
            }
        }
        noted[notes++] = r;
    }
}

// The same stores, write-backs and fences, on memory of its own.
static void plain_actions(void)
{
    for (size_t i = 0; i < notes; i++) {
        switch (noted[i].kind) {
        case ZKV_STORE:
            *(volatile uint64_t *)(void *)(other + 8 * noted[i].first) = noted[i].second;
            break;
        case ZKV_FLUSH:
            write_back_line(how, other + ZKV_LINE_BYTES * noted[i].first);
            break;
        default:
            store_fence();
        }
    }
}

// ROWS
static double ours[RUNS_MOST], plain[RUNS_MOST];

static int by_size(const void *a, const void *b)
{
    double x = *(const double *)a, y = *(const double *)b;
    return (x > y) - (x < y);
}

static double middle(double *t)
{
    qsort(t, (size_t)runs, sizeof *t, by_size);
    return t[runs / 2];
}

static void row(const char *name, double each)
{
    double a = middle(ours) / each, b = middle(plain) / each;
    printf("%-58s ours %11.2f us   C %11.2f us   ratio %.2f\n", name, a / 1e3, b / 1e3, a / b);
}

static void fresh(size_t chunks, size_t table_words)
{
    bytes = chunks * CHUNK;
    words = table_words;
    memset(&record, 0, sizeof record);
    finish(zkv_format(LENT, ZKV_POWER_LARGE, 0, 0, 0, 0));
    finish(zkv_open(LENT));
}

// PUTS
static void measure_puts(const char *name, size_t length, uint64_t puts)
{
    fresh(ZKV_CHUNKS_MAX, 8192);
    for (uint64_t k = 0; k < LABELS; k++) {
        finish(zkv_put(LENT, k, value, length));
        finish(zkv_commit(LENT));
    }
    for (int r = 0; r < runs; r++) {
        notes = 0;
        for (uint64_t i = 0; i < puts; i++) {
            note(zkv_put(LENT, i * 37 % LABELS, value, length));
            note(zkv_commit(LENT));
        }
        double a = now();
        for (uint64_t i = 0; i < puts; i++) {
            finish(zkv_put(LENT, i * 37 % LABELS, value, length));
            finish(zkv_commit(LENT));
        }
        double b = now();
        plain_actions();
        double c = now();
        ours[r] = b - a;
        plain[r] = c - b;
    }
    row(name, (double)puts);
}

// CLEANINGS, each from the same image, table and record
static void keep(void)
{
    memcpy(kept, image, bytes);
    memcpy(kept_table, table, 8 * words);
    kept_record = record;
}

static void restore(void)
{
    memcpy(image, kept, bytes);
    memcpy(table, kept_table, 8 * words);
    record = kept_record;
}

static double measure_cleaning(const char *name, size_t chunk)
{
    static double begins[RUNS_MOST];
    keep();
    notes = 0;
    note(zkv_clean(LENT, chunk));
    for (int r = 0; r < runs; r++) {
        restore();
        double a = now();
        zkv_report begun = zkv_clean(LENT, chunk);
        double b = now();
        finish(begun);
        double c = now();
        plain_actions();
        double d = now();
        ours[r] = c - a;
        begins[r] = b - a;
        plain[r] = d - c;
    }
    row(name, 1);
    double begin = middle(begins);
    printf("%-58s ours %11.2f us\n", "  of this its begin", begin / 1e3);
    return begin;
}

static void measure_half_live(void)
{
    fresh(FEW_CHUNKS, 16384);
    for (uint64_t k = 0; k < LINES + LINES / 2; k++) {          // a line each: chunk 1 full, then every second one again
        finish(zkv_put(LENT, k < LINES ? k : 2 * (k - LINES), value, 48));
        finish(zkv_commit(LENT));
    }
    measure_cleaning("cleaning a chunk, half of 1,024 labels of 48 bytes live", 1);
}

static void set(uint64_t word, uint64_t x)
{
    memcpy(image + 8 * word, &x, 8);
}

// An image as if the calls had made it: chunk 1 has an empty label of each key, chunk 2 its delete.
static double measure_deletes(uint64_t deletes, const char *name)
{
    fresh(FEW_CHUNKS, 4 * DELETES);
    for (uint64_t k = 0; k < deletes; k++) {
        set(CHUNK_WORDS + 2 * k, 1 | 1 << 4);
        set(CHUNK_WORDS + 2 * k + 1, k);
        set(2 * CHUNK_WORDS + 2 * k, 2 | 2 << 4);
        set(2 * CHUNK_WORDS + 2 * k + 1, k);
    }
    set(9, 1 | deletes / 4 << 8);
    set(10, 1 | deletes / 4 << 8);
    finish(zkv_open(LENT));
    return measure_cleaning(name, 2);
}

// OPENINGS
static uint64_t hash_key[SLOTS], hash_place[SLOTS];

static uint64_t get(uint64_t word)
{
    uint64_t x;
    memcpy(&x, image + 8 * word, 8);
    return x;
}

static int plain_open(void)
{
    uint64_t sum = 0;
    memset(hash_place, 0, sizeof hash_place);
    for (uint64_t i = 0; i < 8; i++) {
        sum += get(i);
    }
    if (sum != 0 || get(1) << get(2) != bytes) {
        return 2;
    }
    for (uint64_t c = 0; c < ZKV_CHUNKS_MAX; c++) {
        uint64_t d = get(8 + c), role = d & 3, n = d >> 8;
        if (role > 1 || (role == 0 && d != 0) || (role == 1 && (n == 0 || n > LINES))) {
            return 3;
        }
    }
    for (uint64_t c = 1; c < ZKV_CHUNKS_MAX; c++) {
        for (uint64_t w = CHUNK_WORDS * c, end = w + 8 * (get(8 + c) >> 8); w < end;) {
            uint64_t first = get(w), version = first >> 4 & 0xFFFFF;
            if (first == 0) {
                w++;
                continue;
            }
            if ((first & 15) != 1 || version == 0 || first >> 24 > ZKV_LOG_VALUE_MAX || w + 2 > end) {
                return 4;
            }
            uint64_t key = get(w + 1), s = key * 0x9E3779B97F4A7C15u >> 47;
            while (hash_place[s] != 0 && hash_key[s] != key) {
                s = (s + 1) & (SLOTS - 1);
            }
            if (hash_place[s] == 0 || (get(hash_place[s]) >> 4 & 0xFFFFF) < version) {
                hash_key[s] = key;
                hash_place[s] = w;
            }
            w += 2 + ((first >> 24) + 7) / 8;
        }
    }
    return 0;
}

// Empty labels in every word behind chunk 0: each key is put again and again.
static void fill_with_entries(void)
{
    fresh(ZKV_CHUNKS_MAX, ZKV_TABLE_WORDS_MAX);
    for (uint64_t c = 1, i = 0; c < ZKV_CHUNKS_MAX; c++) {
        set(8 + c, 1 | LINES << 8);
        for (uint64_t e = 0; e < DELETES; e++, i++) {
            set(CHUNK_WORDS * c + 2 * e, 1 | (1 + i / KEYS) << 4);
            set(CHUNK_WORDS * c + 2 * e + 1, i % KEYS * STRIDE);
        }
    }
}

// An opening with so many words of the table: which answer is expected.
static void measure_opening(const char *name, size_t table_words, uint64_t refusal)
{
    words = table_words;
    for (int r = 0; r < runs; r++) {
        double a = now();
        zkv_report answer = zkv_open(LENT);
        double b = now();
        int refused = plain_open();
        double c = now();
        if (answer.kind != (refusal == 0 ? (uint64_t)ZKV_OPENED : (uint64_t)ZKV_REFUSED) || answer.first != refusal || refused != 0) {
            printf("an opening answers %d %d, plain C %d\n", (int)answer.kind, (int)answer.first, refused);
            exit(1);
        }
        ours[r] = b - a;
        plain[r] = c - b;
    }
    row(name, 1);
}

int main(int count, char **word)
{
    if (count > 1) {
        runs = atoi(word[1]);
    }
    if (runs < 1 || runs > RUNS_MOST) {
        fputs("large [RUNS]\n", stderr);
        return 2;
    }
    how = best_write_back();
    image = memory(MOST_BYTES);
    other = memory(MOST_BYTES);
    kept = memory(FEW_CHUNKS * CHUNK);
    for (size_t i = 0; i < sizeof value; i++) {
        value[i] = (uint8_t)(37 * i + 11);
    }
    printf("large chunks, lines written back by %s, the middle of %d runs\n", write_back_name(how), runs);
    measure_puts("durable put of 16 bytes", 16, SHORT_PUTS);
    measure_puts("durable put of 60,000 bytes", LONG, LONG_PUTS);
    measure_half_live();
    double half = measure_deletes(DELETES / 2, "cleaning a chunk, 2,048 deletes kept");
    double whole = measure_deletes(DELETES, "cleaning a chunk, 4,096 deletes kept");
    printf("%-58s %16.2f\n", "  its begin, over that of half as many", whole / half);
    fill_with_entries();
    measure_opening("opening 33 MB, 2,060,288 entries of 60,000 keys", ZKV_TABLE_WORDS_MAX, 0);
    measure_opening("  refused (7), a table for one key fewer", 4 * (KEYS - 1), ZKV_TABLE_FULL);
    measure_opening("  refused (7), a table for 100 keys", 400, ZKV_TABLE_FULL);
    return 0;
}
