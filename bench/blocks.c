// Large values beside plain C floors, in one run: durable puts of 1,000 and 4,088 bytes, look-ups, openings, and the
// search for a block. Ours are the public calls: zkv_put and zkv_commit, each run to its end by zkv_run with its
// write-backs and fences; zkv_look_up; zkv_open.
// - put: plain C makes the same stores, write-backs and fences (the value's words and their lines, a line of the log,
//   the directory word).
// - look-up: one probe of a plain hash, one read of the entry, one of the block's length word, by one call as ours is
//   (bench/opening.c has short values the same way); the same inlined into the caller's loop stands beside it. Keys are
//   known beforehand, so that the processor works on several look-ups at once; or the next one waits for the value.
// - opening: one pass that tests header, directory, every entry and every block (length, fill) and fills a plain hash.
// Ratios: our time over C's for puts and openings, C's time over ours for look-ups. The best of the rounds counts; the
// sides take turns.
// blocks [ROUNDS]      rounds of each row (15)
#define _GNU_SOURCE
#include <stdint.h>
#include <stdio.h>
#include <stdlib.h>
#include <string.h>
#include <time.h>

#include "device.h"
#include "zitskvoze.h"

enum {
    CHUNKS = 504,
    BYTES = CHUNKS * ZKV_CHUNK_BYTES,
    CHUNK_WORDS = 512,
    TABLE = 8192,
    MANY_TABLE = 16384,
    KEYS = 100,
    LIVE = 400,
    MANY = 3500,
    MANY_BYTES = 504,
    PUTS = 200,
    STRIDE = 7919,
    SLOTS = 4096,
    MANY_SLOTS = 8192
};

static _Alignas(4096) uint8_t image[BYTES], other[BYTES];
static uint64_t table[MANY_TABLE];
static size_t lent = TABLE;
static zkv_record record;
static uint8_t value[ZKV_VALUE_MAX];
static enum write_back how;

#define LENT &record, image, BYTES, table, lent

static double now(void)
{
    struct timespec t;
    clock_gettime(CLOCK_MONOTONIC, &t);
    return (double)t.tv_sec * 1e9 + (double)t.tv_nsec;
}

static void finish(zkv_report r)
{
    for (; r.kind >= ZKV_BEGUN && r.kind <= ZKV_FENCE; r = zkv_run(LENT)) {
        if (r.kind == ZKV_FLUSH) {
            write_back_line(how, image + ZKV_LINE_BYTES * r.first);
        } else if (r.kind == ZKV_FENCE) {
            store_fence();
        }
    }
    if (r.kind == ZKV_REFUSED) {
        printf("refused %d\n", (int)r.first);
        exit(1);
    }
}

static void fresh(void)
{
    memset(&record, 0, sizeof record);
    finish(zkv_format(LENT, ZKV_POWER_SMALL, 0, 0, 0, 0));
    finish(zkv_open(LENT));
}

static void put(uint64_t key, size_t length)
{
    finish(zkv_put(LENT, key, value, length));
    finish(zkv_commit(LENT));
}

// PUTS. Plain C puts its values into blocks of their own in turn, its lines one behind the other, from chunk 300 on.
static uint64_t line_at;

static void store(uint64_t word, uint64_t v)
{
    *(volatile uint64_t *)(other + 8 * word) = v;
}

static void plain_put(uint64_t key, size_t length)
{
    uint64_t words = 1 + (length + 7) / 8, start = CHUNK_WORDS * (1 + key), x = length;
    for (uint64_t i = 0; i < words; i++) {
        store(start + i, x);
        memcpy(&x, value + 8 * i, 8);
    }
    for (uint64_t i = 0; i < (words + 7) / 8; i++) {
        write_back_line(how, other + 8 * start + ZKV_LINE_BYTES * i);
    }
    uint64_t line = CHUNK_WORDS * 300 + 8 * (line_at++ % (64 * 200));
    for (uint64_t i = 0; i < 8; i++) {
        store(line + i, i == 0 ? 5 | line << 24 : i == 1 ? key : 0);
    }
    write_back_line(how, other + 8 * line);
    store_fence();
    store(8 + line / CHUNK_WORDS, 1 | (line_at % 64) << 8);
    write_back_line(how, other + 64 + line / CHUNK_WORDS);
    store_fence();
}

static void measure_puts(size_t length, int rounds)
{
    double ours = 1e18, plain = 1e18;
    fresh();
    for (uint64_t k = 0; k < KEYS; k++) {
        put(k, length);
        plain_put(k, length);
    }
    for (int r = 0; r < rounds; r++) {
        if (r % 8 == 7) {
            fresh();
            for (uint64_t k = 0; k < KEYS; k++) {
                put(k, length);
            }
        }
        double a = now();
        for (uint64_t i = 0; i < PUTS; i++) {
            put(i * 37 % KEYS, length);
        }
        double b = now();
        for (uint64_t i = 0; i < PUTS; i++) {
            plain_put(i * 37 % KEYS, length);
        }
        double c = now();
        ours = b - a < ours ? b - a : ours;
        plain = c - b < plain ? c - b : plain;
    }
    printf("durable put of %d bytes               ours %8.1f ns   C %8.1f ns   ratio %.2f\n", (int)length, ours / PUTS,
           plain / PUTS, ours / plain);
}

// OPENING and LOOK-UP of 400 values of 4,088 bytes
static uint64_t hash_key[MANY_SLOTS], hash_place[MANY_SLOTS], slots = SLOTS;
static int shift = 52;

static uint64_t word_of(uint64_t w)
{
    uint64_t v;
    memcpy(&v, image + 8 * w, 8);
    return v;
}

static uint64_t slot_of(uint64_t key)
{
    uint64_t s = key * 0x9E3779B97F4A7C15u >> shift;
    while (hash_place[s] != 0 && hash_key[s] != key) {
        s = (s + 1) & (slots - 1);
    }
    return s;
}

static int plain_open(void)
{
    uint64_t sum = 0;
    memset(hash_place, 0, slots * sizeof *hash_place);
    for (uint64_t i = 0; i < 8; i++) {
        sum += word_of(i);
    }
    if (sum != 0 || word_of(1) != CHUNKS) {
        return 2;
    }
    for (uint64_t c = 0; c < CHUNKS; c++) {
        uint64_t d = word_of(8 + c), role = d & 3, n = d >> 8;
        if (role == 3 || (role == 0 && d != 0) || (role == 1 && (n == 0 || n > 64)) ||
            (role == 2 && (n < 2 || n > 16))) {
            return 3;
        }
    }
    for (uint64_t c = 1; c < CHUNKS; c++) {
        if ((word_of(8 + c) & 3) != 1) {
            continue;
        }
        for (uint64_t w = CHUNK_WORDS * c, end = w + 8 * (word_of(8 + c) >> 8); w < end;) {
            uint64_t first = word_of(w);
            if (first == 0) {
                w++;
                continue;
            }
            uint64_t kind = first & 15;
            if ((kind != 1 && kind != 2 && kind != 5) || (first >> 4 & 0xFFFFF) == 0 || w + 2 > end) {
                return 4;
            }
            uint64_t s = slot_of(word_of(w + 1));
            if (hash_place[s] == 0 || (word_of(hash_place[s]) >> 4 & 0xFFFFF) < (first >> 4 & 0xFFFFF)) {
                hash_key[s] = word_of(w + 1);
                hash_place[s] = w;
            }
            w += 2 + (kind == 1 ? ((first >> 24) + 7) / 8 : 0);
        }
    }
    for (uint64_t s = 0; s < slots; s++) {
        uint64_t first = hash_place[s] == 0 ? 0 : word_of(hash_place[s]);
        if ((first & 15) == 5) {
            uint64_t unit = first >> 24, length = word_of(32 * unit);
            if (length < 257 || length > ZKV_VALUE_MAX ||
                (length % 8 != 0 && word_of(32 * unit + 1 + length / 8) >> 8 * (length % 8) != 0)) {
                return 5;
            }
        }
    }
    return 0;
}

// The value's length, and its first byte's number through `start`. C's trusts hash and image.
static inline uint64_t look_inlined(uint64_t key, uint64_t *start)
{
    uint64_t unit = word_of(hash_place[slot_of(key)]) >> 24;
    *start = 256 * unit + 8;
    return word_of(32 * unit);
}

__attribute__((noinline, noclone)) static uint64_t look_plain(uint64_t key, uint64_t *start)
{
    return look_inlined(key, start);
}

static inline uint64_t look_ours(uint64_t key, uint64_t *start)
{
    uint64_t length = 0;
    zkv_look_up(LENT, key, start, &length);
    return length;
}

// The look-ups of all keys, in an order of their own, and the time of one. `mask` is 0: where they wait, the next key
// needs the value's first byte.
static volatile uint64_t no_bits = 0;
static uint64_t answers, order[MANY], looked;

static void shuffle(uint64_t n)
{
    uint64_t x = 88172645463325252u;
    looked = n;
    for (uint64_t i = 0; i < n; i++) {
        order[i] = i * STRIDE;
    }
    for (uint64_t i = n - 1; i > 0; i--) {
        x ^= x << 13;
        x ^= x >> 7;
        x ^= x << 17;
        uint64_t j = x % (i + 1), k = order[i];
        order[i] = order[j];
        order[j] = k;
    }
}

#define DEFINE_LOOKS(name, look)                                                                                        \
    __attribute__((noinline)) static double name(int waiting)                                                           \
    {                                                                                                                   \
        uint64_t sum = 0, start, mask = no_bits, byte = 0;                                                              \
        double before = now();                                                                                          \
        for (uint64_t i = 0, n = looked; i < n; i++) {                                                                  \
            sum += look(order[i + (byte & mask)], &start) + 3 * start;                                                  \
            if (waiting) {                                                                                              \
                byte = image[start];                                                                                    \
            }                                                                                                           \
        }                                                                                                               \
        double after = now();                                                                                           \
        answers = sum;                                                                                                  \
        return (after - before) / (double)looked;                                                                       \
    }

DEFINE_LOOKS(looks_ours, look_ours)
DEFINE_LOOKS(looks_plain, look_plain)
DEFINE_LOOKS(looks_inlined, look_inlined)

static double (*const sides[3])(int) = {looks_ours, looks_plain, looks_inlined};

static void measure_looks(const char *name, int waiting, int rounds)
{
    double best[3] = {1e18, 1e18, 1e18};
    uint64_t sum[3];
    for (int r = 0; r < 40 * rounds; r++) {
        for (int side = 0; side < 3; side++) {
            double t = sides[side](waiting);
            sum[side] = answers;
            best[side] = t < best[side] ? t : best[side];
        }
    }
    printf("look-up among %5d, %-12s          ours %8.1f ns   C %8.1f ns   C over ours %.2f   (inlined C %.1f ns, %.2f)\n",
           (int)looked, name, best[0], best[1], best[1] / best[0], best[2], best[2] / best[0]);
    if (sum[0] != sum[1] || sum[0] != sum[2]) {
        printf("the look-ups differ\n");
        exit(1);
    }
}

static void measure_reads(int rounds)
{
    double ours = 1e18, plain = 1e18, search = 1e18;
    fresh();
    for (uint64_t k = 0; k < LIVE; k++) {
        put(k * STRIDE, ZKV_VALUE_MAX);
    }
    for (int r = 0; r < 4 * rounds; r++) {
        double a = now();
        finish(zkv_open(LENT));
        double b = now();
        int wrong = plain_open();
        double c = now();
        zkv_report p = zkv_put(LENT, 1, value, ZKV_VALUE_MAX);
        double d = now();
        finish(p);
        zkv_abandon(LENT);
        if (wrong != 0) {
            printf("plain C refuses with %d\n", wrong);
            exit(1);
        }
        ours = b - a < ours ? b - a : ours;
        plain = c - b < plain ? c - b : plain;
        search = d - c < search ? d - c : search;
    }
    printf("opening, 400 values of 4,088 bytes      ours %8.1f us   C %8.1f us   ratio %.2f\n", ours / 1e3, plain / 1e3,
           ours / plain);
    shuffle(LIVE);
    measure_looks("overlapped", 0, rounds);
    measure_looks("one by one", 1, rounds);
    printf("begin of a put behind 400 full data chunks     %8.1f us\n", search / 1e3);
}

// 3,500 values of 504 bytes: table, entries and blocks no longer stay in the nearest cache.
static void measure_many(int rounds)
{
    lent = MANY_TABLE;
    slots = MANY_SLOTS;
    shift = 51;
    fresh();
    for (uint64_t k = 0; k < MANY; k++) {
        put(k * STRIDE, MANY_BYTES);
    }
    if (plain_open() != 0) {
        printf("plain C refuses\n");
        exit(1);
    }
    shuffle(MANY);
    measure_looks("overlapped", 0, rounds);
    measure_looks("one by one", 1, rounds);
}

int main(int count, char **word)
{
    int rounds = count > 1 ? atoi(word[1]) : 15;
    how = best_write_back();
    for (size_t i = 0; i < sizeof value; i++) {
        value[i] = (uint8_t)(37 * i + 11);
    }
    measure_puts(1000, rounds);
    measure_puts(ZKV_VALUE_MAX, rounds);
    measure_reads(rounds);
    measure_many(rounds);
    return 0;
}
