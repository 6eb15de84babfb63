// Opening and look-up beside plain C floors, in one run. Ours are the public calls of the archive that a host links,
// over a record as a host keeps it: zkv_open and zkv_look_up.
// The floor of an opening checks the same things in one pass over the same image (header sum, directory words, every
// entry's first word, length and fill) and fills a plain open-addressing hash. The floor of a look-up is one probe of
// that hash and one read of the entry: it trusts table and image. Two more look-ups in C stand beside it, for whoever
// asks what the tests cost and what the table's word saves: one over the proved table that makes the tests that the
// proved one makes for any lent memory (phase and lengths of the record, the value within the image), and one without
// tests whose hash holds the value's length, so that it reads no entry. Look-ups are timed in three rows, each side
// with the same loop around it:
// - place: the keys are known beforehand, so that the processor works on several look-ups at once; only where the value
//   lies is used.
// - copied: the same, and the value's bytes are copied out into a buffer, as for a printer.
// - waiting: one by one; each key is known only once a byte of the value before was read, as for a clerk.
// Ratios: our time over C's for an opening (at most 2 is the aim), C's time over ours for a look-up (at least 0.7 is
// the aim). The best of many rounds counts, for look-ups that of each block of keys, so that other work disturbs
// little.
#include <stdint.h>
#include <stdio.h>
#include <stdlib.h>
#include <string.h>
#include <time.h>

#include "zitskvoze.h"

enum { CHUNK = 512, TABLE = 262144, SLOTS = TABLE / 2, ROUNDS = 60, BLOCK = 500, BLOCKS = 120 };

static double now(void)
{
    struct timespec t;
    clock_gettime(CLOCK_MONOTONIC, &t);
    return t.tv_sec * 1e9 + t.tv_nsec;
}

static uint64_t state = 88172645463325252ull;

static uint64_t draw(void)
{
    state ^= state << 13;
    state ^= state >> 7;
    state ^= state << 17;
    return state;
}

// ---- an image of `count` chunks with n entries of `size` bytes, each of another key
static uint64_t *make_image(size_t count, size_t n, size_t size, uint64_t *keys)
{
    uint64_t *w = aligned_alloc(64, count * CHUNK * 8);
    size_t value = (size + 7) / 8, entry = 2 + value, per = CHUNK / entry, i = 0;
    memset(w, 0, count * CHUNK * 8);
    w[0] = 1;
    w[1] = count;
    w[7] = -(w[0] + w[1]);
    for (size_t c = 1; c < count && i < n; c++) {
        size_t at = c * CHUNK, k;
        for (k = 0; k < per && i < n; k++, i++, at += entry) {
            keys[i] = draw();
            w[at] = 1 | 1 << 4 | (uint64_t)size << 24;
            w[at + 1] = keys[i];
            for (size_t j = 0; j < value; j++)
                w[at + 2 + j] = draw();
            if (size % 8)
                w[at + 1 + value] &= (1ull << 8 * (size % 8)) - 1;
        }
        w[8 + c] = 1 | (uint64_t)((k * entry + 7) / 8) << 8;
    }
    if (i < n) {
        fprintf(stderr, "the image is too small for %zu entries\n", n);
        exit(1);
    }
    return w;
}

// ---- the floor
static size_t slot_of(uint64_t key)
{
    return (key * 0x9E3779B97F4A7C15ull) >> 47 & (SLOTS - 1);
}

__attribute__((noinline, noclone)) static uint64_t floor_open(const uint64_t *w, size_t bytes, uint64_t *table)
{
    size_t count = bytes / 4096;
    uint64_t sum = 0, found = 0;
    memset(table, 0, TABLE * 8);
    if (bytes % 4096 || count < 4 || count > 504)
        return 0;
    for (int i = 0; i < 8; i++)
        sum += w[i];
    if (sum || w[0] != 1 || w[1] != count || w[2] || w[3] || w[4] || w[5] || w[6])
        return 0;
    for (size_t c = 0; c < 504; c++) {
        uint64_t d = w[8 + c], role = d & 255, rest = d >> 8;
        if (c == 0 || c >= count) {
            if (d)
                return 0;
        } else if (!(d == 0 || (role == 1 && rest >= 1 && rest <= 64)))
            return 0;
    }
    for (size_t c = 1; c < count; c++) {
        if ((w[8 + c] & 3) != 1)
            continue;
        size_t at = c * CHUNK, end = at + 8 * (w[8 + c] >> 8);
        while (at < end) {
            uint64_t first = w[at];
            if (first == 0) {
                at++;
                continue;
            }
            uint64_t op = first & 3, placement = first >> 2 & 3, version = first >> 4 & 0xFFFFF, length = first >> 24;
            if (op != 1 || placement || !version || length > 256)
                return 0;
            size_t words = 2 + (length + 7) / 8;
            if (end - at < words)
                return 0;
            if (length % 8 && w[at + words - 1] >> 8 * (length % 8))
                return 0;
            size_t s = slot_of(w[at + 1]);
            while (table[2 * s + 1] && table[2 * s] != w[at + 1])
                s = (s + 1) & (SLOTS - 1);
            if (!table[2 * s + 1]) {
                table[2 * s] = w[at + 1];
                table[2 * s + 1] = at | version << 32;
                found++;
            } else if (table[2 * s + 1] >> 32 < version)
                table[2 * s + 1] = at | version << 32;
            at += words;
        }
    }
    return found + 1;
}

__attribute__((noinline, noclone)) static size_t floor_look(const uint64_t *w, const uint64_t *table, uint64_t key, size_t *start)
{
    size_t s = slot_of(key);
    while (table[2 * s + 1]) {
        if (table[2 * s] == key) {
            size_t at = (uint32_t)table[2 * s + 1];
            *start = 8 * (at + 2);
            return w[at] >> 24;
        }
        s = (s + 1) & (SLOTS - 1);
    }
    return 0;
}

// The second look-up, over the proved table: its hash, its probing, and the tests for any memory.
__attribute__((noinline, noclone)) static size_t tested_look(const size_t record[3], const uint8_t *image, size_t bytes, const uint64_t *table, size_t words, uint64_t key, size_t *start)
{
    *start = 0;
    if (record[0] != 1 || record[1] != bytes || record[2] != words || words < 2)
        return 0;
    size_t n = words / 2;
    uint32_t mixed = (uint32_t)key * 0xFF274DFFu + (uint32_t)(key >> 32) * 0x7D87B233u;
    size_t home = ((uint64_t)mixed * (uint32_t)n) >> 32, s = home;
    do {
        uint64_t info = table[2 * s + 1];
        if (info == 0)
            return 0;
        if (table[2 * s] == key) {
            size_t extent = info & 255, place = info >> 8 & 0x3FFFF, at = 8 * (place + 2);
            if (extent) {
                if (at + extent + 1 > bytes)
                    return 0;
                *start = at;
                return extent + 1;
            }
            if (place >= bytes / 8)
                return 0;
            uint64_t first = *(const uint64_t *)(image + 8 * place), field = first >> 24;
            if ((first & 15) == 5) {
                if (32 * field >= bytes / 8)
                    return 0;
                at = 256 * field + 8;
                field = *(const uint64_t *)(image + 256 * field);
            } else if ((first & 15) != 1)
                return 0;
            if (at > bytes || field > bytes - at)
                return 0;
            *start = at;
            return field;
        }
        s = s + 1 < n ? s + 1 : 0;
    } while (s != home);
    return 0;
}

// The third: a hash of place and length.
__attribute__((noinline, noclone)) static size_t sized_look(const uint64_t *table, uint64_t key, size_t *start)
{
    size_t s = slot_of(key);
    while (table[2 * s + 1]) {
        if (table[2 * s] == key) {
            uint64_t word = table[2 * s + 1];
            *start = 8 * ((size_t)(uint32_t)word + 2);
            return word >> 32;
        }
        s = (s + 1) & (SLOTS - 1);
    }
    return 0;
}

// Its hash, from the floor's.
static uint64_t *with_lengths(const uint64_t *w, const uint64_t *table)
{
    uint64_t *sized = aligned_alloc(64, TABLE * 8);
    memcpy(sized, table, TABLE * 8);
    for (size_t s = 0; s < SLOTS; s++) {
        uint32_t at = (uint32_t)table[2 * s + 1];
        sized[2 * s + 1] = at ? at | w[at] >> 24 << 32 : 0;
    }
    return sized;
}

// ---- the four look-ups, each by one call: the value's length, with its first byte's number through `start`
struct set {
    zkv_record *record;
    const size_t *tested;       // phase and lengths, as the second C look-up asks for them
    const uint8_t *image;
    size_t bytes;
    const uint64_t *table;      // of the proved calls
    const uint64_t *hash;       // of the floor
    const uint64_t *sized;      // of the look-up that reads no entry
};

static inline uint64_t look_ours(const struct set *s, uint64_t key, uint64_t *start)
{
    uint64_t length;
    zkv_look_up(s->record, s->image, s->bytes, s->table, TABLE, key, start, &length);
    return length;
}

static inline uint64_t look_floor(const struct set *s, uint64_t key, uint64_t *start)
{
    return floor_look((const uint64_t *)(const void *)s->image, s->hash, key, start);
}

static inline uint64_t look_tested(const struct set *s, uint64_t key, uint64_t *start)
{
    return tested_look(s->tested, s->image, s->bytes, s->table, TABLE, key, start);
}

static inline uint64_t look_sized(const struct set *s, uint64_t key, uint64_t *start)
{
    return sized_look(s->sized, key, start);
}

enum row { PLACE, COPIED, WAITING, ROWS };
enum side { OURS, FLOOR, TESTED, SIZED, SIDES };

static uint8_t label[ZKV_VALUE_MAX];
static volatile uint8_t none = 0;

// The look-ups of a block of keys; the sum is of what they answered. The set is copied, so that no loop reads it anew
// from memory.
#define DEFINE_BLOCK(name, look)                                                                                        \
    __attribute__((noinline)) static uint64_t name(const struct set *set, const uint64_t *keys, enum row row)           \
    {                                                                                                                   \
        const struct set s = *set;                                                                                      \
        uint64_t sum = 0, start = 0;                                                                                    \
        if (row == PLACE) {                                                                                             \
            for (size_t i = 0; i < BLOCK; i++)                                                                          \
                sum += look(&s, keys[i], &start) + 3 * start;                                                           \
        } else if (row == COPIED) {                                                                                     \
            for (size_t i = 0; i < BLOCK; i++) {                                                                        \
                uint64_t length = look(&s, keys[i], &start);                                                            \
                memcpy(label, s.image + start, length);                                                                 \
                sum += length + 3 * start + label[0];                                                                   \
            }                                                                                                           \
        } else {                                                                                                        \
            uint8_t byte = 0, mask = none;                                                                              \
            for (size_t i = 0; i < BLOCK; i++) {                                                                        \
                sum += look(&s, keys[i + (byte & mask)], &start) + 3 * start;                                           \
                byte = s.image[start];                                                                                  \
                sum += byte;                                                                                            \
            }                                                                                                           \
        }                                                                                                               \
        return sum;                                                                                                     \
    }

DEFINE_BLOCK(block_ours, look_ours)
DEFINE_BLOCK(block_floor, look_floor)
DEFINE_BLOCK(block_tested, look_tested)
DEFINE_BLOCK(block_sized, look_sized)

static uint64_t block_of(enum side side, const struct set *s, const uint64_t *keys, enum row row)
{
    switch (side) {
    case OURS:
        return block_ours(s, keys, row);
    case FLOOR:
        return block_floor(s, keys, row);
    case TESTED:
        return block_tested(s, keys, row);
    default:
        return block_sized(s, keys, row);
    }
}

static void shuffle(uint64_t *keys, size_t n)
{
    for (size_t i = n - 1; i > 0; i--) {
        size_t j = draw() % (i + 1);
        uint64_t k = keys[i];
        keys[i] = keys[j];
        keys[j] = k;
    }
}

// One row: the sides go by turns, and of each block of keys each side's best time counts.
static void measure_looks(const char *name, const struct set *s, const uint64_t *keys, size_t n, enum row row)
{
    static double best[SIDES][BLOCKS];
    size_t blocks = n / BLOCK;
    double time[SIDES] = {0};
    int equal = 1;
    for (int r = 0; r < ROUNDS; r++) {
        uint64_t sums[SIDES] = {0};
        for (enum side side = OURS; side < SIDES; side++) {
            for (size_t k = 0; k < blocks; k++) {
                double t = now();
                sums[side] += block_of(side, s, keys + k * BLOCK, row);
                double took = now() - t;
                if (r == 0 || took < best[side][k])
                    best[side][k] = took;
            }
        }
        for (enum side side = FLOOR; side < SIDES; side++)
            equal = equal && sums[OURS] == sums[side];
    }
    for (enum side side = OURS; side < SIDES; side++)
        for (size_t k = 0; k < blocks; k++)
            time[side] += best[side][k] / (double)(blocks * BLOCK);
    printf("  look-up, %-8s rattle %6.1f ns   C %6.1f ns   ratio %.2f   answers %s\n", name, time[OURS], time[FLOOR],
           time[FLOOR] / time[OURS], equal ? "equal" : "DIFFER");
    printf("                    C with the same tests %6.1f ns   ratio %.2f   C with lengths in its hash %6.1f ns   ratio %.2f\n", time[TESTED],
           time[TESTED] / time[OURS], time[SIZED], time[SIZED] / time[OURS]);
}

static void measure(const char *name, size_t count, size_t n, size_t size)
{
    static zkv_record record;
    uint64_t *keys = malloc(n * 8), *a = aligned_alloc(64, TABLE * 8), *b = aligned_alloc(64, TABLE * 8);
    uint64_t *w = make_image(count, n, size, keys);
    const uint8_t *image = (const uint8_t *)w;
    size_t bytes = count * 4096, tested[3] = {1, bytes, TABLE};
    double ours = 1e18, floor = 1e18;
    uint64_t x = 0, y = 0;
    for (int r = 0; r < ROUNDS; r++) {
        double t = now();
        zkv_report o = zkv_open(&record, image, bytes, a, TABLE);
        double u = now();
        y = floor_open(w, bytes, b);
        double v = now();
        x = o.kind == ZKV_OPENED ? zkv_keys(&record) + 1 : 0;
        if (u - t < ours)
            ours = u - t;
        if (v - u < floor)
            floor = v - u;
    }
    shuffle(keys, n);
    uint64_t *c = with_lengths(w, b);
    struct set s = {&record, tested, image, bytes, a, b, c};
    printf("%s: keys %lu and %lu\n", name, x - 1, y - 1);
    printf("  opening           rattle %6.2f ms   C %6.2f ms   ratio %.2f\n", ours / 1e6, floor / 1e6, ours / floor);
    measure_looks("place", &s, keys, n, PLACE);
    measure_looks("copied", &s, keys, n, COPIED);
    measure_looks("waiting", &s, keys, n, WAITING);
    free(keys);
    free(a);
    free(b);
    free(c);
    free(w);
}

int main(void)
{
    measure("60,000 values of 8 bytes", 504, 60000, 8);
    measure("7,500 values of 256 bytes", 504, 7500, 256);
    return 0;
}
