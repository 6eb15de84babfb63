/* Rows of the benchmark: cleaning a chunk, a full room in steady state, and choosing, each beside plain C.
 *
 * The plain C store keeps the same log in the same places: a hash from key to place and version, and for each chunk how
 * many words of it are in use, which it keeps up to date so that its choosing looks at no entry. It checks nothing.
 * Both sides must leave the same image, to the byte. */
#define _GNU_SOURCE
#include <inttypes.h>

#include "bench.h"

/* The full room: bench/full_room.sh asks for a larger one. The puts before the clock starts fill it. */
#ifndef ROOM_CHUNKS
#define ROOM_CHUNKS 16
#define ROOM_TABLE 4096
#define ROOM_KEYS 300
#define ROOM_WARM_UP 3000
#define PLAIN_BITS 10
#endif

enum {
    ROOM_BYTES = ROOM_CHUNKS * ZKV_CHUNK_BYTES,
    KEYS = ROOM_KEYS,
    WARM_UP = ROOM_WARM_UP,
    PUTS = 10000,
    REGISTERS = 8,                          /* cleaned one behind the other, between two looks at the clock */
    CLEAN_KEYS = 128,                       /* in the chunk to be cleaned, of 16 bytes each: all of its 64 lines */
    ROUNDS = 25,
    BIG_BYTES = ZKV_CHUNKS_MAX * ZKV_CHUNK_BYTES,
    BIG_ENTRIES = 60000,
    FULL_CHUNKS = BIG_ENTRIES / 2 / 170     /* with nothing to copy: 170 entries of 3 words fill all lines of a chunk */
};

/* ---- ours: a register and all that is lent with it */
struct ours {
    _Alignas(64) uint8_t image[ROOM_BYTES];
    uint64_t table[ROOM_TABLE];
    zkv_record record;
    uint64_t stores;                        /* counted in the full room: words stored by commits and cleanings */
};

#define LENT(s) &(s)->record, (s)->image, ROOM_BYTES, (s)->table, ROOM_TABLE

/* Carries a begun call out; the number at its end. */
static uint64_t run(struct ours *s, zkv_report r)
{
    if (r.kind != ZKV_BEGUN) {
        wrong("a call was refused");
    }
    for (;;) {
        r = zkv_run(LENT(s));
        if (r.kind == ZKV_FLUSH) {
            if (r.first < ROOM_BYTES / ZKV_LINE_BYTES) {
                write_back_line(how, s->image + ZKV_LINE_BYTES * r.first);
            }
        } else if (r.kind == ZKV_FENCE) {
            store_fence();
        } else if (r.kind == ZKV_END) {
            return r.first;
        }
    }
}

static void new_register(struct ours *s)
{
    memset(s, 0, sizeof *s);
    run(s, zkv_format(LENT(s), ZKV_POWER_SMALL, 0, 0, 0, 0));
    if (zkv_open(LENT(s)).kind != ZKV_OPENED) {
        wrong("the formatted image was refused");
    }
}

/* ---- plain C: the same log with a plain hash */
enum { SLOTS = 1 << PLAIN_BITS };

struct plain {
    _Alignas(64) uint64_t image[ROOM_BYTES / 8];
    uint64_t key[SLOTS], at[SLOTS];         /* at: the word of its newest entry, and above bit 32 the version; 0: free */
    uint32_t used[ROOM_CHUNKS];             /* words of newest entries in a chunk */
    size_t low, least;                      /* no log chunk below `low` has space for `least` lines */
};

static size_t slot_of(const struct plain *p, uint64_t key)
{
    size_t s = key * 0x9E3779B97F4A7C15u >> (64 - PLAIN_BITS);
    while (p->at[s] != 0 && p->key[s] != key) {
        s = (s + 1) % SLOTS;
    }
    return s;
}

static uint64_t words_of(uint64_t first)
{
    return 2 + ((first >> 24) + 7) / 8;
}

/* The directory word, or word 0 of the log's chunk. */
static void seal(struct plain *p, size_t chunk, uint64_t word)
{
    *(volatile uint64_t *)&p->image[8 + chunk] = word;
    write_back_line(how, &p->image[8 + chunk]);
    store_fence();
}

/* Stores a payload as so many lines behind the committed ones of a chunk, as commits and cleanings do. */
static size_t append(struct plain *p, size_t chunk, const uint64_t *payload, size_t words)
{
    size_t committed = p->image[8 + chunk] >> 8, lines = (words + 7) / 8, at = CHUNK * chunk + 8 * committed;
    volatile uint64_t *to = p->image + at;
    for (size_t i = 0; i < words; i++) {
        to[i] = payload[i];
    }
    for (size_t i = words; i < 8 * lines; i++) {
        to[i] = 0;
    }
    for (size_t i = 0; i < lines; i++) {
        write_back_line(how, (const void *)(to + 8 * i));
    }
    store_fence();
    seal(p, chunk, 1 | (uint64_t)(committed + lines) << 8);
    return at;
}

/* The first log chunk with space that is not `other`, else the first free one if so many are free, else 0. A chunk
 * passed over has no space for so many lines, or is about to be freed. */
static size_t place(struct plain *p, size_t lines, size_t needed_free, size_t other)
{
    size_t free_chunks = 0, first_free = 0;
    for (size_t c = lines >= p->least && p->low != 0 ? p->low : 1; c < ROOM_CHUNKS; c++) {
        uint64_t word = p->image[8 + c];
        if (word != 0 && c != other && (word >> 8) + lines <= 64) {
            p->low = c;
            p->least = lines;
            return c;
        }
    }
    for (size_t c = 1; c < ROOM_CHUNKS; c++) {
        if (p->image[8 + c] == 0) {
            first_free = free_chunks == 0 ? c : first_free;
            free_chunks++;
        }
    }
    if (free_chunks < needed_free) {
        return 0;
    }
    if (first_free < p->low) {
        p->low = first_free;
    }
    return first_free;
}

/* The entries of a payload are the newest of their keys. */
static void join(struct plain *p, size_t at, const uint64_t *payload, size_t words)
{
    for (size_t i = 0; i < words; i += words_of(payload[i])) {
        size_t s = slot_of(p, payload[i + 1]);
        if (p->at[s] != 0) {
            p->used[(uint32_t)p->at[s] / CHUNK] -= (uint32_t)words_of(p->image[(uint32_t)p->at[s]]);
        }
        p->key[s] = payload[i + 1];
        p->at[s] = (at + i) | (payload[i] >> 4 & 0xFFFFF) << 32;
        p->used[(at + i) / CHUNK] += (uint32_t)words_of(payload[i]);
    }
}

/* Whether there was space. */
static bool plain_put(struct plain *p, uint64_t key, const uint8_t *value, size_t size)
{
    uint64_t payload[2 + ZKV_LOG_VALUE_MAX / 8];
    size_t s = slot_of(p, key), words = 2 + (size + 7) / 8;
    payload[0] = 1 | ((p->at[s] >> 32) + 1) << 4 | (uint64_t)size << 24;
    payload[1] = key;
    payload[words - 1] = 0;
    memcpy(payload + 2, value, size);
    size_t chunk = place(p, (words + 7) / 8, 3, 0);
    if (chunk == 0) {
        return false;
    }
    join(p, append(p, chunk, payload, words), payload, words);
    return true;
}

/* The chunk with the fewest words in use, of those that would take fewer lines; of equals the most lines, and of those
 * the highest number; 0 where there is none. */
static size_t plain_choose(const struct plain *p)
{
    size_t best = 0;
    for (size_t c = 1; c < ROOM_CHUNKS; c++) {
        uint64_t lines = p->image[8 + c] >> 8;
        if (lines != 0 && (p->used[c] + 7) / 8 < lines
            && (best == 0 || p->used[c] < p->used[best] || (p->used[c] == p->used[best] && lines >= p->image[8 + best] >> 8))) {
            best = c;
        }
    }
    return best;
}

/* Copies what is newest of a chunk, and frees it. Whether there was space. */
__attribute__((noinline)) static bool plain_clean(struct plain *p, size_t chunk)
{
    uint64_t payload[CHUNK];
    size_t words = 0, at = CHUNK * chunk, end = at + 8 * (p->image[8 + chunk] >> 8);
    while (at < end) {
        uint64_t first = p->image[at];
        if (first == 0) {
            at++;
            continue;
        }
        uint64_t n = words_of(first);
        if ((uint32_t)p->at[slot_of(p, p->image[at + 1])] == at) {
            memcpy(payload + words, p->image + at, 8 * n);
            words += n;
        }
        at += n;
    }
    if (words > 0) {
        size_t to = place(p, (words + 7) / 8, 1, chunk);
        if (to == 0) {
            return false;
        }
        join(p, append(p, to, payload, words), payload, words);
    }
    p->used[chunk] = 0;
    seal(p, chunk, 0);
    return true;
}

static void compare(const struct ours *s, const struct plain *p)
{
    if (memcmp(s->image + 64, (const uint8_t *)p->image + 64, ROOM_BYTES - 64) != 0) {
        wrong("plain C left another image");
    }
}

/* ---- cleaning a chunk of which half is kept */

static void put_both(struct ours *s, struct plain *p, uint64_t first_key, uint64_t step, size_t items)
{
    uint8_t value[16];
    uint64_t payload[16 * 4];
    for (size_t i = 0; i < items; i++) {
        memset(value, (int)(first_key + i), sizeof value);
        run(s, zkv_put(LENT(s), first_key + step * i, value, sizeof value));
        size_t slot = slot_of(p, first_key + step * i);
        payload[4 * i] = 1 | ((p->at[slot] >> 32) + 1) << 4 | sizeof value << 24;
        payload[4 * i + 1] = first_key + step * i;
        memcpy(payload + 4 * i + 2, value, sizeof value);
    }
    run(s, zkv_commit(LENT(s)));
    size_t chunk = place(p, items / 2, 3, 0);
    join(p, append(p, chunk, payload, 4 * items), payload, 4 * items);
}

/* Chunk 1 is full; every second of its entries is superseded by one in chunk 2, whose other half is free. */
static void half_superseded(struct ours *s, struct plain *p)
{
    new_register(s);
    memset(p, 0, sizeof *p);
    for (uint64_t key = 0; key < CLEAN_KEYS; key += 16) {
        put_both(s, p, key, 1, 16);
    }
    for (uint64_t key = 0; key < CLEAN_KEYS; key += 32) {
        put_both(s, p, key, 2, 16);
    }
    compare(s, p);
}

void measure_cleaning(void)
{
    static struct ours start, at[REGISTERS];
    static struct plain plain_start, plain_at[REGISTERS];
    double ours = 1e18, floor = 1e18;
    half_superseded(&start, &plain_start);
    for (int r = 0; r < ROUNDS; r++) {
        for (size_t i = 0; i < REGISTERS; i++) {
            at[i] = start;
            plain_at[i] = plain_start;
        }
        double t = now();
        for (size_t i = 0; i < REGISTERS; i++) {
            if (run(&at[i], zkv_clean(LENT(&at[i]), 1)) != CLEAN_KEYS / 2) {
                wrong("a cleaning did not copy half of the entries");
            }
        }
        double u = now();
        for (size_t i = 0; i < REGISTERS; i++) {
            if (!plain_clean(&plain_at[i], 1)) {
                wrong("plain C found no space");
            }
        }
        double v = now();
        ours = u - t < ours ? u - t : ours;
        floor = v - u < floor ? v - u : floor;
        compare(&at[REGISTERS - 1], &plain_at[REGISTERS - 1]);
    }
    note("cleaning a chunk, 64 of 128 entries kept", "us", ours / REGISTERS / 1e3, floor / REGISTERS / 1e3, false);
}

/* ---- a full room in steady state */
static struct {
    uint64_t puts, cleanings, copied, stored, items;     /* words stored, words of the items put */
    double our_ns, floor_ns;                             /* a put, in the best pass */
    double live;
} room;

static void our_put(struct ours *s, uint64_t key, const uint8_t *value, size_t size, bool count)
{
    for (;;) {
        run(s, zkv_put(LENT(s), key, value, size));
        zkv_report r = zkv_commit(LENT(s));
        if (r.kind == ZKV_BEGUN) {
            room.stored += count ? (r.first - 4) / 9 * 8 + 1 : 0;
            run(s, r);
            return;
        }
        if (r.kind != ZKV_REFUSED || r.first != ZKV_NO_SPACE || zkv_abandon(LENT(s)).kind != ZKV_ABANDONED) {
            wrong("a commit was refused, but not for space");
        }
        r = zkv_choose(LENT(s));
        if (r.kind != ZKV_CHOSEN) {
            wrong("nothing to clean in the full room");
        }
        r = zkv_clean(LENT(s), r.first);
        uint64_t actions = r.first, copied = run(s, r);
        if (count) {
            room.cleanings++;
            room.copied += copied;
            room.stored += 1 + (actions > 3 ? (actions - 7) / 9 * 8 + 1 : 0);
        }
    }
}

static void plain_put_or_clean(struct plain *p, uint64_t key, const uint8_t *value, size_t size)
{
    while (!plain_put(p, key, value, size)) {
        size_t chunk = plain_choose(p);
        if (chunk == 0 || !plain_clean(p, chunk)) {
            wrong("nothing to clean in the plain room");
        }
    }
}

void measure_full_room(void)
{
    static struct ours s;
    static struct plain p;
    static uint8_t value[WARM_UP + PUTS][64];
    static uint16_t key[WARM_UP + PUTS], size[WARM_UP + PUTS];
    uint64_t state = 88172645463325252u;
    double ours = 0, floor = 0;
    new_register(&s);
    memset(&p, 0, sizeof p);
    memset(&room.puts, 0, 5 * sizeof room.puts);
    for (size_t i = 0; i < WARM_UP + PUTS; i++) {
        key[i] = (uint16_t)(drawn(&state) % KEYS);
        size[i] = (uint16_t)(16 + drawn(&state) % 49);
        memset(value[i], (int)i, sizeof value[i]);
    }
    /* By turns, a thousand puts at a time. */
    for (size_t i = 0; i < WARM_UP + PUTS; i += 1000) {
        double t = now();
        for (size_t j = i; j < i + 1000; j++) {
            our_put(&s, key[j], value[j], size[j], i >= WARM_UP);
        }
        double u = now();
        for (size_t j = i; j < i + 1000; j++) {
            plain_put_or_clean(&p, key[j], value[j], size[j]);
        }
        double v = now();
        if (i >= WARM_UP) {
            ours += u - t;
            floor += v - u;
            for (size_t j = i; j < i + 1000; j++) {
                room.items += 2 + ((uint64_t)size[j] + 7) / 8;
            }
            room.puts += 1000;
        }
    }
    compare(&s, &p);
    if (room.cleanings < 100) {
        wrong("the room was not full");
    }
    uint64_t used = 0, log_chunks = 0;
    for (size_t c = 1; c < ROOM_CHUNKS; c++) {
        used += p.used[c];
        log_chunks += p.image[8 + c] != 0;
    }
    room.live = 100.0 * (double)used / (double)(CHUNK * log_chunks);
    ours /= PUTS;
    floor /= PUTS;
    room.our_ns = room.our_ns == 0 || ours < room.our_ns ? ours : room.our_ns;
    room.floor_ns = room.floor_ns == 0 || floor < room.floor_ns ? floor : room.floor_ns;
    note("put in a full room, cleanings included", "ns", ours, floor, false);
}

/* Of the room as it was left: the words of newest entries, of those that log chunks have, in percent. */
double full_room_live(void)
{
    return room.live;
}

void print_full_room(void)
{
    printf("full room of 16 chunks, 300 keys of 16 to 64 bytes: %.0f puts a second (plain C %.0f); in %" PRIu64 " puts %" PRIu64
           " cleanings, %" PRIu64 " entries copied; %.2f words stored for each word of an item\n",
           1e9 / room.our_ns, 1e9 / room.floor_ns, room.puts, room.cleanings, room.copied, (double)room.stored / (double)room.items);
}

/* ---- choosing */

/* 30,000 keys with two entries of 8 bytes each, the newer in the second half of the log. */
void measure_choosing(void)
{
    static zkv_record record;
    uint8_t *image = memory(BIG_BYTES);
    uint64_t *w = (uint64_t *)(void *)image, *table = memory(8 * ZKV_TABLE_WORDS_MAX), state = 88172645463325252u;
    double choosing = 1e18, opening = 1e18;
    w[0] = 1;
    w[1] = ZKV_CHUNKS_MAX;
    w[7] = -(w[0] + w[1]);
    for (size_t i = 0, chunk = 1, at = 0; i < BIG_ENTRIES; i++, at += 3) {
        uint64_t *e = w + CHUNK * chunk + at;
        if (at + 3 > CHUNK) {
            chunk++;
            at = 0;
            e = w + CHUNK * chunk;
        }
        if (i == BIG_ENTRIES / 2) {
            state = 88172645463325252u;
        }
        e[0] = 1 | (uint64_t)(i < BIG_ENTRIES / 2 ? 1 : 2) << 4 | 8 << 24;
        e[1] = drawn(&state);
        e[2] = i;
        w[8 + chunk] = 1 | (uint64_t)((at + 3 + 7) / 8) << 8;
    }
    for (int r = 0; r < ROUNDS; r++) {
        double t = now();
        zkv_report o = zkv_open(&record, image, BIG_BYTES, table, ZKV_TABLE_WORDS_MAX);
        double u = now();
        zkv_report c = zkv_choose(&record, image, BIG_BYTES, table, ZKV_TABLE_WORDS_MAX);
        double v = now();
        if (o.kind != ZKV_OPENED || zkv_keys(&record) != BIG_ENTRIES / 2 || c.kind != ZKV_CHOSEN || c.first != FULL_CHUNKS) {
            wrong("choosing among 60,000 entries");
        }
        opening = u - t < opening ? u - t : opening;
        choosing = v - u < choosing ? v - u : choosing;
    }
    note("choosing, 60,000 entries, over one opening", "ms", choosing / 1e6, opening / 1e6, false);
    munmap(image, BIG_BYTES);
    munmap(table, 8 * ZKV_TABLE_WORDS_MAX);
}
