/* Speed of the register beside a plain C floor, in one run: a table of ratios.
 *
 * A durable put is staging, commit and all steps, with real write-backs (clwb or the best there is) and fences; its
 * floor makes the same words, stores, write-backs and fences in plain C, with no index and no check. The same without
 * write-backs and fences shows what the processor spends; our time less the floor's is then what we take over the raw
 * stores. Puts go by zkv_run, and by zkv_step where the row says so. The floor of a look-up is one probe of a plain C
 * hash and one read of the entry. That of an opening is one pass in plain C over the same image, which checks header,
 * directory and entries and fills that hash; it knows neither blocks nor deletes and does not compare top entries.
 * Look-ups are timed one by one, each waiting for the one before, and overlapped, as the processor will where it can;
 * and overlapped with both sides copying the value's bytes out into a buffer. Cleaning, a full room and choosing are
 * told in bench_clean.c; choosing has our own opening of the same image in the second column.
 * Both sides work on ordinary memory, so nothing is said of persistent memory. They go by turns, processor time is
 * taken, and of each side the best of several rounds counts. Other work on the machine still shows: a run beside it may
 * have ratios half as high again. A ratio is our time over the floor's: 1.00 is the floor itself.
 *
 * bench      bench/middle.py prints the middle of several runs, and draws it */
#define _GNU_SOURCE
#include <inttypes.h>

#include "bench.h"

enum {
    CHUNKS = ZKV_CHUNKS_MAX,
    BYTES = CHUNKS * ZKV_CHUNK_BYTES,
    TABLE = ZKV_TABLE_WORDS_MAX,
    SLOTS = TABLE / 2,
    PASSES = 5,                             /* over all rows; the best pass of each side counts */
    ROUNDS = 15,                            /* of a row in a pass */
    BLOCKS = 8,                             /* of commits in a round, the two sides by turns */
    COMMITS = 128,                          /* in a block */
    OPENINGS = 10,
    LOOKS = 500,                            /* look-ups in a block */
    LOOK_BLOCKS_MAX = 60000 / LOOKS,
    ROWS_MAX = 20
};

static uint64_t state = 88172645463325252u;

static uint64_t draw(void)
{
    return drawn(&state);
}

void *memory(size_t bytes)
{
    void *p = mmap(NULL, bytes, PROT_READ | PROT_WRITE, MAP_PRIVATE | MAP_ANONYMOUS | MAP_POPULATE, -1, 0);
    if (p == MAP_FAILED) {
        perror("bench: memory");
        exit(2);
    }
    return p;
}

void wrong(const char *what)
{
    fprintf(stderr, "bench: %s\n", what);
    exit(1);
}

/* ---- the rows of the table */
static struct row {
    const char *name, *unit;
    double ours, floor;
    bool raw;                               /* the floor is the raw stores: no write-backs on either side */
} rows[ROWS_MAX];

static size_t row_count;

/* A row's times in one pass. */
void note(const char *name, const char *unit, double ours, double floor, bool raw)
{
    size_t i = 0;
    while (i < row_count && strcmp(rows[i].name, name) != 0) {
        i++;
    }
    if (i == row_count) {
        row_count++;
        rows[i] = (struct row){name, unit, ours, floor, raw};
    }
    rows[i].ours = ours < rows[i].ours ? ours : rows[i].ours;
    rows[i].floor = floor < rows[i].floor ? floor : rows[i].floor;
}

/* ---- puts */
enum write_back how;
static uint8_t *image;                      /* ours */
static uint64_t *floor_image;
static uint64_t *table;
static zkv_record record;

/* How a put is carried out: with write-backs and fences or without, by zkv_step or by zkv_run. */
struct way {
    bool durable, by_steps;
};

static inline __attribute__((always_inline)) void run(zkv_report begun, struct way way)
{
    if (begun.kind != ZKV_BEGUN) {
        wrong("a call was refused");
    }
    for (;;) {
        zkv_report r = way.by_steps ? zkv_step(&record, image, BYTES, table, TABLE) : zkv_run(&record, image, BYTES, table, TABLE);
        if (r.kind == ZKV_FLUSH) {
            if (way.durable && r.first < BYTES / ZKV_LINE_BYTES) {
                write_back_line(how, image + ZKV_LINE_BYTES * r.first);
            }
        } else if (r.kind == ZKV_FENCE) {
            if (way.durable) {
                store_fence();
            }
        } else if (r.kind == ZKV_END) {
            return;
        }
    }
}

/* `items` puts of `size` bytes under the keys from `key` on, committed together. */
static inline __attribute__((always_inline)) void commit_in(uint64_t key, size_t items, const uint8_t *value, size_t size,
                                                            struct way way)
{
    for (size_t i = 0; i < items; i++) {
        run(zkv_put(&record, image, BYTES, table, TABLE, key + i, value, size), way);
    }
    run(zkv_commit(&record, image, BYTES, table, TABLE), way);
}

__attribute__((noinline)) static void commit_by_steps(uint64_t key, size_t items, const uint8_t *value, size_t size, bool durable)
{
    commit_in(key, items, value, size, (struct way){durable, true});
}

__attribute__((noinline)) static void commit_by_runs(uint64_t key, size_t items, const uint8_t *value, size_t size, bool durable)
{
    commit_in(key, items, value, size, (struct way){durable, false});
}

/* The same words, stores, write-backs and fences: `line` is where the batch goes, *directory the chunk's directory
 * word. */
__attribute__((noinline)) static void floor_commit(size_t *chunk, size_t *line, uint64_t key, size_t items, const uint8_t *value,
                                                   size_t size, bool durable)
{
    uint64_t batch[CHUNK];
    size_t words = 0, follow = (size + 7) / 8;
    for (size_t i = 0; i < items; i++) {
        batch[words] = 1 | 1 << 4 | (uint64_t)size << 24;
        batch[words + 1] = key + i;
        batch[words + 1 + follow] = 0;
        memcpy(batch + words + 2, value, size);
        words += 2 + follow;
    }
    size_t lines = (words + 7) / 8;
    while (words < 8 * lines) {
        batch[words++] = 0;
    }
    if (*line + lines > 64) {
        *chunk += 1;
        *line = 0;
    }
    volatile uint64_t *at = floor_image + CHUNK * *chunk + 8 * *line;
    for (size_t i = 0; i < words; i++) {
        at[i] = batch[i];
    }
    for (size_t i = 0; durable && i < lines; i++) {
        write_back_line(how, (const void *)(at + 8 * i));
    }
    if (durable) {
        store_fence();
    }
    *line += lines;
    volatile uint64_t *directory = floor_image + 8 + *chunk;
    *directory = 1 | (uint64_t)*line << 8;
    if (durable) {
        write_back_line(how, (const void *)directory);
        store_fence();
    }
}

static void new_register(size_t full_chunks)
{
    static const uint8_t value[ZKV_LOG_VALUE_MAX];
    memset(image, 0, BYTES);
    memset(floor_image, 0, BYTES);
    memset(&record, 0, sizeof record);
    run(zkv_format(&record, image, BYTES, table, TABLE, ZKV_POWER_SMALL, 0, 0, 0, 0), (struct way){false, false});
    if (zkv_open(&record, image, BYTES, table, TABLE).kind != ZKV_OPENED) {
        wrong("the formatted image was refused");
    }
    for (size_t c = 0; c < full_chunks; c++) {
        commit_by_runs(1000000, 15, value, 256, false);
    }
}

/* The log of both images must be the same words but for the versions. */
static void compare_logs(size_t from)
{
    const uint64_t versions = 0xFFFFFull << 4;
    for (size_t w = CHUNK * from; w < CHUNK * CHUNKS; w++) {
        uint64_t x;
        memcpy(&x, image + 8 * w, 8);
        if (((x ^ floor_image[w]) & ~versions) != 0) {
            wrong("the floor stored other words");
        }
    }
}

static void measure_puts(const char *name, size_t items, size_t size, struct way way, size_t full_chunks)
{
    double ours[BLOCKS], floor[BLOCKS], our_sum = 0, floor_sum = 0;
    uint8_t value[ZKV_LOG_VALUE_MAX];
    for (size_t b = 0; b < BLOCKS; b++) {
        ours[b] = floor[b] = 1e18;
    }
    for (size_t i = 0; i < sizeof value; i++) {
        value[i] = (uint8_t)(i + 1);
    }
    for (int round = 0; round < ROUNDS; round++) {
        size_t chunk = 1 + full_chunks, line = 0;
        new_register(full_chunks);
        for (size_t b = 0; b < BLOCKS; b++) {
            size_t commits = items * size > 64 ? COMMITS / 4 : COMMITS;
            double t = now();
            if (way.by_steps) {
                for (size_t i = 0; i < commits; i++) {
                    commit_by_steps(16 * i, items, value, size, way.durable);
                }
            } else {
                for (size_t i = 0; i < commits; i++) {
                    commit_by_runs(16 * i, items, value, size, way.durable);
                }
            }
            double u = now();
            for (size_t i = 0; i < commits; i++) {
                floor_commit(&chunk, &line, 16 * i, items, value, size, way.durable);
            }
            double v = now();
            ours[b] = (u - t) / (double)commits < ours[b] ? (u - t) / (double)commits : ours[b];
            floor[b] = (v - u) / (double)commits < floor[b] ? (v - u) / (double)commits : floor[b];
        }
        if (round == 0) {
            compare_logs(1 + full_chunks);
        }
    }
    for (size_t b = 0; b < BLOCKS; b++) {
        our_sum += ours[b];
        floor_sum += floor[b];
    }
    note(name, "ns", our_sum / BLOCKS, floor_sum / BLOCKS, !way.durable);
}

/* ---- opening and look-up */

/* An image with n entries of `size` bytes, each of another key; the keys are then shuffled. */
static void make_image(size_t n, size_t size, uint64_t *keys)
{
    uint64_t *w = (uint64_t *)(void *)image;
    size_t value = (size + 7) / 8, entry = 2 + value, per = CHUNK / entry, i = 0;
    memset(w, 0, BYTES);
    w[0] = 1;
    w[1] = CHUNKS;
    w[7] = -(w[0] + w[1]);
    for (size_t c = 1; c < CHUNKS && i < n; c++) {
        size_t at = c * CHUNK, k;
        for (k = 0; k < per && i < n; k++, i++, at += entry) {
            keys[i] = draw();
            w[at] = 1 | 1 << 4 | (uint64_t)size << 24;
            w[at + 1] = keys[i];
            for (size_t j = 0; j < value; j++) {
                w[at + 2 + j] = draw();
            }
        }
        w[8 + c] = 1 | (uint64_t)((k * entry + 7) / 8) << 8;
    }
    if (i < n) {
        wrong("the image is too small for the entries");
    }
    for (i = n - 1; i > 0; i--) {
        size_t j = draw() % (i + 1);
        uint64_t k = keys[i];
        keys[i] = keys[j];
        keys[j] = k;
    }
}

static size_t slot_of(uint64_t key)
{
    return (key * 0x9E3779B97F4A7C15u) >> 47 & (SLOTS - 1);
}

/* Checks header, directory and entries in one pass and fills the hash; the number of keys, and one more, or 0. */
__attribute__((noinline)) static uint64_t floor_open(const uint64_t *w, size_t bytes, uint64_t *hash)
{
    size_t count = bytes / ZKV_CHUNK_BYTES;
    uint64_t sum = 0, found = 0;
    memset(hash, 0, 8 * TABLE);
    if (bytes % ZKV_CHUNK_BYTES != 0 || count < ZKV_CHUNKS_MIN || count > ZKV_CHUNKS_MAX) {
        return 0;
    }
    for (size_t i = 0; i < 8; i++) {
        sum += w[i];
    }
    if (sum != 0 || w[0] != 1 || w[1] != count || w[2] || w[3] || w[4] || w[5] || w[6]) {
        return 0;
    }
    for (size_t c = 0; c < ZKV_CHUNKS_MAX; c++) {
        uint64_t d = w[8 + c], lines = d >> 8;
        if (d != 0 && (c == 0 || c >= count || (d & 255) != 1 || lines < 1 || lines > 64)) {
            return 0;
        }
    }
    for (size_t c = 1; c < count; c++) {
        size_t at = c * CHUNK, end = at + 8 * (w[8 + c] >> 8);
        while (at < end) {
            uint64_t first = w[at];
            if (first == 0) {
                at++;
                continue;
            }
            uint64_t version = first >> 4 & 0xFFFFF, length = first >> 24;
            if ((first & 15) != 1 || version == 0 || length > ZKV_LOG_VALUE_MAX) {
                return 0;
            }
            size_t words = 2 + (length + 7) / 8;
            if (end - at < words || (length % 8 != 0 && w[at + words - 1] >> 8 * (length % 8) != 0)) {
                return 0;
            }
            size_t s = slot_of(w[at + 1]);
            while (hash[2 * s + 1] != 0 && hash[2 * s] != w[at + 1]) {
                s = (s + 1) & (SLOTS - 1);
            }
            if (hash[2 * s + 1] == 0) {
                hash[2 * s] = w[at + 1];
                hash[2 * s + 1] = at | version << 32;
                found++;
            } else if (hash[2 * s + 1] >> 32 < version) {
                hash[2 * s + 1] = at | version << 32;
            }
            at += words;
        }
    }
    return found + 1;
}

__attribute__((noinline)) static uint64_t floor_look_up(const uint64_t *w, const uint64_t *hash, uint64_t key, uint64_t *start,
                                                        uint64_t *length)
{
    for (size_t s = slot_of(key); hash[2 * s + 1] != 0; s = (s + 1) & (SLOTS - 1)) {
        if (hash[2 * s] == key) {
            size_t at = (uint32_t)hash[2 * s + 1];
            *start = 8 * (at + 2);
            *length = w[at] >> 24;
            return 0;
        }
    }
    *start = *length = 0;
    return ZKV_KEY_ABSENT;
}

/* The value's bytes in a buffer: what a host does that keeps them. Its first bytes, so that the copy is not left out. */
static inline uint64_t copied_out(const uint8_t *at, uint64_t length)
{
    static uint8_t buffer[ZKV_LOG_VALUE_MAX];
    uint64_t first;
    if (length > sizeof buffer) {
        wrong("a look-up answered too long a value");
    }
    memcpy(buffer, at, length);
    __asm__ volatile("" : : "r"(buffer) : "memory");
    memcpy(&first, buffer, 8);
    return first;
}

/* The look-ups of a block of keys, by the floor's hash or, where that is none, by the register; the sum is of what
 * they answered. Where they wait, each key is known only once the look-up before has answered, as for a clerk; else
 * the processor works on several at once. The values are copied out or only found. */
static inline __attribute__((always_inline)) uint64_t look_block(const uint64_t *keys, const uint64_t *hash, bool wait, bool copy)
{
    const uint64_t *w = (const uint64_t *)(const void *)image;
    volatile uint64_t none = 0;
    uint64_t start = 0, length = 0, answers = 0, mask = none;
    for (size_t i = 0; i < LOOKS; i++) {
        uint64_t key = wait ? keys[i + (start & mask)] : keys[i];
        answers += hash ? floor_look_up(w, hash, key, &start, &length)
                        : zkv_look_up(&record, image, BYTES, table, TABLE, key, &start, &length);
        answers += 3 * start + length + (copy ? copied_out(image + start, length) : 0);
    }
    return answers;
}

/* Look-ups of all keys. The two sides take turns in going first: the second finds in the cache what the first has
 * read. */
static inline __attribute__((always_inline)) void look_all(const char *name, const uint64_t *keys, size_t n,
                                                           const uint64_t *hash, bool wait, bool copy)
{
    enum { OURS, FLOOR, SIDES };
    double best[SIDES][LOOK_BLOCKS_MAX], time[SIDES] = {0, 0};
    size_t blocks = n / LOOKS;
    for (int r = 0; r < ROUNDS; r++) {
        for (size_t b = 0; b < blocks; b++) {
            uint64_t answers[SIDES];
            for (int turn = 0; turn < SIDES; turn++) {
                int side = (r + turn) % SIDES;
                double t = now();
                answers[side] = side == OURS ? look_block(keys + b * LOOKS, NULL, wait, copy) : look_block(keys + b * LOOKS, hash, wait, copy);
                double took = now() - t;
                best[side][b] = r == 0 || took < best[side][b] ? took : best[side][b];
            }
            if (answers[OURS] != answers[FLOOR]) {
                wrong("look-up and floor answer differently");
            }
        }
    }
    for (size_t b = 0; b < blocks; b++) {
        time[OURS] += best[OURS][b];
        time[FLOOR] += best[FLOOR][b];
    }
    note(name, "ns", time[OURS] / (double)n, time[FLOOR] / (double)n, false);
}

/* The three kinds of look-up, each in a loop of its own. */
enum looks { ONE_BY_ONE, OVERLAPPED, COPIED };

static void measure_looks(const char *name, const uint64_t *keys, size_t n, const uint64_t *hash, enum looks kind)
{
    if (kind == ONE_BY_ONE) {
        look_all(name, keys, n, hash, true, false);
    } else if (kind == OVERLAPPED) {
        look_all(name, keys, n, hash, false, false);
    } else {
        look_all(name, keys, n, hash, false, true);
    }
}

static void measure_opening(const char *name, size_t n, uint64_t *hash)
{
    double ours = 1e18, floor = 1e18;
    for (int r = 0; r < OPENINGS; r++) {
        double t = now();
        zkv_report o = zkv_open(&record, image, BYTES, table, TABLE);
        double u = now();
        uint64_t found = floor_open((const uint64_t *)(const void *)image, BYTES, hash);
        double v = now();
        if (o.kind != ZKV_OPENED || zkv_keys(&record) != n || found != n + 1) {
            wrong("an opening did not find every key");
        }
        ours = u - t < ours ? u - t : ours;
        floor = v - u < floor ? v - u : floor;
    }
    note(name, "ms", ours / 1e6, floor / 1e6, false);
}

/* ---- output */
static void print_table(void)
{
    printf("%-44s %10s %10s %7s\n", "what", "ours", "plain C", "ratio");
    for (size_t i = 0; i < row_count; i++) {
        struct row *r = &rows[i];
        int digits = r->ours < 10 ? 2 : 1;
        printf("%-44s %7.*f %s %7.*f %s %7.2f\n", r->name, digits, r->ours, r->unit, digits, r->floor, r->unit,
               r->ours / r->floor);
    }
    for (size_t i = 0; i < row_count; i++) {
        if (rows[i].raw) {
            printf("over the raw stores (aim: at most 100 ns): %6.1f ns, %s\n", rows[i].ours - rows[i].floor, rows[i].name);
        }
    }
}

int main(void)
{
    const struct way durable = {true, false}, durable_by_steps = {true, true};
    const struct way plain = {false, false}, plain_by_steps = {false, true};
    how = best_write_back();
    image = memory(BYTES);
    floor_image = memory(BYTES);
    table = memory(8 * TABLE);
    uint64_t *hash = memory(8 * TABLE), *keys = memory(8 * 60000);
    for (int pass = 0; pass < PASSES; pass++) {
        measure_puts("durable put of 16 bytes", 1, 16, durable, 0);
        measure_puts("durable put of 16 bytes, by zkv_step", 1, 16, durable_by_steps, 0);
        measure_puts("durable put of 256 bytes", 1, 256, durable, 0);
        measure_puts("durable batch of 16 puts of 16 bytes", 16, 16, durable, 0);
        measure_puts("put of 16 bytes, no write-backs", 1, 16, plain, 0);
        measure_puts("no write-backs, by zkv_step", 1, 16, plain_by_steps, 0);
        measure_puts("no write-backs, behind 400 full chunks", 1, 16, plain, 400);
        make_image(60000, 8, keys);
        measure_opening("opening, 60,000 values of 8 bytes", 60000, hash);
        measure_looks("look-up among 60,000 keys, one by one", keys, 60000, hash, ONE_BY_ONE);
        measure_looks("look-up among 60,000 keys, overlapped", keys, 60000, hash, OVERLAPPED);
        measure_looks("look-up among 60,000 keys, copied out", keys, 60000, hash, COPIED);
        make_image(7500, 256, keys);
        measure_opening("opening, 7,500 values of 256 bytes", 7500, hash);
        measure_looks("look-up among 7,500 keys, one by one", keys, 7500, hash, ONE_BY_ONE);
        measure_cleaning();
        measure_full_room();
        measure_choosing();
    }
    printf("write-back by %s, ordinary memory\n", write_back_name(how));
    print_table();
    print_full_room();
    return 0;
}
