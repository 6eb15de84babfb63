/* The register beside stores that are in use, and beside plain C, side by side in one run: the sides take turns in
 * every round, and of the rounds the median counts; the lowest and the highest stand behind it.
 *
 * peers FOLDER [ROUNDS]    files are made in FOLDER; 12 rounds */
#define _GNU_SOURCE
#include <time.h>

#include "peers.h"

enum { SIDES = 4, ROUNDS_MAX = 100, PUTS = 400, LOOKS = 20000 };

static const struct side *const sides[SIDES] = {&floor_side, &zitskvoze_side, &pmemobj_side, &lmdb_side};
static uint8_t value[VALUE_MAX];
static uint64_t state = 88172645463325252u;

static uint64_t draw(uint64_t below)
{
    state ^= state << 13;
    state ^= state >> 7;
    state ^= state << 17;
    return state % below;
}

/* Neighbouring numbers of labels are far from each other as keys. */
static uint64_t key_of(uint64_t label)
{
    return label * 7919 + 1;
}

static double now(void)
{
    struct timespec t;
    clock_gettime(CLOCK_MONOTONIC, &t);
    return (double)t.tv_sec * 1e9 + (double)t.tv_nsec;
}

static int by_size(const void *a, const void *b)
{
    double x = *(const double *)a, y = *(const double *)b;
    return (x > y) - (x < y);
}

/* A row: `one` is the time of one of its calls to a side, in nanoseconds. */
struct row {
    const char *name;
    uint64_t labels;
    size_t batch, length;       /* a batch of 0: look-ups */
};

static double time_puts(const struct side *side, const struct row *row)
{
    uint64_t keys[PUTS][BATCH_MAX];
    for (size_t i = 0; i < PUTS; i++) {
        for (size_t j = 0; j < row->batch; j++) {
            keys[i][j] = key_of(draw(row->labels));
        }
    }
    double before = now();
    for (size_t i = 0; i < PUTS; i++) {
        side->put(keys[i], row->batch, value, row->length);
    }
    return (now() - before) / PUTS;
}

/* Each look-up waits for the value of the one before. */
static double time_looks(const struct side *side, const struct row *row)
{
    static uint64_t keys[LOOKS];
    static volatile uint64_t no_bits = 0;
    uint64_t mask = no_bits, byte = 0;
    const uint8_t *found;
    for (size_t i = 0; i < LOOKS; i++) {
        keys[i] = key_of(draw(row->labels));
    }
    double before = now();
    for (size_t i = 0; i < LOOKS; i++) {
        need(side->look(keys[i + (byte & mask)], &found) == row->length, "a look-up finds another length");
        byte = found[0];
    }
    double after = now();
    need(memcmp(found, value, row->length) == 0, "a look-up finds another value");
    return (after - before) / LOOKS;
}

static void measure(const struct row *row, const char *folder, int rounds)
{
    static double taken[SIDES][ROUNDS_MAX];
    for (int s = 0; s < SIDES; s++) {
        sides[s]->start(folder);
        for (uint64_t k = 0; k < row->labels; k += BATCH_MAX) {
            uint64_t keys[BATCH_MAX];
            size_t n = 0, most = row->length > 16 ? 1 : BATCH_MAX;
            for (uint64_t i = k; i < k + BATCH_MAX && i < row->labels; i++) {
                keys[n++] = key_of(i);
                if (n == most || i + 1 == row->labels || i + 1 == k + BATCH_MAX) {
                    sides[s]->put(keys, n, value, row->length);
                    n = 0;
                }
            }
        }
    }
    for (int r = 0; r < rounds; r++) {
        for (int s = 0; s < SIDES; s++) {
            taken[s][r] = row->batch > 0 ? time_puts(sides[s], row) : time_looks(sides[s], row);
        }
    }
    printf("| %s ", row->name);
    for (int s = 0; s < SIDES; s++) {
        qsort(taken[s], (size_t)rounds, sizeof **taken, by_size);
        printf("| %.0f (%.0f to %.0f) ", taken[s][rounds / 2], taken[s][0], taken[s][rounds - 1]);
        sides[s]->stop();
    }
    printf("|\n");
    fflush(stdout);
}

int main(int count, char **word)
{
    static const struct row rows[] = {
        {"durable put of 16 bytes, 7,500 labels", 7500, 1, 16},
        {"durable put of 256 bytes, 2,000 labels", 2000, 1, 256},
        {"durable put of 4,088 bytes, 200 labels", 200, 1, 4088},
        {"durable batch of 16 puts of 16 bytes, 7,500 labels", 7500, 16, 16},
        {"look-up of 16 bytes, 7,500 labels, one by one", 7500, 0, 16},
        {"look-up of 16 bytes, 30,000 labels, one by one", 30000, 0, 16},
        {"look-up of 4,088 bytes, 200 labels, one by one", 200, 0, 4088},
    };
    int rounds = count > 2 ? atoi(word[2]) : 12;
    need(count >= 2 && rounds >= 1 && rounds <= ROUNDS_MAX, "peers FOLDER [ROUNDS, at most 100]");
    for (size_t i = 0; i < sizeof value; i++) {
        value[i] = (uint8_t)(37 * i + 11);
    }
    printf("| nanoseconds: median (lowest to highest) of %d rounds ", rounds);
    for (int s = 0; s < SIDES; s++) {
        printf("| %s ", sides[s]->name);
    }
    printf("|\n|---|---|---|---|---|\n");
    for (size_t i = 0; i < sizeof rows / sizeof *rows; i++) {
        measure(&rows[i], word[1], rounds);
    }
    return 0;
}
