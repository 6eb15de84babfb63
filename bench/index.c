// Speed of the key table against a plain C hash table with as many slots, in one run.
// Both tables have 131,072 slots of two words and hold 65,536 keys. The keys are worked through in blocks, the two
// tables by turns; of each block the best time of several rounds counts, so that other work on the machine disturbs
// little. Times are nanoseconds a call. A ratio is C's time over Rattle's: 1.00 is equal, more is faster than C.
#include <stdbool.h>
#include <stddef.h>
#include <stdint.h>
#include <stdio.h>
#include <stdlib.h>
#include <time.h>

#define KEYS 65536
#define SLOTS 131072
#define WORDS (2 * SLOTS)
#define ROUNDS 40
#define BLOCK 2048
#define BLOCKS (KEYS / BLOCK)

// The proved key table: a slice is a pointer and its number of words.
void bench_index_clear(uint64_t *table, size_t words);
uint64_t bench_index_look(const uint64_t *table, size_t words, uint64_t key);
uint64_t bench_index_insert(uint64_t *table, size_t words, uint64_t key, uint64_t info);
bool bench_index_remove(uint64_t *table, size_t words, uint64_t key);
size_t bench_index_count(const uint64_t *table, size_t words);

// ---- The floor: a plain C hash table, a power of two of slots, one multiply and a shift ----

static size_t c_hash(uint64_t key)
{
    return (key * 0x9E3779B97F4A7C15u) >> 47;
}

__attribute__((noinline)) static void c_clear(uint64_t *table, size_t words)
{
    for (size_t i = 0; i < words; i++) {
        table[i] = 0;
    }
}

__attribute__((noinline)) static uint64_t c_look(const uint64_t *table, size_t words, uint64_t key)
{
    size_t mask = words / 2 - 1;
    size_t s = c_hash(key) & mask;
    for (;;) {
        if (table[2 * s + 1] == 0) {
            return 0;
        }
        if (table[2 * s] == key) {
            return table[2 * s + 1];
        }
        s = (s + 1) & mask;
    }
}

__attribute__((noinline)) static uint64_t c_insert(uint64_t *table, size_t words, uint64_t key, uint64_t info)
{
    size_t mask = words / 2 - 1;
    size_t s = c_hash(key) & mask;
    for (;;) {
        if (table[2 * s + 1] == 0) {
            table[2 * s] = key;
            table[2 * s + 1] = info;
            return 0;
        }
        if (table[2 * s] == key) {
            table[2 * s + 1] = info;
            return 1;
        }
        s = (s + 1) & mask;
    }
}

__attribute__((noinline)) static bool c_remove(uint64_t *table, size_t words, uint64_t key)
{
    size_t mask = words / 2 - 1;
    size_t hole = c_hash(key) & mask;
    for (;;) {
        if (table[2 * hole + 1] == 0) {
            return true;
        }
        if (table[2 * hole] == key) {
            break;
        }
        hole = (hole + 1) & mask;
    }
    size_t j = hole;
    for (;;) {
        j = (j + 1) & mask;
        if (table[2 * j + 1] == 0) {
            break;
        }
        size_t home = c_hash(table[2 * j]) & mask;
        if (((hole - home) & mask) < ((j - home) & mask)) {
            table[2 * hole] = table[2 * j];
            table[2 * hole + 1] = table[2 * j + 1];
            hole = j;
        }
    }
    table[2 * hole] = 0;
    table[2 * hole + 1] = 0;
    return true;
}

// ---- Keys ----

static uint64_t random_state = 88172645463325252u;

static uint64_t random_word(void)
{
    random_state ^= random_state << 13;
    random_state ^= random_state >> 7;
    random_state ^= random_state << 17;
    return random_state;
}

enum kind { RANDOM, CONSECUTIVE, STEPPED, HIGH_WORD, KINDS };

static const char *kind_name[KINDS] = {
    "random",
    "consecutive",
    "step 4096",
    "high word only",
};

static uint64_t key_of(enum kind kind, uint64_t i)
{
    switch (kind) {
    case RANDOM:
        return random_word();
    case CONSECUTIVE:
        return i;
    case STEPPED:
        return i * 4096;
    default:
        return i << 40;
    }
}

static void shuffle(uint64_t *keys)
{
    for (size_t i = KEYS - 1; i > 0; i--) {
        size_t j = random_word() % (i + 1);
        uint64_t key = keys[i];
        keys[i] = keys[j];
        keys[j] = key;
    }
}

// ---- Probes: how many slots a look-up reads on average ----

// The slot at which the proved table starts, as its definition `hash_of` says.
static size_t rattle_hash(uint64_t key)
{
    uint32_t low = (uint32_t)key * 0xFF274DFFu;
    uint32_t high = (uint32_t)(key >> 32) * 0x7D87B233u;
    uint32_t mixed = low + high;
    return ((uint64_t)mixed * SLOTS) >> 32;
}

static double probes(const uint64_t *table, const uint64_t *keys, size_t (*hash)(uint64_t))
{
    double sum = 0;
    for (size_t i = 0; i < KEYS; i++) {
        size_t s = hash(keys[i]) % SLOTS;
        sum += 1;
        while (table[2 * s + 1] != 0 && table[2 * s] != keys[i]) {
            s = (s + 1) % SLOTS;
            sum += 1;
        }
    }
    return sum / KEYS;
}

// ---- Times ----

static double now(void)
{
    struct timespec t;
    clock_gettime(CLOCK_MONOTONIC, &t);
    return t.tv_sec * 1e9 + t.tv_nsec;
}

// The best time of each block of keys.
struct best {
    double block[BLOCKS];
};

static void start_best(struct best *best)
{
    for (size_t b = 0; b < BLOCKS; b++) {
        best->block[b] = 1e18;
    }
}

static void note_time(struct best *best, size_t b, double time)
{
    if (time < best->block[b]) {
        best->block[b] = time;
    }
}

// Nanoseconds a key.
static double mean(const struct best *best)
{
    double sum = 0;
    for (size_t b = 0; b < BLOCKS; b++) {
        sum += best->block[b];
    }
    return sum / KEYS;
}

typedef uint64_t look_fn(const uint64_t *, size_t, uint64_t);
typedef uint64_t insert_fn(uint64_t *, size_t, uint64_t, uint64_t);
typedef bool remove_fn(uint64_t *, size_t, uint64_t);

// Each times one block of keys. A look-up's answers are summed, so that they can be compared.
static uint64_t time_look(look_fn *look, const uint64_t *table, const uint64_t *keys, size_t b, struct best *best)
{
    uint64_t sum = 0;
    double start = now();
    for (size_t i = b * BLOCK; i < (b + 1) * BLOCK; i++) {
        sum += look(table, WORDS, keys[i]);
    }
    note_time(best, b, now() - start);
    return sum;
}

static void time_insert(insert_fn *insert, uint64_t *table, const uint64_t *keys, size_t b, struct best *best)
{
    double start = now();
    for (size_t i = b * BLOCK; i < (b + 1) * BLOCK; i++) {
        insert(table, WORDS, keys[i], i + 1);
    }
    note_time(best, b, now() - start);
}

static void time_remove(remove_fn *remove, uint64_t *table, const uint64_t *keys, size_t b, struct best *best)
{
    double start = now();
    for (size_t i = b * BLOCK; i < (b + 1) * BLOCK; i++) {
        remove(table, WORDS, keys[i]);
    }
    note_time(best, b, now() - start);
}

static void print_ratio(const char *what, const struct best *rattle, const struct best *c)
{
    double r = mean(rattle);
    double p = mean(c);
    printf("  %-7s rattle %6.1f ns   C %6.1f ns   ratio %.2f\n", what, r, p, p / r);
}

static uint64_t rattle_table[WORDS];
static uint64_t c_table[WORDS];
static uint64_t keys[KEYS];
static uint64_t hits[KEYS];
static uint64_t misses[KEYS];

// Whether both tables answer rightly for every key, stored or not.
static bool right_answers(void)
{
    for (size_t i = 0; i < KEYS; i++) {
        if (bench_index_look(rattle_table, WORDS, keys[i]) != i + 1) {
            return false;
        }
        if (bench_index_look(rattle_table, WORDS, misses[i]) != 0) {
            return false;
        }
        if (c_look(c_table, WORDS, keys[i]) != i + 1) {
            return false;
        }
    }
    return bench_index_count(rattle_table, WORDS) == KEYS;
}

static bool run(enum kind kind)
{
    for (size_t i = 0; i < KEYS; i++) {
        keys[i] = key_of(kind, i);
        hits[i] = keys[i];
        misses[i] = key_of(kind, i + KEYS);
    }
    shuffle(hits);
    shuffle(misses);

    struct best rattle_insert, rattle_hit, rattle_miss, rattle_remove;
    struct best c_inserts, c_hit, c_miss, c_removes;
    start_best(&rattle_insert);
    start_best(&rattle_hit);
    start_best(&rattle_miss);
    start_best(&rattle_remove);
    start_best(&c_inserts);
    start_best(&c_hit);
    start_best(&c_miss);
    start_best(&c_removes);
    bool right = true;

    for (int round = 0; round < ROUNDS; round++) {
        bench_index_clear(rattle_table, WORDS);
        c_clear(c_table, WORDS);
        for (size_t b = 0; b < BLOCKS; b++) {
            time_insert(bench_index_insert, rattle_table, keys, b, &rattle_insert);
            time_insert(c_insert, c_table, keys, b, &c_inserts);
        }
        right = right && right_answers();
        for (size_t b = 0; b < BLOCKS; b++) {
            uint64_t sum = time_look(bench_index_look, rattle_table, hits, b, &rattle_hit);
            right = right && sum == time_look(c_look, c_table, hits, b, &c_hit);
        }
        for (size_t b = 0; b < BLOCKS; b++) {
            uint64_t sum = time_look(bench_index_look, rattle_table, misses, b, &rattle_miss);
            right = right && sum == time_look(c_look, c_table, misses, b, &c_miss);
        }
        if (round == 0) {
            printf("%s keys\n", kind_name[kind]);
            printf("  probes  hit: rattle %.2f, C %.2f\n", probes(rattle_table, hits, rattle_hash), probes(c_table, hits, c_hash));
            printf("  probes  miss: rattle %.2f, C %.2f\n", probes(rattle_table, misses, rattle_hash), probes(c_table, misses, c_hash));
        }
        for (size_t b = 0; b < BLOCKS; b++) {
            time_remove(bench_index_remove, rattle_table, hits, b, &rattle_remove);
            time_remove(c_remove, c_table, hits, b, &c_removes);
        }
        right = right && bench_index_count(rattle_table, WORDS) == 0;
    }

    print_ratio("hit", &rattle_hit, &c_hit);
    print_ratio("miss", &rattle_miss, &c_miss);
    print_ratio("insert", &rattle_insert, &c_inserts);
    print_ratio("remove", &rattle_remove, &c_removes);
    if (!right) {
        printf("  WRONG ANSWERS\n");
    }
    return right;
}

int main(void)
{
    bool right = true;
    for (enum kind kind = RANDOM; kind < KINDS; kind++) {
        right = run(kind) && right;
    }
    return right ? 0 : 1;
}
