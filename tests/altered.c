/* Records altered behind the library's back, through zkv_finish: the host's functions are given no address outside the
 * image, look-ups between the steps answer no part outside it, and every call ends. tests/library.sh builds it with
 * sanitizers.
 *
 * A format, a put of a large value, a commit and a cleaning are begun; then each word of the record in turn, and words
 * by chance, are altered, and the call is carried out. The image lies between pages that cannot be touched.
 *
 * altered [CASES]      CASES (20,000) of altering by chance, from a fixed seed; exit status 1 and a message at the
 *                      first fault, or where no step reported a line past the image or no look-up in an unfinished call
 *                      was answered, so that too little was tried */
#define _GNU_SOURCE
#include <inttypes.h>
#include <stdbool.h>
#include <stdio.h>
#include <stdlib.h>
#include <string.h>
#include <sys/mman.h>

#include "zitskvoze.h"

enum { CHUNKS = 8, BYTES = CHUNKS * ZKV_CHUNK_BYTES, WORDS = 256, RECORD_WORDS = sizeof(zkv_record) / 8, STEPS_MAX = 10000 };

struct state {
    uint8_t image[BYTES];
    uint64_t table[WORDS];
    zkv_record record;
    zkv_report begun;
};

static uint8_t *image;
static uint64_t table[WORDS];
static zkv_record record;
static uint64_t lines, fences, past, cases, found;
static const char *what = "";

#define LENT &record, image, BYTES, table, WORDS

__attribute__((noreturn)) static void fault(const char *text)
{
    fprintf(stderr, "altered: %s, case %" PRIu64 ": %s\n", what, cases, text);
    exit(1);
}

static void flush(void *unused, const uint8_t *line)
{
    (void)unused;
    uintptr_t from = (uintptr_t)line - (uintptr_t)image;
    if (from >= BYTES || from % ZKV_LINE_BYTES != 0) {
        fault("a line outside the image is to be written back");
    }
    lines++;
}

/* While the host waits, another thread may look up. */
static int fence(void *unused)
{
    (void)unused;
    if (++fences > STEPS_MAX) {
        fault("no end");
    }
    for (uint64_t key = 0; key <= 60; key += 10) {
        uint64_t start, length, number = zkv_look_up(LENT, key, &start, &length);
        if (start > BYTES || length > BYTES - start) {
            fault("a part outside the image");
        }
        found += number == 0;
    }
    return 0;
}

static zkv_report finish(zkv_report r)
{
    fences = 0;
    return zkv_finish(LENT, r, flush, fence, NULL);
}

static void set_up(void)
{
    uint8_t *p = mmap(NULL, BYTES + 2 * ZKV_CHUNK_BYTES, PROT_NONE, MAP_PRIVATE | MAP_ANONYMOUS, -1, 0);
    if (p == MAP_FAILED || mprotect(p + ZKV_CHUNK_BYTES, BYTES, PROT_READ | PROT_WRITE) != 0) {
        perror("altered: guard pages");
        exit(2);
    }
    image = p + ZKV_CHUNK_BYTES;
}

static void right(bool holds)
{
    if (!holds) {
        fault("a call on memory as the calls left it does not do as it should");
    }
}

static void put(uint64_t key, size_t length)
{
    static uint8_t value[ZKV_VALUE_MAX];
    memset(value, (int)key, sizeof value);
    right(finish(zkv_put(LENT, key, value, length)).kind == ZKV_END && finish(zkv_commit(LENT)).kind == ZKV_END);
}

static void keep(struct state *s, zkv_report begun)
{
    right(begun.kind == ZKV_BEGUN);
    memcpy(s->image, image, BYTES);
    memcpy(s->table, table, sizeof table);
    s->record = record;
    s->begun = begun;
}

static void bring(const struct state *s)
{
    memcpy(image, s->image, BYTES);
    memcpy(table, s->table, sizeof table);
    record = s->record;
}

/* ---- the begun calls */
enum { FORMAT, LARGE_PUT, COMMIT, CLEAN, BEGUN_CALLS };

static const char *const names[BEGUN_CALLS] = {"format", "large put", "commit", "clean"};
static struct state states[BEGUN_CALLS];

static void begin_calls(void)
{
    static const uint8_t value[ZKV_VALUE_MAX];
    keep(&states[FORMAT], zkv_format(LENT, ZKV_POWER_SMALL, 1, 7, 0, 0));
    right(finish(states[FORMAT].begun).kind == ZKV_END && zkv_open(LENT).kind == ZKV_OPENED);
    for (uint64_t key = 0; key < 40; key++) {
        put(key % 20, 40 + key);
    }
    put(50, 1000);
    keep(&states[LARGE_PUT], zkv_put(LENT, 51, value, 2000));
    right(finish(states[LARGE_PUT].begun).kind == ZKV_END && zkv_abandon(LENT).kind == ZKV_ABANDONED);
    keep(&states[CLEAN], zkv_clean(LENT, (size_t)zkv_choose(LENT).first));
    right(finish(states[CLEAN].begun).kind == ZKV_END);
    for (uint64_t key = 60; key < 66; key++) {
        right(finish(zkv_put(LENT, key, value, 200)).kind == ZKV_END);
    }
    keep(&states[COMMIT], zkv_commit(LENT));
    right(finish(states[COMMIT].begun).kind == ZKV_END);
}

/* Steps of the altered call that report a line past the image: what there is to be passed over. */
static void count_past(void)
{
    for (int steps = 0; steps < STEPS_MAX; steps++) {
        zkv_report r = zkv_step(LENT);
        past += r.kind == ZKV_FLUSH && r.first >= BYTES / ZKV_LINE_BYTES;
        if (r.kind != ZKV_STORE && r.kind != ZKV_FLUSH && r.kind != ZKV_FENCE) {
            return;
        }
    }
    fault("no end of the steps");
}

/* Carries out the call with the record as it is now, on image and table as they were. */
static void play(const struct state *s)
{
    zkv_record altered = record;
    cases++;
    bring(s);
    record = altered;
    finish(s->begun);
    bring(s);
    record = altered;
    count_past();
}

static uint64_t drawn = 88172645463325252u;

static uint64_t draw(void)
{
    drawn ^= drawn << 13;
    drawn ^= drawn >> 7;
    drawn ^= drawn << 17;
    return drawn;
}

static uint64_t other_word(uint64_t w, uint64_t way)
{
    switch (way) {
    case 0:
        return 0;
    case 1:
        return UINT64_MAX;
    case 2:
        return w + 1;
    case 3:
        return w ^ (uint64_t)1 << draw() % 64;
    case 4:
        return draw() % 1024;
    default:
        return draw() >> draw() % 64;
    }
}

int main(int count, char **argument)
{
    enum { WAYS = 6, ALL = 22 + 512 + 512 };     /* the record's numbers, the batch, and what small chunks have of the second area */
    uint64_t by_chance = count > 1 ? strtoull(argument[1], NULL, 10) : 20000;
    set_up();
    begin_calls();
    for (int c = 0; c < BEGUN_CALLS; c++) {
        what = names[c];
        for (size_t w = 0; w < RECORD_WORDS; w += w < ALL ? 1 : 7) {
            for (uint64_t way = 0; way < WAYS; way++) {
                record = states[c].record;
                record.word[w] = other_word(record.word[w], way);
                play(&states[c]);
            }
        }
    }
    for (uint64_t i = 0; i < by_chance; i++) {
        const struct state *s = &states[draw() % BEGUN_CALLS];
        what = "by chance";
        record = s->record;
        for (uint64_t n = 1 + draw() % 4; n > 0; n--) {
            uint64_t *w = &record.word[draw() % (draw() % 2 ? 32 : RECORD_WORDS)];
            *w = other_word(*w, draw() % WAYS);
        }
        play(s);
    }
    if (past == 0 || found == 0) {
        fault("no step reported a line past the image, or no look-up in an unfinished call was answered: too little was tried");
    }
    printf("altered: %" PRIu64 " altered records, %" PRIu64 " lines written back, %" PRIu64 " past the image passed over, %" PRIu64
           " labels found meanwhile\n",
           cases, lines, past, found);
    return 0;
}
