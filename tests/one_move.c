/* Watches the image after every machine instruction of zkv_step and of zkv_run: each word that is stored must go from its old to
 * its new value in one instruction, and nothing else of the image may change. Before a step or run each word that it
 * will store is made to differ from the new value in every byte, so that a store in parts would be seen. What is stored
 * is learned from steps on a copy; a run must make the same stores in the same order.
 *
 * Instructions are watched by the processor's trap flag. A formatting, commits of 1 and of 64 lines, stagings of large
 * values and cleanings are stepped, so that every kind of store comes; then all but the formatting are run. Built with
 * -DTORN the step stores byte by byte, with -DTORN_RUN the run does, and this program must find it. */
#define _GNU_SOURCE
#include <inttypes.h>
#include <signal.h>
#include <stdbool.h>
#include <stdio.h>
#include <stdlib.h>
#include <string.h>

#include "zitskvoze.h"

enum { BYTES = 8 * ZKV_CHUNK_BYTES, WORDS = 256, STORES_MAX = 1024 };

static _Alignas(64) uint8_t image[BYTES], seen[BYTES], trial[BYTES];
static uint64_t table[WORDS], trial_table[WORDS];
static zkv_record record, trial_record;

/* The changes of the image during one call: their number, the word and value of each, and how many were of several
 * words. */
struct change {
    uint64_t word, value;
};

static struct change seen_change[STORES_MAX];
static volatile uint64_t changes, several, instructions, stores, run_instructions, run_stores;

static void trapped(int signal)
{
    (void)signal;
    instructions++;
    if (memcmp(image, seen, BYTES) == 0) {
        return;
    }
    uint64_t words = 0;
    struct change c = {0, 0};
    for (size_t w = 0; w < BYTES / 8; w++) {
        if (memcmp(image + 8 * w, seen + 8 * w, 8) != 0) {
            c.word = w;
            memcpy(&c.value, image + 8 * w, 8);
            words++;
        }
    }
    if (changes < STORES_MAX) {
        seen_change[changes] = c;
    }
    changes++;
    several += words > 1;
    memcpy(seen, image, BYTES);
}

/* The trap flag, bit 8 of the flags. */
__attribute__((noinline)) static void trap_on(void)
{
    __asm__ volatile("pushfq\n\torq $0x100, (%%rsp)\n\tpopfq" : : : "memory", "cc");
}

__attribute__((noinline)) static void trap_off(void)
{
    __asm__ volatile("pushfq\n\tandq $-257, (%%rsp)\n\tpopfq" : : : "memory", "cc");
}

#ifdef TORN
static zkv_report watched_step(void)
{
    zkv_report r = zkv_step(&record, trial, BYTES, table, WORDS);
    for (size_t i = 0; r.kind == ZKV_STORE && i < 8; i++) {
        ((volatile uint8_t *)image)[8 * r.first + i] = trial[8 * r.first + i];
    }
    return r;
}
#else
static zkv_report watched_step(void)
{
    return zkv_step(&record, image, BYTES, table, WORDS);
}
#endif

#ifdef TORN_RUN
static zkv_report watched_run(void)
{
    zkv_report r = zkv_run(&record, trial, BYTES, table, WORDS);
    for (size_t i = 0; i < BYTES; i++) {
        if (image[i] != trial[i]) {
            ((volatile uint8_t *)image)[i] = trial[i];
        }
    }
    return r;
}
#else
static zkv_report watched_run(void)
{
    return zkv_run(&record, image, BYTES, table, WORDS);
}
#endif

static void fail(const char *what, zkv_report r)
{
    printf("one_move: %s (kind %" PRIu64 ", %" PRIu64 ", %" PRIu64 "; %" PRIu64 " changes, %" PRIu64 " of several words)\n", what,
           r.kind, r.first, r.second, changes, several);
    exit(1);
}

/* One step, or one run, tried by steps on copies to learn what it stores, then watched. */
static zkv_report watch(bool running)
{
    static struct change due[STORES_MAX];
    static uint8_t after[BYTES];
    uint64_t count = 0, before = instructions;
    zkv_report r;
    trial_record = record;
    memcpy(trial, image, BYTES);
    memcpy(trial_table, table, sizeof table);
    do {
        r = zkv_step(&trial_record, trial, BYTES, trial_table, WORDS);
        if (r.kind == ZKV_STORE) {
            if (count == STORES_MAX) {
                fail("too many stores", r);
            }
            due[count++] = (struct change){r.first, r.second};
        }
    } while (running && r.kind == ZKV_STORE);
    memcpy(after, trial, BYTES);
    for (uint64_t i = 0; i < count; i++) {
        uint64_t other = ~due[i].value;
        memcpy(image + 8 * due[i].word, &other, 8);
    }
    memcpy(seen, image, BYTES);
    memcpy(trial, image, BYTES);
    changes = several = 0;
    trap_on();
    zkv_report again = running ? watched_run() : watched_step();
    trap_off();
    stores += count;
    if (running) {
        run_stores += count;
        run_instructions += instructions - before;
    }
    if (memcmp(&r, &again, sizeof r) != 0) {
        fail("a step or run answered otherwise than steps on a copy", again);
    }
    if (count == 0 && changes != 0) {
        fail("the image was changed without a store", r);
    }
    if (changes != count || several != 0) {
        fail("a word was not stored by one instruction", r);
    }
    for (uint64_t i = 0; i < count; i++) {
        if (seen_change[i].word != due[i].word || seen_change[i].value != due[i].value) {
            fail("another word or value was stored than by steps on a copy", r);
        }
    }
    if (memcmp(image, after, BYTES) != 0 || memcmp(table, trial_table, sizeof table) != 0 ||
        memcmp(&record, &trial_record, sizeof record) != 0) {
        fail("image, table or record are other than after steps on a copy", r);
    }
    return r;
}

static void finish(zkv_report r, bool running)
{
    if (r.kind != ZKV_BEGUN) {
        fail("a call was not begun", r);
    }
    do {
        r = watch(running);
    } while (r.kind != ZKV_END);
}

/* Commits of 1 line and of 64. */
static void commits(const uint8_t *value, bool running)
{
    for (size_t items = 1; items <= 15; items += 14) {
        for (size_t i = 0; i < items; i++) {
            finish(zkv_put(&record, image, BYTES, table, WORDS, i, value, items == 1 ? 5 : 256), running);
        }
        zkv_report r = zkv_commit(&record, image, BYTES, table, WORDS);
        if (r.first != (items == 1 ? 9 * 1 + 4 : 9 * 64 + 4)) {
            fail("a commit is not of 1 or 64 lines", r);
        }
        finish(r, running);
    }
}

/* Cleanings of the full log chunks. Answers whether one of them copied 64 lines. */
static bool cleanings(bool running)
{
    bool full[BYTES / ZKV_CHUNK_BYTES], whole = false;
    for (uint64_t c = 1; c < BYTES / ZKV_CHUNK_BYTES; c++) {
        uint64_t word;
        memcpy(&word, image + 64 + 8 * c, 8);
        full[c] = word == (1 | 64 << 8);
    }
    for (uint64_t c = 1; c < BYTES / ZKV_CHUNK_BYTES; c++) {
        if (full[c]) {
            zkv_report r = zkv_clean(&record, image, BYTES, table, WORDS, c);
            whole = whole || r.first == 9 * 64 + 7;
            finish(r, running);
        }
    }
    return whole;
}

/* Stagings of large values: the first of a block size takes a chunk, the second finds a block there. Each stores its
 * length and its words, and one directory word where a chunk is taken. The chunks are freed again. */
static void stagings(const uint8_t *value, bool running)
{
    static const size_t length[] = {ZKV_LOG_VALUE_MAX + 1, 1000, ZKV_VALUE_MAX};
    for (size_t i = 0; i < sizeof length / sizeof *length; i++) {
        for (uint64_t taken = 2; taken-- > 0;) {
            uint64_t before = stores;
            zkv_report r = zkv_put(&record, image, BYTES, table, WORDS, 900, value, length[i]);
            finish(r, running);
            if (stores - before != 1 + (length[i] + 7) / 8 + taken) {
                fail("a staging stored another number of words than its length, its value and a chunk taken", r);
            }
            r = zkv_abandon(&record, image, BYTES, table, WORDS);
            if (r.kind != ZKV_ABANDONED) {
                fail("a staging was not abandoned", r);
            }
        }
        zkv_report r = zkv_empty_chunk(&record, image, BYTES, table, WORDS, 1);
        if (r.kind != ZKV_CHOSEN) {
            fail("no data chunk is empty", r);
        }
        finish(zkv_clean(&record, image, BYTES, table, WORDS, r.first), running);
    }
}

int main(void)
{
    static uint8_t value[ZKV_VALUE_MAX];
    struct sigaction act = {.sa_handler = trapped};
    sigaction(SIGTRAP, &act, NULL);
    for (size_t i = 0; i < sizeof value; i++) {
        value[i] = (uint8_t)(37 * i + 11);
    }
    finish(zkv_format(&record, image, BYTES, table, WORDS, ZKV_POWER_SMALL, 1, 0x0123456789ABCDEFu, 1, 77), false);
    if (zkv_open(&record, image, BYTES, table, WORDS).kind != ZKV_OPENED) {
        puts("one_move: the formatted image does not open");
        return 1;
    }
    commits(value, false);
    bool stepped = cleanings(false);
    stagings(value, false);
    commits(value, true);
    stagings(value, true);
    if (!cleanings(true) || !stepped) {
        puts("one_move: no cleaning copied 64 lines");
        return 1;
    }
    if (instructions < 1000 || run_instructions < 1000) {
        puts("one_move: the trap flag does not work here, nothing was watched");
        return 2;
    }
    printf("one_move: %" PRIu64 " stores watched over %" PRIu64 " instructions, %" PRIu64 " and %" PRIu64
           " of them in runs; each by one instruction\n", stores, instructions, run_stores, run_instructions);
    return 0;
}
