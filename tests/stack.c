/* How much stack the calls take, with small and with large chunks, against what zitskvoze.h says: each is made in a
 * thread whose stack was painted before.
 *
 * stack        prints the most of each call; a message and exit status 1 where one takes more than is said */
#define _GNU_SOURCE
#include <inttypes.h>
#include <pthread.h>
#include <stdio.h>
#include <stdlib.h>
#include <string.h>
#include <sys/mman.h>

#include "zitskvoze.h"

enum { CHUNKS = 8, STACK = 8 << 20, WORDS = 16384, KB = 1024, PAINT = 0xA5 };

static uint8_t *stack, *image;
static uint64_t table[WORDS], number;
static zkv_record record;
static uint8_t value[ZKV_LARGE_VALUE_MAX];
static size_t bytes, words = WORDS, length, chunk;
static zkv_report report;

#define LENT &record, image, bytes, table, words

static void finish(void)
{
    while (report.kind >= ZKV_BEGUN && report.kind <= ZKV_FENCE) {
        report = zkv_run(LENT);
    }
}

static void open_call(void)
{
    report = zkv_open(LENT);
}

static void put_call(void)
{
    report = zkv_put(LENT, 7, value, length);
    finish();
}

static void commit_call(void)
{
    report = zkv_commit(LENT);
    finish();
}

static void choose_call(void)
{
    report = zkv_choose(LENT);
}

static void clean_call(void)
{
    report = zkv_clean(LENT, chunk);
}

static void look_calls(void)
{
    uint64_t start, found, version;
    zkv_look_up_version(LENT, 7, &start, &found, &version);
    zkv_list_key(LENT, 7, &version, &found, &start);
    zkv_list_keys(LENT, (uint64_t *)(void *)value, sizeof value / 8, &number);
    zkv_chunk(LENT, 1);
    zkv_empty_chunk(LENT, 1);
    zkv_entries(image, bytes, 7, 0, (uint64_t *)(void *)value, sizeof value / 8);
    zkv_entry(image, bytes, 7, 0);
}

static void fault_call(void)
{
    number = zkv_fault(image, bytes).refusal;
}

static void nothing(void)
{
}

/* The calls, and the most that the header's words allow each, in KB. */
enum { OPEN, PUT, COMMIT, CHOOSE, CLEAN, END_OF_CLEAN, LOOKS, FAULT, CALLS };

static struct call {
    const char *name;
    void (*make)(void);
    size_t said, most;
} calls[CALLS] = {
    [OPEN] = {"an opening", open_call, 560, 0},
    [PUT] = {"a staging", put_call, 16, 0},
    [COMMIT] = {"a commit", commit_call, 16, 0},
    [CHOOSE] = {"a choosing", choose_call, 240, 0},
    [CLEAN] = {"the begin of a cleaning", clean_call, 280, 0},
    [END_OF_CLEAN] = {"the steps of a cleaning", finish, 560, 0},
    [LOOKS] = {"look-ups and lists", look_calls, 16, 0},
    [FAULT] = {"the place of a fault", fault_call, 1700, 0},
};

static void (*made)(void);

static void *run(void *unused)
{
    made();
    return unused;
}

static size_t painted(void (*make)(void))
{
    pthread_attr_t attributes;
    pthread_t thread;
    size_t left = 0;
    memset(stack, PAINT, STACK);
    made = make;
    if (pthread_attr_init(&attributes) != 0 || pthread_attr_setstack(&attributes, stack, STACK) != 0 ||
        pthread_create(&thread, &attributes, run, NULL) != 0 || pthread_join(thread, NULL) != 0) {
        fputs("stack: no thread\n", stderr);
        exit(2);
    }
    while (left < STACK && stack[left] == PAINT) {
        left++;
    }
    return STACK - left;
}

static void measure(int which)
{
    struct call *c = &calls[which];
    size_t beside = painted(nothing), all = painted(c->make);
    size_t taken = all > beside ? all - beside : 0;
    c->most = taken > c->most ? taken : c->most;
}

static void expect(uint64_t kind, const char *what)
{
    if (report.kind != kind) {
        fprintf(stderr, "stack: %s answers %" PRIu64 " %" PRIu64 "\n", what, report.kind, report.first);
        exit(1);
    }
}

static void set_word(size_t word, uint64_t x)
{
    memcpy(image + 8 * word, &x, 8);
}

/* A register whose first log chunk is full, half of it superseded. */
static void measure_size(uint64_t power)
{
    size_t chunk_bytes = (size_t)1 << power, lines = chunk_bytes / ZKV_LINE_BYTES;
    bytes = CHUNKS * chunk_bytes;
    memset(&record, 0, sizeof record);
    report = zkv_format(LENT, power, 0, 0, 0, 0);
    finish();
    expect(ZKV_END, "a formatting");
    measure(OPEN);
    for (uint64_t k = 0; k < lines + lines / 2; k++) {
        report = zkv_put(LENT, 1000 + (k < lines ? k : 2 * (k - lines)), value, 48);
        finish();
        commit_call();
        expect(ZKV_END, "a commit");
    }
    length = chunk_bytes - 8;
    measure(PUT);
    measure(COMMIT);
    expect(ZKV_END, "a commit");
    measure(LOOKS);
    measure(CHOOSE);
    expect(ZKV_CHOSEN, "a choosing");
    chunk = 1;
    measure(CLEAN);
    expect(ZKV_BEGUN, "a cleaning");
    measure(END_OF_CLEAN);
    expect(ZKV_END, "a cleaning");
    measure(FAULT);
    words = 40;                         /* too few: refused with 7 */
    measure(OPEN);
    expect(ZKV_REFUSED, "an opening with a small table");
    words = WORDS;
    /* Two copies of each entry of a chunk, as a cut cleaning leaves them: an opening and a cleaning look at both. */
    memset(image + chunk_bytes, 0, 2 * chunk_bytes);
    for (size_t e = 0; e < 4 * lines; e++) {
        for (size_t c = 1; c <= 2; c++) {
            set_word(c * chunk_bytes / 8 + 2 * e, 1 | 1 << 4);
            set_word(c * chunk_bytes / 8 + 2 * e + 1, e);
        }
    }
    for (size_t c = 1; c < CHUNKS; c++) {
        set_word(8 + c, c <= 2 ? 1 | lines << 8 : 0);
    }
    measure(OPEN);
    expect(ZKV_OPENED, "an opening of entries that stand twice");
    measure(FAULT);
    measure(CLEAN);
    expect(ZKV_BEGUN, "a cleaning of entries that stand twice");
    measure(END_OF_CLEAN);
    expect(ZKV_END, "a cleaning of entries that stand twice");
    set_word(chunk_bytes / 4 + 1, 1);   /* two keys' entries: tops that disagree, and a fault to be found */
    set_word(chunk_bytes / 4, 2 | 1 << 4);
    measure(FAULT);
}

int main(void)
{
    int status = 0;
    stack = mmap(NULL, STACK, PROT_READ | PROT_WRITE, MAP_PRIVATE | MAP_ANONYMOUS, -1, 0);
    image = mmap(NULL, CHUNKS * ZKV_LARGE_CHUNK_BYTES, PROT_READ | PROT_WRITE, MAP_PRIVATE | MAP_ANONYMOUS, -1, 0);
    if (stack == MAP_FAILED || image == MAP_FAILED) {
        fputs("stack: no memory\n", stderr);
        return 2;
    }
    measure_size(ZKV_POWER_SMALL);
    size_t small = calls[CLEAN].most;
    measure_size(ZKV_POWER_LARGE);
    printf("stack:");
    for (int c = 0; c < CALLS; c++) {
        printf(" %s %zu%s", calls[c].name, calls[c].most, c < CALLS - 1 ? "," : "");
        if (calls[c].most > calls[c].said * KB) {
            status = 1;
        }
    }
    printf("; the begin of a cleaning with small chunks %zu\n", small);
    if (status != 0) {
        fputs("stack: a call takes more than zitskvoze.h says\n", stderr);
    }
    return status;
}
