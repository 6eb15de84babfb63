/* What the header lends a call as const is never written, not even with what stands there: record, image and table lie
 * in pages of their own, and whichever of them a call is lent as const is read-only while it runs. Every such call is
 * made in every state of the record: closed, open, staged, in a staging, a commit, a cleaning and a formatting. In a
 * staging, a commit and a cleaning look-ups and lists answer, too. Built and run by tests/hosts.sh.
 *
 * read_only        exit status 1 and a message at the first call that writes, or answers other than the header says */
#define _DEFAULT_SOURCE
#include <signal.h>
#include <stdio.h>
#include <stdlib.h>
#include <string.h>
#include <sys/mman.h>
#include <unistd.h>

#include "zitskvoze.h"

enum { CHUNKS = 5, BYTES = CHUNKS * ZKV_CHUNK_BYTES, WORDS = 1024, KEYS = 8, LARGE = 1000 };

static zkv_record *record;
static uint8_t *image;
static uint64_t *table;
static const char *volatile call = "no call";

#define LENT record, image, BYTES, table, WORDS
/* the call that is made, for the message of the fault that it may be ended by */
#define MADE(name, ...) (call = #name, name(__VA_ARGS__))
#define HOLD(what)                                                                      \
    do {                                                                                \
        if (!(what)) {                                                                  \
            fprintf(stderr, "read_only: line %d: not so: %s\n", __LINE__, #what);       \
            exit(1);                                                                    \
        }                                                                               \
    } while (0)

static void say(const char *words)
{
    if (write(STDERR_FILENO, words, strlen(words)) < 0) _exit(2);
}

static void faulted(int number)
{
    (void)number;
    say("read_only: ");
    say(call);
    say(" writes to what it is lent as const\n");
    _exit(1);
}

static void *pages(size_t bytes)
{
    void *made = mmap(NULL, bytes, PROT_READ | PROT_WRITE, MAP_PRIVATE | MAP_ANONYMOUS, -1, 0);
    HOLD(made != MAP_FAILED);
    return made;
}

/* Which of the three the next calls may write. */
static void lend(int to_record, int to_image, int to_table)
{
    HOLD(mprotect(record, sizeof *record, to_record ? PROT_READ | PROT_WRITE : PROT_READ) == 0);
    HOLD(mprotect(image, BYTES, to_image ? PROT_READ | PROT_WRITE : PROT_READ) == 0);
    HOLD(mprotect(table, WORDS * 8, to_table ? PROT_READ | PROT_WRITE : PROT_READ) == 0);
}

/* The labels of keys 1 to 4 as look-up shows them now, and as the staged items will make them. Version 0: absent. */
static struct label {
    uint64_t length, version;
} shown[5], staged[5];

/* Every call that only reads. `number` is what they get in this state, 0 where a register is open and at rest, with
 * something to clean; look-ups and lists get `looks`, or where that is 0 the labels shown. */
static void read_all(uint64_t number, uint64_t looks)
{
    uint64_t start = 9, length = 9, count = 9, version = 9, block = 9, named = 9, entries[2 * ZKV_ENTRY_WORDS];
    uint64_t keys[KEYS] = {0}, present[KEYS] = {0}, presents = 0;
    lend(0, 0, 0);
    zkv_report report = MADE(zkv_choose, LENT);
    HOLD(number == 0 ? report.kind == ZKV_CHOSEN : report.kind == ZKV_REFUSED && report.first == number);
    for (uint64_t key = 1; key <= 4; key++) {
        struct label label = looks == 0 ? shown[key] : (struct label){0, 0};
        uint64_t expected = looks != 0 ? looks : label.version > 0 ? 0 : ZKV_KEY_ABSENT;
        HOLD(MADE(zkv_look_up, LENT, key, &start, &length) == expected && length == label.length);
        HOLD(MADE(zkv_look_up_version, LENT, key, &start, &length, &version) == expected);
        HOLD(length == label.length && version == label.version);
        HOLD(MADE(zkv_list_key, LENT, key, &version, &length, &block) == expected);
        HOLD(length == label.length && version == label.version && block == (label.length == LARGE));
        if (label.version > 0) {
            present[presents++] = key;
        }
    }
    for (size_t room = 0; room <= KEYS; room++) {
        HOLD(MADE(zkv_list_keys, LENT, keys, room, &count) == looks && count == presents);
    }
    HOLD(memcmp(keys, present, sizeof keys) == 0);
    HOLD(MADE(zkv_keys, record) <= 3);
    for (size_t chunk = 0; chunk <= CHUNKS; chunk++) {
        uint64_t none = chunk == 0 || chunk == CHUNKS ? ZKV_NOT_CLEANABLE : 0;
        HOLD(MADE(zkv_chunk, LENT, chunk).refused == (number != 0 ? number : none));
        report = MADE(zkv_empty_chunk, LENT, chunk);
        HOLD(report.kind == ZKV_REFUSED && report.first == (number != 0 ? number : ZKV_NOT_CLEANABLE));
    }
    /* the image alone, open or not */
    HOLD(MADE(zkv_free_chunks, image, BYTES) <= CHUNKS && MADE(zkv_lines_used, image, BYTES) <= 64 * CHUNKS);
    HOLD(MADE(zkv_power, image, BYTES) <= ZKV_POWER_SMALL);
    HOLD(MADE(zkv_station, image, BYTES, &named) <= 1 && MADE(zkv_centre, image, BYTES, &named) <= 1);
    HOLD(MADE(zkv_entry, image, BYTES, 1, 0).found <= 1 && MADE(zkv_fault, image, BYTES).refusal <= ZKV_TOPS_DISAGREE);
    for (size_t room = 0; room <= 2 * ZKV_ENTRY_WORDS; room++) {
        HOLD(MADE(zkv_entries, image, BYTES, 1, 0, entries, room) <= 3);
    }
}

/* A call that is begun is lent image and table as const; then all three, for its steps. At each rest behind an action
 * all that only read are made, which get `number` and `looks`. From fence number `last` on the staged labels are
 * shown. */
static void done(zkv_report begun, uint64_t number, uint64_t looks, int last)
{
    int fences = 0;
    HOLD(begun.kind == ZKV_BEGUN);
    do {
        read_all(number, looks);
        lend(1, 1, 1);
        begun = MADE(zkv_run, LENT);
        HOLD(begun.kind == ZKV_FLUSH || begun.kind == ZKV_FENCE || begun.kind == ZKV_END);
        if (begun.kind == ZKV_FENCE && ++fences == last) {
            memcpy(shown, staged, sizeof shown);
        }
    } while (begun.kind != ZKV_END);
    HOLD(last == 0 || fences == last);
    lend(1, 0, 0);
}

#define BEGUN(name, ...) done((lend(1, 0, 0), MADE(name, __VA_ARGS__)), ZKV_UNFINISHED, 0, 0)

/* A commit, with its second fence. */
#define COMMITTED(...) done((lend(1, 0, 0), MADE(zkv_commit, __VA_ARGS__)), ZKV_UNFINISHED, 0, 2)

int main(void)
{
    uint8_t value[LARGE];
    memset(value, 7, sizeof value);
    record = pages(sizeof *record), image = pages(BYTES), table = pages(WORDS * 8);
    HOLD(signal(SIGSEGV, faulted) != SIG_ERR && signal(SIGBUS, faulted) != SIG_ERR);
    read_all(ZKV_NOT_OPEN, ZKV_NOT_OPEN);
    lend(1, 0, 0);
    done(MADE(zkv_format, LENT, ZKV_POWER_SMALL, 1, 7, 1, 8), ZKV_NOT_OPEN, ZKV_NOT_OPEN, 0);
    read_all(ZKV_NOT_OPEN, ZKV_NOT_OPEN);
    lend(1, 0, 1);
    HOLD(MADE(zkv_open, LENT).kind == ZKV_OPENED);
    BEGUN(zkv_put, LENT, 1, value, 1);
    BEGUN(zkv_put, LENT, 2, value, 1);
    BEGUN(zkv_put, LENT, 3, value, LARGE);
    staged[1] = staged[2] = (struct label){1, 1}, staged[3] = (struct label){LARGE, 1};
    COMMITTED(LENT);
    BEGUN(zkv_delete, LENT, 2);
    staged[2] = (struct label){0, 0};
    COMMITTED(LENT);
    BEGUN(zkv_put_at, LENT, 1, value, 1, 1);
    staged[1] = (struct label){1, 2};
    COMMITTED(LENT);
    read_all(0, 0);
    lend(1, 0, 0);
    BEGUN(zkv_put, LENT, 4, value, 1);
    BEGUN(zkv_delete_at, LENT, 3, 1);
    read_all(0, 0);
    lend(1, 0, 0);
    HOLD(MADE(zkv_abandon, LENT).kind == ZKV_ABANDONED);
    size_t chosen = MADE(zkv_choose, LENT).first;
    BEGUN(zkv_clean, LENT, chosen);
    lend(1, 0, 0);
    done(MADE(zkv_format, LENT, ZKV_POWER_SMALL, 0, 0, 0, 0), ZKV_UNFINISHED, ZKV_UNFINISHED, 0);
    read_all(ZKV_NOT_OPEN, ZKV_NOT_OPEN);
    printf("read_only: no call writes to what it is lent as const\n");
    return 0;
}
