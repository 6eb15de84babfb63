/* The rule that a commit is begun only while a free chunk stands: a register that is stuck for good without it after a
 * cleaning that was cut off, and goes on with it (zkv_make_room). tests/library.sh runs it.
 *
 * room             exit status 1 and a message at the first thing that is not as the header says */
#include <inttypes.h>
#include <stdbool.h>
#include <stdio.h>
#include <stdlib.h>
#include <string.h>

#include "zitskvoze.h"

enum {
    CHUNKS_MOST = 5,
    WORDS = 4096,
    CHUNK_LINES = ZKV_CHUNK_BYTES / ZKV_LINE_BYTES,
    LINE_VALUE = ZKV_LINE_BYTES - 16,
    LAST_ACTIONS = 3            /* of a cleaning: the chunk becomes free */
};

static struct station {
    _Alignas(64) uint8_t image[CHUNKS_MOST * ZKV_CHUNK_BYTES];
    size_t bytes, first_log;    /* the first log chunk */
    uint64_t table[WORDS];
    zkv_record record;
} now;

#define LENT &now.record, now.image, now.bytes, now.table, WORDS
#define HOLD(what) ((what) ? (void)0 : not_so(__LINE__, #what))

static void not_so(int line, const char *what)
{
    fprintf(stderr, "room: line %d: not so: %s\n", line, what);
    exit(1);
}

static void flush(void *fences, const uint8_t *line)
{
    (void)fences;
    HOLD(line >= now.image && line + ZKV_LINE_BYTES <= now.image + now.bytes);
}

/* Fails once where no fences are left to do; -1: never. */
static int fence(void *fences)
{
    int *left = fences;
    return *left >= 0 && (*left)-- == 0 ? -1 : 0;
}

static int never = -1;

static zkv_report finish(zkv_report r)
{
    return zkv_finish(LENT, r, flush, fence, &never);
}

static uint64_t free_chunks(void)
{
    return zkv_free_chunks(now.image, now.bytes);
}

static zkv_report make_room(int *fences)
{
    return zkv_make_room(LENT, flush, fence, fences);
}

/* A label of a whole line. */
static void label(uint64_t key, uint64_t print, uint8_t value[LINE_VALUE])
{
    memset(value, (int)(print + 1), LINE_VALUE);
    memcpy(value, &key, sizeof key);
}

/* Puts one label, or where print is none deletes it, and answers the commit's report; nothing stays staged. */
enum { DELETE = 99 };

static zkv_report change(uint64_t key, uint64_t print)
{
    uint8_t value[LINE_VALUE];
    label(key, print, value);
    zkv_report r = finish(print == DELETE ? zkv_delete(LENT, key) : zkv_put(LENT, key, value, sizeof value));
    HOLD(r.kind == ZKV_END);
    r = finish(zkv_commit(LENT));
    HOLD(r.kind == ZKV_END || zkv_abandon(LENT).kind == ZKV_ABANDONED);
    return r;
}

static bool no_space(zkv_report r)
{
    return r.kind == ZKV_REFUSED && r.first == ZKV_NO_SPACE;
}

static void change_many(uint64_t from, uint64_t to, uint64_t print)
{
    for (uint64_t key = from; key < to; key++) {
        HOLD(change(key, print).kind == ZKV_END);
    }
}

static void is_label(uint64_t key, uint64_t print)
{
    uint8_t value[LINE_VALUE];
    uint64_t start, length;
    label(key, print, value);
    HOLD(zkv_look_up(LENT, key, &start, &length) == 0 && length == sizeof value);
    HOLD(memcmp(now.image + start, value, sizeof value) == 0);
}

/* Key 0 was deleted, those from 1 to 31 printed anew. */
static void labels_are_there(void)
{
    uint64_t start, length;
    HOLD(zkv_look_up(LENT, 0, &start, &length) == ZKV_KEY_ABSENT);
    for (uint64_t key = 1; key < 3 * CHUNK_LINES / 2; key++) {
        is_label(key, key < CHUNK_LINES / 2);
    }
}

static void open_again(void)
{
    memset(now.table, 0, sizeof now.table);
    memset(&now.record, 0, sizeof now.record);
    HOLD(zkv_open(LENT).kind == ZKV_OPENED);
}

/* The first log chunk is full of 64 labels, of which 32 were deleted or printed anew in the chunk behind it, which is
 * full too, and the last chunk is free; then the power is cut in the cleaning of the first, before its last three
 * actions. Of five chunks the first is a data chunk, of a large label that was abandoned. */
static void cut_cleaning(size_t chunks)
{
    static const uint8_t large[ZKV_VALUE_MAX];
    memset(&now, 0, sizeof now);
    now.bytes = chunks * ZKV_CHUNK_BYTES;
    now.first_log = chunks - 3;
    HOLD(finish(zkv_format(LENT, ZKV_POWER_SMALL, 0, 0, 0, 0)).kind == ZKV_END);
    open_again();
    if (chunks == CHUNKS_MOST) {
        HOLD(finish(zkv_put(LENT, 0, large, sizeof large)).kind == ZKV_END && zkv_abandon(LENT).kind == ZKV_ABANDONED);
        HOLD(zkv_chunk(LENT, 1).role == ZKV_DATA_CHUNK);
    }
    HOLD(make_room(&never).kind == ZKV_IDLE);
    change_many(0, CHUNK_LINES, 0);
    HOLD(change(0, DELETE).kind == ZKV_END);
    change_many(1, CHUNK_LINES / 2, 1);
    change_many(CHUNK_LINES, 3 * CHUNK_LINES / 2, 0);
    HOLD(free_chunks() == 1 && zkv_chunk(LENT, chunks - 1).role == ZKV_FREE_CHUNK);
    HOLD(make_room(&never).kind == ZKV_IDLE);
    zkv_report chosen = zkv_choose(LENT);
    HOLD(chosen.kind == ZKV_CHOSEN && chosen.first == now.first_log);
    zkv_report begun = zkv_clean(LENT, now.first_log);
    HOLD(begun.kind == ZKV_BEGUN);
    for (uint64_t i = LAST_ACTIONS; i < begun.first; i++) {
        HOLD(zkv_step(LENT).kind != ZKV_END);
    }
    open_again();
    HOLD(free_chunks() == 0);
    labels_are_there();
}

/* Without the rule: labels go behind the copies, and then no commit and no cleaning of the log goes any more. */
static void fill_without_rule(void)
{
    change_many(1000, 1000 + CHUNK_LINES / 2, 0);
    HOLD(no_space(change(2000, 0)) && no_space(change(1, DELETE)));
    for (size_t chunk = now.first_log; chunk < now.first_log + 3; chunk++) {
        HOLD(no_space(zkv_clean(LENT, chunk)));
    }
    labels_are_there();
}

/* Labels are put, with a cleaning wherever one gets 13; a free chunk stands behind each. */
static void put_and_clean(void)
{
    zkv_report r;
    for (uint64_t key = 1000; key < 1000 + CHUNK_LINES / 2; key++) {
        while (no_space(r = change(key, 0))) {
            zkv_report chosen = zkv_choose(LENT);
            HOLD(chosen.kind == ZKV_CHOSEN && finish(zkv_clean(LENT, (size_t)chosen.first)).kind == ZKV_END);
        }
        HOLD(r.kind == ZKV_END && free_chunks() > 0);
    }
    labels_are_there();
    open_again();
    labels_are_there();
    is_label(1000, 0);
}

/* With the rule: a chunk is freed, and nothing is copied. A fence that failed is tried again. */
static void goes_on_with_rule(void)
{
    int failing = 0;
    zkv_report r = make_room(&failing);
    HOLD(r.kind == ZKV_FENCE && zkv_choose(LENT).first == ZKV_UNFINISHED);
    r = finish(r);
    HOLD(r.kind == ZKV_END && r.first == 0 && free_chunks() == 1);
    HOLD(make_room(&never).kind == ZKV_IDLE);
    labels_are_there();
    put_and_clean();
}

/* A host that did not keep the rule put labels first: choosing names the chunk of the copies, of which 15 labels cannot
 * go anywhere; but 17 of the first chunk can go behind them. */
static void another_chunk_is_freed(void)
{
    enum { ANEW = 15 };
    change_many(CHUNK_LINES / 2, CHUNK_LINES / 2 + ANEW, 0);
    zkv_report r = zkv_choose(LENT);
    HOLD(r.kind == ZKV_CHOSEN && r.first == now.first_log + 2 && no_space(zkv_clean(LENT, (size_t)r.first)));
    r = make_room(&never);
    HOLD(r.kind == ZKV_END && r.first == CHUNK_LINES / 2 - ANEW && free_chunks() == 1);
    labels_are_there();
}

/* What is refused changes nothing. */
static void refusals(void)
{
    static struct station before;
    uint8_t value[LINE_VALUE] = {0};
    HOLD(finish(zkv_put(LENT, 1, value, sizeof value)).kind == ZKV_END);
    before = now;
    zkv_report r = make_room(&never);
    HOLD(r.kind == ZKV_REFUSED && r.first == ZKV_BATCH_STAGED && memcmp(&before, &now, sizeof now) == 0);
    memset(&now.record, 0, sizeof now.record);
    before = now;
    r = make_room(&never);
    HOLD(r.kind == ZKV_REFUSED && r.first == ZKV_NOT_OPEN && memcmp(&before, &now, sizeof now) == 0);
}

int main(void)
{
    static struct station cut;
    for (size_t chunks = CHUNKS_MOST - 1; chunks <= CHUNKS_MOST; chunks++) {
        cut_cleaning(chunks);
        cut = now;
        refusals();
        now = cut;
        goes_on_with_rule();
        if (chunks < CHUNKS_MOST) {
            now = cut;
            another_chunk_is_freed();
        }
        now = cut;
        fill_without_rule();
        zkv_report r = make_room(&never);
        if (chunks == CHUNKS_MOST) {        /* the data chunk is to be had still */
            HOLD(r.kind == ZKV_END && zkv_chunk(LENT, 1).role == ZKV_FREE_CHUNK);
            put_and_clean();
        } else {
            HOLD(no_space(r));
            labels_are_there();
        }
    }
    puts("room: a register that would be stuck after a power cut in a cleaning goes on");
    return 0;
}
