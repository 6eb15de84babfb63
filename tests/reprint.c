/* Look-ups and lists between the steps of unfinished calls: see LOOKING UP WHILE A CALL IS UNFINISHED in zitskvoze.h.
 * tests/library.sh builds and runs it.
 *
 * reprint worked       commits, a large value and cleanings, with places, versions and bytes written out by hand
 * reprint steps        stagings, commits and cleanings drawn from a fixed seed; at every step all keys are looked up
 *                      and listed, other calls are refused, and a power cut may leave what is shown
 * reprint threads      such calls, by steps, by runs and by zkv_finish, while a second thread looks up all the time
 * reprint formatting   8 in a formatting of an open register, and 2 and 1 before it
 *
 * Exit status 1 and a message at the first thing that is not as the header says, or where too little was tried; 2 where
 * there is no such test. Values, lengths and versions expected are those that the test itself staged. Places are those
 * of the same call on a copy, with nothing unfinished; there the entry's words are looked at, too.
 *
 * Built with -DWRONG=-1 the new register is expected a report before the last fence, with -DWRONG=1 only at the end:
 * worked, steps and threads must then fail. */
#define _GNU_SOURCE
#include <inttypes.h>
#include <pthread.h>
#include <sched.h>
#include <stdatomic.h>
#include <stdbool.h>
#include <stdio.h>
#include <stdlib.h>
#include <string.h>

#include "zitskvoze.h"

#ifndef WRONG
#define WRONG 0
#endif

enum {
    CHUNKS = 14,
    BYTES = CHUNKS * ZKV_CHUNK_BYTES,
    WORDS = 256,
    KEYS = 20,                  /* the last of them is never put */
    LARGE_KEYS = 5,             /* of these the first, which get large values too */
    STEPS_TURNS = 400,
    THREADS_TURNS = 100,
    LEAST = 5                   /* of everything that is to be tried */
};

struct station {
    _Alignas(64) uint8_t image[BYTES];
    uint64_t table[WORDS];
    zkv_record record;
};

static struct station now;

#define LENT_OF(s) &(s)->record, (s)->image, BYTES, (s)->table, WORDS
#define LENT LENT_OF(&now)
#define HOLD(what) ((what) ? (void)0 : not_so(__LINE__, #what))

/* What is unfinished, and how often it has reported, for the message. */
static const char *unfinished;
static uint64_t reports;

__attribute__((noreturn)) static void not_so(int line, const char *what)
{
    fprintf(stderr, "reprint: line %d: not so: %s", line, what);
    fprintf(stderr, unfinished != NULL ? ", in %s behind report %" PRIu64 "\n" : "\n", unfinished, reports);
    exit(1);
}

/* ---- values and what is known of them */

/* Byte i of the label that was printed under a key as number `print`. */
static uint8_t byte_of(size_t k, uint64_t print, size_t i)
{
    return (uint8_t)((print * 0x9E3779B97F4A7C15u + k * 0xD1342543DE82EF95u + i * 0x2545F4914F6CDD1Du) >> 29);
}

static void print_label(uint8_t *value, size_t k, uint64_t print, size_t length)
{
    for (size_t i = 0; i < length; i++) {
        value[i] = byte_of(k, print, i);
    }
}

/* Rising with k, the highest of all included; the last one, which is never put, lies in between. */
static uint64_t key_of(size_t k)
{
    return k == KEYS - 2 ? UINT64_MAX : k == KEYS - 1 ? 100 : 7 * k * k;
}

struct label {
    bool present;
    uint64_t version, print;
    size_t length;
};

struct answer {
    uint64_t number, start, length, version, block;
};

/* A register: the labels that the test knows to be in it, and what look-up answers with nothing unfinished. */
struct shown {
    struct label label[KEYS];
    struct answer answer[KEYS];
};

/* Before the call, and after it. `in_force` is the one that look-up must show now. */
static struct shown before, after;
static const struct shown *in_force = &before;

static bool is_label(const uint8_t *at, size_t k, const struct label *l)
{
    for (size_t i = 0; i < l->length; i++) {
        if (at[i] != byte_of(k, l->print, i)) {
            return false;
        }
    }
    return true;
}

static uint64_t word_at(const uint8_t *image, uint64_t byte)
{
    uint64_t word;
    HOLD(byte % 8 == 0 && byte + 8 <= BYTES);
    memcpy(&word, image + byte, 8);
    return word;
}

/* ---- look-ups and lists, held to a register */

/* Exactly this, by all three calls that are asked of a key. */
static void look_up_is(const struct station *s, uint64_t key, struct answer a)
{
    uint64_t start = 9, length = 9, version = 9, block = 9;
    HOLD(zkv_look_up(LENT_OF(s), key, &start, &length) == a.number);
    HOLD(start == a.start && length == a.length);
    start = length = 9;
    HOLD(zkv_look_up_version(LENT_OF(s), key, &start, &length, &version) == a.number);
    HOLD(start == a.start && length == a.length && version == a.version);
    length = version = 9;
    HOLD(zkv_list_key(LENT_OF(s), key, &version, &length, &block) == a.number);
    HOLD(length == a.length && version == a.version && block == a.block);
}

/* Place, length, version and bytes. */
static void key_is(const struct station *s, const struct shown *r, size_t k)
{
    look_up_is(s, key_of(k), r->answer[k]);
    HOLD(is_label(s->image + r->answer[k].start, k, &r->label[k]));
}

/* The present keys in rising order, as far as the room reaches; the words behind them stay. */
static void list_is(const struct station *s, const struct shown *r, size_t room)
{
    uint64_t found[KEYS + 2], expected[KEYS + 2], count = 99;
    size_t present = 0;
    HOLD(room <= KEYS + 2);
    memset(found, 0x5A, sizeof found);
    memset(expected, 0x5A, sizeof expected);
    for (size_t k = 0; k < KEYS; k++) {
        if (r->label[k].present && present++ < room) {
            expected[present - 1] = key_of(k);
        }
    }
    HOLD(zkv_list_keys(LENT_OF(s), found, room, &count) == 0 && count == present);
    HOLD(memcmp(found, expected, sizeof found) == 0);
}

/* What look-up answers with nothing unfinished, for labels that the test knows. The answer's place must be an entry of
 * that key and version in the log, or a block of that length. */
static void take_answers(const struct station *s, struct shown *r)
{
    for (size_t k = 0; k < KEYS; k++) {
        const struct label *l = &r->label[k];
        struct answer *a = &r->answer[k];
        *a = (struct answer){.number = ZKV_KEY_ABSENT};
        if (l->present) {
            bool block = l->length > ZKV_LOG_VALUE_MAX;
            *a = (struct answer){.length = l->length, .version = l->version, .block = block};
            HOLD(zkv_look_up(LENT_OF(s), key_of(k), &a->start, &a->length) == 0 && a->length == l->length);
            HOLD(a->start >= ZKV_CHUNK_BYTES && a->start + a->length <= BYTES);
            if (block) {
                HOLD(a->start % 256 == 8 && word_at(s->image, a->start - 8) == l->length);
            } else {
                HOLD(word_at(s->image, a->start - 16) == (1 | l->version << 4 | (uint64_t)l->length << 24));
                HOLD(word_at(s->image, a->start - 8) == key_of(k));
            }
        }
        key_is(s, r, k);
    }
    list_is(s, r, KEYS + 2);
}

/* ---- calls */

enum kind { PUT, DELETE, COMMIT, CLEAN, KINDS };

struct call {
    enum kind kind;
    size_t k, length, chunk;
    uint64_t print, version;
    bool named;                 /* for a version in hand */
};

static const char *const kind_name[KINDS] = {"a put", "a delete", "a commit", "a cleaning"};

/* Of the call that is begun. */
static enum kind kind_begun;
static uint64_t actions, fences, fences_in_all;

static zkv_report begin(struct station *s, const struct call *c)
{
    static uint8_t value[ZKV_VALUE_MAX];
    switch (c->kind) {
    case PUT:
        print_label(value, c->k, c->print, c->length);
        return c->named ? zkv_put_at(LENT_OF(s), key_of(c->k), value, c->length, c->version)
                        : zkv_put(LENT_OF(s), key_of(c->k), value, c->length);
    case DELETE:
        return c->named ? zkv_delete_at(LENT_OF(s), key_of(c->k), c->version) : zkv_delete(LENT_OF(s), key_of(c->k));
    case COMMIT:
        return zkv_commit(LENT_OF(s));
    default:
        return zkv_clean(LENT_OF(s), c->chunk);
    }
}

/* The fences of a begun call: a commit has one behind its lines and one behind its directory word, a cleaning those of
 * a commit, if it copies, and one behind the word of the chunk that is freed. */
static uint64_t fences_of(const struct call *c)
{
    return c->kind == COMMIT ? 2 : c->kind != CLEAN ? 0 : actions == 3 ? 1 : 3;
}

/* What the test counts, so that nothing passes by not being tried. */
static struct {
    uint64_t begun[KINDS], large, taking, copying, freeing, moved, cut;
    uint64_t old[KINDS], new[KINDS];        /* looks before the last fence, and from it to the end */
} tried;

/* The image as it was at the last fence: what a power cut leaves that keeps no later word. */
static uint8_t durable[BYTES];

static void count_look(void)
{
    if (unfinished != NULL) {
        ++*(in_force == &after ? &tried.new[kind_begun] : &tried.old[kind_begun]);
    }
}

/* What is done between two steps. */
static void (*between)(void);

/* A report of the call that is begun: whether its register is the one in force from here on. */
static void reported(uint64_t kind, bool by_steps)
{
    reports++;
    if (kind == ZKV_FENCE) {
        fences++;
        memcpy(durable, now.image, BYTES);
    }
    bool last = kind == ZKV_FENCE && fences == fences_in_all;
    HOLD(fences <= fences_in_all && (kind != ZKV_END || fences == fences_in_all));
    HOLD(!by_steps || fences_in_all == 0 || last == (reports == actions));
    HOLD(!by_steps || (kind == ZKV_END) == (reports == actions + 1));
    bool expected[] = {kind == ZKV_FLUSH && fences + 1 == fences_in_all, last, kind == ZKV_END};
    if (expected[1 + WRONG]) {
        in_force = &after;
    }
}

enum way { BY_STEPS, BY_RUNS, BY_BOTH, BY_FINISH, WAYS };

static uint64_t draw(void)
{
    static uint64_t state = 88172645463325252u;
    state ^= state << 13;
    state ^= state >> 7;
    state ^= state << 17;
    return state * 0x2545F4914F6CDD1Du >> 20;
}

static bool one_in(uint64_t n)
{
    return draw() % n == 0;
}

static void flush(void *unused, const uint8_t *line)
{
    (void)unused;
    (void)line;
    reported(ZKV_FLUSH, false);
    between();
}

/* Here a host waits for its device; the lock may be given back. */
static int fence(void *unused)
{
    (void)unused;
    reported(ZKV_FENCE, false);
    between();
    return 0;
}

/* Carries the begun call out. */
static void carry_out(zkv_report r, enum way way)
{
    if (way == BY_FINISH) {
        between();
        HOLD(zkv_finish(LENT, r, flush, fence, NULL).kind == ZKV_END);
        reported(ZKV_END, false);
        return;
    }
    while (r.kind != ZKV_END) {
        between();
        r = way == BY_STEPS || (way == BY_BOTH && one_in(2)) ? zkv_step(LENT) : zkv_run(LENT);
        HOLD(r.kind == ZKV_END || r.kind == ZKV_FENCE || r.kind == ZKV_FLUSH || (r.kind == ZKV_STORE && way != BY_RUNS));
        reported(r.kind, way == BY_STEPS);
    }
}

/* The call on a copy, to its end: the answers after it, for the labels that `after` has. 0, or its refusal. */
static uint64_t rehearse(const struct call *c)
{
    static struct station copy;
    copy = now;
    zkv_report r = begin(&copy, c);
    if (r.kind == ZKV_REFUSED) {
        return r.first;
    }
    HOLD(r.kind == ZKV_BEGUN);
    while (r.kind != ZKV_END) {
        r = zkv_run(LENT_OF(&copy));
        HOLD(r.kind != ZKV_IDLE && r.kind != ZKV_REFUSED);
    }
    take_answers(&copy, &after);
    return 0;
}

/* What the rules say of the register after a call, beside its labels: a staging moves nothing, and a cleaning takes
 * away all that was looked up in its chunk. */
static void places_are_right(const struct call *c)
{
    if (c->kind == PUT || c->kind == DELETE) {
        HOLD(memcmp(before.answer, after.answer, sizeof before.answer) == 0);
    }
    for (size_t k = 0; c->kind == CLEAN && k < KEYS; k++) {
        if (before.label[k].present && before.answer[k].start / ZKV_CHUNK_BYTES == c->chunk) {
            HOLD(after.answer[k].start / ZKV_CHUNK_BYTES != c->chunk);
            tried.moved++;
        }
    }
}

/* Makes a call, after which the register has the labels that `after` has been given. 0, or its refusal. */
static uint64_t make(struct call c, enum way way)
{
    uint64_t number = rehearse(&c), free_chunks = zkv_free_chunks(now.image, BYTES);
    if (number != 0) {
        return number;
    }
    places_are_right(&c);
    zkv_report r = begin(&now, &c);
    HOLD(r.kind == ZKV_BEGUN);
    unfinished = kind_name[c.kind];
    kind_begun = c.kind;
    reports = fences = 0;
    actions = r.first;
    fences_in_all = fences_of(&c);
    tried.begun[c.kind]++;
    tried.large += c.kind == PUT && r.first > 0;
    tried.copying += c.kind == CLEAN && r.first > 3;
    tried.freeing += c.kind == CLEAN && r.first == 3;
    carry_out(r, way);
    tried.taking += c.kind == PUT && zkv_free_chunks(now.image, BYTES) < free_chunks;
    unfinished = NULL;
    before = after;
    in_force = &before;
    between();
    return 0;
}

/* ---- turns: stagings, then a commit or an abandoning, and cleanings */

static struct {
    size_t k;
    bool deleted;
    uint64_t print;
    size_t length;
} staged[ZKV_BATCH_ITEMS];

static size_t items;

/* The highest version of the key's entries in the image. */
static uint64_t committed_version(size_t k)
{
    uint64_t entry[400 * ZKV_ENTRY_WORDS], highest = 0;
    size_t count = zkv_entries(now.image, BYTES, key_of(k), 0, entry, sizeof entry / sizeof *entry);
    HOLD(count <= 400);
    for (size_t i = 0; i < count; i++) {
        uint64_t version = entry[i * ZKV_ENTRY_WORDS + ZKV_ENTRY_VERSION];
        highest = version > highest ? version : highest;
    }
    return highest;
}

/* Whether the key is present, and its highest version, staged items counted. */
static bool is_present(size_t k, uint64_t *version)
{
    bool present = before.label[k].present;
    *version = committed_version(k);
    for (size_t i = 0; i < items; i++) {
        if (staged[i].k == k) {
            present = !staged[i].deleted;
            ++*version;
        }
    }
    return present;
}

static size_t some_length(size_t k)
{
    static const size_t small[] = {0, 1, 8, 48, 49, 200, 256}, large[] = {257, 504, 505, 1000, 2040, ZKV_VALUE_MAX};
    return k < LARGE_KEYS && !one_in(3) ? large[draw() % 6] : one_in(2) ? draw() % 60 : small[draw() % 7];
}

static enum way some_way(bool by_steps)
{
    return by_steps ? BY_STEPS : (enum way)(draw() % WAYS);
}

/* Stages one item; false where no more can be staged now. */
static bool stage(bool by_steps)
{
    static uint64_t prints;
    struct call c = {.kind = PUT, .k = draw() % (KEYS - 1), .print = ++prints, .named = one_in(3)};
    bool present = is_present(c.k, &c.version);
    if (present && one_in(4)) {
        c.kind = DELETE;
    } else {
        c.length = some_length(c.k);
    }
    after = before;
    uint64_t number = make(c, some_way(by_steps));
    HOLD(number == 0 || number == ZKV_BATCH_FULL || number == ZKV_NO_SPACE);
    if (number == 0) {
        staged[items].k = c.k;
        staged[items].deleted = c.kind == DELETE;
        staged[items].print = c.print;
        staged[items++].length = c.length;
    }
    return number == 0 && items < ZKV_BATCH_ITEMS;
}

/* Cleans a chunk; 0 or the refusal. */
static uint64_t clean(size_t chunk, bool by_steps)
{
    after = before;
    return make((struct call){.kind = CLEAN, .chunk = chunk}, some_way(by_steps));
}

/* The chosen chunk, else an empty data chunk, else any that can be. False where nothing could be cleaned. */
static bool clean_one(bool by_steps)
{
    zkv_report r = zkv_choose(LENT);
    if (r.kind == ZKV_CHOSEN && clean((size_t)r.first, by_steps) == 0) {
        return true;
    }
    r = zkv_empty_chunk(LENT, 1);
    return r.kind == ZKV_CHOSEN && clean((size_t)r.first, by_steps) == 0;
}

/* The staged items, in their order, become those of the register after the commit. False where there is no space. */
static bool commit(bool by_steps)
{
    after = before;
    for (size_t i = 0; i < items; i++) {
        size_t k = staged[i].k;
        uint64_t version = committed_version(k);
        for (size_t j = 0; j < i; j++) {
            version += staged[j].k == k;
        }
        after.label[k] = staged[i].deleted ? (struct label){0} : (struct label){true, version + 1, staged[i].print, staged[i].length};
    }
    uint64_t number = make((struct call){.kind = COMMIT}, some_way(by_steps));
    HOLD(number == 0 || number == ZKV_NO_SPACE);
    items = number == 0 ? 0 : items;
    return number == 0;
}

/* After a power cut that kept every word. */
static void open_again(void)
{
    memset(now.table, 0, sizeof now.table);
    memset(&now.record, 0, sizeof now.record);
    HOLD(zkv_open(LENT).kind == ZKV_OPENED);
    memcpy(durable, now.image, BYTES);
}

/* A cleaning that a power cut stops before its chunk is freed, with every word kept: entries stand twice. */
static void cut_cleaning(void)
{
    zkv_report chosen = zkv_choose(LENT);
    if (chosen.kind != ZKV_CHOSEN) {
        return;
    }
    zkv_report r = zkv_clean(LENT, (size_t)chosen.first);
    for (uint64_t left = r.first; left > 3; left--) {
        HOLD(zkv_step(LENT).kind != ZKV_END);
    }
    open_again();
    take_answers(&now, &before);
    tried.cut++;
}

static void play_turn(bool by_steps)
{
    size_t most = one_in(3) ? 1 : 1 + draw() % 6;
    while (stage(by_steps) && items < most) {
    }
    if (items > 0 && (one_in(8) || !commit(by_steps))) {
        HOLD(zkv_abandon(LENT).kind == ZKV_ABANDONED);
        items = 0;
        clean_one(by_steps);
    }
    if (one_in(4)) {
        clean_one(by_steps);
    }
    if (one_in(10)) {
        cut_cleaning();
    }
    if (zkv_free_chunks(now.image, BYTES) == 0) {
        HOLD(clean_one(by_steps));
    }
}

static void set_up(void)
{
    memset(&now, 0, sizeof now);
    zkv_report r = zkv_format(LENT, ZKV_POWER_SMALL, 0, 0, 0, 0);
    HOLD(r.kind == ZKV_BEGUN && r.first == ZKV_FORMAT_ACTIONS);
    while (r.kind != ZKV_END) {
        r = zkv_run(LENT);
    }
    open_again();
    memset(&before, 0, sizeof before);
    take_answers(&now, &before);
}

static void tried_enough(void)
{
    const uint64_t counts[] = {tried.begun[PUT], tried.begun[DELETE], tried.begun[COMMIT], tried.large - tried.taking, tried.taking,
                               tried.copying, tried.freeing, tried.moved, tried.cut, tried.old[PUT], tried.old[DELETE],
                               tried.old[COMMIT], tried.old[CLEAN], tried.new[COMMIT], tried.new[CLEAN]};
    printf("reprint: %" PRIu64 " puts (%" PRIu64 " large, %" PRIu64 " of them into a free chunk), %" PRIu64 " deletes, %" PRIu64
           " commits, %" PRIu64 " cleanings with copies (%" PRIu64 " labels moved), %" PRIu64 " without, %" PRIu64 " cut\n",
           tried.begun[PUT], tried.large, tried.taking, tried.begun[DELETE], tried.begun[COMMIT], tried.copying, tried.moved,
           tried.freeing, tried.cut);
    for (int kind = 0; kind < KINDS; kind++) {
        printf("reprint: looks in %s: %" PRIu64 " at the register before it, %" PRIu64 " at the one that it makes\n", kind_name[kind],
               tried.old[kind], tried.new[kind]);
    }
    for (size_t i = 0; i < sizeof counts / sizeof *counts; i++) {
        if (counts[i] < LEAST) {
            fprintf(stderr, "reprint: too little was tried: count %zu is %" PRIu64 "\n", i, counts[i]);
            exit(1);
        }
    }
}

/* ---- one thread, which looks at everything between two steps */

/* Whether a register, opened after a power cut that left this image, has these labels. */
static bool is_left(const uint8_t *image, const struct shown *r)
{
    static struct station cut;
    memset(&cut, 0, sizeof cut);
    memcpy(cut.image, image, BYTES);
    HOLD(zkv_open(LENT_OF(&cut)).kind == ZKV_OPENED);
    for (size_t k = 0; k < KEYS; k++) {
        uint64_t start, length;
        bool present = zkv_look_up(LENT_OF(&cut), key_of(k), &start, &length) == 0;
        if (present != r->label[k].present || length != r->label[k].length || !is_label(cut.image + start, k, &r->label[k])) {
            return false;
        }
    }
    return true;
}

static bool refused(zkv_report r, uint64_t number)
{
    return r.kind == ZKV_REFUSED && r.first == number;
}

/* Every other call gets 8 and changes nothing. */
static void others_are_refused(void)
{
    static struct station same;
    const uint8_t value[1] = {7};
    same = now;
    HOLD(refused(zkv_choose(LENT), ZKV_UNFINISHED) && refused(zkv_empty_chunk(LENT, 1), ZKV_UNFINISHED));
    for (size_t chunk = 0; chunk <= CHUNKS; chunk++) {
        HOLD(zkv_chunk(LENT, chunk).refused == ZKV_UNFINISHED && refused(zkv_clean(LENT, chunk), ZKV_UNFINISHED));
    }
    HOLD(refused(zkv_put(LENT, 1, value, 1), ZKV_UNFINISHED) && refused(zkv_put_at(LENT, 1, value, 1, 0), ZKV_UNFINISHED));
    HOLD(refused(zkv_delete(LENT, 0), ZKV_UNFINISHED) && refused(zkv_delete_at(LENT, 0, 1), ZKV_UNFINISHED));
    HOLD(refused(zkv_commit(LENT), ZKV_UNFINISHED) && refused(zkv_abandon(LENT), ZKV_UNFINISHED));
    HOLD(refused(zkv_format(LENT, ZKV_POWER_SMALL, 0, 0, 0, 0), ZKV_UNFINISHED));
    HOLD(memcmp(&same, &now, sizeof now) == 0);
}

/* Look-ups and lists of these lengths get a number, with 0 in all that they answer, and no key. */
static void looks_are_refused(size_t bytes, size_t words, uint64_t number)
{
    uint64_t start = 9, length = 9, version = 9, block = 9, count = 9, keys[2] = {5, 6};
    HOLD(zkv_look_up(&now.record, now.image, bytes, now.table, words, key_of(0), &start, &length) == number);
    HOLD(start == 0 && length == 0);
    start = length = 9;
    HOLD(zkv_look_up_version(&now.record, now.image, bytes, now.table, words, key_of(0), &start, &length, &version) == number);
    HOLD(start == 0 && length == 0 && version == 0);
    length = version = 9;
    HOLD(zkv_list_key(&now.record, now.image, bytes, now.table, words, key_of(0), &version, &length, &block) == number);
    HOLD(version == 0 && length == 0 && block == 0);
    HOLD(zkv_list_keys(&now.record, now.image, bytes, now.table, words, keys, 2, &count) == number);
    HOLD(count == 0 && keys[0] == 5 && keys[1] == 6);
}

static void other_lengths_are_refused(uint64_t number)
{
    looks_are_refused(BYTES - ZKV_CHUNK_BYTES, WORDS, number);
    looks_are_refused(BYTES, WORDS - 1, number);
}

static void look_at_all(void)
{
    static struct station same;
    same = now;
    for (size_t k = 0; k < KEYS; k++) {
        key_is(&now, in_force, k);
    }
    list_is(&now, in_force, 0);
    list_is(&now, in_force, 3);
    list_is(&now, in_force, KEYS + 2);
    other_lengths_are_refused(ZKV_IMAGE_LENGTH);
    HOLD(memcmp(&same, &now, sizeof now) == 0);
    if (unfinished != NULL && reports % 4 == 0) {
        others_are_refused();
    }
    HOLD(is_left(durable, in_force) || is_left(now.image, in_force));
    count_look();
}

static void test_steps(void)
{
    between = look_at_all;
    set_up();
    for (int turn = 0; turn < STEPS_TURNS; turn++) {
        play_turn(turn % 4 != 0);
    }
    tried_enough();
}

/* ---- two threads and one mutex, which is held but between two steps */

static pthread_mutex_t lock = PTHREAD_MUTEX_INITIALIZER;
static atomic_bool ended;
static atomic_uint_fast64_t looks;

/* Of the register in force one key after the other, and lists. A value is copied out under the lock, and read after
 * it. */
static void *look_all_the_time(void *unused)
{
    static uint8_t copy[ZKV_VALUE_MAX];
    (void)unused;
    for (uint64_t n = 0; !ended; n++) {
        size_t k = (size_t)(n * 7 % KEYS);
        pthread_mutex_lock(&lock);
        key_is(&now, in_force, k);
        struct label l = in_force->label[k];
        memcpy(copy, now.image + in_force->answer[k].start, l.length);
        if (n % 5 == 0) {
            list_is(&now, in_force, n / 5 % (KEYS + 3));
        }
        count_look();
        looks++;
        pthread_mutex_unlock(&lock);
        HOLD(is_label(copy, k, &l));
    }
    return NULL;
}

/* The mutex is free for a moment: in every second call until the other thread has looked, else only for as long as it
 * takes. */
static void give_way(void)
{
    uint64_t seen = looks;
    bool waits = tried.begun[kind_begun] % 2 == 0;
    pthread_mutex_unlock(&lock);
    while (waits && looks == seen) {
        sched_yield();
    }
    pthread_mutex_lock(&lock);
}

static void test_threads(void)
{
    pthread_t other;
    between = give_way;
    set_up();
    pthread_mutex_lock(&lock);
    HOLD(pthread_create(&other, NULL, look_all_the_time, NULL) == 0);
    for (int turn = 0; turn < THREADS_TURNS; turn++) {
        play_turn(false);
    }
    pthread_mutex_unlock(&lock);
    ended = true;
    HOLD(pthread_join(other, NULL) == 0);
    tried_enough();
}

/* ---- worked by hand */

enum { KEY = 7, LARGE_KEY = 9, LARGE = 300, CHUNK = ZKV_CHUNK_BYTES };

static const struct answer absent = {.number = ZKV_KEY_ABSENT};
static uint8_t large[LARGE];

static void part_is(uint64_t key, struct answer a, const void *bytes)
{
    look_up_is(&now, key, a);
    HOLD(memcmp(now.image + a.start, bytes, a.length) == 0);
}

/* A call of so many actions, by steps: until the last one's report KEY and LARGE_KEY are as the first two say, from
 * then on as the others. Answers what the end reports. */
static uint64_t turns(zkv_report r, uint64_t count, struct answer old, const char *bytes, struct answer old_large, struct answer new,
                      const char *new_bytes, struct answer new_large)
{
    HOLD(r.kind == ZKV_BEGUN && r.first == count);
    unfinished = "a call worked by hand";
    for (reports = 0; r.kind != ZKV_END; reports++) {
        bool is_old = reports < count + (uint64_t)WRONG;
        part_is(KEY, is_old ? old : new, is_old ? bytes : new_bytes);
        part_is(LARGE_KEY, is_old ? old_large : new_large, large);
        r = zkv_step(LENT);
        HOLD((r.kind == ZKV_END) == (reports == count));
    }
    unfinished = NULL;
    part_is(KEY, new, new_bytes);
    part_is(LARGE_KEY, new_large, large);
    return r.first;
}

/* A commit of one line has 13 actions. The first goes to chunk 1, line 0; the large value's block of two units, of 308
 * bytes in 5 lines, to chunk 2: 39 words, 5 flushes and 2 actions for the free chunk. The cleaning of chunk 1 copies an
 * entry of 3 words, so a line, to chunk 3: 16 actions. */
static void test_worked(void)
{
    const struct answer first = {.start = CHUNK + 16, .length = 2, .version = 1};
    const struct answer second = {.start = CHUNK + 64 + 16, .length = 3, .version = 2};
    const struct answer block = {.start = 2 * CHUNK + 8, .length = LARGE, .version = 1, .block = 1};
    const struct answer moved = {.start = 3 * CHUNK + 16, .length = 3, .version = 2};
    memset(large, 'x', sizeof large);
    set_up();
    turns(zkv_put(LENT, KEY, (const uint8_t *)"A+", 2), 0, absent, "", absent, absent, "", absent);
    turns(zkv_commit(LENT), 13, absent, "", absent, first, "A+", absent);
    turns(zkv_put_at(LENT, KEY, (const uint8_t *)"AB-", 3, 1), 0, first, "A+", absent, first, "A+", absent);
    turns(zkv_commit(LENT), 13, first, "A+", absent, second, "AB-", absent);
    turns(zkv_put(LENT, LARGE_KEY, large, LARGE), 46, second, "AB-", absent, second, "AB-", absent);
    turns(zkv_commit(LENT), 13, second, "AB-", absent, second, "AB-", block);
    turns(zkv_delete(LENT, LARGE_KEY), 0, second, "AB-", block, second, "AB-", block);
    turns(zkv_commit(LENT), 13, second, "AB-", block, second, "AB-", absent);
    HOLD(turns(zkv_clean(LENT, 1), 16, second, "AB-", absent, moved, "AB-", absent) == 1);
    HOLD(turns(zkv_clean(LENT, 2), 3, moved, "AB-", absent, moved, "AB-", absent) == 0);
}

/* ---- formattings */

/* To its end, with look-ups that get `number` in it, and `other` where they are lent other lengths. */
static void format_with_looks(uint64_t number, uint64_t other)
{
    zkv_report r = zkv_format(LENT, ZKV_POWER_SMALL, 1, 7, 1, 8);
    HOLD(r.kind == ZKV_BEGUN && r.first == ZKV_FORMAT_ACTIONS);
    unfinished = "a formatting";
    for (reports = 0; r.kind != ZKV_END; reports++) {
        looks_are_refused(BYTES, WORDS, number);
        other_lengths_are_refused(other);
        r = zkv_step(LENT);
    }
    HOLD(reports == ZKV_FORMAT_ACTIONS + 1);
    unfinished = NULL;
    looks_are_refused(BYTES, WORDS, ZKV_NOT_OPEN);
    other_lengths_are_refused(ZKV_NOT_OPEN);
}

static void test_formatting(void)
{
    const uint8_t value[1] = {7};
    set_up();
    HOLD(zkv_put(LENT, key_of(0), value, 1).kind == ZKV_BEGUN && zkv_run(LENT).kind == ZKV_END);
    HOLD(zkv_finish(LENT, zkv_commit(LENT), zkv_write_back, zkv_store_fence, &(int){zkv_best_write_back()}).kind == ZKV_END);
    look_up_is(&now, key_of(0), (struct answer){.start = CHUNK + 16, .length = 1, .version = 1});
    format_with_looks(ZKV_UNFINISHED, ZKV_IMAGE_LENGTH);
    format_with_looks(ZKV_NOT_OPEN, ZKV_NOT_OPEN);
}

int main(int count, char **argument)
{
    static const struct {
        const char *name;
        void (*play)(void);
    } tests[] = {{"worked", test_worked}, {"steps", test_steps}, {"threads", test_threads}, {"formatting", test_formatting}};
    for (size_t i = 0; i < sizeof tests / sizeof *tests; i++) {
        if (count == 2 && strcmp(argument[1], tests[i].name) == 0) {
            tests[i].play();
            return 0;
        }
    }
    fputs("usage: reprint worked|steps|threads|formatting\n", stderr);
    return 2;
}
