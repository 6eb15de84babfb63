/* Garbage for the library: records, buffers, tables and images, wild and near the right ones, played through every call. For
 * tests/robust.c and tests/runs.c.
 *
 * Every lent area lies directly before or directly behind a page that cannot be touched, and what is left of its pages
 * holds a pattern. Each call is held to what holds for any memory (see the head of robust.c). zkv_run is held to
 * zkv_step: steps on a copy must come to the same report, image, table and record, to the byte.
 *
 * A program that includes this defines PROGRAM (its name), and go_on. Built with -DWRONG the copy makes one step fewer;
 * differences are then counted and the program goes on. */
#ifndef ZKV_GARBAGE_H
#define ZKV_GARBAGE_H

#include <inttypes.h>
#include <signal.h>
#include <stdarg.h>
#include <stdbool.h>
#include <stdio.h>
#include <stdlib.h>
#include <string.h>
#include <sys/mman.h>
#include <unistd.h>

#include "zitskvoze.h"

enum {
    PAGE = 4096,
    IMAGE_MAX = (ZKV_CHUNKS_MAX + 1) * ZKV_CHUNK_BYTES,
    TABLE_MAX = 8192,
    VALUE_MAX = ZKV_LARGE_VALUE_MAX + 8,
    VERSION_MAX = 1048575,
    KEYS_ROOM = 40,
    POWER = 8,                /* word of the record that has the power of the chunks */
    BUFFER = 22,              /* at which its buffer starts */
    BUFFER_WORDS = 11264,
    BATCH_WORDS = 512,        /* the first area of the buffer */
    SECOND_WORDS = 8192,      /* the one behind it */
    BITS_WORDS = 2048,        /* behind that: the bits, the filter and what is to spare */
    LARGE_IN = 20,            /* one of so many images has large chunks, which take long */
    REFORMAT = 5,             /* the record's first word in a formatting that was begun on an open register */
    SECONDS = 600             /* far more than a run takes */
};

_Static_assert(sizeof(zkv_record) == 8 * (BUFFER + BUFFER_WORDS), "the record's parts are as the cases below fill them");

/* ---- what is tried, for the messages */
static const char *kind_of_case = "", *call = "";
static uint64_t case_number;

/* How often each call was accepted and refused; each must have been both. */
enum {
    FORMAT, OPEN, PUT, PUT_AT, DELETE, DELETE_AT, COMMIT, ABANDON, CHOOSE, CLEAN, STEP, RUN, LOOK_UP, LOOK_UP_VERSION, LIST, LIST_KEY, CALLS
};

static const char *const call_name[CALLS] = {"format", "open", "put", "put_at", "delete", "delete_at", "commit", "abandon", "choose",
                                            "clean", "step", "run", "look_up", "look_up_version", "list_keys", "list_key"};
static uint64_t tally[CALLS][2];

__attribute__((noreturn, format(printf, 1, 2))) static void fault(const char *format, ...)
{
    va_list arguments;
    va_start(arguments, format);
    fprintf(stderr, PROGRAM ": %s, case %" PRIu64 ", %s: ", kind_of_case, case_number, call);
    vfprintf(stderr, format, arguments);
    fputc('\n', stderr);
    va_end(arguments);
    exit(1);
}

static void on_signal(int signal)
{
    static const char access[] = "an access outside what is lent", late[] = "a call that does not return";
    static const char at[] = PROGRAM ": ", in[] = ", ";
    const char *what = signal == SIGALRM ? late : access;
    (void)!write(2, at, sizeof at - 1);
    (void)!write(2, what, strlen(what));
    (void)!write(2, in, sizeof in - 1);
    (void)!write(2, kind_of_case, strlen(kind_of_case));
    (void)!write(2, in, sizeof in - 1);
    (void)!write(2, call, strlen(call));
    (void)!write(2, "\n", 1);
    _exit(1);
}

/* ---- draws */
static uint64_t state;

static uint64_t draw(void)
{
    state ^= state << 13;
    state ^= state >> 7;
    state ^= state << 17;
    return state * 0x2545F4914F6CDD1Dull;
}

/* A number below n; 0 where n is 0. */
static uint64_t below(uint64_t n)
{
    return n == 0 ? 0 : (draw() >> 11) % n;
}

static bool one_in(uint64_t n)
{
    return below(n) == 0;
}

static void wild(void *at, size_t bytes)
{
    uint8_t *p = at;
    for (size_t i = 0; i < bytes; i += 8) {
        uint64_t x = draw();
        memcpy(p + i, &x, bytes - i < 8 ? bytes - i : 8);
    }
}

/* ---- areas between guard pages */
struct area {
    uint8_t *pages, *at;
    size_t room, bytes;
};

static struct area image, table, record, value, start, length, version_word, keys;
static uint8_t *image_before;
static uint64_t *table_before;
static zkv_record record_before;

static void make_area(struct area *a, size_t most)
{
    a->room = (most + PAGE - 1) / PAGE * PAGE;
    uint8_t *p = mmap(NULL, a->room + 2 * PAGE, PROT_NONE, MAP_PRIVATE | MAP_ANONYMOUS, -1, 0);
    if (p == MAP_FAILED || mprotect(p + PAGE, a->room, PROT_READ | PROT_WRITE) != 0) {
        perror(PROGRAM ": guard pages");
        exit(2);
    }
    a->pages = p + PAGE;
}

/* The area becomes `bytes` bytes, at its pages' end or start. So that a case costs little, the pattern stands in 64
 * bytes. */
static void place(struct area *a, size_t bytes)
{
    a->bytes = bytes;
    bool at_end = one_in(2);
    a->at = at_end ? a->pages + (a->room - bytes) : a->pages;
    size_t rest = a->room - bytes < 64 ? a->room - bytes : 64;
    memset(at_end ? a->at - rest : a->at + bytes, 0xA5, rest);
}

static void around(const struct area *a)
{
    size_t rest = a->room - a->bytes < 64 ? a->room - a->bytes : 64;
    const uint8_t *p = a->at == a->pages ? a->at + a->bytes : a->at - rest;
    for (size_t i = 0; i < rest; i++) {
        if (p[i] != 0xA5) {
            fault("a byte beside a lent area was changed");
        }
    }
}

static zkv_record *the_record(void)
{
    return (zkv_record *)(void *)record.at;
}

static uint64_t *the_table(void)
{
    return (uint64_t *)(void *)table.at;
}

static size_t table_words(void)
{
    return table.bytes / 8;
}

/* Of the image that is lent: the power of its chunks, which a wild record may say otherwise. */
static uint64_t power = ZKV_POWER_SMALL;

static size_t chunk_bytes(void)
{
    return (size_t)1 << power;
}

static size_t chunks_in_image(void)
{
    return image.bytes / chunk_bytes();
}

/* The lines of a chunk, as the record says: any power but that of large chunks reads as small. */
static uint64_t lines_by_record(void)
{
    return the_record()->word[POWER] == ZKV_POWER_LARGE ? 1024 : 64;
}

/* At most: a large value's staging takes a chunk, and stores and flushes each line of it; a cleaning copies each line. */
static uint64_t staging_actions(void)
{
    return 2 + 9 * lines_by_record();
}

static uint64_t cleaning_actions(void)
{
    return 9 * lines_by_record() + 7;
}

/* A word of the image, 0 past its end. */
static uint64_t get_word(size_t w)
{
    uint64_t x = 0;
    if (8 * w + 8 <= image.bytes) {
        memcpy(&x, image.at + 8 * w, 8);
    }
    return x;
}

static void set_word(size_t w, uint64_t x)
{
    if (8 * w + 8 <= image.bytes) {
        memcpy(image.at + 8 * w, &x, 8);
    }
}

/* ---- the calls, each held to what holds for any memory */
static void remember(void)
{
    memcpy(image_before, image.at, image.bytes);
    memcpy(table_before, table.at, table.bytes);
    memcpy(&record_before, record.at, sizeof record_before);
}

static void image_kept(void)
{
    if (memcmp(image_before, image.at, image.bytes) != 0) {
        fault("the image was changed");
    }
}

static void table_kept(void)
{
    if (memcmp(table_before, table.at, table.bytes) != 0) {
        fault("the key table was changed");
    }
}

static void record_kept(void)
{
    if (memcmp(&record_before, record.at, sizeof record_before) != 0) {
        fault("the record was changed");
    }
}

/* A refusal is one of the call's numbers, given as bits. */
static void refused(uint64_t number, uint64_t numbers)
{
    if (number > 17 || !(numbers >> number & 1)) {
        fault("refused with %" PRIu64, number);
    }
    image_kept();
    table_kept();
    record_kept();
}

#define N(number) (1ull << (number))

static zkv_report step(void)
{
    call = "zkv_step";
    remember();
    zkv_report r = zkv_step(the_record(), image.at, image.bytes, the_table(), table_words());
    tally[STEP][r.kind == ZKV_REFUSED]++;
    switch (r.kind) {
    case ZKV_REFUSED:
        refused(r.first, N(1));
        break;
    case ZKV_STORE:
        if (r.first < image.bytes / 8) {
            if (get_word(r.first) != r.second) {
                fault("the word reported is not stored");
            }
            memcpy(image_before + 8 * r.first, &r.second, 8);
        }
        image_kept();
        break;
    case ZKV_IDLE:
        table_kept();
        record_kept();
        image_kept();
        break;
    case ZKV_FLUSH:
    case ZKV_FENCE:
    case ZKV_END:
        image_kept();
        break;
    default:
        fault("answered kind %" PRIu64, r.kind);
    }
    return r;
}

/* ---- zkv_run beside zkv_step */
static struct {
    uint64_t runs, steps, longest;          /* calls of zkv_run, the steps that they took, the most of one call */
    uint64_t report, image, table, record;  /* how many ended otherwise than the steps on the copy, and in what */
} beside;

static void differs(bool is_other, uint64_t *count, const char *what)
{
    *count += is_other;
#ifndef WRONG
    if (is_other) {
        fault("%s differs from that of steps", what);
    }
#else
    (void)what;
#endif
}

/* Steps on the copy until one that is no store. Their number; *last is the last one's report. */
static uint64_t step_copy(zkv_report *last)
{
    uint64_t n = 0;
    do {
        *last = zkv_step(&record_before, image_before, image.bytes, table_before, table_words());
        n++;
    } while (last->kind == ZKV_STORE);
    return n;
}

/* A call of zkv_run, and the steps that are the same on a copy; their number is added to *steps. */
static zkv_report run_call(uint64_t *steps)
{
    zkv_report last;
    call = "zkv_run";
    remember();
    uint64_t n = step_copy(&last);
#ifdef WRONG
    remember();
    for (uint64_t i = 1 + beside.runs % 2; i < n; i++) {
        last = zkv_step(&record_before, image_before, image.bytes, table_before, table_words());
    }
#endif
    zkv_report r = zkv_run(the_record(), image.at, image.bytes, the_table(), table_words());
    tally[RUN][r.kind == ZKV_REFUSED]++;
    beside.runs++;
    beside.steps += n;
    beside.longest = n > beside.longest ? n : beside.longest;
    *steps += n;
    differs(memcmp(&r, &last, sizeof r) != 0, &beside.report, "the report");
    differs(memcmp(image_before, image.at, image.bytes) != 0, &beside.image, "the image");
    differs(memcmp(table_before, table.at, table.bytes) != 0, &beside.table, "the key table");
    differs(memcmp(&record_before, record.at, sizeof record_before) != 0, &beside.record, "the record");
    return r;
}

/* Goes on with what is begun, by zkv_step or zkv_run as the program likes; the number of steps is added to *steps. */
static zkv_report go_on(uint64_t *steps);

/* Now and then between two steps: a look-up or a list. */
static void looks_between(void);

/* Alters some bytes of image and table behind the calls' back, unless they are to be left as the calls made them. */
static bool altering = true;

static void alter(void)
{
    if (!altering) {
        return;
    }
    for (uint64_t n = below(4); n > 0; n--) {
        if (image.bytes > 0) {
            image.at[one_in(2) ? below(image.bytes) : below(image.bytes < PAGE ? image.bytes : PAGE)] = (uint8_t)draw();
        }
    }
    if (table.bytes > 0 && one_in(3)) {
        the_table()[below(table_words())] = draw();
    }
}

static void run(uint64_t actions)
{
    uint64_t steps = 0;
    zkv_report r;
    do {
        alter();
        looks_between();
        r = go_on(&steps);
        if (steps > actions + 1 || (r.kind == ZKV_END) != (steps == actions + 1)) {
            fault("step %" PRIu64 " of a call of %" PRIu64 " actions answered kind %" PRIu64, steps, actions, r.kind);
        }
    } while (r.kind != ZKV_END);
    if (step().kind != ZKV_IDLE || run_call(&steps).kind != ZKV_IDLE) {
        fault("a step or run after the end is not idle");
    }
}

/* A begun call's answer: begun, with at most so many actions, or one of the refusals. Then it is run, or left
 * unfinished. */
static void begun(int which, zkv_report r, uint64_t most, uint64_t numbers)
{
    tally[which][r.kind == ZKV_REFUSED]++;
    image_kept();
    table_kept();
    if (r.kind == ZKV_REFUSED) {
        refused(r.first, numbers);
    } else if (r.kind != ZKV_BEGUN || r.first > most) {
        fault("answered kind %" PRIu64 ", %" PRIu64, r.kind, r.first);
    } else if (!one_in(20)) {
        run(r.first);
    }
}

static void format_call(void)
{
    call = "zkv_format";
    remember();
    uint64_t told = !one_in(6) ? power : one_in(2) ? below(20) : draw();
    begun(FORMAT,
          zkv_format(the_record(), image.at, image.bytes, the_table(), table_words(), told, below(2), draw(), below(2), draw()), 582,
          N(1) | N(8));
}

static void open_call(void)
{
    call = "zkv_open";
    remember();
    zkv_report r = zkv_open(the_record(), image.at, image.bytes, the_table(), table_words());
    tally[OPEN][r.kind == ZKV_REFUSED]++;
    zkv_place p = zkv_fault(image.at, image.bytes);
    image_kept();
    if (p.refusal != (r.kind == ZKV_OPENED || r.first == ZKV_TABLE_FULL ? 0 : r.first)) {
        fault("answered kind %" PRIu64 ", %" PRIu64 ", and the fault is %" PRIu64, r.kind, r.first, p.refusal);
    }
    if (r.kind == ZKV_OPENED) {
        return;
    }
    if (r.kind != ZKV_REFUSED || r.first < 1 || r.first > 7) {
        fault("answered kind %" PRIu64 ", %" PRIu64, r.kind, r.first);
    }
    for (size_t i = 0; i < table_words(); i++) {
        if (the_table()[i] != 0) {
            fault("a refused opening left something in the key table");
        }
    }
    if (step().kind != ZKV_IDLE) {
        fault("a step after a refused opening is not idle");
    }
}

static uint64_t some_key(void)
{
    return one_in(4) ? draw() : below(12);
}

/* Of a version that a key may have mostly, else any number. */
static uint64_t some_version(void)
{
    return one_in(12) ? draw() : one_in(12) ? below(1 << 20) : below(3);
}

static void put_call(void)
{
    static const size_t lengths[] = {0, 1, 7, 8, 9, 255, 256, 257, 4088, 4089, 16377, 65528, 65529, VALUE_MAX};
    bool named = one_in(3);
    call = named ? "zkv_put_at" : "zkv_put";
    place(&value, one_in(2) ? lengths[below(sizeof lengths / sizeof *lengths)] : below(300));
    wild(value.at, value.bytes);
    remember();
    if (named) {
        begun(PUT_AT,
              zkv_put_at(the_record(), image.at, image.bytes, the_table(), table_words(), some_key(), value.at, value.bytes, some_version()),
              staging_actions(), N(1) | N(2) | N(7) | N(8) | N(9) | N(10) | N(12) | N(13) | N(17));
    } else {
        begun(PUT,
              zkv_put(the_record(), image.at, image.bytes, the_table(), table_words(), some_key(), value.at, value.bytes), staging_actions(),
              N(1) | N(2) | N(7) | N(8) | N(9) | N(10) | N(12) | N(13));
    }
    around(&value);
}

static void delete_call(void)
{
    bool named = one_in(2);
    call = named ? "zkv_delete_at" : "zkv_delete";
    remember();
    if (named) {
        begun(DELETE_AT, zkv_delete_at(the_record(), image.at, image.bytes, the_table(), table_words(), some_key(), some_version()), 0,
              N(1) | N(2) | N(7) | N(8) | N(10) | N(11) | N(12) | N(17));
    } else {
        begun(DELETE, zkv_delete(the_record(), image.at, image.bytes, the_table(), table_words(), some_key()), 0,
              N(1) | N(2) | N(7) | N(8) | N(10) | N(11) | N(12));
    }
}

static void commit_call(void)
{
    call = "zkv_commit";
    remember();
    begun(COMMIT, zkv_commit(the_record(), image.at, image.bytes, the_table(), table_words()), 580,
          N(1) | N(2) | N(8) | N(13) | N(14));
}

static void abandon_call(void)
{
    call = "zkv_abandon";
    remember();
    zkv_report r = zkv_abandon(the_record(), image.at, image.bytes, the_table(), table_words());
    tally[ABANDON][r.kind == ZKV_REFUSED]++;
    image_kept();
    table_kept();
    if (r.kind == ZKV_REFUSED) {
        refused(r.first, N(1) | N(2) | N(8) | N(14));
    } else if (r.kind != ZKV_ABANDONED) {
        fault("answered kind %" PRIu64, r.kind);
    }
}

/* The chunk that is answered, or 0. */
static uint64_t choose_call(void)
{
    call = "zkv_choose";
    remember();
    zkv_report r = zkv_choose(the_record(), image.at, image.bytes, the_table(), table_words());
    tally[CHOOSE][r.kind == ZKV_REFUSED]++;
    image_kept();
    table_kept();
    record_kept();
    if (r.kind == ZKV_REFUSED) {
        refused(r.first, N(1) | N(2) | N(8) | N(16));
        return 0;
    }
    if (r.kind != ZKV_CHOSEN || r.first == 0 || r.first >= image.bytes / ZKV_CHUNK_BYTES) {
        fault("answered kind %" PRIu64 ", %" PRIu64, r.kind, r.first);
    }
    return r.first;
}

/* Of a chunk of the image mostly, else of any number. */
static uint64_t some_chunk(void)
{
    static const uint64_t numbers[] = {0, 503, 504, 505, 511, 512, 1ull << 32, 1ull << 52, 1ull << 63, UINT64_MAX};
    return !one_in(5) ? below(chunks_in_image() + 2) : one_in(4) ? draw() : numbers[below(sizeof numbers / sizeof *numbers)];
}

static void clean_call(uint64_t chunk)
{
    call = "zkv_clean";
    remember();
    begun(CLEAN, zkv_clean(the_record(), image.at, image.bytes, the_table(), table_words(), chunk), cleaning_actions(),
          N(1) | N(2) | N(8) | N(13) | N(15) | N(16));
}

/* A look-up or list answers, or is refused with 1, 2 or one of `numbers`; in a formatting of an open register, and only
 * there, with 8 instead. */
static void looked(uint64_t number, uint64_t numbers)
{
    bool formatting = the_record()->word[0] == REFORMAT;
    if (number != 0) {
        refused(number, N(1) | N(2) | (formatting ? N(8) : numbers));
    } else if (formatting) {
        fault("answered in a formatting");
    }
}

static void look_up_call(void)
{
    bool with_version = one_in(2);
    call = with_version ? "zkv_look_up_version" : "zkv_look_up";
    uint64_t *s = (uint64_t *)(void *)start.at, *l = (uint64_t *)(void *)length.at, *v = (uint64_t *)(void *)version_word.at;
    *s = *l = *v = 1;
    remember();
    uint64_t number = with_version ? zkv_look_up_version(the_record(), image.at, image.bytes, the_table(), table_words(), some_key(), s, l, v)
                                   : zkv_look_up(the_record(), image.at, image.bytes, the_table(), table_words(), some_key(), s, l);
    tally[with_version ? LOOK_UP_VERSION : LOOK_UP][number != 0]++;
    image_kept();
    table_kept();
    record_kept();
    looked(number, N(11));
    if (number == 0) {
        if (*s > image.bytes || *l > image.bytes - *s) {
            fault("a part outside the image");
        }
        if (with_version && *v > VERSION_MAX) {
            fault("a version that no entry has");
        }
    } else if (*s != 0 || *l != 0 || (with_version && *v != 0)) {
        fault("a refusal with a part that is not empty, or with a version");
    }
}

/* Into words that hold a pattern: those behind the keys stay, all of them on a refusal. */
static void list_call(void)
{
    call = "zkv_list_keys";
    place(&keys, 8 * (one_in(3) ? below(3) : below(KEYS_ROOM)));
    uint64_t *count = (uint64_t *)(void *)start.at, *key = (uint64_t *)(void *)keys.at;
    size_t room = keys.bytes / 8;
    memset(keys.at, 0x5A, keys.bytes);
    *count = 1;
    remember();
    uint64_t number = zkv_list_keys(the_record(), image.at, image.bytes, the_table(), table_words(), key, room, count);
    tally[LIST][number != 0]++;
    image_kept();
    table_kept();
    record_kept();
    around(&keys);
    looked(number, 0);
    if (number != 0 && *count != 0) {
        fault("a refusal with a count");
    }
    if (*count > table_words()) {
        fault("%" PRIu64 " keys in a table of %zu words", *count, table_words());
    }
    for (size_t i = 0; i < room; i++) {
        if (i >= *count && key[i] != 0x5A5A5A5A5A5A5A5Aull) {
            fault("a word behind the keys was changed");
        }
    }
}

static void list_key_call(void)
{
    call = "zkv_list_key";
    uint64_t *v = (uint64_t *)(void *)version_word.at, *l = (uint64_t *)(void *)length.at, *b = (uint64_t *)(void *)start.at;
    *v = *l = *b = 1;
    remember();
    uint64_t number = zkv_list_key(the_record(), image.at, image.bytes, the_table(), table_words(), some_key(), v, l, b);
    tally[LIST_KEY][number != 0]++;
    image_kept();
    table_kept();
    record_kept();
    looked(number, N(11));
    if (number == 0 ? *v > VERSION_MAX || *b > 1 : *v != 0 || *l != 0 || *b != 0) {
        fault("answered %" PRIu64 " with version %" PRIu64 ", %" PRIu64 " bytes, block %" PRIu64, number, *v, *l, *b);
    }
}

static void looks_between(void)
{
    switch (below(48)) {
    case 0:
        list_call();
        break;
    case 1:
        list_key_call();
        break;
    case 2:
    case 3:
        look_up_call();
        break;
    default:
        break;
    }
}

static void count_calls(void)
{
    call = "zkv_keys, zkv_free_chunks, zkv_lines_used";
    remember();
    (void)zkv_keys(the_record());
    uint64_t free_chunks = zkv_free_chunks(image.at, image.bytes), lines = zkv_lines_used(image.at, image.bytes);
    if (free_chunks > ZKV_CHUNKS_MAX || lines > image.bytes / ZKV_LINE_BYTES) {
        fault("counted %" PRIu64 " free chunks, %" PRIu64 " lines", free_chunks, lines);
    }
    image_kept();
    record_kept();
}

/* Into words that hold a pattern: whole entries of the image, rising, the first as zkv_entry answers it; the words
 * behind them stay. */
static void entries_call(void)
{
    call = "zkv_entries";
    uint64_t key = some_key(), last = 0;
    size_t from = one_in(2) ? 0 : one_in(2) ? below(image.bytes / 8) : (size_t)draw();
    place(&keys, 8 * (one_in(3) ? below(3) : below(KEYS_ROOM)));
    uint64_t *word = (uint64_t *)(void *)keys.at;
    size_t room = keys.bytes / 8;
    memset(keys.at, 0x5A, keys.bytes);
    remember();
    size_t count = zkv_entries(image.at, image.bytes, key, from, word, room);
    zkv_key_entry one = zkv_entry(image.at, image.bytes, key, from);
    uint64_t first[ZKV_ENTRY_WORDS] = {one.place, one.op, one.version, one.block, one.field, one.chosen};
    image_kept();
    around(&keys);
    size_t written = room / ZKV_ENTRY_WORDS < count ? room / ZKV_ENTRY_WORDS : count;
    if (count > image.bytes / 16 || (count > 0) != (one.found == 1)) {
        fault("%zu entries, and the first is found %" PRIu64, count, one.found);
    }
    if (written > 0 && memcmp(word, first, sizeof first) != 0) {
        fault("the first of %zu entries is not the one that zkv_entry answers", count);
    }
    for (size_t i = 0; i < written; i++) {
        uint64_t at = word[i * ZKV_ENTRY_WORDS + ZKV_ENTRY_PLACE];
        if (at < 512 || at < from || at <= last || 8 * at + 16 > image.bytes || word[i * ZKV_ENTRY_WORDS + ZKV_ENTRY_CHOSEN] > 1) {
            fault("an entry at word %" PRIu64 " behind one at word %" PRIu64, at, last);
        }
        last = at;
    }
    for (size_t i = written * ZKV_ENTRY_WORDS; i < room; i++) {
        if (word[i] != 0x5A5A5A5A5A5A5A5Aull) {
            fault("a word behind the entries was changed");
        }
    }
}

/* What is asked of chunks, entries and header: a number of the table or none, places inside the image. */
static void inside_calls(void)
{
    call = "zkv_chunk, zkv_empty_chunk, zkv_station, zkv_centre, zkv_entry, zkv_fault";
    uint64_t *number = (uint64_t *)(void *)start.at;
    size_t chunk = (size_t)some_chunk();
    remember();
    zkv_chunk_row row = zkv_chunk(the_record(), image.at, image.bytes, the_table(), table_words(), chunk);
    size_t from = (size_t)some_chunk();
    zkv_report empty = zkv_empty_chunk(the_record(), image.at, image.bytes, the_table(), table_words(), from);
    zkv_key_entry e = zkv_entry(image.at, image.bytes, some_key(), one_in(2) ? 0 : one_in(2) ? below(image.bytes / 8) : (size_t)draw());
    zkv_place p = zkv_fault(image.at, image.bytes);
    image_kept();
    table_kept();
    record_kept();
    if (row.refused != 0) {
        refused(row.refused, N(1) | N(2) | N(8) | N(16));
    } else if (row.role > ZKV_WRONG_CHUNK || row.size > lines_by_record() || row.blocks > lines_by_record() / 8 || chunk == 0 ||
               chunk >= image.bytes / ZKV_CHUNK_BYTES) {
        fault("a row of chunk %zu: role %" PRIu64 ", size %" PRIu64 ", blocks %" PRIu64, chunk, row.role, row.size, row.blocks);
    }
    if (empty.kind == ZKV_REFUSED) {
        refused(empty.first, N(1) | N(2) | N(8) | N(16));
    } else if (empty.kind != ZKV_CHOSEN || empty.first == 0 || empty.first < from || empty.first >= image.bytes / ZKV_CHUNK_BYTES) {
        fault("an empty chunk: %" PRIu64 " %" PRIu64, empty.kind, empty.first);
    }
    if (e.found > 1 || (e.found == 1 && (e.place < 512 || 8 * e.place + 16 > image.bytes || e.chosen > 1))) {
        fault("an entry at word %" PRIu64, e.place);
    }
    if (p.refusal > 6 || (p.word > 0 && 8 * p.word >= image.bytes)) {
        fault("a fault %" PRIu64 " at word %" PRIu64, p.refusal, p.word);
    }
    if (zkv_station(image.at, image.bytes, number) > 1 || zkv_centre(image.at, image.bytes, number) > 1) {
        fault("a number that is neither given nor absent");
    }
}

/* A call that the record may be in the middle of comes to its end. */
static void finish(void)
{
    uint64_t most = cleaning_actions() + 1;
    for (uint64_t steps = 0; steps < most;) {
        looks_between();
        zkv_report r = go_on(&steps);
        if (r.kind != ZKV_STORE && r.kind != ZKV_FLUSH && r.kind != ZKV_FENCE) {
            return;
        }
        alter();
    }
    fault("%" PRIu64 " steps and no end", most);
}

/* Every call, in any order, an opening rarely: it makes the record right. */
static void all_calls(bool openings)
{
    for (int n = 0; n < 14; n++) {
        switch (below(openings ? 11 : 10)) {
        case 0:
            if (one_in(12)) {
                format_call();
            }
            break;
        case 1:
        case 2:
            put_call();
            break;
        case 3:
            delete_call();
            break;
        case 4:
            commit_call();
            break;
        case 5:
            if (one_in(3)) {
                abandon_call();
            }
            break;
        case 6:
            look_up_call();
            break;
        case 7:
            count_calls();
            if (one_in(3)) {
                inside_calls();
            }
            list_call();
            list_key_call();
            entries_call();
            finish();
            break;
        case 8:
            choose_call();
            break;
        case 9:
            clean_call(one_in(2) ? choose_call() : some_chunk());
            break;
        default:
            open_call();
        }
    }
    around(&image);
    around(&table);
    around(&record);
}

/* ---- near-valid things */
static uint64_t first_word(uint64_t op, uint64_t placement, uint64_t version, uint64_t tail)
{
    return op | placement << 2 | version << 4 | tail << 24;
}

/* Entries one behind the other in so many words, now and then a wrong one; where `tidy`, a few keys with rising
 * versions and nothing wrong. */
static bool tidy;
static uint64_t last_version;

static void entries(uint64_t *w, size_t words, uint64_t units)
{
    size_t at = 0;
    memset(w, 0, 8 * words);
    while (at + 2 <= words) {
        uint64_t size = one_in(3) ? 256 : below(40), op = one_in(5) ? 2 : 1;
        uint64_t version = one_in(9) ? 1048575 - below(2) : 1 + below(3);
        bool block = op == 1 && !tidy && one_in(6);
        if (tidy) {
            version = ++last_version;
        }
        size_t follow = op == 2 || block ? 0 : (size + 7) / 8;
        if (at + 2 + follow > words && (tidy || !one_in(4))) {
            return;
        }
        w[at] = first_word(op, block, version, op == 2 ? 0 : block ? chunk_bytes() / 256 + below(units) : size);
        w[at + 1] = tidy ? below(12) : some_key();
        for (size_t i = 0; i < follow && at + 2 + i < words; i++) {
            w[at + 2 + i] = size % 8 != 0 && i == follow - 1 ? 7 : draw();
        }
        if (!tidy && one_in(40)) {
            w[at] ^= 1ull << below(64);
        }
        at += 2 + follow + (one_in(4) ? below(8) : 0);
    }
}

/* An image with a right header, directory words that are mostly right, and logs and blocks that may be. */
static void near_image(void)
{
    static const uint64_t small[] = {2, 3, 4, 5, 8, 16}, large[] = {2, 3, 8, 21, 64, 256};
    static uint64_t log[ZKV_LARGE_CHUNK_BYTES / 8];
    size_t chunks = chunks_in_image(), chunk_words = chunk_bytes() / 8, lines_most = chunk_bytes() / ZKV_LINE_BYTES;
    tidy = one_in(2);
    last_version = 0;
    memset(image.at, 0, image.bytes);
    uint64_t map = 1 | below(4) << 1 | (uint64_t)(power != ZKV_POWER_SMALL || one_in(8)) << 3, sum = map + chunks;
    set_word(0, map);
    set_word(1, chunks);
    for (size_t i = 2, bit = 1; bit < 4; bit++) {
        uint64_t x = bit == 3 ? power : draw();
        if (map >> bit & 1) {
            set_word(i++, x);
            sum += x;
        }
    }
    set_word(7, -sum);
    for (size_t c = 1; c < chunks; c++) {
        uint64_t role = below(5), s = power == ZKV_POWER_LARGE ? large[below(6)] : small[below(6)];
        uint64_t lines = one_in(3) ? lines_most : 1 + below(20);
        if (role == 0) {
            set_word(8 + c, 2 | s << 8);
            for (uint64_t u = 0; u + s <= chunk_bytes() / 256; u += s) {
                set_word(chunk_words * c + 32 * u, 257 + below(256 * s - 264));
            }
        } else if (role <= 2) {
            set_word(8 + c, 1 | lines << 8);
            entries(log, 8 * lines, chunk_bytes() / 256 * chunks);
            for (size_t i = 0; i < 8 * lines; i++) {
                set_word(chunk_words * c + i, log[i]);
            }
        }
    }
    for (uint64_t n = tidy || one_in(2) ? 0 : below(4); n > 0; n--) {
        size_t w = one_in(2) ? below(8 + chunks) : below(image.bytes / 8 + 1);
        set_word(w, one_in(2) ? get_word(w) ^ 1ull << below(64) : draw());
    }
}

/* A record with numbers in range, of this image and table, in any phase. */
static void near_record(void)
{
    uint64_t *w = the_record()->word, chunks = chunks_in_image(), units = chunk_bytes() / 256 * chunks;
    uint64_t lines = chunk_bytes() / ZKV_LINE_BYTES;
    w[0] = below(8);
    w[1] = one_in(2) ? 0 : below(9 * lines + 24);
    w[2] = below(18);
    w[3] = one_in(3) ? below(514) : below(60);
    w[4] = below(table_words() / 4 + 2);
    w[5] = below(3);
    w[6] = image.bytes;
    w[7] = table_words();
    w[POWER] = !one_in(20) ? power : one_in(2) ? ZKV_POWER_SMALL + ZKV_POWER_LARGE - power : draw();
    w[9] = one_in(8) ? 503 + below(2) : below(chunks + 2);
    w[10] = one_in(4) ? draw() : get_word(8 + w[9]);
    w[11] = below(lines + 2);
    w[12] = one_in(4) ? draw() : below(chunks + 2);
    w[13] = one_in(4) ? draw() : below(lines + 2);
    w[14] = below(8);
    w[15] = draw();
    w[16] = draw();
    w[17] = one_in(8) ? 503 + below(2) : below(chunks + 2);             /* what a cleaning is in the middle of */
    w[18] = one_in(4) ? draw() : get_word(8 + w[17]);
    w[19] = below(lines + 2);
    w[20] = one_in(3) ? below(8 * lines + 2) : below(60);
    w[21] = below(4 * lines + 4);
    if (!one_in(3)) {                                                   /* else wild, as it was lent */
        entries(w + BUFFER, BATCH_WORDS, units);
        entries(w + BUFFER + BATCH_WORDS, 8 * lines, units);
        memset(w + BUFFER + BATCH_WORDS + SECOND_WORDS, 0, 8 * BITS_WORDS);
    }
    for (uint64_t n = one_in(2) ? 0 : below(3); n > 0; n--) {
        w[below(BUFFER)] = one_in(2) ? draw() : UINT64_MAX - below(3);
    }
}

/* A table whose words look like keys and what the table holds of them: an extent (not with large chunks), a place, a
 * version, a number of entries, several tops. */
static void near_table(void)
{
    for (size_t i = 0; i < table_words(); i++) {
        uint64_t packed = draw();
        if (!one_in(3)) {
            uint64_t place = below(image.bytes / 8 + 4), version = 1 + below(3), count = 1 + below(3);
            packed = power == ZKV_POWER_LARGE ? (place & 0x3FFFFF) | version << 22 | count << 42
                                              : (one_in(2) ? below(256) : 0) | (place & 0x3FFFF) << 8 | version << 26 | count << 46;
            packed |= one_in(8) ? (uint64_t)1 << 63 : 0;
        }
        the_table()[i] = one_in(2) ? 0 : i % 2 == 0 ? some_key() : packed;
    }
}

/* ---- the cases */
static void lend(void)
{
    static const size_t lengths[] = {0, 1, 7, 8, 64, 4095, 4096, 12288, 16383, 16384, 16385, 16392, 20480, 65536, 196608, 262144};
    static const size_t tables[] = {0, 1, 2, 3, 4, 5, 8, 40, 48, 64, 65};
    power = one_in(LARGE_IN) ? ZKV_POWER_LARGE : ZKV_POWER_SMALL;
    size_t bytes = chunk_bytes() * (4 + below(power == ZKV_POWER_LARGE ? 2 : 5));
    if (one_in(10)) {
        bytes = lengths[below(sizeof lengths / sizeof *lengths)];
    }
    if (one_in(100)) {
        bytes = ZKV_CHUNK_BYTES * (503 + below(3));
    }
    place(&image, bytes);
    place(&table, 8 * (one_in(3) ? tables[below(sizeof tables / sizeof *tables)] : below(one_in(10) ? TABLE_MAX : 600)));
    place(&record, sizeof(zkv_record));
    wild(image.at, image.bytes);
    wild(table.at, table.bytes);
    wild(record.at, record.bytes);
}

static void nothing_open(void)
{
    memset(record.at, 0, record.bytes);
}

static void wild_record(void)
{
    near_image();
    if (one_in(2)) {
        the_record()->word[0] = below(8);
    }
    if (one_in(2)) {
        the_record()->word[6] = image.bytes;
        the_record()->word[7] = table_words();
        the_record()->word[POWER] = one_in(8) ? draw() : power;
    }
    all_calls(false);
}

static void near_records(void)
{
    near_image();
    near_table();
    near_record();
    if (one_in(2)) {
        finish();
    }
    all_calls(false);
}

static void wild_image(void)
{
    open_call();
    nothing_open();
    if (one_in(2)) {
        near_record();
    }
    all_calls(true);
}

static void near_images(void)
{
    near_image();
    open_call();
    all_calls(true);
}

static void wild_table(void)
{
    near_image();
    nothing_open();
    open_call();
    uint64_t how = below(4);
    if (how == 0) {
        wild(table.at, table.bytes);
    } else if (how == 1) {
        near_table();
    } else {
        for (uint64_t n = below(12); n > 0 && table.bytes > 0; n--) {
            the_table()[below(table_words())] ^= one_in(4) ? draw() : 1ull << below(64);
        }
    }
    all_calls(false);
}

/* A register of the library's own, with image, buffer or control altered once it is open. */
static void altered(void)
{
    uint64_t steps = 0;
    call = "zkv_format";
    place(&image, chunk_bytes() * (4 + below(power == ZKV_POWER_LARGE ? 2 : 5)));
    memset(image.at, 0, image.bytes);
    nothing_open();
    zkv_format(the_record(), image.at, image.bytes, the_table(), table_words(), power, 0, 0, 0, 0);
    while (go_on(&steps).kind != ZKV_END) {
    }
    open_call();
    all_calls(false);
    for (uint64_t n = below(4); n > 0; n--) {
        uint64_t what = below(3);
        if (what == 0) {
            the_record()->word[BUFFER + below(one_in(2) ? BATCH_WORDS : BUFFER_WORDS)] = draw();
        } else if (what == 1) {
            the_record()->word[below(6)] = one_in(2) ? below(600) : draw();
        } else {
            alter();
        }
    }
    all_calls(false);
}

static const struct {
    const char *name;
    void (*play)(void);
} cases[] = {
    {"wild records and buffers", wild_record},   {"near-valid records and buffers", near_records},
    {"wild images", wild_image},                 {"near-valid images", near_images},
    {"garbage key tables", wild_table},          {"memory altered under an open register", altered},
};

/* ---- playing them */

/* Leaks are not asked for here, and looking for them needs rights that a container may lack. */
const char *__asan_default_options(void);

const char *__asan_default_options(void)
{
    return "detect_leaks=0";
}

static void set_up(void)
{
    struct sigaction act = {.sa_handler = on_signal};
    sigaction(SIGSEGV, &act, NULL);
    sigaction(SIGBUS, &act, NULL);
    sigaction(SIGFPE, &act, NULL);
    sigaction(SIGILL, &act, NULL);
    sigaction(SIGALRM, &act, NULL);
    alarm(SECONDS);
    make_area(&image, IMAGE_MAX);
    make_area(&table, 8 * TABLE_MAX);
    make_area(&record, sizeof(zkv_record));
    make_area(&value, VALUE_MAX);
    make_area(&start, 8);
    make_area(&length, 8);
    make_area(&version_word, 8);
    make_area(&keys, 8 * KEYS_ROOM);
    place(&start, 8);
    place(&length, 8);
    place(&version_word, 8);
    image_before = malloc(IMAGE_MAX);
    table_before = malloc(8 * TABLE_MAX);
    if (image_before == NULL || table_before == NULL) {
        exit(2);
    }
}

/* So many cases of a kind, from fixed seeds. */
static void play_cases(uint64_t number, const char *name, void (*play)(void), uint64_t count)
{
    kind_of_case = name;
    for (case_number = 1; case_number <= count; case_number++) {
        state = 0x9E3779B97F4A7C15ull * (1000003 * number + case_number) | 1;
        lend();
        play();
    }
    around(&start);
    around(&length);
    around(&version_word);
}

/* Prints how often each call was accepted and refused. Whether each was both. */
static bool print_tally(void)
{
    bool both = true;
    fputs(PROGRAM ": accepted and refused:", stdout);
    for (int c = 0; c < CALLS; c++) {
        printf(" %s %" PRIu64 " %" PRIu64 "%s", call_name[c], tally[c][0], tally[c][1], c < CALLS - 1 ? "," : "\n");
        both = both && tally[c][0] > 0 && tally[c][1] > 0;
    }
    return both;
}

#endif
