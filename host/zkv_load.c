/* zkv: the command load: labels from a list of lines, as dump prints them, into a register, by batches. */
#define _GNU_SOURCE
#include <errno.h>
#include <inttypes.h>
#include <stdio.h>
#include <stdlib.h>
#include <string.h>
#include <unistd.h>

#include "zkv.h"

/* ---- reading a list: all of it is read and judged before the register is changed */

struct list {
    const char *name;
    uint8_t *text;              /* decoded in place: the labels' values lie here */
    size_t bytes;
    struct label *label;        /* label i stands in line i + 1 */
    size_t labels;
    size_t zeros, first_zero;   /* keys with leading zeros, and the first such line */
};

/* Above the longest list that can be loaded: every byte of an image in four characters, and ZKV_KEYS_MAX keys. A power
 * of two, and so a length that the room for the text takes. */
enum { LIST_END = 1 << 27 };

_Static_assert(LIST_END > 4 * ZKV_CHUNKS_MAX * ZKV_LARGE_CHUNK_BYTES + 22 * ZKV_KEYS_MAX, "a list that can be loaded is read");

static int read_text(struct list *l, FILE *input)
{
    size_t room = 0;
    do {
        if (l->bytes == LIST_END) {
            return trouble(l->name, "has %d bytes or more: no register can hold the labels of so long a list", LIST_END);
        }
        if (l->bytes == room) {
            room = room == 0 ? 65536 : 2 * room;
            uint8_t *more = realloc(l->text, room);
            if (more == NULL) {
                return trouble(l->name, "no memory for %zu bytes", room);
            }
            l->text = more;
        }
        l->bytes += fread(l->text + l->bytes, 1, room - l->bytes, input);
    } while (l->bytes == room);
    return ferror(input) ? trouble(l->name, "cannot be read: %s", strerror(errno)) : DONE;
}

static int hex_digit(uint8_t c)
{
    return c >= '0' && c <= '9' ? c - '0' : c >= 'a' && c <= 'f' ? c - 'a' + 10 : c >= 'A' && c <= 'F' ? c - 'A' + 10 : -1;
}

/* The bytes of a value, from its escaped form, which lies in the same place. Answers what is wrong, or NULL. */
static const char *decode(uint8_t *text, size_t bytes, uint64_t *length)
{
    size_t at = 0, to = 0;
    while (at < bytes) {
        uint8_t byte = text[at++];
        if (byte < ' ' || byte > '~') {
            return byte == '\r' ? "a byte 0x0d: lines end with a line feed alone, and a value's byte is written \\x0d"
                                : "a byte that is not printable ASCII: it is to be written \\xHH";
        }
        if (byte == '\\' && at < bytes && text[at] == '\\') {
            at++;
        } else if (byte == '\\') {
            int high = at + 2 < bytes && text[at] == 'x' ? hex_digit(text[at + 1]) : -1;
            int low = high >= 0 ? hex_digit(text[at + 2]) : -1;
            if (low < 0) {
                return "a backslash is followed by another, or by x and two hexadecimal digits";
            }
            byte = (uint8_t)(16 * high + low);
            at += 3;
        }
        text[to++] = byte;
    }
    *length = to;
    return NULL;
}

/* One line, without its line feed. */
static int read_label(struct list *l, uint8_t *line, size_t bytes)
{
    struct label *label = &l->label[l->labels];
    size_t number = l->labels + 1;
    uint8_t *tab = memchr(line, '\t', bytes);
    if (tab == NULL) {
        return trouble(l->name, "line %zu: has no tab: a line is a key, a tab and the value's bytes", number);
    }
    *tab = 0;
    if (strlen((const char *)line) != (size_t)(tab - line) || !number_of((const char *)line, &label->key)) {
        return trouble(l->name, "line %zu: does not begin with a key: a decimal number below 2^64", number);
    }
    if (line[0] == '0' && line[1] != 0 && l->zeros++ == 0) {
        l->first_zero = number;
    }
    label->value = tab + 1;
    const char *wrong = decode(tab + 1, bytes - (size_t)(tab + 1 - line), &label->length);
    if (wrong != NULL) {
        return trouble(l->name, "line %zu: key %" PRIu64 ": %s", number, label->key, wrong);
    }
    l->labels++;
    return DONE;
}

static int read_labels(struct list *l)
{
    size_t lines = 0;
    for (size_t i = 0; i < l->bytes; i++) {
        lines += l->text[i] == '\n';
    }
    if (l->bytes > 0 && l->text[l->bytes - 1] != '\n') {
        return trouble(l->name, "line %zu: has no end: the list was cut", lines + 1);
    }
    l->label = calloc(lines + 1, sizeof *l->label);
    if (l->label == NULL) {
        return trouble(l->name, "no memory for %zu labels", lines);
    }
    int status = DONE;
    for (uint8_t *at = l->text, *end; status == DONE && at < l->text + l->bytes; at = end + 1) {
        end = memchr(at, '\n', (size_t)(l->text + l->bytes - at));
        status = read_label(l, at, (size_t)(end - at));
    }
    return status;
}

/* By key, and among equals by place. */
static int by_key(const void *one, const void *other)
{
    const struct label *a = *(const struct label *const *)one, *b = *(const struct label *const *)other;
    return a->key != b->key ? (a->key > b->key) - (a->key < b->key) : (a > b) - (a < b);
}

/* Of a key with two values one is wrong. */
static int no_key_twice(const struct list *l)
{
    const struct label **sorted = malloc((l->labels + 1) * sizeof *sorted);
    if (sorted == NULL) {
        return trouble(l->name, "no memory for %zu labels", l->labels);
    }
    for (size_t i = 0; i < l->labels; i++) {
        sorted[i] = &l->label[i];
    }
    qsort(sorted, l->labels, sizeof *sorted, by_key);
    int status = DONE;
    for (size_t i = 1; status == DONE && i < l->labels; i++) {
        if (sorted[i]->key == sorted[i - 1]->key) {
            status = trouble(l->name, "line %td: key %" PRIu64 " stands in line %td already", sorted[i] - l->label + 1, sorted[i]->key,
                             sorted[i - 1] - l->label + 1);
        }
    }
    free(sorted);
    return status;
}

/* How long a value may be is known once the register is open. */
static int none_too_long(const struct list *l, const struct station *s)
{
    for (size_t i = 0; i < l->labels; i++) {
        const struct label *label = &l->label[i];
        if (label->length > value_max(s)) {
            return refused(l->name, ZKV_TOO_LONG, "line %zu: key %" PRIu64 ": %" PRIu64 " bytes: ", i + 1, label->key, label->length);
        }
    }
    return DONE;
}

static int read_list(struct list *l, const char *from, bool empty_meant)
{
    bool standard = strcmp(from, "-") == 0;
    memset(l, 0, sizeof *l);
    l->name = standard ? "standard input" : from;
    FILE *input = standard ? stdin : fopen(from, "rb");
    if (input == NULL) {
        return trouble(l->name, "%s", strerror(errno));
    }
    int status = read_text(l, input);
    if (!standard) {
        fclose(input);
    }
    if (status == DONE && l->bytes == 0 && !empty_meant) {
        status = trouble(l->name, "gave 0 bytes; if that is meant, say --empty");
    }
    if (status == DONE) {
        status = read_labels(l);
    }
    if (status == DONE && l->zeros > 0) {
        fprintf(stderr, "zkv: %s: line %zu: leading zeros are no part of a key: it is key %" PRIu64 " (%zu such lines)\n", l->name,
                l->first_zero, l->label[l->first_zero - 1].key, l->zeros);
    }
    return status == DONE ? no_key_twice(l) : status;
}

static void forget_list(struct list *l)
{
    free(l->text);
    free(l->label);
}

/* ---- batches */

/* Stages labels, as many as batch and space take but at most so many, and commits them; *done is how many, also
 * where the commit ended in trouble. A refusal, left in *report, leaves nothing staged and no chunk taken. */
static int put_batch(struct station *s, const struct label *label, size_t most, size_t *done, zkv_report *report)
{
    uint64_t free_before = zkv_free_chunks(s->file.image, s->file.bytes);
    size_t staged = 0;
    *done = 0;
    do {
        *report = zkv_put(LENT(s), label[staged].key, label[staged].value, label[staged].length);
        int status = carry_out(s, report);
        if (status != DONE) {
            return status;
        }
    } while (report->kind == ZKV_END && ++staged < most);
    bool full = report->kind == ZKV_REFUSED &&
                (report->first == ZKV_BATCH_FULL || report->first == ZKV_NO_SPACE || report->first == ZKV_TABLE_FULL);
    if (report->kind == ZKV_END || (full && staged > 0)) {
        *done = staged;
        *report = zkv_commit(LENT(s));
        int status = carry_out(s, report);
        if (status != DONE) {
            return status;
        }
    }
    if (report->kind != ZKV_REFUSED || staged == 0) {
        return DONE;
    }
    *done = 0;
    return give_up(s, free_before);
}

/* The same; where cleaning may help, chunks are cleaned as long as that is worth it. */
static int put_batch_with_cleaning(struct station *s, const struct label *label, size_t most, size_t *done, zkv_report *report)
{
    struct cleaned cleaned = {0, 0, 0};
    for (;;) {
        zkv_report r;
        int status = put_batch(s, label, most, done, report);
        if (status != DONE || !cleaning_may_help(s, report)) {
            return status;
        }
        status = clean_one(s, NULL, &cleaned, &r);
        if (status != DONE || r.kind != ZKV_END) {
            return status;
        }
    }
}

/* On a terminal: how far it is, at each tenth. */
static void show_progress(const struct station *s, size_t before, size_t now, size_t all)
{
    if (isatty(STDERR_FILENO) && 10 * before / all != 10 * now / all) {
        fprintf(stderr, "zkv: %s: %zu of %zu labels\n", s->file.name, now, all);
    }
}

/* A batch that is refused is tried again by halves: a label alone finds space where a batch has none, and is refused
 * by itself. */
int put_labels(struct station *s, const struct label *label, size_t count, bool cleaning, struct put_so_far *p, zkv_report *report)
{
    size_t most = ZKV_BATCH_ITEMS;
    memset(p, 0, sizeof *p);
    while (p->labels < count) {
        size_t left = count - p->labels, wanted = most < left ? most : left, done;
        int status = cleaning ? put_batch_with_cleaning(s, label + p->labels, wanted, &done, report)
                              : put_batch(s, label + p->labels, wanted, &done, report);
        if (status != DONE) {
            p->unknown = done;
            return status;
        }
        if (report->kind == ZKV_REFUSED && wanted == 1) {
            return DONE;
        }
        if (report->kind == ZKV_REFUSED) {
            most = wanted / 2;
            continue;
        }
        show_progress(s, p->labels, p->labels + done, count);
        p->labels += done;
        p->batches++;
    }
    *report = (zkv_report){ZKV_END, 0, 0};
    return DONE;
}

/* ---- load */

/* How far it came, when it did not come to the end. */
static void tell_how_far(const char *file, const char *list, const struct put_so_far *p)
{
    char loaded[60] = "", unknown[80] = "";
    if (p->labels > 0) {
        snprintf(loaded, sizeof loaded, "lines 1 to %zu", p->labels);
    }
    if (p->unknown > 0) {
        snprintf(unknown, sizeof unknown, "of lines %zu to %zu all or none", p->labels + 1, p->labels + p->unknown);
    }
    bool both = p->labels > 0 && p->unknown > 0, neither = p->labels == 0 && p->unknown == 0;
    trouble(file, "%s: in the register: %s%s%s%s", list, loaded, both ? ", and " : "", unknown, neither ? "no line" : "");
}

int command_load(const char *file, char **word, const struct options *o)
{
    static struct station s;
    struct list l;
    struct put_so_far p = {0, 0, 0};
    struct cleaned done;
    zkv_report r;
    int status = read_list(&l, word[0], o->empty);
    if (status == DONE) {
        status = need_register(&s, file, ZKV_FILE_WRITE, o);
    }
    status = status == DONE ? none_too_long(&l, &s) : status;
    status = status == DONE ? make_room(&s, &done) : status;
    if (status == DONE) {
        status = put_labels(&s, l.label, l.labels, !o->no_clean, &p, &r);
        if (status == DONE && r.kind == ZKV_REFUSED) {
            const struct label *stopped = &l.label[p.labels];
            status = refused(file, r.first, "%s: line %zu: key %" PRIu64 ": %" PRIu64 " bytes: ", l.name, p.labels + 1, stopped->key,
                             stopped->length);
        }
        if (status != DONE) {
            tell_how_far(file, l.name, &p);
        }
    }
    if (status == DONE) {
        status = confirmed(&s);
    }
    if (status == DONE) {
        printf("labels %zu\nbatches %zu\n", p.labels, p.batches);
    }
    forget_list(&l);
    return status;
}
