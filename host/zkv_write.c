/* zkv: the commands that write, format, put, delete and clean. */
#define _GNU_SOURCE
#include <errno.h>
#include <inttypes.h>
#include <stdio.h>
#include <stdlib.h>
#include <string.h>
#include <sys/stat.h>
#include <unistd.h>

#include "zkv.h"

/* ---- format */

/* A file with something in it is not formatted unasked: tells what would be lost. */
static int is_taken(struct station *old, uint64_t number)
{
    char station[40] = "";
    uint64_t n;
    if (number != 0) {
        return trouble(old->file.name, "exists: %jd bytes, no register: refused %" PRIu64 ": %s; --force formats it, and they are lost",
                       (intmax_t)old->file.length, number, zkv_sentence(number));
    }
    if (zkv_station(old->file.image, old->file.bytes, &n) != 0) {
        snprintf(station, sizeof station, ", station %" PRIu64, n);
    }
    return trouble(old->file.name, "exists: a register, %" PRIu64 " labels%s; --force formats it, and they are lost", labels_in(old),
                   station);
}

/* The register is made in a new file, which takes the name at the end: until then the name's file is as it was. */
static int make_register(const char *file, size_t chunks, const struct options *o, const zkv_file *old)
{
    struct station s = {0};
    size_t chunk = o->chunk_bytes != 0 ? o->chunk_bytes : ZKV_CHUNK_BYTES, bytes = chunks * chunk;
    int status = lend(&s, bytes, o);
    if (status != DONE) {
        return status;
    }
    const char *text = zkv_file_new(&s.file, file, bytes);
    if (text == NULL) {
        zkv_report r = zkv_format(LENT(&s), power_of(chunk), o->station_given, o->station, o->centre_given, o->centre);
        status = carry_out(&s, &r);
        if (status == DONE && r.kind == ZKV_REFUSED) {
            status = refused(file, r.first, "%zu bytes: ", bytes);
        }
        if (status == DONE) {
            text = zkv_file_take_name(&s.file, old);
        }
    }
    if (text != NULL) {
        status = trouble(file, "%s", text);
    }
    zkv_file_close(&s.file);
    return status;
}

int command_format(const char *file, char **word, const struct options *o)
{
    uint64_t chunks;
    struct stat about;
    if (!number_of(word[0], &chunks)) {
        return trouble(file, "%s is no number of chunks: a decimal number, %d to %d", word[0], ZKV_CHUNKS_MIN, ZKV_CHUNKS_MAX);
    }
    if (chunks < ZKV_CHUNKS_MIN || chunks > ZKV_CHUNKS_MAX) {
        return refused(file, ZKV_IMAGE_LENGTH, "%" PRIu64 " chunks: ", chunks);
    }
    if (stat(file, &about) != 0) {
        return errno == ENOENT ? make_register(file, chunks, o, NULL) : trouble(file, "%s", strerror(errno));
    }
    struct station old = {0};
    uint64_t number = 0;
    int status = open_image(&old, file, ZKV_FILE_REPLACE, o, &number);
    if (status == DONE && old.file.length > 0 && !o->force) {
        status = is_taken(&old, number);
    }
    return status == DONE ? make_register(file, chunks, o, &old.file) : status;
}

/* ---- clean */

int clean_one(struct station *s, const uint64_t *named, struct cleaned *done, zkv_report *report)
{
    zkv_report chosen = named != NULL ? (zkv_report){ZKV_CHOSEN, *named, 0} : zkv_choose(LENT(s));
    *report = chosen.kind == ZKV_CHOSEN ? zkv_clean(LENT(s), chosen.first) : chosen;
    if (report->kind == ZKV_REFUSED && named == NULL) {
        /* zkv_choose names log chunks alone. A put that is tried again may take the freed chunk again, so each is freed
         * once. */
        chosen = zkv_empty_chunk(LENT(s), done->freed + 1);
        if (chosen.kind == ZKV_CHOSEN) {
            done->freed = chosen.first;
            *report = zkv_clean(LENT(s), chosen.first);
        }
    }
    if (report->kind == ZKV_REFUSED) {
        return DONE;
    }
    int status = carry_out(s, report);
    if (status == DONE && report->kind == ZKV_END) {
        done->chunks++;
        done->entries += report->first;
        if (isatty(STDERR_FILENO)) {
            fprintf(stderr, "zkv: %s: chunk %" PRIu64 ": %" PRIu64 " entries copied\n", s->file.name, chosen.first, report->first);
        }
    }
    return status;
}

bool cleaning_may_help(struct station *s, const zkv_report *report)
{
    return report->kind == ZKV_REFUSED &&
           (report->first == ZKV_NO_SPACE || (report->first == ZKV_TABLE_FULL && zkv_keys(&s->record) > labels_in(s)));
}

/* A chunk that is named, or one after the other until none is worth it: each leaves fewer lines in use or is freed and
 * not looked at again, so that this ends. */
int command_clean(const char *file, char **word, const struct options *o)
{
    static struct station s;
    struct cleaned done = {0, 0, 0};
    uint64_t chunk = 0;
    zkv_report r;
    if (word[0] != NULL && !number_of(word[0], &chunk)) {
        return trouble(file, "%s is no chunk: a decimal number below 2^64", word[0]);
    }
    int status = word[0] != NULL ? need_register(&s, file, ZKV_FILE_WRITE, o) : need_room(&s, file, o, &done);
    if (status != DONE) {
        return status;
    }
    do {
        status = clean_one(&s, word[0] != NULL ? &chunk : NULL, &done, &r);
    } while (status == DONE && r.kind == ZKV_END && word[0] == NULL);
    if (status != DONE) {
        return status;
    }
    if (r.kind == ZKV_REFUSED && word[0] != NULL) {
        return refused(file, r.first, "chunk %" PRIu64 ": ", chunk);
    }
    if (r.kind == ZKV_REFUSED && r.first != ZKV_NOT_CLEANABLE) {
        return refused(file, r.first, "%" PRIu64 " chunks cleaned, then: ", done.chunks);
    }
    uint64_t free_chunks = zkv_free_chunks(s.file.image, s.file.bytes);
    status = confirmed(&s);
    if (status == DONE) {
        printf("chunks cleaned %" PRIu64 "\nentries copied %" PRIu64 "\nfree chunks %" PRIu64 "\n", done.chunks, done.entries, free_chunks);
    }
    return status;
}

/* ---- put and delete */

/* Begins the staging of an item. */
static zkv_report stage(struct station *s, const struct item *i)
{
    if (i->value == NULL) {
        return i->version != NULL ? zkv_delete_at(LENT(s), i->key, *i->version) : zkv_delete(LENT(s), i->key);
    }
    return i->version != NULL ? zkv_put_at(LENT(s), i->key, i->value, i->length, *i->version)
                              : zkv_put(LENT(s), i->key, i->value, i->length);
}

int give_up(struct station *s, uint64_t free_before)
{
    zkv_report r = zkv_abandon(LENT(s));
    size_t from = 1;
    int status = DONE;
    while (status == DONE && r.kind != ZKV_REFUSED && zkv_free_chunks(s->file.image, s->file.bytes) < free_before) {
        r = zkv_empty_chunk(LENT(s), from);
        if (r.kind == ZKV_CHOSEN) {
            from = r.first + 1;
            r = zkv_clean(LENT(s), r.first);
            status = carry_out(s, &r);
        }
    }
    return status;
}

int change(struct station *s, const struct item *item, zkv_report *report)
{
    uint64_t free_before = zkv_free_chunks(s->file.image, s->file.bytes);
    *report = stage(s, item);
    int status = carry_out(s, report);
    if (status != DONE || report->kind == ZKV_REFUSED) {
        return status;
    }
    *report = zkv_commit(LENT(s));
    status = carry_out(s, report);
    return status == DONE && report->kind == ZKV_REFUSED ? give_up(s, free_before) : status;
}

/* The same; where cleaning may help, chunks are cleaned and it is tried again, until it is done or no cleaning is left.
 * The version that an item names was the right one then, and is not named again: the lock is ours, so that nobody else
 * changes the key, but a cleaning may drop the last entry of a deleted one, whose version is 0 from then on. */
static int change_with_cleaning(struct station *s, struct item *item, struct cleaned *done, zkv_report *report)
{
    for (;;) {
        zkv_report r;
        int status = change(s, item, report);
        if (status != DONE || !cleaning_may_help(s, report)) {
            return status;
        }
        item->version = NULL;
        status = clean_one(s, NULL, done, &r);
        if (status != DONE || r.kind != ZKV_END) {
            return status;
        }
    }
}

/* Where no chunk is free, one is cleaned before an item is staged and committed. For the reason above, the version that
 * it names is tried before that: the item is staged and forgotten again. (No chunk is taken for its block: none is
 * free.) */
static int try_version(struct station *s, const struct item *item, zkv_report *report)
{
    *report = stage(s, item);
    int status = carry_out(s, report);
    if (status == DONE && report->kind == ZKV_END) {
        *report = zkv_abandon(LENT(s));
    }
    return status;
}

/* Does the item, in a register that is open. */
static int change_in(struct station *s, struct item *item, const struct options *o, zkv_report *report)
{
    struct cleaned done;
    if (item->version != NULL && zkv_free_chunks(s->file.image, s->file.bytes) == 0) {
        int tried = try_version(s, item, report);
        if (tried != DONE || (report->kind == ZKV_REFUSED && report->first == ZKV_OTHER_VERSION)) {
            return tried;
        }
        item->version = NULL;
    }
    int status = make_room(s, &done);
    if (status != DONE) {
        return status;
    }
    return o->no_clean ? change(s, item, report) : change_with_cleaning(s, item, &done, report);
}

/* Says why the item was refused; for another version, which one stands. */
static int item_refused(struct station *s, const struct item *i, uint64_t number, const struct options *o)
{
    const char *file = s->file.name;
    uint64_t stands;
    if (number == ZKV_OTHER_VERSION) {
        int status = version_of_key(s, i->key, &stands);
        return status != DONE ? status : refused(file, number, "key %" PRIu64 ": version %" PRIu64 " is named, and %" PRIu64 " stands: ",
                                                 i->key, o->if_version, stands);
    }
    if (i->value != NULL) {
        return refused(file, number, "key %" PRIu64 ": %zu bytes%s: ", i->key, i->length, i->length == VALUE_ROOM ? " or more" : "");
    }
    return refused(file, number, "key %" PRIu64 ": ", i->key);
}

static int change_key(const char *file, const char *given_key, const uint8_t *value, size_t length, const struct options *o)
{
    static struct station s;
    struct item item = {0, value, length, o->if_version_given ? &o->if_version : NULL};
    zkv_report r;
    int status = key_of(file, given_key, &item.key);
    if (status == DONE) {
        status = need_register(&s, file, ZKV_FILE_WRITE, o);
    }
    if (status == DONE) {
        status = change_in(&s, &item, o, &r);
    }
    if (status != DONE) {
        return status;
    }
    return r.kind == ZKV_REFUSED ? item_refused(&s, &item, r.first, o) : confirmed(&s);
}

int command_put(const char *file, char **word, const struct options *o)
{
    const uint8_t *value;
    size_t length;
    int status = read_value(word[1], o->empty, &value, &length);
    return status == DONE ? change_key(file, word[0], value, length, o) : status;
}

int command_delete(const char *file, char **word, const struct options *o)
{
    return change_key(file, word[0], NULL, 0, o);
}
