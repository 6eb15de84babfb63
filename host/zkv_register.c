/* zkv: messages, the register that a command works on, and the carrying out of begun calls. */
#define _GNU_SOURCE
#include <errno.h>
#include <inttypes.h>
#include <stdarg.h>
#include <stdio.h>
#include <stdlib.h>
#include <string.h>
#include <time.h>
#include <unistd.h>

#include "zkv.h"

int trouble(const char *file, const char *format, ...)
{
    va_list arguments;
    va_start(arguments, format);
    fprintf(stderr, "zkv: %s: ", file);
    vfprintf(stderr, format, arguments);
    fputc('\n', stderr);
    va_end(arguments);
    return TROUBLE;
}

static size_t longest = ZKV_VALUE_MAX;  /* value of the register that was opened last */

int refused(const char *file, uint64_t number, const char *about, ...)
{
    va_list arguments;
    va_start(arguments, about);
    fprintf(stderr, "zkv: %s: ", file);
    vfprintf(stderr, about, arguments);
    fprintf(stderr, "refused %" PRIu64 ": %s", number, zkv_sentence(number));
    if (number == ZKV_TOO_LONG) {
        fprintf(stderr, " (at most %zu bytes)", longest);
    } else if (number == ZKV_TABLE_FULL) {
        fprintf(stderr, " (at most %d, and deleted keys count until they are cleaned away: delete what is not needed, then clean)",
                ZKV_KEYS_MAX);
    }
    fputc('\n', stderr);
    va_end(arguments);
    return number == ZKV_KEY_ABSENT ? ABSENT : number == ZKV_OTHER_VERSION ? OTHER_VERSION : REFUSED;
}

static void waiting(const char *file)
{
    fprintf(stderr, "zkv: %s: is locked by another program; waiting\n", file);
}

int lend(struct station *s, size_t bytes, const struct options *o)
{
    s->table = zkv_table_new(bytes, &s->words);
    s->pause_us = o->pause_us;
    return s->table != NULL ? DONE : trouble("key table", "no memory");
}

size_t chunk_bytes(const struct station *s)
{
    return zkv_power(s->file.image, s->file.bytes) == ZKV_POWER_LARGE ? ZKV_LARGE_CHUNK_BYTES : ZKV_CHUNK_BYTES;
}

size_t value_max(const struct station *s)
{
    return chunk_bytes(s) == ZKV_LARGE_CHUNK_BYTES ? ZKV_LARGE_VALUE_MAX : ZKV_VALUE_MAX;
}

uint64_t power_of(size_t chunk_bytes)
{
    return chunk_bytes == ZKV_LARGE_CHUNK_BYTES ? ZKV_POWER_LARGE : ZKV_POWER_SMALL;
}

uint64_t open_lent(struct station *s)
{
    zkv_report r = zkv_open(LENT(s));
    longest = value_max(s);
    return r.kind == ZKV_OPENED ? 0 : r.first;
}

/* From here on the station works on a copy in memory, and the file is closed: what reads our output may take as long as
 * it likes, and nobody waits for the lock meanwhile. It is read and not copied from the mapping, where a hole would
 * need a page. */
static int take_copy(struct station *s)
{
    zkv_file *f = &s->file;
    const char *name = f->name;
    int64_t length = f->length;
    size_t bytes = f->bytes, got = 0;
    ssize_t part = 1;
    uint8_t *copy = aligned_alloc(ZKV_CHUNK_BYTES, bytes + ZKV_CHUNK_BYTES);
    if (copy == NULL) {
        return trouble(name, "no memory for a copy");
    }
    while (got < bytes && (part > 0 || (part < 0 && errno == EINTR))) {
        part = pread(f->descriptor, copy + got, bytes - got, (off_t)got);
        got += part > 0 ? (size_t)part : 0;
    }
    int status = part < 0 ? trouble(name, "cannot be read: %s", strerror(errno)) : confirmed(s);
    if (status == DONE && got < bytes) {
        status = trouble(name, "has no more than %zu of its %zu bytes", got, bytes);
    }
    zkv_file_close(f);
    f->name = name;
    f->length = length;
    f->image = copy;
    f->bytes = bytes;
    s->in_memory = true;
    return status;
}

/* *number is the refusal's, 0 where the register is open. */
int open_image(struct station *s, const char *name, enum zkv_file_use use, const struct options *o, uint64_t *number)
{
    const char *text = zkv_file_open(&s->file, name, use, (zkv_file_wait){o->wait, waiting});
    if (text != NULL) {
        return trouble(name, "%s", text);
    }
    int status = use == ZKV_FILE_READ && !s->held ? take_copy(s) : DONE;
    if (status == DONE) {
        status = lend(s, s->file.bytes, o);
    }
    if (status == DONE) {
        *number = open_lent(s);
    }
    return status;
}

int need_register(struct station *s, const char *name, enum zkv_file_use use, const struct options *o)
{
    uint64_t number = 0;
    int status = open_image(s, name, use, o, &number);
    if (status == DONE && number != 0) {
        return refused(name, number, "%jd bytes: ", (intmax_t)s->file.length);
    }
    return status;
}

/* As zkv_finish does, but by steps and with a pause between them. */
static zkv_report finish_slowly(struct station *s, zkv_report r)
{
    struct timespec pause = {s->pause_us / 1000000, s->pause_us % 1000000 * 1000};
    for (;; r = zkv_step(LENT(s))) {
        if (r.kind == ZKV_FLUSH) {
            if (r.first < s->file.bytes / ZKV_LINE_BYTES) {
                zkv_file_flush(&s->file, s->file.image + ZKV_LINE_BYTES * r.first);
            }
        } else if (r.kind == ZKV_FENCE ? zkv_file_fence(&s->file) != 0 : r.kind != ZKV_BEGUN && r.kind != ZKV_STORE) {
            return r;
        }
        nanosleep(&pause, NULL);
    }
}

/* In memory that is thrown away nothing is to be durable. */
static void no_flush(void *unused, const uint8_t *line)
{
    (void)unused;
    (void)line;
}

static int no_fence(void *unused)
{
    (void)unused;
    return 0;
}

/* Whether a call came to its end, or was refused. */
static int ended(const struct station *s, const zkv_report *report)
{
    switch (report->kind) {
    case ZKV_END:
    case ZKV_REFUSED:
        return DONE;
    case ZKV_FENCE:
        return trouble(s->file.name, "cannot be made durable: %s", strerror(errno));
    default:
        return trouble(s->file.name, "a step answered %" PRIu64 " %" PRIu64, report->kind, report->first);
    }
}

int carry_out(struct station *s, zkv_report *report)
{
    if (s->in_memory) {
        *report = zkv_finish(LENT(s), *report, no_flush, no_fence, NULL);
    } else if (s->pause_us > 0) {
        *report = finish_slowly(s, *report);
    } else {
        *report = zkv_finish(LENT(s), *report, zkv_file_flush, zkv_file_fence, &s->file);
    }
    return ended(s, report);
}

int make_room(struct station *s, struct cleaned *done)
{
    memset(done, 0, sizeof *done);
    zkv_report r = zkv_make_room(LENT(s), zkv_file_flush, zkv_file_fence, &s->file);
    if (r.kind == ZKV_IDLE) {
        return DONE;
    }
    if (r.kind == ZKV_END) {
        done->chunks = 1;
        done->entries = r.first;
    }
    return ended(s, &r);
}

int need_room(struct station *s, const char *name, const struct options *o, struct cleaned *done)
{
    int status = need_register(s, name, ZKV_FILE_WRITE, o);
    return status == DONE ? make_room(s, done) : status;
}

int confirmed(const struct station *s)
{
    const char *text = s->in_memory ? NULL : zkv_file_confirm(&s->file);
    return text == NULL ? DONE : trouble(s->file.name, "%s", text);
}

/* The bytes of a file, of standard input where the name is `-`; VALUE_ROOM of them if there are so many or more. No
 * bytes at all are what a program leaves that failed before us, so that they must be meant. */
int read_value(const char *from, bool empty_meant, const uint8_t **value, size_t *length)
{
    static uint8_t room[VALUE_ROOM];
    bool standard = strcmp(from, "-") == 0;
    const char *name = standard ? "standard input" : from;
    FILE *input = standard ? stdin : fopen(from, "rb");
    if (input == NULL) {
        return trouble(name, "%s", strerror(errno));
    }
    *value = room;
    *length = fread(room, 1, sizeof room, input);
    if (ferror(input)) {
        return trouble(name, "cannot be read: %s", strerror(errno));
    }
    if (!standard) {
        fclose(input);
    }
    return *length > 0 || empty_meant ? DONE : trouble(name, "gave 0 bytes; if that is meant, say --empty");
}
