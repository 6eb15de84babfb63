/* zkv: the commands that only read, get, scan and check. */
#define _GNU_SOURCE
#include <inttypes.h>
#include <stdio.h>
#include <string.h>
#include <strings.h>

#include "zkv.h"

/* The key's label, copied while the file was whole; then the lock is given back. To copy the label takes less time than
 * to copy the image. Where the key is absent and its version is asked for, that is found under the same lock. */
static int label_of(const char *file, const char *given_key, const struct options *o, struct label *l)
{
    static struct station s = {.held = true};
    static uint8_t value[ZKV_LARGE_VALUE_MAX];
    uint64_t key;
    int status = key_of(file, given_key, &key);
    if (status != DONE) {
        return status;
    }
    status = need_register(&s, file, ZKV_FILE_READ, o);
    if (status == DONE) {
        status = label_of_key(&s, key, l);
    }
    bool absent = status == ABSENT && o->version;
    if (absent) {
        status = version_of_key(&s, key, &l->version);
    } else if (status == DONE && l->length > value_max(&s)) {
        status = trouble(file, "was changed by another program while it was read");
    } else if (status == DONE) {
        memcpy(value, l->value, l->length);
        l->value = value;
    }
    if (status == DONE) {
        status = confirmed(&s);
    }
    zkv_file_close(&s.file);
    return status == DONE && absent ? ABSENT : status;
}

int command_get(const char *file, char **word, const struct options *o)
{
    struct label l;
    int status = label_of(file, word[0], o, &l);
    if (o->version && (status == DONE || status == ABSENT)) {
        printf("%" PRIu64 "\n", l.version);
    }
    if (status == DONE) {
        fwrite(l.value, 1, l.length, stdout);
    }
    return status;
}

/* How long a scan is without one end of a line: carriage return, line feed, or both. */
static size_t without_line_end(const uint8_t *scan, size_t scanned)
{
    if (scanned > 0 && scan[scanned - 1] == '\n') {
        scanned--;
    }
    return scanned > 0 && scan[scanned - 1] == '\r' ? scanned - 1 : scanned;
}

/* Reads what was scanned. */
static int read_scan(const char *from, const struct options *o, const uint8_t **scan, size_t *scanned)
{
    int status = read_value(from, o->empty, scan, scanned);
    if (status != DONE || !o->line || *scanned == VALUE_ROOM) {
        return status;
    }
    *scanned = without_line_end(*scan, *scanned);
    if (*scanned > 0 || o->empty) {
        return DONE;
    }
    return trouble(strcmp(from, "-") == 0 ? "standard input" : from, "gave 0 bytes and the end of a line; if that is meant, say --empty");
}

/* Compares what was scanned from a printed label with what the register says was printed. Bytes count from 1, as
 * cmp(1) counts. */
int command_scan(const char *file, char **word, const struct options *o)
{
    struct label l;
    const uint8_t *scan;
    size_t scanned;
    uint64_t same = 0;
    int status = read_scan(word[1], o, &scan, &scanned);
    if (status == DONE) {
        status = label_of(file, word[0], o, &l);
    }
    if (status != DONE) {
        return status;
    }
    while (same < l.length && same < scanned && l.value[same] == scan[same]) {
        same++;
    }
    if (same == l.length && same == scanned) {
        printf("match: key %" PRIu64 ", %" PRIu64 " bytes\n", l.key, l.length);
        return DONE;
    }
    printf("PUT ASIDE: key %" PRIu64 ": byte %" PRIu64 ": ", l.key, same + 1);
    if (same == l.length) {
        printf("the label ends after %" PRIu64 " bytes, the scan has %zu%s\n", l.length, scanned, scanned == VALUE_ROOM ? " or more" : "");
    } else if (same == scanned) {
        printf("the scan ends after %zu bytes, the label has %" PRIu64 "\n", scanned, l.length);
    } else {
        printf("the label has 0x%02x, the scan 0x%02x\n", l.value[same], scan[same]);
    }
    return PUT_ASIDE;
}

/* A digest in hexadecimal digits, small or capital. */
static bool same_digest(const char *given, const char *digest)
{
    return strlen(given) == strlen(digest) && strcasecmp(given, digest) == 0;
}

static uint64_t line_in_chunk(const struct station *s, uint64_t word)
{
    return 8 * word % chunk_bytes(s) / ZKV_LINE_BYTES;
}

/* Where the fault is, and what can be read before it. Bytes count from 0, as in the file. */
static void print_place(const struct station *s, const zkv_place *p)
{
    uint64_t line = line_in_chunk(s, p->word);
    switch (p->refusal) {
    case ZKV_NOT_OPEN:
        printf("at the header: word %" PRIu64 ", byte %" PRIu64 "\n", p->word, 8 * p->word);
        break;
    case ZKV_DIRECTORY_WRONG:
        printf("at the directory word of chunk %" PRIu64 ": byte %" PRIu64 "\n", p->chunk, 8 * p->word);
        break;
    case ZKV_ENTRY_WRONG:
        printf("at chunk %" PRIu64 ", line %" PRIu64 ", byte %" PRIu64 "; %" PRIu64 " entries before it are right\n", p->chunk, line,
               8 * p->word, p->before);
        break;
    case ZKV_BLOCK_WRONG:
    case ZKV_TOPS_DISAGREE:
        printf("at the entry in chunk %" PRIu64 ", line %" PRIu64 ", byte %" PRIu64 "; every entry can be read\n", p->chunk, line,
               8 * p->word);
        break;
    default:
        break;
    }
}

static void print_place_json(const struct station *s, const zkv_place *p)
{
    if (p->refusal >= ZKV_DIRECTORY_WRONG) {
        printf(",\"chunk\":%" PRIu64, p->chunk);
    }
    if (p->refusal >= ZKV_ENTRY_WRONG) {
        printf(",\"line\":%" PRIu64, line_in_chunk(s, p->word));
    }
    if (p->refusal >= ZKV_NOT_OPEN) {
        printf(",\"byte\":%" PRIu64, 8 * p->word);
    }
    if (p->refusal == ZKV_ENTRY_WRONG) {
        printf(",\"entries_before\":%" PRIu64, p->before);
    }
}

/* The refusal is printed before its place is looked for, which may take a while. A wrong length has no place. */
static void print_refusal(const struct station *s, uint64_t number, bool json)
{
    const char *sentence = zkv_sentence(number);
    if (json) {
        printf("{\"accepted\":false,\"refusal\":%" PRIu64 ",\"sentence\":", number);
        print_json(stdout, sentence, strlen(sentence));
    } else {
        printf("refused %" PRIu64 ": %s\n", number, sentence);
    }
    fflush(stdout);
    zkv_place place = {0, 0, 0, 0};
    if (number != ZKV_IMAGE_LENGTH && number != ZKV_TABLE_FULL) {
        place = zkv_fault(s->file.image, s->file.bytes);
    }
    if (json) {
        if (number == ZKV_IMAGE_LENGTH) {
            printf(",\"bytes\":%jd", (intmax_t)s->file.length);
        }
        print_place_json(s, &place);
        puts("}");
    } else if (number == ZKV_IMAGE_LENGTH) {
        printf("the file has %jd bytes\n", (intmax_t)s->file.length);
    } else {
        print_place(s, &place);
    }
}

static void print_accepted(const char *digest, bool same, bool json)
{
    if (json) {
        printf("{\"accepted\":true");
        if (digest[0] != 0) {
            printf(",\"digest\":\"%s\",\"same\":%s", digest, same ? "true" : "false");
        }
        puts("}");
        return;
    }
    puts("accepted");
    if (digest[0] != 0 && same) {
        puts("digest as given");
    } else if (digest[0] != 0) {
        printf("PUT ASIDE: the digest is %s, and not as given\n", digest);
    }
}

int command_check(const char *file, char **word, const struct options *o)
{
    static struct station s;
    uint64_t number = 0;
    char digest[DIGEST_ROOM] = "";
    (void)word;
    int status = open_image(&s, file, ZKV_FILE_READ, o, &number);
    if (status == DONE && number != 0) {
        print_refusal(&s, number, o->json);
        return REFUSED;
    }
    if (status == DONE && o->against != NULL) {
        status = digest_of(&s, digest);
    }
    if (status != DONE) {
        return status;
    }
    bool same = o->against == NULL || same_digest(o->against, digest);
    print_accepted(digest, same, o->json);
    return same ? DONE : PUT_ASIDE;
}
