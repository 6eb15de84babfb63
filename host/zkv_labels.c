/* zkv: the keys and the labels of an open register, one by one; the entries and the version of a key; the labels'
 * digest; and text that is printed only once it is whole. */
#define _GNU_SOURCE
#include <inttypes.h>
#include <stdio.h>
#include <stdlib.h>
#include <string.h>

#include "sha256.h"
#include "zkv.h"

/* The present keys, rising, in memory that the caller frees. */
static int keys_of(struct station *s, uint64_t **keys, uint64_t *count)
{
    *count = 0;
    *keys = malloc(ZKV_KEYS_MAX * sizeof **keys);
    if (*keys == NULL) {
        return trouble(s->file.name, "no memory for the keys");
    }
    uint64_t number = zkv_list_keys(LENT(s), *keys, ZKV_KEYS_MAX, count);
    if (number != 0) {
        free(*keys);
        *keys = NULL;
        return refused(s->file.name, number, "keys: ");
    }
    return DONE;
}

uint64_t labels_in(struct station *s)
{
    uint64_t none, count;
    zkv_list_keys(LENT(s), &none, 0, &count);
    return count;
}

int label_of_key(struct station *s, uint64_t key, struct label *l)
{
    uint64_t start, number = zkv_look_up_version(LENT(s), key, &start, &l->length, &l->version);
    l->key = key;
    l->value = s->file.image + start;
    return number == 0 ? DONE : refused(s->file.name, number, "key %" PRIu64 ": ", key);
}

/* Of entries as zkv_entries writes them. */
static int by_version(const void *a, const void *b)
{
    const uint64_t *x = a, *y = b;
    int word = x[ZKV_ENTRY_VERSION] != y[ZKV_ENTRY_VERSION] ? ZKV_ENTRY_VERSION : ZKV_ENTRY_PLACE;
    return x[word] < y[word] ? -1 : x[word] > y[word];
}

/* Where they do not fit they are asked for once more. */
int entries_of(struct station *s, uint64_t key, uint64_t **entry, size_t *count)
{
    enum { SIZE = ZKV_ENTRY_WORDS * sizeof **entry };
    size_t room = 0;
    *entry = NULL;
    *count = 64;
    while (room < *count) {
        room = *count;
        uint64_t *more = realloc(*entry, room * SIZE);
        if (more == NULL) {
            return trouble(s->file.name, "no memory for the entries");
        }
        *entry = more;
        *count = zkv_entries(s->file.image, s->file.bytes, key, 0, *entry, room * ZKV_ENTRY_WORDS);
    }
    qsort(*entry, *count, SIZE, by_version);
    return DONE;
}

int version_of_key(struct station *s, uint64_t key, uint64_t *version)
{
    uint64_t *entry;
    size_t count;
    int status = entries_of(s, key, &entry, &count);
    *version = status == DONE && count > 0 ? entry[(count - 1) * ZKV_ENTRY_WORDS + ZKV_ENTRY_VERSION] : 0;
    free(entry);
    return status;
}

int each_key(struct station *s, int (*take)(struct station *s, uint64_t key, void *to), void *to)
{
    uint64_t *keys, count;
    int status = keys_of(s, &keys, &count);
    for (uint64_t i = 0; status == DONE && i < count; i++) {
        status = take(s, keys[i], to);
    }
    free(keys);
    return status;
}

/* What takes the labels, behind what takes the keys. */
struct taker {
    int (*take)(struct station *s, const struct label *l, void *to);
    void *to;
};

static int take_label(struct station *s, uint64_t key, void *taker)
{
    const struct taker *t = taker;
    struct label l;
    int status = label_of_key(s, key, &l);
    return status == DONE ? t->take(s, &l, t->to) : status;
}

int each_label(struct station *s, int (*take)(struct station *s, const struct label *l, void *to), void *to)
{
    struct taker t = {take, to};
    return each_key(s, take_label, &t);
}

/* A text in memory, as it grows. (A stream of open_memstream does not tell where memory ran out, and ends whole.) */
struct text {
    char *bytes;
    size_t length, room;
};

/* The stream's writer: it takes all or, without memory, nothing, which is the stream's error. */
static ssize_t add_to_text(void *cookie, const char *bytes, size_t length)
{
    struct text *t = cookie;
    if (length > t->room - t->length) {
        size_t room = 2 * t->room + length;
        char *grown = realloc(t->bytes, room);
        if (grown == NULL) {
            return 0;
        }
        t->bytes = grown;
        t->room = room;
    }
    memcpy(t->bytes + t->length, bytes, length);
    t->length += length;
    return (ssize_t)length;
}

int print_whole(struct station *s, int (*print)(struct station *s, FILE *to))
{
    struct text text = {NULL, 0, 0};
    FILE *to = fopencookie(&text, "w", (cookie_io_functions_t){.write = add_to_text});
    if (to == NULL) {
        return trouble(s->file.name, "no memory for the text");
    }
    int status = print(s, to);
    bool whole = !ferror(to);
    if ((fclose(to) != 0 || !whole) && status == DONE) {
        status = trouble(s->file.name, "no memory for the text");
    }
    if (status == DONE && text.length > 0) {
        fwrite(text.bytes, 1, text.length, stdout);
    }
    free(text.bytes);
    return status;
}

void print_json(FILE *to, const char *text, size_t length)
{
    fputc('"', to);
    for (size_t i = 0; i < length; i++) {
        fprintf(to, text[i] == '"' || text[i] == '\\' ? "\\%c" : "%c", text[i]);
    }
    fputc('"', to);
}

/* ---- the digest */

/* Eight bytes, the lowest first. */
static void add_number(struct sha256 *h, uint64_t n)
{
    uint8_t byte[8];
    for (int i = 0; i < 8; i++) {
        byte[i] = (uint8_t)(n >> 8 * i);
    }
    sha256_add(h, byte, sizeof byte);
}

static int add_label(struct station *s, const struct label *l, void *hash)
{
    (void)s;
    add_number(hash, l->key);
    add_number(hash, l->length);
    sha256_add(hash, l->value, l->length);
    return DONE;
}

int digest_of(struct station *s, char digest[DIGEST_ROOM])
{
    struct sha256 hash;
    uint8_t byte[32];
    sha256_begin(&hash);
    int status = each_label(s, add_label, &hash);
    sha256_end(&hash, byte);
    for (int i = 0; i < 32; i++) {
        snprintf(digest + 2 * i, 3, "%02x", byte[i]);
    }
    return status;
}
