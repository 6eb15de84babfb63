/* zkv: the command copy: the present labels of a register into a new file, compared before it gets its name. */
#define _GNU_SOURCE
#include <errno.h>
#include <inttypes.h>
#include <stdio.h>
#include <stdlib.h>
#include <string.h>
#include <sys/stat.h>

#include "zkv.h"

struct labels {
    struct label *label;
    size_t count;
};

static int take_label(struct station *s, const struct label *l, void *labels)
{
    struct labels *all = labels;
    (void)s;
    all->label[all->count++] = *l;
    return DONE;
}

static int labels_of(struct station *s, struct labels *all)
{
    all->count = 0;
    all->label = malloc(ZKV_KEYS_MAX * sizeof *all->label);
    return all->label != NULL ? each_label(s, take_label, all) : trouble(s->file.name, "no memory for the labels");
}

/* The header's numbers are those of the register that is copied; the chunks may be of another size. */
static zkv_report format_like(struct station *old, struct station *new, size_t chunk)
{
    uint64_t station = 0, centre = 0;
    uint64_t station_given = zkv_station(old->file.image, old->file.bytes, &station);
    uint64_t centre_given = zkv_centre(old->file.image, old->file.bytes, &centre);
    return zkv_format(LENT(new), power_of(chunk), station_given, station, centre_given, centre);
}

static int open_new(struct station *new)
{
    uint64_t number = open_lent(new);
    return number == 0 ? DONE : refused(new->file.name, number, "the new register: ");
}

static int fill(struct station *old, struct station *new, size_t chunk, const struct labels *all)
{
    struct put_so_far p;
    zkv_report r = format_like(old, new, chunk);
    int status = carry_out(new, &r);
    if (status == DONE && r.kind == ZKV_REFUSED) {
        status = refused(new->file.name, r.first, "%zu bytes: ", new->file.bytes);
    }
    if (status == DONE) {
        status = open_new(new);
    }
    if (status == DONE) {
        status = put_labels(new, all->label, all->count, true, &p, &r);
    }
    if (status == DONE && r.kind == ZKV_REFUSED) {
        status = refused(new->file.name, r.first, "%zu chunks, after %zu of %zu labels: ", new->file.bytes / chunk, p.labels, all->count);
    }
    return status;
}

/* The new register, opened anew, has the same keys and under each the same bytes. */
static int compare(struct station *new, const struct labels *all)
{
    struct labels copied = {NULL, 0};
    int status = open_new(new);
    if (status == DONE) {
        status = labels_of(new, &copied);
    }
    if (status == DONE && copied.count != all->count) {
        status = trouble(new->file.name, "the copy has %zu labels and not %zu; it is given up", copied.count, all->count);
    }
    for (size_t i = 0; status == DONE && i < all->count; i++) {
        const struct label *a = &all->label[i], *b = &copied.label[i];
        if (a->key != b->key || a->length != b->length || memcmp(a->value, b->value, a->length) != 0) {
            status = trouble(new->file.name, "the copy of key %" PRIu64 " is not the same; it is given up", a->key);
        }
    }
    free(copied.label);
    return status;
}

/* The new file has its name only once it is the same; until then it is removed if anything fails. */
static int copy_to(struct station *old, struct station *new, size_t chunk, const struct labels *all)
{
    int status = fill(old, new, chunk, all);
    if (status == DONE) {
        status = compare(new, all);
    }
    if (status == DONE) {
        status = confirmed(old);
    }
    const char *text = status == DONE ? zkv_file_take_name(&new->file, NULL) : NULL;
    return text == NULL ? status : trouble(new->file.name, "%s", text);
}

static int chunks_of(const char *file, const char *given, uint64_t *chunks)
{
    if (!number_of(given, chunks)) {
        return trouble(file, "%s is no number of chunks: a decimal number, %d to %d", given, ZKV_CHUNKS_MIN, ZKV_CHUNKS_MAX);
    }
    bool allowed = *chunks >= ZKV_CHUNKS_MIN && *chunks <= ZKV_CHUNKS_MAX;
    return allowed ? DONE : refused(file, ZKV_IMAGE_LENGTH, "%" PRIu64 " chunks: ", *chunks);
}

static int nobody_has(const char *name)
{
    struct stat about;
    if (stat(name, &about) == 0) {
        return trouble(name, "exists, and is left as it is");
    }
    return errno == ENOENT ? DONE : trouble(name, "%s", strerror(errno));
}

/* The lock is held until the copy has its name: a label that is put meanwhile would be in one of the two alone. */
int command_copy(const char *file, char **word, const struct options *o)
{
    static struct station old = {.held = true}, new;
    struct labels all = {NULL, 0};
    uint64_t chunks = 0;
    int status = word[1] != NULL ? chunks_of(word[0], word[1], &chunks) : DONE;
    if (status == DONE) {
        status = nobody_has(word[0]);
    }
    if (status == DONE) {
        status = need_register(&old, file, ZKV_FILE_READ, o);
    }
    size_t chunk = 0, bytes = 0;
    if (status == DONE) {
        chunk = o->chunk_bytes != 0 ? o->chunk_bytes : chunk_bytes(&old);
        bytes = (word[1] != NULL ? chunks : old.file.bytes / chunk_bytes(&old)) * chunk;
        status = lend(&new, bytes, o);
    }
    if (status == DONE) {
        status = labels_of(&old, &all);
    }
    if (status == DONE) {
        const char *text = zkv_file_new(&new.file, word[0], bytes);
        status = text == NULL ? copy_to(&old, &new, chunk, &all) : trouble(word[0], "%s", text);
        zkv_file_close(&new.file);
    }
    if (status == DONE) {
        printf("labels %zu\n", all.count);
    }
    free(all.label);
    return status;
}
