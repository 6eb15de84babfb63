/* zkv: the commands info, what each chunk holds, as a table and as a picture, and history, the entries of a key. */
#define _GNU_SOURCE
#include <errno.h>
#include <inttypes.h>
#include <stdio.h>
#include <stdlib.h>
#include <string.h>
#include <unistd.h>

#include "zkv.h"

/* ---- info */

static const char *const roles[] = {"free", "log", "data", "wrong"};

struct chunks {
    size_t count;               /* with chunk 0, of which there is no row */
    size_t bytes;               /* of each */
    zkv_chunk_row row[ZKV_CHUNKS_MAX];
};

static int measure(struct station *s, struct chunks *all)
{
    all->bytes = chunk_bytes(s);
    all->count = s->file.bytes / all->bytes;
    for (size_t c = 1; c < all->count; c++) {
        all->row[c] = zkv_chunk(LENT(s), c);
        if (all->row[c].refused != 0) {
            return refused(s->file.name, all->row[c].refused, "chunk %zu: ", c);
        }
    }
    return DONE;
}

/* The last of the free chunks that stand beside each other from chunk c on. */
static size_t last_free(const struct chunks *all, size_t c)
{
    while (c + 1 < all->count && all->row[c + 1].role == ZKV_FREE_CHUNK) {
        c++;
    }
    return c;
}

/* How many chunks of which size there are, then a line for each; one for free chunks that stand beside each other. */
static void print_table(const struct chunks *all)
{
    printf("%zu chunks of %zu bytes\n", all->count, all->bytes);
    puts("   chunk  role  lines  live  superseded  deletes  blocks  bytes  used");
    for (size_t c = 1; c < all->count; c++) {
        const zkv_chunk_row *r = &all->row[c];
        bool data = r->role == ZKV_DATA_CHUNK;
        if (r->role == ZKV_FREE_CHUNK) {
            size_t first = c;
            char chunks[24];
            c = last_free(all, first);
            snprintf(chunks, sizeof chunks, c > first ? "%zu..%zu" : "%zu", first, c);
            printf("%8s  free\n", chunks);
            continue;
        }
        printf("%8zu  %-5s%6" PRIu64 "%6" PRIu64 "%12" PRIu64 "%9" PRIu64 "%8" PRIu64 "%7" PRIu64 "%6" PRIu64 "\n", c, roles[r->role & 3],
               data ? 0 : r->size, r->live, r->superseded, r->deletes, r->blocks, data ? 256 * r->size : 0, r->used);
    }
}

/* ---- the picture: a box for each chunk; of a log chunk as much of its height as is committed, shared by what its
 * entries are; of a data chunk a part for each block */

enum { BOX = 44, GAP = 6, BOXES = 16, HEAD = 40, SIGN = 12 };

enum { LIVE, SUPERSEDED, DELETES, BLOCKS_USED, BLOCKS_FREE, FREE, CHUNK_0, MEANINGS };

/* What each colour means. */
static const struct {
    const char *meaning, *colour;
} key[MEANINGS] = {
    [LIVE] = {"live", "#4c9f70"},
    [SUPERSEDED] = {"superseded", "#e0a030"},
    [DELETES] = {"deletes", "#8f8f8f"},
    [BLOCKS_USED] = {"blocks used", "#3f6fb5"},
    [BLOCKS_FREE] = {"blocks free", "#c9d8ee"},
    [FREE] = {"free", "#ffffff"},
    [CHUNK_0] = {"chunk 0: header and directory", "#7a5c8e"},
};

static void print_box(FILE *to, double x, double y, double height, int meaning)
{
    if (height > 0) {
        fprintf(to, "<rect x=\"%.1f\" y=\"%.1f\" width=\"%d\" height=\"%.1f\" fill=\"%s\"/>\n", x, y, BOX, height, key[meaning].colour);
    }
}

static void print_log_chunk(FILE *to, const zkv_chunk_row *r, size_t bytes, double x, double y)
{
    uint64_t entries = r->live + r->superseded + r->deletes;
    double used = (double)BOX * (double)(ZKV_LINE_BYTES * r->size) / (double)bytes, each = entries > 0 ? used / (double)entries : 0;
    double live = each * (double)r->live, gone = each * (double)r->deletes;
    print_box(to, x, y, live, LIVE);
    print_box(to, x, y + live, gone, DELETES);
    print_box(to, x, y + live + gone, used - live - gone, SUPERSEDED);
}

static void print_data_chunk(FILE *to, const zkv_chunk_row *r, double x, double y)
{
    double used = r->blocks > 0 ? (double)BOX * (double)r->used / (double)r->blocks : 0;
    print_box(to, x, y, used, BLOCKS_USED);
    print_box(to, x, y + used, BOX - used, BLOCKS_FREE);
}

/* The box of chunk c; chunk 0 has no row. */
static void print_chunk(FILE *to, const struct chunks *all, size_t c)
{
    const zkv_chunk_row *r = &all->row[c];
    double x = GAP + (double)(c % BOXES) * (BOX + GAP), y = HEAD + (double)(c / BOXES) * (BOX + GAP);
    fprintf(to, "<g><title>chunk %zu: %s", c, c == 0 ? "header and directory" : roles[r->role & 3]);
    if (c > 0 && r->role == ZKV_LOG_CHUNK) {
        fprintf(to, ", %" PRIu64 " lines: %" PRIu64 " live, %" PRIu64 " superseded, %" PRIu64 " deletes", r->size, r->live, r->superseded,
                r->deletes);
    } else if (c > 0 && r->role == ZKV_DATA_CHUNK) {
        fprintf(to, ", %" PRIu64 " blocks of %" PRIu64 " bytes: %" PRIu64 " used", r->blocks, 256 * r->size, r->used);
    }
    fputs("</title>\n", to);
    print_box(to, x, y, BOX, c == 0 ? CHUNK_0 : FREE);
    if (c > 0 && r->role == ZKV_LOG_CHUNK) {
        print_log_chunk(to, r, all->bytes, x, y);
    } else if (c > 0 && r->role == ZKV_DATA_CHUNK) {
        print_data_chunk(to, r, x, y);
    }
    fprintf(to, "<rect x=\"%.1f\" y=\"%.1f\" width=\"%d\" height=\"%d\" fill=\"none\" stroke=\"#404040\"/>\n", x, y, BOX, BOX);
    fprintf(to, "<text x=\"%.1f\" y=\"%.1f\">%zu</text></g>\n", x + 3, y + 12, c);
}

static void print_key(FILE *to)
{
    size_t x = GAP;
    for (int i = 0; i < MEANINGS; i++) {
        fprintf(to, "<rect x=\"%zu\" y=\"14\" width=\"%d\" height=\"%d\" fill=\"%s\" stroke=\"#404040\"/>"
                    "<text x=\"%zu\" y=\"24\" font-size=\"12\">%s</text>\n", x, SIGN, SIGN, key[i].colour, x + SIGN + 4, key[i].meaning);
        x += 2 * SIGN + 7 * strlen(key[i].meaning);
    }
}

static void print_picture(FILE *to, const struct chunks *all)
{
    size_t rows = (all->count + BOXES - 1) / BOXES;
    fprintf(to, "<svg xmlns=\"http://www.w3.org/2000/svg\" width=\"%d\" height=\"%zu\" font-family=\"sans-serif\" font-size=\"10\">\n"
                "<rect width=\"100%%\" height=\"100%%\" fill=\"#f4f4f4\"/>\n", GAP + BOXES * (BOX + GAP), HEAD + rows * (BOX + GAP));
    print_key(to);
    for (size_t c = 0; c < all->count; c++) {
        print_chunk(to, all, c);
    }
    fputs("</svg>\n", to);
}

/* A file that exists is left alone; one that cannot be written whole is removed. */
static int write_picture(const char *name, const struct chunks *all)
{
    FILE *to = fopen(name, "wx");
    if (to == NULL) {
        return trouble(name, "%s", strerror(errno));
    }
    print_picture(to, all);
    bool whole = fflush(to) == 0 && !ferror(to);
    int error = errno;
    if (fclose(to) != 0 && whole) {
        whole = false;
        error = errno;
    }
    if (!whole) {
        unlink(name);
        return trouble(name, "cannot be written: %s", strerror(error));
    }
    return DONE;
}

/* The picture alone where it goes to standard output. */
int command_info(const char *file, char **word, const struct options *o)
{
    static struct station s;
    static struct chunks all;
    (void)word;
    int status = need_register(&s, file, ZKV_FILE_READ, o);
    status = status == DONE ? measure(&s, &all) : status;
    if (status == DONE && o->svg != NULL && strcmp(o->svg, "-") == 0) {
        print_picture(stdout, &all);
        return DONE;
    }
    if (status == DONE && o->svg != NULL) {
        status = write_picture(o->svg, &all);
    }
    if (status == DONE) {
        print_table(&all);
    }
    return status;
}

/* ---- history */

static void print_value(FILE *to, const uint8_t *value, uint64_t length)
{
    fprintf(to, " %" PRIu64 " bytes", length);
    bool printable = length > 0;
    for (uint64_t i = 0; i < length; i++) {
        printable = printable && value[i] >= ' ' && value[i] <= '~';
    }
    if (printable) {
        fprintf(to, " %.*s", (int)length, (const char *)value);
    }
}

/* A line for an entry. What a superseded entry says of a block is not read: another value may be there. */
static int print_entry(struct station *s, FILE *to, uint64_t key, const uint64_t *e)
{
    const uint8_t *image = s->file.image;
    uint64_t start, length, byte = 8 * e[ZKV_ENTRY_PLACE], chunk = chunk_bytes(s);
    bool put = e[ZKV_ENTRY_OP] == 1, chosen = e[ZKV_ENTRY_CHOSEN] != 0;
    fprintf(to, "%" PRIu64 " %s chunk %" PRIu64 " line %" PRIu64 " %s", e[ZKV_ENTRY_VERSION], put ? "put" : "delete",
            byte / chunk, byte % chunk / ZKV_LINE_BYTES, chosen ? "current" : "superseded");
    if (put && e[ZKV_ENTRY_BLOCK] == 0) {
        print_value(to, image + byte + 16, e[ZKV_ENTRY_FIELD]);
    } else if (put && chosen) {
        uint64_t number = zkv_look_up(LENT(s), key, &start, &length);
        if (number != 0) {
            return refused(s->file.name, number, "key %" PRIu64 ": ", key);
        }
        print_value(to, image + start, length);
    } else if (put) {
        fputs(" in a block that may hold another value now", to);
    }
    fputc('\n', to);
    return DONE;
}

static uint64_t history_key;

static int print_history(struct station *s, FILE *to)
{
    uint64_t *entry;
    size_t count;
    int status = entries_of(s, history_key, &entry, &count);
    if (status == DONE && count == 0) {
        status = refused(s->file.name, ZKV_KEY_ABSENT, "key %" PRIu64 ": ", history_key);
    }
    if (status == DONE) {
        fprintf(to, "entries %zu\n", count);
    }
    for (size_t i = 0; status == DONE && i < count; i++) {
        status = print_entry(s, to, history_key, entry + i * ZKV_ENTRY_WORDS);
    }
    free(entry);
    return status;
}

int command_history(const char *file, char **word, const struct options *o)
{
    static struct station s;
    int status = key_of(file, word[0], &history_key);
    if (status == DONE) {
        status = need_register(&s, file, ZKV_FILE_READ, o);
    }
    return status == DONE ? print_whole(&s, print_history) : status;
}
