/* zkv: the command stat: what a register holds, and what room is left in it. */
#define _GNU_SOURCE
#include <inttypes.h>
#include <stdio.h>
#include <stdlib.h>
#include <string.h>

#include "zkv.h"

/* ---- room left: tried on a copy in memory, by the calls that a put makes */

enum { LINE_LABEL = 48 };       /* a label of so many bytes, put alone, takes one line */

struct trial {
    struct station s;
    const struct station *of;
};

static int begin_trial(struct trial *t, const struct station *of)
{
    memset(t, 0, sizeof *t);
    t->of = of;
    t->s.in_memory = true;
    t->s.file.name = of->file.name;
    t->s.file.bytes = of->file.bytes;
    t->s.file.image = aligned_alloc(ZKV_CHUNK_BYTES, of->file.bytes);
    t->s.table = zkv_table_new(of->file.bytes, &t->s.words);
    return t->s.file.image != NULL && t->s.table != NULL ? DONE : trouble(of->file.name, "no memory for a copy");
}

static void end_trial(struct trial *t)
{
    free(t->s.file.image);
    zkv_table_free(t->s.table, t->s.words);
}

/* How many labels of so many bytes, under keys that are absent, can be put one by one before a cleaning is needed. */
static int try_puts(struct trial *t, size_t length, uint64_t *puts)
{
    static const uint8_t value[ZKV_LARGE_VALUE_MAX];
    uint64_t start, bytes;
    memcpy(t->s.file.image, t->of->file.image, t->of->file.bytes);
    zkv_report r = zkv_open(LENT(&t->s));
    if (r.kind != ZKV_OPENED) {
        return refused(t->s.file.name, r.first, "a copy: ");
    }
    *puts = 0;
    for (uint64_t key = UINT64_MAX;; key--) {
        if (zkv_look_up(LENT(&t->s), key, &start, &bytes) == 0) {
            continue;
        }
        int status = change(&t->s, &(struct item){key, value, length, NULL}, &r);
        if (status != DONE || r.kind == ZKV_REFUSED) {
            return status;
        }
        ++*puts;
    }
}

/* ---- what is printed */

struct stat_row {
    const char *text, *json;
    uint64_t number;
    bool absent, quoted;        /* not told; a text in JSON, as keys are */
};

enum {
    CHUNKS, CHUNK_SIZE, LABELS, DELETED, KNOWN, FREE, USED, LEFT, OF_16, OF_64, OF_256, OF_1000, OF_4088, OF_65528, STATION_NUMBER,
    CENTRE_NUMBER, ROWS
};

static int measure(struct station *s, struct stat_row *row)
{
    static struct trial t;
    const uint8_t *image = s->file.image;
    size_t bytes = s->file.bytes;
    row[CHUNK_SIZE].number = chunk_bytes(s);
    row[CHUNKS].number = bytes / chunk_bytes(s);
    row[OF_65528].absent = value_max(s) < ZKV_LARGE_VALUE_MAX;
    row[LABELS].number = labels_in(s);
    row[KNOWN].number = zkv_keys(&s->record);
    row[DELETED].number = row[KNOWN].number - row[LABELS].number;
    row[FREE].number = zkv_free_chunks(image, bytes);
    row[USED].number = zkv_lines_used(image, bytes);
    row[STATION_NUMBER].absent = zkv_station(image, bytes, &row[STATION_NUMBER].number) == 0;
    row[CENTRE_NUMBER].absent = zkv_centre(image, bytes, &row[CENTRE_NUMBER].number) == 0;
    int status = begin_trial(&t, s);
    status = status == DONE ? try_puts(&t, LINE_LABEL, &row[LEFT].number) : status;
    status = status == DONE ? try_puts(&t, 16, &row[OF_16].number) : status;
    status = status == DONE ? try_puts(&t, 64, &row[OF_64].number) : status;
    status = status == DONE ? try_puts(&t, 256, &row[OF_256].number) : status;
    status = status == DONE ? try_puts(&t, 1000, &row[OF_1000].number) : status;
    status = status == DONE ? try_puts(&t, ZKV_VALUE_MAX, &row[OF_4088].number) : status;
    if (!row[OF_65528].absent) {
        status = status == DONE ? try_puts(&t, ZKV_LARGE_VALUE_MAX, &row[OF_65528].number) : status;
    }
    end_trial(&t);
    return status;
}

static void print_rows(const struct stat_row *row)
{
    for (size_t i = 0; i < ROWS; i++) {
        if (!row[i].absent) {
            printf("%s %" PRIu64 "\n", row[i].text, row[i].number);
        }
    }
}

static void print_rows_json(const struct stat_row *row)
{
    for (size_t i = 0; i < ROWS; i++) {
        const char *quote = row[i].quoted ? "\"" : "";
        printf("%s\"%s\":", i == 0 ? "{" : ",", row[i].json);
        if (row[i].absent) {
            printf("null");
        } else {
            printf("%s%" PRIu64 "%s", quote, row[i].number, quote);
        }
    }
    puts("}");
}

int command_stat(const char *file, char **word, const struct options *o)
{
    static struct station s;
    struct stat_row row[ROWS] = {
        [CHUNKS] = {"chunks", "chunks", 0, false, false},
        [CHUNK_SIZE] = {"bytes of a chunk", "chunk_bytes", 0, false, false},
        [LABELS] = {"labels", "labels", 0, false, false},
        [DELETED] = {"deleted keys", "deleted_keys", 0, false, false},
        [KNOWN] = {"known keys", "known_keys", 0, false, false},
        [FREE] = {"free chunks", "free_chunks", 0, false, false},
        [USED] = {"lines used", "lines_used", 0, false, false},
        [LEFT] = {"lines left", "lines_left", 0, false, false},
        [OF_16] = {"labels of 16 bytes left", "labels_of_16_left", 0, false, false},
        [OF_64] = {"labels of 64 bytes left", "labels_of_64_left", 0, false, false},
        [OF_256] = {"labels of 256 bytes left", "labels_of_256_left", 0, false, false},
        [OF_1000] = {"labels of 1000 bytes left", "labels_of_1000_left", 0, false, false},
        [OF_4088] = {"labels of 4088 bytes left", "labels_of_4088_left", 0, false, false},
        [OF_65528] = {"labels of 65528 bytes left", "labels_of_65528_left", 0, false, false},
        [STATION_NUMBER] = {"station", "station", 0, false, true},
        [CENTRE_NUMBER] = {"centre", "centre", 0, false, true},
    };
    (void)word;
    int status = need_register(&s, file, ZKV_FILE_READ, o);
    if (status == DONE) {
        status = measure(&s, row);
    }
    if (status == DONE && o->json) {
        print_rows_json(row);
    } else if (status == DONE) {
        print_rows(row);
    }
    return status;
}
