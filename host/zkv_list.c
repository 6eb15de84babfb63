/* zkv: the commands that print every label, list, sheet, dump and digest. */
#define _GNU_SOURCE
#include <inttypes.h>
#include <stdio.h>

#include "zkv.h"

/* A value is shown only where it cannot be mistaken: no byte of it moves the cursor or is shown as another. */
static bool printable(const struct label *l)
{
    for (uint64_t i = 0; i < l->length; i++) {
        if (l->value[i] < ' ' || l->value[i] > '~') {
            return false;
        }
    }
    return l->length > 0;
}

/* What is listed of a key beside its value. */
struct listed {
    uint64_t version, length, block;
};

static int listed_of(struct station *s, uint64_t key, struct listed *k)
{
    uint64_t number = zkv_list_key(LENT(s), key, &k->version, &k->length, &k->block);
    return number == 0 ? DONE : refused(s->file.name, number, "key %" PRIu64 ": ", key);
}

static char place_of(const struct listed *k)
{
    return k->block ? 'B' : 'L';
}

/* ---- list */

static int list_label(struct station *s, const struct label *l, void *to)
{
    struct listed k;
    int status = listed_of(s, l->key, &k);
    if (status != DONE) {
        return status;
    }
    fprintf(to, "%" PRIu64 " %" PRIu64 " %" PRIu64 " %c", l->key, k.version, k.length, place_of(&k));
    if (printable(l)) {
        fprintf(to, " %.*s", (int)l->length, (const char *)l->value);
    }
    fputc('\n', to);
    return DONE;
}

static int list_text(struct station *s, FILE *to)
{
    fprintf(to, "keys %" PRIu64 "\n", labels_in(s));
    return each_label(s, list_label, to);
}

struct json_list {
    FILE *to;
    bool begun;             /* a label stands in it */
};

/* A key is a text there: many readers of JSON round numbers above 2^53. */
static int list_label_json(struct station *s, const struct label *l, void *list)
{
    struct json_list *j = list;
    FILE *to = j->to;
    struct listed k;
    int status = listed_of(s, l->key, &k);
    if (status != DONE) {
        return status;
    }
    fprintf(to, "%s\n{\"key\":\"%" PRIu64 "\",\"version\":%" PRIu64 ",\"bytes\":%" PRIu64 ",\"place\":\"%s\",\"hex\":\"", j->begun ? "," : "",
            l->key, k.version, k.length, k.block ? "block" : "log");
    for (uint64_t i = 0; i < l->length; i++) {
        fprintf(to, "%02x", l->value[i]);
    }
    fputc('"', to);
    if (printable(l)) {
        fputs(",\"text\":", to);
        print_json(to, (const char *)l->value, l->length);
    }
    fputc('}', to);
    j->begun = true;
    return DONE;
}

static int list_json(struct station *s, FILE *to)
{
    struct json_list list = {to, false};
    fprintf(to, "{\"keys\":%" PRIu64 ",\"labels\":[", labels_in(s));
    int status = each_label(s, list_label_json, &list);
    fputs("\n]}\n", to);
    return status;
}

int command_list(const char *file, char **word, const struct options *o)
{
    static struct station s;
    (void)word;
    int status = need_register(&s, file, ZKV_FILE_READ, o);
    return status == DONE ? print_whole(&s, o->json ? list_json : list_text) : status;
}

/* ---- sheet: pages for a printer, as the program `sheet` prints them of at most 65,536 bytes and 2,048 keys */

enum { PAGE_ROWS = 50, KEY_COLUMNS = 20, VERSION_COLUMNS = 7, LENGTH_COLUMNS = 5 };     /* rows beside the heading */

struct sheet {
    FILE *to;
    uint64_t rows;              /* that stand on it */
};

static void sheet_heading(FILE *to)
{
    fprintf(to, "%*s %*s %*s %c\n", KEY_COLUMNS, "KEY", VERSION_COLUMNS, "VERSION", LENGTH_COLUMNS, "BYTES", 'P');
}

/* A page begins only for a row that stands on it, so that no form feed is the last byte. */
static int sheet_row(struct station *s, uint64_t key, void *to)
{
    struct sheet *sheet = to;
    struct listed k;
    int status = listed_of(s, key, &k);
    if (status != DONE) {
        return status;
    }
    if (sheet->rows > 0 && sheet->rows % PAGE_ROWS == 0) {
        fputc('\f', sheet->to);
        sheet_heading(sheet->to);
    }
    fprintf(sheet->to, "%*" PRIu64 " %*" PRIu64 " %*" PRIu64 " %c\n", KEY_COLUMNS, key, VERSION_COLUMNS, k.version, LENGTH_COLUMNS, k.length,
            place_of(&k));
    sheet->rows++;
    return DONE;
}

static int sheet_text(struct station *s, FILE *to)
{
    struct sheet sheet = {to, 0};
    sheet_heading(to);
    return each_key(s, sheet_row, &sheet);
}

int command_sheet(const char *file, char **word, const struct options *o)
{
    static struct station s;
    (void)word;
    int status = need_register(&s, file, ZKV_FILE_READ, o);
    return status == DONE ? print_whole(&s, sheet_text) : status;
}

/* ---- dump: a line a label, the form that load reads */

/* A blank at the end is escaped, as editors and letters lose it. */
static int dump_label(struct station *s, const struct label *l, void *to)
{
    (void)s;
    fprintf(to, "%" PRIu64 "\t", l->key);
    for (uint64_t i = 0; i < l->length; i++) {
        uint8_t byte = l->value[i];
        if (byte == '\\') {
            fputs("\\\\", to);
        } else if (byte < ' ' || byte > '~' || (byte == ' ' && i + 1 == l->length)) {
            fprintf(to, "\\x%02x", byte);
        } else {
            fputc(byte, to);
        }
    }
    fputc('\n', to);
    return DONE;
}

static int dump_text(struct station *s, FILE *to)
{
    return each_label(s, dump_label, to);
}

int command_dump(const char *file, char **word, const struct options *o)
{
    static struct station s;
    (void)word;
    int status = need_register(&s, file, ZKV_FILE_READ, o);
    return status == DONE ? print_whole(&s, dump_text) : status;
}

/* ---- digest */

static int digest_text(struct station *s, FILE *to)
{
    char digest[DIGEST_ROOM];
    int status = digest_of(s, digest);
    fprintf(to, "%s\n", digest);
    return status;
}

int command_digest(const char *file, char **word, const struct options *o)
{
    static struct station s;
    (void)word;
    int status = need_register(&s, file, ZKV_FILE_READ, o);
    return status == DONE ? print_whole(&s, digest_text) : status;
}
