/* What the files of the program zkv share: exit statuses, messages, and the register that a command works on. */
#ifndef ZKV_PROGRAM_H
#define ZKV_PROGRAM_H

#include <stdbool.h>
#include <stdio.h>

#include "zitskvoze_file.h"

/* Exit statuses. */
enum { DONE = 0, ABSENT = 1, TROUBLE = 2, REFUSED = 3, PUT_ASIDE = 4, OTHER_VERSION = 5 };

/* What the command line says besides the command, its file and its words. */
struct options {
    bool force, empty, no_clean, json, line, version;
    bool station_given, centre_given, if_version_given;
    uint64_t station, centre, if_version;
    uint64_t chunk_bytes;       /* of a new register; 0: not said */
    long pause_us;              /* between steps */
    long wait;                  /* seconds for the lock; -1: as long as it takes */
    const char *against;        /* a digest; NULL: none is given */
    const char *svg;            /* a file for the picture, - for standard output; NULL: none is given */
};

/* A register in a file, with all that is lent to the calls. */
struct station {
    zkv_file file;
    zkv_record record;
    uint64_t *table;
    size_t words;               /* of the table */
    long pause_us;
    bool held;                  /* set before an opening: a file that is only read stays locked and mapped, too */
    bool in_memory;             /* no file: a copy that is thrown away */
};

/* A label of an open register (its value lies in the image), or of a list, which has no versions. */
struct label {
    uint64_t key, length, version;
    const uint8_t *value;
};

/* A put or, where value is NULL, a delete; for the version that it names, NULL where it names none. */
struct item {
    uint64_t key;
    const uint8_t *value;
    size_t length;
    const uint64_t *version;
};

struct cleaned {
    uint64_t chunks, entries;
    uint64_t freed;             /* the last chunk that was freed because it holds no label */
};

/* Of labels that are put by batches: those that are in the register, the batches, and how many more all or none are
 * in it. */
struct put_so_far {
    size_t labels, batches, unknown;
};

/* What every call is lent. */
#define LENT(s) &(s)->record, (s)->file.image, (s)->file.bytes, (s)->table, (s)->words

/* zkv_register.c: messages, one form for all: `zkv: FILE: what it is about: what is wrong`. Each answers the exit
 * status. */
__attribute__((format(printf, 2, 3))) int trouble(const char *file, const char *format, ...);
__attribute__((format(printf, 3, 4))) int refused(const char *file, uint64_t number, const char *about, ...);

/* zkv_register.c: opening, and carrying a begun call out. A file that is only read is copied into memory and closed, so
 * that its lock is free again, unless the station says that it is to be held. */
int lend(struct station *s, size_t bytes, const struct options *o);       /* a key table for an image of so many bytes */
uint64_t open_lent(struct station *s);                                   /* opens what is lent: 0, or the refusal's number */
size_t chunk_bytes(const struct station *s);                             /* of a register that is open */
size_t value_max(const struct station *s);                               /* the same: how long a value may be */
uint64_t power_of(size_t chunk_bytes);                                   /* as zkv_format is told it */
int open_image(struct station *s, const char *name, enum zkv_file_use use, const struct options *o, uint64_t *number);
int need_register(struct station *s, const char *name, enum zkv_file_use use, const struct options *o);
/* Opens to be written, for commits. A commit is begun only while a free chunk stands, else a power cut in a cleaning
 * can leave a register that is stuck for good (zitskvoze.h): where the opening finds none, a chunk is cleaned first,
 * and counted. Where none can be cleaned the register is open too: the commit says that there is no space. */
int need_room(struct station *s, const char *name, const struct options *o, struct cleaned *done);
int make_room(struct station *s, struct cleaned *done);                  /* the same of one that is open */
int carry_out(struct station *s, zkv_report *report);                    /* to its end, or a refusal, left in *report */
int confirmed(const struct station *s);                                  /* before a command says that it is done */
int read_value(const char *from, bool empty_meant, const uint8_t **value, size_t *length);

enum { DIGEST_ROOM = 65 };      /* 64 digits and the end */
enum { VALUE_ROOM = 65537 };    /* more than any value's limit, so that the library sees what is too long */

/* zkv_labels.c: how many keys are present; the label of a key; the entries of a key by rising version, as zkv_entries
 * writes them, in memory that the caller frees; the version that a put of a key has to name: the key's highest, its
 * delete's where it is deleted, 0 where it is unknown; the keys, rising, and the labels by rising key, until `take`
 * answers no DONE; the labels' digest; and what `print` prints, printed once it is whole. */
uint64_t labels_in(struct station *s);
int label_of_key(struct station *s, uint64_t key, struct label *l);
int entries_of(struct station *s, uint64_t key, uint64_t **entry, size_t *count);
int version_of_key(struct station *s, uint64_t key, uint64_t *version);
int each_key(struct station *s, int (*take)(struct station *s, uint64_t key, void *to), void *to);
int each_label(struct station *s, int (*take)(struct station *s, const struct label *l, void *to), void *to);
int digest_of(struct station *s, char digest[DIGEST_ROOM]);
int print_whole(struct station *s, int (*print)(struct station *s, FILE *to));
void print_json(FILE *to, const char *text, size_t length);     /* printable text in quotes */

/* zkv_write.c: each leaves a refusal, if there is one, in *report. Cleans the chunk that is named, else the one that is
 * chosen, else one that holds no label, and counts it. Whether cleaning may help against a refusal. Stages and commits
 * an item; a refused commit leaves nothing staged, and as many chunks free as were. */
int clean_one(struct station *s, const uint64_t *named, struct cleaned *done, zkv_report *report);
bool cleaning_may_help(struct station *s, const zkv_report *report);
int change(struct station *s, const struct item *item, zkv_report *report);
/* Forgets the staged items of a refused commit, and frees chunks that were taken for their blocks until as many are
 * free as were before. */
int give_up(struct station *s, uint64_t free_before);

/* zkv_load.c: puts labels by batches, in their order; where one is refused, it is the first behind those that are
 * in. */
int put_labels(struct station *s, const struct label *label, size_t count, bool cleaning, struct put_so_far *p, zkv_report *report);

/* The commands; `word` are the words behind FILE, NULL where one may be left out and is. zkv_write.c: */
int command_format(const char *file, char **word, const struct options *o);
int command_put(const char *file, char **word, const struct options *o);
int command_delete(const char *file, char **word, const struct options *o);
int command_clean(const char *file, char **word, const struct options *o);
/* zkv_load.c, zkv_copy.c: */
int command_load(const char *file, char **word, const struct options *o);
int command_copy(const char *file, char **word, const struct options *o);
/* zkv_read.c, zkv_stat.c, zkv_info.c: */
int command_get(const char *file, char **word, const struct options *o);
int command_scan(const char *file, char **word, const struct options *o);
int command_check(const char *file, char **word, const struct options *o);
int command_stat(const char *file, char **word, const struct options *o);
int command_info(const char *file, char **word, const struct options *o);
int command_history(const char *file, char **word, const struct options *o);
/* zkv_list.c: */
int command_list(const char *file, char **word, const struct options *o);
int command_sheet(const char *file, char **word, const struct options *o);
int command_dump(const char *file, char **word, const struct options *o);
int command_digest(const char *file, char **word, const struct options *o);

/* zkv.c: a decimal number below 2^64; and a key, which is one: says so where it has leading zeros, which are no part of
 * it, and answers the exit status. */
bool number_of(const char *s, uint64_t *n);
int key_of(const char *file, const char *given, uint64_t *key);

#endif
