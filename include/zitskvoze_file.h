/* A register's image in a file, for hosts on Linux: opened, locked, mapped, made durable, exchanged as a whole.
 *
 * The calls of zitskvoze.h know no file, and a host with a module of its own needs nothing of this. It is plain C, not
 * proved (host/image_file.c), and in the archive an object of its own; the program zkv works by it.
 *
 * A label put into a file, r being a zkv_report and table so many words:
 *     zkv_file_wait forever = {-1, NULL};
 *     const char *wrong = zkv_file_open(&f, "labels.img", ZKV_FILE_WRITE, forever);
 *     if (wrong == NULL) {
 *         r = zkv_open(&record, f.image, f.bytes, table, words);
 *         r = zkv_make_room(&record, f.image, f.bytes, table, words, zkv_file_flush, zkv_file_fence, &f);
 *         r = zkv_finish(&record, f.image, f.bytes, table, words, zkv_put(.., key, value, length),
 *                        zkv_file_flush, zkv_file_fence, &f);
 *         .. likewise zkv_commit; each answer is looked at
 *         wrong = zkv_file_confirm(&f);
 *     }
 *     zkv_file_close(&f);
 *
 * A function that answers text answers NULL where it is done, else what is wrong, without the file's name, in words
 * that hold until the thread's next call here. Nothing is printed here but by the handler of zkv_file_guard. Several
 * threads may be here at once, each with a zkv_file of its own. */
#ifndef ZITSKVOZE_FILE_H
#define ZITSKVOZE_FILE_H

#include "zitskvoze.h"

#ifdef __cplusplus
extern "C" {
#endif

/* The pages of 4,096 bytes of the longest image. */
enum { ZKV_FILE_PAGES = ZKV_CHUNKS_MAX * (ZKV_LARGE_CHUNK_BYTES / 4096) };

enum zkv_file_use {
    ZKV_FILE_READ,          /* a shared lock; the image is mapped to be read */
    ZKV_FILE_WRITE,         /* an exclusive lock; space is reserved for all of the file; mapped to be written */
    ZKV_FILE_REPLACE        /* an exclusive lock; the image is mapped to be read: another file is to take its name */
};

typedef struct zkv_file {
    uint8_t *image;         /* lend it to the calls; of 0 bytes where the file's length is none of an image */
    size_t bytes;
    const char *name;       /* as it was given: the host keeps it */
    int64_t length;         /* of the file, when the lock was got */
    /* The rest is this helper's own. */
    enum zkv_file_use use;
    int descriptor;         /* -1: not open */
    int how, by_pages;      /* the write-back; whether a fence syncs pages */
    uint8_t page[ZKV_FILE_PAGES];           /* 1: a line of it was flushed since the fence before */
    uint64_t device, inode;
    uint32_t owner, group, mode;
    char made[4096];        /* of a new file: the name that it was made under */
    char wanted[4096];      /* of a new file: the name that it gets, behind all symbolic links */
} zkv_file;

/* How to wait for a lock: so many seconds (below 0: as long as it takes); `notice`, if there is one, is told the name
 * after the first second. A wait that is needed has a timer of its own, which signals the waiting thread alone, blocked
 * or not: by the highest real-time signal below SIGRTMAX that was at its default at the first wait, and is kept. */
typedef struct zkv_file_wait {
    long seconds;
    void (*notice)(const char *name);
} zkv_file_wait;

/* For a program's start; it is nothing that the other functions need. From here on
 * - a store or load that the system has no page for (a full disk, a file that was cut) ends the program with a message,
 *   which names the file, and status 2. A SIGBUS outside the open images goes to the handler that the host had before;
 *   one that the host installs afterwards takes the place of this one;
 * - where the program ends so, or by SIGINT, SIGTERM or SIGHUP, every new file without its name is removed. Of these
 *   three only those at their default are changed, and the program still ends by them;
 * - a file that may not grow is an error and no signal (SIGXFSZ);
 * - descriptors 0 to 2 that are closed become ones that cannot be used, so that no file gets their number.
 * `program` is the name for the message, and must last. Answers 1, or 0 where it could not. */
int zkv_file_guard(const char *program);

/* Opens a regular file, waits for its lock, opens again if the name meanwhile is another file's, maps it, and makes all
 * that it holds durable: a process that was killed in a call may have left words that are not; after this it is as if
 * the power had been cut and every word had kept its latest value. Where it fails nothing is left open or locked:
 * zkv_file_close may follow, and need not. */
const char *zkv_file_open(zkv_file *f, const char *name, enum zkv_file_use use, zkv_file_wait wait);

/* The two functions for zkv_finish, with the zkv_file as their context: write-back of a line; a fence, which also syncs
 * the pages of the lines flushed since the fence before, where the file is not on persistent memory (MAP_SYNC). */
void zkv_file_flush(void *file, const uint8_t *line);
int zkv_file_fence(void *file);

/* A key table for an image of so many bytes, all zero, on huge pages where the system has them: without them half of an
 * opening's time is spent in getting the table's pages. `words` gets its length, which holds every key that the image
 * has room for; NULL where there is no memory. zkv_table_free takes both. */
uint64_t *zkv_table_new(size_t bytes, size_t *words);
void zkv_table_free(uint64_t *table, size_t words);

/* Makes a new file of so many bytes, all zero, under another name beside the one it is to have, locks it and maps it to
 * be written: for zkv_format. The lock stays until zkv_file_close, so that a host may format, take the name, open and
 * write on the same zkv_file. Where it fails nothing is left. */
const char *zkv_file_new(zkv_file *f, const char *name, size_t bytes);

/* Gives the new file its name, durably: in the place of `old`, which is open as ZKV_FILE_REPLACE and whose owner and
 * mode it takes, or where `old` is NULL only if the name is still nobody's. That the file is whole and durable, and
 * that its folder can be synced, is seen before; where it fails the name is as it was, and zkv_file_close removes the
 * file. Only where the folder cannot be synced again behind that does the file have its name: the text says so. */
const char *zkv_file_take_name(zkv_file *f, const zkv_file *old);

/* Before a host says that it is done: the file is as long as it was, and, where it was written, still the name's. */
const char *zkv_file_confirm(const zkv_file *f);

/* Unmaps and closes; a new file that has not got its name is removed. */
void zkv_file_close(zkv_file *f);

#ifdef __cplusplus
}
#endif

#endif
