/* A host in C99 that makes every call of the headers, built by tests/hosts.sh with all warnings.
 *
 * host FILE        FILE must not exist: a register is made in it; exit status 1 and a message at the first thing
 *                  that is not as the headers say */
#include <stdio.h>
#include <stdlib.h>
#include <string.h>

#include "zitskvoze.h"
#include "zitskvoze_file.h"

enum { CHUNKS = 4, WORDS = 1024 };

static uint64_t table[WORDS];
static zkv_record record;
static zkv_file file;
static int fences_to_do = -1;           /* then one fails; below 0: none does */

#define LENT &record, file.image, file.bytes, table, WORDS
#define HOLD(what)                                                                      \
    do {                                                                                \
        if (!(what)) {                                                                  \
            fprintf(stderr, "host: line %d: not so: %s\n", __LINE__, #what);            \
            exit(1);                                                                    \
        }                                                                               \
    } while (0)

static int fence(void *context)
{
    return fences_to_do >= 0 && fences_to_do-- == 0 ? -1 : zkv_file_fence(context);
}

static zkv_report finish(zkv_report begun)
{
    return zkv_finish(LENT, begun, zkv_file_flush, fence, &file);
}

static int ends(zkv_report begun)
{
    return finish(begun).kind == ZKV_END;
}

static void make(const char *name)
{
    HOLD(zkv_file_new(&file, name, CHUNKS * ZKV_CHUNK_BYTES) == NULL);
    HOLD(ends(zkv_format(LENT, ZKV_POWER_SMALL, 1, 7, 0, 0)));
    HOLD(zkv_file_take_name(&file, NULL) == NULL);
    zkv_file_close(&file);
}

static void write_labels(void)
{
    const uint8_t label[] = "A+ 450 ml";
    uint64_t start, length, count, version, block, keys[2] = {0, 0};
    HOLD(finish(zkv_open(LENT)).kind == ZKV_OPENED);
    HOLD(zkv_make_room(LENT, zkv_file_flush, fence, &file).kind == ZKV_IDLE);
    HOLD(finish(zkv_commit(LENT)).first == ZKV_NOTHING_STAGED);
    HOLD(ends(zkv_put(LENT, 4711, label, 9)) && zkv_abandon(LENT).kind == ZKV_ABANDONED);
    HOLD(ends(zkv_put(LENT, 4711, label, 9)) && ends(zkv_put(LENT, 5, label, 0)) && ends(zkv_commit(LENT)));
    HOLD(zkv_look_up(LENT, 4711, &start, &length) == 0 && length == 9 && memcmp(file.image + start, label, 9) == 0);
    HOLD(zkv_list_keys(LENT, keys, 2, &count) == 0 && count == 2 && keys[0] == 5 && keys[1] == 4711);
    HOLD(zkv_list_key(LENT, 4711, &version, &length, &block) == 0 && version == 1 && length == 9 && block == 0);
    HOLD(ends(zkv_delete(LENT, 5)) && ends(zkv_commit(LENT)) && zkv_look_up(LENT, 5, &start, &length) == ZKV_KEY_ABSENT);
    HOLD(zkv_look_up_version(LENT, 4711, &start, &length, &version) == 0 && length == 9 && version == 1);
    HOLD(zkv_look_up_version(LENT, 5, &start, &length, &version) == ZKV_KEY_ABSENT && version == 0);
    HOLD(zkv_put_at(LENT, 4711, label, 9, 0).first == ZKV_OTHER_VERSION && zkv_put_at(LENT, 5, label, 1, 0).first == ZKV_OTHER_VERSION);
    HOLD(zkv_delete_at(LENT, 4711, 2).first == ZKV_OTHER_VERSION && zkv_delete_at(LENT, 5, 2).first == ZKV_KEY_ABSENT);
    HOLD(ends(zkv_put_at(LENT, 4711, label, 9, 1)) && zkv_put_at(LENT, 4711, label, 9, 1).first == ZKV_OTHER_VERSION);
    HOLD(ends(zkv_delete_at(LENT, 4711, 2)) && ends(zkv_put_at(LENT, 6, label, 9, 0)) && zkv_abandon(LENT).kind == ZKV_ABANDONED);
    HOLD(zkv_keys(&record) == 2 && zkv_free_chunks(file.image, file.bytes) == 2 && zkv_lines_used(file.image, file.bytes) == 2);
}

/* What is asked of chunks, entries and header, of the labels above: a put, an empty put and its delete in one chunk. */
static void look_inside(void)
{
    enum { ROOM = 3 * ZKV_ENTRY_WORDS - 1 };
    uint64_t number = 1, entry[ROOM];
    entry[ROOM - 1] = 99;
    zkv_chunk_row row = zkv_chunk(LENT, 1);
    zkv_key_entry e = zkv_entry(file.image, file.bytes, 5, 0);
    HOLD(row.refused == 0 && row.role == ZKV_LOG_CHUNK && row.size == 2 && row.live == 1 && row.deletes == 1 && row.superseded == 1);
    HOLD(zkv_chunk(LENT, 2).role == ZKV_FREE_CHUNK && zkv_chunk(LENT, CHUNKS).refused == ZKV_NOT_CLEANABLE);
    HOLD(zkv_empty_chunk(LENT, 0).first == ZKV_NOT_CLEANABLE);
    HOLD(e.found == 1 && e.op == 1 && e.version == 1 && e.block == 0 && e.field == 0 && e.chosen == 0);
    e = zkv_entry(file.image, file.bytes, 5, (size_t)e.place + 1);
    HOLD(e.found == 1 && e.op == 2 && e.version == 2 && e.chosen == 1);
    HOLD(zkv_entry(file.image, file.bytes, 5, (size_t)e.place + 1).found == 0);
    HOLD(zkv_entries(file.image, file.bytes, 5, 0, entry, ROOM) == 2 && entry[ROOM - 1] == 99);
    HOLD(entry[ZKV_ENTRY_OP] == 1 && entry[ZKV_ENTRY_VERSION] == 1 && entry[ZKV_ENTRY_CHOSEN] == 0);
    HOLD(entry[ZKV_ENTRY_WORDS + ZKV_ENTRY_PLACE] == e.place && entry[ZKV_ENTRY_WORDS + ZKV_ENTRY_CHOSEN] == 1);
    HOLD(zkv_entries(file.image, file.bytes, 5, (size_t)e.place, entry, 0) == 1);
    HOLD(zkv_station(file.image, file.bytes, &number) == 1 && number == 7);
    HOLD(zkv_centre(file.image, file.bytes, &number) == 0 && number == 0);
    HOLD(zkv_fault(file.image, file.bytes).refusal == 0);
}

/* A fence that failed leaves the call unfinished: no other can be begun, and look-up shows the register before it, or,
 * where it was the last fence, the one that it makes. With its report the call goes on. Reports that ask for nothing go
 * through. */
static void write_with_trouble(void)
{
    static const uint64_t through[] = {ZKV_REFUSED, ZKV_END, ZKV_IDLE, ZKV_OPENED, ZKV_ABANDONED, ZKV_CHOSEN, ZKV_PART, 99};
    uint64_t start, length;
    size_t i;
    for (i = 0; i < sizeof through / sizeof *through; i++) {
        zkv_report given = {0, 3, 4}, answered;
        given.kind = through[i];
        answered = finish(given);
        HOLD(answered.kind == given.kind && answered.first == 3 && answered.second == 4);
    }
    HOLD(ends(zkv_put(LENT, 6, (const uint8_t *)"B", 1)));
    fences_to_do = 0;
    zkv_report stopped = finish(zkv_commit(LENT));
    HOLD(stopped.kind == ZKV_FENCE && zkv_commit(LENT).first == ZKV_UNFINISHED);
    HOLD(zkv_look_up(LENT, 6, &start, &length) == ZKV_KEY_ABSENT && zkv_look_up(LENT, 4711, &start, &length) == 0 && length == 9);
    fences_to_do = 1;
    stopped = finish(stopped);
    HOLD(stopped.kind == ZKV_FENCE && zkv_commit(LENT).first == ZKV_UNFINISHED);
    HOLD(zkv_look_up(LENT, 6, &start, &length) == 0 && length == 1);
    HOLD(ends(stopped) && zkv_look_up(LENT, 6, &start, &length) == 0 && length == 1);
}

/* The highest version that the entries of a key have, 0 where it has none: what a put of an absent key names. */
static uint64_t version_of(uint64_t key)
{
    uint64_t entry[8 * ZKV_ENTRY_WORDS], highest = 0;
    size_t i, count = zkv_entries(file.image, file.bytes, key, 0, entry, sizeof entry / sizeof *entry);
    HOLD(count <= 8);
    for (i = 0; i < count; i++) {
        uint64_t version = entry[i * ZKV_ENTRY_WORDS + ZKV_ENTRY_VERSION];
        highest = version > highest ? version : highest;
    }
    return highest;
}

/* Two windows look the same label up, and both put it for its version: the second looks again. The same while the
 * first one's item is only staged: the second leaves it alone until it is committed. Then a deleted key. */
static void two_windows(void)
{
    const uint8_t label[] = "O+ 450 ml";
    uint64_t start, length, ours, theirs;
    HOLD(zkv_look_up_version(LENT, 4711, &start, &length, &ours) == 0 && ours == version_of(4711));
    theirs = ours;
    HOLD(ends(zkv_put_at(LENT, 4711, label, 2, theirs)) && ends(zkv_commit(LENT)));
    HOLD(zkv_put_at(LENT, 4711, label, 9, ours).first == ZKV_OTHER_VERSION && zkv_commit(LENT).first == ZKV_NOTHING_STAGED);
    HOLD(zkv_look_up_version(LENT, 4711, &start, &length, &ours) == 0 && ours == theirs + 1 && length == 2);
    HOLD(ends(zkv_put_at(LENT, 4711, label, 9, ours)) && ends(zkv_commit(LENT)) && version_of(4711) == ours + 1);
    theirs = ++ours;
    HOLD(ends(zkv_put_at(LENT, 4711, label, 3, theirs)) && zkv_put_at(LENT, 4711, label, 9, ours).first == ZKV_OTHER_VERSION);
    HOLD(zkv_look_up_version(LENT, 4711, &start, &length, &ours) == 0 && ours == theirs && length == 9);
    HOLD(zkv_put_at(LENT, 4711, label, 9, ours).first == ZKV_OTHER_VERSION && ends(zkv_commit(LENT)));
    HOLD(zkv_look_up_version(LENT, 4711, &start, &length, &ours) == 0 && ours == theirs + 1 && length == 3);
    HOLD(ends(zkv_put_at(LENT, 4711, label, 9, ours)) && ends(zkv_commit(LENT)) && version_of(4711) == ours + 1);
    HOLD(version_of(5) == 2 && zkv_put_at(LENT, 5, label, 9, 0).first == ZKV_OTHER_VERSION);
    HOLD(ends(zkv_put_at(LENT, 5, label, 9, 2)) && zkv_abandon(LENT).kind == ZKV_ABANDONED);
}

/* The cleaning has dropped the entries of key 5, which is unknown now; a present key has its version still. */
static void versions_after_clean(void)
{
    uint64_t start, length, version;
    HOLD(version_of(5) == 0 && zkv_put_at(LENT, 5, (const uint8_t *)"B", 1, 2).first == ZKV_OTHER_VERSION);
    HOLD(ends(zkv_put_at(LENT, 5, (const uint8_t *)"B", 1, 0)) && zkv_abandon(LENT).kind == ZKV_ABANDONED);
    HOLD(zkv_look_up_version(LENT, 4711, &start, &length, &version) == 0 && version == 5 && length == 9);
}

/* By steps and by runs, as a host does it that needs more than zkv_finish; then by the two functions for memory. */
static void clean(void)
{
    int best = zkv_best_write_back(), steps = 0;
    zkv_report chosen = zkv_choose(LENT), r;
    HOLD(chosen.kind == ZKV_CHOSEN);
    for (r = zkv_clean(LENT, (size_t)chosen.first); r.kind != ZKV_END && steps < 4; steps++) {
        r = steps < 2 ? zkv_step(LENT) : zkv_run(LENT);
        HOLD(r.kind == ZKV_STORE || r.kind == ZKV_FLUSH || r.kind == ZKV_FENCE);
    }
    HOLD(zkv_finish(LENT, r, zkv_write_back, zkv_store_fence, &best).kind == ZKV_END && zkv_run(LENT).kind == ZKV_IDLE);
}

/* Tables for images of several lengths: four words for each of the shortest entries, up to the most that are used. */
static void tables(void)
{
    size_t bytes[4] = {0, CHUNKS * ZKV_CHUNK_BYTES, ZKV_CHUNKS_MAX * ZKV_CHUNK_BYTES, ZKV_CHUNKS_MAX * ZKV_LARGE_CHUNK_BYTES};
    size_t expected[4] = {0, CHUNKS * 1024, ZKV_TABLE_WORDS_MAX, ZKV_TABLE_WORDS_MAX};
    size_t words, i, j;
    for (i = 0; i < 4; i++) {
        uint64_t *made = zkv_table_new(bytes[i], &words);
        HOLD(made != NULL && words == expected[i]);
        for (j = 0; j < words; j++) {
            HOLD(made[j] == 0);
            made[j] = 1;
        }
        zkv_table_free(made, words);
    }
    zkv_table_free(NULL, 0);
}

/* A register with large chunks in a file beside the other: its size is told by the header, and its values are longer. */
static void large_chunks(const char *name, zkv_file_wait at_once)
{
    static uint8_t value[ZKV_LARGE_VALUE_MAX + 1];
    uint64_t start, length, header[8];
    size_t i, w;
    for (i = 0; i < sizeof value; i++) {
        value[i] = (uint8_t)(i * 7 + i / 256);
    }
    remove(name);
    HOLD(zkv_file_new(&file, name, 5 * ZKV_LARGE_CHUNK_BYTES) == NULL);
    HOLD(zkv_power(file.image, file.bytes) == 0);
    HOLD(zkv_format(LENT, 13, 0, 0, 0, 0).first == ZKV_IMAGE_LENGTH && zkv_format(LENT, 0, 0, 0, 0, 0).first == ZKV_IMAGE_LENGTH);
    HOLD(ends(zkv_format(LENT, ZKV_POWER_SMALL, 0, 0, 0, 0)) && zkv_power(file.image, file.bytes) == ZKV_POWER_SMALL);
    HOLD(ends(zkv_format(LENT, ZKV_POWER_LARGE, 0, 0, 1, 8)) && zkv_power(file.image, file.bytes) == ZKV_POWER_LARGE);
    HOLD(zkv_file_take_name(&file, NULL) == NULL);
    zkv_file_close(&file);
    HOLD(zkv_file_open(&file, name, ZKV_FILE_WRITE, at_once) == NULL && file.bytes == 5 * ZKV_LARGE_CHUNK_BYTES);
    HOLD(zkv_open(LENT).kind == ZKV_OPENED && zkv_free_chunks(file.image, file.bytes) == 4);
    HOLD(zkv_put(LENT, 1, value, ZKV_LARGE_VALUE_MAX + 1).first == ZKV_TOO_LONG);
    HOLD(ends(zkv_put(LENT, 1, value, 60000)) && ends(zkv_put(LENT, 2, value + 1, 5)) && ends(zkv_commit(LENT)));
    HOLD(zkv_look_up(LENT, 1, &start, &length) == 0 && length == 60000 && memcmp(file.image + start, value, 60000) == 0);
    HOLD(zkv_look_up(LENT, 2, &start, &length) == 0 && length == 5 && memcmp(file.image + start, value + 1, 5) == 0);
    HOLD(zkv_lines_used(file.image, file.bytes) == 1 && zkv_free_chunks(file.image, file.bytes) == 2);
    HOLD(zkv_entry(file.image, file.bytes, 1, 0).field % 256 == 0 && zkv_entry(file.image, file.bytes, 2, 0).found == 1);
    HOLD(zkv_centre(file.image, file.bytes, &start) == 1 && start == 8 && zkv_station(file.image, file.bytes, &start) == 0);
    HOLD(zkv_fault(file.image, file.bytes).refusal == 0);
    /* Where a word of the header is another, zkv_power answers 0 and an opening is refused. */
    memcpy(header, file.image, sizeof header);
    for (w = 0; w < 8; w++) {
        for (i = 0; i < 64; i++) {
            uint64_t other = header[w] ^ (uint64_t)1 << i;
            memcpy(file.image + 8 * w, &other, 8);
            HOLD(zkv_power(file.image, file.bytes) == 0 && zkv_fault(file.image, file.bytes).refusal == ZKV_NOT_OPEN);
        }
        memcpy(file.image + 8 * w, &header[w], 8);
    }
    HOLD(zkv_power(file.image, file.bytes) == ZKV_POWER_LARGE && zkv_power(file.image, file.bytes - ZKV_LARGE_CHUNK_BYTES) == 0);
    HOLD(zkv_power(file.image, 63) == 0 && zkv_power(file.image, 0) == 0);
    HOLD(zkv_open(LENT).kind == ZKV_OPENED && zkv_make_room(LENT, zkv_file_flush, fence, &file).kind == ZKV_IDLE);
    HOLD(zkv_file_confirm(&file) == NULL);
    zkv_file_close(&file);
}

int main(int count, char **argument)
{
    char beside[4200];
    zkv_file_wait at_once = {0, NULL};
    HOLD(count == 2 && zkv_file_guard("host"));
    HOLD(strcmp(zkv_version(), ZKV_VERSION) == 0 && strcmp(zkv_sentence(ZKV_KEY_ABSENT), "the key is absent") == 0);
    tables();
    make(argument[1]);
    HOLD(zkv_file_new(&file, argument[1], CHUNKS * ZKV_CHUNK_BYTES) == NULL && zkv_file_take_name(&file, NULL) != NULL);
    zkv_file_close(&file);
    HOLD(zkv_file_open(&file, argument[1], ZKV_FILE_WRITE, at_once) == NULL);
    HOLD(file.bytes == CHUNKS * ZKV_CHUNK_BYTES && file.length == CHUNKS * ZKV_CHUNK_BYTES);
    write_labels();
    look_inside();
    write_with_trouble();
    two_windows();
    clean();
    versions_after_clean();
    HOLD(zkv_file_confirm(&file) == NULL);
    zkv_file_close(&file);
    snprintf(beside, sizeof beside, "%s.large", argument[1]);
    large_chunks(beside, at_once);
    return 0;
}
