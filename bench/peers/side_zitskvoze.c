/* The register: zkv_put and zkv_commit, each carried out by zkv_run; where it is full a chunk is chosen and cleaned,
 * and that is part of the put's time. */
#include <sys/mman.h>

#include "device.h"
#include "peers.h"
#include "zitskvoze.h"
#include "zitskvoze_file.h"

static zkv_file file;
static zkv_record record;
static uint64_t *table;
static size_t words;
static enum write_back how;

#define LENT &record, file.image, file.bytes, table, words

/* Memory is taken for persistent, as the other sides do: lines are written back, and no page is synced. */
static zkv_report finish(zkv_report r)
{
    for (; r.kind >= ZKV_BEGUN && r.kind <= ZKV_FENCE; r = zkv_run(LENT)) {
        if (r.kind == ZKV_FLUSH) {
            write_back_line(how, file.image + ZKV_LINE_BYTES * r.first);
        } else if (r.kind == ZKV_FENCE) {
            store_fence();
        }
    }
    return r;
}

static void start(const char *folder)
{
    how = best_write_back();
    need(zkv_file_new(&file, path_in(folder, "peers.zkv"), ZKV_CHUNKS_MAX * ZKV_CHUNK_BYTES) == NULL, "no file for the register");
    table = zkv_table_new(file.bytes, &words);
    need(table != NULL && finish(zkv_format(LENT, ZKV_POWER_SMALL, 0, 0, 0, 0)).kind == ZKV_END, "the register is not formatted");
    need(zkv_open(LENT).kind == ZKV_OPENED, "the register does not open");
}

static void clean_one(void)
{
    zkv_report r = zkv_choose(LENT);
    need(r.kind == ZKV_CHOSEN && finish(zkv_clean(LENT, r.first)).kind == ZKV_END, "the register is full");
}

static void put(const uint64_t *keys, size_t n, const uint8_t *value, size_t length)
{
    for (size_t i = 0; i < n; i++) {
        need(finish(zkv_put(LENT, keys[i], value, length)).kind == ZKV_END, "a put is refused");
    }
    zkv_report r = finish(zkv_commit(LENT));
    if (r.kind == ZKV_REFUSED && r.first == ZKV_NO_SPACE) {
        need(zkv_abandon(LENT).kind == ZKV_ABANDONED, "staged labels cannot be abandoned");
        clean_one();
        put(keys, n, value, length);
        return;
    }
    need(r.kind == ZKV_END, "a commit is refused");
}

static size_t look(uint64_t key, const uint8_t **value)
{
    uint64_t at, length;
    zkv_look_up(LENT, key, &at, &length);
    *value = file.image + at;
    return length;
}

static void stop(void)
{
    zkv_file_close(&file);
    zkv_table_free(table, words);
}

const struct side zitskvoze_side = {"zitskvoze", start, put, look, stop};
