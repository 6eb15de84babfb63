/* What the library has beside the proved calls, in plain C over them: its version, the words of the refusals, the size of
 * an image's chunks, a begun call carried out to its end, a free chunk after an opening, and the write-back of lines on
 * this processor. See the end of zitskvoze.h. */
#include <string.h>

#include "device.h"

extern inline const char *zkv_sentence(uint64_t number);

const char *zkv_version(void)
{
    return ZKV_VERSION;
}

/* The header line: a map of the fields that follow, the chunks' count, station, centre and power where their bits stand,
 * zeros, and a word that makes the sum of all eight 0. */
uint64_t zkv_power(const uint8_t *image, size_t bytes)
{
    uint64_t word[8] = {0}, sum = 0, power = ZKV_POWER_SMALL;
    size_t fields = 0;
    if (bytes >= sizeof word) {
        memcpy(word, image, sizeof word);
    }
    for (size_t i = 0; i < 4; i++) {
        fields += word[0] >> i & 1;
    }
    if (word[0] >> 3 & 1) {
        power = word[fields];
    }
    if (power != ZKV_POWER_SMALL && power != ZKV_POWER_LARGE) {
        return 0;
    }
    for (size_t i = 0; i < 8; i++) {
        sum += word[i];
        if (i > fields && i < 7 && word[i] != 0) {
            return 0;
        }
    }
    bool right = word[0] % 2 == 1 && word[0] < 16 && sum == 0 && word[1] >= ZKV_CHUNKS_MIN && word[1] <= ZKV_CHUNKS_MAX &&
                 word[1] << power == bytes;
    return right ? power : 0;
}

zkv_report zkv_finish(zkv_record *record, uint8_t *image, size_t bytes, uint64_t *table, size_t words, zkv_report report,
                      void (*flush)(void *context, const uint8_t *line), int (*fence)(void *context), void *context)
{
    for (;;) {
        switch (report.kind) {
        case ZKV_BEGUN:
        case ZKV_STORE:
            break;
        case ZKV_FLUSH:
            if (report.first < bytes / ZKV_LINE_BYTES) {        /* of a record that was altered a line past the image */
                flush(context, image + ZKV_LINE_BYTES * report.first);
            }
            break;
        case ZKV_FENCE:
            if (fence(context) != 0) {
                return report;
            }
            break;
        default:
            return report;
        }
        report = zkv_run(record, image, bytes, table, words);
    }
}

static bool cannot_be_freed(zkv_report report)
{
    return report.kind == ZKV_REFUSED && (report.first == ZKV_NOT_CLEANABLE || report.first == ZKV_NO_SPACE);
}

/* The chunk that is chosen is enough for a host that keeps the rule; the others are for images from before. */
zkv_report zkv_make_room(zkv_record *record, uint8_t *image, size_t bytes, uint64_t *table, size_t words,
                         void (*flush)(void *context, const uint8_t *line), int (*fence)(void *context), void *context)
{
    if (zkv_free_chunks(image, bytes) > 0) {
        return (zkv_report){ZKV_IDLE, 0, 0};
    }
    zkv_report report = zkv_choose(record, image, bytes, table, words);
    if (report.kind == ZKV_CHOSEN) {
        report = zkv_clean(record, image, bytes, table, words, (size_t)report.first);
    }
    uint64_t power = zkv_power(image, bytes);
    size_t chunks = power != 0 ? bytes >> power : 0;
    for (size_t chunk = 1; cannot_be_freed(report) && chunk < chunks; chunk++) {
        report = zkv_clean(record, image, bytes, table, words, chunk);
    }
    return zkv_finish(record, image, bytes, table, words, report, flush, fence, context);
}

int zkv_best_write_back(void)
{
    return best_write_back();
}

void zkv_write_back(void *best, const uint8_t *line)
{
    write_back_line((enum write_back)*(const int *)best, line);
}

int zkv_store_fence(void *unused)
{
    (void)unused;
    store_fence();
    return 0;
}
