/* The floors: the stores, write-backs and fences of a commit into a log in plain C, with a plain hash as index: nothing
 * is checked, no space is found again, and nothing could be opened after a cut. */
#include <sys/mman.h>

#include "device.h"
#include "peers.h"

enum { WORDS = 1 << 21, SLOTS = 1 << 17, LINE_WORDS = 8 };

static uint64_t *log_words, keys_of[SLOTS], place_of[SLOTS], next_word;
static enum write_back how;

static void start(const char *folder)
{
    (void)folder;
    how = best_write_back();
    log_words = mmap(NULL, 8 * WORDS, PROT_READ | PROT_WRITE, MAP_PRIVATE | MAP_ANONYMOUS | MAP_POPULATE, -1, 0);
    need(log_words != MAP_FAILED, "no memory for the floor");
    next_word = LINE_WORDS;
    memset(place_of, 0, sizeof place_of);
}

static size_t slot_of(uint64_t key)
{
    size_t s = key * 0x9E3779B97F4A7C15u >> 47;
    while (place_of[s] != 0 && keys_of[s] != key) {
        s = (s + 1) % SLOTS;
    }
    return s;
}

static void put(const uint64_t *keys, size_t n, const uint8_t *value, size_t length)
{
    size_t size = 2 + (length + 7) / 8;
    if (next_word + n * size + LINE_WORDS > WORDS) {
        next_word = LINE_WORDS;
    }
    volatile uint64_t *w = log_words;
    uint64_t first = next_word, at = first;
    for (size_t i = 0; i < n; i++) {
        w[at] = 1 | (uint64_t)length << 24;
        w[at + 1] = keys[i];
        for (size_t j = 0; j < size - 2; j++) {
            uint64_t x;
            memcpy(&x, value + 8 * j, 8);
            w[at + 2 + j] = x;
        }
        size_t s = slot_of(keys[i]);
        keys_of[s] = keys[i];
        place_of[s] = at;
        at += size;
    }
    while (at % LINE_WORDS != 0) {
        w[at++] = 0;
    }
    for (uint64_t line = first; line < at; line += LINE_WORDS) {
        write_back_line(how, log_words + line);
    }
    store_fence();
    w[0] = at;
    write_back_line(how, log_words);
    store_fence();
    next_word = at;
}

static size_t look(uint64_t key, const uint8_t **value)
{
    uint64_t at = place_of[slot_of(key)];
    *value = (const uint8_t *)(log_words + at + 2);
    return log_words[at] >> 24;
}

static void stop(void)
{
    munmap(log_words, 8 * WORDS);
}

const struct side floor_side = {"plain C", start, put, look, stop};
