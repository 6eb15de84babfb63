/* The smallest host: formats an image in ordinary memory, puts labels, and prints them back.
 *
 * hello [LABELS]       1; ends with 1 and a message where a call is refused */
#include <inttypes.h>
#include <stdio.h>
#include <stdlib.h>

#include "zitskvoze.h"

static _Alignas(64) uint8_t image[16 * ZKV_CHUNK_BYTES];       /* a real host maps persistent memory here */
static uint64_t table[4096];                                   /* room for 1,024 keys */
static zkv_record record;

#define LENT &record, image, sizeof image, table, 4096

/* Carries a begun call out to its end. A refusal is never passed over: what was refused is not in the register. */
static void run(zkv_report begun)
{
    int best = zkv_best_write_back();
    zkv_report r = zkv_finish(LENT, begun, zkv_write_back, zkv_store_fence, &best);
    if (r.kind == ZKV_REFUSED) {
        fprintf(stderr, "refused %" PRIu64 ": %s\n", r.first, zkv_sentence(r.first));
        exit(1);
    }
}

int main(int count, char **argument)
{
    uint64_t labels = count > 1 ? strtoull(argument[1], NULL, 10) : 1, start, length;
    run(zkv_format(LENT, ZKV_POWER_SMALL, 0, 0, 0, 0));
    run(zkv_open(LENT));
    for (uint64_t key = 4711; key < 4711 + labels; key++) {
        run(zkv_put(LENT, key, (const uint8_t *)"A+ 450 ml", 9));
        run(zkv_commit(LENT));
    }
    for (uint64_t key = 4711; key < 4711 + labels; key++) {
        if (zkv_look_up(LENT, key, &start, &length) != 0) {
            return 1;
        }
        fwrite(image + start, 1, length, stdout);
        putchar('\n');
    }
    return fflush(stdout) == EOF;
}
