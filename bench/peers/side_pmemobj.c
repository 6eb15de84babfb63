/* libpmemobj: a hash of object numbers in the pool's root; a put or batch is one transaction that makes new objects and
 * frees those before. Run with PMEM_IS_PMEM_FORCE=1, so that lines are written back and no page is synced. */
#include <libpmemobj.h>

#include "peers.h"

enum { SLOTS = 1 << 17 };

struct held {
    uint64_t length;
    uint8_t bytes[];
};

struct slot {
    uint64_t key;
    PMEMoid held;
};

struct root {
    struct slot slot[SLOTS];
};

static PMEMobjpool *pool;
static struct root *root;

static void start(const char *folder)
{
    pool = pmemobj_create(path_in(folder, "peers.pmemobj"), "peers", 256u << 20, 0600);
    need(pool != NULL, pmemobj_errormsg());
    PMEMoid r = pmemobj_root(pool, sizeof(struct root));
    need(!OID_IS_NULL(r), pmemobj_errormsg());
    root = pmemobj_direct(r);
}

static struct slot *slot_of(uint64_t key)
{
    size_t s = key * 0x9E3779B97F4A7C15u >> 47;
    while (!OID_IS_NULL(root->slot[s].held) && root->slot[s].key != key) {
        s = (s + 1) % SLOTS;
    }
    return &root->slot[s];
}

static void put(const uint64_t *keys, size_t n, const uint8_t *value, size_t length)
{
    volatile int done = 0;
    TX_BEGIN(pool) {
        for (size_t i = 0; i < n; i++) {
            struct slot *slot = slot_of(keys[i]);
            PMEMoid made = pmemobj_tx_alloc(sizeof(struct held) + length, 1);
            struct held *h = pmemobj_direct(made);
            h->length = length;
            memcpy(h->bytes, value, length);
            pmemobj_tx_add_range_direct(slot, sizeof *slot);
            if (!OID_IS_NULL(slot->held)) {
                pmemobj_tx_free(slot->held);
            }
            slot->key = keys[i];
            slot->held = made;
        }
    } TX_ONCOMMIT {
        done = 1;
    } TX_END
    need(done, "libpmemobj refuses a transaction");
}

static size_t look(uint64_t key, const uint8_t **value)
{
    struct slot *slot = slot_of(key);
    if (OID_IS_NULL(slot->held)) {
        return 0;
    }
    const struct held *h = pmemobj_direct(slot->held);
    *value = h->bytes;
    return h->length;
}

static void stop(void)
{
    pmemobj_close(pool);
}

const struct side pmemobj_side = {"libpmemobj", start, put, look, stop};
