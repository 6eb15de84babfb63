/* LMDB: one transaction a put or batch, synced at its commit as it is by default; look-ups in one read transaction. */
#include <lmdb.h>

#include "peers.h"

static MDB_env *env;
static MDB_dbi dbi;
static MDB_txn *reading;

static void start(const char *folder)
{
    MDB_txn *txn;
    need(mdb_env_create(&env) == 0 && mdb_env_set_mapsize(env, 256u << 20) == 0 &&
             mdb_env_open(env, path_in(folder, "peers.lmdb"), MDB_NOSUBDIR | MDB_NOLOCK, 0600) == 0 &&
             mdb_txn_begin(env, NULL, 0, &txn) == 0 && mdb_dbi_open(txn, NULL, MDB_INTEGERKEY | MDB_CREATE, &dbi) == 0 &&
             mdb_txn_commit(txn) == 0,
         "LMDB does not start");
    reading = NULL;
}

static void put(const uint64_t *keys, size_t n, const uint8_t *value, size_t length)
{
    MDB_txn *txn;
    if (reading != NULL) {
        mdb_txn_abort(reading);
        reading = NULL;
    }
    need(mdb_txn_begin(env, NULL, 0, &txn) == 0, "LMDB begins no transaction");
    for (size_t i = 0; i < n; i++) {
        uint64_t key = keys[i];
        MDB_val k = {sizeof key, &key}, v = {length, (void *)(uintptr_t)value};
        need(mdb_put(txn, dbi, &k, &v, 0) == 0, "LMDB refuses a put");
    }
    need(mdb_txn_commit(txn) == 0, "LMDB refuses a commit");
}

static size_t look(uint64_t key, const uint8_t **value)
{
    MDB_val k = {sizeof key, &key}, v = {0, NULL};
    need(reading != NULL || mdb_txn_begin(env, NULL, MDB_RDONLY, &reading) == 0, "LMDB begins no reading");
    if (mdb_get(reading, dbi, &k, &v) != 0) {
        return 0;
    }
    *value = v.mv_data;
    return v.mv_size;
}

static void stop(void)
{
    if (reading != NULL) {
        mdb_txn_abort(reading);
    }
    mdb_env_close(env);
}

const struct side lmdb_side = {"LMDB", start, put, look, stop};
