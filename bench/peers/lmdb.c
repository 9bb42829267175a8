/* LMDB as it comes: pages are copied at a change, and a commit is durable by a sync and a write of the root behind it, through a file that is opened for writes
 * which wait for the disk. It has no cache of its own: its pages are the system's. */
#include "peer.h"

#include <lmdb.h>
#include <sys/stat.h>

static MDB_env *environment;
static MDB_txn *transaction;
static MDB_dbi table;

static void check(int result) {
    if (result) fail("lmdb", mdb_strerror(result));
}

static MDB_val value_of(struct bytes bytes) {
    return (MDB_val){bytes.length, (void *)bytes.at};
}

void peer_open(const char *folder, long cache_bytes) {
    (void)cache_bytes;
    mkdir(folder, 0777);
    check(mdb_env_create(&environment));
    check(mdb_env_set_mapsize(environment, 1UL << 30));
    check(mdb_env_open(environment, folder, 0, 0666));
    peer_begin();
    check(mdb_dbi_open(transaction, NULL, 0, &table));
    peer_commit();
}

void peer_begin(void) { check(mdb_txn_begin(environment, NULL, 0, &transaction)); }
void peer_commit(void) { check(mdb_txn_commit(transaction)); }
void peer_abort(void) { mdb_txn_abort(transaction); }

void peer_put(struct bytes key, struct bytes value) {
    MDB_val at = value_of(key), what = value_of(value);
    check(mdb_put(transaction, table, &at, &what, 0));
}

int peer_find(struct bytes key, struct bytes *value) {
    MDB_val at = value_of(key), found;
    int result = mdb_get(transaction, table, &at, &found);
    if (result == MDB_NOTFOUND) return 0;
    check(result);
    *value = (struct bytes){found.mv_data, found.mv_size};
    return 1;
}

int peer_delete(struct bytes key) {
    MDB_val at = value_of(key);
    int result = mdb_del(transaction, table, &at, NULL);
    if (result == MDB_NOTFOUND) return 0;
    check(result);
    return 1;
}

void peer_checkpoint(void) {}
void peer_close(void) { mdb_env_close(environment); }
