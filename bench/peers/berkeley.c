/* Berkeley DB with transactions, locks and a log that is synced at each commit, over a B-tree. One process has it, so its regions are in that one's memory. */
#include "peer.h"

#include <db.h>
#include <stdlib.h>
#include <string.h>
#include <sys/stat.h>

enum { MOST_LOCKS = 20000 };

static DB_ENV *environment;
static DB_TXN *transaction;
static DB *table;
static DBT found;

static void check(int result) {
    if (result) fail("berkeley", db_strerror(result));
}

static DBT entry_of(struct bytes bytes) {
    DBT entry;
    memset(&entry, 0, sizeof entry);
    entry.data = (void *)bytes.at;
    entry.size = (u_int32_t)bytes.length;
    return entry;
}

void peer_open(const char *folder, long cache_bytes) {
    u_int32_t parts = DB_INIT_TXN | DB_INIT_LOG | DB_INIT_MPOOL | DB_INIT_LOCK;
    mkdir(folder, 0777);
    check(db_env_create(&environment, 0));
    check(environment->set_cachesize(environment, 0, (u_int32_t)cache_bytes, 1));
    check(environment->set_lk_max_locks(environment, MOST_LOCKS));
    check(environment->set_lk_max_objects(environment, MOST_LOCKS));
    check(environment->open(environment, folder, DB_CREATE | DB_PRIVATE | DB_RECOVER | parts, 0666));
    check(db_create(&table, environment, 0));
    check(table->set_pagesize(table, 4096));
    check(table->open(table, NULL, "store", NULL, DB_BTREE, DB_CREATE | DB_AUTO_COMMIT, 0666));
    found.flags = DB_DBT_REALLOC;
}

void peer_begin(void) { check(environment->txn_begin(environment, NULL, &transaction, 0)); }
void peer_commit(void) { check(transaction->commit(transaction, 0)); }
void peer_abort(void) { check(transaction->abort(transaction)); }

void peer_put(struct bytes key, struct bytes value) {
    DBT at = entry_of(key), what = entry_of(value);
    check(table->put(table, transaction, &at, &what, 0));
}

int peer_find(struct bytes key, struct bytes *value) {
    DBT at = entry_of(key);
    int result = table->get(table, transaction, &at, &found, 0);
    if (result == DB_NOTFOUND) return 0;
    check(result);
    *value = (struct bytes){found.data, found.size};
    return 1;
}

int peer_delete(struct bytes key) {
    DBT at = entry_of(key);
    int result = table->del(table, transaction, &at, 0);
    if (result == DB_NOTFOUND) return 0;
    check(result);
    return 1;
}

void peer_checkpoint(void) { check(environment->txn_checkpoint(environment, 0, 0, 0)); }

void peer_close(void) {
    check(table->close(table, 0));
    peer_checkpoint();
    check(environment->close(environment, 0));
    free(found.data);
}
