/* SQLite with a write-ahead log and a sync at each commit. Its log is checkpointed when it has 1,000 pages, as it comes, but where the environment has
 * WITHOUT_CHECKPOINTS. */
#include "peer.h"

#include <sqlite3.h>
#include <stdio.h>
#include <stdlib.h>
#include <sys/stat.h>

static sqlite3 *database;
static sqlite3_stmt *begins, *commits, *aborts, *puts_, *finds, *deletes;

static void check(int result) {
    if (result != SQLITE_OK && result != SQLITE_DONE && result != SQLITE_ROW) fail("sqlite", sqlite3_errmsg(database));
}

static void run(const char *text) {
    check(sqlite3_exec(database, text, NULL, NULL, NULL));
}

static sqlite3_stmt *prepare(const char *text) {
    sqlite3_stmt *made;
    check(sqlite3_prepare_v2(database, text, -1, &made, NULL));
    return made;
}

static int step(sqlite3_stmt *statement) {
    int result = sqlite3_step(statement);
    check(result);
    return result;
}

static void finish(sqlite3_stmt *statement) {
    check(sqlite3_reset(statement));
}

static void bind(sqlite3_stmt *statement, int place, struct bytes bytes) {
    check(sqlite3_bind_blob(statement, place, bytes.at, (int)bytes.length, SQLITE_STATIC));
}

void peer_open(const char *folder, long cache_bytes) {
    char text[4096];
    mkdir(folder, 0777);
    snprintf(text, sizeof text, "%s/store", folder);
    check(sqlite3_open(text, &database));
    snprintf(text, sizeof text, "pragma cache_size = -%ld", cache_bytes / 1024);
    run(text);
    run("pragma journal_mode = wal; pragma synchronous = full");
    if (getenv("WITHOUT_CHECKPOINTS")) run("pragma wal_autocheckpoint = 0");
    run("create table if not exists h (key blob primary key, value blob) without rowid");
    begins = prepare("begin immediate");
    commits = prepare("commit");
    aborts = prepare("rollback");
    puts_ = prepare("insert or replace into h values (?, ?)");
    finds = prepare("select value from h where key = ?");
    deletes = prepare("delete from h where key = ?");
}

void peer_begin(void) { step(begins), finish(begins); }
void peer_commit(void) { finish(finds), step(commits), finish(commits); }
void peer_abort(void) { finish(finds), step(aborts), finish(aborts); }

void peer_put(struct bytes key, struct bytes value) {
    bind(puts_, 1, key), bind(puts_, 2, value);
    step(puts_), finish(puts_);
}

int peer_find(struct bytes key, struct bytes *value) {
    finish(finds);
    bind(finds, 1, key);
    if (step(finds) != SQLITE_ROW) return 0;
    *value = (struct bytes){sqlite3_column_blob(finds, 0), (size_t)sqlite3_column_bytes(finds, 0)};
    return 1;
}

int peer_delete(struct bytes key) {
    bind(deletes, 1, key);
    step(deletes), finish(deletes);
    return sqlite3_changes(database) > 0;
}

void peer_checkpoint(void) { run("pragma wal_checkpoint(truncate)"); }

void peer_close(void) {
    sqlite3_stmt *all[] = {begins, commits, aborts, puts_, finds, deletes};
    for (size_t i = 0; i < sizeof all / sizeof *all; i++) sqlite3_finalize(all[i]);
    check(sqlite3_close(database));
}
