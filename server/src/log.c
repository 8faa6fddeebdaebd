#include "log.h"

#include "disk.h"
#include "log_database.h"

#include <stdlib.h>
#include <string.h>

enum { BUSY_MILLISECONDS = 10000, TRIM_ROWS = 1000 };

static sqlite3 *db;
static sqlite3_stmt *begin, *commit, *insert, *set_tail, *set_name, *trim;
static struct stand stand;
static uint64_t wal_pages;

static const char TABLES[] =
    "CREATE TABLE head(one INTEGER PRIMARY KEY CHECK(one = 1), format INTEGER, version INTEGER,"
    " most_names INTEGER, once_clients INTEGER, once_window INTEGER, handlers BLOB, seal BLOB,"
    " is_copy INTEGER);"
    "CREATE TABLE log(position INTEGER PRIMARY KEY, line TEXT, reply INTEGER, chain BLOB,"
    " client TEXT, number INTEGER, asked INTEGER, now INTEGER);"
    "CREATE TABLE tail(one INTEGER PRIMARY KEY CHECK(one = 1), position INTEGER, chain BLOB);"
    "CREATE TABLE snapshot(one INTEGER PRIMARY KEY CHECK(one = 1), position INTEGER, chain BLOB,"
    " sum BLOB);";

sqlite3 *log_database(void) { return db; }

/* Before the first request: what fails refuses the data. */
void log_must(int status) {
    if (status != SQLITE_OK && status != SQLITE_DONE && status != SQLITE_ROW) {
        give_up(STATUS_DIFFERS, "the data can't be read: %s", sqlite3_errmsg(db));
    }
}

void log_do(const char *words) { log_must(sqlite3_exec(db, words, NULL, NULL, NULL)); }

sqlite3_stmt *log_prepare(const char *words) {
    sqlite3_stmt *made = NULL;
    log_must(sqlite3_prepare_v3(db, words, -1, SQLITE_PREPARE_PERSISTENT, &made, NULL));
    return made;
}

static int count_pages(void *with, sqlite3 *of, const char *name, int pages) {
    (void)with, (void)of, (void)name;
    wal_pages = (uint64_t)pages;
    return SQLITE_OK;
}

bool log_open(const char *path, bool may_make) {
    int flags = SQLITE_OPEN_READWRITE | (may_make ? SQLITE_OPEN_CREATE : 0);
    if (sqlite3_open_v2(path, &db, flags, NULL) != SQLITE_OK) {
        give_up(STATUS_NO_FILE, "%s can't be opened", path);
    }
    sqlite3_busy_timeout(db, BUSY_MILLISECONDS);
    sqlite3_stmt *mode = log_prepare("PRAGMA journal_mode=WAL");
    log_must(sqlite3_step(mode));
    const char *is = (const char *)sqlite3_column_text(mode, 0);
    if (is == NULL || strcmp(is, "wal") != 0) give_up(STATUS_NO_FILE, "%s can't have a WAL", path);
    sqlite3_finalize(mode);
    log_do("PRAGMA synchronous=FULL");
    sqlite3_wal_hook(db, count_pages, NULL);
    sqlite3_stmt *has = log_prepare("SELECT count(*) FROM sqlite_master");
    log_must(sqlite3_step(has));
    bool there = sqlite3_column_int(has, 0) > 0;
    sqlite3_finalize(has);
    return there;
}

static void bind_name(sqlite3_stmt *statement, const struct named *named) {
    sqlite3_bind_int64(statement, 1, (sqlite3_int64)named->stand.position);
    sqlite3_bind_blob(statement, 2, named->stand.chain, CHAIN_SIZE, SQLITE_STATIC);
    sqlite3_bind_blob(statement, 3, named->sum, SUM_SIZE, SQLITE_STATIC);
}

void log_create(const struct head *head, const struct named *named) {
    log_do("BEGIN IMMEDIATE");
    log_do(TABLES);
    sqlite3_stmt *add = log_prepare("INSERT INTO head VALUES(1, 1, ?1, ?2, ?3, ?4, ?5, ?6, 0)");
    sqlite3_bind_int64(add, 1, head->version);
    sqlite3_bind_int64(add, 2, head->most_names);
    sqlite3_bind_int64(add, 3, (sqlite3_int64)head->once_clients);
    sqlite3_bind_int64(add, 4, (sqlite3_int64)head->once_window);
    sqlite3_bind_blob(add, 5, head->handlers.at, (int)head->handlers.size, SQLITE_STATIC);
    sqlite3_bind_blob(add, 6, head->seal, CHAIN_SIZE, SQLITE_STATIC);
    log_must(sqlite3_step(add));
    sqlite3_finalize(add);
    add = log_prepare("INSERT INTO tail VALUES(1, ?2, ?1)");
    sqlite3_bind_blob(add, 1, head->seal, CHAIN_SIZE, SQLITE_STATIC);
    sqlite3_bind_int64(add, 2, named == NULL ? 0 : (sqlite3_int64)named->stand.position);
    log_must(sqlite3_step(add));
    sqlite3_finalize(add);
    if (named != NULL) {
        add = log_prepare("INSERT INTO snapshot VALUES(1, ?1, ?2, ?3)");
        bind_name(add, named);
        log_must(sqlite3_step(add));
        sqlite3_finalize(add);
    }
    log_do("COMMIT");
    const char *fault = disk_sync_folder(sqlite3_db_filename(db, "main"));
    if (fault != NULL) give_up(STATUS_LOG_FAULT, "%s", fault);
}

/* What a killed process left may have been read, and not be on the disk: so all is synced before
 * anybody is answered, and before a file is removed. */
static void sync_all(void) {
    if (sqlite3_wal_checkpoint_v2(db, NULL, SQLITE_CHECKPOINT_TRUNCATE, NULL, NULL) != SQLITE_OK) {
        give_up(STATUS_LOG_FAULT, "the log can't be synced: %s", sqlite3_errmsg(db));
    }
}

void log_begin(const struct stand *from) {
    stand = *from;
    sync_all();
    begin = log_prepare("BEGIN IMMEDIATE");
    commit = log_prepare("COMMIT");
    insert = log_prepare("INSERT INTO log VALUES(?1, ?2, ?3, ?4, ?5, ?6, ?7, ?8)");
    set_tail = log_prepare("UPDATE tail SET position = ?1, chain = ?2");
    set_name = log_prepare("INSERT OR REPLACE INTO snapshot VALUES(1, ?1, ?2, ?3)");
    trim = log_prepare("DELETE FROM log WHERE position <= min(?1,"
                       " (SELECT min(position) FROM log) + ?2)");
}

struct stand log_stand(void) {
    return stand;
}

/* Runs a prepared statement that gives no rows. */
static bool run(sqlite3_stmt *statement) {
    bool fine = sqlite3_step(statement) == SQLITE_DONE;
    return sqlite3_reset(statement) == SQLITE_OK && fine;
}

static bool insert_row(const struct row *row, const struct batch *batch) {
    const uint8_t *line = batch->text.at + row->line, *client = batch->text.at + row->client;
    chain_row(stand.chain, row, line, client);
    stand.position = row->position;
    sqlite3_clear_bindings(insert);
    sqlite3_bind_int64(insert, 1, (sqlite3_int64)row->position);
    sqlite3_bind_text(insert, 2, (const char *)line, (int)row->line_size, SQLITE_STATIC);
    sqlite3_bind_int64(insert, 3, (sqlite3_int64)row->reply);
    sqlite3_bind_blob(insert, 4, stand.chain, CHAIN_SIZE, SQLITE_STATIC);
    if (row->once) {
        sqlite3_bind_text(insert, 5, (const char *)client, (int)row->client_size, SQLITE_STATIC);
        sqlite3_bind_int64(insert, 6, (sqlite3_int64)row->number);
        sqlite3_bind_int64(insert, 7, (sqlite3_int64)row->asked);
    }
    if (row->has_now) sqlite3_bind_int64(insert, 8, (sqlite3_int64)row->now);
    return run(insert);
}

static bool insert_rows(const struct batch *batch) {
    for (size_t i = 0; i < batch->count; i++) {
        if (!insert_row(&batch->rows[i], batch)) return false;
    }
    sqlite3_bind_int64(set_tail, 1, (sqlite3_int64)stand.position);
    sqlite3_bind_blob(set_tail, 2, stand.chain, CHAIN_SIZE, SQLITE_STATIC);
    return batch->count == 0 || run(set_tail);
}

static bool name_snapshot(const struct named *named) {
    bind_name(set_name, named);
    return run(set_name);
}

static bool trim_rows(struct work *work) {
    sqlite3_bind_int64(trim, 1, (sqlite3_int64)work->trim);
    sqlite3_bind_int64(trim, 2, TRIM_ROWS);
    if (!run(trim)) return false;
    work->more = sqlite3_changes(db) >= TRIM_ROWS;
    return true;
}

const char *log_commit(struct work *work) {
    bool fine = run(begin) && insert_rows(work->rows);
    if (fine && work->name != NULL) fine = name_snapshot(work->name);
    if (fine && work->trim > 0) fine = trim_rows(work);
    return fine && run(commit) ? NULL : sqlite3_errmsg(db);
}

bool log_is_long(uint64_t pages) { return wal_pages >= pages; }

/* SQLite would do this within a commit, and not tell if it failed. */
const char *log_checkpoint(void) {
    wal_pages = 0;
    int status = sqlite3_wal_checkpoint_v2(db, NULL, SQLITE_CHECKPOINT_PASSIVE, NULL, NULL);
    return status == SQLITE_OK || status == SQLITE_BUSY ? NULL : sqlite3_errmsg(db);
}

void log_close(void) {
    sqlite3_stmt **all[] = { &begin, &commit, &insert, &set_tail, &set_name, &trim };
    for (size_t i = 0; i < sizeof all / sizeof *all; i++) {
        sqlite3_finalize(*all[i]);
        *all[i] = NULL;
    }
    sqlite3_close(db);
}
