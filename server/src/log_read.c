/* Reading the log at a start, checksums, and copies of it. */
#include "log.h"
#include "log_database.h"

#include <stdio.h>
#include <stdlib.h>
#include <string.h>

void batch_add(struct batch *batch, const struct row *row, const char *line, const char *client) {
    if (batch->count == batch->room) {
        batch->room = 2 * batch->room + 64;
        batch->rows = realloc(batch->rows, batch->room * sizeof *batch->rows);
        if (batch->rows == NULL) give_up(STATUS_MEMORY, "no memory");
    }
    struct row *added = &batch->rows[batch->count++];
    *added = *row;
    added->line = batch->text.size;
    bytes_put(&batch->text, line, row->line_size);
    added->client = batch->text.size;
    bytes_put(&batch->text, client, row->client_size);
}

void batch_clear(struct batch *batch) { batch->count = batch->text.size = 0; }

void chain_row(uint8_t chain[CHAIN_SIZE], const struct row *row, const uint8_t *line,
    const uint8_t *client) {
    static _Thread_local struct bytes text;
    uint64_t numbers[] = { row->position, row->reply, row->number, row->asked, row->now,
        row->once + 2 * row->has_now, row->client_size };
    uint8_t sum[SUM_SIZE];
    text.size = 0;
    bytes_put(&text, chain, CHAIN_SIZE);
    bytes_put(&text, numbers, sizeof numbers);
    bytes_put(&text, client, row->client_size);
    bytes_put(&text, line, row->line_size);
    sum_of(text.at, text.size, sum);
    memcpy(chain, sum, CHAIN_SIZE);
}

void seal_of(struct head *head) {
    struct bytes text = { NULL, 0, 0 };
    uint8_t sum[SUM_SIZE];
    bytes_format(&text, "1 %u %u %zu %zu\n", head->version, head->most_names, head->once_clients,
        head->once_window);
    bytes_put(&text, head->handlers.at, head->handlers.size);
    sum_of(text.at, text.size, sum);
    memcpy(head->seal, sum, CHAIN_SIZE);
    bytes_free(&text);
}

/* Copies a blob of a fixed size, or ends. */
static void take_blob(sqlite3_stmt *from, int column, uint8_t *to, int size) {
    const void *at = sqlite3_column_blob(from, column);
    if (at == NULL || sqlite3_column_bytes(from, column) != size) {
        give_up(STATUS_DIFFERS, "a checksum of the data is damaged");
    }
    memcpy(to, at, (size_t)size);
}

void log_head(struct head *head, struct named *named) {
    uint8_t seal[CHAIN_SIZE];
    sqlite3_stmt *get = log_prepare("SELECT version, most_names, once_clients, once_window,"
                                    " handlers, seal FROM head WHERE format = 1");
    log_must(sqlite3_step(get));
    head->version = (uint32_t)sqlite3_column_int64(get, 0);
    head->most_names = (uint32_t)sqlite3_column_int64(get, 1);
    head->once_clients = (size_t)sqlite3_column_int64(get, 2);
    head->once_window = (size_t)sqlite3_column_int64(get, 3);
    const void *text = sqlite3_column_blob(get, 4);
    bytes_put(&head->handlers, text, (size_t)sqlite3_column_bytes(get, 4));
    take_blob(get, 5, seal, CHAIN_SIZE);
    sqlite3_finalize(get);
    seal_of(head);
    if (memcmp(seal, head->seal, CHAIN_SIZE) != 0) {
        give_up(STATUS_DIFFERS, "the head of the data isn't what was written");
    }
    log_named(named);
}

void log_named(struct named *named) {
    sqlite3_stmt *get = log_prepare("SELECT position, chain, sum FROM snapshot");
    int status = sqlite3_step(get);
    log_must(status);
    *named = (struct named){ 0 };
    if (status == SQLITE_ROW) {
        named->stand.position = (uint64_t)sqlite3_column_int64(get, 0);
        take_blob(get, 1, named->stand.chain, CHAIN_SIZE);
        take_blob(get, 2, named->sum, SUM_SIZE);
    }
    sqlite3_finalize(get);
}

void log_rows(log_each *each, void *with) {
    sqlite3_stmt *get = log_prepare("SELECT position, line, reply, chain, client, number, asked,"
                                    " now FROM log ORDER BY position");
    int status;
    while ((status = sqlite3_step(get)) == SQLITE_ROW) {
        uint8_t chain[CHAIN_SIZE];
        struct row row = { .position = (uint64_t)sqlite3_column_int64(get, 0),
            .reply = (uint64_t)sqlite3_column_int64(get, 2),
            .number = (uint64_t)sqlite3_column_int64(get, 5),
            .asked = (uint64_t)sqlite3_column_int64(get, 6),
            .now = (uint64_t)sqlite3_column_int64(get, 7) };
        const uint8_t *line = sqlite3_column_blob(get, 1), *client = sqlite3_column_blob(get, 4);
        row.line_size = (size_t)sqlite3_column_bytes(get, 1);
        row.client_size = (size_t)sqlite3_column_bytes(get, 4);
        row.once = sqlite3_column_type(get, 4) != SQLITE_NULL;
        row.has_now = sqlite3_column_type(get, 7) != SQLITE_NULL;
        take_blob(get, 3, chain, CHAIN_SIZE);
        each(&row, line, client, chain, with);
    }
    log_must(status);
    sqlite3_finalize(get);
}

struct stand log_tail(void) {
    struct stand tail;
    sqlite3_stmt *get = log_prepare("SELECT position, chain FROM tail");
    log_must(sqlite3_step(get));
    tail.position = (uint64_t)sqlite3_column_int64(get, 0);
    take_blob(get, 1, tail.chain, CHAIN_SIZE);
    sqlite3_finalize(get);
    return tail;
}

void log_cut(const struct stand *stand) {
    log_do("BEGIN IMMEDIATE");
    sqlite3_stmt *cut = log_prepare("DELETE FROM log WHERE position > ?1");
    sqlite3_bind_int64(cut, 1, (sqlite3_int64)stand->position);
    log_must(sqlite3_step(cut));
    sqlite3_finalize(cut);
    cut = log_prepare("UPDATE tail SET position = ?1, chain = ?2");
    sqlite3_bind_int64(cut, 1, (sqlite3_int64)stand->position);
    sqlite3_bind_blob(cut, 2, stand->chain, CHAIN_SIZE, SQLITE_STATIC);
    log_must(sqlite3_step(cut));
    sqlite3_finalize(cut);
    cut = log_prepare("DELETE FROM snapshot WHERE position > ?1");
    sqlite3_bind_int64(cut, 1, (sqlite3_int64)stand->position);
    log_must(sqlite3_step(cut));
    sqlite3_finalize(cut);
    log_do("COMMIT");
}

void log_copy(const char *path, const char *to) {
    sqlite3 *from = NULL, *made = NULL;
    if (sqlite3_open_v2(path, &from, SQLITE_OPEN_READWRITE, NULL) != SQLITE_OK) {
        give_up(STATUS_NO_FILE, "%s can't be opened", path);
    }
    sqlite3_busy_timeout(from, 10000);
    if (sqlite3_open_v2(to, &made, SQLITE_OPEN_READWRITE | SQLITE_OPEN_CREATE, NULL) != SQLITE_OK) {
        give_up(STATUS_NO_FILE, "%s can't be made", to);
    }
    sqlite3_backup *copy = sqlite3_backup_init(made, "main", from, "main");
    if (copy == NULL || sqlite3_backup_step(copy, -1) != SQLITE_DONE) {
        give_up(STATUS_NO_FILE, "no copy: %s", sqlite3_errmsg(made));
    }
    sqlite3_backup_finish(copy);
    if (sqlite3_exec(made, "UPDATE head SET is_copy = 1", NULL, NULL, NULL) != SQLITE_OK) {
        give_up(STATUS_NO_FILE, "no copy: %s", sqlite3_errmsg(made));
    }
    sqlite3_close(made);
    sqlite3_close(from);
}

bool log_is_copy(void) {
    sqlite3_stmt *get = log_prepare("SELECT is_copy FROM head");
    log_must(sqlite3_step(get));
    bool is = sqlite3_column_int(get, 0) == 1;
    sqlite3_finalize(get);
    return is;
}
