#include "offline.h"

#include "disk.h"
#include "log.h"
#include "options.h"
#include "serving.h"
#include "snapshot.h"
#include "tables.h"

#include "foresight_tickets.h"

#include <inttypes.h>
#include <stdio.h>
#include <string.h>
#include <unistd.h>

static void print_row(const struct row *row, const uint8_t *line, const uint8_t *client,
    const uint8_t *chain, void *with) {
    bool *begun = with;
    (void)client, (void)chain;
    if (!*begun && row->position != 1) say("the log begins at position %" PRIu64, row->position);
    *begun = true;
    printf("%.*s\n", (int)row->line_size, line);
}

int offline_print_log(void) {
    struct head head = { 0 };
    struct named named;
    log_open(options.data, false);
    log_head(&head, &named);
    fwrite(head.handlers.at, 1, head.handlers.size, stdout);
    if (!tables_divides(&head.handlers)) printf("\n%%%%\n");
    bool begun = false;
    log_rows(print_row, &begun);
    return STATUS_FINE;
}

int offline_print_tables(void) {
    struct bytes dump = { NULL, 0, 0 };
    tables_dump(&dump);
    fwrite(dump.at, 1, dump.size, stdout);
    return fflush(stdout) == 0 ? STATUS_FINE : STATUS_NO_FILE;
}

int offline_backup(void) {
    struct head head = { 0 };
    struct named named;
    struct bytes text = { NULL, 0, 0 };
    char from[SNAPSHOT_PATH], to[SNAPSHOT_PATH];
    log_copy(options.data, options.backup);
    log_open(options.backup, false);
    log_head(&head, &named);
    if (named.stand.position > 0) {
        snapshot_path(from, options.data, named.stand.position);
        snapshot_path(to, options.backup, named.stand.position);
        if (!bytes_read_file(&text, from)) give_up(STATUS_NO_FILE, "%s is gone: try again", from);
        const char *fault = disk_write(to, &text);
        if (fault != NULL) give_up(STATUS_NO_FILE, "%s: %s", to, fault);
    }
    log_close();
    const char *fault = disk_sync_folder(options.backup);
    if (fault != NULL) give_up(STATUS_NO_FILE, "%s", fault);
    return STATUS_FINE;
}

/* The data of other handlers begins with a snapshot of what there is, at the same position. */
static void write_changed(const struct head *head, const struct bytes *body) {
    char made[SNAPSHOT_PATH];
    struct named named;
    struct stand stand = { serving.position, { 0 } };
    memcpy(stand.chain, head->seal, CHAIN_SIZE);
    const char *fault = snapshot_write(options.change, &stand, serving.now, body, &named);
    if (fault != NULL) give_up(STATUS_NO_FILE, "%s: %s", options.change, fault);
    snprintf(made, sizeof made, "%s.new", options.change);
    unlink(made);
    if (log_open(made, true)) give_up(STATUS_NO_FILE, "%s is there", made);
    log_create(head, &named);
    log_close();
    if (rename(made, options.change) != 0) give_up(STATUS_NO_FILE, "%s can't be renamed", made);
    fault = disk_sync_folder(options.change);
    if (fault != NULL) give_up(STATUS_NO_FILE, "%s", fault);
}

int offline_change(void) {
    struct head head = { 0 };
    struct bytes given = { NULL, 0, 0 }, body = { NULL, 0, 0 }, dump = { NULL, 0, 0 };
    if (!bytes_read_file(&given, options.handlers)) {
        give_up(STATUS_NO_FILE, "%s can't be read", options.handlers);
    }
    if (access(options.change, F_OK) == 0) give_up(STATUS_NO_FILE, "%s is there", options.change);
    log_open(options.data, false);
    serve_log(options.data, &head, INT64_MAX);
    log_close();
    if (serving.position == 0) give_up(STATUS_REFUSED, "nothing was served: make new data");
    if (!snapshot_take(&given, &body))
        give_up(STATUS_REFUSED, "too many entries, or bytes of tables");
    tables_dump(&dump);
    tables_load(&given, &dump, head.most_names);
    head.handlers = given;
    head.version = foresight_version();
    seal_of(&head);
    write_changed(&head, &body);
    say("%s has the tables of position %" PRIu64, options.change, serving.position);
    return STATUS_FINE;
}
