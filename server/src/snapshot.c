#define _GNU_SOURCE
#include "snapshot.h"

#include "disk.h"
#include "once.h"
#include "tables.h"

#include <glob.h>
#include <inttypes.h>
#include <stdio.h>
#include <stdlib.h>
#include <string.h>
#include <unistd.h>

static const char FIRST[] = "foresight-server snapshot 1";

void snapshot_path(char path[SNAPSHOT_PATH], const char *data, uint64_t position) {
    snprintf(path, SNAPSHOT_PATH, "%s.snapshot-%" PRIu64, data, position);
}

bool snapshot_take(const struct bytes *handlers, struct bytes *body) {
    struct bytes dump = { NULL, 0, 0 };
    body->size = 0;
    tables_dump(&dump);
    bool fits = tables_can_load(handlers, &dump);
    if (fits) {
        once_write(body);
        bytes_put(body, dump.at, dump.size);
    }
    bytes_free(&dump);
    return fits;
}

const char *snapshot_write(const char *data, const struct stand *stand, uint64_t now,
    const struct bytes *body, struct named *named) {
    struct bytes text = { NULL, 0, 0 };
    char path[SNAPSHOT_PATH], hex[2 * CHAIN_SIZE + 1];
    hex_of(stand->chain, CHAIN_SIZE, hex);
    bytes_format(&text, "%s\nposition %" PRIu64 "\nchain %s\nnow %" PRIu64 "\n", FIRST,
        stand->position, hex, now);
    bytes_put(&text, body->at, body->size);
    named->stand = *stand;
    sum_of(text.at, text.size, named->sum);
    snapshot_path(path, data, stand->position);
    const char *fault = disk_write(path, &text);
    bytes_free(&text);
    return fault;
}

/* The next line of a text, without its line feed. */
static char *next_line(char **at, char *end) {
    char *line = *at, *feed = line < end ? memchr(line, '\n', (size_t)(end - line)) : NULL;
    if (feed == NULL) return NULL;
    *feed = 0;
    *at = feed + 1;
    return line;
}

static void read_head(char **at, char *end, const char *path, const struct named *named,
    uint64_t *now) {
    char hex[2 * CHAIN_SIZE + 1];
    hex_of(named->stand.chain, CHAIN_SIZE, hex);
    char *first = next_line(at, end), *position = next_line(at, end);
    char *chain = next_line(at, end), *time = next_line(at, end);
    bool fine = time != NULL && strcmp(first, FIRST) == 0
                && strtoull(position + strlen("position "), NULL, 10) == named->stand.position
                && strcmp(chain + strlen("chain "), hex) == 0 && strncmp(time, "now ", 4) == 0;
    if (!fine) give_up(STATUS_DIFFERS, "%s isn't the snapshot of its position", path);
    *now = strtoull(time + 4, NULL, 10);
}

uint64_t snapshot_load(const char *data, const struct named *named, const struct head *head) {
    struct bytes text = { NULL, 0, 0 }, dump = { NULL, 0, 0 };
    char path[SNAPSHOT_PATH];
    uint8_t sum[SUM_SIZE];
    uint64_t now = 0;
    snapshot_path(path, data, named->stand.position);
    if (!bytes_read_file(&text, path)) give_up(STATUS_DIFFERS, "%s can't be read", path);
    sum_of(text.at, text.size, sum);
    if (memcmp(sum, named->sum, SUM_SIZE) != 0) {
        give_up(STATUS_DIFFERS, "%s isn't what was written", path);
    }
    char *at = (char *)text.at, *end = at + text.size;
    read_head(&at, end, path, named, &now);
    while (at < end && *at == 'o') {
        char *line = next_line(&at, end);
        if (line == NULL || !once_read_line(line, strlen(line))) {
            give_up(STATUS_DIFFERS, "%s can't be read", path);
        }
    }
    bytes_put(&dump, at, (size_t)(end - at));
    tables_load(&head->handlers, &dump, NAMES_WITHOUT_BOUND);
    bytes_free(&dump);
    bytes_free(&text);
    return now;
}

void snapshot_clean(const char *data, uint64_t position) {
    char pattern[SNAPSHOT_PATH], kept[SNAPSHOT_PATH];
    glob_t found;
    snapshot_path(kept, data, position);
    snprintf(pattern, sizeof pattern, "%s.snapshot-*", data);
    if (glob(pattern, 0, NULL, &found) != 0) return;
    for (size_t i = 0; i < found.gl_pathc; i++) {
        if (strcmp(found.gl_pathv[i], kept) != 0) unlink(found.gl_pathv[i]);
    }
    globfree(&found);
}

void snapshot_remove(const char *data, uint64_t position) {
    char path[SNAPSHOT_PATH];
    snapshot_path(path, data, position);
    unlink(path);
}
