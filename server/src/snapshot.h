/* Snapshots: tables, and what ONCE knows, at a position. A file beside the data. */
#ifndef SNAPSHOT_H
#define SNAPSHOT_H

#include "bytes.h"
#include "log.h"

enum { SNAPSHOT_PATH = 4096 };

void snapshot_path(char path[SNAPSHOT_PATH], const char *data, uint64_t position);
/* What is in memory now: whether a snapshot of it could be opened again, and its text but for the
 * head. */
bool snapshot_take(const struct bytes *handlers, struct bytes *body);
/* Writes the file, and says how it is to be named: NULL, or what failed. */
const char *snapshot_write(const char *data, const struct stand *stand, uint64_t now,
    const struct bytes *body, struct named *named);
/* Reads a named one into the session and ONCE, or ends; answers the time of its last `@now`. */
uint64_t snapshot_load(const char *data, const struct named *named, const struct head *head);
/* Removes what kills left: all but the one that is named. */
void snapshot_clean(const char *data, uint64_t position);
void snapshot_remove(const char *data, uint64_t position);

#endif
