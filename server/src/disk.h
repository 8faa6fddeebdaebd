/* Files that are there, whole, or not at all. */
#ifndef DISK_H
#define DISK_H

#include "bytes.h"

/* Writes a file under a temporary name, syncs it, renames it, and syncs its folder: NULL, or what
 * failed. */
const char *disk_write(const char *path, const struct bytes *text);
const char *disk_sync_folder(const char *path);
/* Keeps everybody else away from the data, as long as the program runs. */
void disk_lock(const char *data);

#endif
