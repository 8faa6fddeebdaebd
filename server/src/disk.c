#include "disk.h"

#include <errno.h>
#include <fcntl.h>
#include <libgen.h>
#include <stdio.h>
#include <string.h>
#include <sys/file.h>
#include <unistd.h>

enum { PATH_ROOM = 4096 };

const char *disk_sync_folder(const char *path) {
    char copy[PATH_ROOM];
    snprintf(copy, sizeof copy, "%s", path);
    int at = open(dirname(copy), O_RDONLY | O_DIRECTORY | O_CLOEXEC);
    if (at < 0) return "a folder can't be opened";
    int failed = fsync(at);
    close(at);
    return failed ? "a folder can't be synced" : NULL;
}

static const char *write_all(int at, const struct bytes *text) {
    for (size_t done = 0; done < text->size;) {
        ssize_t some = write(at, text->at + done, text->size - done);
        if (some < 0 && errno == EINTR) continue;
        if (some <= 0) return "a file can't be written";
        done += (size_t)some;
    }
    return fsync(at) ? "a file can't be synced" : NULL;
}

const char *disk_write(const char *path, const struct bytes *text) {
    char temporary[PATH_ROOM];
    snprintf(temporary, sizeof temporary, "%s.new", path);
    int at = open(temporary, O_WRONLY | O_CREAT | O_TRUNC | O_CLOEXEC, 0600);
    if (at < 0) return "a file can't be made";
    const char *fault = write_all(at, text);
    if (close(at) != 0 && fault == NULL) fault = "a file can't be closed";
    if (fault == NULL && rename(temporary, path) != 0) fault = "a file can't be renamed";
    if (fault != NULL) {
        unlink(temporary);
        return fault;
    }
    return disk_sync_folder(path);
}

void disk_lock(const char *data) {
    char path[PATH_ROOM];
    snprintf(path, sizeof path, "%s.lock", data);
    int at = open(path, O_RDWR | O_CREAT | O_CLOEXEC, 0600);
    if (at < 0) give_up(STATUS_NO_FILE, "%s can't be opened", path);
    if (flock(at, LOCK_EX | LOCK_NB) != 0) give_up(STATUS_NO_FILE, "%s is in use", data);
}
