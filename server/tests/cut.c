/* A disk that loses what wasn't synced, for tests: linked into a server of their own.
 *
 * A layer below SQLite keeps writes in memory until the file is synced. At random some of them, or
 * the first sectors of one, reach the file before, in any order. So what a kill leaves is what a
 * power cut may leave. The same holds for files of snapshots, and a rename is done at random at
 * once or when its folder is synced. Syncs themselves are not passed on, but take a random time.
 *
 * CUT_FAULT=sync:N fails the Nth sync of a log, write:N the Nth write as if the disk were full,
 * slow:MS makes each sync take so long, file:N fails the Nth write of a snapshot, die:N ends the
 * process before or after one of the steps of a snapshot, the Nth of these moments. Whoever writes
 * or syncs the log after a failed sync is told of. */
#define _GNU_SOURCE
#include <errno.h>
#include <fcntl.h>
#include <pthread.h>
#include <signal.h>
#include <sqlite3.h>
#include <stdbool.h>
#include <stdio.h>
#include <stdlib.h>
#include <string.h>
#include <sys/random.h>
#include <sys/stat.h>
#include <time.h>
#include <unistd.h>

enum { SECTOR = 512, MOST_FILES = 64, MOST_RENAMES = 64, PATH = 4096 };

struct piece {
    sqlite3_int64 at;
    int size;
    unsigned char *bytes;
};

struct file {
    sqlite3_file base;
    sqlite3_file *real;
    struct piece *pieces;
    size_t count, room;
    bool loses;
};

static sqlite3_vfs *below;
static pthread_mutex_t lock = PTHREAD_MUTEX_INITIALIZER;
static long syncs, writes, files, moments;
static long fail_sync = -1, fail_write = -1, fail_file = -1, slow = -1, die_at = -1;
static bool failed, has_file;

static unsigned chance(unsigned below_this) {
    static unsigned long long state;
    pthread_mutex_lock(&lock);
    while (state == 0) {
        if (getrandom(&state, sizeof state, 0) < 0) state = 1;
    }
    state ^= state << 13, state ^= state >> 7, state ^= state << 17;
    unsigned long long made = state;
    pthread_mutex_unlock(&lock);
    return (unsigned)(made >> 20) % below_this;
}

static void tell_again(const char *what) {
    if (failed) fprintf(stderr, "AGAIN: %s after a failed sync\n", what);
}

/* A moment at which a process may be killed, once the first snapshot is being written. */
static void moment(void) {
    if (has_file && __atomic_add_fetch(&moments, 1, __ATOMIC_SEQ_CST) == die_at) raise(SIGKILL);
}

/* ---- Files of SQLite. */

static int flush(struct file *file) {
    int status = SQLITE_OK;
    for (size_t i = 0; i < file->count; i++) {
        struct piece *piece = &file->pieces[i];
        if (status == SQLITE_OK) {
            status = file->real->pMethods->xWrite(file->real, piece->bytes, piece->size, piece->at);
        }
        free(piece->bytes);
    }
    file->count = 0;
    return status;
}

static int file_close(sqlite3_file *base) {
    struct file *file = (struct file *)base;
    flush(file);
    free(file->pieces);
    return file->real->pMethods->xClose(file->real);
}

static int file_read(sqlite3_file *base, void *to, int size, sqlite3_int64 at) {
    struct file *file = (struct file *)base;
    int status = file->real->pMethods->xRead(file->real, to, size, at);
    sqlite3_int64 end = 0;
    for (size_t i = 0; i < file->count; i++) {
        struct piece *piece = &file->pieces[i];
        sqlite3_int64 from = piece->at > at ? piece->at : at;
        sqlite3_int64 until =
            piece->at + piece->size < at + size ? piece->at + piece->size : at + size;
        if (piece->at + piece->size > end) end = piece->at + piece->size;
        if (from < until) {
            memcpy((char *)to + (from - at), piece->bytes + (from - piece->at),
                (size_t)(until - from));
        }
    }
    return status == SQLITE_IOERR_SHORT_READ && end >= at + size ? SQLITE_OK : status;
}

static int file_write(sqlite3_file *base, const void *from, int size, sqlite3_int64 at) {
    struct file *file = (struct file *)base;
    if (!file->loses) return file->real->pMethods->xWrite(file->real, from, size, at);
    tell_again("a write");
    if (++writes == fail_write) return SQLITE_FULL;
    if (file->count == file->room) {
        file->room = 2 * file->room + 16;
        file->pieces = realloc(file->pieces, file->room * sizeof *file->pieces);
    }
    struct piece *piece = &file->pieces[file->count++];
    *piece = (struct piece){ at, size, malloc((size_t)size) };
    memcpy(piece->bytes, from, (size_t)size);
    unsigned dice = chance(4);
    int early = dice == 0   ? size
                : dice == 1 ? (int)(chance((unsigned)size / SECTOR + 1) * SECTOR)
                            : 0;
    if (early > 0) return file->real->pMethods->xWrite(file->real, from, early, at);
    return SQLITE_OK;
}

static int file_truncate(sqlite3_file *base, sqlite3_int64 size) {
    struct file *file = (struct file *)base;
    flush(file);
    return file->real->pMethods->xTruncate(file->real, size);
}

static int file_sync(sqlite3_file *base, int flags) {
    struct file *file = (struct file *)base;
    (void)flags;
    if (!file->loses) return SQLITE_OK;
    tell_again("a sync");
    if (++syncs == fail_sync) {
        failed = true;
        return SQLITE_IOERR_FSYNC;
    }
    usleep(slow >= 0 ? (useconds_t)slow * 1000 : chance(2000));
    moment();
    int status = flush(file);
    moment();
    if (slow < 0) usleep(chance(2000));
    return status;
}

static int file_size(sqlite3_file *base, sqlite3_int64 *size) {
    struct file *file = (struct file *)base;
    int status = file->real->pMethods->xFileSize(file->real, size);
    for (size_t i = 0; i < file->count; i++) {
        sqlite3_int64 end = file->pieces[i].at + file->pieces[i].size;
        if (end > *size) *size = end;
    }
    return status;
}

#define REAL(base) ((struct file *)(base))->real
static int file_lock(sqlite3_file *f, int kind) { return REAL(f)->pMethods->xLock(REAL(f), kind); }
static int file_unlock(sqlite3_file *f, int kind) {
    return REAL(f)->pMethods->xUnlock(REAL(f), kind);
}
static int file_reserved(sqlite3_file *f, int *out) {
    return REAL(f)->pMethods->xCheckReservedLock(REAL(f), out);
}
static int file_control(sqlite3_file *f, int op, void *arg) {
    return REAL(f)->pMethods->xFileControl(REAL(f), op, arg);
}
static int file_sector(sqlite3_file *f) { return REAL(f)->pMethods->xSectorSize(REAL(f)); }
static int file_traits(sqlite3_file *f) {
    (void)f;
    return 0;
}
static int file_map(sqlite3_file *f, int page, int size, int extend, void volatile **out) {
    return REAL(f)->pMethods->xShmMap(REAL(f), page, size, extend, out);
}
static int file_shm_lock(sqlite3_file *f, int at, int count, int flags) {
    return REAL(f)->pMethods->xShmLock(REAL(f), at, count, flags);
}
static void file_barrier(sqlite3_file *f) { REAL(f)->pMethods->xShmBarrier(REAL(f)); }
static int file_unmap(sqlite3_file *f, int drop) {
    return REAL(f)->pMethods->xShmUnmap(REAL(f), drop);
}

static const sqlite3_io_methods METHODS = { 2, file_close, file_read, file_write, file_truncate,
    file_sync, file_size, file_lock, file_unlock, file_reserved, file_control, file_sector,
    file_traits, file_map, file_shm_lock, file_barrier, file_unmap, NULL, NULL };

static int open_file(sqlite3_vfs *vfs, const char *name, sqlite3_file *base, int flags, int *out) {
    struct file *file = (struct file *)base;
    (void)vfs;
    memset(file, 0, sizeof *file);
    file->real = (sqlite3_file *)(file + 1);
    file->loses = (flags & (SQLITE_OPEN_MAIN_DB | SQLITE_OPEN_WAL)) != 0;
    int status = below->xOpen(below, name, file->real, flags, out);
    if (status == SQLITE_OK) file->base.pMethods = &METHODS;
    return status;
}

__attribute__((constructor)) static void begin(void) {
    static sqlite3_vfs vfs;
    const char *fault = getenv("CUT_FAULT");
    if (fault != NULL && strncmp(fault, "sync:", 5) == 0) fail_sync = atol(fault + 5);
    if (fault != NULL && strncmp(fault, "write:", 6) == 0) fail_write = atol(fault + 6);
    if (fault != NULL && strncmp(fault, "slow:", 5) == 0) slow = atol(fault + 5);
    if (fault != NULL && strncmp(fault, "file:", 5) == 0) fail_file = atol(fault + 5);
    if (fault != NULL && strncmp(fault, "die:", 4) == 0) die_at = atol(fault + 4);
    sqlite3_initialize();
    below = sqlite3_vfs_find(NULL);
    vfs = *below;
    vfs.zName = "cut";
    vfs.szOsFile = (int)sizeof(struct file) + below->szOsFile;
    vfs.xOpen = open_file;
    sqlite3_vfs_register(&vfs, 1);
}

/* ---- Files of snapshots. */

int __real_fsync(int at);
int __real_rename(const char *from, const char *to);
ssize_t __real_write(int at, const void *from, size_t size);

static struct late {
    int at;
    unsigned char *bytes;
    size_t size;
} late[MOST_FILES];
static char renames[MOST_RENAMES][2][PATH];
static int renames_count;

ssize_t __wrap_write(int at, const void *from, size_t size) {
    size_t early = chance(2) ? 0 : chance((unsigned)size + 1);
    has_file = true;
    if (++files == fail_file) {
        errno = ENOSPC;
        return -1;
    }
    moment();
    if (early > 0 && __real_write(at, from, early) != (ssize_t)early) return -1;
    for (int i = 0; i < MOST_FILES; i++) {
        if (late[i].bytes != NULL) continue;
        late[i] = (struct late){ at, malloc(size + 1), size - early };
        memcpy(late[i].bytes, (const char *)from + early, size - early);
        moment();
        return (ssize_t)size;
    }
    abort();
}

int __wrap_rename(const char *from, const char *to) {
    int status = 0;
    moment();
    if (chance(2) || renames_count == MOST_RENAMES) {
        status = __real_rename(from, to);
    } else {
        strcpy(renames[renames_count][0], from);
        strcpy(renames[renames_count++][1], to);
    }
    moment();
    return status;
}

int __wrap_fsync(int at) {
    struct stat is;
    usleep(chance(3000));
    moment();
    for (int i = 0; i < MOST_FILES; i++) {
        if (late[i].bytes == NULL || late[i].at != at) continue;
        if (__real_write(at, late[i].bytes, late[i].size) != (ssize_t)late[i].size) return -1;
        free(late[i].bytes);
        late[i].bytes = NULL;
    }
    if (fstat(at, &is) == 0 && S_ISDIR(is.st_mode)) {
        for (int i = 0; i < renames_count; i++) __real_rename(renames[i][0], renames[i][1]);
        renames_count = 0;
    }
    moment();
    return 0;
}

int __real_unlink(const char *path);

int __wrap_unlink(const char *path) {
    moment();
    int status = __real_unlink(path);
    moment();
    return status;
}
