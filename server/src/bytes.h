/* Bytes that grow, and checksums. */
#ifndef BYTES_H
#define BYTES_H

#include <stdbool.h>
#include <stddef.h>
#include <stdint.h>

struct bytes {
    uint8_t *at;
    size_t size, room;
};

/* Each ends the program with STATUS_MEMORY if there is no memory: a change that was served and
 * can't be logged must not be answered. */
void bytes_put(struct bytes *bytes, const void *more, size_t size);
void bytes_text(struct bytes *bytes, const char *text);
void bytes_format(struct bytes *bytes, const char *format, ...)
    __attribute__((format(printf, 2, 3)));
uint8_t *bytes_reserve(struct bytes *bytes, size_t more);
/* Takes the first bytes out. */
void bytes_drop(struct bytes *bytes, size_t first);
void bytes_free(struct bytes *bytes);
/* Reads a whole file, or answers false. */
bool bytes_read_file(struct bytes *bytes, const char *path);

enum { SUM_SIZE = 32, CHAIN_SIZE = 16 };

/* SHA-256. */
void sum_of(const void *text, size_t size, uint8_t sum[SUM_SIZE]);
/* Its first eight bytes. */
uint64_t hash_of(const void *text, size_t size);
void hex_of(const uint8_t *bytes, size_t size, char *hex);

/* Statuses of the program. */
enum {
    STATUS_FINE = 0,
    STATUS_REFUSED = 1, /* handlers or data are refused */
    STATUS_USAGE = 2,
    STATUS_MEMORY = 3,
    STATUS_NO_FILE = 4,
    STATUS_LOG_FAULT = 6, /* a change could not be committed */
    STATUS_LATE = 7,      /* 30 seconds were not enough to end */
    STATUS_DIFFERS = 8    /* the log is not what was served */
};

/* Says why, and ends at once: nothing is flushed, closed or tried again. */
void give_up(int status, const char *format, ...) __attribute__((format(printf, 2, 3), noreturn));
void say(const char *format, ...) __attribute__((format(printf, 1, 2)));

#endif
