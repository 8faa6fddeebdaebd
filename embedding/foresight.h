/* What foresight answers to bytes in memory, for programs in C and for those that call C.
 *
 * Link with libforesight.a, which has the toolchain's part for memory in it; or with
 * libforesight_c.a followed by the toolchain's c/liblibc_c.a. The library starts no thread, waits
 * for nothing and opens no file. It takes its memory from the program's malloc, realloc and free,
 * which have to be one allocator. All of it is given back before a call returns, except what a
 * handle owns. No call may be made in a signal handler, or in the forked child of a process with
 * threads.
 */
#ifndef FORESIGHT_H
#define FORESIGHT_H

#include <stdbool.h>
#include <stddef.h>
#include <stdint.h>

#ifdef __cplusplus
extern "C" {
#endif

/* How a call ends: the numbers are the exit statuses of the program `foresight`. */
enum foresight_status {
    /* The whole text is in the buffer. */
    FORESIGHT_FINE = 0,
    /* The input breaks a rule. The message names the first one, and where. */
    FORESIGHT_REFUSED = 1,
    /* Out of memory. Only the message is written. */
    FORESIGHT_NO_MEMORY = 3,
    /* The buffer is too small: it holds a prefix of the text, and `needed` is the full length. A
     * call with a buffer of that size succeeds if memory suffices. */
    FORESIGHT_WRITE_FAULT = 5,
    /* No call returns 2 (usage) or 4 (read fault). The next three come from foresight_explain
     * alone. There is no such form. */
    FORESIGHT_UNREAD = 10,
    /* The name isn't UTF-8. */
    FORESIGHT_NOT_TEXT = 16,
    /* The line is no refusal's, or names a place that the text doesn't have; or one of the two is
     * longer than 4,294,967,294 bytes. */
    FORESIGHT_UNEXPLAINED = 17
};

/* A buffer of this size holds every message. */
#define FORESIGHT_MESSAGE_ROOM 256

/* What a call returns besides its status. */
struct foresight_answer {
    /* The number of bytes of the text at the start of `out`. */
    size_t written;
    /* The length of the whole text in bytes; 0 with the statuses 1 and 3, which have no text. */
    size_t needed;
    /* The number of bytes of the message at the start of `message`; 0 with the status 0. */
    size_t told;
};

/* Each call reads `text_size` bytes at `text` and writes its text to the start of the `out_size`
 * bytes at `out`. With any status but 0 it writes one line to the start of the `message_size` bytes
 * at `message`: as much of it as the buffer takes, with a line feed at its end. The rest of both
 * buffers stays as it was; no 0 byte is appended. The input, the two buffers and the answer are the
 * caller's. They don't overlap, no pointer is NULL, not even with the size 0, and all their bytes
 * have been initialized. Nobody else reads or writes them while the call runs.
 */

/* The canonical text of a file of handlers, of at most 4,194,304 bytes: as `foresight check`. */
uint8_t foresight_check(const uint8_t *text, size_t text_size, uint8_t *out, size_t out_size,
    uint8_t *message, size_t message_size, struct foresight_answer *answer);

/* That text with what may still be called at each point: as `foresight show`. */
uint8_t foresight_show(const uint8_t *text, size_t text_size, uint8_t *out, size_t out_size,
    uint8_t *message, size_t message_size, struct foresight_answer *answer);

/* The answers to a session over key ranges, of at most 4,194,304 bytes: as `foresight ranges`. */
uint8_t foresight_ranges(const uint8_t *text, size_t text_size, uint8_t *out, size_t out_size,
    uint8_t *message, size_t message_size, struct foresight_answer *answer);

/* The verdict on a session file that ends in a trace, of at most 67,108,864 bytes, of which at most
 * 4,194,304 come before the trace: as `foresight audit`. With a verdict of any kind the status is
 * 0. */
uint8_t foresight_audit(const uint8_t *text, size_t text_size, uint8_t *out, size_t out_size,
    uint8_t *message, size_t message_size, struct foresight_answer *answer);

/* The replies of a session file, of at most 4,194,304 bytes, by ticket: as `foresight serve` with
 * any numbers of callers and shards. The requests are served one after another on tables of this
 * call alone. */
uint8_t foresight_serve(const uint8_t *text, size_t text_size, uint8_t *out, size_t out_size,
    uint8_t *message, size_t message_size, struct foresight_answer *answer);

/* The tables that the requests of a session file, of at most 4,194,304 bytes, leave: as `foresight
 * dump` with any numbers of callers and shards. Placed between handlers and requests they open the
 * tables of a next session, if its file stays within 100,000 entries and 4,194,304 bytes. */
uint8_t foresight_dump(const uint8_t *text, size_t text_size, uint8_t *out, size_t out_size,
    uint8_t *message, size_t message_size, struct foresight_answer *answer);

/* The forms of foresight_explain. */
enum foresight_form {
    /* The place, its line with a caret, and lines of advice, each after `= `. */
    FORESIGHT_FORM_TEXT = 0,
    /* One JSON object on a line, with the members advice, column, file, line, rule and sentence. */
    FORESIGHT_FORM_JSON = 1
};

/* What a refusal means, in plain words, with its line, column and advice: as `foresight_where`, but
 * no file is read. `refusal` is the message that a call wrote when it returned 1, with its line feed
 * or without, and `text` the text that was refused, whose name here is `name`. It tells of refusals
 * of the calls above, and of foresight_session_open. There is no message: `told` is 0, and with any
 * status but 0 and 5 nothing is written to `out`. */
uint8_t foresight_explain(const uint8_t *text, size_t text_size, const uint8_t *name,
    size_t name_size, const uint8_t *refusal, size_t refusal_size, uint8_t form, uint8_t *out,
    size_t out_size, struct foresight_answer *answer);

/* ---- Values and operations, for the calls over a handle of foresight_tickets.h and
 * foresight_session.h. */

/* What a value is. The last one is for symbols of operations only. */
enum foresight_sort {
    FORESIGHT_NIL = 0,
    FORESIGHT_NUMBER = 1,
    FORESIGHT_NAME = 2,
    FORESIGHT_ANY = 3
};

struct foresight_value {
    uint8_t sort;
    /* If it is a name: any number. Two names are equal if their numbers are. */
    uint32_t name;
    /* If it is a number. */
    int64_t number;
};

/* Kinds of operations: the first six on maps, the others on sets. The comment says how many of key
 * and value the kind has, the others being nil, and what it replies. */
enum foresight_kind {
    FORESIGHT_GET = 0,    /* 1: the value of the key, or nil */
    FORESIGHT_PUT = 1,    /* 2: nil */
    FORESIGHT_SWAP = 2,   /* 2: what the key was bound to before, or nil */
    FORESIGHT_DEL = 3,    /* 1: nil */
    FORESIGHT_SIZE = 4,   /* 0: the number of keys */
    FORESIGHT_BUMP = 5,   /* 2: nil; adds a number to what the key is bound to */
    FORESIGHT_HAS = 6,    /* 1: 1 if the key is a member, else 0 */
    FORESIGHT_ADD = 7,    /* 1: 1 if the key was no member, else 0; makes it one */
    FORESIGHT_MARK = 8,   /* 1: nil; makes the key a member */
    FORESIGHT_DROP = 9,   /* 1: nil */
    FORESIGHT_COUNT = 10  /* 0: the number of members */
};

struct foresight_operation {
    uint8_t kind;
    uint32_t table;
    struct foresight_value key;
    struct foresight_value value;
};

#ifdef __cplusplus
}
#endif

#endif
