/* Answers to the bytes of standard input as `foresight check` does, without that program; with one
 * of the words show, ranges, audit, serve, dump as that command. `.ci/embedding` builds and
 * runs it; at the top of the repository it is built by
 *
 *     cc -std=c99 embedding/check.c target/look/libforesight.a -o target/look/check
 */
#include "foresight.h"

#include <stdio.h>
#include <stdlib.h>
#include <string.h>

typedef uint8_t command(const uint8_t *, size_t, uint8_t *, size_t, uint8_t *, size_t,
    struct foresight_answer *);

static const struct {
    const char *word;
    command *call;
} commands[] = {
    { "check", foresight_check },
    { "show", foresight_show },
    { "ranges", foresight_ranges },
    { "audit", foresight_audit },
    { "serve", foresight_serve },
    { "dump", foresight_dump },
};

/* The command of this word, or NULL. */
static command *command_of(const char *word) {
    for (size_t i = 0; i < sizeof commands / sizeof commands[0]; i++) {
        if (strcmp(commands[i].word, word) == 0) return commands[i].call;
    }
    return NULL;
}

/* Prints a line and ends. */
static void give_up(const char *line, int status) {
    fputs(line, stderr);
    exit(status);
}

/* Room for so many bytes, which is at `room` if there was one before. */
static uint8_t *room_for(uint8_t *room, size_t size) {
    uint8_t *more = realloc(room, size);
    if (more == NULL) give_up("no memory\n", 3);
    return more;
}

/* All of standard input; `size` gets how many bytes they are. */
static uint8_t *input(size_t *size) {
    size_t room = 65536;
    uint8_t *text = room_for(NULL, room);
    *size = 0;
    while (!feof(stdin)) {
        if (*size == room) text = room_for(text, room *= 2);
        *size += fread(text + *size, 1, room - *size, stdin);
        if (ferror(stdin)) give_up("read fault\n", 4);
    }
    return text;
}

int main(int count, char **words) {
    command *call = count > 2 ? NULL : command_of(count == 2 ? words[1] : "check");
    if (call == NULL) give_up("usage: check [check | show | ranges | audit | serve | dump]\n", 2);
    size_t size;
    uint8_t *text = input(&size);
    uint8_t message[FORESIGHT_MESSAGE_ROOM] = { 0 };
    struct foresight_answer answer = { 0, 0, 0 };
    /* A first buffer, and one of the right size if that was too small. */
    size_t room = 4096;
    uint8_t *out = memset(room_for(NULL, room), 0, room);
    int status = call(text, size, out, room, message, sizeof message, &answer);
    if (status == FORESIGHT_WRITE_FAULT) {
        room = answer.needed;
        out = memset(room_for(out, room), 0, room);
        status = call(text, size, out, room, message, sizeof message, &answer);
    }
    fwrite(message, 1, answer.told, stderr);
    if (fwrite(out, 1, answer.written, stdout) < answer.written || fflush(stdout) != 0) {
        give_up("write fault\n", 5);
    }
    free(out);
    free(text);
    return status;
}
