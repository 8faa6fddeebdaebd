#include "handlers.h"

#include "foresight.h"

#include <stdlib.h>
#include <string.h>

struct handler handlers[MOST_HANDLERS];
size_t handlers_count;

struct handler *handler_of(struct word name) {
    for (size_t i = 0; i < handlers_count; i++) {
        if (word_is(name, handlers[i].name)) return &handlers[i];
    }
    return NULL;
}

/* The handlers' own part of a session file: up to the first line that begins with `%%`. */
static size_t part_of_handlers(const struct bytes *text) {
    for (size_t i = 0; i + 1 < text->size; i++) {
        bool begins = i == 0 || text->at[i - 1] == '\n';
        if (begins && text->at[i] == '%' && text->at[i + 1] == '%') return i;
    }
    return text->size;
}

/* What `foresight check` writes: a statement a line, one blank between words, no comments. */
static void canonical(const struct bytes *text, struct bytes *out) {
    uint8_t why[FORESIGHT_MESSAGE_ROOM];
    struct foresight_answer answer = { 0, 4 * text->size + 4096, 0 };
    int status = FORESIGHT_WRITE_FAULT;
    while (status == FORESIGHT_WRITE_FAULT) {
        size_t room = answer.needed;
        memset(bytes_reserve(out, room), 0, room);
        status = foresight_check(text->at, part_of_handlers(text), out->at, room, why, sizeof why,
            &answer);
    }
    if (status != FORESIGHT_FINE) give_up(STATUS_REFUSED, "%.*s", (int)answer.told, why);
    out->size = answer.written;
    bytes_put(out, "", 1);
}

/* `handler name(a, b) {` */
static void read_head(const char *line) {
    struct handler *handler = &handlers[handlers_count++];
    const char *name = line + strlen("handler "), *open = strchr(name, '(');
    size_t size = open == NULL ? 0 : (size_t)(open - name);
    if (size == 0 || size >= HANDLER_ROOM) give_up(STATUS_REFUSED, "handlers can't be read");
    *handler = (struct handler){ .parameters = 0, .reads = true };
    memcpy(handler->name, name, size);
    for (const char *at = open + 1; *at != ')' && *at != 0; at++) {
        if (handler->parameters == 0) handler->parameters = 1;
        if (*at == ',') handler->parameters++;
    }
}

/* Operations alone have a parenthesis right behind a word. */
static bool line_changes(const char *line) {
    static const char *const changes[] = { "put(", "swap(", "del(", "bump(", "add(", "mark(",
        "drop(" };
    for (size_t i = 0; i < sizeof changes / sizeof *changes; i++) {
        if (strstr(line, changes[i]) != NULL) return true;
    }
    return false;
}

void handlers_read(const struct bytes *text) {
    struct bytes read = { NULL, 0, 0 };
    char *rest = NULL;
    handlers_count = 0;
    canonical(text, &read);
    for (char *line = strtok_r((char *)read.at, "\n", &rest); line != NULL;
         line = strtok_r(NULL, "\n", &rest)) {
        if (strncmp(line, "handler ", 8) == 0) {
            if (handlers_count == MOST_HANDLERS) give_up(STATUS_REFUSED, "too many handlers");
            read_head(line);
        } else if (handlers_count > 0 && line_changes(line)) {
            handlers[handlers_count - 1].reads = false;
        }
    }
    bytes_free(&read);
}
