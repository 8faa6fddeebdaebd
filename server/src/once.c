#include "once.h"

#include <inttypes.h>
#include <stdlib.h>
#include <string.h>

/* A number's place is its rest by the window, so a window of them at most is kept. */
struct kept {
    uint64_t number, asked;
    char *reply; /* NULL: nothing is kept here */
    size_t size;
};

struct known {
    char name[65];
    uint64_t highest;
    struct kept *kept;
    struct known *older, *newer; /* in the order of their last requests */
    struct known *next;          /* with the same hash */
};

static struct known **heads, *oldest, *newest;
static size_t heads_count, count, most, window;
static uint64_t forgotten;

void once_open(size_t most_clients, size_t its_window) {
    most = most_clients;
    window = its_window;
    heads_count = 2 * most + 1;
    heads = calloc(heads_count, sizeof *heads);
    if (heads == NULL) give_up(STATUS_MEMORY, "no memory");
}

static struct known **place_of(struct word name) {
    struct known **at = &heads[hash_of(name.at, name.size) % heads_count];
    while (*at != NULL && !word_is(name, (*at)->name)) at = &(*at)->next;
    return at;
}

static void unlink_known(struct known *known) {
    *(known->older != NULL ? &known->older->newer : &oldest) = known->newer;
    *(known->newer != NULL ? &known->newer->older : &newest) = known->older;
}

static void link_newest(struct known *known) {
    known->older = newest;
    known->newer = NULL;
    *(newest != NULL ? &newest->newer : &oldest) = known;
    newest = known;
}

static void forget_oldest(void) {
    struct known *gone = oldest;
    struct known **at = place_of((struct word){ gone->name, strlen(gone->name) });
    *at = gone->next;
    unlink_known(gone);
    for (size_t i = 0; i < window; i++) free(gone->kept[i].reply);
    free(gone->kept);
    free(gone);
    count--;
    forgotten++;
}

static struct known *known_of(struct word name) {
    struct known **at = place_of(name);
    if (*at != NULL) {
        unlink_known(*at);
        link_newest(*at);
        return *at;
    }
    if (count == most) forget_oldest();
    at = place_of(name);
    struct known *made = calloc(1, sizeof *made);
    if (made == NULL) give_up(STATUS_MEMORY, "no memory");
    made->kept = calloc(window, sizeof *made->kept);
    if (made->kept == NULL) give_up(STATUS_MEMORY, "no memory");
    memcpy(made->name, name.at, name.size);
    *at = made;
    link_newest(made);
    count++;
    return made;
}

enum once_answer once_look(const struct once_id *id, uint64_t asked, struct outcome *out) {
    struct known *known = *place_of(id->client);
    if (known == NULL) return ONCE_NEW;
    struct kept *kept = &known->kept[id->number % window];
    if (kept->reply != NULL && kept->number == id->number) {
        if (kept->asked != asked) return ONCE_OTHER;
        out->refused = false;
        out->size = kept->size;
        memcpy(out->text, kept->reply, kept->size);
        return ONCE_AGAIN;
    }
    bool is_old = known->highest >= window && id->number <= known->highest - window;
    return is_old ? ONCE_TOO_OLD : ONCE_NEW;
}

static void keep_at(struct known *known, uint64_t number, uint64_t asked, const char *reply,
    size_t size) {
    struct kept *kept = &known->kept[number % window];
    char *text = malloc(size + 1);
    if (text == NULL) give_up(STATUS_MEMORY, "no memory");
    memcpy(text, reply, size);
    free(kept->reply);
    *kept = (struct kept){ number, asked, text, size };
    if (number > known->highest) known->highest = number;
}

void once_keep(const struct once_id *id, uint64_t asked, const struct outcome *out) {
    keep_at(known_of(id->client), id->number, asked, out->text, out->size);
}

void once_write(struct bytes *out) {
    for (struct known *known = oldest; known != NULL; known = known->newer) {
        for (size_t i = 0; i < window; i++) {
            struct kept *kept = &known->kept[i];
            if (kept->reply == NULL) continue;
            bytes_format(out, "once %s %" PRIu64 " %" PRIu64 " %.*s\n", known->name, kept->number,
                kept->asked, (int)kept->size, kept->reply);
        }
    }
}

bool once_read_line(const char *line, size_t size) {
    const char *name = line + 5, *end = line + size, *after;
    if (size < 6 || memcmp(line, "once ", 5) != 0) return false;
    after = memchr(name, ' ', (size_t)(end - name));
    if (after == NULL || after - name > 64) return false;
    char *rest;
    uint64_t number = strtoull(after, &rest, 10), asked = strtoull(rest, &rest, 10);
    if (rest >= end) return false;
    struct known *known = known_of((struct word){ name, (size_t)(after - name) });
    keep_at(known, number, asked, rest + 1, (size_t)(end - rest) - 1);
    return true;
}

size_t once_clients(void) { return count; }
uint64_t once_forgotten(void) { return forgotten; }
