/* Compares which words the server takes with which ones the library takes, on made words. */
#include "../src/words.h"

#include "foresight_session.h"

#include <stdio.h>
#include <stdlib.h>
#include <string.h>

enum { MADE = 200000, MOST = 70 };

static struct foresight_session session = FORESIGHT_NO_SESSION;

/* Whether a line with this word is served. */
static bool is_taken(const char *word, size_t size) {
    uint8_t line[MOST + 8] = "h ", out[FORESIGHT_REPLY_ROOM], why[FORESIGHT_MESSAGE_ROOM];
    struct foresight_served served = { 0, 0, 0, 0, 0 };
    memset(out, 0, sizeof out);
    memset(why, 0, sizeof why);
    memcpy(line + 2, word, size);
    int status = foresight_session_serve(&session, line, size + 2, out, sizeof out, why, sizeof why,
        &served);
    bool taken = status == FORESIGHT_SESSION_FINE && served.requests == 1;
    if (!taken && status != FORESIGHT_SESSION_REFUSED && status != FORESIGHT_SESSION_NOT_TEXT) {
        printf("words: status %d\n", status);
        exit(1);
    }
    return taken;
}

/* A word is one word of a line. */
static bool is_one(const char *word, size_t size) {
    for (size_t i = 0; i < size; i++) {
        if (word[i] != 0 && strchr(" \t\r\n#", word[i]) != NULL) return false;
    }
    return size > 0;
}

static size_t make(char *word, int turn) {
    static const char *const starts[] = { "", "-", "9223372036854775", "-9223372036854775", "nil",
        "0000000000000000000000", "x", "+" };
    static const char bytes[] = "0123456789aZ_.-@:'#+ \t\n\xc3\xa4%";
    const char *start = starts[rand() % 8];
    size_t size = strlen(start), more = (size_t)(rand() % 8);
    memcpy(word, start, size);
    if (turn % 50 == 0) more = 58 + (size_t)(rand() % 8) - (size > 58 ? 58 : size);
    for (size_t i = 0; i < more; i++) {
        bool digit = rand() % 2 == 0;
        word[size++] = digit ? bytes[rand() % 10] : bytes[rand() % (sizeof bytes - 1)];
    }
    return size;
}

int main(void) {
    static const char handlers[] = "map m;\nhandler h(k) { reply k; }\n%%\n";
    uint8_t why[FORESIGHT_MESSAGE_ROOM] = { 0 };
    struct foresight_answer answer = { 0, 0, 0 };
    int values = 0;
    if (foresight_session_open(&session, (const uint8_t *)handlers, sizeof handlers - 1, 1, 4000000,
            why, sizeof why, &answer)) {
        return 1;
    }
    srand(1);
    for (int turn = 0; turn < MADE; turn++) {
        char word[MOST + 8];
        size_t size = make(word, turn);
        bool ours = word_is_value((struct word){ word, size });
        bool theirs = is_one(word, size) && is_taken(word, size);
        values += ours;
        if (ours == theirs) continue;
        printf("words: `%.*s`: %d, and the library %d\n", (int)size, word, ours, theirs);
        return 1;
    }
    printf("words: %d words, %d of them values: as the library has it\n", MADE, values);
    return foresight_session_close(&session);
}
