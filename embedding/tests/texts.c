/* Calls each of the six calls over texts: where it ends well, in a room that is too small, with an
 * input that breaks a rule, and with each of its requests for memory refused; `texts WORD` does the
 * last on standard input, for the call of this word. Then it has a refusal explained, in the same
 * ways. .ci/embedding builds and runs it. */
#include "../foresight.h"
#include "heap.h"

#include <stdio.h>
#include <stdlib.h>
#include <string.h>

enum { INPUT = 1 << 20, ROOM = 1 << 16, GUARD = 64, MARK = 0xEE, LARGEST = 4194304 };

typedef uint8_t command(const uint8_t *, size_t, uint8_t *, size_t, uint8_t *, size_t,
    struct foresight_answer *);

#define LOOK "map m;handler h(k){let a=get(m,k);reply a;}"
#define SWAPS "map m;handler h(k){let a=swap(m,k,7);reply a;}\n%%\nh x\n"
#define PUT "map a; handler w(k, v) { put(a, k, v); reply v; }\n%%\nw 0 5\n"

/* A call with an input that it takes and its whole text, and with one that breaks a rule. */
static const struct row {
    const char *word;
    command *call;
    const char *text, *wanted, *broken, *message;
} rows[] = {
    { "check", foresight_check, LOOK,
        "map m;\nhandler h(k) {\n  let a = get(m, k);\n  reply a;\n}\n",
        "map m;handler h(k){let a=get(n,k);reply a;}", "refused K2 at 29\n" },
    { "show", foresight_show, LOOK,
        "map m;\nhandler h(k) {\n  mayuse get(m, k);\n  let a = get(m, k);\n  mayuse nothing;\n"
        "  reply a;\n}\n",
        "map m;\nhandler h(k){let a=get(n,k);reply a;}", "refused K2 at 30\n" },
    { "ranges", foresight_ranges, "hold put 1 any\ndo get 1\nfree 0\ndo put 1 5\ndo size\n",
        "0 delayed 0 0\n1 nil\n2 1\n", "hold put 1 any\ndo got 1\n", "refused G1 line 2\n" },
    { "audit", foresight_audit, PUT "%% trace\nbegin 0 0\ndone 0 put a 0 5 nil\nend 0 5\n",
        "accepted 3\n", PUT, "refused T5\n" },
    { "serve", foresight_serve, SWAPS "h x\nh 3\n", "0 nil\n1 7\n2 nil\n", SWAPS "g x\n",
        "refused Q1 line 4\n" },
    { "dump", foresight_dump, SWAPS "h x\nh 3\n", "%% tables\nm 3 7\nm x 7\n", SWAPS "h\n",
        "refused Q2 line 4\n" },
};

enum { ROWS = sizeof rows / sizeof rows[0] };

/* The rooms, which take no memory, and what the last call did. */
static uint8_t out[ROOM + GUARD], message[FORESIGHT_MESSAGE_ROOM + GUARD];
static struct foresight_answer answer;
static char too_large[LARGEST + 2];
static size_t failures;

static void want(bool is_well, const char *word, const char *what) {
    if (is_well) return;
    fprintf(stderr, "%s: %s\n", word, what);
    failures++;
}

/* Whether a room begins with so many bytes of a text, and is behind them as it was. */
static bool begins(const uint8_t *room, size_t room_size, const char *text, size_t count) {
    if (memcmp(room, text, count) != 0) return false;
    for (size_t i = count; i < room_size + GUARD; i++) {
        if (room[i] != MARK) return false;
    }
    return true;
}

/* Makes a call with rooms of these sizes. It gives back what it took. */
static uint8_t made(const struct row *row, const char *text, size_t size, size_t out_room,
    size_t message_room) {
    size_t before = heap_blocks();
    memset(out, MARK, out_room + GUARD);
    memset(message, MARK, sizeof message);
    answer = (struct foresight_answer){ 77, 78, 79 };
    uint8_t status = row->call((const uint8_t *)text, size, out, out_room, message, message_room,
        &answer);
    want(heap_blocks() == before, row->word, "memory wasn't given back");
    return status;
}

/* Wants of a call with these rooms that it ends so: with the front of a text of so many bytes, and
 * the front of a line. */
static void wants(const struct row *row, const char *what, const char *text, size_t out_room,
    size_t message_room, uint8_t status, const char *whole, const char *line) {
    size_t length = strlen(whole), told = strlen(line);
    size_t written = length < out_room ? length : out_room;
    if (told > message_room) told = message_room;
    want(made(row, text, strlen(text), out_room, message_room) == status, row->word, what);
    want(answer.needed == length && answer.written == written && answer.told == told, row->word,
        "another count of bytes");
    want(begins(out, out_room, whole, written), row->word, "another text");
    want(begins(message, message_room, line, told), row->word, "another message");
}

/* What a call answers that no memory is refused. */
static struct plain {
    uint8_t status, out[ROOM + GUARD], message[FORESIGHT_MESSAGE_ROOM];
    struct foresight_answer answer;
} plain;

/* The line with which calls say that memory is wanting. */
static const char *no_memory = "no memory\n";

/* Whether the last call answered the same. */
static bool is_plain(uint8_t status, size_t out_room) {
    return status == plain.status && memcmp(&answer, &plain.answer, sizeof answer) == 0
        && memcmp(out, plain.out, out_room + GUARD) == 0
        && memcmp(message, plain.message, sizeof plain.message) == 0;
}

/* Whether the last call said that memory is wanting, and wrote nothing else. */
static bool is_no_memory(uint8_t status, size_t out_room) {
    size_t length = strlen(no_memory);
    return status == FORESIGHT_NO_MEMORY && answer.needed == 0 && answer.written == 0
        && answer.told == length && begins(out, out_room, "", 0)
        && begins(message, FORESIGHT_MESSAGE_ROOM, no_memory, length);
}

/* Makes a call again and again, and refuses another request each time, until all are granted: how
 * many that are. A call of which one alone is refused may do with less: where a list can't be made
 * twice as long it takes what it needs. */
static size_t refused(const struct row *row, const char *text, size_t size, size_t out_room,
    bool also_later) {
    plain.status = made(row, text, size, out_room, FORESIGHT_MESSAGE_ROOM);
    plain.answer = answer;
    memcpy(plain.out, out, out_room + GUARD);
    memcpy(plain.message, message, sizeof plain.message);
    for (size_t number = 1;; number++) {
        heap_refuse(number, also_later);
        uint8_t status = made(row, text, size, out_room, FORESIGHT_MESSAGE_ROOM);
        bool was_refused = heap_has_refused();
        heap_refuse(0, false);
        if (!was_refused) return number - 1;
        want(is_no_memory(status, out_room) || (!also_later && is_plain(status, out_room)),
            row->word, "not the status 3 alone where memory is refused");
    }
}

/* All that is wanted of a row. */
static void test(const struct row *row) {
    const char *whole = row->wanted, *fault = "write fault\n";
    size_t length = strlen(whole);
    wants(row, "the whole text", row->text, ROOM, 256, FORESIGHT_FINE, whole, "");
    wants(row, "a room of its size", row->text, length, 0, FORESIGHT_FINE, whole, "");
    wants(row, "a byte too few", row->text, length - 1, 256, FORESIGHT_WRITE_FAULT, whole, fault);
    wants(row, "no room", row->text, 0, 12, FORESIGHT_WRITE_FAULT, whole, fault);
    wants(row, "no room for the line", row->text, 0, 3, FORESIGHT_WRITE_FAULT, whole, fault);
    wants(row, "a broken rule", row->broken, ROOM, 256, FORESIGHT_REFUSED, "", row->message);
    wants(row, "a broken rule, no rooms", row->broken, 0, 0, FORESIGHT_REFUSED, "", row->message);
    wants(row, "an input too large", too_large, ROOM, 256, FORESIGHT_REFUSED, "", "refused T1\n");
    size_t requests = refused(row, row->text, strlen(row->text), ROOM, false);
    want(requests > 0, row->word, "no memory was taken");
    want(refused(row, row->text, strlen(row->text), 0, true) == requests, row->word,
        "another number of requests in no room");
    refused(row, row->broken, strlen(row->broken), ROOM, true);
    wants(row, "the whole text again", row->text, ROOM, 256, FORESIGHT_FINE, whole, "");
}

/* ---- explained refusals */

/* The refusal that is explained, and in which form. It has no message. */
static const char *refusal;
static uint8_t form;
static const char *name = "small";

static uint8_t explain(const uint8_t *text, size_t size, uint8_t *room, size_t room_size,
    uint8_t *line, size_t line_size, struct foresight_answer *told) {
    (void)line;
    (void)line_size;
    return foresight_explain(text, size, (const uint8_t *)name, strlen(name),
        (const uint8_t *)refusal, strlen(refusal), form, room, room_size, told);
}

#define SMALL "handler one() { reply 1; }\nhandler two() { reply 2 }\n"
#define WANTED "`*`, `+`, `-`, `,` or `;` is wanted here"

/* What is told of a refusal of a text, in both forms. */
static const struct told {
    const char *text, *refusal, *wanted, *json;
} explained[] = {
    { SMALL, "refused S2 at 51\n",
        "small:2:25: a token with which no file goes on\nhandler two() { reply 2 }\n"
        "                        ^\n= unexpected `}`: " WANTED "\n= a statement ends with `;`\n",
        "{\"advice\":[\"unexpected `}`: " WANTED "\",\"a statement ends with `;`\"],"
        "\"column\":25,\"file\":\"small\",\"line\":2,\"rule\":\"S2\","
        "\"sentence\":\"a token with which no file goes on\"}\n" },
};

static void test_explained(const struct told *told) {
    struct row row = { "explain", explain, told->text, told->wanted, "", "" };
    no_memory = "";
    refusal = told->refusal;
    for (form = FORESIGHT_FORM_TEXT; form <= FORESIGHT_FORM_JSON; form++) {
        const char *whole = form == FORESIGHT_FORM_TEXT ? told->wanted : told->json;
        size_t length = strlen(whole);
        wants(&row, "the whole text", row.text, ROOM, 256, FORESIGHT_FINE, whole, "");
        wants(&row, "a room of its size", row.text, length, 256, FORESIGHT_FINE, whole, "");
        wants(&row, "a byte too few", row.text, length - 1, 256, FORESIGHT_WRITE_FAULT, whole, "");
        wants(&row, "no room", row.text, 0, 256, FORESIGHT_WRITE_FAULT, whole, "");
        want(refused(&row, row.text, strlen(row.text), ROOM, true) > 0, row.word, "no memory taken");
        refused(&row, row.text, strlen(row.text), ROOM, false);
    }
    /* There is no such form; then what is no refusal, and what isn't in the text. */
    wants(&row, "another form", row.text, ROOM, 256, FORESIGHT_UNREAD, "", "");
    form = FORESIGHT_FORM_TEXT;
    name = "\xff";
    wants(&row, "a name that is no text", row.text, ROOM, 256, FORESIGHT_NOT_TEXT, "", "");
    name = "small";
    static const char *const lines[] = {
        "", "\n", "unknown handler\n", "refused S2 at 52000\n", "refused\n", "refused S2 at 51\n\n",
        "no memory\n", "\xff",
    };
    for (size_t i = 0; i < sizeof lines / sizeof lines[0]; i++) {
        refusal = lines[i];
        wants(&row, "a line that is no refusal of the text", row.text, ROOM, 256,
            FORESIGHT_UNEXPLAINED, "", "");
    }
}

/* The message of a call is explained as it stands. */
static void test_message(void) {
    char line[FORESIGHT_MESSAGE_ROOM + 1] = "";
    want(foresight_check((const uint8_t *)SMALL, strlen(SMALL), out, ROOM, message,
        FORESIGHT_MESSAGE_ROOM, &answer) == FORESIGHT_REFUSED, "explain", "nothing is refused");
    memcpy(line, message, answer.told);
    want(strcmp(line, explained[0].refusal) == 0, "explain", "another refusal");
}

/* The same call with each request refused, on standard input. */
static size_t test_input(const struct row *row) {
    static char text[INPUT];
    size_t size = fread(text, 1, INPUT, stdin);
    want(size < INPUT, row->word, "the input is too large for this test");
    refused(row, text, size, ROOM, true);
    return refused(row, text, size, ROOM, false);
}

int main(int count, char **words) {
    memset(too_large, ' ', LARGEST + 1);
    for (size_t i = 0; i < ROWS; i++) {
        if (count == 1) test(&rows[i]);
        if (count == 2 && strcmp(rows[i].word, words[1]) == 0) {
            printf("%zu\n", test_input(&rows[i]));
        }
    }
    if (count == 1) {
        test_message();
        test_explained(&explained[0]);
    }
    return failures > 0;
}
