#include "command.h"

#include "commits.h"
#include "handlers.h"
#include "metrics.h"
#include "resp.h"
#include "serving.h"

#include <inttypes.h>
#include <string.h>

static struct bytes password;

void command_password(const char *path) {
    if (!bytes_read_file(&password, path)) give_up(STATUS_NO_FILE, "%s can't be read", path);
    uint8_t *end = memchr(password.at, '\n', password.size);
    if (end != NULL) password.size = (size_t)(end - password.at);
    if (password.size == 0) give_up(STATUS_NO_FILE, "%s has no password", path);
}

bool command_has_password(void) { return password.size > 0; }

/* Takes as long for a wrong password as for the right one. */
static bool is_password(struct word word) {
    uint8_t a[SUM_SIZE], b[SUM_SIZE], differs = 0;
    sum_of(word.at, word.size, a);
    sum_of(password.at, password.size, b);
    for (int i = 0; i < SUM_SIZE; i++) differs |= a[i] ^ b[i];
    return differs == 0;
}

void command_error(const struct speaker *by, struct bytes *out, const char *text, size_t size) {
    if (by->resp) {
        resp_error(out, text, size);
        return;
    }
    size_t code = size > 4 && memcmp(text, "ERR ", 4) == 0 ? 4 : 0;
    bytes_text(out, "! ");
    bytes_put(out, text + code, size - code);
    bytes_text(out, "\n");
}

static void put_error(const struct speaker *by, struct bytes *out, const char *text) {
    command_error(by, out, text, strlen(text));
}

static void put_outcome(const struct speaker *by, struct bytes *out,
    const struct outcome *outcome) {
    if (outcome->refused) {
        command_error(by, out, outcome->text, outcome->size);
    } else if (by->resp) {
        resp_values(out, outcome->text, outcome->size);
    } else {
        bytes_put(out, outcome->text, outcome->size);
        bytes_text(out, "\n");
    }
}

static void request(struct speaker *by, const struct word *words, size_t count,
    const struct once_id *id, struct bytes *out) {
    static struct outcome outcome;
    serve(words, count, id, &outcome);
    put_outcome(by, out, &outcome);
}

/* Reads whose request it is. */
static bool read_id(struct word client, struct word number, struct once_id *id) {
    *id = (struct once_id){ client, 0 };
    return word_is_value(client) && client.size <= 64 && word_number(number, &id->number);
}

/* ---- Commands. Each is given its words, its own first. */

typedef void does(struct speaker *by, const struct word *words, size_t count, struct bytes *out);

static void do_ping(struct speaker *by, const struct word *words, size_t count, struct bytes *out) {
    (void)by;
    if (count > 1) resp_bulk(out, words[1].at, words[1].size);
    else resp_simple(out, "PONG");
}

static void do_fcall(struct speaker *by, const struct word *words, size_t count,
    struct bytes *out) {
    uint64_t keys = 0;
    struct word given[MOST_WORDS];
    if (count < 3 || !word_number(words[2], &keys) || keys > count - 3) {
        put_error(by, out,
            "ERR FCALL handler n args..: n of the args are keys, which are no more"
            " than the others");
        return;
    }
    given[0] = words[1];
    memcpy(given + 1, words + 3, (count - 3) * sizeof *words);
    request(by, given, count - 2, NULL, out);
}

static void do_once(struct speaker *by, const struct word *words, size_t count, struct bytes *out) {
    struct once_id id;
    if (count < 4 || !read_id(words[1], words[2], &id)) {
        put_error(by, out, "ERR ONCE client number handler args..");
        return;
    }
    request(by, words + 3, count - 3, &id, out);
}

static void do_hello(struct speaker *by, const struct word *words, size_t count,
    struct bytes *out) {
    if (count > 1 && !word_is(words[1], "2")) {
        put_error(by, out, "NOPROTO this is version 2 of the protocol");
        return;
    }
    resp_array(out, 6);
    resp_bulk(out, "server", 6);
    resp_bulk(out, "foresight", 9);
    resp_bulk(out, "proto", 5);
    resp_integer(out, 2);
    resp_bulk(out, "id", 2);
    resp_integer(out, by->id);
}

static void do_auth(struct speaker *by, const struct word *words, size_t count, struct bytes *out) {
    if (!command_has_password()) {
        put_error(by, out, "ERR there is no password");
    } else if (count < 2 || count > 3 || !is_password(words[count - 1])) {
        put_error(by, out, "WRONGPASS the password is another one");
    } else {
        by->may = true;
        if (by->resp) resp_simple(out, "OK");
        else bytes_text(out, "OK\n");
    }
}

static void do_client(struct speaker *by, const struct word *words, size_t count,
    struct bytes *out) {
    if (count > 1 && word_names(words[1], "ID")) resp_integer(out, by->id);
    else if (count > 1 && word_names(words[1], "GETNAME")) bytes_text(out, "$-1\r\n");
    else resp_simple(out, "OK");
}

static void do_empty(struct speaker *by, const struct word *words, size_t count,
    struct bytes *out) {
    (void)by, (void)words, (void)count;
    resp_array(out, 0);
}

static void do_select(struct speaker *by, const struct word *words, size_t count,
    struct bytes *out) {
    if (count == 2 && word_is(words[1], "0")) resp_simple(out, "OK");
    else put_error(by, out, "ERR there is database 0 alone");
}

static void do_quit(struct speaker *by, const struct word *words, size_t count, struct bytes *out) {
    (void)words, (void)count;
    resp_simple(out, "OK");
    by->leaves = true;
}

static void do_multi(struct speaker *by, const struct word *words, size_t count,
    struct bytes *out) {
    (void)words, (void)count;
    put_error(by, out,
        "ERR there is no MULTI: a handler is a transaction, write one that does it all");
}

/* One text as a bulk string. */
static void put_text(struct bytes *out, void (*write)(struct bytes *)) {
    struct bytes text = { NULL, 0, 0 };
    write(&text);
    resp_bulk(out, text.at, text.size);
    bytes_free(&text);
}

static void do_info(struct speaker *by, const struct word *words, size_t count, struct bytes *out) {
    (void)by, (void)words, (void)count;
    put_text(out, metrics_info);
}

static void do_metrics(struct speaker *by, const struct word *words, size_t count,
    struct bytes *out) {
    (void)by, (void)words, (void)count;
    put_text(out, metrics_prometheus);
}

static void do_slow(struct speaker *by, const struct word *words, size_t count, struct bytes *out) {
    (void)by, (void)words, (void)count;
    put_text(out, metrics_slow);
}

static void do_snapshot(struct speaker *by, const struct word *words, size_t count,
    struct bytes *out) {
    (void)words, (void)count;
    if (commits_want_snapshot()) resp_simple(out, "Snapshot begins");
    else put_error(by, out, "ERR a snapshot is under way, or nothing is kept");
}

static const struct command {
    const char *name;
    does *does;
    bool always; /* also before the password */
} COMMANDS[] = { { "ONCE", do_once, false }, { "FCALL", do_fcall, false },
    { "FCALL_RO", do_fcall, false }, { "PING", do_ping, false }, { "AUTH", do_auth, true },
    { "HELLO", do_hello, true }, { "QUIT", do_quit, true }, { "COMMAND", do_empty, false },
    { "CONFIG", do_empty, false }, { "CLIENT", do_client, false }, { "SELECT", do_select, false },
    { "INFO", do_info, false }, { "METRICS", do_metrics, false }, { "SLOWLOG", do_slow, false },
    { "SNAPSHOT", do_snapshot, false }, { "MULTI", do_multi, false }, { "EXEC", do_multi, false },
    { "DISCARD", do_multi, false }, { "WATCH", do_multi, false } };

static const struct command *command_of(struct word name) {
    for (size_t i = 0; i < sizeof COMMANDS / sizeof *COMMANDS; i++) {
        if (word_names(name, COMMANDS[i].name)) return &COMMANDS[i];
    }
    return NULL;
}

void command_names(void) {
    for (size_t i = 0; i < handlers_count; i++) {
        struct word name = { handlers[i].name, strlen(handlers[i].name) };
        if (command_of(name) == NULL) continue;
        say("the handler `%s` has a command's name: Redis clients call it by FCALL",
            handlers[i].name);
    }
}

void command_resp(struct speaker *by, const struct word *words, size_t count, struct bytes *out) {
    if (count == 0) return;
    if (count > MOST_WORDS) {
        put_error(by, out, "ERR too many words");
        return;
    }
    const struct command *command = command_of(words[0]);
    if (!by->may && (command == NULL || !command->always)) {
        put_error(by, out, "NOAUTH a password is needed: AUTH");
    } else if (command != NULL) {
        command->does(by, words, count, out);
    } else {
        request(by, words, count, NULL, out);
    }
}

/* `@client:number` */
static bool line_id(struct word word, struct once_id *id) {
    size_t colon = word.size;
    while (colon > 0 && word.at[colon - 1] != ':') colon--;
    if (colon < 2) return false;
    return read_id((struct word){ word.at + 1, colon - 2 },
        (struct word){ word.at + colon, word.size - colon }, id);
}

void command_line(struct speaker *by, const char *line, size_t size, struct bytes *out) {
    struct word words[MOST_WORDS + 1];
    struct once_id id;
    size_t count = words_of_line(line, size, words, MOST_WORDS);
    if (count == 0) return;
    if (!by->may && word_names(words[0], "AUTH")) {
        do_auth(by, words, count, out);
    } else if (!by->may) {
        put_error(by, out, "NOAUTH a password is needed: AUTH");
    } else if (count > MOST_WORDS) {
        put_error(by, out, "ERR too many words");
    } else if (count == 1 && word_is(words[0], "PING") && handler_of(words[0]) == NULL) {
        bytes_text(out, "PONG\n");
    } else if (*words[0].at != '@') {
        request(by, words, count, NULL, out);
    } else if (count < 2 || !line_id(words[0], &id)) {
        put_error(by, out, "ERR @client:number handler args..");
    } else {
        request(by, words + 1, count - 1, &id, out);
    }
}
