#include "options.h"

#include "bytes.h"

#include <stdio.h>
#include <stdlib.h>
#include <string.h>
#include <unistd.h>

struct options options = { .most_names = 1000000,
    .connections = 1000,
    .idle_seconds = 300,
    .queue = 10000,
    .slow_milliseconds = 10,
    .once_clients = 4096,
    .once_window = 64,
    .snapshot_every = 100000,
    .send_seconds = 5,
    .checkpoint = 1000 };

enum sort { TEXT, NUMBER, FLAG };

static const struct word_of {
    const char *word;
    enum sort sort;
    void *at;
    uint64_t least, most;
    const char *meaning;
} WORDS[] = {
    { "--handlers", TEXT, &options.handlers, 0, 0,
        "FILE: handlers, perhaps `%% tables`, entries and `%%`" },
    { "--data", TEXT, &options.data, 0, 0, "FILE: the log; without it nothing is kept" },
    { "--unix", TEXT, &options.unix_path, 0, 0, "PATH: a socket" },
    { "--listen", TEXT, &options.listen, 0, 0,
        "ADDRESS:PORT: TCP; beyond loopback a password is needed" },
    { "--password-file", TEXT, &options.password_file, 0, 0,
        "FILE: its first line is the password" },
    { "--most-names", NUMBER, &options.most_names, 1, 4000000000, "N: words that are kept" },
    { "--connections", NUMBER, &options.connections, 1, 1000000, "N at a time" },
    { "--idle", NUMBER, &options.idle_seconds, 0, 1000000,
        "SECONDS after which a silent client is let go; 0: never" },
    { "--send", NUMBER, &options.send_seconds, 1, 1000000,
        "SECONDS that a client may take to read" },
    { "--queue", NUMBER, &options.queue, 1, 10000000,
        "N changes that may wait for the disk; more are answered BUSY" },
    { "--slow", NUMBER, &options.slow_milliseconds, 0, 1000000,
        "MILLISECONDS from which SLOWLOG has a request" },
    { "--once-clients", NUMBER, &options.once_clients, 1, 1000000, "N that ONCE knows" },
    { "--once-window", NUMBER, &options.once_window, 1, 10000, "N numbers of each" },
    { "--snapshot-every", NUMBER, &options.snapshot_every, 0, INT64_MAX,
        "N changes; 0: only at the end" },
    { "--checkpoint", NUMBER, &options.checkpoint, 1, 1000000,
        "PAGES of the WAL, which are then copied into the database" },
    { "--keep-log", FLAG, &options.keep_log, 0, 0, "keeps what is before a snapshot" },
    { "--backup", TEXT, &options.backup, 0, 0,
        "FILE: copies --data, which may be in use, and ends" },
    { "--change", TEXT, &options.change, 0, 0,
        "FILE: makes data for other --handlers with the tables of --data, and ends" },
    { "--until", NUMBER, &options.until, 0, INT64_MAX, "POSITION: cuts a copy behind it" },
    { "--print-log", FLAG, &options.print_log, 0, 0,
        "writes handlers and log as a session file, and ends" },
    { "--print-tables", FLAG, &options.print_tables, 0, 0,
        "writes the tables, as `foresight dump`, and ends" },
};

static void usage(void) {
    fputs("usage: foresight-server --handlers FILE [--data FILE] [--unix PATH] [--listen "
          "ADDRESS:PORT]\n",
        stderr);
    for (size_t i = 0; i < sizeof WORDS / sizeof *WORDS; i++) {
        fprintf(stderr, "  %s %s\n", WORDS[i].word, WORDS[i].meaning);
    }
    exit(STATUS_USAGE);
}

static void take_number(const struct word_of *word, const char *text) {
    char *end;
    uint64_t number = strtoull(text, &end, 10);
    if (*text < '0' || *text > '9' || *end != 0 || number < word->least || number > word->most) {
        usage();
    }
    *(uint64_t *)word->at = number;
    if (word->at == &options.until) options.has_until = true;
}

static const struct word_of *word_of(const char *text) {
    for (size_t i = 0; i < sizeof WORDS / sizeof *WORDS; i++) {
        if (strcmp(WORDS[i].word, text) == 0) return &WORDS[i];
    }
    usage();
    return NULL;
}

void options_read(int count, char **words) {
    for (int i = 1; i < count; i++) {
        const struct word_of *word = word_of(words[i]);
        if (word->sort == FLAG) {
            *(bool *)word->at = true;
            continue;
        }
        if (++i == count) usage();
        if (word->sort == TEXT) *(const char **)word->at = words[i];
        else take_number(word, words[i]);
    }
    bool ends = options.backup != NULL || options.print_log || options.print_tables
                || options.change != NULL;
    bool opens = options.unix_path != NULL || options.listen != NULL;
    if ((ends || options.has_until) && options.data == NULL) usage();
    if (options.change != NULL && options.handlers == NULL) usage();
    if (!ends && (options.handlers == NULL || !opens)) usage();
}
