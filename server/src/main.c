/* foresight-server: a durable server over a session of the library. See server/README.md. */
#include "client.h"
#include "command.h"
#include "commits.h"
#include "disk.h"
#include "handlers.h"
#include "metrics.h"
#include "offline.h"
#include "options.h"
#include "serving.h"
#include "snapshot.h"
#include "tables.h"

#include "foresight_tickets.h"

#include <inttypes.h>
#include <signal.h>
#include <stdio.h>
#include <stdlib.h>
#include <string.h>
#include <sys/resource.h>
#include <unistd.h>

enum { END_SECONDS = 30 };

static struct head head;
static bool ending, skips_snapshot, snapshot_asked;
static uint64_t end_began;
static uv_timer_t end_tick;
static uv_async_t woken;
static volatile sig_atomic_t terminated;

/* ---- The beginning. */

/* Handlers are those of the data; those that are given have to be the same. */
static void open_tables(void) {
    struct bytes given = { NULL, 0, 0 };
    if (options.handlers != NULL && !bytes_read_file(&given, options.handlers)) {
        give_up(STATUS_NO_FILE, "%s can't be read", options.handlers);
    }
    bool there = options.data != NULL && log_open(options.data, options.handlers != NULL);
    if (!there && options.handlers == NULL) give_up(STATUS_NO_FILE, "%s has no log", options.data);
    if (!there) {
        head = (struct head){ given, foresight_version(), (uint32_t)options.most_names,
            options.once_clients, options.once_window, { 0 } };
        seal_of(&head);
        tables_open(&given, head.most_names);
        handlers_read(&given);
        if (options.data != NULL) log_create(&head, NULL);
    }
    if (options.data == NULL) once_open(options.once_clients, options.once_window);
    if (options.data == NULL) return;
    head.handlers = (struct bytes){ NULL, 0, 0 };
    if (options.has_until && !log_is_copy()) {
        give_up(STATUS_REFUSED, "--until cuts the log: it is for a copy, made by --backup");
    }
    serve_log(options.data, &head, options.has_until ? options.until : INT64_MAX);
    handlers_read(&head.handlers);
    bool same = options.handlers == NULL
                || (given.size == head.handlers.size
                    && memcmp(given.at, head.handlers.at, given.size) == 0);
    if (!same) give_up(STATUS_REFUSED, "the data is of other handlers");
    options.once_window = head.once_window;
}

/* ---- The end. */

static void finish(void) {
    if (options.data != NULL) log_close();
    say("ends at position %" PRIu64, serving.position);
    exit(STATUS_FINE);
}

/* All that was served is committed and answered, then a snapshot, then the end. */
static void try_to_end(void) {
    if (!commits_done()) return;
    if (!skips_snapshot && !snapshot_asked) {
        snapshot_asked = true;
        commits_want_snapshot();
        commits_turn();
    }
    bool sent = clients_quiet() || metrics_clock() - end_began > options.send_seconds * 1000000000;
    if ((skips_snapshot || commits_quiet()) && sent) finish();
}

static void on_tick(uv_timer_t *timer) {
    (void)timer;
    try_to_end();
}

/* Also while the disk doesn't answer. */
static void on_alarm(int number) {
    static const char late[] = "foresight-server: 30 seconds were not enough to end\n";
    (void)number;
    if (write(2, late, sizeof late - 1) < 0) _exit(STATUS_LATE);
    _exit(STATUS_LATE);
}

static void on_terminate(int number) {
    (void)number;
    if (terminated++ == 0) alarm(END_SECONDS);
    uv_async_send(&woken);
}

static void on_woken(uv_async_t *async) {
    (void)async;
    skips_snapshot = terminated > 1;
    if (ending) return;
    ending = true;
    end_began = metrics_clock();
    say("ends");
    clients_end();
    commits_end();
    uv_timer_start(&end_tick, on_tick, 0, 20);
}

/* Before the loop waits: what was served since it waited last is committed at one go. */
static void on_turn(uv_prepare_t *prepare) {
    (void)prepare;
    commits_turn();
}

/* As many descriptors as connections, or as many connections as descriptors. */
static void take_descriptors(void) {
    enum { OTHERS = 64 };
    struct rlimit limit;
    if (getrlimit(RLIMIT_NOFILE, &limit) != 0) return;
    uint64_t wanted = options.connections + OTHERS;
    limit.rlim_cur = limit.rlim_max < wanted ? limit.rlim_max : wanted;
    if (setrlimit(RLIMIT_NOFILE, &limit) != 0 || limit.rlim_cur >= wanted) return;
    options.connections = limit.rlim_cur > 2 * OTHERS ? limit.rlim_cur - OTHERS : OTHERS;
    say("at most %" PRIu64 " connections, for want of descriptors", options.connections);
}

static void watch(uv_loop_t *loop) {
    struct sigaction terminates = { .sa_handler = on_terminate, .sa_flags = SA_RESTART };
    static uv_prepare_t turn;
    signal(SIGPIPE, SIG_IGN);
    signal(SIGHUP, SIG_IGN);
    signal(SIGALRM, on_alarm);
    uv_async_init(loop, &woken, on_woken);
    sigaction(SIGTERM, &terminates, NULL);
    sigaction(SIGINT, &terminates, NULL);
    uv_prepare_init(loop, &turn);
    uv_prepare_start(&turn, on_turn);
    uv_timer_init(loop, &end_tick);
}

int main(int count, char **words) {
    uv_loop_t *loop = uv_default_loop();
    struct named named = { 0 };
    options_read(count, words);
    if (options.backup != NULL) return offline_backup();
    if (options.data != NULL) disk_lock(options.data);
    if (options.print_log) return offline_print_log();
    if (options.change != NULL) return offline_change();
    open_tables();
    if (options.print_tables) return offline_print_tables();
    if (options.password_file != NULL) command_password(options.password_file);
    command_names();
    take_descriptors();
    clients_begin(loop);
    watch(loop);
    if (options.data != NULL) {
        log_named(&named);
        snapshot_clean(options.data, named.stand.position);
        commits_begin(loop, &head, &named);
    }
    if (options.unix_path != NULL) clients_listen_unix(options.unix_path);
    if (options.listen != NULL) clients_listen_tcp(options.listen);
    return uv_run(loop, UV_RUN_DEFAULT);
}
