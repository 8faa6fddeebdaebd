#include "metrics.h"

#include "foresight_tickets.h"
#include "log.h"
#include "once.h"
#include "options.h"
#include "serving.h"

#include <inttypes.h>
#include <stdio.h>
#include <string.h>
#include <time.h>

enum { BUCKETS = 256, SLOW_ROWS = 128, SLOW_ROOM = 200 };

/* A bucket is a quarter of a power of two. */
struct times {
    uint64_t counts[BUCKETS], count, sum;
};

static const struct rule {
    const char *begins, *name;
} RULES[] = { { "ERR refused Q1", "Q1" }, { "ERR refused Q2", "Q2" }, { "ERR refused Q3", "Q3" },
    { "ERR too many names", "names" }, { "BUSY", "busy" }, { "TOO OLD", "too_old" },
    { "ERR the number", "other_request" }, { "", "other" } };
enum { RULES_COUNT = sizeof RULES / sizeof *RULES };

static uint64_t refused[RULES_COUNT], again, connections, connected, commits, snapshot;
static struct times requests, committing;
static char slow[SLOW_ROWS][SLOW_ROOM];
static uint64_t slow_count;

uint64_t metrics_clock(void) {
    struct timespec now;
    clock_gettime(CLOCK_MONOTONIC, &now);
    return (uint64_t)now.tv_sec * 1000000000 + (uint64_t)now.tv_nsec;
}

static void add_time(struct times *times, uint64_t nanoseconds) {
    int bits = nanoseconds < 4 ? 2 : 63 - __builtin_clzll(nanoseconds);
    times->counts[4 * bits + (int)(nanoseconds >> (bits - 2) & 3)]++;
    times->count++;
    times->sum += nanoseconds;
}

/* The end of the bucket in which a part of all times ends, in seconds. */
static double time_at(const struct times *times, double part) {
    uint64_t want = (uint64_t)(part * (double)times->count), have = 0;
    for (int i = 0; i < BUCKETS; i++) {
        have += times->counts[i];
        if (have > want) return (double)((uint64_t)(5 + i % 4) << (i / 4 - 2)) / 1e9;
    }
    return 0;
}

static void add_slow(uint64_t nanoseconds, const struct word *words, size_t count) {
    char *row = slow[slow_count++ % SLOW_ROWS];
    int at = snprintf(row, SLOW_ROOM, "%" PRIu64 " us:", nanoseconds / 1000);
    for (size_t i = 0; i < count && at < SLOW_ROOM - 70; i++) {
        at +=
            snprintf(row + at, (size_t)(SLOW_ROOM - at), " %.*s", (int)words[i].size, words[i].at);
    }
}

void metrics_refused(const struct outcome *out) {
    size_t rule = 0;
    while (strncmp(out->text, RULES[rule].begins, strlen(RULES[rule].begins)) != 0) rule++;
    refused[rule]++;
}

void metrics_served(struct handler *handler, uint64_t began, const struct word *words, size_t count,
    const struct outcome *out) {
    uint64_t took = metrics_clock() - began;
    add_time(&requests, took);
    if (took >= options.slow_milliseconds * 1000000) add_slow(took, words, count);
    if (out->refused) {
        metrics_refused(out);
        return;
    }
    handler->served++;
    handler->nanoseconds += took;
}

void metrics_again(const struct outcome *out) {
    if (out->refused) metrics_refused(out);
    else again++;
}

void metrics_committed(uint64_t nanoseconds, size_t rows) {
    add_time(&committing, nanoseconds);
    commits += rows > 0;
}

void metrics_connection(int change) {
    connected += (uint64_t)change;
    connections += change > 0;
}

void metrics_snapshot(uint64_t position) { snapshot = position; }

void metrics_info(struct bytes *out) {
    bytes_format(out, "# Server\r\nforesight_version:%u.%u\r\n", foresight_version() / 10000,
        foresight_version() / 100 % 100);
    bytes_format(out, "connected_clients:%" PRIu64 "\r\nhandlers:%zu\r\n", connected,
        handlers_count);
    bytes_format(out, "# Requests\r\nserved:%" PRIu64 "\r\nagain:%" PRIu64 "\r\n", requests.count,
        again);
    for (size_t i = 0; i < RULES_COUNT; i++) {
        bytes_format(out, "refused_%s:%" PRIu64 "\r\n", RULES[i].name, refused[i]);
    }
    struct held held;
    tables_counts(&held);
    bytes_format(out, "# Tables\r\nnames:%" PRIu32 "\r\nmost_names:%" PRIu32 "\r\nrenewals:%" PRIu64
        "\r\nentries:%" PRIu64 "\r\n", held.names, held.most_names, held.renewals, held.entries);
    bytes_format(out, "# Log\r\nposition:%" PRIu64 "\r\nwaiting:%zu\r\nsnapshot:%" PRIu64 "\r\n",
        serving.position, serving.pending == NULL ? 0 : serving.pending->count, snapshot);
    bytes_format(out, "commits:%" PRIu64 "\r\ncommit_p50_us:%.0f\r\ncommit_p99_us:%.0f\r\n",
        commits, 1e6 * time_at(&committing, 0.5), 1e6 * time_at(&committing, 0.99));
    bytes_format(out, "once_clients:%zu\r\nonce_forgotten:%" PRIu64 "\r\n", once_clients(),
        once_forgotten());
}

static void put_summary(struct bytes *out, const char *name, const struct times *times) {
    static const char *const parts[] = { "0.5", "0.99", "0.999" };
    static const double values[] = { 0.5, 0.99, 0.999 };
    bytes_format(out, "# TYPE foresight_%s summary\n", name);
    for (int i = 0; i < 3; i++) {
        bytes_format(out, "foresight_%s{quantile=\"%s\"} %g\n", name, parts[i],
            time_at(times, values[i]));
    }
    bytes_format(out, "foresight_%s_sum %g\nforesight_%s_count %" PRIu64 "\n", name,
        (double)times->sum / 1e9, name, times->count);
}

static void put_one(struct bytes *out, const char *name, const char *type, uint64_t number) {
    bytes_format(out, "# TYPE foresight_%s %s\nforesight_%s %" PRIu64 "\n", name, type, name,
        number);
}

void metrics_prometheus(struct bytes *out) {
    bytes_text(out, "# TYPE foresight_served_total counter\n");
    for (size_t i = 0; i < handlers_count; i++) {
        bytes_format(out, "foresight_served_total{handler=\"%s\"} %" PRIu64 "\n", handlers[i].name,
            handlers[i].served);
    }
    bytes_text(out, "# TYPE foresight_handler_seconds_total counter\n");
    for (size_t i = 0; i < handlers_count; i++) {
        bytes_format(out, "foresight_handler_seconds_total{handler=\"%s\"} %g\n", handlers[i].name,
            (double)handlers[i].nanoseconds / 1e9);
    }
    bytes_text(out, "# TYPE foresight_refused_total counter\n");
    for (size_t i = 0; i < RULES_COUNT; i++) {
        bytes_format(out, "foresight_refused_total{rule=\"%s\"} %" PRIu64 "\n", RULES[i].name,
            refused[i]);
    }
    put_one(out, "answered_again_total", "counter", again);
    put_one(out, "connections", "gauge", connected);
    put_one(out, "connections_total", "counter", connections);
    put_one(out, "position", "counter", serving.position);
    put_one(out, "snapshot_position", "gauge", snapshot);
    put_one(out, "waiting", "gauge", serving.pending == NULL ? 0 : serving.pending->count);
    struct held held;
    tables_counts(&held);
    put_one(out, "names", "gauge", held.names);
    put_one(out, "names_most", "gauge", held.most_names);
    put_one(out, "name_renewals_total", "counter", held.renewals);
    put_one(out, "entries", "gauge", held.entries);
    put_one(out, "once_clients", "gauge", once_clients());
    put_one(out, "once_forgotten_total", "counter", once_forgotten());
    put_summary(out, "request_seconds", &requests);
    put_summary(out, "commit_seconds", &committing);
}

void metrics_slow(struct bytes *out) {
    uint64_t most = slow_count < SLOW_ROWS ? slow_count : SLOW_ROWS;
    for (uint64_t i = 1; i <= most; i++) {
        bytes_format(out, "%s\n", slow[(slow_count - i) % SLOW_ROWS]);
    }
}
