#include "commits.h"

#include "client.h"
#include "metrics.h"
#include "options.h"
#include "serving.h"
#include "snapshot.h"

#include <inttypes.h>

/* A snapshot is taken (its text is in memory) after a commit, written by another thread, and then
 * named by a next transaction. */
enum stage { NONE, WANTED, WRITING, WRITTEN };

static struct {
    uv_loop_t *loop;
    const struct head *head;
    struct batch pending;
    uint64_t trim; /* rows up to this position are to be taken out */
    bool ends;
} commits;

static struct {
    enum stage stage;
    uv_work_t writer;
    struct bytes body;
    uint64_t now, named_at, tried_at;
    struct stand stand;
    struct named named;
    const char *fault;
} snap;

void commits_begin(uv_loop_t *loop, const struct head *head, const struct named *named) {
    commits.loop = loop;
    commits.head = head;
    snap.named_at = snap.tried_at = named->stand.position;
    if (!options.keep_log) commits.trim = snap.named_at;
    serving.pending = &commits.pending;
    metrics_snapshot(snap.named_at);
}

bool commits_done(void) { return commits.pending.count == 0; }

void commits_end(void) {
    commits.ends = true;
    commits.trim = 0;
}

bool commits_quiet(void) { return commits_done() && snap.stage == NONE; }

bool commits_want_snapshot(void) {
    if (serving.pending == NULL || snap.stage != NONE) return false;
    snap.stage = WANTED;
    return true;
}

static void write_snapshot(uv_work_t *work) {
    (void)work;
    snap.fault = snapshot_write(options.data, &snap.stand, snap.now, &snap.body, &snap.named);
}

static void snapshot_written(uv_work_t *work, int status) {
    (void)work, (void)status;
    bytes_free(&snap.body);
    snap.stage = snap.fault == NULL ? WRITTEN : NONE;
    if (snap.fault != NULL) say("no snapshot: %s", snap.fault);
}

/* All that was served is committed. */
static void take_snapshot(void) {
    snap.tried_at = serving.position;
    snap.stage = NONE;
    if (serving.position == snap.named_at) return;
    if (!snapshot_take(&commits.head->handlers, &snap.body)) {
        say("no snapshot: one of more than 100,000 entries or 4,194,304 bytes can't be opened "
            "again;"
            " the log is kept");
        return;
    }
    snap.stand = log_stand();
    snap.now = serving.now;
    snap.stage = WRITING;
    uv_queue_work(commits.loop, &snap.writer, write_snapshot, snapshot_written);
}

/* A snapshot was named: the one before isn't needed any more. */
static void was_named(void) {
    snapshot_remove(options.data, snap.named_at);
    snap.named_at = snap.stand.position;
    snap.stage = NONE;
    metrics_snapshot(snap.named_at);
    say("snapshot of position %" PRIu64, snap.named_at);
    if (!options.keep_log && !commits.ends) commits.trim = snap.named_at;
}

/* Nothing is served, committed or synced after a fault. */
static void end_if(const char *fault) {
    if (fault == NULL) return;
    clients_unknown();
    give_up(STATUS_LOG_FAULT, "the log can't be written: %s; what waits for it is unknown", fault);
}

static void commit(void) {
    struct work work = { &commits.pending, NULL, commits.trim, false };
    uint64_t began = metrics_clock();
    if (snap.stage == WRITTEN) work.name = &snap.named;
    if (work.rows->count == 0 && work.name == NULL && work.trim == 0) return;
    end_if(log_commit(&work));
    metrics_committed(metrics_clock() - began, work.rows->count);
    batch_clear(&commits.pending);
    clients_committed();
    if (work.trim > 0 && !work.more) commits.trim = 0;
    if (work.name != NULL) was_named();
    if (log_is_long(options.checkpoint)) end_if(log_checkpoint());
}

void commits_turn(void) {
    if (serving.pending == NULL) return;
    commit();
    bool due =
        options.snapshot_every > 0 && serving.position - snap.tried_at >= options.snapshot_every;
    if (due) commits_want_snapshot();
    if (snap.stage == WANTED) take_snapshot();
}
