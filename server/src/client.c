#include "client.h"

#include "client_list.h"
#include "command.h"
#include "commits.h"
#include "metrics.h"
#include "options.h"
#include "resp.h"

#include <stdlib.h>
#include <string.h>

enum {
    READ_ROOM = 65536,
    LINE_ROOM = 65536,
    OUT_MOST = 1 << 20,
    TURN_REQUESTS = 64,
    TURN_NANOSECONDS = 5000000,
    IDLE_ROOM = 16384
};

static uv_idle_t idle; /* runs as long as somebody has something to be served */
static struct client *more, *last_more;
static uint64_t queued;
static bool ending;

static void update(struct client *client);
static void serve_more(uv_idle_t *handle);

/* ---- Sending. */

static void written(uv_write_t *write, int status) {
    struct client *client = write->data;
    client->sending.size = 0;
    client->write_began = 0;
    if (status != 0) client_close(client);
    else client_send(client);
}

static bool is_full(const struct client *client) {
    return client->out.size + client->sending.size > OUT_MOST;
}

void client_send(struct client *client) {
    if (client->closing || client->write_began != 0) return;
    if (client->release > 0) {
        uv_buf_t buffer = uv_buf_init((char *)client->out.at, (unsigned)client->release);
        int sent = uv_try_write(&client->at.stream, &buffer, 1);
        if (sent < 0 && sent != UV_EAGAIN) {
            client_close(client);
            return;
        }
        size_t done = sent < 0 ? 0 : (size_t)sent;
        if (done < client->release) {
            bytes_put(&client->sending, client->out.at + done, client->release - done);
            buffer = uv_buf_init((char *)client->sending.at, (unsigned)client->sending.size);
            client->write.data = client;
            client->write_began = metrics_clock();
            if (uv_write(&client->write, &client->at.stream, &buffer, 1, written) != 0) {
                client_close(client);
                return;
            }
        }
        bytes_drop(&client->out, client->release);
        client->release = 0;
        client->active = metrics_clock();
    }
    update(client);
}

/* ---- Serving. */

/* The next line: how many bytes it has. */
static size_t serve_line(struct client *client, const char *at, size_t size) {
    static const char long_line[] = "ERR a line too long";
    const char *feed = memchr(at, '\n', size);
    bool too_long = feed == NULL ? size >= LINE_ROOM : feed - at >= LINE_ROOM;
    if (feed == NULL && !too_long) return 0;
    if (too_long && !client->skips) {
        command_error(&client->by, &client->out, long_line, sizeof long_line - 1);
    } else if (!client->skips) {
        command_line(&client->by, at, (size_t)(feed - at), &client->out);
    }
    client->skips = feed == NULL;
    return feed == NULL ? size : (size_t)(feed - at) + 1;
}

/* The next command of RESP. */
static size_t serve_command(struct client *client, const char *at, size_t size) {
    struct word words[MOST_WORDS];
    const char *fault = NULL;
    size_t count = 0, used = resp_read(at, size, words, &count, &fault);
    if (used == 0 && fault == NULL && size > MOST_COMMAND) fault = "ERR Protocol error: too long";
    if (fault != NULL) {
        command_error(&client->by, &client->out, fault, strlen(fault));
        client->by.leaves = true;
        return size;
    }
    if (used > 0) command_resp(&client->by, words, count, &client->out);
    return used;
}

/* Serves some of what was read; whether there may be more. */
static bool serve_some(struct client *client, uint64_t until) {
    for (int i = 0; i < TURN_REQUESTS; i++) {
        const char *at = (char *)client->in.at + client->used;
        size_t left = client->in.size - client->used;
        if (left == 0 || client->by.leaves || is_full(client)) break;
        if (!client->by.known) {
            client->by.known = true;
            client->by.resp = *at == '*';
        }
        size_t used =
            client->by.resp ? serve_command(client, at, left) : serve_line(client, at, left);
        if (used == 0) return false;
        client->used += used;
        if (metrics_clock() > until) break;
    }
    return client->used < client->in.size && !client->by.leaves;
}

static void serve_read(struct client *client, uint64_t until) {
    client->has_more = serve_some(client, until);
    if (client->used > client->in.size / 2) {
        bytes_drop(&client->in, client->used);
        client->used = 0;
    }
    if (client->in.size == 0 && client->in.room > IDLE_ROOM) bytes_free(&client->in);
    if (commits_done()) client->release = client->out.size;
    else client_wait(client);
    client_send(client);
}

static void add_more(struct client *client) {
    if (client->in_more) return;
    client->in_more = true;
    client->next_more = NULL;
    *(more != NULL ? &last_more->next_more : &more) = client;
    last_more = client;
    queued++;
    uv_idle_start(&idle, serve_more);
}

/* Each who sent something has a turn, in order, and all of them share the time: so nobody waits
 * longer than that and one request of each. */
static void serve_more(uv_idle_t *handle) {
    uint64_t count = queued, share = TURN_NANOSECONDS / (count + 1);
    (void)handle;
    for (uint64_t i = 0; i < count; i++) {
        struct client *client = more;
        more = client->next_more;
        client->in_more = false;
        queued--;
        if (!client->closing && !ending) serve_read(client, metrics_clock() + share);
        client_free_closed(client);
    }
    if (more == NULL) uv_idle_stop(&idle);
}

/* ---- Reading. */

static void give_room(uv_handle_t *handle, size_t size, uv_buf_t *buffer) {
    static char room[READ_ROOM];
    (void)handle;
    (void)size;
    *buffer = uv_buf_init(room, sizeof room);
}

static void was_read(uv_stream_t *stream, ssize_t size, const uv_buf_t *buffer) {
    struct client *client = stream->data;
    if (size == UV_EOF) {
        client->ended = true;
        update(client);
    } else if (size < 0) {
        client_close(client);
    } else if (size > 0) {
        client->active = metrics_clock();
        bytes_put(&client->in, buffer->base, (size_t)size);
        client->has_more = true;
        update(client);
    }
}

/* Reads from a client, or serves more of what was read, or waits until it has read its answers, or
 * lets it go. */
static void update(struct client *client) {
    if (client->closing) return;
    bool serves = client->has_more && !is_full(client) && !ending;
    bool reads = client->in.size - client->used <= MOST_COMMAND && !is_full(client)
                 && !client->ended && !client->by.leaves && !ending;
    if (serves) add_more(client);
    if (reads && !client->reads) uv_read_start(&client->at.stream, give_room, was_read);
    if (!reads && client->reads) uv_read_stop(&client->at.stream);
    client->reads = reads;
    bool gone = client->by.leaves || (client->ended && !client->has_more);
    if (gone && client->out.size == 0 && client->write_began == 0) client_close(client);
}

/* ---- Coming and going. */

static void accept_one(uv_stream_t *listener, int status) {
    static const char full[] = "-ERR max number of clients reached\r\n";
    if (status != 0) return; /* there may be no descriptor for now */
    struct client *client = client_new(listener);
    if (client == NULL) return;
    if (clients_count > options.connections && !clients_make_room(client)) {
        uv_buf_t buffer = uv_buf_init((char *)full, sizeof full - 1);
        uv_try_write(&client->at.stream, &buffer, 1);
        client_close(client);
        return;
    }
    client->by.may = !command_has_password();
    update(client);
}

void clients_begin(uv_loop_t *loop) {
    uv_idle_init(loop, &idle);
    clients_open(loop, accept_one);
}

void clients_end(void) {
    ending = true;
    clients_close_listeners();
    for (struct client *client = clients_first; client != NULL; client = client->next)
        update(client);
}

bool clients_quiet(void) {
    for (struct client *client = clients_first; client != NULL; client = client->next) {
        if (client->out.size > 0 || client->write_began != 0) return false;
    }
    return true;
}
