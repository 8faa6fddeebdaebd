#include "client_list.h"

#include "client.h"
#include "metrics.h"
#include "options.h"

#include <stdio.h>
#include <stdlib.h>
#include <string.h>
#include <sys/stat.h>
#include <unistd.h>

enum { BACKLOG = 511, TICK_MILLISECONDS = 1000 };
static const uint64_t SECOND = 1000000000;

static uv_loop_t *loop;
static uv_connection_cb accept_client;
static uv_pipe_t unix_listener;
static uv_tcp_t tcp_listener;
static uv_timer_t ticks;
static struct client *waiting;
static uint64_t last_id;

struct client *clients_first;
uint64_t clients_count;

/* ---- Clients. */

void client_free_closed(struct client *client) {
    if (!client->closed || client->in_more || client->waits) return;
    bytes_free(&client->in);
    bytes_free(&client->out);
    bytes_free(&client->sending);
    free(client);
}

static void was_closed(uv_handle_t *handle) {
    struct client *client = handle->data;
    client->closed = true;
    client_free_closed(client);
}

void client_close(struct client *client) {
    if (client->closing) return;
    client->closing = true;
    *(client->previous != NULL ? &client->previous->next : &clients_first) = client->next;
    if (client->next != NULL) client->next->previous = client->previous;
    clients_count--;
    metrics_connection(-1);
    uv_close(&client->at.handle, was_closed);
}

struct client *client_new(uv_stream_t *listener) {
    struct client *client = calloc(1, sizeof *client);
    if (client == NULL) return NULL;
    bool is_tcp = listener == (uv_stream_t *)&tcp_listener;
    if (is_tcp) uv_tcp_init(loop, &client->at.tcp);
    else uv_pipe_init(loop, &client->at.pipe, 0);
    client->at.handle.data = client;
    client->by.id = ++last_id;
    client->active = metrics_clock();
    client->next = clients_first;
    if (clients_first != NULL) clients_first->previous = client;
    clients_first = client;
    clients_count++;
    metrics_connection(1);
    if (uv_accept(listener, &client->at.stream) != 0) {
        client_close(client);
        return NULL;
    }
    if (is_tcp) uv_tcp_nodelay(&client->at.tcp, 1);
    return client;
}

bool clients_make_room(const struct client *but) {
    struct client *gone = NULL;
    uint64_t now = metrics_clock(), longest = 0;
    for (struct client *client = clients_first; client != NULL; client = client->next) {
        if (client == but || client->out.size > 0 || client->has_more) continue;
        uint64_t silent = now - client->active, limit = client->by.known ? 10 * SECOND : SECOND;
        if (!client->by.known) silent *= 1000; /* they go first */
        if (now - client->active < limit || silent <= longest) continue;
        longest = silent;
        gone = client;
    }
    if (gone != NULL) client_close(gone);
    return gone != NULL;
}

/* Lets go who doesn't read, and who is silent. */
static void look_at_all(uv_timer_t *timer) {
    uint64_t now = metrics_clock();
    (void)timer;
    for (struct client *client = clients_first, *next; client != NULL; client = next) {
        next = client->next;
        bool mute =
            client->write_began != 0 && now - client->write_began > options.send_seconds * SECOND;
        bool silent = options.idle_seconds != 0 && client->out.size == 0 && !client->has_more
                      && now - client->active > options.idle_seconds * SECOND;
        if (mute || silent) client_close(client);
    }
}

/* ---- Commits. */

void client_wait(struct client *client) {
    if (client->waits || client->out.size == 0) return;
    client->waits = true;
    client->next_waiting = waiting;
    waiting = client;
}

void clients_committed(void) {
    struct client *list = waiting;
    waiting = NULL;
    while (list != NULL) {
        struct client *client = list;
        list = client->next_waiting;
        client->waits = false;
        client->release = client->out.size;
        client_send(client);
        client_free_closed(client);
    }
}

void clients_unknown(void) {
    static const char unknown[] = "UNKNOWN: retry with your number";
    for (struct client *client = waiting; client != NULL; client = client->next_waiting) {
        if (client->closing) continue;
        client->out.size = 0;
        command_error(&client->by, &client->out, unknown, sizeof unknown - 1);
        uv_buf_t buffer = uv_buf_init((char *)client->out.at, (unsigned)client->out.size);
        uv_try_write(&client->at.stream, &buffer, 1);
    }
}

/* ---- Listeners. */

void clients_open(uv_loop_t *its_loop, uv_connection_cb accept) {
    loop = its_loop;
    accept_client = accept;
    uv_timer_init(loop, &ticks);
    uv_timer_start(&ticks, look_at_all, TICK_MILLISECONDS, TICK_MILLISECONDS);
}

static void listen_on(void *listener, const char *text) {
    int status = uv_listen(listener, BACKLOG, accept_client);
    if (status != 0) give_up(STATUS_NO_FILE, "%s: %s", text, uv_strerror(status));
}

void clients_listen_unix(const char *path) {
    struct stat is;
    if (lstat(path, &is) == 0 && S_ISSOCK(is.st_mode)) unlink(path);
    uv_pipe_init(loop, &unix_listener, 0);
    int status = uv_pipe_bind(&unix_listener, path);
    if (status != 0) give_up(STATUS_NO_FILE, "%s: %s", path, uv_strerror(status));
    listen_on(&unix_listener, path);
    say("unix %s", path);
}

/* `ADDRESS:PORT`, an address in numbers. */
static bool read_address(const char *text, struct sockaddr_storage *at) {
    char host[64];
    const char *colon = strrchr(text, ':');
    if (colon == NULL || colon == text || (size_t)(colon - text) >= sizeof host) return false;
    snprintf(host, sizeof host, "%.*s", (int)(colon - text), text);
    int port = atoi(colon + 1);
    if (uv_ip4_addr(host, port, (struct sockaddr_in *)at) == 0) return true;
    return uv_ip6_addr(host, port, (struct sockaddr_in6 *)at) == 0;
}

static bool is_loopback(const struct sockaddr_storage *at) {
    static const uint8_t six[16] = { [15] = 1 };
    if (at->ss_family == AF_INET) {
        return ntohl(((const struct sockaddr_in *)at)->sin_addr.s_addr) >> 24 == 127;
    }
    return memcmp(&((const struct sockaddr_in6 *)at)->sin6_addr, six, sizeof six) == 0;
}

void clients_listen_tcp(const char *text) {
    struct sockaddr_storage at;
    int size = sizeof at;
    if (!read_address(text, &at)) give_up(STATUS_USAGE, "%s is no ADDRESS:PORT", text);
    if (!is_loopback(&at) && !command_has_password()) {
        give_up(STATUS_USAGE, "%s isn't loopback: this needs --password-file", text);
    }
    uv_tcp_init(loop, &tcp_listener);
    int status = uv_tcp_bind(&tcp_listener, (struct sockaddr *)&at, 0);
    if (status != 0) give_up(STATUS_NO_FILE, "%s: %s", text, uv_strerror(status));
    listen_on(&tcp_listener, text);
    uv_tcp_getsockname(&tcp_listener, (struct sockaddr *)&at, &size);
    say("tcp port %d", ntohs(((struct sockaddr_in *)&at)->sin_port));
}

void clients_close_listeners(void) {
    if (unix_listener.loop != NULL) uv_close((uv_handle_t *)&unix_listener, NULL);
    if (tcp_listener.loop != NULL) uv_close((uv_handle_t *)&tcp_listener, NULL);
}
