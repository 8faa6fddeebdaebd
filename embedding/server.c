/* server HANDLERS [unix PATH | tcp PORT]..: serves a session to many clients. HANDLERS is a session
 * file without requests. A client sends requests as lines, in any number at a time, and gets a line
 * for each: its reply, or `! ` and why it isn't served. A line without words gets none. At the top of
 * the repository it is built by
 *
 *     cc -std=gnu99 -pthread embedding/server.c target/look/libforesight.a -o target/look/server
 *
 * Each connection has a thread. The session is guarded by one mutex, which no thread holds while it
 * reads or sends: requests are served in the order in which threads take it, those of one connection
 * in the order in which they were sent. A line of 65,536 bytes or more is answered `! a line too
 * long`; half a line at a connection's end isn't served; a client that doesn't read for five seconds
 * loses its connection. TCP is on 127.0.0.1 alone; with port 0 it prints which port it has.
 *
 * By SIGTERM or SIGINT it ends, and writes the tables to its output. It keeps nothing else. */
#define _GNU_SOURCE
#include "foresight_session.h"

#include <arpa/inet.h>
#include <errno.h>
#include <netinet/tcp.h>
#include <pthread.h>
#include <signal.h>
#include <stdio.h>
#include <stdlib.h>
#include <string.h>
#include <sys/random.h>
#include <sys/socket.h>
#include <sys/time.h>
#include <sys/un.h>
#include <unistd.h>

enum { LINE_ROOM = 65536, SEND_SECONDS = 5, MOST_NAMES = 1000000, INPUT_ROOM = (1 << 22) + 1 };

static pthread_mutex_t lock = PTHREAD_MUTEX_INITIALIZER;
static struct foresight_session session = FORESIGHT_NO_SESSION;

/* A client: what of its lines was read, and room for replies, with some left for `! why`. */
struct client {
    int at;
    size_t have;
    bool skips;
    uint8_t lines[LINE_ROOM];
    uint8_t out[FORESIGHT_REPLIES_ROOM + FORESIGHT_MESSAGE_ROOM + 3];
};

static void give_up(const char *why, int status) {
    fprintf(stderr, "server: %s\n", why);
    exit(status);
}

/* Sends all, or answers false: the client is gone, or hasn't read for too long. */
static bool send_all(int at, const uint8_t *bytes, size_t size) {
    while (size > 0) {
        ssize_t sent = send(at, bytes, size, MSG_NOSIGNAL);
        if (sent < 0 && errno == EINTR) continue;
        if (sent <= 0) return false;
        bytes += sent;
        size -= (size_t)sent;
    }
    return true;
}

/* How many bytes the first line has, with its line feed. */
static size_t first_line(const uint8_t *lines, size_t size) {
    return (size_t)((const uint8_t *)memchr(lines, '\n', size) - lines) + 1;
}

/* Serves some whole lines, and tells how many bytes are used and how many replies take. The line that
 * stops it is used and has an answer too. It answers the status. */
static int serve_some(struct client *client, const uint8_t *lines, size_t size,
    struct foresight_served *served) {
    uint8_t why[FORESIGHT_MESSAGE_ROOM] = { 0 };
    pthread_mutex_lock(&lock);
    int status = foresight_session_serve(&session, lines, size, client->out, FORESIGHT_REPLIES_ROOM,
        why, sizeof why, served);
    pthread_mutex_unlock(&lock);
    if (status == FORESIGHT_SESSION_FINE || status == FORESIGHT_SESSION_NO_ROOM) return status;
    if (status == FORESIGHT_SESSION_NOT_TEXT && first_line(lines, size) < size) return status;
    if (status == FORESIGHT_SESSION_NO_MEMORY || status == FORESIGHT_SESSION_NOT_TEXT
        || status == FORESIGHT_SESSION_FULL) {
        served->used += first_line(lines + served->used, size - served->used);
    }
    served->written += (size_t)sprintf((char *)client->out + served->written, "! %.*s",
        (int)served->told, why);
    return status;
}

/* Serves whole lines and sends what they are answered: all at one go, but where one of them is no
 * text, one by one. */
static bool serve(struct client *client, const uint8_t *lines, size_t size) {
    bool one_by_one = false;
    while (size > 0) {
        struct foresight_served served = { 0, 0, 0, 0, 0 };
        size_t most = one_by_one ? first_line(lines, size) : size;
        int status = serve_some(client, lines, most, &served);
        if (status == FORESIGHT_SESSION_WRONG) return false;
        if (status == FORESIGHT_SESSION_NOT_TEXT) one_by_one = true;
        if (!send_all(client->at, client->out, served.written)) return false;
        lines += served.used;
        size -= served.used;
    }
    return true;
}

/* Takes what was read of a line that is too long, up to its end, and answers it there. */
static bool skip(struct client *client) {
    static const char why[] = "! a line too long\n";
    uint8_t *end = memchr(client->lines, '\n', client->have);
    client->skips = end == NULL;
    size_t past = end == NULL ? client->have : (size_t)(end - client->lines) + 1;
    client->have -= past;
    memmove(client->lines, client->lines + past, client->have);
    return end == NULL || send_all(client->at, (const uint8_t *)why, sizeof why - 1);
}

/* Serves what was read, but for a half line. */
static bool serve_read(struct client *client) {
    if (client->skips && !skip(client)) return false;
    if (client->skips) return true;
    uint8_t *last = memrchr(client->lines, '\n', client->have);
    size_t whole = last == NULL ? 0 : (size_t)(last - client->lines) + 1;
    if (!serve(client, client->lines, whole)) return false;
    client->have -= whole;
    memmove(client->lines, client->lines + whole, client->have);
    if (client->have == LINE_ROOM) {
        client->skips = true;
        client->have = 0;
    }
    return true;
}

static void *connection(void *given) {
    struct client *client = given;
    for (;;) {
        ssize_t got = recv(client->at, client->lines + client->have, LINE_ROOM - client->have, 0);
        if (got < 0 && errno == EINTR) continue;
        if (got <= 0) break;
        client->have += (size_t)got;
        if (!serve_read(client)) break;
    }
    close(client->at);
    free(client);
    return NULL;
}

/* A thread for each client that comes. */
static void *accept_all(void *given) {
    int listener = (int)(intptr_t)given;
    for (;;) {
        int at = accept(listener, NULL, NULL), on = 1;
        if (at < 0) {
            usleep(10000); /* there may be too many descriptors for now */
            continue;
        }
        struct timeval limit = { SEND_SECONDS, 0 };
        setsockopt(at, SOL_SOCKET, SO_SNDTIMEO, &limit, sizeof limit);
        setsockopt(at, IPPROTO_TCP, TCP_NODELAY, &on, sizeof on);
        struct client *client = calloc(1, sizeof *client);
        pthread_t thread;
        if (client != NULL) client->at = at;
        if (client == NULL || pthread_create(&thread, NULL, connection, client) != 0) {
            free(client);
            close(at);
        } else {
            pthread_detach(thread);
        }
    }
    return NULL;
}

static int listen_unix(const char *path) {
    struct sockaddr_un at = { .sun_family = AF_UNIX };
    if (strlen(path) >= sizeof at.sun_path) give_up("a path too long", 2);
    strcpy(at.sun_path, path);
    unlink(path);
    int listener = socket(AF_UNIX, SOCK_STREAM, 0);
    if (bind(listener, (struct sockaddr *)&at, sizeof at) || listen(listener, 128)) {
        give_up("no such socket", 4);
    }
    fprintf(stderr, "server: unix %s\n", path);
    return listener;
}

static int listen_tcp(const char *port) {
    struct sockaddr_in at = { .sin_family = AF_INET, .sin_addr.s_addr = htonl(INADDR_LOOPBACK),
        .sin_port = htons((uint16_t)strtoul(port, NULL, 10)) };
    int listener = socket(AF_INET, SOCK_STREAM, 0), on = 1;
    socklen_t size = sizeof at;
    setsockopt(listener, SOL_SOCKET, SO_REUSEADDR, &on, sizeof on);
    if (bind(listener, (struct sockaddr *)&at, sizeof at) || listen(listener, 128)
        || getsockname(listener, (struct sockaddr *)&at, &size)) {
        give_up("no such port", 4);
    }
    fprintf(stderr, "server: tcp %d\n", ntohs(at.sin_port));
    return listener;
}

/* Opens the session over the handlers in a file. */
static void open_session(const char *file) {
    static uint8_t text[INPUT_ROOM];
    FILE *handlers = fopen(file, "rb");
    if (handlers == NULL) give_up("no such file", 4);
    size_t size = fread(text, 1, sizeof text, handlers);
    fclose(handlers);
    uint64_t seed = 0;
    if (getrandom(&seed, sizeof seed, 0) != sizeof seed) give_up("no seed", 4);
    uint8_t why[FORESIGHT_MESSAGE_ROOM] = { 0 };
    struct foresight_answer answer = { 0, 0, 0 };
    int status = foresight_session_open(&session, text, size, seed, MOST_NAMES, why, sizeof why,
        &answer);
    if (status == FORESIGHT_SESSION_FINE) return;
    fprintf(stderr, "%.*s", (int)answer.told, why);
    exit(status);
}

/* Writes the tables to the output, and ends. */
static void end_session(void) {
    uint8_t why[FORESIGHT_MESSAGE_ROOM] = { 0 };
    struct foresight_answer answer = { 0, 4096, 0 };
    uint8_t *out = NULL;
    int status = FORESIGHT_SESSION_NO_ROOM;
    pthread_mutex_lock(&lock);
    while (status == FORESIGHT_SESSION_NO_ROOM) {
        size_t room = answer.needed;
        free(out);
        out = calloc(1, room);
        if (out == NULL) give_up("no memory", 3);
        status = foresight_session_dump(&session, out, room, why, sizeof why, &answer);
    }
    if (fwrite(out, 1, answer.written, stdout) < answer.written || fflush(stdout) != 0) status = 5;
    free(out);
    exit(status != 0 ? status : foresight_session_close(&session));
}

int main(int count, char **words) {
    if (count < 4 || count % 2 != 0) give_up("words: HANDLERS [unix PATH | tcp PORT]..", 2);
    open_session(words[1]);
    sigset_t ends;
    sigemptyset(&ends);
    sigaddset(&ends, SIGTERM);
    sigaddset(&ends, SIGINT);
    pthread_sigmask(SIG_BLOCK, &ends, NULL);
    for (int i = 2; i < count; i += 2) {
        bool is_unix = strcmp(words[i], "unix") == 0;
        if (!is_unix && strcmp(words[i], "tcp") != 0) give_up("unix or tcp", 2);
        int listener = is_unix ? listen_unix(words[i + 1]) : listen_tcp(words[i + 1]);
        pthread_t thread;
        if (pthread_create(&thread, NULL, accept_all, (void *)(intptr_t)listener) != 0) {
            give_up("no thread", 3);
        }
    }
    int signal;
    sigwait(&ends, &signal);
    end_session();
}
