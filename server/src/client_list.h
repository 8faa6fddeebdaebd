/* The list of connections, and which of them wait for a commit. */
#ifndef CLIENT_LIST_H
#define CLIENT_LIST_H

#include "bytes.h"
#include "command.h"

#include <uv.h>

struct client {
    union {
        uv_handle_t handle;
        uv_stream_t stream;
        uv_pipe_t pipe;
        uv_tcp_t tcp;
    } at;
    uv_write_t write;
    struct speaker by;
    struct bytes in, out, sending;
    size_t used;    /* bytes of `in` that are served */
    size_t release; /* bytes of `out` that may be sent */
    bool reads, ended, skips, has_more, in_more, waits, closing, closed;
    uint64_t active, write_began;
    struct client *next, *previous, *next_more, *next_waiting;
};

extern struct client *clients_first;
extern uint64_t clients_count;

void clients_open(uv_loop_t *loop, uv_connection_cb accept);
void clients_close_listeners(void);
struct client *client_new(uv_stream_t *listener);
void client_close(struct client *client);
/* Lets one go for a new one: who has said nothing for a second, else who was silent for ten;
 * whether there was one. */
bool clients_make_room(const struct client *but);
/* Frees what was closed while it stood in a list. */
void client_free_closed(struct client *client);
/* Its answers wait for a commit. */
void client_wait(struct client *client);
/* Sends what may be sent. */
void client_send(struct client *client);

#endif
