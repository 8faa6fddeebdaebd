/* Connections. */
#ifndef CLIENT_H
#define CLIENT_H

#include <stdbool.h>
#include <uv.h>

void clients_begin(uv_loop_t *loop);
void clients_listen_unix(const char *path);
void clients_listen_tcp(const char *text);

/* All that was served is committed: what waits is sent. */
void clients_committed(void);
/* A commit failed: whoever waits is told. */
void clients_unknown(void);

/* No new connection, no new request. */
void clients_end(void);
/* Whether all that was answered is sent. */
bool clients_quiet(void);

#endif
