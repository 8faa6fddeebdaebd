/* Commits: what was served is in the log before anybody is answered. */
#ifndef COMMITS_H
#define COMMITS_H

#include "log.h"

#include <uv.h>

/* Begins to keep what is served; without it all replies go out at once. */
void commits_begin(uv_loop_t *loop, const struct head *head, const struct named *named);
/* Whether all that was served is committed. */
bool commits_done(void);
/* To be called once a turn of the loop, when all that came was served: commits it, and sends the
 * answers. Nobody is served meanwhile: what comes is the next commit's. */
void commits_turn(void);
/* Asks for a snapshot; false: one is under way. */
bool commits_want_snapshot(void);
/* From now on no rows are taken out. */
void commits_end(void);
/* Whether nothing is under way, no snapshot either. */
bool commits_quiet(void);

#endif
