/* What is counted while the server runs. */
#ifndef METRICS_H
#define METRICS_H

#include "bytes.h"
#include "handlers.h"
#include "tables.h"
#include "words.h"

/* Nanoseconds of a clock that doesn't go back. */
uint64_t metrics_clock(void);
void metrics_served(struct handler *handler, uint64_t began, const struct word *words, size_t count,
    const struct outcome *out);
void metrics_again(const struct outcome *out);
void metrics_refused(const struct outcome *out);
void metrics_committed(uint64_t nanoseconds, size_t rows);
void metrics_connection(int change);
void metrics_snapshot(uint64_t position);

/* INFO, METRICS (the text form of Prometheus), and the slow requests, a line each. */
void metrics_info(struct bytes *out);
void metrics_prometheus(struct bytes *out);
void metrics_slow(struct bytes *out);

#endif
