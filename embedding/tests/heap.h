/* The memory of a program, counted and, where that is asked for, refused. A program that is linked
 * with heap.c, by the words `heap` of embedding/programs.sh, takes its memory here, and so does the
 * library in it. A block lies elsewhere after each realloc, and behind it are bytes that nobody may
 * write; where they were written, or where what is given back was never taken, the program ends.
 * At its end it says how many blocks weren't given back, and then its status is 99. */
#ifndef HEAP_H
#define HEAP_H

#include <stdbool.h>
#include <stddef.h>

/* How many blocks were taken and not given back yet. */
size_t heap_blocks(void);

/* How many requests for memory there were. */
size_t heap_requests(void);

/* Has the request of this number refused, counted from now on and from 1, and where `also_later`
 * each later one too. With 0 none is. */
void heap_refuse(size_t number, bool also_later);

/* Whether a request was refused since then. */
bool heap_has_refused(void);

#endif
