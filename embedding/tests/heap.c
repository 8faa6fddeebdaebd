/* Counts the memory of the program that it is linked with: heap.h. */
#include "heap.h"

#include <stdint.h>
#include <stdio.h>
#include <stdlib.h>
#include <string.h>

/* What stands before a block, and is as large as the block's alignment asks for. */
union head {
    struct {
        size_t size;
        uint64_t mark;
    } of;
    long double widest[2];
};

enum { TAIL = 32, FRESH = 0xA5, GONE = 0x5A, BEHIND = 0xC3 };

static const uint64_t TAKEN = 0x666f7265736967;

static size_t blocks, requests, left_to_refuse;
static bool refuses_later, has_refused;

void *__real_malloc(size_t size);
void __real_free(void *block);
void *__wrap_malloc(size_t size);
void *__wrap_calloc(size_t count, size_t size);
void *__wrap_realloc(void *block, size_t size);
void __wrap_free(void *block);

size_t heap_blocks(void) { return blocks; }

size_t heap_requests(void) { return requests; }

bool heap_has_refused(void) { return has_refused; }

void heap_refuse(size_t number, bool also_later) {
    left_to_refuse = number;
    refuses_later = also_later;
    has_refused = false;
}

/* Ends the program. */
static void stop(const char *why) {
    fprintf(stderr, "heap: %s\n", why);
    abort();
}

/* Whether the request that is made now is refused. */
static bool is_refused(void) {
    requests++;
    bool refused = left_to_refuse == 1 || (has_refused && refuses_later);
    if (left_to_refuse > 0) left_to_refuse--;
    has_refused = has_refused || refused;
    return refused;
}

/* The head of a block that was taken, whose last bytes are as they were. */
static union head *head_of(void *block) {
    union head *head = (union head *)block - 1;
    if (head->of.mark != TAKEN) stop("a block that wasn't taken, or was given back before");
    const uint8_t *tail = (const uint8_t *)block + head->of.size;
    for (size_t i = 0; i < TAIL; i++) {
        if (tail[i] != BEHIND) stop("something wrote behind a block");
    }
    return head;
}

void *__wrap_malloc(size_t size) {
    if (is_refused() || size > SIZE_MAX / 2) return NULL;
    union head *head = __real_malloc(sizeof *head + size + TAIL);
    if (head == NULL) return NULL;
    head->of.size = size;
    head->of.mark = TAKEN;
    memset(head + 1, FRESH, size);
    memset((uint8_t *)(head + 1) + size, BEHIND, TAIL);
    blocks++;
    return head + 1;
}

void *__wrap_calloc(size_t count, size_t size) {
    if (size > 0 && count > SIZE_MAX / 2 / size) return NULL;
    void *block = __wrap_malloc(count * size);
    return block == NULL ? NULL : memset(block, 0, count * size);
}

void *__wrap_realloc(void *block, size_t size) {
    if (block == NULL) return __wrap_malloc(size);
    union head *head = head_of(block);
    void *moved = __wrap_malloc(size);
    if (moved == NULL) return NULL;
    memcpy(moved, block, head->of.size < size ? head->of.size : size);
    __wrap_free(block);
    return moved;
}

void __wrap_free(void *block) {
    if (block == NULL) return;
    union head *head = head_of(block);
    memset(head, GONE, sizeof *head + head->of.size);
    blocks--;
    __real_free(head);
}

/* Says what wasn't given back. */
__attribute__((destructor)) static void end(void) {
    if (blocks == 0) return;
    fprintf(stderr, "heap: %zu blocks were not given back\n", blocks);
    fflush(NULL);
    _Exit(99);
}
