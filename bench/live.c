/* live SESSION BATCH ROUNDS: serves the requests of a session file in this process, so many lines a
 * call, on a session that is opened anew for each round; prints the least nanoseconds a request of
 * processor time, over the rounds, without the opening. Built and run by bench/live.sh. */
#define _GNU_SOURCE
#include "../embedding/foresight_session.h"

#include <stdio.h>
#include <stdlib.h>
#include <string.h>
#include <time.h>

enum { TEXT_ROOM = (1 << 22) + 1 };

static uint8_t text[TEXT_ROOM], out[FORESIGHT_REPLIES_ROOM], why[FORESIGHT_MESSAGE_ROOM];

static double now(void) {
    struct timespec time;
    clock_gettime(CLOCK_PROCESS_CPUTIME_ID, &time);
    return (double)time.tv_sec + (double)time.tv_nsec / 1e9;
}

static void fail(const char *what, int status, size_t told) {
    fprintf(stderr, "live: %s: %d %.*s\n", what, status, (int)told, why);
    exit(1);
}

/* Serves all lines, so many a call; answers how many requests they were. */
static size_t serve_all(struct foresight_session *session, const uint8_t *lines, size_t size,
    size_t batch) {
    size_t requests = 0;
    while (size > 0) {
        const uint8_t *end = lines, *all = lines + size;
        for (size_t i = 0; i < batch && end < all; i++) {
            end = (const uint8_t *)memchr(end, '\n', (size_t)(all - end)) + 1;
        }
        while (lines < end) {
            struct foresight_served served = { 0, 0, 0, 0, 0 };
            int status = foresight_session_serve(session, lines, (size_t)(end - lines), out,
                sizeof out, why, sizeof why, &served);
            if (status != 0 && status != 5) fail("serve", status, served.told);
            lines += served.used;
            size -= served.used;
            requests += served.requests;
        }
    }
    return requests;
}

int main(int count, char **words) {
    if (count != 4) return 2;
    FILE *file = fopen(words[1], "rb");
    if (file == NULL) return 4;
    size_t size = fread(text, 1, sizeof text, file);
    fclose(file);
    size_t batch = strtoul(words[2], NULL, 10), rounds = strtoul(words[3], NULL, 10), requests = 1;
    const uint8_t *line = memmem(text, size, "\n%%\n", 4);
    if (line == NULL || batch == 0) return 2;
    size_t head = (size_t)(line - text) + 4;
    double best = 1e9;
    for (size_t round = 0; round < rounds; round++) {
        struct foresight_session session = FORESIGHT_NO_SESSION;
        struct foresight_answer answer = { 0, 0, 0 };
        int status = foresight_session_open(&session, text, head, 1, 1000000, why, sizeof why,
            &answer);
        if (status != 0) fail("open", status, answer.told);
        double began = now();
        requests = serve_all(&session, text + head, size - head, batch);
        double took = now() - began;
        if (took < best) best = took;
        foresight_session_close(&session);
    }
    printf("%.0f\n", requests == 0 ? 0.0 : best * 1e9 / (double)requests);
    return 0;
}
