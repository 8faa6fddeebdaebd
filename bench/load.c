/* load SOCKET REQUESTS CLIENTS PIPELINE SECONDS: sends the requests of a file to a server, over and over,
 * by so many clients, each with a thread and so many requests at a time, of which each is answered by a
 * line; prints how many were answered a second. A request is a line, or, where the file has a byte 0,
 * what ends with one, which isn't sent. Built and run by bench/live.sh. */
#define _GNU_SOURCE
#include <errno.h>
#include <pthread.h>
#include <stdbool.h>
#include <stdio.h>
#include <stdlib.h>
#include <string.h>
#include <sys/socket.h>
#include <sys/un.h>
#include <time.h>
#include <unistd.h>

enum { MOST_CLIENTS = 64 };

static const char *place;
static char *text;
static size_t *starts, count, pipeline;
static double seconds;
static size_t answered[MOST_CLIENTS];

static double now(void) {
    struct timespec time;
    clock_gettime(CLOCK_MONOTONIC, &time);
    return (double)time.tv_sec + (double)time.tv_nsec / 1e9;
}

/* Sends bytes, and reads so many lines meanwhile, so that no side fills up. */
static void ask(int at, const char *bytes, size_t left, size_t lines) {
    char got[1 << 16];
    while (left > 0 || lines > 0) {
        if (left > 0) {
            ssize_t sent = send(at, bytes, left, MSG_NOSIGNAL | (lines > 0 ? MSG_DONTWAIT : 0));
            if (sent > 0) {
                bytes += sent;
                left -= (size_t)sent;
            }
        }
        ssize_t size = recv(at, got, sizeof got, left > 0 ? MSG_DONTWAIT : 0);
        if (size < 0 && (errno == EAGAIN || errno == EINTR)) continue;
        if (size <= 0) exit(1);
        const char *end = got;
        while ((end = memchr(end, '\n', (size_t)(got + size - end))) != NULL) {
            lines--;
            end++;
        }
    }
}

static void *run(void *given) {
    size_t me = (size_t)given, first = me * 997 % count;
    int at = socket(AF_UNIX, SOCK_STREAM, 0);
    struct sockaddr_un to = { .sun_family = AF_UNIX };
    snprintf(to.sun_path, sizeof to.sun_path, "%s", place);
    if (connect(at, (struct sockaddr *)&to, sizeof to) != 0) exit(1);
    for (double until = now() + seconds; now() < until; first += pipeline) {
        if (first + pipeline > count) first = 0;
        ask(at, text + starts[first], starts[first + pipeline] - starts[first], pipeline);
        answered[me] += pipeline;
    }
    close(at);
    return NULL;
}

/* Reads the requests of a file. */
static void read_requests(const char *name) {
    FILE *file = fopen(name, "rb");
    if (file == NULL) exit(4);
    fseek(file, 0, SEEK_END);
    size_t size = (size_t)ftell(file), kept = 0;
    rewind(file);
    text = malloc(size + 1);
    starts = malloc((size + 2) * sizeof *starts);
    if (text == NULL || starts == NULL || fread(text, 1, size, file) != size) exit(4);
    fclose(file);
    bool has_zeros = memchr(text, 0, size) != NULL;
    starts[0] = 0;
    for (size_t i = 0; i < size; i++) {
        if (!has_zeros || text[i] != 0) text[kept++] = text[i];
        if (text[i] == (has_zeros ? 0 : '\n')) starts[++count] = kept;
    }
}

int main(int words_count, char **words) {
    if (words_count != 6) return 2;
    place = words[1];
    read_requests(words[2]);
    size_t clients = strtoul(words[3], NULL, 10);
    pipeline = strtoul(words[4], NULL, 10);
    seconds = atof(words[5]);
    if (clients < 1 || clients > MOST_CLIENTS || pipeline < 1 || pipeline > count) return 2;
    pthread_t threads[MOST_CLIENTS];
    double began = now();
    for (size_t i = 0; i < clients; i++) pthread_create(&threads[i], NULL, run, (void *)i);
    size_t all = 0;
    for (size_t i = 0; i < clients; i++) {
        pthread_join(threads[i], NULL);
        all += answered[i];
    }
    printf("%.0f\n", (double)all / (now() - began));
    return 0;
}
