/* bank: transfers between accounts by several threads, each of which asks somebody else in the middle:
 * bank THREADS ACCOUNTS MICROSECONDS SECONDS [mutex | tickets]. At the top of the repository it is
 * built by
 *
 *     cc -std=gnu99 -pthread embedding/bank.c target/look/libforesight.a -o target/look/bank
 *
 * A transfer looks at its first account, asks for so many microseconds, and moves 1 if there is
 * something. With `mutex` one mutex is held from the look to the last change. With `tickets` each
 * transfer is a ticket that declares what it may call, and the mutex is held for single calls; once
 * it has looked it narrows to what it will add, so that others may add to the same accounts meanwhile.
 * A thread that is delayed waits until some ticket narrows or ends.
 *
 * At the end the sum of the accounts has to be what it was at the beginning, and none may be below 0:
 * both are checked, and a line says so with the number of transfers. */
#define _GNU_SOURCE
#include "foresight_tickets.h"

#include <pthread.h>
#include <stdio.h>
#include <stdlib.h>
#include <string.h>
#include <time.h>
#include <unistd.h>

enum { MOST_THREADS = 256, FIRST_BALANCE = 100 };

typedef struct foresight_operation operation;

/* What a thread has done. */
struct teller {
    pthread_t thread;
    unsigned seed;
    unsigned long moved, poor, delays;
};

static struct foresight_tables tables = FORESIGHT_NO_TABLES;
static pthread_mutex_t lock = PTHREAD_MUTEX_INITIALIZER;
static pthread_cond_t changed = PTHREAD_COND_INITIALIZER;
static int accounts, asking;
static bool by_tickets;
static double until;
static struct teller tellers[MOST_THREADS];

static double now(void) {
    struct timespec time;
    clock_gettime(CLOCK_MONOTONIC, &time);
    return (double)time.tv_sec + (double)time.tv_nsec / 1e9;
}

static struct foresight_value number(int64_t n) {
    return (struct foresight_value){ FORESIGHT_NUMBER, 0, n };
}

static operation on(uint8_t kind, int account, struct foresight_value value) {
    return (operation){ kind, 0, number(account), value };
}

static void want(int status, const char *what) {
    if (status == FORESIGHT_TICKET_FINE) return;
    fprintf(stderr, "bank: %s: %d\n", what, status);
    exit(1);
}

/* Calls an operation of a ticket, once nobody older is in the way. The caller has the mutex. */
static int64_t call(uint64_t ticket, operation op, unsigned long *delays) {
    struct foresight_value reply = { 0, 0, 0 };
    uint64_t older = 0;
    int status;
    while ((status = foresight_ticket_call(&tables, ticket, &op, &reply, &older))
        == FORESIGHT_TICKET_DELAYED) {
        ++*delays;
        pthread_cond_wait(&changed, &lock);
    }
    want(status, "call");
    return reply.number;
}

/* One transfer of 1 from one account to another. */
static void transfer(struct teller *teller, int from, int to) {
    const struct foresight_value nil = { 0, 0, 0 }, any = { FORESIGHT_ANY, 0, 0 };
    operation may[] = { on(FORESIGHT_GET, from, nil), on(FORESIGHT_BUMP, from, any),
        on(FORESIGHT_BUMP, to, any) };
    operation later[] = { on(FORESIGHT_BUMP, from, number(-1)), on(FORESIGHT_BUMP, to, number(1)) };
    uint64_t ticket = 0;
    pthread_mutex_lock(&lock);
    want(foresight_ticket_begin(&tables, may, 3, &ticket), "begin");
    int64_t has = call(ticket, may[0], &teller->delays);
    if (by_tickets) {
        want(foresight_ticket_narrow(&tables, ticket, later, has > 0 ? 2 : 0), "narrow");
        pthread_cond_broadcast(&changed);
        pthread_mutex_unlock(&lock);
    }
    if (asking > 0) usleep((useconds_t)asking);
    if (by_tickets) pthread_mutex_lock(&lock);
    if (has > 0) {
        call(ticket, later[0], &teller->delays);
        call(ticket, later[1], &teller->delays);
        teller->moved++;
    } else {
        teller->poor++;
    }
    want(foresight_ticket_end(&tables, ticket), "end");
    pthread_cond_broadcast(&changed);
    pthread_mutex_unlock(&lock);
}

static void *tell(void *given) {
    struct teller *teller = given;
    while (now() < until) {
        int from = rand_r(&teller->seed) % accounts;
        transfer(teller, from, rand_r(&teller->seed) % accounts);
    }
    return NULL;
}

/* Calls an operation as a ticket of its own, where no other is open. */
static int64_t alone(operation op) {
    uint64_t ticket = 0;
    unsigned long delays = 0;
    want(foresight_ticket_begin(&tables, &op, 1, &ticket), "begin");
    int64_t reply = call(ticket, op, &delays);
    want(foresight_ticket_end(&tables, ticket), "end");
    return reply;
}

/* Prints what was done in so many seconds. Whether nothing was lost. */
static bool report(size_t threads, double seconds) {
    unsigned long moved = 0, poor = 0, delays = 0;
    for (size_t i = 0; i < threads; i++) {
        moved += tellers[i].moved;
        poor += tellers[i].poor;
        delays += tellers[i].delays;
    }
    int64_t sum = 0, least = INT64_MAX;
    for (int i = 0; i < accounts; i++) {
        const struct foresight_value nil = { 0, 0, 0 };
        int64_t has = alone(on(FORESIGHT_GET, i, nil));
        sum += has;
        if (has < least) least = has;
    }
    bool is_kept = sum == (int64_t)FIRST_BALANCE * accounts;
    printf("%s: %zu threads, %d accounts, %d us: %.0f transfers/s, %lu delays, sum %s, least %lld\n",
        by_tickets ? "tickets" : "mutex", threads, accounts, asking,
        (double)(moved + poor) / seconds, delays, is_kept ? "kept" : "LOST", (long long)least);
    return is_kept && least >= 0;
}

int main(int count, char **words) {
    if (count != 6) return 2;
    size_t threads = strtoul(words[1], NULL, 10);
    accounts = atoi(words[2]);
    asking = atoi(words[3]);
    by_tickets = strcmp(words[5], "tickets") == 0;
    if (threads < 1 || threads > MOST_THREADS || accounts < 1) return 2;
    want(foresight_tables_open(&tables, 1, 0), "open");
    for (int i = 0; i < accounts; i++) alone(on(FORESIGHT_PUT, i, number(FIRST_BALANCE)));
    double began = now();
    until = began + atof(words[4]);
    for (size_t i = 0; i < threads; i++) {
        tellers[i].seed = 12345 + (unsigned)i * 7919;
        if (pthread_create(&tellers[i].thread, NULL, tell, &tellers[i]) != 0) return 3;
    }
    for (size_t i = 0; i < threads; i++) pthread_join(tellers[i].thread, NULL);
    bool is_well = report(threads, now() - began);
    want(foresight_tables_close(&tables), "close");
    return is_well ? 0 : 1;
}
