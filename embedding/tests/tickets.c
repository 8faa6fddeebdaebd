/* Calls each of the calls over a handle of tables with tickets: where all is done, delayed or
 * refused, at each limit, and with each request for memory refused. .ci/embedding builds and runs
 * it. */
#include "../foresight_guard.h"
#include "heap.h"

#include <stdio.h>
#include <string.h>

typedef struct foresight_tables handle;
typedef struct foresight_operation operation;
typedef struct foresight_value value;

enum { MAP = 0, SET = 1, MOST = 256 };

#define NIL { FORESIGHT_NIL, 0, 0 }
#define NUMBER(n) { FORESIGHT_NUMBER, 0, n }
#define NAME(n) { FORESIGHT_NAME, n, 0 }
#define ANY { FORESIGHT_ANY, 0, 0 }

static const handle none = FORESIGHT_NO_TABLES;
static const operation get_1 = { FORESIGHT_GET, MAP, NUMBER(1), NIL };
static const operation get_2 = { FORESIGHT_GET, MAP, NUMBER(2), NIL };
static const operation bump_2 = { FORESIGHT_BUMP, MAP, NUMBER(2), NUMBER(5) };
static const operation bumps_2 = { FORESIGHT_BUMP, MAP, NUMBER(2), ANY };
static const operation mark_n = { FORESIGHT_MARK, SET, NAME(9), NIL };
static const operation has_n = { FORESIGHT_HAS, SET, NAME(9), NIL };
static size_t failures;

static void want(bool is_well, const char *what) {
    if (is_well) return;
    fprintf(stderr, "tickets: %s\n", what);
    failures++;
}

#define WANT(due, call) want((call) == (due), #call " isn't " #due)

/* A call of a ticket that answers this, with this reply, or with this older ticket. */
static void want_call(handle *tables, uint64_t ticket, operation op, int due, value reply,
    uint64_t in_the_way) {
    value got = { 77, 66, 55 };
    uint64_t older = 44;
    int status = foresight_ticket_call(tables, ticket, &op, &got, &older);
    if (status != due) fprintf(stderr, "tickets: kind %d of ticket %d: %d\n", op.kind, (int)ticket,
        status);
    want(status == due, "a call has another status");
    if (due != 0) reply = (value){ 77, 66, 55 };
    want(got.sort == reply.sort && got.name == reply.name && got.number == reply.number, "a reply");
    want(older == (due == FORESIGHT_TICKET_DELAYED ? in_the_way : 44), "an older ticket");
}

static const value nil = NIL;

static void want_tickets(void) {
    handle tables = none;
    WANT(0, foresight_tables_open(&tables, 1, 1));
    uint64_t first = 9, second = 9, third = 9;
    operation may[] = { get_1, bumps_2, mark_n }, later[] = { get_2, has_n }, bump[] = { bumps_2 };
    WANT(0, foresight_ticket_begin(&tables, may, 3, &first));
    WANT(0, foresight_ticket_begin(&tables, later, 2, &second));
    WANT(0, foresight_ticket_begin(&tables, bump, 1, &third));
    want(first == 0 && second == 1 && third == 2, "numbers of tickets");
    want_call(&tables, second, get_2, FORESIGHT_TICKET_DELAYED, nil, first);
    want_call(&tables, third, bump_2, FORESIGHT_TICKET_DELAYED, nil, second);
    want_call(&tables, first, bump_2, 0, nil, 0);
    want_call(&tables, first, get_2, FORESIGHT_TICKET_UNDECLARED, nil, 0);
    want_call(&tables, second, has_n, FORESIGHT_TICKET_DELAYED, nil, first);
    /* What the list doesn't cover is refused; once it is narrowed the younger ticket goes on. */
    WANT(FORESIGHT_TICKET_UNDECLARED, foresight_ticket_narrow(&tables, first, later, 1));
    WANT(0, foresight_ticket_narrow(&tables, first, &mark_n, 1));
    want_call(&tables, first, bump_2, FORESIGHT_TICKET_UNDECLARED, nil, 0);
    want_call(&tables, second, get_2, 0, (value)NUMBER(5), 0);
    want_call(&tables, second, has_n, FORESIGHT_TICKET_DELAYED, nil, first);
    want_call(&tables, first, mark_n, 0, nil, 0);
    WANT(0, foresight_ticket_end(&tables, first));
    want_call(&tables, second, has_n, 0, (value)NUMBER(1), 0);
    WANT(0, foresight_ticket_narrow(&tables, second, later, 0));
    want_call(&tables, third, bump_2, 0, nil, 0);
    /* A ticket that has ended, or never began. */
    want_call(&tables, first, mark_n, FORESIGHT_TICKET_NONE, nil, 0);
    want_call(&tables, 3, mark_n, FORESIGHT_TICKET_NONE, nil, 0);
    WANT(FORESIGHT_TICKET_NONE, foresight_ticket_narrow(&tables, first, later, 0));
    WANT(FORESIGHT_TICKET_NONE, foresight_ticket_end(&tables, first));
    WANT(FORESIGHT_TICKET_NONE, foresight_ticket_end(&tables, UINT64_MAX));
    WANT(0, foresight_ticket_end(&tables, second));
    WANT(0, foresight_ticket_end(&tables, third));
    WANT(0, foresight_tables_close(&tables));
}

/* Each number past its type, each field that has no use, and what fits no table. */
static void want_unread(void) {
    static const operation unread[] = {
        { 11, MAP, NIL, NIL }, { 255, MAP, NIL, NIL },
        { FORESIGHT_GET, MAP, { 4, 0, 0 }, NIL }, { FORESIGHT_PUT, MAP, NIL, { 255, 0, 0 } },
        { FORESIGHT_SIZE, MAP, NUMBER(1), NIL }, { FORESIGHT_GET, MAP, NUMBER(1), NUMBER(1) },
    };
    static const operation misfit[] = {
        { FORESIGHT_GET, SET, NUMBER(1), NIL }, { FORESIGHT_ADD, MAP, NUMBER(1), NIL },
        { FORESIGHT_SIZE, 2, NIL, NIL }, { FORESIGHT_COUNT, UINT32_MAX, NIL, NIL },
    };
    handle tables = none;
    uint64_t ticket = 9;
    WANT(0, foresight_tables_open(&tables, 1, 1));
    WANT(0, foresight_ticket_begin(&tables, &get_1, 1, &ticket));
    for (size_t i = 0; i < sizeof unread / sizeof unread[0]; i++) {
        uint64_t number = 9;
        operation list[] = { get_1, unread[i] };
        want_call(&tables, ticket, unread[i], FORESIGHT_TICKET_UNREAD, nil, 0);
        WANT(FORESIGHT_TICKET_UNREAD, foresight_ticket_begin(&tables, list, 2, &number));
        WANT(FORESIGHT_TICKET_UNREAD, foresight_ticket_narrow(&tables, ticket, list, 2));
        want(number == 9, "the number of a ticket that didn't begin");
    }
    operation any = { FORESIGHT_GET, MAP, ANY, NIL };
    want_call(&tables, ticket, any, FORESIGHT_TICKET_UNREAD, nil, 0);
    for (size_t i = 0; i < sizeof misfit / sizeof misfit[0]; i++) {
        want_call(&tables, ticket, misfit[i], FORESIGHT_TICKET_MISFIT, nil, 0);
    }
    want_call(&tables, ticket, get_1, 0, nil, 0);
    WANT(0, foresight_tables_close(&tables));
}

/* As many symbols and tables as there may be, and one more. */
static void want_limits(void) {
    static operation list[MOST + 1];
    handle tables = none;
    uint64_t ticket = 9;
    for (size_t i = 0; i <= MOST; i++) {
        list[i] = (operation){ FORESIGHT_GET, MAP, NUMBER((int64_t)i), NIL };
    }
    WANT(FORESIGHT_TICKET_UNREAD, foresight_tables_open(&tables, 4, 4));
    WANT(FORESIGHT_TICKET_UNREAD, foresight_tables_open(&tables, 255, 255));
    want(!tables.live, "too many tables");
    WANT(0, foresight_tables_open(&tables, 3, 4));
    WANT(FORESIGHT_TICKET_FULL, foresight_ticket_begin(&tables, list, MOST + 1, &ticket));
    want(ticket == 9, "the number of a ticket that didn't begin");
    WANT(0, foresight_ticket_begin(&tables, list, MOST, &ticket));
    want_call(&tables, ticket, list[MOST - 1], 0, nil, 0);
    want_call(&tables, ticket, list[MOST], FORESIGHT_TICKET_UNDECLARED, nil, 0);
    WANT(FORESIGHT_TICKET_FULL, foresight_ticket_narrow(&tables, ticket, list, MOST + 1));
    WANT(0, foresight_ticket_narrow(&tables, ticket, list, 0));
    WANT(0, foresight_ticket_end(&tables, ticket));
    WANT(0, foresight_tables_close(&tables));
}

static void want_null(void) {
    handle tables = none;
    uint64_t ticket = 9;
    value reply = NIL;
    WANT(0, foresight_tables_open(&tables, 1, 0));
    WANT(23, foresight_guard_begin(NULL, &get_1, 1, &ticket));
    WANT(23, foresight_guard_begin(&tables, NULL, 1, &ticket));
    WANT(23, foresight_guard_begin(&tables, &get_1, 1, NULL));
    WANT(0, foresight_guard_begin(&tables, NULL, 0, &ticket));
    WANT(23, foresight_guard_call(&tables, ticket, NULL, &reply, &ticket));
    WANT(23, foresight_guard_call(&tables, ticket, &get_1, NULL, &ticket));
    WANT(23, foresight_guard_call(&tables, ticket, &get_1, &reply, NULL));
    WANT(21, foresight_guard_call(&tables, ticket, &get_1, &reply, &ticket));
    WANT(23, foresight_guard_narrow(&tables, ticket, NULL, 1));
    WANT(0, foresight_guard_narrow(&tables, ticket, NULL, 0));
    WANT(23, foresight_guard_end(NULL, ticket));
    WANT(0, foresight_guard_end(&tables, ticket));
    WANT(0, foresight_tables_close(&tables));
}

/* Does what answers 0 or 3, again where it answers 3. */
#define AGAIN(call) do { \
        int status = (call); \
        if (status == FORESIGHT_TICKET_NO_MEMORY) status = (call); \
        want(status == 0, #call " where memory was wanting"); \
    } while (0)

/* Tables with tickets, with the request for memory of this number refused. Whether one was. */
static bool is_refused(size_t number) {
    handle tables = none;
    uint64_t ticket = 9;
    operation may[] = { { FORESIGHT_PUT, MAP, ANY, ANY }, { FORESIGHT_SIZE, MAP, NIL, NIL } };
    value reply = NIL;
    uint64_t older = 0;
    heap_refuse(number, false);
    AGAIN(foresight_tables_open(&tables, 1, 1));
    AGAIN(foresight_ticket_begin(&tables, may, 2, &ticket));
    for (int64_t i = 0; i < 20; i++) {
        operation put = { FORESIGHT_PUT, MAP, NUMBER(i), NUMBER(i) };
        AGAIN(foresight_ticket_call(&tables, ticket, &put, &reply, &older));
    }
    AGAIN(foresight_ticket_narrow(&tables, ticket, may + 1, 1));
    AGAIN(foresight_ticket_call(&tables, ticket, may + 1, &reply, &older));
    want(reply.sort == FORESIGHT_NUMBER && reply.number == 20, "another size");
    AGAIN(foresight_ticket_end(&tables, ticket));
    bool was_refused = heap_has_refused();
    heap_refuse(0, false);
    WANT(0, foresight_tables_close(&tables));
    want(heap_blocks() == 0, "memory is kept where it was wanting");
    return was_refused;
}

int main(void) {
    want(foresight_version() == FORESIGHT_VERSION_NUMBER, "header and archive are of two versions");
    want_tickets();
    want_unread();
    want_limits();
    want_null();
    want(!is_refused(0), "memory is wanting");
    size_t requests = 0;
    while (is_refused(requests + 1)) requests++;
    want(requests > 4, "few requests for memory");
    return failures == 0 ? 0 : 1;
}
