/* Opens a session through include/tapewoad.h, asks for its status and prints what the header says; tests/c.rs runs it and compares. */
#include <stdio.h>

#include "tapewoad.h"

static uint64_t session[TAPEWOAD_SESSION_WORDS], bus[TAPEWOAD_BUS_WORDS], rows[2 * TAPEWOAD_ROW_WORDS];
static uint64_t out[TAPEWOAD_OUT_WORDS], lists[TAPEWOAD_LIST_WORDS];
static uint8_t area[2 * 16];

static const uint8_t none[1];

static uint64_t apply(const uint64_t *call, size_t words)
{
    return tapewoad_apply(session, TAPEWOAD_SESSION_WORDS, bus, TAPEWOAD_BUS_WORDS, rows, 2 * TAPEWOAD_ROW_WORDS, area, sizeof area,
                          call, words, none, 0, out, TAPEWOAD_OUT_WORDS, lists, TAPEWOAD_LIST_WORDS);
}

static uint64_t ask(const uint64_t *call, size_t words)
{
    return tapewoad_read(session, TAPEWOAD_SESSION_WORDS, bus, TAPEWOAD_BUS_WORDS, rows, 2 * TAPEWOAD_ROW_WORDS, area, sizeof area,
                         call, words, none, 0, out, TAPEWOAD_OUT_WORDS);
}

static void print(const char *name, uint64_t number)
{
    printf("%s %llu\n", name, (unsigned long long)number);
}

int main(void)
{
    /* session 7, first sequence 0, revision 0, 4 ports, 2 rows of 16 bytes */
    const uint64_t open[] = {0, 7, 0, 1, 0, 1, 4, 2, 16};
    const uint64_t held_count[] = {20};
    const uint64_t session_status[] = {25};
    const uint64_t unknown[] = {99};
    print("version", tapewoad_version());
    print("header", (uint64_t)TAPEWOAD_MAJOR << 32 | TAPEWOAD_MINOR);
    print("session", TAPEWOAD_SESSION_WORDS);
    print("bus", TAPEWOAD_BUS_WORDS);
    print("row", TAPEWOAD_ROW_WORDS);
    print("out", TAPEWOAD_OUT_WORDS);
    print("lists", TAPEWOAD_LIST_WORDS);
    print("rows", TAPEWOAD_MOST_ROWS);
    print("row bytes", TAPEWOAD_MOST_ROW_BYTES);
    print("open", apply(open, 9));
    print("answer", out[0]);
    print("status", ask(session_status, 1));
    print("answer", out[0]);
    print("number", out[1]);
    print("count", apply(held_count, 1));
    print("answer", out[0]);
    print("held", out[1]);
    print("unknown", apply(unknown, 1));
    print("no report", ask(open, 9));
    return 0;
}
