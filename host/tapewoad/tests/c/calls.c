/* Makes every call and asks every question of docs/CALLS.md, through include/tapewoad.h and nothing else, in a store of the
   greatest size, and prints what is answered: the status, then the answer's words. tests/c.rs compares that with calls.stdout. */
#include <stdio.h>
#include <string.h>

#include "tapewoad.h"

#define COUNT(list) (sizeof(list) / sizeof *(list))

enum { ROW_BYTES = TAPEWOAD_MOST_ROW_BYTES, SUBMIT_WORDS = 27, PLAN_WORDS = 20, HELD_MOST = 128 };
enum { SESSION = 7, SLOT = 3, SENT_TO = 0x02, READ_FROM = 0x81, IN = 0, OUT = 1, FIRST_TOKEN = 1000 };

/* What is lent, and a copy of it. */
static struct memory {
    uint64_t session[TAPEWOAD_SESSION_WORDS], bus[TAPEWOAD_BUS_WORDS], rows[TAPEWOAD_MOST_ROWS * TAPEWOAD_ROW_WORDS];
    uint8_t area[TAPEWOAD_MOST_ROWS * TAPEWOAD_MOST_ROW_BYTES];
    uint64_t out[TAPEWOAD_OUT_WORDS], lists[TAPEWOAD_LIST_WORDS];
} lent, copy;

/* The lengths that the library is told. */
struct lengths {
    size_t session, bus, rows, area, out, lists;
};

static const struct lengths whole = {COUNT(lent.session), COUNT(lent.bus), COUNT(lent.rows), sizeof lent.area, COUNT(lent.out), COUNT(lent.lists)};
static struct lengths told;

static const uint8_t none[1];

/* ---- a call, and what it answers */

static uint64_t apply(const uint64_t *call, size_t words, const void *bytes, size_t count)
{
    memset(lent.out, 0xff, sizeof lent.out);
    return tapewoad_apply(lent.session, told.session, lent.bus, told.bus, lent.rows, told.rows, lent.area, told.area,
                          call, words, bytes, count, lent.out, told.out, lent.lists, told.lists);
}

static uint64_t ask(const uint64_t *call, size_t words)
{
    memset(lent.out, 0xff, sizeof lent.out);
    return tapewoad_read(lent.session, told.session, lent.bus, told.bus, lent.rows, told.rows, lent.area, told.area,
                         call, words, none, 0, lent.out, told.out);
}

/* The words of an answer by its tag; behind them all are 0. */
static size_t answer_words(uint64_t tag)
{
    static const size_t words[] = {6, 1, 19, 30, 26, 1, 2, 2, 3, 9, 16, 19, 27, 3};
    size_t i, n = tag < COUNT(words) ? words[tag] : TAPEWOAD_OUT_WORDS;
    for (i = n; i < TAPEWOAD_OUT_WORDS; i++)
        if (lent.out[i] != 0)
            return TAPEWOAD_OUT_WORDS;
    return n;
}

static void print(const char *name, uint64_t status)
{
    size_t i, n = answer_words(lent.out[0]);
    printf("%s %d:", name, (int)status);
    for (i = 0; i < n; i++)
        printf(" %llu", (unsigned long long)lent.out[i]);
    printf("\n");
}

/* A call without bytes; a report or a question. */
#define CALL(name, ...) print(name, apply((const uint64_t[]){__VA_ARGS__}, COUNT(((const uint64_t[]){__VA_ARGS__})), none, 0))
#define ASK(name, ...) print(name, ask((const uint64_t[]){__VA_ARGS__}, COUNT(((const uint64_t[]){__VA_ARGS__}))))
/* A request's id. */
#define ID(sequence) SESSION, 0, sequence

/* ---- submissions */

/* To the slot's device, without SETUP and packets; readings that were not taken are given as failed. */
static void submission(uint64_t *call, uint64_t number, uint64_t endpoint, uint64_t direction, uint64_t length, int readings)
{
    static const uint64_t taken[] = {0, 0x403, 0, 0, 0, 0}, failed[] = {1, 0, 2, 1, 0, 0};
    const uint64_t front[] = {number, SESSION, 0, SLOT, endpoint, 1, direction, length};
    memset(call, 0, SUBMIT_WORDS * sizeof *call);
    memcpy(call, front, sizeof front);
    memcpy(call + 14, readings > 0 ? taken : failed, sizeof taken);
    memcpy(call + 20, readings > 1 ? taken : failed, sizeof taken);
}

static uint64_t submit(uint64_t endpoint, uint64_t direction, uint64_t length, const void *bytes, size_t count)
{
    uint64_t call[SUBMIT_WORDS];
    submission(call, 8, endpoint, direction, length, 2);
    return apply(call, SUBMIT_WORDS, bytes, count);
}

static uint64_t accept(uint64_t sequence)
{
    const uint64_t call[] = {10, 0, FIRST_TOKEN + sequence, 0, 0, 0, 0};
    return apply(call, COUNT(call), none, 0);
}

/* The first bytes of the row that a submission took. */
static void print_buffer(void)
{
    size_t i, start = lent.out[4] * ROW_BYTES;
    printf("bytes at %lu:", (unsigned long)start);
    for (i = 0; i < 6; i++)
        printf(" %d", lent.area[start + i]);
    printf("\n");
}

static void read_from(uint64_t sequence, uint64_t length)
{
    print("submit_request_packets", submit(READ_FROM, IN, length, none, 0));
    print_buffer();
    print("submit_reply", accept(sequence));
}

/* A device descriptor is asked for. */
static void plan(uint64_t *call, uint64_t number, int readings)
{
    const uint64_t words[PLAN_WORDS] = {number, SESSION, 0, SLOT, 0, 0x80, 6, 0x100, 0, 18, 1, IN, 18, 2, readings < 1, readings < 1 ? 0 : 0x403};
    memcpy(call, words, sizeof words);
}

/* ---- polls */

static void complete(const char *bytes, uint64_t code)
{
    const uint64_t call[] = {12, 2, 0, 0, 0, 0, 0, 1, strlen(bytes), code + 1, 1, 1};
    print("poll_reply", apply(call, COUNT(call), bytes, strlen(bytes)));
}

/* The bytes of a request: the part of the area that is answered. */
static void print_completed(uint64_t sequence)
{
    ASK("completed_bytes", 19, ID(sequence));
    printf("%.*s\n", (int)lent.out[2], (const char *)lent.area + lent.out[1]);
}

/* ---- statuses */

static void keep(void)
{
    memset(lent.out, 0xff, sizeof lent.out);
    copy = lent;
}

static void print_status(const char *name, uint64_t status)
{
    printf("%s %d, %s\n", name, (int)status, memcmp(&lent, &copy, sizeof lent) ? "changed" : "same");
    told = whole;
}

#define APPLY_STATUS(name, ...) (keep(), print_status(name, apply((const uint64_t[]){__VA_ARGS__}, COUNT(((const uint64_t[]){__VA_ARGS__})), none, 0)))
#define READ_STATUS(name, ...) (keep(), print_status(name, ask((const uint64_t[]){__VA_ARGS__}, COUNT(((const uint64_t[]){__VA_ARGS__})))))

/* ---- the parts of the run */

static void opening(void)
{
    const uint64_t open[] = {0, SESSION, 0, 1, 0, 1, 4, TAPEWOAD_MOST_ROWS, TAPEWOAD_MOST_ROW_BYTES};
    printf("\nopening\n");
    told.bus--;
    print("short bus", apply(open, COUNT(open), none, 0));
    told = whole;
    told.rows--;
    print("short rows", apply(open, COUNT(open), none, 0));
    told = whole;
    told.area--;
    print("short area", apply(open, COUNT(open), none, 0));
    told = whole;
    print("open", apply(open, COUNT(open), none, 0));
    ASK("session_status", 25);
    CALL("acquire", 5, 0, 0, 0, 0, 0, 0);
    CALL("initialize", 6, 0, 0, 0, 0, 0);
    CALL("set_port", 2, 1, 1, 0x403 + 1);
    CALL("set_device", 1, SESSION, 0, SLOT, SESSION, 1, 1, 5);
    CALL("set_endpoints", 3, SLOT, 0x100 + READ_FROM, 0x100 + SENT_TO);
}

static void readings(void)
{
    uint64_t call[SUBMIT_WORDS];
    int taken;
    printf("\nreadings\n");
    for (taken = 0; taken <= 2; taken++) {
        submission(call, 27, READ_FROM, IN, 64, taken);
        print("submit_wants", ask(call, SUBMIT_WORDS));
    }
    for (taken = 0; taken <= 1; taken++) {
        plan(call, 28, taken);
        print("plan_wants", ask(call, PLAN_WORDS));
    }
    submission(call, 8, READ_FROM, IN, 64, 1);
    print("submit_request_packets", apply(call, SUBMIT_WORDS, none, 0));
    CALL("set_reconcile", 4, SLOT, 1);
    submission(call, 27, READ_FROM, IN, 64, 0);
    print("submit_wants", ask(call, SUBMIT_WORDS));
    print("submit_request_packets", submit(READ_FROM, IN, 64, none, 0));
    CALL("set_reconcile", 4, SLOT, 0);
}

static void one_submission(void)
{
    static const uint8_t bytes[] = {1, 2, 3, 4};
    printf("\na submission\n");
    print("submit_request_packets", submit(SENT_TO, OUT, sizeof bytes, bytes, sizeof bytes));
    print_buffer();
    ASK("session_status", 25);
    ASK("held_count", 20);
    ASK("request_status", 16, ID(0));
    CALL("poll_request", 11, ID(0));
    CALL("poll_reply", 12, 0, 0, 0, 0, 0, 0, 0, 0, 0, 0, 0);
    print("submit_reply", accept(0));
    CALL("request_status", 16, ID(0));
}

static void submissions(void)
{
    uint64_t call[PLAN_WORDS], sequence, begun = 0, accepted = 0;
    printf("\n%d of them\n", HELD_MOST);
    plan(call, 9, 1);
    print("submit_control_plan", apply(call, PLAN_WORDS, none, 0));
    print("submit_reply", accept(1));
    read_from(2, ROW_BYTES);
    for (sequence = 3; sequence < HELD_MOST; sequence++) {
        begun += submit(READ_FROM, IN, 64, none, 0) == 0 && lent.out[0] == 2 && lent.out[3] == sequence && lent.out[4] == sequence;
        accepted += accept(sequence) == 0 && lent.out[0] == 4 && lent.out[3] == sequence;
    }
    printf("begun %d, accepted %d\n", (int)begun, (int)accepted);
    print("submit_request_packets", submit(READ_FROM, IN, 64, none, 0));
    ASK("held_count", 20);
    ASK("held_bytes", 21);
    ASK("count_reports", 18);
}

static void data(void)
{
    printf("\ndata\n");
    CALL("poll_request", 11, ID(3));
    complete("hello", 13);
    print_completed(3);
    CALL("poll_request", 11, ID(3));
    CALL("poll_request", 11, ID(0));
    complete("sent", 1);
    print_completed(0);
    CALL("poll_request", 11, ID(4));
    CALL("poll_reply", 12, 0, 0, 0, 0, 0, 0, 0, 0, 0, 0, 0);
    print_completed(4);
    CALL("poll_request", 11, ID(4));
    /* an error: Unsupported, message 77, system number -5, no code */
    CALL("poll_reply", 12, 1, 0, 1, 77, (uint32_t)-5 + UINT64_C(1), 0, 0, 0, 0, 0, 0);
}

static void flags(void)
{
    printf("\nflags\n");
    CALL("logical_cancel_request", 13, ID(4));
    CALL("timeout_request", 14, ID(4));
    CALL("withdraw_cancel_request", 29, ID(4));
    CALL("withdraw_cancel_request", 29, ID(4));
    CALL("logical_cancel_request", 13, ID(3));
    CALL("reclaim_request", 15, ID(4));
    CALL("reclaim_request", 15, ID(3));
    ASK("request_status", 16, ID(3));
}

static void freed_row(void)
{
    printf("\na freed row\n");
    read_from(128, 64);
    ASK("request_reports", 17, 0, 0, 0, 0);
    ASK("request_reports", 17, 1, ID(127));
    CALL("request_reports", 17, 1, ID(128));
    ASK("report_from", 26, 3);
    ASK("report_from", 26, 128);
}

static void apply_statuses(void)
{
    printf("\nstatuses of tapewoad_apply\n");
    told = (struct lengths){25, 0, 0, 0, 31, 385};
    APPLY_STATUS("unknown number, and all too short", 99);
    APPLY_STATUS("too few words", 16, SESSION, 0);
    APPLY_STATUS("too many words", 18, 0);
    APPLY_STATUS("outside its range", 2, 256, 1, 0);
    APPLY_STATUS("unread and not 0", 17, 0, ID(0));
    APPLY_STATUS("a question", 25);
    told = (struct lengths){25, 0, 0, 0, 31, 385};
    APPLY_STATUS("session, out and lists too short", 13, ID(4));
    lent.session[3] += 2;
    APPLY_STATUS("no session's words", 13, ID(4));
    lent.session[3] -= 2;
    told.out = 31, told.lists = 385;
    APPLY_STATUS("out and lists too short", 13, ID(4));
    told.lists = 385;
    APPLY_STATUS("lists too short", 13, ID(4));
    CALL("held_count", 20);
}

static void read_statuses(void)
{
    printf("\nstatuses of tapewoad_read\n");
    told = (struct lengths){25, 0, 0, 0, 31, 0};
    READ_STATUS("no report and no question", 13, ID(4));
    told.session = 25, told.out = 31;
    READ_STATUS("session and out too short", 20);
    lent.session[3] += 2;
    READ_STATUS("no session's words", 20);
    lent.session[3] -= 2;
    told.out = 31;
    READ_STATUS("out too short", 20);
    keep();
    ASK("held_count", 20);
    memcpy(copy.out, lent.out, sizeof copy.out);
    print_status("what is lent", 0);
}

/* ---- recoveries */

/* The tokens that a recovery affects, and those of its reply. */
static uint64_t affected[HELD_MOST], completed[2], aborted[HELD_MOST];
static size_t affected_count, completed_count, aborted_count;

static void take_tokens(void)
{
    affected_count = lent.lists[0];
    memcpy(affected, lent.lists + 1, affected_count * sizeof *affected);
    printf("tokens %d, from %d to %d\n", (int)affected_count, (int)affected[0], (int)affected[affected_count - 1]);
}

/* Those of the first n of `completed` are completed, the others aborted. */
static void divide(size_t n)
{
    size_t i, k;
    completed_count = n;
    aborted_count = 0;
    for (i = 0; i < affected_count; i++) {
        for (k = 0; k < n && completed[k] != affected[i]; k++)
            ;
        if (k == n)
            aborted[aborted_count++] = affected[i];
    }
}

/* Ready, without error; the completions have the given lengths, short ones by code 13. */
static void recovery_reply(const uint64_t *lengths, const char *bytes)
{
    uint64_t call[10 + 2 + 2 * 11 + HELD_MOST] = {24, 0, 1, 0, 0, 0, 0, 0, completed_count, completed_count};
    size_t i, words = 10;
    memcpy(call + words, completed, completed_count * sizeof *call);
    words += completed_count;
    for (i = 0; i < completed_count; i++, words += 11) {
        const uint64_t completion[] = {0, 0, 0, 0, 0, 1, lengths[i], 13 + 1, 1, 1, lengths[i]};
        memcpy(call + words, completion, sizeof completion);
    }
    memcpy(call + words, aborted, aborted_count * sizeof *call);
    print("recovery_reply", apply(call, words + aborted_count, bytes, strlen(bytes)));
}

/* A list of ids beside the tokens of the reply; where it ends. */
static size_t print_ids(const char *name, size_t at, const uint64_t *tokens)
{
    size_t i, n = lent.lists[at++], same = 0;
    for (i = 0; i < n; i++, at += 3)
        same += lent.lists[at] == SESSION && lent.lists[at + 1] == 0 && lent.lists[at + 2] + FIRST_TOKEN == tokens[i];
    printf("%s %d, as replied %d\n", name, (int)n, (int)same);
    return at;
}

static void abort_all(void)
{
    static const uint64_t lengths[] = {3, 2};
    printf("\nan abort\n");
    CALL("abort_request", 22, ID(5));
    take_tokens();
    ASK("session_status", 25);
    CALL("recovery_reply", 24, 0, 1, 0, 0, 0, 0, 0, 1, 0, affected[0]);
    completed[0] = FIRST_TOKEN + 6;
    completed[1] = FIRST_TOKEN + 4;
    divide(2);
    recovery_reply(lengths, "abcde");
    print_ids("aborted", print_ids("completed", 0, completed), aborted);
    ASK("request_status", 16, ID(4));
    print_completed(4);
    print_completed(6);
    ASK("request_status", 16, ID(5));
    CALL("abort_request", 22, ID(5));
    ASK("held_count", 20);
    ASK("held_bytes", 21);
}

static void stall(void)
{
    printf("\na stall and a reset\n");
    read_from(129, 64);
    CALL("poll_request", 11, ID(129));
    /* an error, RecoveryRequired, message 99; both codes 6; no length, no data, not quiescent */
    CALL("poll_reply", 12, 2, 1, 6, 99, 0, 6 + 1, 0, 0, 6 + 1, 0, 0);
    ASK("session_status", 25);
    print("submit_request_packets", submit(READ_FROM, IN, 64, none, 0));
    CALL("reset_endpoint_request", 23, ID(129), 1);
    take_tokens();
    divide(0);
    recovery_reply(NULL, "");
    print_ids("aborted", print_ids("completed", 0, completed), aborted);
    ASK("session_status", 25);
}

static void close_session(void)
{
    printf("\nclose\n");
    CALL("close", 7, 0, 0, 0, 0, 0, 0, 0);
    CALL("close", 7, 1, SESSION + 1, 0, 0, 0, 0, 0);
    ASK("session_status", 25);
    ASK("held_count", 20);
}

int main(void)
{
    uint64_t version = tapewoad_version();
    printf("version goes %d\n", version >> 32 == TAPEWOAD_MAJOR && (uint32_t)version >= TAPEWOAD_MINOR);
    memset(lent.area, 0xee, 4 * ROW_BYTES);
    told = whole;
    opening();
    readings();
    one_submission();
    submissions();
    data();
    flags();
    freed_row();
    apply_statuses();
    read_statuses();
    abort_all();
    stall();
    close_session();
    return 0;
}
