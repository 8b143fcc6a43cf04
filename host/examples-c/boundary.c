/* Bad input at the library's boundary: each case must give its documented
 * status and leave every byte as it was, those around the lent parts too.
 * Prints one line a case, and ends with status 1 if any of them fails. */
#include "apachimo.h"

#include <stdio.h>
#include <string.h>

enum {
    GUARD = 64,
    RECORDS = 3,
    MESSAGES = 4,
    STATE_AREA = GUARD + APACHIMO_STATE_BYTES + GUARD,
    REPLY_AREA = GUARD + APACHIMO_REPLY_WORDS * RECORDS + GUARD,
    TAPE_BYTES = 16 + 24 * RECORDS + 4 * MESSAGES
};

/* Where records of the tables stand in the block. */
enum { THREADS = 34, SEMAPHORES = 2786, QUEUES = 2866, GROUPS = 4946, POOLS = 4986 };

/* What is lent, with guards before and behind; the same again as it was. */
typedef struct lent {
    uint8_t state[STATE_AREA];
    uint32_t replies[REPLY_AREA];
    uint8_t tape[TAPE_BYTES];
} lent;

static lent now;
static lent before;
static int failures;

static uint8_t *state(void)
{
    return now.state + GUARD;
}

static uint32_t *replies(void)
{
    return now.replies + GUARD;
}

static void put_word(uint8_t *at, uint32_t word)
{
    int i;
    for (i = 0; i < 4; i++)
        at[i] = (uint8_t)(word >> (8 * i));
}

/* A tape of clock calls that is not refused. */
static void make_tape(uint8_t *tape)
{
    int i;
    memset(tape, 0, TAPE_BYTES);
    put_word(tape, RECORDS);
    put_word(tape + 4, 16);
    put_word(tape + 8, MESSAGES);
    put_word(tape + 12, 16 + 24 * RECORDS);
    for (i = 0; i < RECORDS; i++) {
        put_word(tape + 16 + 24 * i, APACHIMO_TIME_SET);
        put_word(tape + 24 + 24 * i, 7);
    }
}

/* A board with a thread and one object of each kind, guards around it. */
static void prepare(void)
{
    apachimo_board board;
    memset(&now, 0xA5, sizeof now);
    apachimo_board_start(&board);
    tx_thread_create(&board, APACHIMO_STARTUP, 0, 10, 10, TX_AUTO_START);
    tx_semaphore_create(&board, APACHIMO_STARTUP, 0, 5);
    tx_queue_create(&board, APACHIMO_STARTUP, 0, 2, 8);
    tx_event_flags_create(&board, APACHIMO_STARTUP, 0);
    tx_block_pool_create(&board, APACHIMO_STARTUP, 0, 16, 100);
    memcpy(state(), board.state, APACHIMO_STATE_BYTES);
    make_tape(now.tape);
    before = now;
}

static void check(const char *name, int holds, uint32_t status)
{
    int unchanged = memcmp(&now, &before, sizeof now) == 0;
    if (!holds || !unchanged)
        failures++;
    printf("%-32s 0x%02X %s%s\n", name, (unsigned)status, holds ? "as documented" : "WRONG",
           unchanged ? "" : ", BYTES CHANGED");
}

/* Whether a reply has this status, no words, no ended waits, and this next thread. */
static int refuses(apachimo_reply reply, uint32_t status, uint32_t next)
{
    int i;
    for (i = 0; i < APACHIMO_MESSAGE_WORDS; i++)
        if (reply.words[i] != 0)
            return 0;
    return reply.status == status && reply.next == next && reply.ended == 0;
}

static apachimo_reply put(uint8_t *block, size_t len)
{
    return apachimo_call(block, len, APACHIMO_SEMAPHORE_PUT, APACHIMO_INTERRUPT, 0, 0, 0, 0, NULL,
                         0);
}

static apachimo_run_result run(uint8_t *block, size_t len, const uint8_t *tape, size_t tape_len,
                               uint32_t most, size_t room)
{
    return apachimo_run(block, len, tape, tape_len, most, room == 0 ? NULL : replies(), room);
}

/* A block of another length is refused by all four functions that take one. */
static void other_length(const char *name, uint8_t *block, size_t len)
{
    apachimo_reply reply;
    apachimo_run_result result;
    char line[64];
    uint32_t status;

    prepare();
    status = apachimo_start(block, len);
    sprintf(line, "start, %s", name);
    check(line, status == TX_SIZE_ERROR, status);
    status = apachimo_is_sound(block, len);
    sprintf(line, "is_sound, %s", name);
    check(line, status == TX_SIZE_ERROR, status);
    reply = put(block, len);
    sprintf(line, "call, %s", name);
    check(line, refuses(reply, TX_SIZE_ERROR, APACHIMO_NOBODY), reply.status);
    /* The length of the block is tested before the tape. */
    result = run(block, len, NULL, 0, 1, 0);
    sprintf(line, "run, %s", name);
    check(line, result.status == TX_SIZE_ERROR && result.carried == 0, result.status);
}

static void other_lengths(void)
{
    other_length("no block", NULL, 0);
    other_length("empty block", state(), 0);
    other_length("one byte short", state(), APACHIMO_STATE_BYTES - 1);
    other_length("one byte long", state(), APACHIMO_STATE_BYTES + 1);
}

static void unknown(const char *name, uint32_t call, uint32_t caller)
{
    apachimo_reply reply;
    prepare();
    reply = apachimo_call(state(), APACHIMO_STATE_BYTES, call, caller, 0, 0, 0, 0, NULL, 0);
    check(name, refuses(reply, APACHIMO_UNKNOWN_CALL, 0), reply.status);
}

static void unknown_numbers(void)
{
    unknown("call 0", 0, APACHIMO_STARTUP);
    unknown("call 40", 40, APACHIMO_STARTUP);
    unknown("call 4294967295", 0xFFFFFFFF, APACHIMO_STARTUP);
    unknown("caller 3", APACHIMO_TIME_GET, 3);
    unknown("caller 4294967295", APACHIMO_TIME_GET, 0xFFFFFFFF);
}

/* The words of the reply to a record on unsound tables. */
static void unsound_reply(uint32_t *words)
{
    memset(words, 0, APACHIMO_REPLY_WORDS * sizeof *words);
    words[0] = APACHIMO_TABLES_UNSOUND;
    words[APACHIMO_REPLY_WORDS - 2] = APACHIMO_NOBODY;
}

/* One byte of the block set to a value that makes the tables unsound. */
static void unsound(const char *name, size_t at, uint8_t value)
{
    apachimo_reply reply;
    apachimo_run_result result;
    char line[64];
    uint32_t status;

    prepare();
    state()[at] = value;
    before = now;
    status = apachimo_is_sound(state(), APACHIMO_STATE_BYTES);
    sprintf(line, "is_sound, %s", name);
    check(line, status == APACHIMO_TABLES_UNSOUND, status);
    reply = put(state(), APACHIMO_STATE_BYTES);
    sprintf(line, "call, %s", name);
    check(line, refuses(reply, APACHIMO_TABLES_UNSOUND, APACHIMO_NOBODY), reply.status);
    reply = apachimo_call(state(), APACHIMO_STATE_BYTES, 0, 9, 0, 0, 0, 0, NULL, 0);
    sprintf(line, "unknown call, %s", name);
    check(line, refuses(reply, APACHIMO_TABLES_UNSOUND, APACHIMO_NOBODY), reply.status);
    result = run(state(), APACHIMO_STATE_BYTES, now.tape, TAPE_BYTES, 2, 2 * APACHIMO_REPLY_WORDS);
    unsound_reply(before.replies + GUARD);
    unsound_reply(before.replies + GUARD + APACHIMO_REPLY_WORDS);
    sprintf(line, "run, %s", name);
    check(line, result.status == APACHIMO_TABLES_UNSOUND && result.carried == 2, result.status);
}

static void unsound_tables(void)
{
    unsound("thread flag 2", THREADS, 2);
    unsound("uncreated thread flag 2", THREADS + 11 * 31, 2);
    unsound("semaphore flag 255", SEMAPHORES, 255);
    unsound("queue flag 2", QUEUES, 2);
    unsound("group flag 3", GROUPS, 3);
    unsound("pool flag 128", POOLS, 128);
    unsound("another runner", 0, 5);
    unsound("threshold over priority", THREADS + 3, 11);
    unsound("block listed twice", POOLS + 9, 0);
    unsound("word behind the store", QUEUES + 8, 1);
}

static void refused_tape(const char *name, const uint8_t *tape, size_t len)
{
    apachimo_run_result result = run(state(), APACHIMO_STATE_BYTES, tape, len, RECORDS, 0);
    check(name, result.status == APACHIMO_TAPE_REFUSED && result.carried == 0, result.status);
}

/* One word of the tape's header changed. */
static void refused_header(const char *name, size_t at, uint32_t word)
{
    prepare();
    put_word(now.tape + at, word);
    before = now;
    refused_tape(name, now.tape, TAPE_BYTES);
}

static void refused_tapes(void)
{
    prepare();
    refused_tape("no tape", NULL, 0);
    refused_tape("tape of 15 bytes", now.tape, 15);
    refused_tape("tape one byte short", now.tape, TAPE_BYTES - 1);
    refused_header("one record too many", 0, RECORDS + 1);
    refused_header("2049 records", 0, APACHIMO_TAPE_RECORDS + 1);
    refused_header("records elsewhere", 4, 20);
    refused_header("one word too few", 8, MESSAGES - 1);
    refused_header("4294967295 words", 8, 0xFFFFFFFF);
    refused_header("words elsewhere", 12, 16);
    /* A refused tape comes before unsound tables. */
    prepare();
    state()[0] = 5;
    before = now;
    refused_tape("no tape on unsound tables", NULL, 0);
}

static void short_reply_buffers(void)
{
    size_t needed = APACHIMO_REPLY_WORDS * RECORDS;
    apachimo_run_result result;

    prepare();
    result = run(state(), APACHIMO_STATE_BYTES, now.tape, TAPE_BYTES, RECORDS, needed - 1);
    check("replies one word short", result.status == TX_SIZE_ERROR && result.carried == 0,
          result.status);
    result = run(state(), APACHIMO_STATE_BYTES, now.tape, TAPE_BYTES, 0xFFFFFFFF, 0);
    check("no room for replies", result.status == TX_SIZE_ERROR && result.carried == 0,
          result.status);
    /* Room is asked for before soundness. */
    state()[0] = 5;
    before = now;
    result = run(state(), APACHIMO_STATE_BYTES, now.tape, TAPE_BYTES, 1, 18);
    check("short replies, unsound tables", result.status == TX_SIZE_ERROR && result.carried == 0,
          result.status);
    /* Nothing to carry out needs no room. */
    prepare();
    result = run(state(), APACHIMO_STATE_BYTES, now.tape, TAPE_BYTES, 0, 0);
    check("no record wanted", result.status == TX_SUCCESS && result.carried == 0, result.status);
}

static void messages_outside(void)
{
    uint32_t words[2];
    apachimo_reply reply;

    words[0] = words[1] = 1;
    prepare();
    reply = apachimo_call(state(), APACHIMO_STATE_BYTES, APACHIMO_QUEUE_SEND, APACHIMO_STARTUP, 0,
                          0, 0, 0, NULL, 0);
    check("send, no messages", refuses(reply, TX_PTR_ERROR, 0), reply.status);
    reply = apachimo_call(state(), APACHIMO_STATE_BYTES, APACHIMO_QUEUE_SEND, APACHIMO_STARTUP, 0,
                          0, 1, 0, words, 2);
    check("send, message half outside", refuses(reply, TX_PTR_ERROR, 0), reply.status);
    reply = apachimo_call(state(), APACHIMO_STATE_BYTES, APACHIMO_QUEUE_SEND, APACHIMO_STARTUP, 0,
                          0, 0xFFFFFFFF, 0, words, 2);
    check("send, message far outside", refuses(reply, TX_PTR_ERROR, 0), reply.status);
}

/* A put at the largest count, by each caller, and a ceiling put. */
static void puts_at_the_largest_count(void)
{
    static const char *const names[] = {"put by start-up, largest count",
                                        "put by interrupt, largest count",
                                        "put by thread, largest count"};
    apachimo_reply reply;
    uint32_t caller;

    prepare();
    put_word(state() + SEMAPHORES + 1, 0xFFFFFFFF);
    before = now;
    for (caller = APACHIMO_STARTUP; caller <= APACHIMO_THREAD; caller++) {
        reply = apachimo_call(state(), APACHIMO_STATE_BYTES, APACHIMO_SEMAPHORE_PUT, caller, 0, 0,
                              0, 0, NULL, 0);
        check(names[caller], refuses(reply, TX_CEILING_EXCEEDED, 0), reply.status);
    }
    reply = apachimo_call(state(), APACHIMO_STATE_BYTES, APACHIMO_SEMAPHORE_CEILING_PUT,
                          APACHIMO_INTERRUPT, 0, 0xFFFFFFFF, 0, 0, NULL, 0);
    check("ceiling put, largest count", refuses(reply, TX_CEILING_EXCEEDED, 0), reply.status);
}

/* Priority changes that are refused: number, priority, caller. */
static void priority_changes(void)
{
    static const struct {
        const char *name;
        uint32_t caller, thread, priority, status;
    } cases[] = {
        {"priority change, no thread", APACHIMO_THREAD, 1, 32, TX_THREAD_ERROR},
        {"priority change, thread 2^32 - 1", APACHIMO_THREAD, 0xFFFFFFFF, 5, TX_THREAD_ERROR},
        {"priority change, priority 32", APACHIMO_INTERRUPT, 0, 32, TX_PRIORITY_ERROR},
        {"priority change, past a byte", APACHIMO_THREAD, 0, 256, TX_PRIORITY_ERROR},
        {"priority change, 2^32 - 1", APACHIMO_THREAD, 0, 0xFFFFFFFF, TX_PRIORITY_ERROR},
        {"priority change by start-up", APACHIMO_STARTUP, 0, 5, TX_CALLER_ERROR},
        {"priority change by interrupt", APACHIMO_INTERRUPT, 0, 5, TX_CALLER_ERROR},
    };
    apachimo_reply reply;
    size_t i;

    prepare();
    for (i = 0; i < sizeof cases / sizeof cases[0]; i++) {
        reply = apachimo_call(state(), APACHIMO_STATE_BYTES, APACHIMO_THREAD_PRIORITY_CHANGE,
                              cases[i].caller, cases[i].thread, cases[i].priority, 0, 0, NULL, 0);
        check(cases[i].name, refuses(reply, cases[i].status, 0), reply.status);
    }
}

/* What is carried out changes the block and the replies, and no guard. */
static void carried_out(void)
{
    apachimo_run_result result;
    apachimo_reply reply;
    size_t written = 2 * APACHIMO_REPLY_WORDS * sizeof(uint32_t);

    prepare();
    reply = put(state(), APACHIMO_STATE_BYTES);
    memcpy(before.state + GUARD, state(), APACHIMO_STATE_BYTES);
    check("a put", reply.status == TX_SUCCESS && state()[SEMAPHORES + 1] == 6, reply.status);
    result = run(state(), APACHIMO_STATE_BYTES, now.tape, TAPE_BYTES, 2, 2 * APACHIMO_REPLY_WORDS);
    memcpy(before.state + GUARD, state(), APACHIMO_STATE_BYTES);
    memcpy(before.replies + GUARD, replies(), written);
    check("a run of two records",
          result.status == TX_SUCCESS && result.carried == 2 && state()[5274] == 7 &&
              replies()[0] == 0 && replies()[17] == 0 && replies()[APACHIMO_REPLY_WORDS] == 0,
          result.status);
    memset(state(), 0xFF, APACHIMO_STATE_BYTES);
    result.status = apachimo_start(state(), APACHIMO_STATE_BYTES);
    memcpy(before.state + GUARD, state(), APACHIMO_STATE_BYTES);
    check("a start",
          result.status == TX_SUCCESS &&
              apachimo_is_sound(state(), APACHIMO_STATE_BYTES) == TX_SUCCESS,
          result.status);
}

int main(void)
{
    check("state bytes", apachimo_state_bytes() == APACHIMO_STATE_BYTES, 0);
    other_lengths();
    unknown_numbers();
    unsound_tables();
    refused_tapes();
    short_reply_buffers();
    messages_outside();
    puts_at_the_largest_count();
    priority_changes();
    carried_out();
    return failures == 0 ? 0 : 1;
}
