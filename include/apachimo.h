/* The services of a station display board's kernel, for C99 and C++.
 *
 * Link with libapachimo.a. The library keeps nothing of its own: the tables
 * are a block of bytes that the caller lends with every call. docs/LIBRARY.md
 * has the layout of the block and a worked example.
 *
 * Names that begin with TX_ and tx_ are ThreadX's. Do not include this file
 * and ThreadX's own tx_api.h into the same source file. */
#ifndef APACHIMO_H
#define APACHIMO_H

#include <stddef.h>
#include <stdint.h>

#ifdef __cplusplus
extern "C" {
#endif

/* ---- sizes */

/* Bytes of a block of tables. */
#define APACHIMO_STATE_BYTES 5278
/* Words of a reply: status, sixteen words, next thread, ended waits. */
#define APACHIMO_REPLY_WORDS 19
/* Words of a message, at most, and of what a call answers. */
#define APACHIMO_MESSAGE_WORDS 16
/* Records and message words of a tape, at most. */
#define APACHIMO_TAPE_RECORDS 2048
#define APACHIMO_TAPE_WORDS 4000
/* How many of each kind the tables hold; numbers start at 0. */
#define APACHIMO_THREADS 32
#define APACHIMO_SEMAPHORES 16
#define APACHIMO_QUEUES 8
#define APACHIMO_GROUPS 8
#define APACHIMO_POOLS 4
/* The next thread of a reply where nobody runs. */
#define APACHIMO_NOBODY 32

/* ---- statuses */

#define TX_SUCCESS 0x00
#define TX_DELETED 0x01
#define TX_POOL_ERROR 0x02
#define TX_PTR_ERROR 0x03
#define TX_WAIT_ERROR 0x04
#define TX_SIZE_ERROR 0x05
#define TX_GROUP_ERROR 0x06
#define TX_NO_EVENTS 0x07
#define TX_OPTION_ERROR 0x08
#define TX_QUEUE_ERROR 0x09
#define TX_QUEUE_EMPTY 0x0A
#define TX_QUEUE_FULL 0x0B
#define TX_SEMAPHORE_ERROR 0x0C
#define TX_NO_INSTANCE 0x0D
#define TX_THREAD_ERROR 0x0E
#define TX_PRIORITY_ERROR 0x0F
/* ThreadX gives this number twice: TX_START_ERROR by thread create, else TX_NO_MEMORY. */
#define TX_NO_MEMORY 0x10
#define TX_START_ERROR 0x10
#define TX_DELETE_ERROR 0x11
#define TX_RESUME_ERROR 0x12
#define TX_CALLER_ERROR 0x13
#define TX_SUSPEND_ERROR 0x14
#define TX_THRESH_ERROR 0x18
#define TX_SUSPEND_LIFTED 0x19
#define TX_WAIT_ABORTED 0x1A
#define TX_WAIT_ABORT_ERROR 0x1B
#define TX_NOT_DONE 0x20
#define TX_CEILING_EXCEEDED 0x21
#define TX_INVALID_CEILING 0x22

/* The tables are unsound: no call is carried out on them. */
#define APACHIMO_TABLES_UNSOUND 0x100
/* The caller now waits or sleeps; what the wait brings is held by its thread. */
#define APACHIMO_WAITING 0x101
/* A call by the running thread while nobody runs. */
#define APACHIMO_NOBODY_RUNS 0x102
/* The bytes are no tape. */
#define APACHIMO_TAPE_REFUSED 0x103
/* No call or no caller has this number. */
#define APACHIMO_UNKNOWN_CALL 0x104

/* ---- waits, options, states */

#define TX_NO_WAIT 0x00000000
#define TX_WAIT_FOREVER 0xFFFFFFFF

#define TX_OR 0
#define TX_OR_CLEAR 1
#define TX_AND 2
#define TX_AND_CLEAR 3

#define TX_DONT_START 0
#define TX_AUTO_START 1

#define TX_READY 0
#define TX_COMPLETED 1
#define TX_TERMINATED 2
#define TX_SUSPENDED 3
#define TX_SLEEP 4
#define TX_QUEUE_SUSP 5
#define TX_SEMAPHORE_SUSP 6
#define TX_EVENT_FLAG 7
#define TX_BLOCK_MEMORY 8

/* ---- callers */

#define APACHIMO_STARTUP 0
#define APACHIMO_INTERRUPT 1
/* The running thread. */
#define APACHIMO_THREAD 2

/* ---- call numbers */

#define APACHIMO_THREAD_CREATE 1
#define APACHIMO_THREAD_DELETE 2
#define APACHIMO_THREAD_RESUME 3
#define APACHIMO_THREAD_SUSPEND 4
#define APACHIMO_THREAD_TERMINATE 5
#define APACHIMO_THREAD_RESET 6
#define APACHIMO_FINISH 7
#define APACHIMO_THREAD_RELINQUISH 8
#define APACHIMO_THREAD_SLEEP 9
#define APACHIMO_THREAD_WAIT_ABORT 10
#define APACHIMO_THREAD_PRIORITY_CHANGE 11
#define APACHIMO_THREAD_PREEMPTION_CHANGE 12
#define APACHIMO_TIME_GET 13
#define APACHIMO_TIME_SET 14
#define APACHIMO_TICK 15
#define APACHIMO_SEMAPHORE_CREATE 16
#define APACHIMO_SEMAPHORE_DELETE 17
#define APACHIMO_SEMAPHORE_GET 18
#define APACHIMO_SEMAPHORE_PUT 19
#define APACHIMO_SEMAPHORE_CEILING_PUT 20
#define APACHIMO_SEMAPHORE_PRIORITIZE 21
#define APACHIMO_QUEUE_CREATE 22
#define APACHIMO_QUEUE_DELETE 23
#define APACHIMO_QUEUE_SEND 24
#define APACHIMO_QUEUE_FRONT_SEND 25
#define APACHIMO_QUEUE_RECEIVE 26
#define APACHIMO_QUEUE_FLUSH 27
#define APACHIMO_QUEUE_PRIORITIZE 28
#define APACHIMO_EVENT_FLAGS_CREATE 29
#define APACHIMO_EVENT_FLAGS_DELETE 30
#define APACHIMO_EVENT_FLAGS_SET 31
#define APACHIMO_EVENT_FLAGS_GET 32
#define APACHIMO_BLOCK_POOL_CREATE 33
#define APACHIMO_BLOCK_POOL_DELETE 34
#define APACHIMO_BLOCK_ALLOCATE 35
#define APACHIMO_BLOCK_RELEASE 36
#define APACHIMO_BLOCK_POOL_PRIORITIZE 37
#define APACHIMO_READ_STATE 38
#define APACHIMO_READ_WORDS 39

/* ---- the library's five functions */

/* What a call answers. `next` is the thread that runs next, APACHIMO_NOBODY
 * for none; `ended` counts the waits that the call ended with a status. */
typedef struct apachimo_reply {
    uint32_t status;
    uint32_t words[APACHIMO_MESSAGE_WORDS];
    uint32_t next;
    uint32_t ended;
} apachimo_reply;

/* What a run of a tape answers: its own status, and how many records it
 * carried out. */
typedef struct apachimo_run_result {
    uint32_t status;
    uint32_t carried;
} apachimo_run_result;

/* The bytes of a block of tables: APACHIMO_STATE_BYTES. */
size_t apachimo_state_bytes(void);

/* Writes tables with nothing created. 0x00, or 0x05 and nothing written where
 * `len` is not APACHIMO_STATE_BYTES. */
uint32_t apachimo_start(uint8_t *state, size_t len);

/* Whether the tables are sound: 0x00, 0x100 for unsound ones, 0x05 for a
 * block of another length. */
uint32_t apachimo_is_sound(const uint8_t *state, size_t len);

/* Carries out one call by its number. `messages` are the words that the
 * messages of calls 24 and 25 are taken from. 0x05 for a block of another length, 0x100 for
 * unsound tables; a refused call writes nothing into the block. */
apachimo_reply apachimo_call(uint8_t *state, size_t len, uint32_t call,
                             uint32_t caller, uint32_t a, uint32_t b,
                             uint32_t c, uint32_t d, const uint32_t *messages,
                             size_t message_words);

/* Carries out the records of a tape, at most `most` of them, and writes
 * APACHIMO_REPLY_WORDS words for each into `replies`. The first of these that
 * holds is the status, and the block stays as it is: 0x05 a block of another
 * length, 0x103 no tape, 0x05 too little room for the replies, 0x100 unsound
 * tables. No reply is written then, but for 0x100, where each of the `carried`
 * records is answered with 0x100. */
apachimo_run_result apachimo_run(uint8_t *state, size_t len,
                                 const uint8_t *tape, size_t tape_len,
                                 uint32_t most, uint32_t *replies,
                                 size_t reply_words);

/* ---- a board, and the services by their names */

/* The block of tables, to be lent to the functions below. Before its first call
 * it must be started. */
typedef struct apachimo_board {
    uint8_t state[APACHIMO_STATE_BYTES];
} apachimo_board;

/* Makes the board one with nothing created. */
static inline uint32_t apachimo_board_start(apachimo_board *board)
{
    return apachimo_start(board->state, APACHIMO_STATE_BYTES);
}

/* Carries out a call that takes no message. */
static inline apachimo_reply apachimo_plain_call(apachimo_board *board,
                                                 uint32_t caller, uint32_t call,
                                                 uint32_t a, uint32_t b,
                                                 uint32_t c, uint32_t d)
{
    return apachimo_call(board->state, APACHIMO_STATE_BYTES, call, caller, a, b,
                         c, d, NULL, 0);
}

/* The thread becomes ready at once with TX_AUTO_START, and is suspended with
 * TX_DONT_START. */
static inline apachimo_reply tx_thread_create(apachimo_board *board,
                                              uint32_t caller, uint32_t thread,
                                              uint32_t priority,
                                              uint32_t threshold,
                                              uint32_t start)
{
    return apachimo_plain_call(board, caller, APACHIMO_THREAD_CREATE, thread,
                               priority, threshold, start);
}

static inline apachimo_reply tx_thread_delete(apachimo_board *board,
                                              uint32_t caller, uint32_t thread)
{
    return apachimo_plain_call(board, caller, APACHIMO_THREAD_DELETE, thread, 0,
                               0, 0);
}

static inline apachimo_reply tx_thread_resume(apachimo_board *board,
                                              uint32_t caller, uint32_t thread)
{
    return apachimo_plain_call(board, caller, APACHIMO_THREAD_RESUME, thread, 0,
                               0, 0);
}

static inline apachimo_reply tx_thread_suspend(apachimo_board *board,
                                               uint32_t caller, uint32_t thread)
{
    return apachimo_plain_call(board, caller, APACHIMO_THREAD_SUSPEND, thread,
                               0, 0, 0);
}

static inline apachimo_reply tx_thread_terminate(apachimo_board *board,
                                                 uint32_t caller,
                                                 uint32_t thread)
{
    return apachimo_plain_call(board, caller, APACHIMO_THREAD_TERMINATE, thread,
                               0, 0, 0);
}

static inline apachimo_reply tx_thread_reset(apachimo_board *board,
                                             uint32_t caller, uint32_t thread)
{
    return apachimo_plain_call(board, caller, APACHIMO_THREAD_RESET, thread, 0,
                               0, 0);
}

/* The running thread's entry function returns. */
static inline apachimo_reply apachimo_finish(apachimo_board *board,
                                             uint32_t caller)
{
    return apachimo_plain_call(board, caller, APACHIMO_FINISH, 0, 0, 0, 0);
}

static inline apachimo_reply tx_thread_relinquish(apachimo_board *board,
                                                  uint32_t caller)
{
    return apachimo_plain_call(board, caller, APACHIMO_THREAD_RELINQUISH, 0, 0,
                               0, 0);
}

static inline apachimo_reply tx_thread_sleep(apachimo_board *board,
                                             uint32_t caller, uint32_t ticks)
{
    return apachimo_plain_call(board, caller, APACHIMO_THREAD_SLEEP, ticks, 0,
                               0, 0);
}

static inline apachimo_reply tx_thread_wait_abort(apachimo_board *board,
                                                  uint32_t caller,
                                                  uint32_t thread)
{
    return apachimo_plain_call(board, caller, APACHIMO_THREAD_WAIT_ABORT,
                               thread, 0, 0, 0);
}

/* Sets the threshold to the new priority too. A runner that it lowers gives
 * way at once to a better ready thread. Word 0 of the reply: the old priority. */
static inline apachimo_reply tx_thread_priority_change(apachimo_board *board,
                                                       uint32_t caller,
                                                       uint32_t thread,
                                                       uint32_t priority)
{
    return apachimo_plain_call(board, caller, APACHIMO_THREAD_PRIORITY_CHANGE,
                               thread, priority, 0, 0);
}

/* Word 0 of the reply: the old threshold. */
static inline apachimo_reply tx_thread_preemption_change(apachimo_board *board,
                                                         uint32_t caller,
                                                         uint32_t thread,
                                                         uint32_t threshold)
{
    return apachimo_plain_call(board, caller, APACHIMO_THREAD_PREEMPTION_CHANGE,
                               thread, threshold, 0, 0);
}

/* Word 0 of the reply: the clock. */
static inline apachimo_reply tx_time_get(apachimo_board *board, uint32_t caller)
{
    return apachimo_plain_call(board, caller, APACHIMO_TIME_GET, 0, 0, 0, 0);
}

static inline apachimo_reply tx_time_set(apachimo_board *board, uint32_t caller,
                                         uint32_t time)
{
    return apachimo_plain_call(board, caller, APACHIMO_TIME_SET, time, 0, 0, 0);
}

/* The timer interrupt. */
static inline apachimo_reply apachimo_tick(apachimo_board *board,
                                           uint32_t caller)
{
    return apachimo_plain_call(board, caller, APACHIMO_TICK, 0, 0, 0, 0);
}

static inline apachimo_reply tx_semaphore_create(apachimo_board *board,
                                                 uint32_t caller,
                                                 uint32_t semaphore,
                                                 uint32_t count)
{
    return apachimo_plain_call(board, caller, APACHIMO_SEMAPHORE_CREATE,
                               semaphore, count, 0, 0);
}

static inline apachimo_reply tx_semaphore_delete(apachimo_board *board,
                                                 uint32_t caller,
                                                 uint32_t semaphore)
{
    return apachimo_plain_call(board, caller, APACHIMO_SEMAPHORE_DELETE,
                               semaphore, 0, 0, 0);
}

static inline apachimo_reply tx_semaphore_get(apachimo_board *board,
                                              uint32_t caller,
                                              uint32_t semaphore, uint32_t wait)
{
    return apachimo_plain_call(board, caller, APACHIMO_SEMAPHORE_GET, semaphore,
                               wait, 0, 0);
}

/* Refused with TX_CEILING_EXCEEDED at the largest count, 0xFFFFFFFF. */
static inline apachimo_reply tx_semaphore_put(apachimo_board *board,
                                              uint32_t caller,
                                              uint32_t semaphore)
{
    return apachimo_plain_call(board, caller, APACHIMO_SEMAPHORE_PUT, semaphore,
                               0, 0, 0);
}

static inline apachimo_reply tx_semaphore_ceiling_put(apachimo_board *board,
                                                      uint32_t caller,
                                                      uint32_t semaphore,
                                                      uint32_t ceiling)
{
    return apachimo_plain_call(board, caller, APACHIMO_SEMAPHORE_CEILING_PUT,
                               semaphore, ceiling, 0, 0);
}

static inline apachimo_reply tx_semaphore_prioritize(apachimo_board *board,
                                                     uint32_t caller,
                                                     uint32_t semaphore)
{
    return apachimo_plain_call(board, caller, APACHIMO_SEMAPHORE_PRIORITIZE,
                               semaphore, 0, 0, 0);
}

/* Messages of 1 to 16 words in 1 to 64 words of storage. */
static inline apachimo_reply tx_queue_create(apachimo_board *board,
                                             uint32_t caller, uint32_t queue,
                                             uint32_t message_words,
                                             uint32_t storage_words)
{
    return apachimo_plain_call(board, caller, APACHIMO_QUEUE_CREATE, queue,
                               message_words, storage_words, 0);
}

static inline apachimo_reply tx_queue_delete(apachimo_board *board,
                                             uint32_t caller, uint32_t queue)
{
    return apachimo_plain_call(board, caller, APACHIMO_QUEUE_DELETE, queue, 0,
                               0, 0);
}

/* The message is `message_words` lent words, at least as many as a message of
 * the queue has. */
static inline apachimo_reply tx_queue_send(apachimo_board *board,
                                           uint32_t caller, uint32_t queue,
                                           const uint32_t *message,
                                           size_t message_words, uint32_t wait)
{
    return apachimo_call(board->state, APACHIMO_STATE_BYTES,
                         APACHIMO_QUEUE_SEND, caller, queue, wait, 0, 0,
                         message, message_words);
}

/* As tx_queue_send, to the front. */
static inline apachimo_reply tx_queue_front_send(apachimo_board *board,
                                                 uint32_t caller,
                                                 uint32_t queue,
                                                 const uint32_t *message,
                                                 size_t message_words,
                                                 uint32_t wait)
{
    return apachimo_call(board->state, APACHIMO_STATE_BYTES,
                         APACHIMO_QUEUE_FRONT_SEND, caller, queue, wait, 0, 0,
                         message, message_words);
}

/* The words of the reply are the message. */
static inline apachimo_reply tx_queue_receive(apachimo_board *board,
                                              uint32_t caller, uint32_t queue,
                                              uint32_t wait)
{
    return apachimo_plain_call(board, caller, APACHIMO_QUEUE_RECEIVE, queue,
                               wait, 0, 0);
}

static inline apachimo_reply tx_queue_flush(apachimo_board *board,
                                            uint32_t caller, uint32_t queue)
{
    return apachimo_plain_call(board, caller, APACHIMO_QUEUE_FLUSH, queue, 0, 0,
                               0);
}

static inline apachimo_reply tx_queue_prioritize(apachimo_board *board,
                                                 uint32_t caller,
                                                 uint32_t queue)
{
    return apachimo_plain_call(board, caller, APACHIMO_QUEUE_PRIORITIZE, queue,
                               0, 0, 0);
}

static inline apachimo_reply tx_event_flags_create(apachimo_board *board,
                                                   uint32_t caller,
                                                   uint32_t group)
{
    return apachimo_plain_call(board, caller, APACHIMO_EVENT_FLAGS_CREATE,
                               group, 0, 0, 0);
}

static inline apachimo_reply tx_event_flags_delete(apachimo_board *board,
                                                   uint32_t caller,
                                                   uint32_t group)
{
    return apachimo_plain_call(board, caller, APACHIMO_EVENT_FLAGS_DELETE,
                               group, 0, 0, 0);
}

/* The option is TX_OR or TX_AND. */
static inline apachimo_reply tx_event_flags_set(apachimo_board *board,
                                                uint32_t caller, uint32_t group,
                                                uint32_t flags, uint32_t option)
{
    return apachimo_plain_call(board, caller, APACHIMO_EVENT_FLAGS_SET, group,
                               flags, option, 0);
}

/* Word 0 of the reply: the flags before any clear. */
static inline apachimo_reply tx_event_flags_get(apachimo_board *board,
                                                uint32_t caller, uint32_t group,
                                                uint32_t flags, uint32_t option,
                                                uint32_t wait)
{
    return apachimo_plain_call(board, caller, APACHIMO_EVENT_FLAGS_GET, group,
                               flags, option, wait);
}

/* Blocks of 4 to 256 bytes, each with four bytes of overhead. */
static inline apachimo_reply tx_block_pool_create(apachimo_board *board,
                                                  uint32_t caller,
                                                  uint32_t pool,
                                                  uint32_t block_bytes,
                                                  uint32_t total_bytes)
{
    return apachimo_plain_call(board, caller, APACHIMO_BLOCK_POOL_CREATE, pool,
                               block_bytes, total_bytes, 0);
}

static inline apachimo_reply tx_block_pool_delete(apachimo_board *board,
                                                  uint32_t caller,
                                                  uint32_t pool)
{
    return apachimo_plain_call(board, caller, APACHIMO_BLOCK_POOL_DELETE, pool,
                               0, 0, 0);
}

/* Word 0 of the reply: the block number. Block n begins at byte
 * n * (block bytes + 4) + 4 of the pool's area. */
static inline apachimo_reply tx_block_allocate(apachimo_board *board,
                                               uint32_t caller, uint32_t pool,
                                               uint32_t wait)
{
    return apachimo_plain_call(board, caller, APACHIMO_BLOCK_ALLOCATE, pool,
                               wait, 0, 0);
}

static inline apachimo_reply tx_block_release(apachimo_board *board,
                                              uint32_t caller, uint32_t pool,
                                              uint32_t block)
{
    return apachimo_plain_call(board, caller, APACHIMO_BLOCK_RELEASE, pool,
                               block, 0, 0);
}

static inline apachimo_reply tx_block_pool_prioritize(apachimo_board *board,
                                                      uint32_t caller,
                                                      uint32_t pool)
{
    return apachimo_plain_call(board, caller, APACHIMO_BLOCK_POOL_PRIORITIZE,
                               pool, 0, 0, 0);
}

/* Words 0 and 1 of the reply: the thread's state and held status. */
static inline apachimo_reply apachimo_read_state(apachimo_board *board,
                                                 uint32_t caller,
                                                 uint32_t thread)
{
    return apachimo_plain_call(board, caller, APACHIMO_READ_STATE, thread, 0, 0,
                               0);
}

/* The words of the reply are those that the thread's last wait left it. */
static inline apachimo_reply apachimo_read_words(apachimo_board *board,
                                                 uint32_t caller,
                                                 uint32_t thread)
{
    return apachimo_plain_call(board, caller, APACHIMO_READ_WORDS, thread, 0, 0,
                               0);
}

/* The name of a status that `call` has answered. The call settles 0x10, which
 * has two names. */
static inline const char *apachimo_status_name(uint32_t call, uint32_t status)
{
    switch (status) {
    case TX_SUCCESS: return "TX_SUCCESS";
    case TX_DELETED: return "TX_DELETED";
    case TX_POOL_ERROR: return "TX_POOL_ERROR";
    case TX_PTR_ERROR: return "TX_PTR_ERROR";
    case TX_WAIT_ERROR: return "TX_WAIT_ERROR";
    case TX_SIZE_ERROR: return "TX_SIZE_ERROR";
    case TX_GROUP_ERROR: return "TX_GROUP_ERROR";
    case TX_NO_EVENTS: return "TX_NO_EVENTS";
    case TX_OPTION_ERROR: return "TX_OPTION_ERROR";
    case TX_QUEUE_ERROR: return "TX_QUEUE_ERROR";
    case TX_QUEUE_EMPTY: return "TX_QUEUE_EMPTY";
    case TX_QUEUE_FULL: return "TX_QUEUE_FULL";
    case TX_SEMAPHORE_ERROR: return "TX_SEMAPHORE_ERROR";
    case TX_NO_INSTANCE: return "TX_NO_INSTANCE";
    case TX_THREAD_ERROR: return "TX_THREAD_ERROR";
    case TX_PRIORITY_ERROR: return "TX_PRIORITY_ERROR";
    case TX_NO_MEMORY:
        return call == APACHIMO_THREAD_CREATE ? "TX_START_ERROR" : "TX_NO_MEMORY";
    case TX_DELETE_ERROR: return "TX_DELETE_ERROR";
    case TX_RESUME_ERROR: return "TX_RESUME_ERROR";
    case TX_CALLER_ERROR: return "TX_CALLER_ERROR";
    case TX_SUSPEND_ERROR: return "TX_SUSPEND_ERROR";
    case TX_THRESH_ERROR: return "TX_THRESH_ERROR";
    case TX_SUSPEND_LIFTED: return "TX_SUSPEND_LIFTED";
    case TX_WAIT_ABORTED: return "TX_WAIT_ABORTED";
    case TX_WAIT_ABORT_ERROR: return "TX_WAIT_ABORT_ERROR";
    case TX_NOT_DONE: return "TX_NOT_DONE";
    case TX_CEILING_EXCEEDED: return "TX_CEILING_EXCEEDED";
    case TX_INVALID_CEILING: return "TX_INVALID_CEILING";
    case APACHIMO_TABLES_UNSOUND: return "APACHIMO_TABLES_UNSOUND";
    case APACHIMO_WAITING: return "APACHIMO_WAITING";
    case APACHIMO_NOBODY_RUNS: return "APACHIMO_NOBODY_RUNS";
    case APACHIMO_TAPE_REFUSED: return "APACHIMO_TAPE_REFUSED";
    case APACHIMO_UNKNOWN_CALL: return "APACHIMO_UNKNOWN_CALL";
    default: return "(no status)";
    }
}

#ifdef __cplusplus
}
#endif

#endif
