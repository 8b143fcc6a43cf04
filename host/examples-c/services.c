/* Calls every service of the header once, each argument another number, over
 * a stand-in for the library's call that prints what reaches it. */
#include "apachimo.h"

#include <stdio.h>

/* In place of the library's own. */
apachimo_reply apachimo_call(uint8_t *state, size_t len, uint32_t call, uint32_t caller, uint32_t a,
                             uint32_t b, uint32_t c, uint32_t d, const uint32_t *messages,
                             size_t message_words)
{
    apachimo_reply reply = {0, {0}, 0, 0};
    size_t i;
    (void)state;
    printf("%u %u %u %u %u %u %u", (unsigned)len, (unsigned)call, (unsigned)caller, (unsigned)a,
           (unsigned)b, (unsigned)c, (unsigned)d);
    for (i = 0; i < message_words; i++)
        printf(" %u", (unsigned)messages[i]);
    printf("\n");
    return reply;
}

uint32_t apachimo_start(uint8_t *state, size_t len)
{
    (void)state;
    (void)len;
    return TX_SUCCESS;
}

static void threads(apachimo_board *board)
{
    tx_thread_create(board, 0, 11, 12, 13, 14);
    tx_thread_delete(board, 1, 11);
    tx_thread_resume(board, 2, 11);
    tx_thread_suspend(board, 0, 11);
    tx_thread_terminate(board, 1, 11);
    tx_thread_reset(board, 2, 11);
    apachimo_finish(board, 0);
    tx_thread_relinquish(board, 1);
    tx_thread_sleep(board, 2, 11);
    tx_thread_wait_abort(board, 0, 11);
    tx_thread_priority_change(board, 1, 11, 12);
    tx_thread_preemption_change(board, 2, 11, 12);
    tx_time_get(board, 0);
    tx_time_set(board, 1, 11);
    apachimo_tick(board, 2);
}

static void objects(apachimo_board *board)
{
    static const uint32_t message[3] = {21, 22, 23};
    tx_semaphore_create(board, 0, 11, 12);
    tx_semaphore_delete(board, 1, 11);
    tx_semaphore_get(board, 2, 11, 12);
    tx_semaphore_put(board, 0, 11);
    tx_semaphore_ceiling_put(board, 1, 11, 12);
    tx_semaphore_prioritize(board, 2, 11);
    tx_queue_create(board, 0, 11, 12, 13);
    tx_queue_delete(board, 1, 11);
    tx_queue_send(board, 2, 11, message, 3, 12);
    tx_queue_front_send(board, 0, 11, message, 2, 12);
    tx_queue_receive(board, 1, 11, 12);
    tx_queue_flush(board, 2, 11);
    tx_queue_prioritize(board, 0, 11);
    tx_event_flags_create(board, 1, 11);
    tx_event_flags_delete(board, 2, 11);
    tx_event_flags_set(board, 0, 11, 12, 13);
    tx_event_flags_get(board, 1, 11, 12, 13, 14);
    tx_block_pool_create(board, 2, 11, 12, 13);
    tx_block_pool_delete(board, 0, 11);
    tx_block_allocate(board, 1, 11, 12);
    tx_block_release(board, 2, 11, 12);
    tx_block_pool_prioritize(board, 0, 11);
    apachimo_read_state(board, 1, 11);
    apachimo_read_words(board, 2, 11);
}

int main(void)
{
    static apachimo_board board;
    apachimo_board_start(&board);
    threads(&board);
    objects(&board);
    return 0;
}
