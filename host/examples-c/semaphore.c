/* A display thread waits for an instance that an interrupt brings; then one
 * that never comes. */
#include "apachimo.h"

#include <stdio.h>

enum { DISPLAY = 0, INSTANCES = 0 };

/* Prints a call's status by name, and who runs next. */
static void show(const char *what, uint32_t call, apachimo_reply reply)
{
    printf("%-20s %s, ", what, apachimo_status_name(call, reply.status));
    if (reply.next == APACHIMO_NOBODY)
        printf("nobody runs\n");
    else
        printf("thread %u runs\n", (unsigned)reply.next);
}

/* Prints the status that the thread's last wait left it. */
static void show_held(apachimo_board *board, uint32_t call)
{
    apachimo_reply reply = apachimo_read_state(board, APACHIMO_INTERRUPT, DISPLAY);
    printf("%-20s %s\n", "held status", apachimo_status_name(call, reply.words[1]));
}

int main(void)
{
    static apachimo_board board;

    if (apachimo_board_start(&board) != TX_SUCCESS)
        return 1;
    show("thread create", APACHIMO_THREAD_CREATE,
         tx_thread_create(&board, APACHIMO_STARTUP, DISPLAY, 10, 10, TX_AUTO_START));
    show("semaphore create", APACHIMO_SEMAPHORE_CREATE,
         tx_semaphore_create(&board, APACHIMO_STARTUP, INSTANCES, 0));
    show("get, no wait", APACHIMO_SEMAPHORE_GET,
         tx_semaphore_get(&board, APACHIMO_THREAD, INSTANCES, TX_NO_WAIT));

    show("get, without end", APACHIMO_SEMAPHORE_GET,
         tx_semaphore_get(&board, APACHIMO_THREAD, INSTANCES, TX_WAIT_FOREVER));
    show("put by interrupt", APACHIMO_SEMAPHORE_PUT,
         tx_semaphore_put(&board, APACHIMO_INTERRUPT, INSTANCES));
    show_held(&board, APACHIMO_SEMAPHORE_GET);

    show("get, two ticks", APACHIMO_SEMAPHORE_GET,
         tx_semaphore_get(&board, APACHIMO_THREAD, INSTANCES, 2));
    show("tick", APACHIMO_TICK, apachimo_tick(&board, APACHIMO_INTERRUPT));
    show("tick", APACHIMO_TICK, apachimo_tick(&board, APACHIMO_INTERRUPT));
    show_held(&board, APACHIMO_SEMAPHORE_GET);
    return 0;
}
