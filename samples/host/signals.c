#include "signals.h"

#include <signal.h>
#include <stddef.h>
#include <sys/select.h>

static volatile sig_atomic_t ended, table_asked;
static sigset_t before, blocked; /* the signals that are blocked while it waits, and while it works */

static void note(int number)
{
    if (number == SIGUSR1)
        table_asked = 1;
    else
        ended = 1;
}

void take_signals(void)
{
    static const int taken[] = {SIGTERM, SIGINT, SIGUSR1};
    struct sigaction action = {.sa_handler = note};
    sigprocmask(SIG_SETMASK, NULL, &before);
    blocked = before;
    for (size_t i = 0; i < sizeof taken / sizeof *taken; i++)
        sigaddset(&blocked, taken[i]);
    sigprocmask(SIG_SETMASK, &blocked, NULL);
    for (size_t i = 0; i < sizeof taken / sizeof *taken; i++)
        sigaction(taken[i], &action, NULL);
}

int wait_for_packet(int socket, long milliseconds)
{
    struct timespec time = {milliseconds / 1000, milliseconds % 1000 * 1000000};
    fd_set sockets;
    FD_ZERO(&sockets);
    if (socket >= 0)
        FD_SET(socket, &sockets);
    int there = pselect(socket + 1, &sockets, NULL, NULL, milliseconds < 0 ? NULL : &time, &before) == 1;
    sigprocmask(SIG_SETMASK, &before, NULL); /* pselect() lets no signal in where packets come without a pause */
    sigprocmask(SIG_SETMASK, &blocked, NULL);
    return there;
}

int is_ended(void) { return ended; }

int is_table_asked(void)
{
    int asked = table_asked;
    table_asked = 0;
    return asked;
}
