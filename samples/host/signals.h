/* Signals: SIGTERM and SIGINT end the host, SIGUSR1 asks for the session table. */
#ifndef SIGNALS_H
#define SIGNALS_H

/* From here on they arrive only in wait_for_packet(), so none is missed between two looks. */
void take_signals(void);

/* Waits for a packet on the socket (-1: for none), for a signal, or for so many milliseconds (-1: without end). Returns 1 for a packet. */
int wait_for_packet(int socket, long milliseconds);

int is_ended(void);

/* 1 where the table was asked for since the last call. */
int is_table_asked(void);

#endif
