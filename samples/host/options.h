/* The host's settings, from its command line. */
#ifndef OPTIONS_H
#define OPTIONS_H

#include <stddef.h>
#include <stdint.h>

struct options {
    uint32_t port; /* 0: any that is free */
    uint8_t secret[256];
    size_t secret_len;
    uint32_t nas_ip;
    const char *nas_id;
    uint32_t slots;
    int by_steps; /* the scheduler, and not whole requests */
    uint32_t pace; /* milliseconds between two rounds of steps */
    int packets; /* show request and reply in full */
    const char *rooms; /* file of the session table */
};

/* Ends the program where the command line is unfit, or asks for help. */
void read_options(int argc, char **argv, struct options *options);

#endif
