#include "options.h"

#include <stdio.h>
#include <stdlib.h>
#include <string.h>

#include "../../include/fumbokeri.h"
#include "values.h"

static const char help[] =
    "fumbokeri-host [OPTION...] ROOMS\n"
    "\n"
    "A RADIUS Dynamic Authorization host to test clients with: it takes\n"
    "Disconnect-Requests and CoA-Requests (RFC 3576) by UDP on 127.0.0.1, ends or\n"
    "alters the sessions of its table, and replies. Its sessions are those of the\n"
    "file ROOMS, and are gone when it ends.\n"
    "\n"
    "  ROOMS             text file of the session table, one session a line, as\n"
    "                    samples/host/rooms.txt\n"
    "  --port N          UDP port (3799); 0 takes any that is free\n"
    "  --secret TEXT     secret shared with the clients, 1 to 64 bytes (testing123)\n"
    "  --secret-hex HEX  the same, as pairs of hex digits\n"
    "  --nas-ip A.B.C.D  own NAS-IP-Address (192.0.2.7)\n"
    "  --nas-id TEXT     own NAS-Identifier, 1 to 32 bytes (oak-gate)\n"
    "  --slots N         slots of the session table, 1 to 64 (64)\n"
    "  --steps           work on up to four requests at once, in small steps;\n"
    "                    without it, on one whole request after the other\n"
    "  --pace MS         with --steps: wait so many milliseconds between two rounds\n"
    "                    of steps, up to 1000 (0), so that requests meet in work\n"
    "  --packets         show each request and its reply in full\n"
    "  --help            this text\n"
    "\n"
    "A line is written for each packet: time and sender | what came | the rule that\n"
    "applied | what was answered | how many sessions were changed, and in which\n"
    "slots, with the rates where they are new. A rule is D1 to D6 (discarded), an\n"
    "Error-Cause (NAK) or 0 (ACK). Rates are those of a Vendor-Specific attribute\n"
    "of vendor 32473; a session starts with rates of 0.\n"
    "\n"
    "  kill -USR1 PID    prints the session table\n"
    "  kill PID, Ctrl-C  ends it\n"
    "\n"
    "At most one packet is held, or four with --steps: while four are in work,\n"
    "nothing is read from the socket. What waits there is bounded by the system's\n"
    "socket buffer; what does not fit is lost, as any datagram may be.\n";

static void refuse(const char *what, const char *value)
{
    fprintf(stderr, "fumbokeri-host: %s: %s (--help says more)\n", what, value);
    exit(2);
}

static void demand(int fits, const char *option, const char *value)
{
    if (!fits)
        refuse(option, value);
}

/* 1 where the word is an option without a value. */
static int read_flag(const char *word, struct options *o)
{
    if (strcmp(word, "--help") == 0) {
        fputs(help, stdout);
        exit(0);
    }
    if (strcmp(word, "--steps") == 0)
        return o->by_steps = 1;
    if (strcmp(word, "--packets") == 0)
        return o->packets = 1;
    return 0;
}

static void read_option(const char *option, const char *value, struct options *o)
{
    if (strcmp(option, "--port") == 0) {
        demand(read_number(value, 0, 65535, &o->port), "--port is 0 to 65535, not", value);
    } else if (strcmp(option, "--secret") == 0) {
        o->secret_len = strlen(value);
        demand(o->secret_len <= sizeof o->secret, "--secret is too long", value);
        memcpy(o->secret, value, o->secret_len);
    } else if (strcmp(option, "--secret-hex") == 0) {
        demand(read_hex(value, o->secret, sizeof o->secret, &o->secret_len), "--secret-hex is pairs of hex digits, not", value);
    } else if (strcmp(option, "--nas-ip") == 0) {
        demand(read_address(value, &o->nas_ip), "--nas-ip is an IPv4 address, not", value);
    } else if (strcmp(option, "--nas-id") == 0) {
        o->nas_id = value;
    } else if (strcmp(option, "--slots") == 0) {
        demand(read_number(value, 1, FBK_SLOTS_MAX, &o->slots), "--slots is 1 to 64, not", value);
    } else if (strcmp(option, "--pace") == 0) {
        demand(read_number(value, 0, 1000, &o->pace), "--pace is 0 to 1000 milliseconds, not", value);
    } else {
        refuse("no such option", option);
    }
}

void read_options(int argc, char **argv, struct options *o)
{
    *o = (struct options){.port = 3799, .secret = "testing123", .secret_len = 10, .nas_ip = 0xC0000207, .nas_id = "oak-gate", .slots = FBK_SLOTS_MAX};
    for (int i = 1; i < argc; i++) {
        if (read_flag(argv[i], o))
            continue;
        if (strncmp(argv[i], "--", 2) == 0) {
            demand(i + 1 < argc, "no value after", argv[i]);
            read_option(argv[i], argv[i + 1], o);
            i++;
        } else {
            demand(o->rooms == NULL, "more than one file of rooms", argv[i]);
            o->rooms = argv[i];
        }
    }
    demand(o->rooms != NULL, "no file of rooms", "name one, as samples/host/rooms.txt");
    demand(o->by_steps || o->pace == 0, "--pace goes with --steps", "it paces the steps");
}
