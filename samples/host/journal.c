#include "journal.h"

#include <arpa/inet.h>
#include <stdio.h>
#include <string.h>
#include <time.h>

#include "../show.h"

static void tell_time(void)
{
    char text[16];
    time_t now = time(NULL);
    strftime(text, sizeof text, "%H:%M:%S", gmtime(&now));
    printf("%s ", text);
}

/* What came: a packet may be too short to have a code. */
static void tell_packet(const struct exchange *x)
{
    char address[INET_ADDRSTRLEN];
    inet_ntop(AF_INET, &x->sender.sin_addr, address, sizeof address);
    printf("%s:%u | ", address, ntohs(x->sender.sin_port));
    if (x->packet_len < 2)
        printf("no packet");
    else if (x->packet[0] >= 40 && x->packet[0] <= 45)
        printf("%s %u", code_name(x->packet[0]), x->packet[1]);
    else
        printf("code %u, identifier %u", x->packet[0], x->packet[1]);
    printf(", %u bytes | ", (unsigned)x->packet_len);
}

static const char *discard_name(const struct exchange *x)
{
    switch (x->answer) {
    case 101: return "Length is not that of a packet";
    case 102: return "code is not 40 or 43";
    case 103: return "attributes do not fill Length";
    case 104: return "wrong Request Authenticator";
    case 105: return "wrong Message-Authenticator";
    default: return x->stamped ? "Event-Timestamp is more than 300 s off" : "no Event-Timestamp, or not one of length 6";
    }
}

/* The rule that applied, by the numbers of fumbokeri.h; D1 to D6 are its 101 to 106. */
static void tell_rule(const struct exchange *x)
{
    if (x->answer == 0)
        printf("0 acknowledged");
    else if (x->answer >= 400)
        printf("%u %s", (unsigned)x->answer, cause_name(x->answer));
    else if (x->answer > 100)
        printf("D%u %s", (unsigned)x->answer - 100, discard_name(x));
    else
        printf("R%u refused", (unsigned)x->answer);
    if (x->stamped)
        printf(", stamp %+lld s", (long long)x->skew);
    printf(" | ");
}

/* A slot that differs; with its rates, where the session is there still and they are new. */
static void tell_slot(unsigned k, const uint8_t *slot, const uint8_t *before)
{
    printf(", slot %u", k);
    if (slot[0] == 0 || memcmp(before + 181, slot + 181, 8) == 0)
        return;
    printf(" (");
    show_rates(slot);
    printf(")");
}

/* Slots that differ; an ACK may also write what was there before. */
static void tell_changes(const struct host *host, const struct exchange *x, const uint8_t *before)
{
    printf(" | sessions changed: %u", (unsigned)x->changed);
    for (size_t at = 0; at < host->table_len; at += FBK_SLOT_SIZE)
        if (memcmp(before + at, host->table + at, FBK_SLOT_SIZE) != 0)
            tell_slot((unsigned)(at / FBK_SLOT_SIZE), host->table + at, before + at);
}

void tell_exchange(const struct host *host, const struct exchange *x, const uint8_t *before, int sent)
{
    tell_time();
    tell_packet(x);
    tell_rule(x);
    if (x->reply_len == 0)
        printf("no reply");
    else
        printf("%s, %u bytes%s", code_name(x->reply[0]), (unsigned)x->reply_len, sent ? "" : ", which the system did not send");
    tell_changes(host, x, before);
    if (x->steps != 0)
        printf(" | job %u, %u steps", (unsigned)x->job, (unsigned)x->steps);
    printf("\n");
    if (host->options.packets && (x->answer == 0 || x->answer > 103)) /* below that, the attributes cannot be told apart */
        show_packet("request", x->packet);
    if (host->options.packets && x->reply_len != 0)
        show_packet("reply", x->reply);
}

void tell_table(const struct host *host)
{
    unsigned free_slots = 0;
    tell_time();
    printf("session table:\n");
    for (size_t k = 0; k < host->options.slots; k++) {
        const uint8_t *slot = host->table + k * FBK_SLOT_SIZE;
        if (slot[0] != 0) /* this table's free slots are zeros */
            show_slot("", k, slot);
        else
            free_slots++;
    }
    printf("           free slots: %u\n", free_slots);
}
