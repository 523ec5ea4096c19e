#include "show.h"

#include <stdio.h>

uint32_t number_at(const uint8_t *p)
{
    return (uint32_t)p[0] << 24 | (uint32_t)p[1] << 16 | (uint32_t)p[2] << 8 | p[3];
}

static void show_address(const uint8_t *p) { printf("%u.%u.%u.%u", p[0], p[1], p[2], p[3]); }

/* In quotes; what is not plain ASCII stands in hex, so that any bytes stay on their line. */
static void show_text(const uint8_t *p, size_t n)
{
    printf("\"");
    for (size_t i = 0; i < n; i++)
        printf(p[i] < ' ' || p[i] > '~' ? "\\x%02x" : "%c", p[i]);
    printf("\"");
}

static void show_field(const char *name, const uint8_t *field)
{
    printf(", %s ", name);
    show_text(field + 1, field[0]);
}

void show_rates(const uint8_t *slot)
{
    printf("down rate %u, up rate %u", (unsigned)number_at(slot + 181), (unsigned)number_at(slot + 185));
}

void show_slot(const char *when, size_t k, const uint8_t *slot)
{
    printf("  %-8s slot %u", when, (unsigned)k);
    if (slot[0] != 0x5A || slot[1] != 0x4C) {
        printf(", free\n");
        return;
    }
    show_field("User-Name", slot + 18);
    show_field("session", slot + 82);
    printf(", port %u, ", (unsigned)number_at(slot + 2));
    show_address(slot + 6);
    show_field("station", slot + 115);
    printf(", Session-Timeout %u, Idle-Timeout %u", (unsigned)number_at(slot + 10), (unsigned)number_at(slot + 14));
    show_field("Filter-Id", slot + 148);
    printf(", ");
    show_rates(slot);
    printf("\n");
}

static void show_bytes(const char *what, const uint8_t *p, size_t n)
{
    for (size_t i = 0; i < n; i++) {
        if (i % 32 == 0)
            printf("  %-8s", i == 0 ? what : "");
        printf(" %02x%s", p[i], i % 32 == 31 || i + 1 == n ? "\n" : "");
    }
}

enum form { TEXT, NUMBER, ADDRESS, VENDOR, SIGNATURE };

static const struct {
    uint8_t type;
    enum form form;
    const char *name;
} attributes[] = {
    {1, TEXT, "User-Name"},            {4, ADDRESS, "NAS-IP-Address"},   {5, NUMBER, "NAS-Port"},
    {8, ADDRESS, "Framed-IP-Address"}, {11, TEXT, "Filter-Id"},          {24, TEXT, "State"},
    {26, VENDOR, "Vendor-Specific"},   {27, NUMBER, "Session-Timeout"},  {28, NUMBER, "Idle-Timeout"},
    {31, TEXT, "Calling-Station-Id"},  {32, TEXT, "NAS-Identifier"},     {33, TEXT, "Proxy-State"},
    {44, TEXT, "Acct-Session-Id"},     {55, NUMBER, "Event-Timestamp"},  {80, SIGNATURE, "Message-Authenticator"},
    {101, NUMBER, "Error-Cause"},
};

static void show_attribute(const uint8_t *a)
{
    for (size_t i = 0; i < sizeof attributes / sizeof *attributes; i++) {
        if (attributes[i].type != a[0])
            continue;
        printf("           %s%s", attributes[i].name, attributes[i].form == SIGNATURE ? "" : " ");
        if (attributes[i].form == TEXT)
            show_text(a + 2, a[1] - 2u);
        if (attributes[i].form == NUMBER && a[1] == 6)
            printf("%u", (unsigned)number_at(a + 2));
        if (attributes[i].form == ADDRESS && a[1] == 6)
            show_address(a + 2);
        if (attributes[i].form == VENDOR && a[1] >= 6)
            printf("of vendor %u, length %u", (unsigned)number_at(a + 2), a[1]);
        printf("\n");
        return;
    }
    printf("           type %u, length %u\n", a[0], a[1]);
}

const char *code_name(uint8_t code)
{
    static const char *const codes[] = {"Disconnect-Request", "Disconnect-ACK", "Disconnect-NAK", "CoA-Request", "CoA-ACK", "CoA-NAK"};
    return code >= 40 && code <= 45 ? codes[code - 40] : "another code";
}

void show_packet(const char *what, const uint8_t *packet)
{
    size_t length = (size_t)packet[2] << 8 | packet[3];
    show_bytes(what, packet, length);
    printf("           %s, identifier %u, %u bytes\n", code_name(packet[0]), packet[1], (unsigned)length);
    for (size_t at = 20; at < length; at += packet[at + 1])
        show_attribute(packet + at);
}

const char *cause_name(uint32_t cause)
{
    switch (cause) {
    case 401: return "Unsupported Attribute";
    case 402: return "Missing Attribute";
    case 403: return "NAS Identification Mismatch";
    case 404: return "Invalid Request";
    case 405: return "Unsupported Service";
    case 503: return "Session Context Not Found";
    case 506: return "Resources Unavailable";
    default: return "not known";
    }
}

void show_answer(uint32_t answer, uint32_t changed, int64_t skew, uint32_t stamped)
{
    printf("  answer   %u: ", (unsigned)answer);
    if (answer == 0)
        printf("acknowledged (ACK), sessions changed: %u", (unsigned)changed);
    else if (answer < 100)
        printf("refused (R%u)", (unsigned)answer);
    else if (answer < 200)
        printf("discarded silently (D%u)", (unsigned)answer - 100);
    else
        printf("not acknowledged (NAK), Error-Cause %u, %s", (unsigned)answer, cause_name(answer));
    if (stamped)
        printf("; stamp minus clock: %lld s\n", (long long)skew);
    else
        printf("; no stamp is usable\n");
}

void show_check(uint32_t answer)
{
    printf("  check    %u: ", (unsigned)answer);
    if (answer == 0)
        printf("the reply is right\n");
    else if (answer < 100)
        printf("refused (R%u)\n", (unsigned)answer);
    else
        printf("the reply is not right (V%u)\n", (unsigned)answer - 200);
}
