#include "values.h"

#include <arpa/inet.h>
#include <ctype.h>
#include <errno.h>
#include <stdlib.h>
#include <string.h>

int read_number(const char *text, uint32_t least, uint32_t most, uint32_t *value)
{
    char *end;
    if (!isdigit((unsigned char)text[0]))
        return 0; /* strtoull would take a sign or a blank */
    errno = 0;
    unsigned long long number = strtoull(text, &end, 10);
    if (*end != '\0' || errno != 0 || number < least || number > most)
        return 0;
    *value = (uint32_t)number;
    return 1;
}

int read_address(const char *text, uint32_t *value)
{
    struct in_addr address;
    if (inet_pton(AF_INET, text, &address) != 1)
        return 0;
    *value = ntohl(address.s_addr);
    return 1;
}

int read_hex(const char *text, uint8_t *bytes, size_t size, size_t *length)
{
    size_t digits = strlen(text);
    if (digits % 2 != 0 || digits / 2 > size)
        return 0;
    for (size_t i = 0; i < digits; i += 2) {
        char pair[3] = {text[i], text[i + 1], '\0'};
        if (!isxdigit((unsigned char)pair[0]) || !isxdigit((unsigned char)pair[1]))
            return 0;
        bytes[i / 2] = (uint8_t)strtoul(pair, NULL, 16);
    }
    *length = digits / 2;
    return 1;
}
