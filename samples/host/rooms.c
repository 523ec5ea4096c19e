/* The file of rooms. The library itself starts the sessions, so its refusals say what a table may hold. */
#include <errno.h>
#include <stdio.h>
#include <stdlib.h>
#include <string.h>

#include "rooms.h"
#include "values.h"

enum { USER_NAME, SESSION_ID, PORT, ADDRESS, STATION, SESSION_TIMEOUT, IDLE_TIMEOUT, FILTER, COLUMNS };

static const char *const names[COLUMNS] = {
    "User-Name", "Acct-Session-Id", "NAS-Port", "Framed-IP-Address", "Calling-Station-Id", "Session-Timeout", "Idle-Timeout", "Filter-Id",
};

/* What is wrong with a line; empty where nothing is. */
static char wrong[300];

static void unfit(const char *name, const char *value, const char *why)
{
    snprintf(wrong, sizeof wrong, "%s \"%.80s\" %s", name, value, why);
}

/* The values of the columns that hold numbers. */
static void read_numbers(char *const *row, uint32_t *numbers)
{
    static const int whole[] = {PORT, SESSION_TIMEOUT, IDLE_TIMEOUT};
    for (size_t i = 0; i < sizeof whole / sizeof *whole; i++)
        if (!read_number(row[whole[i]], 0, UINT32_MAX, &numbers[whole[i]]))
            unfit(names[whole[i]], row[whole[i]], "is not a number from 0 to 4294967295");
    if (!read_address(row[ADDRESS], &numbers[ADDRESS]))
        unfit(names[ADDRESS], row[ADDRESS], "is not an IPv4 address");
}

/* Starts the session of a line. */
static void start(struct host *host, char *const *row)
{
    uint32_t numbers[COLUMNS], slot;
    const uint8_t *texts[COLUMNS];
    size_t lengths[COLUMNS];
    read_numbers(row, numbers);
    if (wrong[0] != '\0')
        return;
    for (int i = 0; i < COLUMNS; i++) {
        texts[i] = (const uint8_t *)row[i];
        lengths[i] = (i == STATION || i == FILTER) && strcmp(row[i], "-") == 0 ? 0 : strlen(row[i]);
    }
    uint32_t answer = fbk_start(&host->scheduler, host->table, host->table_len, numbers[PORT], numbers[ADDRESS], numbers[SESSION_TIMEOUT],
                                numbers[IDLE_TIMEOUT], texts[USER_NAME], lengths[USER_NAME], texts[SESSION_ID], lengths[SESSION_ID],
                                texts[STATION], lengths[STATION], texts[FILTER], lengths[FILTER], &slot);
    if (answer == 8)
        unfit("the session", row[SESSION_ID], "has a text that is too long: User-Name has at most 63 bytes, the others 32");
    if (answer == 9)
        unfit(names[SESSION_ID], row[SESSION_ID], "stands in a line before");
    if (answer == 10)
        unfit("the session", row[SESSION_ID], "has no slot: the table is full, see --slots");
}

static void read_line(struct host *host, char *line)
{
    static const char blanks[] = " \t\r\n";
    char *row[COLUMNS + 1];
    int count = 0;
    line[strcspn(line, "#")] = '\0';
    for (char *word = strtok(line, blanks); word != NULL && count <= COLUMNS; word = strtok(NULL, blanks))
        row[count++] = word;
    if (count == COLUMNS)
        start(host, row);
    else if (count != 0)
        snprintf(wrong, sizeof wrong, "%s columns than the eight from User-Name to Filter-Id", count < COLUMNS ? "fewer" : "more");
}

int read_rooms(struct host *host, const char *path)
{
    FILE *file = fopen(path, "r");
    char *line = NULL;
    size_t size = 0;
    unsigned number = 0;
    while (file != NULL && wrong[0] == '\0' && getline(&line, &size, file) >= 0) {
        read_line(host, line);
        number++;
    }
    int unreadable = file == NULL || ferror(file);
    if (unreadable)
        fprintf(stderr, "fumbokeri-host: %s: %s\n", path, strerror(errno));
    else if (wrong[0] != '\0')
        fprintf(stderr, "fumbokeri-host: %s:%u: %s\n", path, number, wrong);
    free(line);
    if (file != NULL)
        fclose(file);
    return !unreadable && wrong[0] == '\0';
}
