#include "sessions.h"

#include <string.h>

#include "../../include/fumbokeri.h"
#include "packets.h"

#define FORTY "resident.of.the.care.home.by.the.river-0" /* the bytes that the users of OTHER_LAST share */

static void put_text(uint8_t *field, const char *text)
{
    field[0] = (uint8_t)strlen(text);
    memcpy(field + 1, text, strlen(text));
}

static void put_session(uint8_t *slot, const char *user, const char *id, const char *station)
{
    memset(slot, 0, FBK_SLOT_SIZE);
    slot[0] = 0x5A;
    slot[1] = 0x4C;
    put_text(slot + 18, user);
    put_text(slot + 82, id);
    put_text(slot + 115, station);
}

const char *named_user(enum neighbours others)
{
    switch (others) {
    case OTHER_LAST:
        return FORTY "~";
    case SAME_USER:
        return FORTY "0@care-home.example.org";
    default:
        return ALICE;
    }
}

void fill_table(uint8_t *table, size_t slots, enum neighbours others)
{
    memset(table, 0, slots * FBK_SLOT_SIZE);
    for (size_t k = 0; k + 1 < slots && others != FREE; k++) {
        char user[] = "??ice@example.org", last[] = FORTY "?", id[] = "000001??", station[] = "02-00-5E-10-01-??";
        user[0] = id[6] = station[15] = (char)('0' + k / 10);
        user[1] = id[7] = station[16] = (char)('0' + k % 10);
        last[40] = (char)('0' + k);
        const char *of[] = {[OTHER_LENGTH] = user + 1, [OTHER_TEXT] = user, [OTHER_LAST] = last, [SAME_USER] = named_user(SAME_USER)};
        put_session(table + k * FBK_SLOT_SIZE, of[others], id, station);
    }
    put_session(table + (slots - 1) * FBK_SLOT_SIZE, named_user(others), "0000004F", "02-00-5E-10-00-01");
}
