/* Session tables to measure with. */
#include <stddef.h>
#include <stdint.h>

/* What the slots before the last hold. A session there fails at the User-Name, its first criterion: by its length, its first bytes, or the last of
 * 41; but where all have one name of 63 bytes, at the next. */
enum neighbours { FREE, OTHER_LENGTH, OTHER_TEXT, OTHER_LAST, SAME_USER };

/* The user of the last slot, for make_disconnect(). */
const char *named_user(enum neighbours others);

/* The last of so many slots holds the session that make_disconnect() names by this user. */
void fill_table(uint8_t *table, size_t slots, enum neighbours others);
