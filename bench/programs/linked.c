/* What a program gets that links the library, for `size` to weigh: -DLINKED=9 has every function, 1 fbk_handle alone, 0 none. */
#include "../../include/fumbokeri.h"

typedef void function(void);

function *const volatile linked[] = {
#if LINKED > 0
    (function *)fbk_handle,
#endif
#if LINKED > 1
    (function *)fbk_write,     (function *)fbk_check_reply, (function *)fbk_make_lent,  (function *)fbk_open_lent,
    (function *)fbk_step_lent, (function *)fbk_drop_lent,   (function *)fbk_start_lent, (function *)fbk_end_lent,
#endif
    0,
};

int main(void) { return linked[0] == 0; }
