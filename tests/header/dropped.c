/* Drops an answer, which a compiler must warn of: this does not compile with -Werror. */
#include "pine.h"

void dropped(PineParam param);

void dropped(PineParam param) { pine_check_param(param); }
