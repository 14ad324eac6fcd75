/* Another unit with the header in it: see header.c. */
#include "pine.h"

const char *text_elsewhere(uint64_t number);

const char *text_elsewhere(uint64_t number) { return pine_rule_text(number); }
