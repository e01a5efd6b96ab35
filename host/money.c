/* Cents as money. */
#include "money.h"

#include <inttypes.h>
#include <stdio.h>

/* In whole numbers, since a fraction in binary would lose cents of a large charge. */
void money_text(uint64_t cents, char text[MONEY_TEXT_ROOM]) {
    snprintf(text, MONEY_TEXT_ROOM, "%" PRIu64 ".%02" PRIu64, cents / 100, cents % 100);
}
