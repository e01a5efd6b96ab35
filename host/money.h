/* Cents as money: 307 is 3.07. There is no sign of a currency, since the contract names it. */
#ifndef HOST_MONEY_H
#define HOST_MONEY_H

#include <stdint.h>

enum { MONEY_TEXT_ROOM = 24 }; /* 20 digits, the point and the NUL fit */

void money_text(uint64_t cents, char text[MONEY_TEXT_ROOM]);

#endif
