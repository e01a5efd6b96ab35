/* Numbers as a person writes them. */
#include "number.h"

#include <string.h>

/* A digit's value, or -1. */
static int digit(char c, int base) {
    static const char digits[] = "0123456789abcdef0123456789ABCDEF";
    const char *found = c != '\0' ? strchr(digits, c) : NULL;
    int value = found != NULL ? (int)((found - digits) % 16) : base;
    return value < base ? value : -1;
}

bool read_number(const char *at, size_t len, uint64_t *value) {
    const uint64_t over = (uint64_t)NUMBER_MOST + 1;
    bool hex = len > 2 && at[0] == '0' && (at[1] == 'x' || at[1] == 'X');
    int base = hex ? 16 : 10;
    *value = 0;
    for (size_t i = hex ? 2 : 0; i < len; i++) {
        int d = digit(at[i], base);
        if (d < 0) {
            return false;
        }
        *value = *value * (uint64_t)base + (uint64_t)d;
        *value = *value < over ? *value : over;
    }
    return len > 0;
}
