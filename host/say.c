/* Messages for the person at the terminal. */
#include "say.h"

#include <stdbool.h>
#include <stddef.h>
#include <stdio.h>

enum { SAID_MOST = 8192 }; /* bytes of a line; a system's longest path fits twice */

/* How many bytes follow a first byte of UTF-8, and the bits of the code that are its own; -1 if no character begins so. */
static int followers(unsigned char first, unsigned long *bits) {
    static const struct { unsigned char mask, mark; } heads[] = {{0x80, 0x00}, {0xE0, 0xC0}, {0xF0, 0xE0}, {0xF8, 0xF0}};
    for (int i = 0; i < 4; i++) {
        if ((first & heads[i].mask) == heads[i].mark) {
            *bits = first & ~(unsigned long)heads[i].mask & 0xFF;
            return i;
        }
    }
    return -1;
}

/* Whether a terminal may have the character: no control character, none that turns the direction of the text, and no code that
 * UTF-8 doesn't have at this length. */
static bool is_plain(unsigned long code, int more) {
    static const unsigned long least[] = {0x20, 0xA0, 0x800, 0x10000};
    bool turns = (code >= 0x202A && code <= 0x202E) || (code >= 0x2066 && code <= 0x2069);
    bool half = code >= 0xD800 && code <= 0xDFFF;
    return code >= least[more] && code != 0x7F && code <= 0x10FFFF && !turns && !half;
}

/* The length of the character at `text`, which ends in a NUL, if it may be shown as it is; else 0. */
static size_t plain_len(const char *text) {
    unsigned long code = 0;
    int more = followers((unsigned char)text[0], &code);
    for (int i = 1; i <= more; i++) {
        unsigned char c = (unsigned char)text[i];
        if ((c & 0xC0) != 0x80) {
            return 0;
        }
        code = code << 6 | (c & 0x3F);
    }
    return more >= 0 && is_plain(code, more) ? (size_t)more + 1 : 0;
}

static void put_text(const char *text) {
    while (*text != '\0') {
        size_t len = plain_len(text);
        if (len > 0) {
            fwrite(text, 1, len, stderr);
        } else {
            fprintf(stderr, "\\x%02X", (unsigned)(unsigned char)*text);
        }
        text += len > 0 ? len : 1;
    }
}

/* The text of a message, and the line's end. */
HOST_FORMAT(1, 0)
static void put_message(const char *format, va_list arguments) {
    char text[SAID_MOST];
    int len = vsnprintf(text, sizeof text, format, arguments);
    put_text(len >= 0 ? text : format);
    fputs(len >= SAID_MOST ? "..\n" : "\n", stderr);
}

void complain(const char *format, ...) {
    va_list arguments;
    va_start(arguments, format);
    fputs("btsrun: ", stderr);
    put_message(format, arguments);
    va_end(arguments);
}

void complain_at(const char *file, unsigned long line, const char *format, va_list arguments) {
    put_text(file);
    fprintf(stderr, ":%lu: ", line);
    put_message(format, arguments);
}
