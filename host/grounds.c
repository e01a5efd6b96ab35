/* The grounds of what a step costs. Their words are those of include/bts.h, and are written nowhere else. */
#include "grounds.h"

#include <stdio.h>

/* Behind the colon stands what the beat costs. */
static const char *const says[BTS_GROUNDS] = {
    [BTS_GROUND_NONE] = "",
    [BTS_GROUND_HIT] = "a halfword of an opcode in ROM, which stood first in the prefetch: 1",
    [BTS_GROUND_SEQ] = "a halfword of ROM, sequential since it is no hit and none of the next three holds: S",
    [BTS_GROUND_FLAG] = "the first halfword of an opcode in ROM, nonsequential since the force flag was set before the step: N",
    [BTS_GROUND_BLOCK] = "a halfword of ROM, nonsequential since a block of 0x20000 bytes begins there: N",
    [BTS_GROUND_ADDRESS] = "the first halfword of data in ROM, nonsequential since it doesn't go on with a row of accesses: N",
    [BTS_GROUND_EWRAM] = "a beat of data in EWRAM, or an opcode there as a whole: 3, and 6 of an ARM opcode",
    [BTS_GROUND_SRAM] = "data in SRAM, of any size: 1 + its waits by WAITCNT",
    [BTS_GROUND_VIDEO] = "a beat of data in palette or VRAM: 1",
    [BTS_GROUND_FAST] = "any other data, or any other opcode outside ROM as a whole: 1",
};

void grounds_text(const uint8_t *grounds, size_t k, char text[GROUNDS_TEXT_ROOM]) {
    size_t beats = bts_ground_beats(grounds, k);
    size_t len = 0;
    text[0] = '\0';
    for (size_t beat = 0; beat < beats; beat++) {
        const char *name = bts_ground_name(bts_ground_at(grounds, k, beat));
        len += (size_t)snprintf(text + len, GROUNDS_TEXT_ROOM - len, "%s%s", beat > 0 ? " " : "", name);
    }
}

/* How many beats from `beat` on have the ground of that one. */
static size_t same_from(const uint8_t *grounds, size_t k, size_t beat) {
    size_t beats = bts_ground_beats(grounds, k);
    size_t end = beat;
    while (end < beats && bts_ground_at(grounds, k, end) == bts_ground_at(grounds, k, beat)) {
        end++;
    }
    return end - beat;
}

void grounds_short_text(const uint8_t *grounds, size_t k, char text[GROUNDS_TEXT_ROOM]) {
    size_t beats = bts_ground_beats(grounds, k);
    size_t len = 0;
    text[0] = '\0';
    for (size_t beat = 0; beat < beats;) {
        size_t same = same_from(grounds, k, beat);
        const char *name = bts_ground_name(bts_ground_at(grounds, k, beat)), *blank = beat > 0 ? " " : "";
        if (same > 2) {
            len += (size_t)snprintf(text + len, GROUNDS_TEXT_ROOM - len, "%s%zux %s", blank, same, name);
        } else {
            len += (size_t)snprintf(text + len, GROUNDS_TEXT_ROOM - len, "%s%s", blank, name);
            same = 1;
        }
        beat += same;
    }
}

const char *ground_says(uint32_t ground) {
    return says[ground];
}
