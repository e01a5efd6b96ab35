/* The grounds of what a step costs: as the words of a line, and what each word means. */
#ifndef HOST_GROUNDS_H
#define HOST_GROUNDS_H

#include "bts.h"

/* Room for as many words as a step can have beats. A word has at most 7 characters, and behind it a blank or the end. */
enum { GROUNDS_TEXT_ROOM = 8 * BTS_GROUNDS_SIZE };

/* The grounds of step k: a word for each beat, and a blank between two. A step without any has no characters. */
void grounds_text(const uint8_t *grounds, size_t k, char text[GROUNDS_TEXT_ROOM]);

/* The same for a person: three and more of a word behind one another stand as a number and the word, as in `address 31x seq`. */
void grounds_short_text(const uint8_t *grounds, size_t k, char text[GROUNDS_TEXT_ROOM]);

/* What a ground means, for the help text: from BTS_GROUND_HIT to the last one below BTS_GROUNDS. */
const char *ground_says(uint32_t ground);

#endif
