/* The forms of a step: how each is written in a listing, and the record that it stands for. The table in kinds.c is the only
 * place that knows them; the parser, the help text and the printed table all read it. */
#ifndef HOST_KINDS_H
#define HOST_KINDS_H

#include <stdbool.h>
#include <stddef.h>
#include <stdint.h>

/* A form's operands stand in the order size, address, value, `pc`, each only where the form has it. */
struct form {
    const char *name;       /* the mnemonic, in capitals */
    const char *operands;   /* how a person is shown them */
    const char *says;       /* what the step does, for the help text */
    bool has_size;          /* the size is an operand: 1, 2 or 4 */
    bool has_address;
    bool has_pc;            /* may end in `pc`: the instruction changed the pc */
    bool in_decimal;        /* shown in decimal, since it is a number of cycles or words */
    const char *value_name; /* what the value is called; NULL where the form has none */
    uint32_t value_least;   /* the smallest value */
    uint32_t value_most;    /* the largest value; where the size is an operand, the size lowers it */
    uint8_t kind;           /* the record's kind */
    uint8_t size;           /* the record's size where it is no operand */
    uint8_t since;          /* the first version of sheets that has it; 0 where every one has */
};

/* Form i, from 0; NULL behind the last. */
const struct form *form_at(size_t i);

/* Whether these characters are the word, which is given in capitals; they may be in capitals or not. */
bool is_word(const char *text, size_t len, const char *word);

/* The form whose mnemonic is these characters, in capitals or not; NULL if there is none. */
const struct form *form_by_name(const char *name, size_t len);

/* The largest value that a form takes at a size. */
uint32_t form_value_most(const struct form *form, uint8_t size);

enum { STEP_TEXT_ROOM = 48 };

/* A record as the line of a listing. */
void step_text(const uint8_t *record, char text[STEP_TEXT_ROOM]);

#endif
