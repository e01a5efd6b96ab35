/* The forms of a step: the table, the search in it, and a record shown as text. */
#include "kinds.h"

#include <stdio.h>
#include <string.h>

#include "bts.h"
#include "number.h"

#define HALF_MOST 0xFFFFu

static const struct form forms[] = {
    {.name = "READ", .operands = "SIZE ADDRESS", .says = "a load of 1, 2 or 4 bytes",
     .kind = BTS_READ, .has_size = true, .has_address = true},
    {.name = "WRITE", .operands = "SIZE ADDRESS VALUE", .says = "a store of 1, 2 or 4 bytes",
     .kind = BTS_WRITE, .has_size = true, .has_address = true, .value_name = "value", .value_most = NUMBER_MOST},
    {.name = "WAITCNT", .operands = "VALUE", .says = "sets the waits and the prefetch switch",
     .kind = BTS_WAITCNT, .value_name = "value", .value_most = HALF_MOST},
    {.name = "IDLE", .operands = "CYCLES", .says = "cycles that leave the cartridge to the prefetch",
     .kind = BTS_IDLE, .value_name = "cycles", .value_most = NUMBER_MOST, .in_decimal = true},
    {.name = "FETCH", .operands = "ADDRESS", .says = "asks the prefetch for a halfword",
     .kind = BTS_FETCH, .has_address = true},
    {.name = "RESTART", .operands = "ADDRESS", .says = "starts the prefetch anew",
     .kind = BTS_RESTART, .has_address = true},
    {.name = "THUMB", .operands = "ADDRESS OPCODE [pc]", .says = "a Thumb instruction; pc: it changed the pc",
     .kind = BTS_INSTRUCTION, .size = 2, .has_address = true, .value_name = "opcode", .value_most = HALF_MOST, .has_pc = true},
    {.name = "ARM", .operands = "ADDRESS OPCODE [pc]", .says = "an ARM instruction; pc: it changed the pc",
     .kind = BTS_INSTRUCTION, .size = 4, .has_address = true, .value_name = "opcode", .value_most = NUMBER_MOST, .has_pc = true},
    {.name = "PC", .operands = "ADDRESS", .says = "sets the pc that opens the BIOS to loads",
     .kind = BTS_PC, .has_address = true},
    {.name = "LATCH", .operands = "VALUE", .says = "sets what loads of the closed BIOS give",
     .kind = BTS_LATCH, .value_name = "value", .value_most = NUMBER_MOST},
    {.name = "BLOCKREAD", .operands = "ADDRESS WORDS", .says = "a load of 1 to 16 words (VERSION 2)",
     .kind = BTS_BLOCK_READ, .size = 4, .has_address = true, .value_name = "words", .value_least = 1,
     .value_most = BTS_MOST_WORDS, .in_decimal = true, .since = BTS_VERSION_2},
    {.name = "BLOCKWRITE", .operands = "ADDRESS WORDS", .says = "a store of 1 to 16 words, each 0 (VERSION 2)",
     .kind = BTS_BLOCK_WRITE, .size = 4, .has_address = true, .value_name = "words", .value_least = 1,
     .value_most = BTS_MOST_WORDS, .in_decimal = true, .since = BTS_VERSION_2},
};

const struct form *form_at(size_t i) {
    return i < sizeof forms / sizeof forms[0] ? &forms[i] : NULL;
}

/* Not toupper: what a listing means must not depend on the locale. */
static char capital(char c) {
    return c >= 'a' && c <= 'z' ? (char)(c - 'a' + 'A') : c;
}

bool is_word(const char *text, size_t len, const char *word) {
    if (len != strlen(word)) {
        return false;
    }
    for (size_t i = 0; i < len; i++) {
        if (capital(text[i]) != word[i]) {
            return false;
        }
    }
    return true;
}

const struct form *form_by_name(const char *name, size_t len) {
    for (size_t i = 0; form_at(i) != NULL; i++) {
        if (is_word(name, len, forms[i].name)) {
            return &forms[i];
        }
    }
    return NULL;
}

uint32_t form_value_most(const struct form *form, uint8_t size) {
    if (form->has_size && size < 4) {
        return size == 1 ? 0xFF : HALF_MOST;
    }
    return form->value_most;
}

static const struct form *form_of_record(const uint8_t *record) {
    for (size_t i = 0; form_at(i) != NULL; i++) {
        if (forms[i].kind == record[0] && (forms[i].has_size || forms[i].size == record[1])) {
            return &forms[i];
        }
    }
    return NULL;
}

/* As many digits as the largest value has, so that columns of one form line up. A larger value, which a sheet may hold in a
 * record whose high bits are ignored, is shown whole. */
static int value_text(const struct form *form, const uint8_t *record, char *text, size_t room) {
    unsigned long value = bts_get32(record + 8);
    uint32_t most = form_value_most(form, record[1]);
    if (form->in_decimal) {
        return snprintf(text, room, " %lu", value);
    }
    return snprintf(text, room, " 0x%0*lX", most == 0xFF ? 2 : most == HALF_MOST ? 4 : 8, value);
}

void step_text(const uint8_t *record, char text[STEP_TEXT_ROOM]) {
    const struct form *form = form_of_record(record);
    if (form == NULL) {
        snprintf(text, STEP_TEXT_ROOM, "kind %u", (unsigned)record[0]);
        return;
    }
    size_t room = STEP_TEXT_ROOM;
    size_t len = (size_t)snprintf(text, room, "%s", form->name);
    if (form->has_size) {
        len += (size_t)snprintf(text + len, room - len, " %u", (unsigned)record[1]);
    }
    if (form->has_address) {
        len += (size_t)snprintf(text + len, room - len, " 0x%08lX", (unsigned long)bts_get32(record + 4));
    }
    if (form->value_name != NULL) {
        len += (size_t)value_text(form, record, text + len, room - len);
    }
    if (record[2] == 1) {
        snprintf(text + len, room - len, " pc");
    }
}
