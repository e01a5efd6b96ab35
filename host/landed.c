/* Which stores landed short, and why. How many bytes landed is the library's answer; the reason follows from the address, the
 * size and the lengths, so nothing is run a second time for it. */
#include "landed.h"

#include <stdio.h>
#include <string.h>

#include "blocks.h"
#include "kinds.h"
#include "map.h"
#include "say.h"

/* A WRITE and what became of it. */
struct stored {
    enum area area;
    uint32_t first;  /* its first byte: a multiple of its bytes, but SRAM takes the address as it is */
    uint32_t bytes;  /* that it has to give: its size, and 2 for a byte to palette or VRAM, which fills its halfword */
    uint32_t landed; /* that a memory took */
};

static struct stored stored_of(const uint8_t *record, uint32_t landed) {
    uint32_t address = bts_get32(record + 4);
    enum area area = area_of(address);
    uint32_t bytes = record[1] == 1 && (area == AT_PALETTE || area == AT_VRAM) ? 2 : record[1];
    return (struct stored){
        .area = area,
        .first = area == AT_SRAM ? address : address & ~(bytes - 1),
        .bytes = bytes,
        .landed = landed,
    };
}

static const uint8_t *record_of(const struct account *account, size_t k) {
    return account->records + BTS_RECORD_SIZE * k;
}

static bool is_store(const struct account *account, size_t k) {
    uint8_t kind = record_of(account, k)[0];
    return kind == BTS_WRITE || kind == BTS_BLOCK_WRITE;
}

static uint32_t landed_of(const struct account *account, size_t k) {
    return bts_answer_at(account->answers, k).hits;
}

/* What step k, a store, has to give: a block, what each of its words has. */
static uint32_t bytes_of(const struct account *account, size_t k) {
    uint8_t first[BTS_RECORD_SIZE];
    part_at(record_of(account, k), 0, first);
    return parts_of(record_of(account, k)) * stored_of(first, 0).bytes;
}

static bool is_short(const struct account *account, size_t k) {
    return is_store(account, k) && landed_of(account, k) < bytes_of(account, k);
}

/* ---- reasons */

enum { REASON_ROOM = 80, REASONS_ROOM = 4 * REASON_ROOM };

static const char *without_memory(enum area area) {
    return area == AT_BIOS ? "BIOS is read only" : area == AT_ROM ? "ROM is read only" : "no memory there";
}

/* A store of which no byte landed, though the memory has its first one, is a byte to OAM or to object VRAM: nothing else is
 * dropped within a memory. Where object VRAM begins hangs on the display mode, which needn't be known for this. Past a memory's
 * end that is the reason, whatever else might be. */
static void reason_of(const struct stored *s, const size_t lengths[MEMORIES], char text[REASON_ROOM]) {
    struct place place;
    if (!place_of(s->first, &place)) {
        snprintf(text, REASON_ROOM, "%s", without_memory(s->area));
        return;
    }
    size_t length = lengths[place.memory];
    const char *name = memory_at(place.memory)->name;
    if (s->area == AT_SRAM && s->landed > 0) {
        snprintf(text, REASON_ROOM, "SRAM takes one byte of a store");
    } else if (s->landed == 0 && place.offset < length) {
        snprintf(text, REASON_ROOM, "%s takes no byte stores", s->area == AT_OAM ? "OAM" : "object VRAM");
    } else if (length == 0) {
        snprintf(text, REASON_ROOM, "there is no %s", name);
    } else {
        snprintf(text, REASON_ROOM, "past the end of %s, which is %zu byte%s long", name, length, length == 1 ? "" : "s");
    }
}

/* How many bytes of a word of a block landed. The answer has the sum of them alone; but a word loses bytes for its place and for
 * no other reason, so each of them can be told from that. */
static uint32_t word_landed(const uint8_t *word, const size_t lengths[MEMORIES]) {
    struct place place;
    if (!place_of(bts_get32(word + 4), &place) || place.offset >= lengths[place.memory]) {
        return 0;
    }
    size_t left = lengths[place.memory] - place.offset;
    return place.memory == SRAM ? 1 : left < 4 ? (uint32_t)left : 4;
}

/* The reasons of the words of a block that landed short, each once. They lie in two memories at most, so there are few. */
static void reasons_of_block(const uint8_t *record, const size_t lengths[MEMORIES], char text[REASONS_ROOM]) {
    text[0] = '\0';
    for (uint32_t i = 0; i < parts_of(record); i++) {
        uint8_t word[BTS_RECORD_SIZE];
        char reason[REASON_ROOM];
        part_at(record, i, word);
        struct stored stored = stored_of(word, word_landed(word, lengths));
        reason_of(&stored, lengths, reason);
        if (stored.landed < stored.bytes && strstr(text, reason) == NULL) {
            size_t len = strlen(text);
            snprintf(text + len, REASONS_ROOM - len, "%s%s", len > 0 ? "; " : "", reason);
        }
    }
}

/* ---- lines */

static void tell_store(const struct account *account, size_t k, const size_t lengths[MEMORIES]) {
    const uint8_t *record = record_of(account, k);
    uint32_t landed = landed_of(account, k), bytes = bytes_of(account, k);
    char step[STEP_TEXT_ROOM];
    char reasons[REASONS_ROOM];
    step_text(record, step);
    if (is_block(record)) {
        reasons_of_block(record, lengths, reasons);
    } else {
        struct stored stored = stored_of(record, landed);
        reason_of(&stored, lengths, reasons);
    }
    fprintf(stderr, "  step %zu: %s: %lu of %lu byte%s landed: %s\n", k, step, (unsigned long)landed, (unsigned long)bytes,
            bytes == 1 ? "" : "s", reasons);
}

static void tell_stores(const struct account *account, const size_t lengths[MEMORIES]) {
    for (size_t k = 0; k < account->count; k++) {
        if (is_short(account, k)) {
            tell_store(account, k, lengths);
        }
    }
}

void tell_short(const struct account *account, const size_t lengths[MEMORIES], bool by_name) {
    size_t stores = 0;
    size_t shorts = 0;
    for (size_t k = 0; k < account->count; k++) {
        stores += is_store(account, k);
        shorts += is_short(account, k);
    }
    if (shorts == 0) {
        return;
    }
    complain("%zu of %zu store%s landed short%s", shorts, stores, stores == 1 ? "" : "s",
             by_name ? ":" : shorts == 1 ? " (-v names it)" : " (-v names them)");
    if (by_name) {
        tell_stores(account, lengths);
    }
}
