/* The lines of docs/DIFFERENCES.md that touch the prefetch, and WAITCNT steps. */
#include "departs.h"

/* An INSTRUCTION in ROM that has a halfword, or both, from elsewhere than the buffer. */
static bool misses(const struct seen *s) {
    return code_in_rom(s) && s->answer.hits < s->size / 2;
}

/* ---- beats */

/* The first halfword since a restart came in, and the second was begun. */
bool two_first_beats(const struct seen *s) {
    return s->before.first_beat && !s->after.first_beat && s->after.count > 0;
}

/* Free cycles go into the first halfword behind an opcode that missed. */
bool miss_restarts(const struct seen *s) {
    bool behind = s->past.missed && s->before.first_beat && !misses(s);
    return s->before.on && s->idle > 0 && (behind || misses(s));
}

bool full_after_hit(const struct seen *s) {
    return s->idle > 0 && !s->before.filling && can_fill(&s->before) && !misses(s);
}

bool hit_fills_nothing(const struct seen *s) {
    return code_in_rom(s) && s->answer.hits > 0 && can_fill(&s->before);
}

bool next_window(const struct seen *s) {
    int window = window_of(s->before.next_address);
    return s->idle > 0 && !misses(s) && s->before.on && window >= 0 && window_of(s->after.next_address) != window;
}

/* ---- code and the buffer */

bool half_a_hit(const struct seen *s) {
    return code_in_rom(s) && s->size == 4 && s->answer.hits == 2;
}

bool thrown_hit(const struct seen *s) {
    return code_in_rom(s) && s->size == 4 && s->before.count > 0 && s->before.head_address == ((s->address + 2) & ~1u);
}

bool code_elsewhere_fills(const struct seen *s) {
    return s->kind == BTS_INSTRUCTION && !code_in_rom(s) && can_fill(&s->before);
}

bool jump_fills(const struct seen *s) {
    return code_in_rom(s) && s->jumps && s->before.on && s->idle > 0;
}

/* The halfword that is on its way is the one that is asked for, and would be there before the price that is paid is over. */
bool fetch_under_way(const struct seen *s) {
    uint32_t half = s->address & ~1u;
    bool wanted = s->before.filling && (s->before.next_address == half ||
                                        (s->size == 4 && s->before.next_address == ((s->address + 2) & ~1u)));
    if (s->kind == BTS_FETCH) {
        return wanted && s->answer.hits == 0;
    }
    uint32_t missed = s->size / 2u - s->answer.hits;
    return misses(s) && wanted && s->before.wait_left * missed < s->answer.cycles - s->internal - s->answer.hits;
}

bool return_hits(const struct seen *s) {
    return code_in_rom(s) && s->answer.hits > 0 && s->past.kept;
}

/* The flag keeps the force flag clear, and does nothing to a buffer. */
bool jump_leaves_buffer(const struct seen *s) {
    bool spared = code_in_rom(s) && !s->before.on && s->internal > 0;
    return s->jumps && (spared || s->after.count > 0 || s->after.filling);
}

/* ---- FETCH and RESTART */

bool fetch_elsewhere(const struct seen *s) {
    bool elsewhere = s->before.count > 0 || (s->before.filling && s->before.next_address != (s->address & ~1u));
    return s->kind == BTS_FETCH && s->answer.hits == 0 && elsewhere;
}

bool fetch_misses(const struct seen *s) {
    return s->kind == BTS_FETCH && s->answer.hits == 0;
}

bool restart_elsewhere(const struct seen *s) {
    return s->kind == BTS_RESTART && s->before.on && window_of(s->address) < 0;
}

/* ---- WAITCNT */

bool waitcnt_bit_13(const struct seen *s) {
    return s->kind == BTS_WAITCNT && (s->value & 0x2000) != 0;
}

bool waitcnt_bit_15(const struct seen *s) {
    return s->kind == BTS_WAITCNT && ((s->value ^ s->before.waitcnt) & 0x8000) != 0;
}

bool waits_in_a_beat(const struct seen *s) {
    return s->kind == BTS_WAITCNT && s->before.filling && s->after.on && s->after.waitcnt != s->before.waitcnt;
}

/* Off, with something to throw away; or on, with free cycles and nothing that would fill. */
bool switched(const struct seen *s) {
    bool off = s->before.on && !s->after.on && (s->before.count > 0 || s->before.filling);
    bool still = s->before.on && s->before.count == 0 && !can_fill(&s->before) && !misses(s);
    return off || (s->kind == BTS_IDLE && s->idle > 0 && still);
}
