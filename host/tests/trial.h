/* What the trials of many made inputs share: numbers that are the same in every run, and the count of what went wrong. */
#ifndef TESTS_TRIAL_H
#define TESTS_TRIAL_H

#include <stdbool.h>
#include <stddef.h>
#include <stdint.h>
#include <stdio.h>

static unsigned long wrongs;

static inline void expect(bool holds, const char *what, unsigned long which) {
    if (!holds) {
        printf("wrong: %s, %lu\n", what, which);
        wrongs++;
    }
}

static uint64_t state = 1;

/* A number below n, from the upper bits of a linear congruence: the same ones in every run. */
static inline uint32_t below(uint32_t n) {
    state = state * 6364136223846793005u + 1442695040888963407u;
    return (uint32_t)(state >> 33) % n;
}

static inline uint32_t any_number(void) {
    return below(0x10000) << 16 | below(0x10000);
}

static inline void fill(uint8_t *bytes, size_t len) {
    for (size_t i = 0; i < len; i++) {
        bytes[i] = (uint8_t)below(256);
    }
}

#endif
