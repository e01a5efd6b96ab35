/* Bytes that end where a page ends, with one behind it that isn't there: who reads or writes past them ends the program. A file
 * that includes this defines _DEFAULT_SOURCE first, for anonymous pages. */
#ifndef TESTS_PAGES_H
#define TESTS_PAGES_H

#include <stdbool.h>
#include <stddef.h>
#include <stdint.h>
#include <stdio.h>
#include <stdlib.h>
#include <string.h>
#include <sys/mman.h>
#include <unistd.h>

enum { GUARD = 0xA5, GUARDED = 64 }; /* what stands in front of the bytes, and how much of it */

struct pages {
    uint8_t *at;
    size_t len;
};

static inline void need_pages(bool there) {
    if (!there) {
        perror("no pages");
        exit(1);
    }
}

/* Pages for at most so many bytes. */
static inline struct pages make_pages(size_t most) {
    size_t page = (size_t)sysconf(_SC_PAGESIZE);
    size_t len = (GUARDED + most + page - 1) / page * page;
    uint8_t *at = mmap(NULL, len + page, PROT_NONE, MAP_PRIVATE | MAP_ANONYMOUS, -1, 0);
    need_pages(at != MAP_FAILED);
    return (struct pages){at, len};
}

/* A copy at their end. */
static inline uint8_t *copy_there(struct pages pages, const uint8_t *bytes, size_t len) {
    uint8_t *at = pages.at + pages.len - len;
    need_pages(mprotect(pages.at, pages.len, PROT_READ | PROT_WRITE) == 0);
    memset(at - GUARDED, GUARD, GUARDED);
    memcpy(at, bytes, len);
    return at;
}

/* The same for what must not be written: a write to it ends the program. */
static inline const uint8_t *lend_there(struct pages pages, const uint8_t *bytes, size_t len) {
    const uint8_t *at = copy_there(pages, bytes, len);
    need_pages(mprotect(pages.at, pages.len, PROT_READ) == 0);
    return at;
}

/* Whether what stands in front of a copy of so many bytes is as it was. */
static inline bool guarded(struct pages pages, size_t len) {
    bool all = true;
    for (size_t i = 1; i <= GUARDED; i++) {
        all = all && pages.at[pages.len - len - i] == GUARD;
    }
    return all;
}

#endif
