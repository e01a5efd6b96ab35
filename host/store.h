/* The memories that a run is lent. They are held as a store file is laid out, so that one buffer is what is read, run and
 * written: "BTM", a version byte 1, the seven lengths as 4-byte numbers, then the bytes of the memories in the order below. */
#ifndef HOST_STORE_H
#define HOST_STORE_H

#include <stdbool.h>
#include <stddef.h>

#include "files.h"

/* The memories in the order in which bts_run takes them. */
enum { EWRAM, IWRAM, IO, PALETTE, VRAM, OAM, SRAM, MEMORIES };

enum {
    STORE_VERSION = 1,
    STORE_HEADER = 4 + 4 * MEMORIES,
    STORE_MOST = 1024 * 1024 /* bytes of a file; over it the file is taken for something else than a store */
};

/* A memory's name, its physical size, and how long the program bench has it. */
struct memory {
    const char *name;
    size_t physical;
    size_t bench;
};

/* Memory i, below MEMORIES. */
const struct memory *memory_at(size_t i);

/* How long the memories of a store are made: as on the machine, as the program bench has them, or not there at all. */
enum sizes { SIZES_PHYSICAL, SIZES_BENCH, SIZES_NONE };

/* A store of zeros, with an SRAM image at its end if `sram` is not NULL. A failure is told on standard error. */
bool make_store(enum sizes sizes, const struct bytes *sram, struct bytes *store);

/* The lengths of a store, which are the caller's to be refused by the run if one is over its memory's size. False, and told with
 * the file's name, where the bytes are no store. */
bool store_lengths(const char *name, const struct bytes *store, size_t lengths[MEMORIES]);

#endif
