/* The memories that a run is lent, and the store file. */
#include "store.h"

#include <stdlib.h>
#include <string.h>

#include "bts.h"
#include "say.h"

static const struct memory memories[MEMORIES] = {
    [EWRAM] = {"EWRAM", BTS_EWRAM_SIZE, 16384},
    [IWRAM] = {"IWRAM", BTS_IWRAM_SIZE, 16384},
    [IO] = {"I/O", BTS_IO_SIZE, 2052},
    [PALETTE] = {"palette", BTS_PALETTE_SIZE, 1024},
    [VRAM] = {"VRAM", BTS_VRAM_SIZE, 16384},
    [OAM] = {"OAM", BTS_OAM_SIZE, 1024},
    [SRAM] = {"SRAM", BTS_SRAM_SIZE, 8192},
};

static const uint8_t mark[4] = {'B', 'T', 'M', STORE_VERSION};

const struct memory *memory_at(size_t i) {
    return &memories[i];
}

static size_t size_of(const struct memory *memory, enum sizes sizes) {
    return sizes == SIZES_NONE ? 0 : sizes == SIZES_BENCH ? memory->bench : memory->physical;
}

bool make_store(enum sizes sizes, const struct bytes *sram, struct bytes *store) {
    uint8_t header[STORE_HEADER];
    memcpy(header, mark, sizeof mark);
    store->len = STORE_HEADER;
    for (size_t i = 0; i < MEMORIES; i++) {
        size_t len = i == SRAM && sram != NULL ? sram->len : size_of(&memories[i], sizes);
        bts_put32(header + sizeof mark + 4 * i, (uint32_t)len);
        store->len += len;
    }
    store->at = calloc(store->len, 1);
    if (store->at == NULL) {
        complain("out of memory");
        return false;
    }
    memcpy(store->at, header, STORE_HEADER);
    if (sram != NULL && sram->len > 0) {
        memcpy(store->at + (store->len - sram->len), sram->at, sram->len);
    }
    return true;
}

/* The length is looked at first, so that what is too long to have been read whole is told as that. */
static bool has_header(const char *name, const struct bytes *store) {
    if (store->len > STORE_MOST) {
        complain("%s is no store: it is longer than %d bytes", name, STORE_MOST);
    } else if (store->len < STORE_HEADER) {
        complain("%s is no store: it is shorter than the %d bytes of a store's header", name, STORE_HEADER);
    } else if (memcmp(store->at, mark, 3) != 0) {
        complain("%s is no store: it doesn't begin with BTM", name);
    } else if (store->at[3] != STORE_VERSION) {
        complain("%s is a store of version %u, and this program knows version %d", name, (unsigned)store->at[3], STORE_VERSION);
    } else {
        return true;
    }
    return false;
}

bool store_lengths(const char *name, const struct bytes *store, size_t lengths[MEMORIES]) {
    uint64_t sum = STORE_HEADER; /* seven numbers of 32 bits can't wrap it */
    if (!has_header(name, store)) {
        return false;
    }
    for (size_t i = 0; i < MEMORIES; i++) {
        lengths[i] = bts_get32(store->at + sizeof mark + 4 * i);
        sum += lengths[i];
    }
    if (sum != store->len) {
        complain("%s is no whole store: by its lengths it has %llu bytes, and it has %zu", name, (unsigned long long)sum,
                 store->len);
    }
    return sum == store->len;
}
