/* Listings: steps as text lines, made into a sheet. host/README.md has the rules of a line. */
#ifndef HOST_LISTING_H
#define HOST_LISTING_H

#include <stdbool.h>
#include <stddef.h>
#include <stdint.h>

#include "bts.h"
#include "files.h"

enum {
    LISTING_MOST = 4 * 1024 * 1024, /* bytes; over it the input is taken for something else than a listing */
    LINE_MOST = 1000,               /* bytes of a line, its end not counted */
    FAULTS_MOST = 20                /* bad lines that are told before the rest is left unread */
};

/* Makes the sheet of a listing, to be freed by the caller: a header of the listing's version, and the records behind it. There may
 * be more of them than a sheet holds; then of the header the version alone is right. Each bad line is told on standard error, as
 * FILE:LINE: what is wrong with it; then the sheet is not to be used and false is given back. */
bool assemble(const char *file, const uint8_t *text, size_t len, struct bytes *sheet);

#endif
