/* The marks: which lines of docs/DIFFERENCES.md touch a step. */
#ifndef HOST_MARKS_H
#define HOST_MARKS_H

#include "seen.h"

enum { MARKS_MOST = 128 }; /* room for the rows of the table */

/* The marks that were met in a step or in a run, by their rows. */
struct met {
    bool row[MARKS_MOST];
    bool preview; /* no memories are there, so the lines that hang on them are none that can be met */
};

/* The lines that touch what is seen are met too. */
void add_marks(const struct seen *seen, struct met *met);

/* The lines that were met in a step, each behind a blank, on standard output; those of the run get them too. */
void print_marks(const struct met *step, struct met *run);

/* What the lines that were met say, and the figure with their names; of a preview, then the names of those that hang on the
 * memories. */
void print_met(const struct met *met, uint64_t total);

#endif
