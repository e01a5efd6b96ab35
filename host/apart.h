/* Files that must not meet: an output takes the place of no file that was read but its own input, no two outputs go to one file,
 * and standard output is neither. What counts is which file a name stands for, since one file can have many names. */
#ifndef HOST_APART_H
#define HOST_APART_H

#include "files.h"

/* Behind an output's name this makes the name of the file in which it is written before it is put in place. */
#define TEMPORARY_SUFFIX ".btsrun-tmp"

/* Which file an open descriptor stands for; false leaves an error's number in errno. */
bool identify(int descriptor, struct identity *out);

/* Whether all outputs may be written; if not, it is told why on standard error. Nothing is changed. */
bool stand_apart(const struct input *inputs, size_t input_count, const struct output *outputs, size_t output_count);

#endif
