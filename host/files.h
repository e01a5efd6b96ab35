/* Files in and out. Reading has a limit, so that endless input ends. Writing is all or nothing: every output is first written
 * beside its place, and only when all are complete are they renamed into place. */
#ifndef HOST_FILES_H
#define HOST_FILES_H

#include <stdbool.h>
#include <stddef.h>
#include <stdint.h>

/* Bytes in memory; NULL and 0 where there are none. */
struct bytes {
    uint8_t *at;
    size_t len;
};

/* Which file was opened, whatever name was used for it; device and number are those of the system. */
struct identity {
    bool regular; /* else it is a device or a pipe, which nothing can take the place of */
    uintmax_t device;
    uintmax_t number;
};

/* A file that was read; its bytes are to be freed. */
struct input {
    const char *name; /* NULL where no file was read */
    struct bytes bytes;
    struct identity file;
};

/* Reads a file, or standard input where path is NULL, up to `most` bytes; what lies behind them is left unread. A failure is told
 * on standard error. */
bool read_input(const char *path, size_t most, struct input *input);

/* A file to be written; path is NULL where it was not asked for. */
struct output {
    const char *path;
    struct bytes bytes;
    const struct input *own; /* the input that it may take the place of; NULL if it has none */
    char *temporary;         /* NULL but while write_outputs is at work */
};

/* Writes the outputs that were asked for, all or none, and leaves no temporary file. An output takes the place of no input but
 * its own. A failure is told on standard error. */
bool write_outputs(const struct input *inputs, size_t input_count, struct output *outputs, size_t output_count);

#endif
