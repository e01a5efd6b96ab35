/* Files in and out. */
#define _XOPEN_SOURCE 700 /* open, fchmod, sigprocmask */

#include "files.h"

#include <errno.h>
#include <fcntl.h>
#include <signal.h>
#include <stdio.h>
#include <stdlib.h>
#include <string.h>
#include <sys/stat.h>
#include <unistd.h>

#include "apart.h"
#include "say.h"

/* ---- reading */

/* Room for more bytes: twice as many, from 64 KiB on, up to `most`. */
static bool grow(struct bytes *bytes, size_t *room, size_t most) {
    size_t wanted = *room == 0 ? 65536 : 2 * *room;
    wanted = wanted < most ? wanted : most;
    uint8_t *at = realloc(bytes->at, wanted > 0 ? wanted : 1);
    if (at == NULL) {
        return false;
    }
    bytes->at = at;
    *room = wanted;
    return true;
}

/* Up to the end of the stream or `most` bytes. An error leaves its number in errno. */
static bool read_stream(FILE *stream, size_t most, struct bytes *out) {
    size_t room = 0;
    size_t got;
    out->len = 0;
    do {
        if (out->len == room && !grow(out, &room, most)) {
            errno = ENOMEM;
            return false;
        }
        errno = 0;
        got = fread(out->at + out->len, 1, room - out->len, stream);
        out->len += got;
    } while (got > 0 && out->len < most);
    return !ferror(stream);
}

bool read_input(const char *path, size_t most, struct input *input) {
    FILE *stream = path != NULL ? fopen(path, "rb") : stdin;
    input->name = path != NULL ? path : "standard input";
    if (stream == NULL) {
        complain("can't open %s: %s", input->name, strerror(errno));
        return false;
    }
    bool good = identify(fileno(stream), &input->file) && read_stream(stream, most, &input->bytes);
    if (!good) {
        complain("can't read %s: %s", input->name, strerror(errno));
    }
    if (path != NULL) {
        fclose(stream); /* nothing was written to it, so there is nothing to lose */
    }
    return good;
}

/* ---- writing */

static bool fill(FILE *stream, const struct output *output) {
    bool written = fwrite(output->bytes.at, 1, output->bytes.len, stream) == output->bytes.len;
    int error = errno;
    bool closed = fclose(stream) == 0;
    if (!written) {
        errno = error; /* of the two, the one that says why */
    }
    return written && closed;
}

/* Opens the temporary beside the output's place. It must be new, so that two runs that write to one place meet here, before
 * anything is in place. It is never open to more people than the file whose place it takes, and gets that file's mode. */
static FILE *open_temporary(const char *path, const char *name) {
    struct stat old;
    bool replaces = stat(path, &old) == 0;
    mode_t mode = replaces ? old.st_mode & 0777 : 0666; /* of a new file the user's mask takes its part */
    int file = open(name, O_WRONLY | O_CREAT | O_EXCL | O_CLOEXEC, mode);
    if (file < 0 && errno == EEXIST) {
        complain("can't write %s: %s is there already: another btsrun is writing %s, or one was stopped; "
                 "remove it if none is running", path, name, path);
        return NULL;
    }
    FILE *stream = file >= 0 && (!replaces || fchmod(file, mode) == 0) ? fdopen(file, "wb") : NULL;
    if (stream == NULL) {
        complain("can't write %s: %s", name, strerror(errno));
    }
    if (stream == NULL && file >= 0) {
        close(file);
        remove(name);
    }
    return stream;
}

/* Writes an output beside its place. */
static bool write_temporary(struct output *output) {
    size_t len = strlen(output->path) + sizeof TEMPORARY_SUFFIX;
    char *name = malloc(len);
    if (name == NULL) {
        complain("can't write %s: out of memory", output->path);
        return false;
    }
    snprintf(name, len, "%s%s", output->path, TEMPORARY_SUFFIX);
    FILE *stream = open_temporary(output->path, name);
    if (stream == NULL) {
        free(name);
        return false;
    }
    output->temporary = name; /* from here on it is ours to remove */
    if (!fill(stream, output)) {
        complain("can't write %s: %s", name, strerror(errno));
        return false;
    }
    return true;
}

static bool write_temporaries(struct output *outputs, size_t count) {
    for (size_t i = 0; i < count; i++) {
        if (outputs[i].path != NULL && !write_temporary(&outputs[i])) {
            return false;
        }
    }
    return true;
}

static void forget_temporary(struct output *output) {
    free(output->temporary);
    output->temporary = NULL;
}

/* A rename that fails behind one that succeeded can't be undone, so it is told which files are new and which are not. */
static bool put_in_place(struct output *outputs, size_t count) {
    for (size_t i = 0; i < count; i++) {
        if (outputs[i].temporary == NULL) {
            continue;
        }
        if (rename(outputs[i].temporary, outputs[i].path) != 0) {
            complain("can't put %s in place: %s", outputs[i].path, strerror(errno));
            return false;
        }
        forget_temporary(&outputs[i]);
    }
    return true;
}

/* Removes what is not in place, and tells it where others are. */
static void give_up(struct output *outputs, size_t count, bool renaming) {
    for (size_t i = 0; i < count; i++) {
        if (renaming && outputs[i].path != NULL) {
            complain("%s is %s", outputs[i].path, outputs[i].temporary == NULL ? "written" : "not written");
        }
        if (outputs[i].temporary != NULL && remove(outputs[i].temporary) != 0) {
            complain("can't remove %s: %s", outputs[i].temporary, strerror(errno));
        }
        forget_temporary(&outputs[i]);
    }
}

static bool write_all_or_none(struct output *outputs, size_t count) {
    if (!write_temporaries(outputs, count)) {
        give_up(outputs, count, false);
        return false;
    }
    if (!put_in_place(outputs, count)) {
        give_up(outputs, count, true);
        return false;
    }
    return true;
}

/* A signal that ended the program here would leave temporaries behind, so signals wait until it is done. That a file would be
 * longer than the user's limit is made an error like a full disk, since it would end the program too. */
bool write_outputs(const struct input *inputs, size_t input_count, struct output *outputs, size_t output_count) {
    sigset_t all, before;
    if (!stand_apart(inputs, input_count, outputs, output_count)) {
        return false;
    }
    sigfillset(&all);
    sigprocmask(SIG_BLOCK, &all, &before);
    signal(SIGXFSZ, SIG_IGN);
    bool good = write_all_or_none(outputs, output_count);
    sigprocmask(SIG_SETMASK, &before, NULL);
    return good;
}
