/* Files that must not meet. */
#define _XOPEN_SOURCE 700 /* lstat, strdup */

#include "apart.h"

#include <errno.h>
#include <stdlib.h>
#include <string.h>
#include <sys/stat.h>
#include <unistd.h>

#include "say.h"

/* ---- which file it is */

static struct identity identity_of(const struct stat *found) {
    return (struct identity){S_ISREG(found->st_mode), (uintmax_t)found->st_dev, (uintmax_t)found->st_ino};
}

static bool same_file(const struct identity *a, const struct identity *b) {
    return a->device == b->device && a->number == b->number;
}

bool identify(int descriptor, struct identity *out) {
    struct stat found;
    if (fstat(descriptor, &found) != 0) {
        return false;
    }
    *out = identity_of(&found);
    return true;
}

/* The folder of a path, as a file; false where there is none. */
static bool identify_folder(const char *path, struct identity *out) {
    struct stat found;
    char *folder = strdup(path);
    char *slash = folder != NULL ? strrchr(folder, '/') : NULL;
    if (slash != NULL) {
        slash[1] = '\0'; /* the slash stays, so that the root is a folder too */
    }
    bool good = folder != NULL && stat(slash != NULL ? folder : ".", &found) == 0;
    free(folder);
    *out = good ? identity_of(&found) : (struct identity){0};
    return good;
}

static const char *last_name(const char *path) {
    const char *slash = strrchr(path, '/');
    return slash != NULL ? slash + 1 : path;
}

/* Whether two paths, of files that may not be there yet, are the same name in the same folder. */
static bool same_place(const char *a, const char *b) {
    struct identity folder_a, folder_b;
    return strcmp(last_name(a), last_name(b)) == 0 && identify_folder(a, &folder_a) && identify_folder(b, &folder_b) &&
           same_file(&folder_a, &folder_b);
}

/* ---- one output */

/* A rename would put a file where a device, a directory or a link stood; and it asks for no leave from the file itself, so one
 * that is locked against writing is left alone here: by root too, whom the system would let write it. */
static bool may_replace(const char *path, const struct stat *there) {
    if (!S_ISREG(there->st_mode)) {
        complain("can't write %s: it is there and is no regular file", path);
        return false;
    }
    if ((there->st_mode & 0222) == 0) {
        complain("can't write %s: it is there and is write-protected", path);
        return false;
    }
    if (access(path, W_OK) != 0) {
        complain("can't write %s: %s", path, strerror(errno));
        return false;
    }
    return true;
}

/* The outputs' temporaries are beside them: an output of such a name could be another's temporary. */
static bool is_named_well(const char *path) {
    const char *name = last_name(path);
    size_t len = strlen(name);
    size_t suffix = strlen(TEMPORARY_SUFFIX);
    if (len >= suffix && strcmp(name + (len - suffix), TEMPORARY_SUFFIX) == 0) {
        complain("can't write %s: names that end in %s are for temporary files", path, TEMPORARY_SUFFIX);
        return false;
    }
    return true;
}

/* ---- an output and the inputs, the outputs, standard output */

/* Whether the file, called `name`, is no input but its own. */
static bool spares_inputs(const char *name, const struct identity *file, const struct input *own, const struct input *inputs,
                          size_t count) {
    for (size_t i = 0; i < count; i++) {
        bool same = inputs[i].name != NULL && inputs[i].file.regular && same_file(file, &inputs[i].file);
        if (same && &inputs[i] != own) {
            complain("%s would be written over, though it is read as something else (%s)", name, inputs[i].name);
            return false;
        }
    }
    return true;
}

/* Whether outputs before it go to another place; `file` is NULL where nothing is there yet. */
static bool spares_outputs(const struct output *outputs, size_t at, const struct identity *file) {
    for (size_t i = 0; i < at; i++) {
        struct stat other;
        const char *path = outputs[i].path;
        bool same = path != NULL && same_place(path, outputs[at].path);
        if (!same && path != NULL && file != NULL && stat(path, &other) == 0) {
            struct identity there = identity_of(&other);
            same = same_file(&there, file);
        }
        if (same) {
            complain("%s and %s are one file, and two outputs can't go there", path, outputs[at].path);
            return false;
        }
    }
    return true;
}

/* Whether the lines that are printed go elsewhere: else they would be lost with the file that is replaced. */
static bool spares_stdout(const char *path, const struct identity *file) {
    struct identity out;
    if (!identify(STDOUT_FILENO, &out) || !out.regular || !same_file(&out, file)) {
        return true;
    }
    complain("can't write %s: it is where standard output goes", path);
    return false;
}

static bool stands_apart(const struct input *inputs, size_t input_count, const struct output *outputs, size_t at) {
    const struct output *output = &outputs[at];
    struct stat there;
    if (output->path == NULL) {
        return true;
    }
    if (!is_named_well(output->path)) {
        return false;
    }
    if (lstat(output->path, &there) != 0) {
        return spares_outputs(outputs, at, NULL);
    }
    struct identity file = identity_of(&there);
    return spares_inputs(output->path, &file, output->own, inputs, input_count) && may_replace(output->path, &there) &&
           spares_stdout(output->path, &file) && spares_outputs(outputs, at, &file);
}

bool stand_apart(const struct input *inputs, size_t input_count, const struct output *outputs, size_t output_count) {
    struct identity out;
    if (identify(STDOUT_FILENO, &out) && out.regular && !spares_inputs("standard output", &out, NULL, inputs, input_count)) {
        return false;
    }
    for (size_t i = 0; i < output_count; i++) {
        if (!stands_apart(inputs, input_count, outputs, i)) {
            return false;
        }
    }
    return true;
}
