/* Messages for the person at the terminal. They all go to standard error, so that standard output has nothing but figures. */
#ifndef HOST_SAY_H
#define HOST_SAY_H

#include <stdarg.h>

/* Lets a compiler that can do so hold the arguments against the format. */
#if defined __GNUC__
#define HOST_FORMAT(text, first) __attribute__((format(printf, text, first)))
#else
#define HOST_FORMAT(text, first)
#endif

/* A line that begins with the program's name. Names of files and options may be given as they are: whatever is no text, in UTF-8,
 * and whatever a terminal would obey is shown as \xNN. A line has an end, so what is very long is cut. */
void complain(const char *format, ...) HOST_FORMAT(1, 2);

/* The same for line `line` of a listing: it begins with the file's name and the number instead. */
void complain_at(const char *file, unsigned long line, const char *format, va_list arguments) HOST_FORMAT(3, 0);

#endif
