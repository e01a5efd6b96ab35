/* The command line. */
#ifndef HOST_OPTIONS_H
#define HOST_OPTIONS_H

#include <stdbool.h>
#include <stdint.h>

/* A tariff's rate. One of 0 is given too, and is the run's to refuse. */
struct rate {
    bool given;
    uint32_t cents; /* per million cycles */
};

/* A file that was not named is NULL. */
struct options {
    const char *listing; /* NULL: standard input */
    const char *sheet;   /* a sheet in bytes, instead of a listing */
    const char *rom;
    const char *bios;
    const char *sram;
    const char *board;
    const char *store;
    const char *sheet_out;
    const char *board_out;
    const char *sram_out;
    const char *store_out;
    struct rate rate;
    bool bench;   /* every memory as long as the program bench has it */
    bool full;    /* every memory at its physical size, which is so anyway */
    bool preview; /* priced without memories; then none is lent, and none of them is written, nor the board */
    bool table;   /* the table for a person, instead of bench's lines */
    bool help;
    bool version;
};

/* What is wrong is told on standard error. */
bool read_options(int argc, char **argv, struct options *options);

/* The help text, and what the program was made of, on standard output. */
void print_help(void);
void print_version(void);

#endif
