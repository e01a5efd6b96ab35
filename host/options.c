/* The command line: its options, and the texts about them. */
#include "options.h"

#include <stddef.h>
#include <stdio.h>
#include <string.h>

#include "bts.h"
#include "grounds.h"
#include "kinds.h"
#include "number.h"
#include "say.h"
#include "store.h"
#include "version.h"

/* What an option sets: a flag, the name of a file, that of a file for which `-` is standard input, or a rate. */
enum sets { FLAG, A_FILE, A_FILE_OR_STDIN, A_RATE };

/* How a person is told what a rate is. */
#define RATE_IS "cents per million cycles, a whole number from 1 to 1000000"

/* The options, in the order in which the help text tells them. */
static const struct option {
    const char *name;
    const char *also; /* another name, or NULL */
    enum sets sets;
    size_t field; /* its place in struct options */
    const char *says;
} option_list[] = {
    {"--rom", NULL, A_FILE, offsetof(struct options, rom), "the cartridge's image; without it, none"},
    {"--bios", NULL, A_FILE, offsetof(struct options, bios), "the BIOS image; without it, none"},
    {"--sram", NULL, A_FILE, offsetof(struct options, sram), "the backup memory, as long as the file; without it, zeros"},
    {"--store", NULL, A_FILE, offsetof(struct options, store), "all memories as --store-out wrote them; without it, zeros"},
    {"--board", NULL, A_FILE, offsetof(struct options, board), "a saved board (80 bytes) to start from; without it, a fresh one"},
    {"--bench", NULL, FLAG, offsetof(struct options, bench), "memories as long as the program bench has them"},
    {"--full", NULL, FLAG, offsetof(struct options, full), "memories of the physical sizes, as they are without it"},
    {"--sheet", NULL, A_FILE_OR_STDIN, offsetof(struct options, sheet),
     "a sheet in bytes (- is standard input) instead of a listing"},
    {"--rate", NULL, A_RATE, offsetof(struct options, rate), "bills the run at these " RATE_IS},
    {"--preview", NULL, FLAG, offsetof(struct options, preview), "prices the steps before they are run, without the memories"},
    {"-v", NULL, FLAG, offsetof(struct options, table), "a table for a person, instead of a line for each step and the total"},
    {"-o", NULL, A_FILE, offsetof(struct options, sheet_out), "writes the sheet that was run, of at most 4096 steps"},
    {"--board-out", NULL, A_FILE, offsetof(struct options, board_out), "writes the board after the run"},
    {"--sram-out", NULL, A_FILE, offsetof(struct options, sram_out), "writes the backup memory after the run"},
    {"--store-out", NULL, A_FILE, offsetof(struct options, store_out), "writes all memories after the run"},
    {"-h", "--help", FLAG, offsetof(struct options, help), "this text"},
    {"--version", NULL, FLAG, offsetof(struct options, version), "the library's version, the toolchain and the Rust behind it"},
};

enum { OPTION_COUNT = sizeof option_list / sizeof option_list[0] };

static bool wrong(const char *what, const char *option) {
    complain("%s %s; btsrun -h tells the options", option, what);
    return false;
}

static bool is_named(const char *name, const char *text, size_t len) {
    return name != NULL && strlen(name) == len && memcmp(name, text, len) == 0;
}

static const struct option *find(const char *text, size_t len) {
    for (size_t i = 0; i < OPTION_COUNT; i++) {
        if (is_named(option_list[i].name, text, len) || is_named(option_list[i].also, text, len)) {
            return &option_list[i];
        }
    }
    return NULL;
}

static bool set_file(const struct option *option, const char *file, struct options *options) {
    const char **field = (const char **)(void *)((char *)options + option->field);
    if (*field != NULL) {
        return wrong("stands twice", option->name);
    }
    if (file == NULL || file[0] == '\0') {
        return wrong("names no file", option->name);
    }
    if (strcmp(file, "-") == 0 && option->sets != A_FILE_OR_STDIN) {
        return wrong("takes a file's name, not -", option->name);
    }
    *field = file;
    return true;
}

/* What is no number that the run can be given is told here; what is none of its rates, the run refuses. */
static bool set_rate(const struct option *option, const char *text, struct options *options) {
    struct rate *field = (struct rate *)(void *)((char *)options + option->field);
    uint64_t value;
    if (field->given) {
        return wrong("stands twice", option->name);
    }
    if (text == NULL || text[0] == '\0') {
        return wrong("has no value: it takes " RATE_IS, option->name);
    }
    if (!read_number(text, strlen(text), &value) || value > NUMBER_MOST) {
        complain("%s takes " RATE_IS ", not %s; btsrun -h tells the options", option->name, text);
        return false;
    }
    *field = (struct rate){true, (uint32_t)value};
    return true;
}

/* Takes the option at argv[i] and gives back how many arguments it was; 0 if it is wrong. Behind the last argument is a NULL. The
 * value of a long option may stand behind `=` in the same argument. */
static int take_option(char **argv, int i, struct options *options) {
    const char *equals = argv[i][1] == '-' ? strchr(argv[i], '=') : NULL;
    const struct option *option = find(argv[i], equals != NULL ? (size_t)(equals - argv[i]) : strlen(argv[i]));
    if (option == NULL) {
        return wrong("is no option", argv[i]);
    }
    if (option->sets != FLAG) {
        const char *value = equals != NULL ? equals + 1 : argv[i + 1];
        bool set = (option->sets == A_RATE ? set_rate : set_file)(option, value, options);
        return !set ? 0 : equals != NULL ? 1 : 2;
    }
    if (equals != NULL) {
        return wrong("takes no value", option->name);
    }
    *(bool *)((char *)options + option->field) = true;
    return 1;
}

/* A preview takes no memories, and leaves neither these nor a board. What asks for them is told, and not passed over: a person
 * who names an image expects its values. */
static bool agrees_with_preview(const struct options *o) {
    static const char takes[] = "can't stand beside --preview, which takes no memories: leave one of the two out";
    static const char leaves[] = "can't stand beside --preview, which leaves no board and no memories: leave one of the two out";
    const struct {
        bool given;
        const char *name, *says;
    } others[] = {
        {o->rom != NULL, "--rom", takes},
        {o->bios != NULL, "--bios", takes},
        {o->sram != NULL, "--sram", takes},
        {o->store != NULL, "--store", takes},
        {o->bench, "--bench", takes},
        {o->full, "--full", takes},
        {o->board_out != NULL, "--board-out", leaves},
        {o->sram_out != NULL, "--sram-out", leaves},
        {o->store_out != NULL, "--store-out", leaves},
    };
    bool good = true;
    for (size_t i = 0; o->preview && i < sizeof others / sizeof others[0]; i++) {
        good = (!others[i].given || wrong(others[i].says, others[i].name)) && good;
    }
    return good;
}

/* Options that say the same thing in two ways, and those that a preview has no use for. */
static bool agree(const struct options *o, const char *operand) {
    if (operand != NULL && o->sheet != NULL) {
        return wrong("is a listing beside --sheet, and only one of them can be run", operand);
    }
    if (o->store != NULL && o->sram != NULL) {
        return wrong("can't stand beside --sram: a store has an SRAM of its own", "--store");
    }
    if (o->store != NULL && (o->bench || o->full)) {
        return wrong("can't stand beside --bench or --full: a store has its own lengths", "--store");
    }
    if (o->bench && o->full) {
        return wrong("can't stand beside --full: they name different sizes", "--bench");
    }
    return agrees_with_preview(o);
}

/* `-` is standard input, for a listing and for a sheet. */
bool read_options(int argc, char **argv, struct options *options) {
    const char *operand = NULL;
    bool only_operands = false;
    *options = (struct options){0};
    for (int i = 1; i < argc;) {
        bool is_option = !only_operands && argv[i][0] == '-' && argv[i][1] != '\0';
        int taken = 1;
        if (is_option && strcmp(argv[i], "--") == 0) {
            only_operands = true;
        } else if (is_option) {
            taken = take_option(argv, i, options);
        } else if (operand != NULL) {
            taken = wrong("is a second listing", argv[i]);
        } else {
            operand = argv[i];
        }
        if (taken == 0) {
            return false;
        }
        i += taken;
    }
    options->listing = operand != NULL && strcmp(operand, "-") != 0 ? operand : NULL;
    return agree(options, operand);
}

/* ---- texts */

static void print_options(void) {
    for (size_t i = 0; i < OPTION_COUNT; i++) {
        const struct option *o = &option_list[i];
        char text[40];
        snprintf(text, sizeof text, "%s%s%s%s", o->name, o->also != NULL ? ", " : "", o->also != NULL ? o->also : "",
                 o->sets == FLAG ? "" : o->sets == A_RATE ? " CENTS" : " FILE");
        printf("  %-18s%s\n", text, o->says);
    }
}

static void print_sizes(void) {
    fputs("\nThe memories in bytes, without --bench and with it:\n", stdout);
    for (size_t i = 0; i < MEMORIES; i++) {
        const struct memory *memory = memory_at(i);
        printf("  %-8s%8zu%8zu\n", memory->name, memory->physical, memory->bench);
    }
}

static void print_steps(void) {
    fputs("\nEach line of a listing is a step, or blank; # and ; begin a comment. "
          "Numbers are decimal, or hexadecimal behind 0x.\n\n", stdout);
    for (size_t i = 0; form_at(i) != NULL; i++) {
        printf("  %-11s%-20s  %s\n", form_at(i)->name, form_at(i)->operands, form_at(i)->says);
    }
    fputs("\nA line VERSION 2 before the first step asks for sheets of version 2; without it, or with VERSION 1, they are of "
          "version 1.\nVersion 2 has BLOCKREAD and BLOCKWRITE besides, which stand for as many word accesses one behind the "
          "other, from the\naddress lowered to a multiple of 4; and it finds the internal cycle of Thumb POP at 0xBC and 0xBD, "
          "where version 1 looks at\n0xBA and 0xBB. All else is the same.\n", stdout);
}

static void print_grounds(void) {
    fputs("\nThe words of the grounds, and what the beat costs; N and S are the cycles of a nonsequential and of a sequential "
          "halfword\nof ROM, by WAITCNT. The beats, with the internal cycle of a THUMB or ARM that has one, make the step's "
          "cycles.\n\n", stdout);
    for (uint32_t ground = BTS_GROUND_HIT; ground < BTS_GROUNDS; ground++) {
        printf("  %-9s%s\n", bts_ground_name(ground), ground_says(ground));
    }
}

void print_help(void) {
    fputs("btsrun [OPTION].. [LISTING]     prices the steps of a listing (standard input if none is named, or -)\n\n", stdout);
    print_options();
    fputs("\nA value may also stand behind =, as in --rom=FILE.\n", stdout);
    print_sizes();
    print_steps();
    fputs("\nFor each step a line gives these, and behind the lines is the total of the cycles:\n\n"
          "  index    the step's number, from 0\n"
          "  cycles   what the step costs\n"
          "  value    READ: the data; BLOCKREAD: the last word; FETCH: the halfword, 0 on a miss; THUMB, ARM: cycles with the\n"
          "           cartridge bus free; else 0\n"
          "  hits     FETCH, THUMB, ARM: halfwords taken from the prefetch; WRITE, BLOCKWRITE: bytes that landed in a memory; "
          "else 0\n"
          "  count    halfwords that stand in the prefetch after the step\n"
          "  force    1: the next opcode fetch is nonsequential\n"
          "  grounds  READ, WRITE, BLOCKREAD, BLOCKWRITE, THUMB, ARM: why the step costs that, a word for each beat; else "
          "nothing\n",
          stdout);
    print_grounds();
    fputs("\n"
          "A READ or WRITE in ROM that goes on where the READ or WRITE before it ended is sequential, but for the beginning of a "
          "block\nof 0x20000 bytes; any other is nonsequential in its first halfword. IDLE, PC and LATCH may stand between the "
          "two; THUMB,\nARM, FETCH, RESTART and WAITCNT end such a row. Each word of a block is an access of a row.\n"
          "The table of -v has the step too, the sum of the cycles up to it, and the lines of docs/DIFFERENCES.md that touch "
          "it; three\nand more of a word in the grounds stand as in 31x seq.\n"
          "With --rate the charge stands behind the total: total * rate / 1000000 cents, rounded up to the cent and shown as "
          "money\n(307 cents are 3.07). The table then has the share of each step, and the shares add up to the charge. A "
          "charge is a\nsheet's, so at most 4096 steps can be billed.\n"
          "With --preview nothing is run and no memories are lent. What hangs on them is left out: the values of READ and FETCH "
          "and\nthe hits of WRITE (of BLOCKREAD and BLOCKWRITE too) are 0 in the lines and - in the table, which has no lines of\n"
          "docs/DIFFERENCES.md that hang on them. All else is that of a run, whatever its memories. What is left out is said on\n"
          "standard error, and by -v in the table.\n"
          "If a store landed short (fewer bytes in a memory than it had to give), a line on standard error counts such stores; "
          "with -v\nit is followed by each of them, with the reason.\n"
          "Nothing is written on an error. Exit status: 0 done; 1 refused by the run; 2 a bad line, option or file.\n",
          stdout);
}

void print_version(void) {
    printf("btsrun, with libbts %s (sheets of versions %d and %d)\n", BTS_LIBRARY_VERSION, BTS_VERSION_1, BTS_VERSION_2);
    printf("toolchain: %s\n", HOST_TOOLCHAIN);
    printf("ported from: %s\n", HOST_RUST);
}
