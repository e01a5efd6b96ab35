/* Listings: from lines to records. What is refused here is what the run would refuse as a faulty record, and what no record
 * could hold; and values with bits that the run would ignore, since whoever wrote them meant something else. */
#include "listing.h"

#include <stdarg.h>
#include <stdio.h>
#include <stdlib.h>
#include <string.h>

#include "kinds.h"
#include "number.h"
#include "say.h"

/* A mnemonic, three operands and `pc` are five; a sixth word is kept to be told as too much. */
enum { WORDS_MOST = 6 };

struct word {
    const char *at;
    size_t len;
};

/* The line that is being read. */
struct reader {
    const char *file;
    unsigned long line;
    unsigned faults;
    bool full;        /* a step was met for which there is no memory left */
    uint32_t version; /* of the sheet that is made */
    bool versioned;   /* a VERSION line was met */
    bool begun;       /* a line was met that is to be a step */
    const struct form *form;
    struct word words[WORDS_MOST];
    size_t count; /* words of the line */
    size_t next;  /* the next word that has not been taken */
};

/* The fields of the record that a line stands for. */
struct step {
    uint8_t size;
    uint8_t flag;
    uint32_t address;
    uint32_t value;
};

/* Always false, so that a test can end in `return fault(..)`. */
HOST_FORMAT(2, 3)
static bool fault(struct reader *reader, const char *format, ...) {
    va_list arguments;
    va_start(arguments, format);
    complain_at(reader->file, reader->line, format, arguments);
    va_end(arguments);
    reader->faults++;
    return false;
}

enum { SHOWN_MOST = 24, SHOWN_ROOM = 4 * SHOWN_MOST + 3 };

/* A word as it may be printed: a terminal gets no control character from a listing, and no endless line. */
static const char *shown(struct word word, char text[SHOWN_ROOM]) {
    size_t len = 0;
    for (size_t i = 0; i < word.len && i < SHOWN_MOST; i++) {
        unsigned char c = (unsigned char)word.at[i];
        bool plain = c > ' ' && c < 0x7F;
        len += (size_t)snprintf(text + len, SHOWN_ROOM - len, plain ? "%c" : "\\x%02X", c);
    }
    snprintf(text + len, SHOWN_ROOM - len, "%s", word.len > SHOWN_MOST ? ".." : "");
    return text;
}

/* ---- operands */

/* The next word as a number up to `most`; `name` is what it is called, and `of` the step. */
static bool take_number(struct reader *reader, const char *name, const char *of, uint32_t most, uint32_t *out) {
    char text[SHOWN_ROOM];
    uint64_t value;
    if (reader->next == reader->count) {
        return fault(reader, "%s has no %s: write %s %s", of, name, reader->form->name, reader->form->operands);
    }
    struct word word = reader->words[reader->next++];
    if (read_number(word.at, word.len, &value)) {
        *out = (uint32_t)(value & 0xFFFFFFFF);
        return value <= most || fault(reader, "%s %s of %s is over %lu%s", name, shown(word, text), of, (unsigned long)most,
                                      most == 0xFFFFFFFF ? " (0xFFFFFFFF)" : "");
    }
    if (word.len > 1 && word.at[0] == '-' && read_number(word.at + 1, word.len - 1, &value)) {
        return fault(reader, "%s %s of %s is negative", name, shown(word, text), of);
    }
    return fault(reader, "%s %s of %s is no number (decimal, or hexadecimal behind 0x)", name, shown(word, text), of);
}

static bool take_size(struct reader *reader, uint8_t *size) {
    char text[SHOWN_ROOM];
    uint32_t value;
    size_t at = reader->next;
    if (!take_number(reader, "size", reader->form->name, 0xFFFFFFFF, &value)) {
        return false;
    }
    *size = (uint8_t)(value & 7);
    return value == 1 || value == 2 || value == 4 ||
           fault(reader, "size %s of %s is not 1, 2 or 4", shown(reader->words[at], text), reader->form->name);
}

static bool take_value(struct reader *reader, struct step *step) {
    const struct form *form = reader->form;
    uint32_t most = form_value_most(form, step->size);
    char of[32], text[SHOWN_ROOM];
    size_t at = reader->next;
    if (form->has_size) {
        snprintf(of, sizeof of, "%s %u", form->name, (unsigned)step->size);
    } else {
        snprintf(of, sizeof of, "%s", form->name);
    }
    if (!take_number(reader, form->value_name, of, most, &step->value)) {
        return false;
    }
    return step->value >= form->value_least || fault(reader, "%s %s of %s is under %lu", form->value_name,
                                                     shown(reader->words[at], text), of, (unsigned long)form->value_least);
}

/* `pc`, if it stands there, in capitals or not. */
static uint8_t take_pc(struct reader *reader) {
    if (!reader->form->has_pc || reader->next == reader->count) {
        return 0;
    }
    struct word word = reader->words[reader->next];
    bool pc = word.len == 2 && (word.at[0] | 0x20) == 'p' && (word.at[1] | 0x20) == 'c';
    reader->next += pc;
    return pc;
}

static bool take_operands(struct reader *reader, struct step *step) {
    const struct form *form = reader->form;
    char text[SHOWN_ROOM];
    step->size = form->size;
    if (form->has_size && !take_size(reader, &step->size)) {
        return false;
    }
    if (form->has_address && !take_number(reader, "address", form->name, 0xFFFFFFFF, &step->address)) {
        return false;
    }
    if (form->value_name != NULL && !take_value(reader, step)) {
        return false;
    }
    step->flag = take_pc(reader);
    return reader->next == reader->count || fault(reader, "%s is too much: write %s %s",
                                                  shown(reader->words[reader->next], text), form->name, form->operands);
}

/* ---- the version */

/* A version that there is, of the word behind VERSION; 0 if it is none. */
static uint32_t known_version(struct word word) {
    uint64_t version;
    bool known = read_number(word.at, word.len, &version) && version >= BTS_VERSION_1 && version <= BTS_VERSION_2;
    return known ? (uint32_t)version : 0;
}

/* A VERSION line, which makes no record. A listing says by itself for which sheets it is, so that it means the same to whoever
 * runs it. Where the line is bad the rest is read as of the version that it asks for, or else of the newest, so that no step is
 * told for it besides. */
static bool read_version(struct reader *reader) {
    static const char write[] = "write VERSION 1 or VERSION 2";
    char text[SHOWN_ROOM];
    uint32_t version = reader->count > 1 ? known_version(reader->words[1]) : 0;
    bool again = reader->versioned;
    reader->versioned = true;
    reader->version = version != 0 ? version : BTS_VERSION_2;
    if (again) {
        return fault(reader, "VERSION stands twice: leave one of the two out");
    }
    if (reader->begun) {
        return fault(reader, "VERSION stands behind a step: put it before the first one");
    }
    if (reader->count == 1) {
        return fault(reader, "VERSION has no number: %s", write);
    }
    if (version == 0) {
        return fault(reader, "there are no sheets of version %s: %s", shown(reader->words[1], text), write);
    }
    return reader->count == 2 || fault(reader, "%s is too much: %s", shown(reader->words[2], text), write);
}

/* ---- lines */

/* Up to the sixth word; a comment ends the line. */
static void split(struct reader *reader, const char *line, size_t len) {
    size_t i = 0;
    reader->count = 0;
    while (i < len && line[i] != '#' && line[i] != ';' && reader->count < WORDS_MOST) {
        size_t start = i;
        while (i < len && strchr(" \t#;", line[i]) == NULL) {
            i++;
        }
        if (i > start) {
            reader->words[reader->count++] = (struct word){line + start, i - start};
        } else {
            i++;
        }
    }
}

/* The steps that are named are those of the listing's version. */
static bool fault_unknown(struct reader *reader, struct word word) {
    char text[SHOWN_ROOM];
    char names[200] = "";
    for (size_t i = 0; form_at(i) != NULL; i++) {
        size_t len = strlen(names);
        if (form_at(i)->since <= reader->version) {
            snprintf(names + len, sizeof names - len, "%s%s", i > 0 ? ", " : "", form_at(i)->name);
        }
    }
    return fault(reader, "%s is no step; the steps are %s", shown(word, text), names);
}

/* What no line may be, whatever stands in it. A carriage return within a line would hide the steps behind it in a comment. */
static bool is_text(struct reader *reader, const char *line, size_t len) {
    if (len > LINE_MOST) {
        return fault(reader, "the line is longer than %d bytes", LINE_MOST);
    }
    if (memchr(line, '\0', len) != NULL) {
        return fault(reader, "the line has a NUL byte");
    }
    return memchr(line, '\r', len) == NULL || fault(reader, "the line has a carriage return that doesn't end it");
}

/* The step of the line that was split. */
static bool read_step(struct reader *reader, struct step *step) {
    reader->begun = true;
    reader->form = form_by_name(reader->words[0].at, reader->words[0].len);
    if (reader->form == NULL) {
        return fault_unknown(reader, reader->words[0]);
    }
    unsigned since = reader->form->since;
    if (since > reader->version) {
        return fault(reader, "%s is a step of version %u sheets: begin the listing with VERSION %u", reader->form->name, since,
                     since);
    }
    reader->next = 1;
    return take_operands(reader, step);
}

/* Whether the line has a step. A bad line has none and is told. */
static bool read_line(struct reader *reader, const char *line, size_t len, struct step *step) {
    *step = (struct step){0};
    reader->line++;
    if (len > 0 && line[len - 1] == '\r') {
        len--;
    }
    if (!is_text(reader, line, len)) {
        return false;
    }
    split(reader, line, len);
    if (reader->count == 0) {
        return false;
    }
    if (is_word(reader->words[0].at, reader->words[0].len, "VERSION")) {
        read_version(reader);
        return false; /* it has no step, good or bad */
    }
    return read_step(reader, step);
}

/* ---- the sheet */

/* Room for one record more: as many again as there are, from 128 on. */
static bool has_room(struct bytes *sheet, size_t *room) {
    if (sheet->len + BTS_RECORD_SIZE <= *room) {
        return true;
    }
    size_t wanted = sheet->len + (sheet->len > 128 * BTS_RECORD_SIZE ? sheet->len : 128 * BTS_RECORD_SIZE);
    uint8_t *at = realloc(sheet->at, wanted);
    if (at == NULL) {
        return false;
    }
    sheet->at = at;
    *room = wanted;
    return true;
}

/* Puts the step behind the others. */
static void add(struct reader *reader, const struct step *step, struct bytes *sheet, size_t *room) {
    size_t k = (sheet->len - BTS_HEADER_SIZE) / BTS_RECORD_SIZE;
    reader->full = !has_room(sheet, room);
    if (reader->full) {
        fault(reader, "there is no memory for step %zu", k + 1);
        return;
    }
    bts_put_record(sheet->at, k, reader->form->kind, step->size, step->flag, step->address, step->value);
    sheet->len += BTS_RECORD_SIZE;
}

/* All lines, up to too many bad ones. */
static bool read_lines(struct reader *reader, const char *at, size_t len, struct bytes *sheet) {
    size_t room = sheet->len;
    struct step step;
    while (len > 0 && reader->faults < FAULTS_MOST && !reader->full) {
        const char *end = memchr(at, '\n', len);
        size_t line = end != NULL ? (size_t)(end - at) : len;
        size_t past = end != NULL ? line + 1 : line;
        if (read_line(reader, at, line, &step)) {
            add(reader, &step, sheet, &room);
        }
        at += past;
        len -= past;
    }
    if (len > 0 && reader->faults == FAULTS_MOST) {
        complain("%s: %d bad lines; the rest is left unread", reader->file, FAULTS_MOST);
    }
    return reader->faults == 0;
}

bool assemble(const char *file, const uint8_t *text, size_t len, struct bytes *sheet) {
    static const char utf8_mark[3] = "\xEF\xBB\xBF"; /* some editors put it in front of a text */
    struct reader reader = {.file = file, .version = BTS_VERSION};
    if (len > LISTING_MOST) {
        complain("%s is longer than %d bytes, which no listing is", file, LISTING_MOST);
        return false;
    }
    sheet->at = calloc(BTS_HEADER_SIZE, 1);
    if (sheet->at == NULL) {
        complain("out of memory");
        return false;
    }
    sheet->len = BTS_HEADER_SIZE;
    size_t start = len >= sizeof utf8_mark && memcmp(text, utf8_mark, sizeof utf8_mark) == 0 ? sizeof utf8_mark : 0;
    bool good = read_lines(&reader, (const char *)text + start, len - start, sheet);
    bts_put_header_of(sheet->at, reader.version, (uint32_t)((sheet->len - BTS_HEADER_SIZE) / BTS_RECORD_SIZE));
    return good;
}
