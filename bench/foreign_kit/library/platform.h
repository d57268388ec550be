/* What the library asks of the kit, what foreign.py writes for each program, and what a file is. */
#ifndef PLATFORM_H
#define PLATFORM_H
#include <stddef.h>
#include <stdio.h>
#include "disco.h"
#include "kit.h"

/* written by foreign.py: the files that the program finds, up to one without a name, and its words */
struct embedded {
    const char *name;
    const unsigned char *data, *end;
};
extern const struct embedded embedded_files[];
extern const char *const program_words[];
extern const int program_word_count;

/* a file in memory; one with no room is embedded, and copied before it is written */
struct entry {
    const char *name;
    unsigned char *data;
    size_t size, room;
    struct entry *next;
};

enum kind { IS_INPUT, IS_OUTPUT, IS_FILE };

/* an open file, with a byte that was given back, or -1 */
struct kit_file {
    enum kind kind;
    struct entry *entry;
    size_t at;
    int eof, err, back;
    char own;
};
#endif
