/* Images made line by line, right ones and such with one flaw. */
#ifndef LINES_H
#define LINES_H

#include "compare.h"

/* What a word of a line is. */
enum kind {
    HEAD = 1,
    WITH_CONSTANT = 2,
    CONSTANT = 4,
    WITH_READING = 8,
    END = 16,
    TEST = HEAD | WITH_CONSTANT | WITH_READING,
    ANY = TEST | END
};

struct line {
    size_t size;
    uint32_t words[32];
    enum kind kinds[32];
};

/* A line with so many heads (literals or members) and comparisons, right but for these numbers. */
struct line make_line(struct dice *dice, bool rule, unsigned heads, unsigned comparisons);

/* A right line; a brief one has few parts. */
struct line good_line(struct dice *dice, bool rule, bool brief);
struct line flawed_line(struct dice *dice, bool rule, enum flaw flaw);

/* Lines of an image; word 0 is left out. */
struct draft {
    size_t count, rule_words;
    uint32_t words[IMAGE_WORDS + 64];
};

enum { DRAFT_BYTES = IMAGE_BYTES + 512 };

void append(struct draft *draft, struct line line);

/* The bytes of a draft with header and check words; their number is returned. */
size_t finish(const struct draft *draft, uint8_t *bytes);

#endif
