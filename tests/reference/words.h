/* The words of an image as docs/REFERENCE.md defines them: operations, relations, fields and bytes, with the limits of an image.
   All C code of tests/ and bench/ has them from here. */
#ifndef WORDS_H
#define WORDS_H

#include <stdbool.h>
#include <stddef.h>
#include <stdint.h>

enum {
    EVENTS = 64,
    ACTIONS = 64,
    READINGS = 16,
    RULES = 128,
    CONSTRAINTS = 64,
    LITERALS = 8,
    MEMBERS = 8,
    COMPARISONS = 4,
    LINE_WORDS = 17,
    RULE_WORDS = RULES * LINE_WORDS,
    CONSTRAINT_WORDS = CONSTRAINTS * LINE_WORDS,
    WORD_BYTES = 4,
    FIRST_FORM = 1,
    TRIGGER_FORM = 3, /* from this one on lines may trigger events */
    NEWEST_FORM = 3, /* that the programs name */
    LAST_FORM = 5, /* that is known; 4 and 5 are as 3 */
    CHECK_WORDS = 2, /* of every form but the first */
    IMAGE_WORDS = 1 + RULE_WORDS + CONSTRAINT_WORDS + CHECK_WORDS,
    IMAGE_BYTES = IMAGE_WORDS * WORD_BYTES
};

enum operation {
    PRESENT = 1,
    ABSENT = 2,
    AGAINST_CONSTANT = 3,
    AGAINST_READING = 4,
    PROPOSE = 5,
    MEMBER = 6,
    FORBID = 7,
    TRIGGER = 8
};

enum relation { EQUAL = 0, UNEQUAL = 1, LESS = 2, AT_MOST = 3, GREATER = 4, AT_LEAST = 5, RELATIONS = 6 };

static inline bool relation_holds(unsigned relation, int32_t left, int32_t right)
{
    switch (relation) {
    case EQUAL: return left == right;
    case UNEQUAL: return left != right;
    case LESS: return left < right;
    case AT_MOST: return left <= right;
    case GREATER: return left > right;
    default: return left >= right;
    }
}

static inline bool is_known_form(uint64_t form) { return form >= FIRST_FORM && form <= LAST_FORM; }

/* The weighted word and the last one; in form 1 the last one alone. */
static inline unsigned check_words(unsigned form) { return form == FIRST_FORM ? 1 : CHECK_WORDS; }

/* The fields of a word that is neither the header, a constant nor a check word. */
struct fields {
    unsigned operation, first, second, relation, zero, skip;
};

static inline uint32_t pack(struct fields fields)
{
    return (uint32_t)fields.operation << 28 | (uint32_t)fields.first << 22 | (uint32_t)fields.second << 16
        | (uint32_t)fields.relation << 13 | (uint32_t)fields.zero << 5 | (uint32_t)fields.skip;
}

static inline unsigned operation_of(uint32_t word) { return word >> 28; }
static inline unsigned first_of(uint32_t word) { return word >> 22 & 63; }
static inline unsigned second_of(uint32_t word) { return word >> 16 & 63; }
static inline unsigned relation_of(uint32_t word) { return word >> 13 & 7; }
static inline unsigned zero_of(uint32_t word) { return word >> 5 & 255; }
static inline unsigned skip_of(uint32_t word) { return word & 31; }

static inline struct fields unpack(uint32_t word)
{
    struct fields fields = {operation_of(word), first_of(word), second_of(word), relation_of(word), zero_of(word),
        skip_of(word)};
    return fields;
}

/* Word 0. */
struct header {
    unsigned form, rule_words, constraint_words;
};

static inline uint32_t pack_header(struct header header)
{
    return (uint32_t)header.form << 24 | (uint32_t)header.rule_words << 12 | (uint32_t)header.constraint_words;
}

static inline struct header unpack_header(uint32_t word)
{
    struct header header;
    header.form = word >> 24;
    header.rule_words = word >> 12 & 4095;
    header.constraint_words = word & 4095;
    return header;
}

/* A constant word as a value, in two's complement. */
static inline int32_t value_of(uint32_t word)
{
    return word <= INT32_MAX ? (int32_t)word : -1 - (int32_t)(UINT32_MAX - word);
}

/* Words in bytes, most significant byte first. */
static inline uint32_t word_at(const uint8_t *bytes, size_t index)
{
    const uint8_t *at = bytes + WORD_BYTES * index;
    return (uint32_t)at[0] << 24 | (uint32_t)at[1] << 16 | (uint32_t)at[2] << 8 | (uint32_t)at[3];
}

static inline void put_word(uint8_t *bytes, size_t index, uint32_t word)
{
    uint8_t *at = bytes + WORD_BYTES * index;
    at[0] = (uint8_t)(word >> 24);
    at[1] = (uint8_t)(word >> 16);
    at[2] = (uint8_t)(word >> 8);
    at[3] = (uint8_t)word;
}

/* The sum of the first words. */
static inline uint32_t sum_words(const uint8_t *bytes, size_t count)
{
    uint32_t sum = 0;
    size_t i;
    for (i = 0; i < count; i++)
        sum += word_at(bytes, i);
    return sum;
}

/* The first words, each times its index plus 1. */
static inline uint32_t weigh_words(const uint8_t *bytes, size_t count)
{
    uint32_t sum = 0;
    size_t i;
    for (i = 0; i < count; i++)
        sum += word_at(bytes, i) * (uint32_t)(i + 1);
    return sum;
}

/* Makes the last of so many words bring the sum to 0. */
static inline void put_sum(uint8_t *bytes, size_t count)
{
    put_word(bytes, count - 1, 0 - sum_words(bytes, count - 1));
}

/* Makes the check words of a form right, where there are so many words. */
static inline void put_check_words(uint8_t *bytes, size_t count, unsigned form)
{
    if (check_words(form) == CHECK_WORDS && count >= CHECK_WORDS)
        put_word(bytes, count - CHECK_WORDS, weigh_words(bytes, count - CHECK_WORDS));
    put_sum(bytes, count);
}

/* Bit n of a set is number n. */
static inline bool in_set(uint64_t set, unsigned number)
{
    return (set >> number & 1) != 0;
}

static inline unsigned size_of_set(uint64_t set)
{
    unsigned size = 0;
    for (; set != 0; set &= set - 1)
        size++;
    return size;
}

#endif
