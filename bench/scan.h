/* The parts of a scan in plain C, by the algorithms of the library: an image of form 1 or 2 is checked word by word, an epoch line is
 * read, and words are run by their skips and counted. They are for plain.c and events.c, which stand alone as the two libraries do, so
 * that each is optimised by itself. */
#ifndef SCAN_H
#define SCAN_H

#include <string.h>

#include "../tests/reference/words.h"
#include "plain.h"

/* Loading. */

enum part { RULE_PART, CONSTRAINT_PART };

/* The bits of a word behind its first number, and those behind its relation. */
enum { BEHIND_FIRST = 0x3fffff, BEHIND_RELATION = 0x1fff };

static bool ends_line(enum part part, uint32_t word)
{
    if (part == RULE_PART)
        return operation_of(word) == PROPOSE && (word & BEHIND_FIRST) == 0;
    return word == pack((struct fields){.operation = FORBID});
}

/* Bit n is 1 where a head of the part may have the operation n. */
static uint32_t head_operations(enum part part) { return part == RULE_PART ? 1 << PRESENT | 1 << ABSENT : 1 << MEMBER; }

/* The first word from `at` on that is no head of the line whose ending word is `last`. */
static size_t heads_end(const uint8_t *image, enum part part, size_t at, size_t last)
{
    uint64_t seen = 0;
    for (; at < last; at++) {
        uint32_t word = word_at(image, at);
        if ((word & BEHIND_FIRST) != last - at || !in_set(head_operations(part), operation_of(word))
            || in_set(seen, first_of(word)))
            break;
        seen |= (uint64_t)1 << first_of(word);
    }
    return at;
}

/* How many words the comparison has that the word begins, with `left` words of the line behind it; 0 where none may stand. */
static size_t comparison_size(uint32_t word, size_t left)
{
    if (operation_of(word) == AGAINST_CONSTANT)
        return first_of(word) < READINGS && relation_of(word) < RELATIONS && second_of(word) == 0
                && (word & BEHIND_RELATION) + 1 == left && left > 1
            ? 2
            : 0;
    if (operation_of(word) == AGAINST_READING)
        return first_of(word) < READINGS && relation_of(word) < RELATIONS && second_of(word) < READINGS
            && (word & BEHIND_RELATION) == left;
    return 0;
}

/* Whether comparisons stand from `at` up to the ending word `last`, not too many. */
static bool are_comparisons(const uint8_t *image, size_t at, size_t last)
{
    for (unsigned room = COMPARISONS; at < last; room--) {
        size_t words = room > 0 ? comparison_size(word_at(image, at), last - at) : 0;
        if (words == 0)
            return false;
        at += words;
    }
    return true;
}

/* How many words the line has that starts at `at` and ends before `end`; 0 where none does. */
static size_t line_length(const uint8_t *image, enum part part, size_t at, size_t end)
{
    size_t size = skip_of(word_at(image, at));
    if (end - at <= size)
        return 0;
    size_t last = at + size;
    if (!ends_line(part, word_at(image, last)))
        return 0;
    size_t middle = heads_end(image, part, at, last);
    if (middle == at || middle > at + LITERALS) /* or MEMBERS, as many */
        return 0;
    return are_comparisons(image, middle, last) ? size + 1 : 0;
}

/* Whether the words from `start` up to `end` are at most `limit` lines: then their count is in `answer`, otherwise the word at
 * which no line fits. */
static bool check_part(const uint8_t *image, enum part part, size_t start, size_t end, size_t limit, uint64_t *answer)
{
    size_t count = 0;
    for (size_t at = start; at < end; count++) {
        size_t words = count < limit ? line_length(image, part, at, end) : 0;
        if (words == 0) {
            *answer = at;
            return false;
        }
        at += words;
    }
    *answer = count;
    return true;
}

static struct kinohazel_image_check refuse(enum kinohazel_fault fault, uint64_t word)
{
    return (struct kinohazel_image_check){.fault = fault, .word = word};
}

/* What is wrong with the check words, which stand from the index `end` on. Form 2 takes one pass for both sums, form 1 sums alone. */
static enum kinohazel_fault check_sums(const uint8_t *image, unsigned form, size_t end)
{
    uint32_t sum = 0, weighted = 0;
    if (form == FIRST_FORM)
        return sum_words(image, end + 1) == 0 ? KINOHAZEL_OK : KINOHAZEL_IMAGE_SUM;
    for (size_t i = 0; i < end; i++) {
        uint32_t word = word_at(image, i);
        sum += word;
        weighted += word * (uint32_t)(i + 1);
    }
    if (sum + word_at(image, end) + word_at(image, end + 1) != 0)
        return KINOHAZEL_IMAGE_SUM;
    return weighted == word_at(image, end) ? KINOHAZEL_OK : KINOHAZEL_IMAGE_WEIGHTED_SUM;
}

static struct kinohazel_image_check load(const uint8_t *image, size_t image_length)
{
    if (image_length < 2 * WORD_BYTES || image_length > IMAGE_BYTES || image_length % WORD_BYTES != 0)
        return refuse(KINOHAZEL_IMAGE_SIZE, 0);
    size_t words = image_length / WORD_BYTES;
    struct header header = unpack_header(word_at(image, 0));
    if (!is_known_form(header.form))
        return refuse(KINOHAZEL_IMAGE_FORM, 0);
    size_t middle = 1 + header.rule_words;
    size_t end = middle + header.constraint_words;
    if (header.rule_words > RULE_WORDS || header.constraint_words > CONSTRAINT_WORDS || words != end + check_words(header.form))
        return refuse(KINOHAZEL_IMAGE_COUNT, 0);
    enum kinohazel_fault fault = check_sums(image, header.form, end);
    if (fault != KINOHAZEL_OK)
        return refuse(fault, 0);
    uint64_t rules, constraints;
    if (!check_part(image, RULE_PART, 1, middle, RULES, &rules))
        return refuse(KINOHAZEL_IMAGE_BODY, rules);
    if (!check_part(image, CONSTRAINT_PART, middle, end, CONSTRAINTS, &constraints))
        return refuse(KINOHAZEL_IMAGE_BODY, constraints);
    return (struct kinohazel_image_check){.rules = rules, .constraints = constraints};
}

/* Reading an epoch line from `at` up to `end`. A token ends at a space or the end. */

struct cursor {
    const uint8_t *at;
    const uint8_t *end;
};

static void skip_spaces(struct cursor *c)
{
    while (c->at < c->end && *c->at == ' ')
        c->at++;
}

static bool at_token_end(const struct cursor *c)
{
    return c->at == c->end || *c->at == ' ';
}

/* A number, clipped where it is past every limit. */
static bool take_digits(struct cursor *c, uint32_t *number)
{
    const uint8_t *start = c->at;
    uint32_t n = 0;
    while (c->at < c->end && *c->at >= '0' && *c->at <= '9') {
        n = n < 300000000 ? n * 10 + (*c->at - '0') : 3000000000u;
        c->at++;
    }
    if (c->at == start || (*start == '0' && c->at - start > 1))
        return false;
    *number = n;
    return true;
}

/* The value of a hexadecimal digit of either case; 16 for other bytes. */
static uint32_t digit_value(uint8_t byte)
{
    if (byte >= '0' && byte <= '9')
        return byte - '0';
    byte |= 'a' - 'A';
    return byte >= 'a' && byte <= 'f' ? byte - 'a' + 10 : 16;
}

/* What follows the 0 of a constant in hexadecimal. With over eight digits `in_range` is cleared. */
static bool take_pattern(struct cursor *c, int32_t *value, bool *in_range)
{
    uint32_t word = 0, digit;
    if (*c->at++ != 'x')
        return false;
    const uint8_t *start = c->at;
    for (; c->at < c->end && (digit = digit_value(*c->at)) < 16; c->at++)
        word = word << 4 | digit;
    if (c->at == start || !at_token_end(c))
        return false;
    if (c->at - start > 8)
        *in_range = false;
    *value = (int32_t)word;
    return true;
}

/* A token that is a constant. Out of range, `in_range` is cleared. */
static bool take_constant(struct cursor *c, int32_t *value, bool *in_range)
{
    uint32_t n;
    bool minus = c->at < c->end && *c->at == '-';
    if (minus)
        c->at++;
    if (!take_digits(c, &n) || (minus && n == 0))
        return false;
    if (!at_token_end(c))
        return n == 0 && take_pattern(c, value, in_range);
    if (n > (minus ? 2147483648u : 2147483647u))
        *in_range = false;
    *value = (int32_t)(minus ? 0 - n : n);
    return true;
}

/* Deciding. */

struct epoch {
    uint64_t events;
    bool given[READINGS];
    int32_t values[READINGS]; /* of those that are given */
};

static uint64_t read_epoch(const uint8_t *line, size_t line_length, struct epoch *epoch)
{
    struct cursor c = {line, line + line_length};
    uint64_t events = 0;
    bool in_range = true, twice = false;
    memset(epoch->given, 0, sizeof epoch->given);
    if (line_length > KINOHAZEL_EPOCH_LIMIT)
        return KINOHAZEL_TOO_LONG;
    for (skip_spaces(&c); c.at < c.end; skip_spaces(&c)) {
        uint32_t n;
        uint8_t letter = *c.at++;
        if (letter == 'E') {
            if (!take_digits(&c, &n) || !at_token_end(&c))
                return KINOHAZEL_EPOCH_SYNTAX;
            if (n < EVENTS)
                events |= (uint64_t)1 << n;
            else
                in_range = false;
        } else if (letter == 'R') {
            int32_t value;
            if (!take_digits(&c, &n) || c.at == c.end || *c.at++ != '=' || !take_constant(&c, &value, &in_range))
                return KINOHAZEL_EPOCH_SYNTAX;
            if (n < READINGS) {
                twice |= epoch->given[n];
                epoch->given[n] = true;
                epoch->values[n] = value;
            } else {
                in_range = false;
            }
        } else {
            return KINOHAZEL_EPOCH_SYNTAX;
        }
    }
    epoch->events = events;
    return !in_range ? KINOHAZEL_EPOCH_RANGE : twice ? KINOHAZEL_DUPLICATE_READING : KINOHAZEL_OK;
}

/* Comparisons with a constant and with a reading. One that names a missing reading counts as `missing`: false in a rule, true in a
   never line. The loader has seen to it that the numbers are those of readings. */
static bool constant_holds(const struct epoch *epoch, uint32_t word, uint32_t constant, bool missing)
{
    unsigned n = first_of(word);
    if (!epoch->given[n])
        return missing;
    return relation_holds(relation_of(word), epoch->values[n], value_of(constant));
}

static bool reading_holds(const struct epoch *epoch, uint32_t word, bool missing)
{
    unsigned n = first_of(word), other = second_of(word);
    if (!epoch->given[n] || !epoch->given[other])
        return missing;
    return relation_holds(relation_of(word), epoch->values[n], epoch->values[other]);
}

/* Running words. All up to the end are taken as visited at first, and those that are not are taken off: that takes fewer
   instructions than to count each word. */

/* Behind a test that fails. */
static void pass_over(uint32_t word, size_t *at, uint64_t *visited)
{
    *at += skip_of(word);
    *visited -= skip_of(word);
}

/* What the rule words from `at` up to `end` propose by the kept events of the epoch. */
static uint64_t run_rules(
    const uint8_t *image, size_t at, size_t end, const struct epoch *epoch, uint64_t kept, uint64_t *visited)
{
    uint64_t proposed = 0;
    *visited += end - at;
    while (at < end) {
        uint32_t word = word_at(image, at++);
        switch (operation_of(word)) {
        case PRESENT:
            if (!in_set(kept, first_of(word)))
                pass_over(word, &at, visited);
            break;
        case ABSENT:
            if (in_set(epoch->events, first_of(word)))
                pass_over(word, &at, visited);
            break;
        case AGAINST_CONSTANT: {
            uint32_t constant = word_at(image, at++);
            if (!constant_holds(epoch, word, constant, false))
                pass_over(word, &at, visited);
            break;
        }
        case AGAINST_READING:
            if (!reading_holds(epoch, word, false))
                pass_over(word, &at, visited);
            break;
        case PROPOSE: proposed |= (uint64_t)1 << first_of(word); break;
        }
    }
    return proposed;
}

/* Whether a never line of the words from `at` up to `end` holds on the set. */
static bool is_violated(
    const uint8_t *image, size_t at, size_t end, uint64_t set, const struct epoch *epoch, uint64_t *visited)
{
    *visited += end - at;
    while (at < end) {
        uint32_t word;
        while (operation_of(word = word_at(image, at++)) == MEMBER) {
            if (!in_set(set, first_of(word))) {
                pass_over(word, &at, visited);
                goto next_line;
            }
        }
        for (;; word = word_at(image, at++)) {
            bool held;
            switch (operation_of(word)) {
            case AGAINST_CONSTANT:
                held = constant_holds(epoch, word, word_at(image, at++), true);
                break;
            case AGAINST_READING: held = reading_holds(epoch, word, true); break;
            default: *visited -= end - at; return true;
            }
            if (!held) {
                pass_over(word, &at, visited);
                goto next_line;
            }
        }
    next_line:;
    }
    return false;
}

#endif
