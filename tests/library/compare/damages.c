/* Images that accepted texts compile to, with damages. */
#include "compare.h"

#include <string.h>

uint32_t other_word(struct dice *dice, uint32_t word)
{
    uint32_t other;
    switch (below(dice, 8)) {
    case 0: other = word ^ UINT32_C(1) << below(dice, 32); break;
    case 1: other = word + 1; break;
    case 2: other = word - 1; break;
    case 3: other = 0; break;
    case 4: other = 0 - word; break;
    case 5: other = word << 24 | (word & 0xFF00) << 8 | (word >> 8 & 0xFF00) | word >> 24; break;
    default: other = (uint32_t)roll(dice); break;
    }
    return other == word ? ~word : other;
}

void compare_damaged(const uint8_t *image, size_t length, struct dice *dice)
{
    static const char *const lines[] = {"", "E1", "E0 E1 E2 E3 R0=41", "x", "E64", "R0=1 R0=1"};
    static const size_t rooms[] = {0, 1, 100, WRITTEN_BYTES, MOST_ROOM};
    static uint8_t blanks[EPOCH_BYTES + 1];
    const char *line = CHOOSE(dice, lines);
    if (chance(dice, 100))
        compare_decide(image, length, any_pending(dice), memset(blanks, ' ', sizeof blanks), sizeof blanks, NULL);
    else
        compare_decide(image, length, any_pending(dice), (const uint8_t *)line, strlen(line), NULL);
    compare_text(image, length, CHOOSE(dice, rooms));
}

/* The check of a damaged image, and in `per_mille` of 1000 cases a decision on it and its text. */
static struct verdict compare_check_damaged(const uint8_t *image, size_t length, struct dice *dice, unsigned per_mille)
{
    struct verdict verdict = compare_check(image, length);
    if (chance(dice, per_mille))
        compare_damaged(image, length, dice);
    return verdict;
}

/* Each damage is taken back, so that the image is the original again. */

/* One word was changed. */
static void expect_frame_fault(const uint8_t *image, size_t length, struct dice *dice, unsigned per_mille)
{
    struct verdict verdict = compare_check_damaged(image, length, dice, per_mille);
    if (verdict.fault < FAULT_SIZE || verdict.fault > FAULT_SUM)
        fail_on("kinohazel_check", "one changed word was not refused under 7 to 10", image, length);
}

static void change_words(uint8_t *image, size_t length, struct dice *dice, unsigned share)
{
    size_t i;
    step = "one word changed";
    for (i = 0; i < length / WORD_BYTES; i++)
        if (chance(dice, share)) {
            uint32_t old = word_at(image, i);
            put_word(image, i, other_word(dice, old));
            expect_frame_fault(image, length, dice, 250);
            put_word(image, i, old);
        }
}

static void change_form(uint8_t *image, size_t length, struct dice *dice)
{
    uint8_t old = image[0];
    unsigned form;
    step = "the form changed";
    for (form = 0; form < 256; form++)
        if (form != old) {
            image[0] = (uint8_t)form;
            expect_frame_fault(image, length, dice, 50);
        }
    image[0] = old;
}

static void flip_bits(uint8_t *image, size_t length, struct dice *dice, unsigned share)
{
    size_t i;
    step = "one bit flipped";
    for (i = 0; i < length * 8; i++)
        if (chance(dice, share / 10)) {
            image[i / 8] ^= (uint8_t)(1 << i % 8);
            compare_check_damaged(image, length, dice, 100);
            image[i / 8] ^= (uint8_t)(1 << i % 8);
        }
}

/* Words `i` and `i + 1` were exchanged in a form with a weighted word. Nothing is said of the last word before the check words and
   the weighted one. */
static void expect_swap_fault(const uint8_t *image, size_t length, size_t i, struct verdict verdict)
{
    size_t weighted = length / WORD_BYTES - CHECK_WORDS;
    enum damage_of_form_2 damage = i == weighted ? SWAP_OF_CHECK_WORDS : i == 0 ? SWAP_AT_START : SWAP_BEHIND;
    if (i + 1 == weighted || word_at(image, i) == word_at(image, i + 1))
        return;
    if (verdict.fault != (damage == SWAP_AT_START ? FAULT_FORM : FAULT_WEIGHTED_SUM) || verdict.location != 0)
        fail_on("kinohazel_check", "exchanged words are not refused under 8 or 16", image, length);
    tally.form_2[damage]++;
}

static void exchange_words(uint8_t *image, size_t length, struct dice *dice, unsigned share)
{
    size_t i;
    step = "neighbouring words exchanged";
    for (i = 0; i + 1 < length / WORD_BYTES; i++)
        if (chance(dice, share)) {
            uint32_t first = word_at(image, i), second = word_at(image, i + 1);
            struct verdict verdict;
            put_word(image, i, second);
            put_word(image, i + 1, first);
            verdict = compare_check_damaged(image, length, dice, 100);
            if (current_form != FIRST_FORM)
                expect_swap_fault(image, length, i, verdict);
            put_word(image, i, first);
            put_word(image, i + 1, second);
        }
}

/* The sum alone, by which the weighted word is mostly wrong, or all check words. */
static void mend(uint8_t *image, size_t length, struct dice *dice)
{
    if (chance(dice, 300))
        put_sum(image, length / WORD_BYTES);
    else
        put_check_words(image, length / WORD_BYTES, (unsigned)current_form);
}

static void change_and_mend(uint8_t *image, size_t length, struct dice *dice, unsigned share)
{
    uint8_t last[CHECK_WORDS * WORD_BYTES], *at = image + length - sizeof last;
    size_t i;
    step = "one word changed and the check words mended";
    memcpy(last, at, sizeof last);
    for (i = 0; i + 1 < length / WORD_BYTES; i++)
        if (chance(dice, share)) {
            uint32_t old = word_at(image, i);
            put_word(image, i, other_word(dice, old));
            mend(image, length, dice);
            compare_check_damaged(image, length, dice, 100);
            put_word(image, i, old);
            memcpy(at, last, sizeof last);
        }
}

enum { MORE = 16 }; /* bytes behind the image */

static void change_length(uint8_t *image, size_t length, struct dice *dice, unsigned share)
{
    size_t i, more;
    step = "length cut or extended";
    for (i = 0; i < length; i++)
        if (i < 13 || length - i < 10 || chance(dice, share / 10))
            compare_check_damaged(image, i, dice, 50);
    for (more = 1; more <= MORE; more++) {
        memset(image + length, 0, MORE);
        compare_check(image, length + more);
        for (i = 0; i < more; i++)
            image[length + i] = (uint8_t)roll(dice);
        compare_check(image, length + more);
    }
}

/* Up to three words are taken out of the body. */
static void take_out(uint8_t *image, size_t length, struct dice *dice)
{
    size_t count = length / WORD_BYTES, behind = count - check_words((unsigned)current_form);
    size_t from = 1 + below(dice, (unsigned)behind - 1), gone = 1 + below(dice, 3);
    struct header header = unpack_header(word_at(image, 0));
    unsigned *part = from <= header.rule_words ? &header.rule_words : &header.constraint_words;
    gone = from + gone <= behind ? gone : behind - from;
    memmove(image + WORD_BYTES * from, image + WORD_BYTES * (from + gone), length - WORD_BYTES * (from + gone));
    *part -= (unsigned)(gone < *part ? gone : *part);
    put_word(image, 0, pack_header(header));
    put_check_words(image, count - gone, (unsigned)current_form);
    compare_check(image, length - WORD_BYTES * gone);
}

/* The border between rules and constraints is moved. */
static void move_border(uint8_t *image, size_t length, struct dice *dice)
{
    struct header header = unpack_header(word_at(image, 0));
    unsigned both = header.rule_words + header.constraint_words, rules = header.rule_words;
    rules = chance(dice, 500) ? below(dice, both + 1) : rules + 1 + below(dice, 6) - 3;
    header.rule_words = rules > both ? both : rules;
    header.constraint_words = both - header.rule_words;
    put_word(image, 0, pack_header(header));
    put_check_words(image, length / WORD_BYTES, (unsigned)current_form);
    compare_check(image, length);
    compare_damaged(image, length, dice);
}

/* So that one fault comes before another. */
static void damage_several(uint8_t *image, size_t length, struct dice *dice)
{
    size_t size = length, bit = 8 + below(dice, 24);
    uint32_t word = (uint32_t)roll(dice);
    memset(image + length, 0, MORE);
    if (chance(dice, 600))
        put_word(image, below(dice, (unsigned)(length / WORD_BYTES)), word);
    if (chance(dice, 400)) /* in the counts */
        image[bit / 8] ^= (uint8_t)(1 << bit % 8);
    if (chance(dice, 250))
        image[0] = (uint8_t)below(dice, LAST_FORM + 2);
    if (chance(dice, 300))
        size = length + below(dice, 12) - 4;
    if (chance(dice, 700))
        mend(image, size, dice);
    compare_check(image, size);
    compare_damaged(image, size, dice);
}

void damage_image(const uint8_t *original, size_t length, struct dice *dice, unsigned share)
{
    static uint8_t image[IMAGE_BYTES + MORE];
    unsigned i;
    memcpy(image, original, length);
    change_words(image, length, dice, share);
    change_form(image, length, dice);
    flip_bits(image, length, dice, share);
    exchange_words(image, length, dice, share);
    change_and_mend(image, length, dice, share);
    change_length(image, length, dice, share);
    step = "words taken out or put in, the header and the check words mended";
    for (i = 0; i < 12; i++) {
        memcpy(image, original, length);
        if (length > (1 + check_words((unsigned)current_form)) * WORD_BYTES && chance(dice, 600))
            take_out(image, length, dice);
        else
            move_border(image, length, dice);
    }
    step = "several damages";
    for (i = 0; i < 12; i++) {
        memcpy(image, original, length);
        damage_several(image, length, dice);
    }
}
