/* Images that are made otherwise than from a text, and images at the limits. */
#include "lines.h"

#include <string.h>

/* For an image made otherwise than from a text: if it is accepted, its text compiles to it and decides alike. */
static struct verdict compare_image(const uint8_t *image, size_t length, struct buffer *work, struct dice *dice)
{
    static struct policy policy;
    struct verdict verdict = compare_check(image, length);
    struct taste taste = make_taste(dice);
    if (verdict.fault != FAULT_NONE) {
        compare_text(image, length, below(dice, MOST_ROOM + 1));
        if (chance(dice, 200))
            compare_damaged(image, length, dice);
        return verdict;
    }
    compare_written(image, length, work, dice);
    read_text(image[0], work->bytes, work->length, &policy);
    work->length = 0;
    add_epoch(work, dice, &taste);
    compare_decide(image, length, any_pending(dice), work->bytes, work->length, &policy);
    return verdict;
}

/* An image with a weighted word and a faulty line: a wrong weighted word comes before that, and a wrong sum before both. */
static void compare_order(uint8_t *bytes, size_t length, struct dice *dice)
{
    size_t last = length / WORD_BYTES - 1;
    put_word(bytes, last - 1, other_word(dice, word_at(bytes, last - 1)));
    if (compare_check(bytes, length).fault != FAULT_SUM)
        fail_on("reference", "a wrong sum does not come first", bytes, length);
    tally.form_2[SUM_BEFORE_WEIGHT]++;
    put_sum(bytes, last + 1);
    if (compare_check(bytes, length).fault != FAULT_WEIGHTED_SUM)
        fail_on("reference", "a wrong weighted word does not come before a faulty line", bytes, length);
    compare_damaged(bytes, length, dice);
    tally.form_2[WEIGHT_BEFORE_BODY]++;
}

static void compare_flaw(struct dice *dice, bool rule, enum flaw flaw, struct buffer *work)
{
    static uint8_t bytes[DRAFT_BYTES];
    static struct draft draft;
    unsigned limit = rule ? RULES : CONSTRAINTS, before, after, i;
    bool ends_part = flaw == CUT_AT_PART_END || flaw == NO_CONSTANT_AT_PART_END;
    size_t location, length;
    struct verdict verdict;
    before = flaw == TOO_MANY_LINES ? limit : chance(dice, 50) ? limit - 1 : below(dice, 4);
    after = ends_part ? 0 : below(dice, 4);
    draft.count = 1;
    if (!rule) {
        for (i = below(dice, 4); i > 0; i--)
            append(&draft, good_line(dice, true, false));
        draft.rule_words = draft.count - 1;
    }
    for (i = 0; i < before; i++)
        append(&draft, good_line(dice, rule, before > 4));
    location = draft.count;
    append(&draft, flaw == TOO_MANY_LINES ? good_line(dice, rule, true) : flawed_line(dice, rule, flaw));
    for (i = 0; i < after; i++)
        append(&draft, good_line(dice, rule, true));
    if (rule) {
        draft.rule_words = draft.count - 1;
        for (i = below(dice, 4); i > 0; i--)
            append(&draft, good_line(dice, false, false));
    }
    length = finish(&draft, bytes);
    verdict = compare_image(bytes, length, work, dice);
    if (verdict.fault != FAULT_BODY || verdict.location != location)
        fail_on("reference", "a flaw was not found at its location", bytes, length);
    tally.flaws[rule][flaw]++;
    if (current_form != FIRST_FORM)
        compare_order(bytes, length, dice);
}

void compare_flaws(struct dice *dice, struct buffer *work)
{
    int i;
    step = "flaws";
    for (i = 0; i < FLAWS; i++) {
        compare_flaw(dice, false, (enum flaw)i, work);
        if (i != FIRST_UNUSED)
            compare_flaw(dice, true, (enum flaw)i, work);
    }
}

void compare_draft(struct dice *dice, struct buffer *work)
{
    static uint8_t bytes[DRAFT_BYTES];
    static struct draft draft;
    unsigned sort = below(dice, 4), part, i;
    size_t length, one, other;
    uint32_t word;
    draft.count = 1;
    for (part = 0; part < 2; part++) {
        for (i = below(dice, 6); i > 0; i--) {
            if (sort == 0 || chance(dice, sort == 1 ? 20 : 0)) {
                unsigned operation = PRESENT + below(dice, TRIGGER), first = below(dice, 4), skip = below(dice, 4);
                struct fields fields = {.operation = operation, .first = first, .skip = skip};
                fields.relation = chance(dice, 300) ? below(dice, RELATIONS) : 0;
                draft.words[draft.count++] = chance(dice, 300) ? (uint32_t)roll(dice) : pack(fields);
            } else {
                bool odd = chance(dice, 50);
                unsigned heads = odd ? below(dice, 10) : 1 + below(dice, 8), comparisons = below(dice, odd ? 6 : 5);
                append(&draft, make_line(dice, part == 0, heads, comparisons));
            }
        }
        if (part == 0)
            draft.rule_words = draft.count - 1;
    }
    if (sort == 3 && draft.count > 2) { /* some words in each other's place */
        for (i = 1 + below(dice, 3); i > 0; i--) {
            one = 1 + below(dice, (unsigned)draft.count - 1);
            other = 1 + below(dice, (unsigned)draft.count - 1);
            word = draft.words[one];
            draft.words[one] = draft.words[other];
            draft.words[other] = word;
        }
    }
    length = finish(&draft, bytes);
    compare_image(bytes, length, work, dice);
}

void compare_random(struct dice *dice, struct buffer *work)
{
    static uint8_t bytes[IMAGE_BYTES];
    size_t least = 1 + check_words((unsigned)current_form), i;
    size_t count = least + below(dice, chance(dice, 50) ? IMAGE_WORDS - (unsigned)least + 1 : 12);
    struct header header = {.rule_words = below(dice, (unsigned)(count - least) + 1)};
    header.constraint_words = (unsigned)(count - least) - header.rule_words;
    for (i = 0; i < count; i++)
        put_word(bytes, i, (uint32_t)roll(dice));
    if (chance(dice, 950))
        bytes[0] = (uint8_t)current_form;
    header.form = bytes[0];
    if (chance(dice, 900))
        put_word(bytes, 0, pack_header(header));
    if (chance(dice, 950))
        put_check_words(bytes, count, header.form);
    else if (chance(dice, 500))
        put_sum(bytes, count);
    compare_image(bytes, WORD_BYTES * count, work, dice);
}

/* Images of at most 16 bytes. */
static void compare_least(uint8_t *bytes, struct dice *dice)
{
    size_t length, i, k;
    for (length = 0; length <= 4 * WORD_BYTES; length++)
        for (i = 0; i < 40; i++) {
            struct header header = {(unsigned)current_form, i % 2, i / 2 % 2};
            for (k = 0; k < length; k++)
                bytes[k] = i == 0 ? 0 : i == 1 ? 255 : (uint8_t)roll(dice);
            if (length >= WORD_BYTES && i > 4)
                put_word(bytes, 0, pack_header(header));
            if (length >= WORD_BYTES && i > 20)
                put_check_words(bytes, length / WORD_BYTES, header.form);
            else if (length >= WORD_BYTES && i > 10)
                put_sum(bytes, length / WORD_BYTES);
            compare_check(bytes, length);
            compare_damaged(bytes, length, dice);
        }
}

/* Every form, of two words and of three: alone, and with wrong counts, a wrong sum, a wrong size; and with the weighted word
   wrong. */
static void compare_forms(uint8_t *bytes, struct dice *dice)
{
    unsigned form, i, words;
    for (form = 0; form < 256; form++)
        for (words = 2; words <= 3; words++)
            for (i = 0; i < 5; i++) {
                struct header header = {form, 0, i == 1};
                size_t length = WORD_BYTES * words + (i == 3 ? 2 : 0);
                put_word(bytes, 0, pack_header(header));
                put_check_words(bytes, words, form);
                if (i == 2)
                    put_word(bytes, words - 1, 0);
                if (i == 4) {
                    put_word(bytes, words - 2, word_at(bytes, words - 2) + 1);
                    put_sum(bytes, words);
                }
                compare_check(bytes, length);
                compare_damaged(bytes, length, dice);
            }
}

/* The image of the README's example, and that of the empty text, in forms 1 to 3, and a line that triggers an event in forms 3
   and 5. */
static void compare_worked(void)
{
    static const uint32_t words[] = {0x01007003, 0x10400004, 0x20800003, 0x30008001, 0x00000028, 0x50C00000, 0x10C00001, 0x51000000,
        0x60C00002, 0x61000001, 0x70000000, 0xB9FF0FC9};
    static const uint32_t of_form_2[] = {0x02007003, 0x10400004, 0x20800003, 0x30008001, 0x00000028, 0x50C00000, 0x10C00001,
        0x51000000, 0x60C00002, 0x61000001, 0x70000000, 0x26827103, 0x927C9EC6};
    static const uint32_t of_form_3[] = {0x03007003, 0x10400004, 0x20800003, 0x30008001, 0x00000028, 0x50C00000, 0x10C00001,
        0x51000000, 0x60C00002, 0x61000001, 0x70000000, 0x27827103, 0x907C9EC6};
    static const uint32_t empty[] = {0x01000000, 0xFF000000}, empty_of_form_2[] = {0x02000000, 0x02000000, 0xFC000000},
                          empty_of_form_3[] = {0x03000000, 0x03000000, 0xFA000000};
    static const uint32_t trigger[] = {0x03005000, 0x10400004, 0x10800003, 0x30008001, 0x00000005, 0x8F000000, 0x6F02502E, 0xAE3CDFC5},
                          trigger_of_form_5[] = {
                              0x05005000, 0x10400004, 0x10800003, 0x30008001, 0x00000005, 0x8F000000, 0x7102502E, 0xAA3CDFC5};
    const struct {
        uint64_t form;
        const char *text;
        const uint32_t *words;
        size_t count;
    } cases[] = {{1, EXAMPLE, words, COUNT(words)}, {2, EXAMPLE, of_form_2, COUNT(of_form_2)},
        {3, EXAMPLE, of_form_3, COUNT(of_form_3)}, {1, "", empty, COUNT(empty)}, {2, "", empty_of_form_2, COUNT(empty_of_form_2)},
        {3, "", empty_of_form_3, COUNT(empty_of_form_3)}, {3, "E1 & E2 triggers E60 if R0 > 5\n", trigger, COUNT(trigger)},
        {5, "E1 & E2 triggers E60 if R0 > 5", trigger_of_form_5, COUNT(trigger_of_form_5)}};
    static uint8_t image[IMAGE_BYTES];
    size_t i, k;
    for (i = 0; i < COUNT(cases); i++) {
        const uint8_t *text = (const uint8_t *)cases[i].text;
        size_t length = strlen(cases[i].text);
        if (kinohazel_compile(cases[i].form, text, length, image, sizeof image).size != WORD_BYTES * cases[i].count)
            fail("kinohazel_compile", "a worked image has another size");
        for (k = 0; k < cases[i].count; k++)
            if (word_at(image, k) != cases[i].words[k])
                fail("kinohazel_compile", "a worked image has another word");
        compare_check(image, WORD_BYTES * cases[i].count);
    }
    for (i = 0; i < 2; i++) { /* of the example in form 2 words 0 and 1 exchanged, and words 5 and 6 */
        size_t one = i == 0 ? 0 : 5, count = COUNT(of_form_2);
        for (k = 0; k < count; k++)
            put_word(image, k, of_form_2[k == one ? one + 1 : k == one + 1 ? one : k]);
        if (compare_check(image, WORD_BYTES * count).fault != (i == 0 ? FAULT_FORM : FAULT_WEIGHTED_SUM))
            fail("reference", "exchanged words of the worked image are not refused under 8 and 16");
    }
    put_word(image, 0, 0x02000000);
    put_word(image, 1, 0xFE000000);
    if (compare_check(image, 2 * WORD_BYTES).fault != FAULT_COUNT)
        fail("reference", "form 2 without its weighted word is not refused under 9");
}

/* Counts about the limits, with words too few, as many as there have to be in the form, and too many. */
static void compare_counts(uint8_t *bytes)
{
    static const unsigned counts[] = {0, 1, 2, 1086, 1087, 1088, 1089, 1090, 2174, 2175, 2176, 2177, 2178, 3264, 4095};
    size_t i, k, words;
    for (i = 0; i < COUNT(counts); i++)
        for (k = 0; k < COUNT(counts); k++)
            for (words = counts[i] + counts[k] + 1; words <= counts[i] + counts[k] + 4; words++) {
                struct header header = {(unsigned)current_form, counts[i], counts[k]};
                memset(bytes, 0, WORD_BYTES * words);
                put_word(bytes, 0, pack_header(header));
                put_check_words(bytes, words, header.form);
                compare_check(bytes, WORD_BYTES * words);
            }
}

/* 127 to 130 rules, 63 to 66 constraints. */
static void compare_line_counts(uint8_t *bytes, struct dice *dice)
{
    static struct draft draft;
    unsigned i, k, rules, constraints;
    for (i = 0; i < 4; i++)
        for (k = 0; k < 4; k++) {
            draft.count = 1;
            for (rules = RULES - 1 + i; rules > 0; rules--)
                append(&draft, good_line(dice, true, true));
            draft.rule_words = draft.count - 1;
            for (constraints = CONSTRAINTS - 1 + k; constraints > 0; constraints--)
                append(&draft, good_line(dice, false, true));
            compare_check(bytes, finish(&draft, bytes));
        }
}

/* The largest image, and as many bytes as it has, or some more. */
static void compare_largest(uint8_t *bytes, struct buffer *input, struct dice *dice)
{
    struct header header = {(unsigned)current_form, RULE_WORDS, CONSTRAINT_WORDS};
    size_t i, length;
    input->length = 0;
    add_largest(input);
    compile(current_form, input->bytes, input->length, bytes, IMAGE_BYTES, &length);
    if (length != (current_form == FIRST_FORM ? 13064 : 13068) || IMAGE_BYTES != 13068)
        fail("reference", "the largest images have not 13,064 and 13,068 bytes");
    memset(bytes + length, 0, 100);
    for (i = length - 9; i < length + 100; i++) {
        compare_check(bytes, i);
        compare_damaged(bytes, i, dice);
    }
    for (i = IMAGE_WORDS - 1; i <= IMAGE_WORDS + 1; i++) { /* with as many rule words as these have */
        header.rule_words = (unsigned)i - 1 - CONSTRAINT_WORDS - check_words(header.form);
        put_word(bytes, 0, pack_header(header));
        put_check_words(bytes, i, header.form);
        if ((compare_check(bytes, WORD_BYTES * i).fault == FAULT_SIZE) != (WORD_BYTES * i > 13068))
            fail("reference", "the limit of an image is not 13,068 bytes");
    }
    compare_check(bytes, ROOM);
}

void compare_limit_images(struct buffer *input, struct buffer *work, struct dice *dice)
{
    step = "images at the limits";
    compare_worked();
    compare_check(NULL, 0);
    compare_least(work->bytes, dice);
    compare_forms(work->bytes, dice);
    compare_counts(work->bytes);
    compare_line_counts(work->bytes, dice);
    compare_largest(work->bytes, input, dice);
}

static void set_first(struct line *line, size_t at, unsigned number)
{
    struct fields fields = unpack(line->words[at]);
    fields.first = number;
    line->words[at] = pack(fields);
}

void compare_repeated(unsigned number, struct dice *dice)
{
    static uint8_t bytes[WORD_BYTES * (1 + LINE_WORDS + CHECK_WORDS)];
    static struct draft draft;
    unsigned i;
    for (i = 0; i < 8; i++) {
        struct line line = make_line(dice, i < 4, i % 4 == 0 ? 2 : 8, i % 4);
        set_first(&line, 0, number);
        set_first(&line, i % 4 == 0 ? 1 : 1 + below(dice, 7), number);
        draft.count = 1;
        append(&draft, line);
        draft.rule_words = i < 4 ? draft.count - 1 : 0;
        if (compare_check(bytes, finish(&draft, bytes)).fault != FAULT_BODY)
            fail("reference", "a repeated number was taken");
    }
}
