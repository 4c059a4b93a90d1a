/* Rule texts, and buffers of several lengths. */
#include "compare.h"

#include <string.h>

struct verdict compare_filler_rooms(const struct filler *filler, const uint8_t *input, size_t length, struct dice *dice)
{
    static uint8_t output[OUT_BYTES];
    size_t size;
    struct verdict verdict = filler->reference(current_form, input, length, output, sizeof output, &size);
    compare_filler(filler, input, length, filler->limit);
    compare_filler(filler, input, length, 0);
    compare_filler(filler, input, length, below(dice, MOST_ROOM + 1));
    if (verdict.fault != FAULT_NONE)
        return verdict;
    compare_filler(filler, input, length, size);
    compare_filler(filler, input, length, size + 1);
    compare_filler(filler, input, length, MOST_ROOM);
    if (size == 0)
        return verdict;
    compare_filler(filler, input, length, size - 1);
    compare_filler(filler, input, length, below(dice, (unsigned)size));
    compare_filler(filler, input, length, chance(dice, 500) ? size - WORD_BYTES : WORD_BYTES);
    return verdict;
}

struct verdict compare_rooms(const uint8_t *text, size_t length, struct dice *dice)
{
    compare_beside_empty(text, length);
    return compare_filler_rooms(&compiling, text, length, dice);
}

void compare_limit_texts(struct buffer *input, struct dice *dice)
{
    size_t i;
    step = "texts at the limits";
    for (i = 0; i < 16; i++)
        compare_compile(NULL, 0, i);
    input->length = 0;
    add_largest(input);
    compare_rooms(input->bytes, input->length, dice);
    for (i = 0; i < 8; i++) { /* 127 to 130 rules, 63 to 66 constraints */
        input->length = 0;
        add_times(input, i < 4 ? "E0 causes A0\n" : "never A0\n", (i < 4 ? RULES : CONSTRAINTS) - 1 + (unsigned)i % 4);
        compare_rooms(input->bytes, input->length, dice);
    }
    input->length = 0; /* lines that trigger count among the rules */
    add_times(input, "E0 causes A0\nE1 triggers E2\n", RULES / 2);
    compare_rooms(input->bytes, input->length, dice);
    add(input, "E1 triggers E2\n");
    compare_rooms(input->bytes, input->length, dice);
    for (i = 0; i < FAULTY_LINES + 2; i++) { /* the other faults of a line come before 5 */
        input->length = 0;
        add_times(input, "E0 causes A0\n", RULES);
        add_times(input, "never A0\n", CONSTRAINTS);
        add(input, i < FAULTY_LINES ? faulty_lines[i] : i == FAULTY_LINES ? "E0 causes A0" : "never A0");
        compare_rooms(input->bytes, input->length, dice);
    }
    for (i = TEXT_BYTES - 2; i <= TEXT_BYTES + 4; i++) {
        input->length = 0;
        add_length(input, i, i % 2 == 0);
        compare_rooms(input->bytes, input->length, dice);
        memcpy(input->bytes, "E64", 3);
        compare_rooms(input->bytes, input->length, dice);
    }
    input->length = 0;
    add_length(input, ROOM, true);
    compare_rooms(input->bytes, input->length, dice);
    input->length = 0;
    add_longest_line(input);
    compare_rooms(input->bytes, input->length, dice);
    input->length = 0;
    add_most_lines(input);
    compare_rooms(input->bytes, input->length, dice);
}

void compare_unknown_forms(struct buffer *input, struct dice *dice)
{
    static const uint64_t unknown[] = {0, 6, 7, 8, 255, 256, 257, 258, 259, 261, 65537, 65539, UINT64_C(1) << 32,
        (UINT64_C(1) << 32) + 1, (UINT64_C(1) << 32) + 2, (UINT64_C(1) << 32) + 3, UINT64_C(1) << 63 | 1, UINT64_MAX};
    static const char *const texts[] = {"", EXAMPLE, "x", "E64 causes A0\n"};
    const struct texts none = {{NULL, 0}, {NULL, 0}};
    uint64_t known = current_form;
    size_t i, k;
    step = "unknown forms";
    for (i = 0; i < COUNT(unknown); i++) {
        current_form = unknown[i];
        if (compare_compile(NULL, 0, 0).fault != FAULT_FORM || compare_texts(none, 0).fault != FAULT_FORM)
            fail("reference", "an unknown form is not refused");
        for (k = 0; k < COUNT(texts) + 2; k++) {
            input->length = 0;
            if (k < COUNT(texts))
                add(input, texts[k]);
            else
                add_length(input, TEXT_BYTES + (k == COUNT(texts)), true); /* too long, and as long as a text may be */
            if (compare_rooms(input->bytes, input->length, dice).fault != FAULT_FORM
                || compare_texts(texts_of(input, input), IMAGE_BYTES).fault != FAULT_FORM)
                fail("reference", "an unknown form is not refused before the text");
        }
    }
    current_form = known;
}
