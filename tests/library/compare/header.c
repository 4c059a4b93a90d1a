/* The header itself: its limits, its faults and their words, and null pointers for areas of length 0. */
#include "compare.h"

#include <string.h>

static void compare_limits(void)
{
    static const int pairs[][2] = {{KINOHAZEL_TEXT_LIMIT, TEXT_BYTES}, {KINOHAZEL_EPOCH_LIMIT, EPOCH_BYTES},
        {KINOHAZEL_NEWEST_FORM, NEWEST_FORM}, {KINOHAZEL_IMAGE_LIMIT, IMAGE_BYTES}, {KINOHAZEL_WRITTEN_TEXT_LIMIT, WRITTEN_BYTES},
        {KINOHAZEL_RULE_LIMIT, RULES}, {KINOHAZEL_CONSTRAINT_LIMIT, CONSTRAINTS},
        {KINOHAZEL_OK, FAULT_NONE}, {KINOHAZEL_TOO_LONG, FAULT_LONG}, {KINOHAZEL_SYNTAX, FAULT_SHAPE},
        {KINOHAZEL_OUT_OF_RANGE, FAULT_RANGE}, {KINOHAZEL_TOO_MANY_PARTS, FAULT_CROWD},
        {KINOHAZEL_TOO_MANY_LINES, FAULT_FULL}, {KINOHAZEL_DUPLICATE, FAULT_REPEAT}, {KINOHAZEL_IMAGE_SIZE, FAULT_SIZE},
        {KINOHAZEL_IMAGE_FORM, FAULT_FORM}, {KINOHAZEL_IMAGE_COUNT, FAULT_COUNT}, {KINOHAZEL_IMAGE_SUM, FAULT_SUM},
        {KINOHAZEL_IMAGE_BODY, FAULT_BODY}, {KINOHAZEL_EPOCH_SYNTAX, FAULT_EPOCH_SHAPE},
        {KINOHAZEL_EPOCH_RANGE, FAULT_EPOCH_RANGE}, {KINOHAZEL_DUPLICATE_READING, FAULT_TWICE},
        {KINOHAZEL_BUFFER_TOO_SMALL, FAULT_ROOM}, {KINOHAZEL_IMAGE_WEIGHTED_SUM, FAULT_WEIGHTED_SUM},
        {KINOHAZEL_UNAVOIDABLE, FAULT_UNAVOIDABLE}, {KINOHAZEL_RESERVED_EVENT, FAULT_RESERVED},
        {KINOHAZEL_NONE, OUTCOME_NONE}, {KINOHAZEL_NOT_PROPOSED, NOT_PROPOSED},
        {KINOHAZEL_ACCEPTED, IS_ACCEPTED}, {KINOHAZEL_CANCELLED, IS_CANCELLED}};
    size_t i;
    for (i = 0; i < COUNT(pairs); i++)
        if (pairs[i][0] != pairs[i][1])
            fail("kinohazel.h", "a limit, a fault or an outcome has another number");
}

/* Each fault has words of its own; header.out has them all. */
static void compare_words(void)
{
    static const uint64_t unknown[] = {FAULTS, 255, 256, UINT64_C(1) << 32, UINT64_C(1) << 32 | 1, UINT64_MAX};
    static char words[FAULTS][100];
    size_t i, k;
    for (i = 0; i < FAULTS; i++) {
        strncpy(words[i], kinohazel_fault_words(i), sizeof words[i] - 1);
        for (k = 0; k < i; k++)
            if (strcmp(words[i], words[k]) == 0)
                fail("kinohazel_fault_words", "two faults have the same words");
        if (words[i][0] == 0 || strcmp(words[i], "unknown fault") == 0)
            fail("kinohazel_fault_words", "a fault has no words");
    }
    for (i = 0; i < COUNT(unknown); i++)
        if (strcmp(kinohazel_fault_words(unknown[i]), "unknown fault") != 0)
            fail("kinohazel_fault_words", "a number that no fault has is not unknown");
    if (strcmp(words[0], "no fault") != 0)
        fail("kinohazel_fault_words", "0 is not no fault");
}

void compare_header(void)
{
    compare_limits();
    compare_words();
}

/* The same for two texts and a line. */
static void compare_texts_nulls(const char *maker, const char *site)
{
    const struct texts texts = {{(const uint8_t *)maker, strlen(maker)}, {(const uint8_t *)site, strlen(site)}};
    compare_texts(texts, 0);
    compare_texts(texts, 7);
    compare_texts(texts, IMAGE_BYTES);
    compare_explain(texts, NULL, 0, NULL, 0, 3);
    compare_explain(texts, NULL, 0, NULL, 0, 64);
    compare_explain(texts, NULL, 2, NULL, 0, 3);
    compare_explain(texts, NULL, 0, (const uint8_t *)"E1", 2, 3);
}

/* Each area of length 0 as null and as another pointer, beside each other area. */
void compare_nulls(void)
{
    static const char *const texts[] = {"", "E1 causes A3\n", "E64 causes A3\n", "x"};
    static uint8_t image[IMAGE_BYTES], changed[IMAGE_BYTES], blanks[TEXT_BYTES + 1];
    size_t i, k, size;
    unsigned which;
    step = "null pointers";
    memset(blanks, ' ', sizeof blanks);
    for (which = 0; which < 16; which++) {
        set_nulls(which);
        for (i = 0; i < COUNT(texts); i++) {
            const uint8_t *text = (const uint8_t *)texts[i];
            compare_compile(text, strlen(texts[i]), 0);
            compare_compile(text, strlen(texts[i]), 7);
            compare_compile(text, strlen(texts[i]), IMAGE_BYTES);
            compile(current_form, text, strlen(texts[i]), image, sizeof image, &size);
            compare_check(image, size);
            compare_text(image, size, 0);
            compare_text(image, size, 7);
            compare_text(image, size, WRITTEN_BYTES);
            compare_decide(image, size, 2, NULL, 0, NULL);
            compare_decide(image, size, 0, (const uint8_t *)"E1", 2, NULL);
            compare_decide(image, size, 2, (const uint8_t *)"E64", 3, NULL);
            compare_decide(image, size, 2, blanks, EPOCH_BYTES + 1, NULL);
            for (k = 0; k < COUNT(texts); k++)
                compare_texts_nulls(texts[i], texts[k]);
            if (size == 0)
                continue;
            memcpy(changed, image, size);
            changed[size - 1] ^= 1;
            compare_text(changed, size, 0);
            compare_decide(changed, size, 2, NULL, 0, NULL);
        }
        compare_compile(blanks, sizeof blanks, 0);
    }
    set_nulls(0);
}
