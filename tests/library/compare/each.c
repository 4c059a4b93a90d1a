/* Every byte and every number, in texts, images and epoch lines. */
#include "compare.h"

#include <string.h>

void compare_each_byte(struct buffer *input)
{
    static const char causing[] = "E1 & !E2 causes A3 if R0 > 40 , R1 != R15\nE3 causes A4\n# \nnever A3 & A4 if R0 <= -7",
                      triggering[] = "E1 & !E2 triggers E9 if R0 > 40 , R1 != R15\nE3 causes A4\nE9 causes A3\nnever A3 & A4",
                      line[] = "E1 E3 R0=41  R15=-9";
    static uint8_t changed[IMAGE_BYTES];
    static struct subject subject;
    const char *text = current_form < TRIGGER_FORM ? causing : triggering;
    const size_t text_length = strlen(text), line_length = sizeof line - 1;
    const event_set pending = UINT64_C(1) << 9;
    size_t at, size;
    unsigned byte, inserted;
    step = "every byte";
    make_subject(&subject, text, text_length);
    size = subject.size;
    for (byte = 0; byte < 256; byte++) {
        uint8_t one = (uint8_t)byte;
        for (inserted = 0; inserted < 2; inserted++) {
            for (at = 0; at < text_length + inserted; at++) {
                input->length = 0;
                add(input, text);
                splice(input, at, at + !inserted, &one, 1);
                compare_compile(input->bytes, input->length, size + 8);
            }
            for (at = 0; at < line_length + inserted; at++) {
                input->length = 0;
                add(input, line);
                splice(input, at, at + !inserted, &one, 1);
                compare_line_after(&subject, pending, input->bytes, input->length);
            }
        }
        for (at = 0; at < size; at++) {
            memcpy(changed, subject.image, size);
            changed[at] = one;
            compare_check(changed, size);
            put_sum(changed, size / WORD_BYTES);
            compare_check(changed, size);
            put_check_words(changed, size / WORD_BYTES, changed[0]);
            compare_check(changed, size);
            compare_decide(changed, size, pending, (const uint8_t *)line, line_length, NULL);
            compare_text(changed, size, text_length + 8);
        }
    }
}

/* The form with the number for each `$`. */
static void fill_in(struct buffer *to, const char *form, unsigned number)
{
    to->length = 0;
    for (; *form != 0; form++) {
        if (*form == '$')
            add_number(to, (long)number);
        else
            add_byte(to, (unsigned)(uint8_t)*form);
    }
}

void compare_each_number(struct buffer *input, struct buffer *work, struct dice *dice)
{
    static const char *const texts[] = {"E$ & E$ causes A0", "E$ & !E$ causes A0", "!E$ & E0 & !E$ causes A0",
        "never A$ & A$", "never A$ & A0 & A$", "E0 causes A0 if R$ = R$", "E0 causes A0 if R0 >= R$", "E$ causes A$",
        "E70 & !E$ causes A$ if R$ < $", "E1 causes A2\nE1 causes A$\nE$ causes A3\nnever A$ & A2 if R0 = 0\n", "E1 triggers E$",
        "E$ triggers E0\nE0 causes A$", "!E$ triggers E$ if R$ = 0\nE$ causes A1"};
    static const char *const lines[] = {
        "E$", "E1", "E1 R0=1", "E1 E$", "R$=0", "R$=1 E1", "R$=1 R$=1", "R$=1 R0=$", "E$ E$"};
    static struct subject subject;
    unsigned number, i, k;
    step = "every number";
    for (number = 0; number < 70; number++) {
        for (i = 0; i < COUNT(texts); i++) {
            fill_in(input, texts[i], number);
            if (compare_rooms(input->bytes, input->length, dice).fault != FAULT_NONE)
                continue;
            make_subject(&subject, input->bytes, input->length);
            compare_check(subject.image, subject.size);
            compare_text(subject.image, subject.size, WRITTEN_BYTES);
            for (k = 0; k < COUNT(lines); k++) {
                fill_in(work, lines[k], number);
                compare_line(&subject, work->bytes, work->length);
                compare_line_after(&subject, UINT64_C(1) << number % EVENTS, work->bytes, work->length);
            }
        }
        if (number < 64)
            compare_repeated(number, dice);
    }
}
