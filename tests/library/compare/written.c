/* Texts written from images. */
#include "compare.h"

#include <string.h>

/* The text of an image by the library, in `text`; its length is returned. */
static size_t text_of(const uint8_t *image, size_t length, uint8_t text[WRITTEN_BYTES])
{
    struct kinohazel_text_written answer = kinohazel_text(image, length, text, WRITTEN_BYTES);
    if (answer.fault != KINOHAZEL_OK)
        fail_on("kinohazel_text", "an image that is accepted has no text", image, length);
    return (size_t)answer.size;
}

static void compile_again(const uint8_t *text, size_t text_length, const uint8_t *image, size_t length)
{
    static uint8_t again[IMAGE_BYTES];
    if (kinohazel_compile(image[0], text, text_length, again, sizeof again).size != length || !same(again, image, length))
        fail_on("kinohazel_compile", "the text of an image does not compile to it in its form", text, text_length);
}

void compare_written(const uint8_t *image, size_t length, struct buffer *work, struct dice *dice)
{
    static uint8_t text[WRITTEN_BYTES], other[WRITTEN_BYTES], again[IMAGE_BYTES];
    size_t size;
    uint64_t form;
    compare_filler_rooms(&writing, image, length, dice);
    size = text_of(image, length, text);
    compile_again(text, size, image, length);
    work->length = 0;
    add_variant(work, text, size, dice);
    compare_compile(work->bytes, work->length, length);
    compile_again(work->bytes, work->length, image, length);
    for (form = image[0] < TRIGGER_FORM ? FIRST_FORM : TRIGGER_FORM; form <= LAST_FORM; form++) {
        size_t again_size = (size_t)kinohazel_compile(form, work->bytes, work->length, again, sizeof again).size;
        if (text_of(again, again_size, other) != size || !same(other, text, size))
            fail_on("kinohazel_text", "texts with the same lines give two texts", work->bytes, work->length);
    }
    tally.written++;
    tally.empty += size == 0;
    tally.longest += size == WRITTEN_BYTES;
}

void compare_limit_written(struct buffer *input, struct buffer *work, struct dice *dice)
{
    static const char *const texts[] = {"", EXAMPLE, "never A0\n", "E0 causes A0\n",
        "!E9 & E10 causes A63 if R9 = 0 , R10 != -1 , R0 < R15 , R1 >= 10\n",
        "E0 causes A0 if R0 = 2147483647 , R0 = -2147483648 , R0 > 999999999 , R0 <= 1000000000\n"};
    static struct subject subject;
    size_t i;
    step = "written texts at the limits";
    for (i = 0; i < COUNT(texts) + 3; i++) {
        input->length = 0;
        if (i < COUNT(texts))
            add(input, texts[i]);
        else if (i == COUNT(texts))
            add_largest(input);
        else if (i == COUNT(texts) + 1) /* in every form */
            add_widest(input, FIRST_FORM);
        else
            add_widest(input, current_form);
        make_subject(&subject, input->bytes, input->length);
        compare_written(subject.image, subject.size, work, dice);
    }
    if (subject.size != (current_form == FIRST_FORM ? 13064 : 13068) || IMAGE_BYTES != 13068 || WRITTEN_BYTES != 28224
        || input->length != (current_form < TRIGGER_FORM ? 27968 : 28224))
        fail("reference", "the widest text has not the largest image, or the longest text not 28,224 bytes");
}
