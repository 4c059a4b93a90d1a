/* The functions of include/kinohazel.h that fill a buffer, with one type. The form counts for images alone. */
#ifndef FILL_H
#define FILL_H

#include "kinohazel.h"

struct filled {
    uint64_t fault, location, size;
};

typedef struct filled fill_function(uint64_t form, const uint8_t *input, size_t length, uint8_t *out, size_t room);

static inline struct filled fill_with_image(uint64_t form, const uint8_t *text, size_t length, uint8_t *out, size_t room)
{
    struct kinohazel_compilation answer = kinohazel_compile(form, text, length, out, room);
    struct filled filled = {answer.fault, answer.line, answer.size};
    return filled;
}

static inline struct filled fill_with_text(uint64_t form, const uint8_t *image, size_t length, uint8_t *out, size_t room)
{
    struct kinohazel_text_written answer = kinohazel_text(image, length, out, room);
    struct filled filled = {answer.fault, answer.word, answer.size};
    (void)form;
    return filled;
}

#endif
