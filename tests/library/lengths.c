/* Calls the functions of include/kinohazel.h with lengths past 16, 31 and 32 bits, and others between. Each is a power of 2 and
   the length of valid bytes, which stand at the start, so that a length cut to fewer bits would be answered otherwise. The areas
   have over 4 GiB, of which few pages are ever used. They can be read to their end, and written at their start alone. */
#define _DEFAULT_SOURCE
#include "../reference/inputs.h"
#include "fill.h"

#include <inttypes.h>
#include <signal.h>
#include <stdlib.h>
#include <string.h>
#include <sys/mman.h>
#include <unistd.h>

enum { START = 1 << 16, LAST_BIT = 32, PAINT = 0x5A };

static unsigned long calls;

static void fail(const char *what, size_t length)
{
    printf("library: lengths: %s, length %lu\n", what, (unsigned long)length);
    exit(1);
}

static void stop(int number)
{
    static const char words[] = "library: lengths: a function wrote behind the start of what was lent\n";
    ssize_t written = write(STDOUT_FILENO, words, sizeof words - 1);
    (void)number;
    _exit(written < 0 ? 2 : 1);
}

static uint8_t *new_area(void)
{
    size_t size = ((size_t)1 << LAST_BIT) + START;
    uint8_t *area = mmap(NULL, size, PROT_READ, MAP_PRIVATE | MAP_ANONYMOUS | MAP_NORESERVE, -1, 0);
    if (area == MAP_FAILED || mprotect(area, START, PROT_READ | PROT_WRITE) != 0)
        fail("no memory can be mapped", size);
    return area;
}

/* These bytes at the start of the area, and zeros behind them. */
static void put(uint8_t *area, const void *bytes, size_t length)
{
    memset(area, 0, START);
    memcpy(area, bytes, length);
}

static void paint(uint8_t *out)
{
    memset(out, PAINT, START);
}

static bool painted(const uint8_t *out, size_t from)
{
    while (from < START && out[from] == PAINT)
        from++;
    return from == START;
}

/* Inputs too long by any power of 2 are refused under this fault, into a short buffer and into a long one. Texts are compiled to every
   form, and images are of any. */
static void try_long(uint8_t *area, uint8_t *out, fill_function *fill, const void *input, size_t size, unsigned first_bit,
    enum kinohazel_fault fault)
{
    size_t length;
    unsigned bit, k;
    put(area, input, size);
    for (bit = first_bit; bit <= LAST_BIT; bit++)
        for (k = 0; k < 4; k++) {
            struct filled answer;
            length = ((size_t)1 << bit) + size;
            paint(out);
            answer = fill(FIRST_FORM + (bit + k / 2) % LAST_FORM, area, length, out, k % 2 == 0 ? KINOHAZEL_IMAGE_LIMIT : length);
            if (answer.fault != (uint64_t)fault || answer.location != 0 || answer.size != 0)
                fail("a text or an image too long is not refused under 1 or 7", length);
            if (!painted(out, 0))
                fail("a refused text or image changed the buffer", length);
            calls++;
        }
}

/* Rooms of any power of 2 and somewhat less than the output are enough for it. */
static void try_rooms(uint8_t *area, uint8_t *out, fill_function *fill, uint64_t form, const void *input, size_t length,
    const void *output, size_t size)
{
    size_t room;
    unsigned bit, k;
    put(area, input, length);
    for (bit = 14; bit <= LAST_BIT; bit++) {
        const size_t more[] = {0, 1, size - 4, size - 1, size, size + 1};
        for (k = 0; k < sizeof more / sizeof *more; k++) {
            struct filled answer;
            room = ((size_t)1 << bit) + more[k];
            paint(out);
            answer = fill(form, area, length, out, room);
            if (answer.fault != KINOHAZEL_OK || answer.location != 0 || answer.size != size)
                fail("a large room is not enough", room);
            if (memcmp(out, output, size) != 0 || !painted(out, size))
                fail("wrong bytes in a large room, or changed ones behind the output", room);
            calls++;
        }
    }
}

/* The functions of each mode. */
static struct kinohazel_decision (*const deciders[2])(
    const uint8_t *, size_t, uint64_t, const uint8_t *, size_t) = {kinohazel_decide, kinohazel_decide_events};
static struct kinohazel_decision (*const steps[2])(
    const uint8_t *, size_t, struct kinohazel_state *, const uint8_t *, size_t) = {kinohazel_step, kinohazel_step_events};

/* Whether a line on an image is refused so in a mode, by the decision and by the step, which leaves the state as it was. */
static bool is_refused(const uint8_t *image, size_t length, const uint8_t *line, size_t line_length, unsigned mode,
    enum kinohazel_fault fault)
{
    const uint64_t pending = UINT64_C(1) << 60 | 2;
    struct kinohazel_state state = {pending};
    struct kinohazel_decision answers[2];
    unsigned i;
    answers[0] = deciders[mode](image, length, pending, line, line_length);
    answers[1] = steps[mode](image, length, &state, line, line_length);
    calls += 2;
    for (i = 0; i < 2; i++)
        if (answers[i].fault != (uint64_t)fault
            || (answers[i].word | answers[i].accepted | answers[i].cancelled | answers[i].triggered | answers[i].visited) != 0)
            return false;
    return state.pending == pending;
}

/* Forms that are known but for any higher bits are refused under 8. */
static void try_forms(uint8_t *area, uint8_t *out)
{
    unsigned bit, k;
    put(area, EXAMPLE, strlen(EXAMPLE));
    for (bit = 3; bit < 64; bit++)
        for (k = 0; k <= LAST_FORM; k++) {
            uint64_t form = ((uint64_t)1 << bit) + k;
            struct kinohazel_compilation answer;
            struct kinohazel_texts_compilation joint;
            paint(out);
            answer = kinohazel_compile(form, area, strlen(EXAMPLE), out, START);
            joint = kinohazel_compile_texts(form, area, strlen(EXAMPLE), area, strlen(EXAMPLE), out, START);
            if (answer.fault != KINOHAZEL_IMAGE_FORM || (answer.line | answer.size) != 0 || joint.fault != KINOHAZEL_IMAGE_FORM
                || (joint.text | joint.line | joint.size) != 0 || !painted(out, 0))
                fail("a form that is not known is not refused under 8", (size_t)form);
            calls += 2;
        }
}

/* Images too long by any power of 2 are refused under 7, whatever the line. */
static void try_images(uint8_t *area, const uint8_t *image, size_t size)
{
    static const char *const lines[] = {"", "E1", "E64"};
    size_t length, i;
    unsigned bit, mode;
    put(area, image, size);
    for (bit = 14; bit <= LAST_BIT; bit++) {
        struct kinohazel_image_check check;
        length = ((size_t)1 << bit) + size;
        check = kinohazel_check(area, length);
        if (check.fault != KINOHAZEL_IMAGE_SIZE || check.word != 0 || check.rules != 0 || check.constraints != 0)
            fail("an image too long is not refused under 7", length);
        calls++;
        for (i = 0; i < sizeof lines / sizeof *lines; i++)
            for (mode = 0; mode < 2; mode++)
                if (!is_refused(area, length, (const uint8_t *)lines[i], strlen(lines[i]), mode, KINOHAZEL_IMAGE_SIZE))
                    fail("a decision on an image too long is not refused under 7", length);
    }
}

/* Lines too long by any power of 2 are refused under 1, unless the image is refused. */
static void try_lines(uint8_t *area, const uint8_t *image, size_t size)
{
    static const char *const lines[] = {"E1", " ", "E64", "R0=1 R0=1"};
    static uint8_t changed[IMAGE_BYTES];
    size_t i, length;
    unsigned bit, k;
    memcpy(changed, image, size);
    changed[size - 1] ^= 1;
    for (i = 0; i < sizeof lines / sizeof *lines; i++)
        for (bit = 10; bit <= LAST_BIT; bit++)
            for (k = 0; k < 4; k++) {
                bool right = k % 2 == 0;
                length = ((size_t)1 << bit) + strlen(lines[i]);
                put(area, lines[i], strlen(lines[i]));
                if (!is_refused(right ? image : changed, size, area, length, k / 2, right ? KINOHAZEL_TOO_LONG : KINOHAZEL_IMAGE_SUM))
                    fail("a line too long is not refused under 1, or before its image", length);
            }
}

/* Two texts, one of them too long by any power of 2, are refused under 1 with the text's number, unless the maker's is refused
   before. */
static void try_long_texts(uint8_t *area, uint8_t *out)
{
    static const char text[] = "E1 causes A2\n", faulty[] = "E64 causes A2\n";
    const size_t size = sizeof text - 1;
    size_t length;
    unsigned bit, k;
    put(area, text, size);
    for (bit = 16; bit <= LAST_BIT; bit++)
        for (k = 0; k < 3; k++) {
            const uint8_t *other = (const uint8_t *)(k < 2 ? text : faulty);
            const uint8_t *maker = k == 0 ? area : other, *site = k == 0 ? other : area;
            uint64_t fault = k < 2 ? KINOHAZEL_TOO_LONG : KINOHAZEL_OUT_OF_RANGE, number = k == 1 ? 2 : 1;
            size_t lengths[2];
            struct kinohazel_texts_compilation answer;
            struct kinohazel_explanation why;
            length = ((size_t)1 << bit) + size;
            lengths[0] = k == 0 ? length : k == 1 ? size : sizeof faulty - 1;
            lengths[1] = k == 0 ? size : length;
            paint(out);
            answer = kinohazel_compile_texts(FIRST_FORM + bit % LAST_FORM, maker, lengths[0], site, lengths[1], out, length);
            why = kinohazel_explain(maker, lengths[0], site, lengths[1], 0, (const uint8_t *)"E1", 2, 2);
            if (answer.fault != fault || answer.text != number || answer.line != (k == 2) || answer.size != 0 || !painted(out, 0))
                fail("of two texts one too long is not refused under 1", length);
            if (why.fault != fault || why.text != number || why.line != (k == 2)
                || (why.outcome | why.part_text | why.part_start | why.part_length) != 0)
                fail("an explanation by two texts, one too long, is not refused under 1", length);
            calls += 2;
        }
}

/* Rooms of any power of 2 and somewhat more are enough for the image of two texts; lines too long by any power of 2 are refused
   under 1, and actions over 63 under 13. */
static void try_two_texts(uint8_t *area, uint8_t *out, uint64_t form)
{
    static const uint8_t maker[] = "E1 causes A2", site[] = "never A2 if R0 > 5\n";
    const size_t lengths[2] = {sizeof maker - 1, sizeof site - 1};
    const struct texts texts = {{maker, lengths[0]}, {site, lengths[1]}};
    static uint8_t image[IMAGE_BYTES];
    size_t size, room;
    unsigned bit;
    compile_texts(form, texts, image, sizeof image, &size);
    put(area, "E1 R0=6", 7);
    for (bit = 6; bit <= LAST_BIT; bit++) {
        struct kinohazel_texts_compilation answer;
        struct kinohazel_explanation why;
        uint64_t action = ((uint64_t)1 << bit) + 2;
        room = ((size_t)1 << bit) + 7;
        paint(out);
        answer = kinohazel_compile_texts(form, maker, lengths[0], site, lengths[1], out, room);
        if (answer.fault != KINOHAZEL_OK || (answer.text | answer.line) != 0 || answer.size != size || memcmp(out, image, size) != 0
            || !painted(out, size))
            fail("a large room is not enough for two texts", room);
        why = kinohazel_explain(maker, lengths[0], site, lengths[1], 0, area, room, 2);
        if (bit >= 10 && (why.fault != KINOHAZEL_TOO_LONG || (why.text | why.outcome | why.part_text | why.part_length) != 0))
            fail("an explanation for a line too long is not refused under 1", room);
        why = kinohazel_explain(maker, lengths[0], site, lengths[1], 0, area, 7, action);
        if (why.fault != KINOHAZEL_EPOCH_RANGE || (why.text | why.outcome | why.part_text | why.part_length) != 0)
            fail("an action over 63 is not refused under 13", room);
        why = kinohazel_explain(maker, lengths[0], site, lengths[1], 0, area, 7, 2);
        if (why.outcome != KINOHAZEL_CANCELLED || why.part_text != 2 || why.part_start != 0 || why.part_length != lengths[1] - 1)
            fail("an action is not explained", room);
        calls += 4;
    }
}

/* A text that is written so, and its image in a form. */
static void try_text(uint8_t *area, uint8_t *out, uint64_t form, const char *text)
{
    static uint8_t image[IMAGE_BYTES];
    size_t size;
    compile(form, (const uint8_t *)text, strlen(text), image, sizeof image, &size);
    try_rooms(area, out, fill_with_image, form, text, strlen(text), image, size);
    try_rooms(area, out, fill_with_text, form, image, size, text, strlen(text));
    try_long(area, out, fill_with_text, image, size, 14, KINOHAZEL_IMAGE_SIZE);
    try_images(area, image, size);
    try_lines(area, image, size);
}

int main(void)
{
    static const char *const texts[] = {"", "E1 causes A2\n", "E64 causes A2\n", "x"};
    uint8_t *area = new_area(), *out = new_area();
    uint64_t form;
    size_t i;
    signal(SIGSEGV, stop);
    signal(SIGBUS, stop);
    for (i = 0; i < sizeof texts / sizeof *texts; i++)
        try_long(area, out, fill_with_image, texts[i], strlen(texts[i]), 16, KINOHAZEL_TOO_LONG);
    try_long_texts(area, out);
    try_forms(area, out);
    for (form = FIRST_FORM; form <= LAST_FORM; form++) {
        try_two_texts(area, out, form);
        try_text(area, out, form, EXAMPLE);
        try_text(area, out, form, form < TRIGGER_FORM ? "" : "E2 triggers E1\n");
    }
    printf("library: %lu calls with lengths up to 2 to the power of %d and more agree\n", calls, LAST_BIT);
    return 0;
}
