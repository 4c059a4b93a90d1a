/* Constants in hexadecimal, in texts and as values in epoch lines. */
#include "compare.h"

#include <string.h>

/* What a constant is, and the faults of a text and of an epoch line that have it. */
enum meaning { A_WORD, WRONG_SHAPE, OUT_OF_RANGE };

static const enum fault text_faults[] = {[A_WORD] = FAULT_NONE, [WRONG_SHAPE] = FAULT_SHAPE, [OUT_OF_RANGE] = FAULT_RANGE};
static const enum fault line_faults[] = {
    [A_WORD] = FAULT_NONE, [WRONG_SHAPE] = FAULT_EPOCH_SHAPE, [OUT_OF_RANGE] = FAULT_EPOCH_RANGE};

static const char text_start[] = "E0 causes A1 if R2 = ", line_start[] = "E0 R2=";

static void join(struct buffer *to, const char *start, const struct buffer *constant)
{
    to->length = 0;
    add(to, start);
    add_bytes(to, constant->bytes, constant->length);
}

/* The image of a text by the library; its length is returned. */
static size_t image_of(const struct buffer *text, uint8_t image[IMAGE_BYTES])
{
    struct kinohazel_compilation answer = kinohazel_compile(current_form, text->bytes, text->length, image, IMAGE_BYTES);
    if (answer.fault != KINOHAZEL_OK)
        fail_on("kinohazel_compile", "a text is refused", text->bytes, text->length);
    return (size_t)answer.size;
}

/* A constant in a text. If it is a word, the image is that of the text with the decimal constant. */
static void compare_in_text(const struct buffer *constant, enum meaning meaning, const struct buffer *decimal, struct buffer *work)
{
    static uint8_t image[IMAGE_BYTES], other[IMAGE_BYTES];
    enum fault fault;
    size_t size;
    join(work, text_start, constant);
    fault = work->length > TEXT_BYTES ? FAULT_LONG : text_faults[meaning];
    if (compare_compile(work->bytes, work->length, IMAGE_BYTES).fault != fault)
        fail_on("reference", "not the fault that the test names", work->bytes, work->length);
    if (fault != FAULT_NONE)
        return;
    size = image_of(work, image);
    if (image_of(decimal, other) != size || !same(image, other, size))
        fail_on("kinohazel_compile", "not the image of the text with the decimal constant", work->bytes, work->length);
}

/* A constant as a value. If it is a word, the text with the decimal constant has its action proposed. */
static void compare_in_line(const struct buffer *constant, enum meaning meaning, const struct buffer *decimal, struct buffer *work)
{
    static struct subject subject;
    struct decision decision;
    make_subject(&subject, decimal->bytes, decimal->length);
    join(work, line_start, constant);
    decision = compare_line(&subject, work->bytes, work->length);
    if (decision.verdict.fault != (work->length > EPOCH_BYTES ? FAULT_LONG : line_faults[meaning]))
        fail_on("reference", "not the fault that the test names", work->bytes, work->length);
    if (decision.verdict.fault == FAULT_NONE && decision.accepted != UINT64_C(1) << 1)
        fail_on("reference", "not the value of the decimal constant", work->bytes, work->length);
}

static void compare_constant(const struct buffer *constant, enum meaning meaning, uint32_t word, struct buffer *work)
{
    char text[sizeof text_start + 11];
    struct buffer decimal = {(uint8_t *)text, (size_t)sprintf(text, "%s%ld", text_start, (long)value_of(word))};
    compare_in_text(constant, meaning, &decimal, work);
    compare_in_line(constant, meaning, &decimal, work);
}

/* Strings of digits of every length up to 40, and about as long as a line and a text may be; then with `G` behind them. Over eight
   digits are out of range whatever their value. */
static void compare_lengths(struct buffer *constant, struct buffer *work)
{
    static const struct {
        const char *first, *middle, *last;
    } strings[] = {{"0", "0", "0"}, {"0", "0", "1"}, {"1", "0", "0"}, {"F", "F", "F"}, {"f", "f", "f"}, {"8", "0", "0"},
        {"7", "f", "F"}};
    size_t i, count;
    step = "lengths of hexadecimal constants";
    for (i = 0; i < COUNT(strings); i++)
        for (count = 0; count <= TEXT_BYTES; count += count == 40 ? 960 : count == 1030 ? 31700 : 1) {
            uint32_t word = 0;
            size_t k;
            constant->length = 0;
            add(constant, "0x");
            for (k = 0; k < count; k++) {
                const char *digit = k + 1 == count ? strings[i].last : k == 0 ? strings[i].first : strings[i].middle;
                add(constant, digit);
                word = word << 4 | (*digit == 'F' || *digit == 'f' ? 15u : (unsigned)(*digit - '0'));
            }
            compare_constant(constant, count == 0 ? WRONG_SHAPE : count > 8 ? OUT_OF_RANGE : A_WORD, word, work);
            add(constant, "G");
            compare_constant(constant, WRONG_SHAPE, 0, work);
        }
}

/* Every digit of either case at each of eight places. */
static void compare_each_digit(struct buffer *constant, struct buffer *work)
{
    static const char digits[] = "0123456789ABCDEFabcdef";
    const uint32_t others = 0x5A5A5A5A;
    unsigned place, i;
    step = "every hexadecimal digit";
    for (place = 0; place < 8; place++)
        for (i = 0; i < sizeof digits - 1; i++) {
            unsigned shift = 28 - 4 * place, value = i < 16 ? i : i - 6;
            constant->length = 0;
            add_format(constant, "0x%08lx", (unsigned long)others);
            constant->bytes[2 + place] = (uint8_t)digits[i];
            compare_constant(constant, A_WORD, (others & ~(UINT32_C(15) << shift)) | (uint32_t)value << shift, work);
        }
}

/* What is no constant: another prefix, a sign, a byte next to those of the digits, or a zero before decimal digits. */
static void compare_odd(struct buffer *constant, struct buffer *work)
{
    static const char *const odd[] = {"0X1", "0XFF", "-0x1", "-0x", "+0x1", "0x-1", "0x/", "0x:", "0x@", "0xG", "0x`", "0xg",
        "0x1/", "0x1:", "0x1@", "0x1G", "0x1`", "0x1g", "0x12345678g", "0x123456789`", "0xx1", "0x0x1", "x1", "00x1", "01x1",
        "1x1", "00", "01", "000000001", "0b1", "0x1h", "0x1.", "0x1,", "0x1=1", "0x\t1", "0x1\r", "$1", "#1", "0x\xB1"};
    size_t i;
    step = "no hexadecimal constants";
    for (i = 0; i < COUNT(odd); i++) {
        constant->length = 0;
        add(constant, odd[i]);
        compare_constant(constant, WRONG_SHAPE, 0, work);
    }
}

/* Every byte in the place of each byte of a constant, before each and behind the last. */
static void compare_each_byte_of(const char *string, struct buffer *constant, struct buffer *work)
{
    static const char text[] = "E0 causes A1 if R2 >= 305419896\nE0 causes A2 if R2 >= -1412567287\n";
    static struct subject subject;
    unsigned byte, inserted;
    size_t at;
    step = "every byte of a hexadecimal constant";
    make_subject(&subject, text, strlen(text));
    for (byte = 0; byte < 256; byte++)
        for (inserted = 0; inserted < 2; inserted++)
            for (at = 0; at < strlen(string) + inserted; at++) {
                uint8_t one = (uint8_t)byte;
                constant->length = 0;
                add(constant, string);
                splice(constant, at, at + !inserted, &one, 1);
                join(work, text_start, constant);
                compare_compile(work->bytes, work->length, IMAGE_BYTES);
                join(work, line_start, constant);
                compare_line(&subject, work->bytes, work->length);
            }
}

/* A word as a constant: 0 is decimal, 1 with capital letters, 2 with small ones, 3 with eight digits. */
enum { FORMS = 4 };

static void add_form(struct buffer *to, uint32_t word, unsigned form)
{
    static const char *const formats[] = {"", "0x%lX", "0x%lx", "0x%08lX"};
    if (form == 0)
        add_number(to, (long)value_of(word));
    else
        add_format(to, formats[form], (unsigned long)word);
}

/* A reading against a constant by every relation, in rules and in never lines; which hold is known from the words. */
static void compare_relations(uint32_t constant, unsigned form, struct buffer *text, struct buffer *line)
{
    static struct subject subject;
    const uint32_t values[] = {constant, constant + 1, constant - 1, ~constant, constant ^ 0x80000000, 0};
    unsigned relation, i, k;
    text->length = 0;
    for (relation = 0; relation < RELATIONS; relation++) {
        add_format(text, "E0 causes A%u\nE0 causes A%u if R0 %s ", 8 + relation, relation, relation_names[relation]);
        add_form(text, constant, form);
        add_format(text, "\nnever A%u if R0 %s ", 8 + relation, relation_names[relation]);
        add_form(text, constant, form);
        add(text, "\n");
    }
    begin(&subject, text);
    for (i = 0; i < COUNT(values); i++) {
        uint64_t holds = 0;
        for (relation = 0; relation < RELATIONS; relation++)
            holds |= (uint64_t)relation_holds(relation, value_of(values[i]), value_of(constant)) << relation;
        for (k = 0; k < FORMS; k++) {
            line->length = 0;
            add(line, "E0 R0=");
            add_form(line, values[i], k);
            expect(&subject, line, holds | (~holds & 0x3F) << 8, holds << 8);
        }
    }
}

/* Every word with one bit, and with all but one, which have the digits with letters. */
static void compare_bits(struct buffer *text, struct buffer *line)
{
    unsigned bit, form;
    step = "bits of hexadecimal constants";
    for (bit = 0; bit < 32; bit++)
        for (form = 0; form < FORMS; form++) {
            compare_relations(UINT32_C(1) << bit, form, text, line);
            compare_relations(~(UINT32_C(1) << bit), form, text, line);
        }
}

/* The faults of a line by their order, where a constant in hexadecimal has one. */
static void compare_order(struct buffer *work, struct dice *dice)
{
    static const struct {
        const char *line;
        enum fault fault;
    } lines[] = {{"E0 causes A0 if R0 = 0x123456789 , R0 = 0x", FAULT_SHAPE}, {"E64 causes A0 if R0 = 0x", FAULT_SHAPE},
        {"E0 causes A0 if R0 = 0x123456789 ,", FAULT_SHAPE}, {"E0 causes A0 if R0 = 0x1 , R16 = 0x1", FAULT_RANGE},
        {"E0 & E0 causes A0 if R0 = 0x000000001", FAULT_RANGE}, {"never A0 & A0 if R0 = 0x100000000", FAULT_RANGE},
        {"never A0 if R0 = 0x1 , R0 = 0x2 , R0 = 0x3 , R0 = 0x4 , R0 = 0x000000005", FAULT_RANGE},
        {"never A0 if R0 = 0x1 , R0 = 0x2 , R0 = 0x3 , R0 = 0x4 , R0 = 0x00000005", FAULT_CROWD},
        {"E0 & E0 causes A0 if R0 = 0x00000001", FAULT_REPEAT}, {"0x1 causes A0", FAULT_SHAPE},
        {"E0 causes A0 if 0x1 = R0", FAULT_SHAPE}, {"E0 causes A0 if 0x1 = 0x1", FAULT_SHAPE},
        {"E0x1 causes A0", FAULT_SHAPE}, {"E0 causes A0x1", FAULT_SHAPE}, {"E0 causes A0 if R0x1 = 1", FAULT_SHAPE},
        {"E0 causes A0 if R0 = R0x1", FAULT_SHAPE}, {"never A0x1", FAULT_SHAPE}};
    size_t i;
    step = "the order of faults";
    for (i = 0; i < COUNT(lines); i++) {
        work->length = 0;
        add(work, lines[i].line);
        if (compare_rooms(work->bytes, work->length, dice).fault != lines[i].fault)
            fail("reference", lines[i].line);
    }
}

void compare_patterns(struct buffer *input, struct buffer *work, struct dice *dice)
{
    unsigned i;
    compare_lengths(input, work);
    compare_each_digit(input, work);
    compare_odd(input, work);
    compare_each_byte_of("0x12345678", input, work);
    compare_each_byte_of("0xaBcDeF09", input, work);
    compare_each_byte_of("0x123456789", input, work);
    compare_bits(input, work);
    compare_order(work, dice);
    step = "words in hexadecimal";
    for (i = 0; i < 2000; i++) {
        uint32_t word = (uint32_t)roll(dice) >> i % 32;
        input->length = 0;
        add_pattern(input, dice, word, 1 + i / 32 % 8);
        compare_constant(input, A_WORD, word, work);
    }
}
