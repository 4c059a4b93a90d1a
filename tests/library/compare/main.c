/* Compares the functions of include/kinohazel.h with the reference, on inputs that are the same on each run:
   `compare ROUNDS` runs round 0, which has the limits, and the rounds behind it, each made from its number;
   `compare ROUNDS FIRST` begins with another round. It ends at the first difference, and fails if a fault, or another thing
   that is counted, was never met. */
#include "compare.h"

#include <stdlib.h>

/* A text, its image with and without damages, the text of that, epoch lines, and the text split over two, from an input of the
   engine. */
static void compare_input(
    const struct buffer *input, struct buffer *work, struct buffer *other, struct dice *dice, unsigned share)
{
    static struct subject subject;
    size_t text_length, at;
    enum mode mode;
    step = "input";
    find_run(input->bytes, input->length, &text_length, &at, &mode);
    if (compare_rooms(input->bytes, text_length, dice).fault != FAULT_NONE)
        return;
    make_subject(&subject, input->bytes, text_length);
    if (compare_check(subject.image, subject.size).fault != FAULT_NONE)
        fail_on("reference", "the image of a text is refused", subject.image, subject.size);
    compare_lines(&subject, input, at, work, dice);
    compare_why(input, text_length, at, work, other, dice);
    step = "written texts";
    compare_written(subject.image, subject.size, work, dice);
    damage_image(subject.image, subject.size, dice, share);
}

static void run_round(struct buffer *input, struct buffer *work, struct buffer *other)
{
    struct dice dice = {UINT64_C(0xF0) << 32 | current_round};
    unsigned i;
    current_form = FIRST_FORM + current_round / 16 % LAST_FORM; /* each form with all kinds of inputs and of nulls */
    make_pattern(&dice);
    set_nulls((unsigned)(current_round % 16));
    step = "texts";
    for (i = 0; i < 20; i++) {
        input->length = 0;
        add_text(input, &dice, i % 10, false);
        compare_rooms(input->bytes, input->length, &dice);
    }
    for (i = 0; i < 4; i++) { /* the first with damages at every place */
        input->length = 0;
        add_engine_input(input, &dice, (unsigned)(current_round * 4 + i) % 16);
        compare_input(input, work, other, &dice, i == 0 ? 1000 : 100);
    }
    compare_any_texts(input, work, &dice);
    compare_clashing(input, work, &dice);
    compare_flaws(&dice, work);
    step = "lines with any parts";
    for (i = 0; i < 60; i++)
        compare_draft(&dice, work);
    step = "random words";
    for (i = 0; i < 30; i++)
        compare_random(&dice, work);
}

/* Round 0, in one form. */
static void run_limits(struct buffer *input, struct buffer *work, struct buffer *other)
{
    struct dice dice = {UINT64_C(0xF0) << 32};
    unsigned i;
    make_pattern(&dice);
    compare_header();
    compare_unknown_forms(input, &dice);
    compare_limit_texts(input, &dice);
    compare_limit_images(input, work, &dice);
    compare_limit_written(input, work, &dice);
    compare_limit_epochs(input);
    compare_nulls();
    compare_lines_in_image();
    compare_extremes(input, work);
    compare_events(input, work);
    compare_triggers(input, work, &dice);
    compare_each_byte(input);
    compare_each_number(input, work, &dice);
    compare_patterns(input, work, &dice);
    compare_limit_joint(input, work, &dice);
    for (i = 0; i < 2; i++) { /* the largest image and the smallest, with all damages */
        input->length = 0;
        if (i == 0)
            add_largest(input);
        add(input, "run\n");
        add_epochs_of_largest(input);
        compare_input(input, work, other, &dice, 1000);
    }
}

int main(int argc, char **argv)
{
    struct buffer input = new_buffer(), work = new_buffer(), other = new_buffer();
    unsigned long rounds = argc > 1 ? strtoul(argv[1], NULL, 10) : 0, first = argc > 2 ? strtoul(argv[2], NULL, 10) : 0;
    if (rounds == 0)
        fail("usage", "compare ROUNDS [FIRST]");
    make_pens();
    for (current_round = first; current_round < first + rounds; current_round++) {
        if (current_round > 0) {
            run_round(&input, &work, &other);
            continue;
        }
        for (current_form = FIRST_FORM; current_form <= LAST_FORM; current_form++)
            run_limits(&input, &work, &other);
    }
    free(input.bytes);
    free(work.bytes);
    free(other.bytes);
    if (!report() && first == 0) {
        printf("library: something that is counted was never met\n");
        return 1;
    }
    return 0;
}
