/* Compares the stack that the functions of include/kinohazel.h take with the figures of the header. Each call runs on a stack
   of its own that was painted before. What it took reaches from the lowest changed byte to the frame of the function that
   calls, and has that frame in it. The figure must hold the most that was taken, and be less than twice as much. */
#include "../reference/inputs.h"
#include "kinohazel.h"

#include <stdlib.h>
#include <string.h>
#include <ucontext.h>

enum { STACK_BYTES = 1 << 15, PAINT = 0xA5, ROUNDS = 300 };

/* What is lent, and where the calling function's frame begins. */
static struct {
    const uint8_t *text, *image, *line;
    uint8_t *out, *frame;
    size_t text_length, image_length, line_length, out_length;
    struct texts texts;
    uint64_t form, pending, action;
    struct kinohazel_state state;
} call;

static struct {
    struct kinohazel_compilation compilation;
    struct kinohazel_texts_compilation texts_compilation;
    struct kinohazel_image_check check;
    struct kinohazel_text_written written;
    struct kinohazel_decision decision;
    struct kinohazel_explanation explanation;
} answer;

static void call_compile(void)
{
    call.frame = __builtin_frame_address(0);
    answer.compilation = kinohazel_compile(call.form, call.text, call.text_length, call.out, call.out_length);
}

static void call_compile_texts(void)
{
    call.frame = __builtin_frame_address(0);
    answer.texts_compilation = kinohazel_compile_texts(call.form, call.texts.maker.bytes, call.texts.maker.length,
        call.texts.site.bytes, call.texts.site.length, call.out, call.out_length);
}

static void call_check(void)
{
    call.frame = __builtin_frame_address(0);
    answer.check = kinohazel_check(call.image, call.image_length);
}

static void call_text(void)
{
    static uint8_t text[KINOHAZEL_WRITTEN_TEXT_LIMIT];
    call.frame = __builtin_frame_address(0);
    answer.written = kinohazel_text(call.image, call.image_length, text, sizeof text);
}

static void call_decide(void)
{
    call.frame = __builtin_frame_address(0);
    answer.decision = kinohazel_decide(call.image, call.image_length, call.pending, call.line, call.line_length);
}

static void call_step(void)
{
    call.frame = __builtin_frame_address(0);
    answer.decision = kinohazel_step(call.image, call.image_length, &call.state, call.line, call.line_length);
}

static void call_decide_events(void)
{
    call.frame = __builtin_frame_address(0);
    answer.decision = kinohazel_decide_events(call.image, call.image_length, call.pending, call.line, call.line_length);
}

static void call_step_events(void)
{
    call.frame = __builtin_frame_address(0);
    answer.decision = kinohazel_step_events(call.image, call.image_length, &call.state, call.line, call.line_length);
}

static void call_explain(void)
{
    call.frame = __builtin_frame_address(0);
    answer.explanation = kinohazel_explain(call.texts.maker.bytes, call.texts.maker.length, call.texts.site.bytes,
        call.texts.site.length, call.pending, call.line, call.line_length, call.action);
}

static struct function {
    const char *name;
    void (*call)(void);
    size_t figure, most;
    unsigned long calls;
} compiling = {"compile", call_compile, KINOHAZEL_COMPILE_STACK, 0, 0},
  compiling_texts = {"compile_texts", call_compile_texts, KINOHAZEL_COMPILE_TEXTS_STACK, 0, 0},
  checking = {"check", call_check, KINOHAZEL_CHECK_STACK, 0, 0},
  writing = {"text", call_text, KINOHAZEL_TEXT_STACK, 0, 0},
  deciding = {"decide", call_decide, KINOHAZEL_DECIDE_STACK, 0, 0},
  deciding_events = {"decide_events", call_decide_events, KINOHAZEL_DECIDE_EVENTS_STACK, 0, 0},
  stepping = {"step", call_step, KINOHAZEL_STEP_STACK, 0, 0},
  stepping_events = {"step_events", call_step_events, KINOHAZEL_STEP_EVENTS_STACK, 0, 0},
  explaining = {"explain", call_explain, KINOHAZEL_EXPLAIN_STACK, 0, 0};

static void measure(struct function *function)
{
    static uint8_t stack[STACK_BYTES];
    ucontext_t here, there;
    size_t low = 0, taken;
    memset(stack, PAINT, sizeof stack);
    getcontext(&there);
    there.uc_stack.ss_sp = stack;
    there.uc_stack.ss_size = sizeof stack;
    there.uc_link = &here;
    makecontext(&there, function->call, 0);
    if (swapcontext(&here, &there) != 0)
        exit(2);
    while (low < sizeof stack && stack[low] == PAINT)
        low++;
    taken = (size_t)(call.frame - stack) - low;
    function->most = taken > function->most ? taken : function->most;
    function->calls++;
}

/* The events that the step triggers are pending in the decisions on the next line. */
static void measure_image(const uint8_t *image, size_t length, const uint8_t *line, size_t line_length)
{
    call.image = image;
    call.pending = call.state.pending;
    call.image_length = length;
    call.line = line;
    call.line_length = line_length;
    measure(&checking);
    measure(&writing);
    measure(&deciding);
    measure(&deciding_events);
    measure(&stepping);
    call.state.pending = call.pending;
    measure(&stepping_events);
}

/* A text split over two, and some of the epoch lines of an input from `at` on. */
static void measure_texts(const struct buffer *input, size_t at, struct dice *dice)
{
    static uint8_t image[KINOHAZEL_IMAGE_LIMIT];
    struct buffer maker = new_buffer(), site = new_buffer();
    unsigned lines;
    split_text(call.text, call.text_length, dice, &maker, &site);
    call.texts = texts_of(&maker, &site);
    call.out = image;
    call.out_length = below(dice, sizeof image);
    measure(&compiling_texts);
    call.out_length = sizeof image;
    measure(&compiling_texts);
    for (lines = 0; lines < 4; lines++) {
        if (lines == 0 || !next_line(input->bytes, input->length, &at, &call.line, &call.line_length))
            call.line_length = 0;
        call.pending = lines % 2 == 0 ? 0 : roll(dice);
        for (call.action = lines % 2 == 0 ? 0 : 58; call.action < (lines % 2 == 0 ? 6 : 66); call.action++)
            measure(&explaining);
    }
    free(maker.bytes);
    free(site.bytes);
}

/* The text and the epoch lines of an input of the engine, with an image of one form. It is tried with a changed byte too. */
static void measure_form(uint64_t form, const struct buffer *input, struct dice *dice)
{
    static uint8_t image[KINOHAZEL_IMAGE_LIMIT];
    const uint8_t *line;
    size_t at, length, size, byte;
    unsigned lines = 0;
    enum mode mode;
    call.form = form;
    call.text = input->bytes;
    find_run(input->bytes, input->length, &call.text_length, &at, &mode);
    measure_texts(input, at, dice);
    call.out = image;
    call.out_length = below(dice, sizeof image);
    measure(&compiling);
    call.out_length = sizeof image;
    measure(&compiling);
    if (answer.compilation.fault != KINOHAZEL_OK)
        return;
    size = (size_t)answer.compilation.size;
    measure_image(image, size, NULL, 0);
    while (lines++ < 20 && next_line(input->bytes, input->length, &at, &line, &length)) {
        measure_image(image, size, line, length);
        byte = below(dice, (unsigned)size);
        image[byte] ^= (uint8_t)(1 << below(dice, 8));
        measure_image(image, size, line, length);
        measure(&compiling);
    }
}

static void measure_input(const struct buffer *input, struct dice *dice)
{
    uint64_t form;
    for (form = FIRST_FORM; form <= NEWEST_FORM; form++) /* those behind it are as the newest */
        measure_form(form, input, dice);
}

/* The largest text and image, and on them epoch lines of the largest length; then the image with the longest text, and the one whose
   epoch of all events has the most trials. */
static void measure_largest(struct buffer *input, struct dice *dice)
{
    unsigned i;
    add_largest_input(input);
    for (i = 0; i < 3; i++) {
        size_t from = input->length;
        while (input->length - from < EPOCH_BYTES - 16)
            add(input, i == 0 ? "E63 " : i == 1 ? " " : "E0  E9 ");
        while (input->length - from < EPOCH_BYTES - 14)
            add(input, " ");
        add(input, i == 1 ? "R0=-2147483648\n" : "R15=2147483647\n");
    }
    measure_input(input, dice);
    input->length = 0;
    add_widest(input, FIRST_FORM);
    measure_input(input, dice);
    input->length = 0;
    add_widest(input, NEWEST_FORM);
    add(input, "run\nR10=0 R11=0 R12=0 R15=0\n");
    measure_input(input, dice);
    input->length = 0;
    add_most_tried(input);
    add(input, "run\n");
    add_epoch_of_most_tried(input);
    measure_input(input, dice);
}

static bool report(const struct function *function)
{
    printf("%s takes %lu of %lu bytes in %lu calls", function->name, (unsigned long)function->most,
        (unsigned long)function->figure, function->calls);
    return function->most <= function->figure && function->figure < 2 * function->most;
}

int main(void)
{
    static const struct function *const functions[] = {
        &compiling, &compiling_texts, &checking, &writing, &deciding, &deciding_events, &stepping, &stepping_events, &explaining};
    struct buffer input = new_buffer();
    struct dice dice = {UINT64_C(0x57) << 32};
    unsigned i;
    bool right = true;
    measure_largest(&input, &dice);
    for (i = 0; i < ROUNDS; i++) {
        input.length = 0;
        add_engine_input(&input, &dice, i % 16);
        measure_input(&input, &dice);
        input.length = 0;
        add_text(&input, &dice, i % 10, false);
        measure_input(&input, &dice);
    }
    free(input.bytes);
    printf("library: stack: ");
    for (i = 0; i < sizeof functions / sizeof *functions; i++) {
        printf("%s", i == 0 ? "" : "; ");
        right = report(functions[i]) && right;
    }
    printf("\n");
    if (!right)
        printf("library: a figure of the header for the stack is too small or too large\n");
    return right ? 0 : 1;
}
