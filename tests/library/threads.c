/* Calls the functions of include/kinohazel.h from several threads at once, on the same texts, images and lines, each thread with
   buffers and states of its own. The answers must be those that one thread alone had before. */
#define _POSIX_C_SOURCE 200112L
#include "../reference/inputs.h"
#include "kinohazel.h"

#include <pthread.h>
#include <stdlib.h>
#include <string.h>

enum { THREADS = 8, CASES = 24, LINES = 16, TURNS = 100 };

struct answers {
    struct kinohazel_compilation compilation;
    struct kinohazel_texts_compilation texts_compilation;
    struct kinohazel_image_check check;
    struct kinohazel_text_written written;
    struct kinohazel_decision decisions[LINES], by_events[LINES], steps[LINES], steps_by_events[LINES];
    struct kinohazel_state state; /* after all steps */
    struct kinohazel_explanation explanations[LINES];
    uint8_t out[IMAGE_BYTES], joint[IMAGE_BYTES], text[WRITTEN_BYTES];
};

/* An input of the engine, the image of its text in a form, the text split over two, and what one thread answers. */
struct sample {
    struct buffer input, maker, site;
    uint64_t form;
    const uint8_t *lines[LINES];
    size_t text_length, lengths[LINES], count, size;
    uint8_t image[IMAGE_BYTES];
    struct answers answers;
};

static struct sample samples[CASES];
static pthread_barrier_t start;

static void answer(const struct sample *sample, struct answers *to)
{
    const struct buffer *maker = &sample->maker, *site = &sample->site;
    const uint64_t pending = 1 << 4 | 1 << 6;
    size_t i;
    memset(to, 0, sizeof *to);
    to->compilation = kinohazel_compile(sample->form, sample->input.bytes, sample->text_length, to->out, sizeof to->out);
    to->texts_compilation = kinohazel_compile_texts(sample->form,
        maker->bytes, maker->length, site->bytes, site->length, to->joint, sizeof to->joint);
    to->check = kinohazel_check(sample->image, sample->size);
    to->written = kinohazel_text(sample->image, sample->size, to->text, sizeof to->text);
    for (i = 0; i < sample->count; i++) {
        to->decisions[i] = kinohazel_decide(sample->image, sample->size, pending, sample->lines[i], sample->lengths[i]);
        to->by_events[i] = kinohazel_decide_events(sample->image, sample->size, pending, sample->lines[i], sample->lengths[i]);
        to->steps[i] = kinohazel_step(sample->image, sample->size, &to->state, sample->lines[i], sample->lengths[i]);
        to->steps_by_events[i] = kinohazel_step_events(sample->image, sample->size, &to->state, sample->lines[i], sample->lengths[i]);
        to->explanations[i] = kinohazel_explain(
            maker->bytes, maker->length, site->bytes, site->length, pending, sample->lines[i], sample->lengths[i], i % 6);
    }
}

/* The first two are the largest. */
static void make(struct sample *sample, struct dice *dice)
{
    struct buffer *input = &sample->input;
    size_t at;
    enum mode mode;
    *input = new_buffer();
    sample->maker = new_buffer();
    sample->site = new_buffer();
    sample->form = FIRST_FORM + (uint64_t)(sample - samples) % NEWEST_FORM;
    if (sample < samples + NEWEST_FORM)
        add_largest_input(input);
    else
        add_engine_input(input, dice, (unsigned)(sample - samples) / NEWEST_FORM % 16);
    find_run(input->bytes, input->length, &sample->text_length, &at, &mode);
    while (sample->count < LINES
        && next_line(input->bytes, input->length, &at, &sample->lines[sample->count], &sample->lengths[sample->count]))
        sample->count++;
    split_text(input->bytes, sample->text_length, dice, &sample->maker, &sample->site);
    compile(sample->form, input->bytes, sample->text_length, sample->image, sizeof sample->image, &sample->size);
    answer(sample, &sample->answers);
}

/* All samples again and again, from the given one on. NULL if the answers are as before. */
static void *run(void *from)
{
    struct answers *now = malloc(sizeof *now);
    const struct sample *sample = from;
    bool right = now != NULL;
    unsigned turn;
    pthread_barrier_wait(&start);
    for (turn = 0; turn < TURNS * CASES && right; turn++) {
        answer(sample, now);
        right = memcmp(now, &sample->answers, sizeof *now) == 0;
        sample = sample == &samples[CASES - 1] ? samples : sample + 1;
    }
    free(now);
    return right ? NULL : from;
}

int main(void)
{
    struct dice dice = {UINT64_C(0x7E) << 32};
    pthread_t threads[THREADS];
    unsigned i, compiled = 0, right = 0;
    for (i = 0; i < CASES; i++) {
        make(&samples[i], &dice);
        compiled += samples[i].answers.compilation.fault == KINOHAZEL_OK;
    }
    if (compiled < CASES / 2 || pthread_barrier_init(&start, NULL, THREADS) != 0)
        return 2;
    for (i = 0; i < THREADS; i++)
        if (pthread_create(&threads[i], NULL, run, &samples[i * CASES / THREADS]) != 0)
            return 2;
    for (i = 0; i < THREADS; i++) {
        void *wrong = samples;
        pthread_join(threads[i], &wrong);
        right += wrong == NULL;
    }
    for (i = 0; i < CASES; i++) {
        free(samples[i].input.bytes);
        free(samples[i].maker.bytes);
        free(samples[i].site.bytes);
    }
    if (right < THREADS) {
        printf("library: threads: %u of %d had other answers than one thread alone\n", THREADS - right, (int)THREADS);
        return 1;
    }
    printf("library: %u threads at once have the answers of one\n", right);
    return 0;
}
