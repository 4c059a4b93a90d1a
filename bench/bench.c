/* Measures the library on the same inputs against C: checks and decisions against plain.c, compilations and texts of images
 * against the reference.
 *
 *   bench check      both sides give the same answers on all inputs, on damaged ones and on others made by chance
 *   bench count      calls each side once on each input, for callgrind: bench/run reads the counts
 *   bench time       ratios of time
 *   bench proposed   how many actions the epochs propose
 *   bench words      how many words of the image their decisions visit, on the average, and the bound
 */
#define _POSIX_C_SOURCE 199309L
#include <stdlib.h>
#include <string.h>
#include <time.h>

#include "../tests/library/fill.h"
#include "../tests/reference/inputs.h"
#include "plain.h"

/* Inputs: a rule text with its image in a form, and epoch lines of one kind. */

enum { LINES = 16 };

struct sample {
    struct buffer text;
    unsigned form;
    uint8_t image[IMAGE_BYTES];
    size_t image_length;
};

struct epochs {
    char line[LINES][EPOCH_BYTES + 1];
    size_t length[LINES];
    int count;
};

static uint32_t state = 1;

/* A number under `limit`. The tables of docs/PERFORMANCE.md are for the inputs that these numbers make. */
static int pick(int limit)
{
    state = state * 1664525u + 1013904223u;
    return (int)((state >> 8) % (uint32_t)limit);
}

static void make_image(struct sample *s)
{
    struct kinohazel_compilation c = kinohazel_compile(s->form, s->text.bytes, s->text.length, s->image, sizeof s->image);
    if (c.fault != KINOHAZEL_OK) {
        fprintf(stderr, "bench: text refused: %d line %d\n", (int)c.fault, (int)c.line);
        exit(1);
    }
    s->image_length = c.size;
}

static void add_line(struct epochs *e, const char *line)
{
    strcpy(e->line[e->count], line);
    e->length[e->count] = strlen(line);
    e->count++;
}

/* The worked example of the README. */
static void small(struct buffer *text, struct epochs *quiet, struct epochs *busy)
{
    add(text, EXAMPLE);
    const char *const quiet_lines[] = {"", "R0=12", "E2 R0=41", "E1 R0=40"};
    const char *const busy_lines[] = {"E1 E3 R0=41", "E1 E3 R0=77", "E3 R0=41 E1", "R0=99 E1 E3"};
    for (int i = 0; i < 4; i++) {
        add_line(quiet, quiet_lines[i]);
        add_line(busy, busy_lines[i]);
    }
}

/* Events under 40 are asked to be present, those from 40 on to be absent. */
static void scan(struct epochs *e, int events, int per_cent, int readings, int low, int high)
{
    char line[EPOCH_BYTES + 1] = "";
    size_t n = 0;
    for (int i = 0; i < events; i++)
        if (pick(100) < per_cent)
            n += (size_t)sprintf(line + n, "E%d ", i);
    for (int i = 0; i < readings; i++)
        n += (size_t)sprintf(line + n, "R%d=%d ", i, low + pick(high - low));
    add_line(e, line);
}

/* 32 rules and 16 never lines of mixed form. */
static void typical(struct buffer *text, struct epochs *quiet, struct epochs *busy)
{
    static const char *const relation[] = {">", "<=", "!=", ">=", "<", "="};
    for (int i = 0; i < 32; i++) {
        add_format(text, "E%d", i);
        if (i % 3 > 0)
            add_format(text, " & !E%d", 40 + i % 20);
        if (i % 3 > 1)
            add_format(text, " & E%d", (i + 7) % 40);
        add_format(text, " causes A%d", i);
        if (i % 4 > 0)
            add_format(text, " if R%d %s %d", i % 8, relation[i % 4], i % 4 == 1 ? 900 : 20);
        if (i % 4 > 2)
            add_format(text, " , R%d != R%d", (i + 1) % 8, (i + 2) % 8);
        add(text, "\n");
    }
    for (int i = 0; i < 16; i++) {
        add_format(text, "never A%d & A%d", 2 * i, 2 * i + 1);
        if (i % 3 > 1)
            add_format(text, " & A%d", (2 * i + 9) % 32);
        if (i % 2 > 0)
            add_format(text, " if R%d %s %d", i % 8, relation[i % 6], 400);
        add(text, "\n");
    }
    for (int i = 0; i < LINES; i++) {
        scan(quiet, 40, 3, 4, 0, 1000);
        scan(busy, 40, 90, 8, 0, 1000);
    }
}

/* Eight literals and four comparisons with constants: 17 words. */
static void add_long_rule(struct buffer *text, int i)
{
    for (int k = 0; k < 4; k++)
        add_format(text, "%sE%d & !E%d", k == 0 ? "" : " & ", (i + 5 * k) % 40, 40 + (i + 5 * k) % 24);
    add_format(text, " causes A%d if", i % 64);
    for (int k = 0; k < 4; k++)
        add_format(text, "%s R%d > %d", k == 0 ? "" : " ,", (i + k) % 16, k * 7 - 20);
    add(text, "\n");
}

/* 128 rules and 64 never lines of 17 words. */
static void largest(struct buffer *text, struct epochs *quiet, struct epochs *busy)
{
    for (int i = 0; i < 128; i++)
        add_long_rule(text, i);
    for (int i = 0; i < 64; i++) {
        add_format(text, "never A%d", i);
        for (int k = 1; k < 8; k++)
            add_format(text, " & A%d", (i + k * (1 + i % 5)) % 64);
        add(text, " if");
        for (int k = 0; k < 4; k++)
            add_format(text, "%s R%d <= %d", k == 0 ? "" : " ,", (i + 3 * k) % 16, 850);
        add(text, "\n");
    }
    for (int i = 0; i < LINES; i++) {
        scan(quiet, 40, 3, 4, 0, 1000);
        scan(busy, 40, 97, 16, 10, 1000);
    }
}

/* As large, and every never line is run to its last comparison at nearly every trial. */
static void heaviest(struct buffer *text, struct epochs *busy)
{
    for (int i = 0; i < 128; i++)
        add_long_rule(text, i);
    for (int i = 0; i < 64; i++)
        add(text, "never A0 & A1 & A2 & A3 & A4 & A5 & A6 & A7 if R0 > 0 , R1 > 1 , R2 > 2 , R3 > 5000\n");
    for (int i = 0; i < LINES; i++)
        scan(busy, 40, 100, 16, 10, 1000);
}

/* For the growth of decide: rules of four words and never lines of five, and epochs that propose `proposed` actions. */
static void growth(struct buffer *text, struct epochs *e, int rules, int constraints, int proposed)
{
    for (int i = 0; i < rules; i++)
        add_format(text, "E%d causes A%d if R%d > 40\n", i % 64, i % 64, i % 16);
    for (int i = 0; i < constraints; i++)
        add_format(text, "never A%d & A%d if R%d > 5000\n", i % 64, (i + 1) % 64, i % 16);
    for (int i = 0; i < 4; i++)
        scan(e, proposed, 100, 16, 50, 1000);
}

/* The same line with its values in hexadecimal, of four digits as drives print status words. */
static void add_hexadecimal_line(struct epochs *e, const char *decimal)
{
    char line[EPOCH_BYTES + 1];
    size_t n = 0;
    while (*decimal != 0) {
        line[n++] = *decimal++;
        if (line[n - 1] == '=') {
            char *end;
            n += (size_t)sprintf(line + n, "0x%04lX", (unsigned long)strtol(decimal, &end, 10));
            decimal = end;
        }
    }
    line[n] = 0;
    add_line(e, line);
}

/* The sides: the library, C, and C by where the never lines stand, for decisions of the first mode. */

typedef struct kinohazel_decision decide_function(const uint8_t *, size_t, uint64_t, const uint8_t *, size_t);

struct side {
    const char *name;
    fill_function *compile, *text;
    struct kinohazel_image_check (*check)(const uint8_t *, size_t);
    decide_function *decide[MODES];
};

static struct filled reference_compile(uint64_t form, const uint8_t *text, size_t length, uint8_t *out, size_t room)
{
    size_t size;
    struct verdict verdict = compile(form, text, length, out, room, &size);
    return (struct filled){verdict.fault, verdict.location, size};
}

static struct filled reference_text(uint64_t form, const uint8_t *image, size_t length, uint8_t *out, size_t room)
{
    size_t size;
    struct verdict verdict = decompile(image, length, out, room, &size);
    (void)form;
    return (struct filled){verdict.fault, verdict.location, size};
}

static const struct side sides[3] = {
    {"Rattle", fill_with_image, fill_with_text, kinohazel_check_nonnull,
        {[CANCEL_ACTIONS] = kinohazel_decide_nonnull, [CANCEL_EVENTS] = kinohazel_decide_events_nonnull}},
    {"C", reference_compile, reference_text, plain_check,
        {[CANCEL_ACTIONS] = plain_decide, [CANCEL_EVENTS] = plain_decide_events}},
    {"C, waiting", NULL, NULL, NULL, {[CANCEL_ACTIONS] = waiting_decide}},
};

enum task { DECIDE, CHECK, COMPILE, TEXT };

/* A row of a table. */
struct row {
    const char *table;
    char label[64];
    enum task task;
    enum mode mode;
    struct sample *sample;
    struct epochs *epochs;
};

static struct row rows[96];
static int row_count;

static void add_row(const char *table, enum task task, struct sample *s, struct epochs *e, const char *call,
    const char *name, const char *kind)
{
    struct row *r = &rows[row_count++];
    r->table = table;
    snprintf(r->label, sizeof r->label, "%s%s%s", call, name, kind);
    r->task = task;
    r->sample = s;
    r->epochs = e;
}

static void *new_zeros(size_t size)
{
    void *zeros = calloc(1, size);
    if (zeros == NULL)
        exit(1);
    return zeros;
}

static struct sample *new_sample(void)
{
    struct sample *s = new_zeros(sizeof *s);
    s->text = new_buffer();
    s->form = FIRST_FORM;
    return s;
}

/* The same text, with its image in form 2. */
static struct sample *in_form_2(const struct sample *s)
{
    struct sample *other = new_zeros(sizeof *other);
    other->text = s->text;
    other->form = 2;
    make_image(other);
    return other;
}

/* Lines on the image of the empty text: what reading them takes. */
static void add_reading(struct epochs *e, const char *name, const char *kind)
{
    static struct sample *empty;
    if (empty == NULL) {
        empty = new_sample();
        make_image(empty);
        add_row("lines", CHECK, empty, NULL, "load", "", "");
    }
    add_row("lines", DECIDE, empty, e, "decide, ", name, kind);
}

static void add_decide(struct sample *s, struct epochs *e, const char *name, const char *kind)
{
    add_row("main", DECIDE, s, e, "decide, ", name, kind);
    add_reading(e, name, kind);
}

/* By event cancellation. Reading the lines is not measured again. */
static void add_decide_events(struct sample *s, struct epochs *e, const char *name, const char *kind)
{
    rows[row_count].mode = CANCEL_EVENTS;
    add_row("events", DECIDE, s, e, "decide events, ", name, kind);
}

/* The row of the busy epochs is returned. */
static const struct row *add_sample(const char *name, void (*make)(struct buffer *, struct epochs *, struct epochs *))
{
    const struct row *busy_row;
    struct sample *s = new_sample(), *newest;
    struct epochs *quiet = new_zeros(sizeof *quiet);
    struct epochs *busy = new_zeros(sizeof *busy);
    make(&s->text, quiet, busy);
    make_image(s);
    newest = in_form_2(s);
    add_decide(s, quiet, name, ", quiet");
    add_row("main", DECIDE, newest, quiet, "decide, ", name, ", quiet, form 2"); /* the lines are read alike */
    busy_row = &rows[row_count];
    add_decide(s, busy, name, ", busy");
    add_row("main", DECIDE, newest, busy, "decide, ", name, ", busy, form 2");
    add_decide_events(s, quiet, name, ", quiet");
    add_decide_events(s, busy, name, ", busy");
    add_row("main", CHECK, s, NULL, "load, ", name, "");
    add_row("main", CHECK, newest, NULL, "load, ", name, ", form 2");
    add_row("reference", COMPILE, s, NULL, "compile, ", name, "");
    add_row("reference", COMPILE, newest, NULL, "compile, ", name, ", form 2");
    add_row("reference", TEXT, s, NULL, "text, ", name, "");
    return busy_row;
}

/* The decisions of a row once more, with their values in hexadecimal. */
static void add_hexadecimal(const struct row *r, const char *name)
{
    struct epochs *e = new_zeros(sizeof *e);
    for (int i = 0; i < r->epochs->count; i++)
        add_hexadecimal_line(e, r->epochs->line[i]);
    add_decide(r->sample, e, name, ", hex");
}

static void add_heaviest(void)
{
    struct sample *s = new_sample(), *newest;
    struct epochs *busy = new_zeros(sizeof *busy);
    heaviest(&s->text, busy);
    make_image(s);
    newest = in_form_2(s);
    add_decide(s, busy, "heaviest", "");
    add_row("main", DECIDE, newest, busy, "decide, ", "heaviest", ", form 2");
    add_row("main", CHECK, s, NULL, "load, ", "heaviest", "");
    add_row("main", CHECK, newest, NULL, "load, ", "heaviest", ", form 2");
}

/* All events, and nearly every word is run in nearly every trial. */
static void add_most_trials(void)
{
    struct sample *s = new_sample();
    struct epochs *e = new_zeros(sizeof *e);
    struct buffer line = new_buffer();
    add_most_tried(&s->text);
    make_image(s);
    add_epoch_of_most_tried(&line);
    add_byte(&line, 0);
    add_line(e, (const char *)line.bytes);
    free(line.bytes);
    add_decide_events(s, e, "64 events", "");
    add_reading(e, "64 events", "");
    add_row("events", CHECK, s, NULL, "load, ", "64 events", "");
}

static void add_growth(const char *table, int label, int rules, int constraints, int proposed)
{
    struct sample *s = new_sample();
    struct epochs *e = new_zeros(sizeof *e);
    char number[16];
    growth(&s->text, e, rules, constraints, proposed);
    make_image(s);
    snprintf(number, sizeof number, "%d", label);
    add_row(table, DECIDE, s, e, number, "", "");
}

static void add_rows(void)
{
    add_sample("small", small);
    const struct row *typical_busy = add_sample("typical", typical);
    add_sample("largest", largest);
    add_heaviest();
    add_most_trials();
    for (int n = 8; n <= 128; n *= 2)
        add_growth("rules", n, n, 16, 8);
    for (int n = 0; n <= 64; n = n == 0 ? 8 : n * 2)
        add_growth("never", n, 64, n, 8);
    for (int n = 0; n <= 64; n = n == 0 ? 1 : n * 2)
        add_growth("proposed", n, 64, 64, n);
    add_hexadecimal(typical_busy, "typical");
}

static uint64_t sink;

static int calls_of(const struct row *r)
{
    return r->task == DECIDE ? r->epochs->count : 1;
}

/* Every call of the row, once. */
static void turn(const struct row *r, const struct side *side)
{
    static uint8_t out[WRITTEN_BYTES];
    const struct sample *s = r->sample;
    if (r->task == COMPILE) {
        sink += side->compile(s->form, s->text.bytes, s->text.length, out, sizeof out).size;
    } else if (r->task == TEXT) {
        sink += side->text(s->form, s->image, s->image_length, out, sizeof out).size;
    } else if (r->task == CHECK) {
        sink += side->check(s->image, s->image_length).rules;
    } else {
        for (int i = 0; i < r->epochs->count; i++)
            sink += side->decide[r->mode](s->image, s->image_length, 0, (const uint8_t *)r->epochs->line[i], r->epochs->length[i])
                        .accepted;
    }
}

/* Same answers. */

static long compared;

static void same(bool equal, const char *what)
{
    compared++;
    if (!equal) {
        fprintf(stderr, "bench: the sides differ on %s\n", what);
        exit(1);
    }
}

static struct kinohazel_decision same_in_mode(
    const uint8_t *image, size_t size, const uint8_t *line, size_t length, enum mode mode)
{
    struct kinohazel_decision a = sides[0].decide[mode](image, size, 0, line, length);
    struct kinohazel_decision b = sides[1].decide[mode](image, size, 0, line, length);
    same(memcmp(&a, &b, sizeof a) == 0, "a decision");
    if (mode == CANCEL_ACTIONS) {
        b = waiting_decide(image, size, 0, line, length);
        same(memcmp(&a, &b, sizeof a) == 0, "a decision by waiting lines");
    }
    return a;
}

/* The faults that were met: bit n is fault n. */
static unsigned long met;

/* In both modes; the decision of the first is returned. */
static struct kinohazel_decision same_decision(const uint8_t *image, size_t size, const uint8_t *line, size_t length)
{
    met |= 1ul << same_in_mode(image, size, line, length, CANCEL_EVENTS).fault;
    return same_in_mode(image, size, line, length, CANCEL_ACTIONS);
}

static struct kinohazel_image_check same_check(const uint8_t *image, size_t size)
{
    struct kinohazel_image_check a = kinohazel_check(image, size);
    struct kinohazel_image_check b = plain_check(image, size);
    same(memcmp(&a, &b, sizeof a) == 0, "an image");
    return a;
}

/* Both fill a buffer alike. */
static struct filled same_filling(fill_function *mine, fill_function *plain, uint64_t form, const uint8_t *input, size_t length,
    size_t room, const char *what)
{
    static uint8_t one[WRITTEN_BYTES], other[WRITTEN_BYTES];
    memset(one, 0xa5, sizeof one);
    memset(other, 0xa5, sizeof other);
    struct filled a = mine(form, input, length, one, room);
    struct filled b = plain(form, input, length, other, room);
    same(memcmp(&a, &b, sizeof a) == 0, what);
    same(memcmp(one, other, sizeof one) == 0, "the bytes of an image or a text");
    return a;
}

static struct filled same_compilation(uint64_t form, const uint8_t *text, size_t length, size_t room)
{
    return same_filling(sides[0].compile, sides[1].compile, form, text, length, room, "a text");
}

static struct filled same_text(const uint8_t *image, size_t size, size_t room)
{
    return same_filling(sides[0].text, sides[1].text, 0, image, size, room, "the text of an image"); /* no form counts */
}

/* An image with some words changed or exchanged and its check words mended, so that the lines are looked at, or its sum alone. */
static void check_damaged_images(const struct sample *s, struct dice *dice)
{
    static uint8_t image[IMAGE_BYTES];
    unsigned words = (unsigned)(s->image_length / WORD_BYTES);
    for (int i = 0; i < 4000; i++) {
        memcpy(image, s->image, s->image_length);
        for (unsigned k = below(dice, 3) + 1; k > 0; k--) {
            size_t at = below(dice, words), other = chance(dice, 500) ? below(dice, words) : (at + 1) % words;
            uint32_t word = word_at(image, at);
            put_word(image, at, chance(dice, 500) ? word ^ (uint32_t)1 << below(dice, 32) : word_at(image, other));
            if (chance(dice, 200))
                put_word(image, other, word);
        }
        if (chance(dice, 800))
            put_check_words(image, words, s->form);
        else if (chance(dice, 500))
            put_sum(image, words);
        size_t length = s->image_length - (chance(dice, 60) ? below(dice, 9) : 0);
        met |= 1ul << same_check(image, length).fault;
        met |= 1ul << same_text(image, length, chance(dice, 875) ? WRITTEN_BYTES : below(dice, WRITTEN_BYTES)).fault;
        met |= 1ul << same_decision(image, length, (const uint8_t *)"E1 E3 R0=41", 11).fault;
    }
}

static void check_lines(const struct sample *s, const struct epochs *e, struct buffer *work, struct dice *dice)
{
    for (int i = 0; i < e->count; i++) {
        const uint8_t *line = (const uint8_t *)e->line[i];
        same(same_decision(s->image, s->image_length, line, e->length[i]).fault == KINOHAZEL_OK, "a good epoch");
        for (int k = 0; k < 200; k++) {
            work->length = 0;
            add_bytes(work, line, e->length[i]);
            damage(work, 0, dice);
            met |= 1ul << same_decision(s->image, s->image_length, work->bytes, work->length).fault;
        }
    }
}

static void check_damaged_texts(const struct sample *s, struct buffer *work, struct dice *dice)
{
    for (int i = 0; i < 2000; i++) {
        work->length = 0;
        add_bytes(work, s->text.bytes, s->text.length);
        damage(work, 0, dice);
        size_t room = chance(dice, 875) ? IMAGE_BYTES : s->image_length - WORD_BYTES;
        met |= 1ul << same_compilation(s->form, work->bytes, work->length, room).fault;
    }
}

/* Inputs of the engine by chance: their texts, images and epoch lines. */
static void check_made(struct buffer *work, struct dice *dice)
{
    static uint8_t image[IMAGE_BYTES];
    for (unsigned i = 0; i < 4000; i++) {
        const uint8_t *line;
        size_t text_length, at, length, size;
        enum mode mode;
        work->length = 0;
        add_engine_input(work, dice, i % 16);
        find_run(work->bytes, work->length, &text_length, &at, &mode);
        static const uint64_t forms[] = {0, 1, 2, LAST_FORM + 1}; /* two of them known */
        uint64_t form = CHOOSE(dice, forms);
        met |= 1ul << same_compilation(form, work->bytes, text_length, IMAGE_BYTES).fault;
        compile(1 + form % 2, work->bytes, text_length, image, sizeof image, &size);
        same_check(image, size);
        same_text(image, size, WRITTEN_BYTES);
        while (next_line(work->bytes, work->length, &at, &line, &length))
            met |= 1ul << same_decision(image, size, line, length).fault;
    }
}

/* Faults that no damage makes. */
static void check_limits(const struct sample *s, struct buffer *work)
{
    work->length = 0;
    add_times(work, " ", TEXT_BYTES + 1);
    met |= 1ul << same_compilation(s->form, work->bytes, work->length, IMAGE_BYTES).fault;
    met |= 1ul << same_decision(s->image, s->image_length, work->bytes, EPOCH_BYTES + 1).fault;
    work->length = 0;
    add_times(work, "E1 causes A2\n", RULES + 1);
    met |= 1ul << same_compilation(s->form, work->bytes, work->length, IMAGE_BYTES).fault;
    for (unsigned bit = 3; bit < 64; bit++)
        same(same_compilation(((uint64_t)1 << bit) + 1, work->bytes, work->length, IMAGE_BYTES).fault == KINOHAZEL_IMAGE_FORM,
            "an unknown form");
}

static void check_all(void)
{
    struct buffer work = new_buffer();
    struct dice dice = {UINT64_C(0xBE) << 32};
    for (int i = 0; i < row_count; i++) {
        const struct sample *s = rows[i].sample;
        same(same_compilation(s->form, s->text.bytes, s->text.length, IMAGE_BYTES).fault == KINOHAZEL_OK, "a good text");
        same(same_check(s->image, s->image_length).fault == KINOHAZEL_OK, "a good image");
        same(same_text(s->image, s->image_length, WRITTEN_BYTES).fault == KINOHAZEL_OK, "the text of a good image");
        if (rows[i].task != DECIDE)
            continue;
        check_lines(s, rows[i].epochs, &work, &dice);
        check_damaged_texts(s, &work, &dice);
        check_damaged_images(s, &dice);
    }
    check_made(&work, &dice);
    check_limits(rows[0].sample, &work);
    met |= 1ul << FAULT_RESERVED; /* no image here has a line that triggers */
    same(met == (1ul << FAULTS) - 1, "the faults: one was never met");
    printf("same answers in %ld comparisons, in which every fault but 18 is met\n", compared);
    free(work.bytes);
}

/* Whether the row is measured against C by waiting lines too. */
static bool is_waiting(const struct row *r)
{
    return r->task == DECIDE && r->mode == CANCEL_ACTIONS && strcmp(r->table, "lines") != 0;
}

/* Time. */

enum { ROUNDS = 101 };

static double now(void)
{
    struct timespec t;
    clock_gettime(CLOCK_PROCESS_CPUTIME_ID, &t);
    return (double)t.tv_sec + 1e-9 * (double)t.tv_nsec;
}

static double time_of(const struct row *r, const struct side *s, int turns)
{
    double start = now();
    for (int i = 0; i < turns; i++)
        turn(r, s);
    return now() - start;
}

static int by_size(const void *a, const void *b)
{
    double x = *(const double *)a, y = *(const double *)b;
    return (x > y) - (x < y);
}

/* The two sides take turns; each round gives a ratio. */
static void measure(const struct row *r, const struct side *other)
{
    const struct side *both[2] = {&sides[0], other};
    double ratio[ROUNDS];
    int turns = 1;
    while (time_of(r, other, turns) < 0.004)
        turns *= 2;
    for (int i = 0; i < ROUNDS; i++) {
        double t[2];
        t[i % 2] = time_of(r, both[i % 2], turns);
        t[1 - i % 2] = time_of(r, both[1 - i % 2], turns);
        ratio[i] = t[0] / t[1];
    }
    qsort(ratio, ROUNDS, sizeof ratio[0], by_size);
    printf("%s%s\t%s\t%.2f\t%.2f\t%.2f\n", other == &sides[2] ? "waiting " : "", r->table, r->label, ratio[ROUNDS / 2], ratio[ROUNDS / 10],
           ratio[ROUNDS - 1 - ROUNDS / 10]);
}

/* Counting: callgrind writes out what it counted since the last call. */
__attribute__((noinline)) static void counted(const char *table, const char *label, const char *side, int calls)
{
    printf("%s\t%s\t%s\t%d\n", table, label, side, calls);
}

static void count(void)
{
    counted("inputs", "", "", 1);
    for (int i = 0; i < row_count; i++) {
        for (int k = 0; k < (is_waiting(&rows[i]) ? 3 : 2); k++) {
            turn(&rows[i], &sides[k]);
            counted(rows[i].table, rows[i].label, sides[k].name, calls_of(&rows[i]));
        }
    }
}

/* How many actions the epochs of a row propose. */
static void print_proposed(const struct row *r)
{
    int least = ACTIONS, most = 0;
    for (int i = 0; i < r->epochs->count; i++) {
        struct kinohazel_decision d = sides[0].decide[r->mode](r->sample->image, r->sample->image_length, 0,
            (const uint8_t *)r->epochs->line[i], r->epochs->length[i]);
        int n = (int)size_of_set(d.accepted | d.cancelled);
        least = n < least ? n : least;
        most = n > most ? n : most;
    }
    if (least == most)
        printf("%s\t%s\t%d\n", r->table, r->label, most);
    else
        printf("%s\t%s\t%d to %d\n", r->table, r->label, least, most);
}

static void print_words(const struct row *r)
{
    uint64_t words = 0;
    for (int i = 0; i < r->epochs->count; i++)
        words += sides[0].decide[r->mode](r->sample->image, r->sample->image_length, 0, (const uint8_t *)r->epochs->line[i],
            r->epochs->length[i]).visited;
    printf("%s\t%.1f\t%zu\n", r->label, (double)words / r->epochs->count, visit_limit(r->sample->image, r->mode));
}

/* Of a table of calls, not of lines or of growth. */
static bool is_call(const struct row *r)
{
    return strcmp(r->table, "main") == 0 || strcmp(r->table, "reference") == 0 || strcmp(r->table, "events") == 0;
}

int main(int argc, char **argv)
{
    const char *mode = argc > 1 ? argv[1] : "";
    add_rows();
    if (strcmp(mode, "check") == 0) {
        check_all();
    } else if (strcmp(mode, "count") == 0) {
        count();
    } else if (strcmp(mode, "time") == 0) {
        for (int i = 0; i < row_count; i++)
            if (is_call(&rows[i])) {
                measure(&rows[i], &sides[1]);
                if (is_waiting(&rows[i]))
                    measure(&rows[i], &sides[2]);
            }
    } else if (strcmp(mode, "proposed") == 0) {
        for (int i = 0; i < row_count; i++)
            if (rows[i].task == DECIDE)
                print_proposed(&rows[i]);
    } else if (strcmp(mode, "words") == 0) {
        for (int i = 0; i < row_count; i++)
            if (rows[i].task == DECIDE && is_call(&rows[i]) && rows[i].sample->form == FIRST_FORM) /* those of form 2 are the same */
                print_words(&rows[i]);
    } else {
        fprintf(stderr, "usage: bench check | count | time | proposed | words\n");
        return 2;
    }
    return sink == 1 ? 3 : 0;
}
