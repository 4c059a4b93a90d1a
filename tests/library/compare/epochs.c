/* Epoch lines and the decisions on them. */
#include "compare.h"

#include <string.h>

void make_subject(struct subject *subject, const void *text, size_t length)
{
    if (compile(current_form, text, length, subject->image, IMAGE_BYTES, &subject->size).fault != FAULT_NONE)
        fail_on("reference", "a text is refused", text, length);
    read_text(current_form, text, length, &subject->policy);
}

struct decision compare_line_after(const struct subject *subject, event_set pending, const void *line, size_t length)
{
    return compare_decide(subject->image, subject->size, pending, line, length, &subject->policy);
}

struct decision compare_line(const struct subject *subject, const void *line, size_t length)
{
    return compare_line_after(subject, 0, line, length);
}

/* An epoch line with every event and every reading, in an order by chance. */
static void add_full_epoch(struct buffer *to, struct dice *dice)
{
    static const long limits[] = {2147483647, -2147483648, 0, -1, 40, 41};
    unsigned first = below(dice, EVENTS), stride = 1 + 2 * below(dice, 32), i;
    for (i = 0; i < EVENTS; i++) {
        add_format(to, "E%u ", (first + i * stride) % EVENTS);
        if (i % 4 == 0)
            add_format(to, "R%u=%ld ", (first + i / 4 * stride) % READINGS,
                chance(dice, 300) ? CHOOSE(dice, limits) : (long)below(dice, 2000) - 1000);
    }
}

/* An epoch line by chance, with and without faults. */
static void add_any_epoch(struct buffer *to, struct dice *dice)
{
    struct taste taste = make_taste(dice);
    taste.range = chance(dice, 300) ? 60 : 0;
    taste.repeat = chance(dice, 300) ? 300 : 0;
    taste.shape = chance(dice, 200) ? 25 : 0;
    add_epoch(to, dice, &taste);
    if (chance(dice, 300))
        damage(to, 0, dice);
    if (chance(dice, 50))
        splice(to, below(dice, (unsigned)to->length + 1), to->length, "\n", 1);
}

void compare_lines(const struct subject *subject, const struct buffer *input, size_t at, struct buffer *work,
    struct dice *dice)
{
    static uint8_t bad_image[IMAGE_BYTES];
    const uint8_t *line;
    size_t first = at, length, index = below(dice, (unsigned)(subject->size / WORD_BYTES));
    event_set pending = 0;
    unsigned lines, i;
    memcpy(bad_image, subject->image, subject->size);
    put_word(bad_image, index, other_word(dice, word_at(bad_image, index)));
    step = "epochs";
    for (lines = 0; lines < 40 && next_line(input->bytes, input->length, &at, &line, &length); lines++) {
        pending = pending_after(pending, compare_line_after(subject, pending, line, length));
        if (chance(dice, 150))
            compare_decide(bad_image, subject->size, pending, line, length, NULL);
    }
    at = first; /* the first line once more: nothing is kept from the others but what is handed in */
    if (next_line(input->bytes, input->length, &at, &line, &length))
        compare_line(subject, line, length);
    step = "full epochs";
    for (i = 0; i < 2; i++) {
        work->length = 0;
        add_full_epoch(work, dice);
        compare_line_after(subject, any_pending(dice), work->bytes, work->length);
    }
    step = "damaged epochs";
    for (i = 0; i < 40; i++) {
        work->length = 0;
        add_any_epoch(work, dice);
        compare_line_after(subject, any_pending(dice), work->bytes, work->length);
    }
    compare_session(subject, input, first, dice);
}

void compare_limit_epochs(struct buffer *input)
{
    static const struct {
        const char *line;
        enum fault fault;
    } lines[] = {{"", FAULT_NONE}, {"   ", FAULT_NONE}, {"E0 E63", FAULT_NONE}, {"E1 E1", FAULT_NONE},
        {"R0=2147483647 R15=-2147483648", FAULT_NONE}, {"R0=0", FAULT_NONE}, {"R0=-0", FAULT_EPOCH_SHAPE},
        {"#", FAULT_EPOCH_SHAPE}, {"\n", FAULT_EPOCH_SHAPE}, {"E1\n", FAULT_EPOCH_SHAPE}, {"\nE1", FAULT_EPOCH_SHAPE},
        {"E1\nE2", FAULT_EPOCH_SHAPE}, {"E64\nE2", FAULT_EPOCH_SHAPE}, {"E64 R0=1 R0=1 x", FAULT_EPOCH_SHAPE},
        {"R0=1 R0=1 \n", FAULT_EPOCH_SHAPE}, {"E1\tE2", FAULT_EPOCH_SHAPE}, {"E1\r", FAULT_EPOCH_SHAPE},
        {"E64", FAULT_EPOCH_RANGE}, {"E18446744073709551617", FAULT_EPOCH_RANGE}, {"R16=1", FAULT_EPOCH_RANGE},
        {"R16=1 R16=1", FAULT_EPOCH_RANGE}, {"R0=1 R0=2147483648", FAULT_EPOCH_RANGE},
        {"R0=-2147483649", FAULT_EPOCH_RANGE}, {"R0=1 R0=1 E64", FAULT_EPOCH_RANGE}, {"R0=1 R0=1", FAULT_TWICE},
        {"R15=1 E1 R15=2", FAULT_TWICE}, {"R0=0x80000000 R1=0xffffffff R15=0x00", FAULT_NONE}, {"R0=0x", FAULT_EPOCH_SHAPE},
        {"R0=0x1 R0=0x123456789 R0=0x", FAULT_EPOCH_SHAPE}, {"R0=0x123456789G", FAULT_EPOCH_SHAPE},
        {"R16=0x1G", FAULT_EPOCH_SHAPE}, {"R0x0=1", FAULT_EPOCH_SHAPE}, {"E0x1", FAULT_EPOCH_SHAPE},
        {"R0=0x000000001", FAULT_EPOCH_RANGE}, {"R0=0x1 R0=0x123456789", FAULT_EPOCH_RANGE},
        {"R0=0x000000001 R0=1", FAULT_EPOCH_RANGE}, {"R0=0x1 R0=0x1 E64", FAULT_EPOCH_RANGE},
        {"R0=0x1 R0=0x00000001", FAULT_TWICE}, {"R0=1 R0=0x1", FAULT_TWICE}};
    static const char text[] = "E1 & !E2 causes A3 if R0 > 40\nE3 causes A4\nE3 causes A63\nnever A3 & A4\n";
    static const uint64_t actions[] = {3, 5, 63, 64, UINT64_MAX};
    static struct subject subject;
    const struct texts texts = {{(const uint8_t *)text, strlen(text)}, {NULL, 0}};
    size_t i, k, n;
    step = "epochs at the limits";
    make_subject(&subject, text, strlen(text));
    compare_line(&subject, NULL, 0);
    compare_decide(NULL, 0, 0, NULL, 0, NULL);
    for (i = 0; i < COUNT(lines); i++)
        for (k = 0; k < 6; k++) { /* as it is, and lengthened to 1,023 bytes and so on */
            struct decision decision;
            input->length = 0;
            add(input, lines[i].line);
            while (k > 0 && input->length < EPOCH_BYTES - 2 + k)
                add(input, " ");
            decision = compare_line(&subject, input->bytes, input->length);
            if (decision.verdict.fault != (k > 2 ? FAULT_LONG : lines[i].fault))
                fail("reference", lines[i].line);
            for (n = 0; n < COUNT(actions); n++)
                compare_explain(texts, &subject.policy, 0, input->bytes, input->length, actions[n]);
        }
    input->length = 0; /* a line as long as there is room for */
    add_times(input, "E1 ", ROOM / 3);
    compare_line(&subject, input->bytes, input->length);
}

/* Lines that stand in the image itself, as `E1  ` does in a constant: both areas are only read. */
void compare_lines_in_image(void)
{
    static const char text[] = "E1 causes A3\nE1 causes A4\n!E1 causes A5\nnever A3 & A4 if R0 < 1160847392";
    uint8_t image[IMAGE_BYTES];
    const uint8_t *lent;
    size_t size, at, length;
    int mode;
    step = "lines in the image";
    compile(current_form, (const uint8_t *)text, strlen(text), image, sizeof image, &size);
    lent = lend(text_pen, image, size);
    for (at = 0; at <= size; at++)
        for (length = 0; length <= size - at; length++)
            for (mode = CANCEL_ACTIONS; mode <= CANCEL_EVENTS; mode++) {
                struct decision wanted = decide(image, size, 0, image + at, length, (enum mode)mode);
                struct kinohazel_state state = KINOHAZEL_STATE_START;
                if (!agree(deciders[mode].library(lent, size, 0, lent + at, length), wanted)
                    || !agree(deciders[mode].step(lent, size, &state, lent + at, length), wanted) || !same(lent, image, size))
                    fail_on(deciders[mode].name, "a line in the image is decided otherwise", image + at, length);
                tally.lines_in_images[mode] += wanted.cancelled != 0;
                tally.comparisons++;
            }
}

/* Decisions that take all there can be */

void begin(struct subject *subject, const struct buffer *text)
{
    compare_compile(text->bytes, text->length, IMAGE_BYTES);
    make_subject(subject, text->bytes, text->length);
}

void expect(const struct subject *subject, const struct buffer *line, uint64_t accepted, uint64_t cancelled)
{
    struct decision decision = compare_line(subject, line->bytes, line->length);
    if (decision.accepted != accepted || decision.cancelled != cancelled)
        fail_on("reference", "not the sets that the test names", line->bytes, line->length);
}

/* The actions from `from` to `until`. */
static uint64_t actions(unsigned from, unsigned until)
{
    uint64_t set = 0;
    while (from < until)
        set |= UINT64_C(1) << from++;
    return set;
}

/* Every event proposes the action of its number; all of them, and all but one. */
static void compare_all_events(struct subject *subject, struct buffer *text, struct buffer *line)
{
    unsigned i, out;
    step = "all events";
    text->length = 0;
    for (i = 0; i < EVENTS; i++)
        add_format(text, "E%u causes A%u\n", i, i);
    begin(subject, text);
    for (out = 0; out <= EVENTS; out++) {
        line->length = 0;
        for (i = 0; i < EVENTS; i++)
            if (i != out)
                add_format(line, "E%u ", out % 2 == 0 ? i : EVENTS - 1 - i);
        i = out % 2 == 0 ? out : EVENTS - 1 - out;
        expect(subject, line, out == EVENTS ? UINT64_MAX : ~(UINT64_C(1) << i), 0);
    }
}

/* All actions are proposed, and some of them cancelled: by lines that name one action, the first ones or the last ones, or by
   lines that name A0 and another. */
static void compare_all_actions(struct subject *subject, struct buffer *text, struct buffer *line)
{
    unsigned count, kind, i;
    step = "all actions";
    for (count = 0; count <= ACTIONS; count++)
        for (kind = 0; kind < 3; kind++) {
            unsigned from = kind == 0 ? 0 : kind == 1 ? ACTIONS - count : 1, until = from + count;
            if (until > ACTIONS)
                continue;
            text->length = 0;
            for (i = 0; i < ACTIONS; i++)
                add_format(text, "E0 causes A%u\n", i);
            for (i = from; i < until; i++)
                add_format(text, "never %sA%u\n", kind == 2 ? "A0 & " : "", i);
            begin(subject, text);
            line->length = 0;
            add(line, "E0");
            expect(subject, line, ~actions(from, until), actions(from, until));
        }
}

/* Each of 16 readings has a value of its own. All of them are given, and then all but one: no rule looks at the missing one with
   success, and every never line holds that does. */
static void compare_all_readings(struct subject *subject, struct buffer *text, struct buffer *line)
{
    static const long values[READINGS] = {1, -1, 2147483647, -2147483648, 65536, -65536, 255, -256, 1000000007, -1000000007,
        32767, -32768, 2147483646, -2147483647, 40, -40};
    unsigned i, out;
    step = "all readings";
    text->length = 0;
    for (i = 0; i < READINGS; i++) {
        add_format(text, "!E0 causes A%u if R%u = %ld\n", i, i, values[i]);
        add_format(text, "!E0 causes A%u if R%u != %ld\n", READINGS + i, i, values[i]);
        add_format(text, "!E0 causes A%u\nnever A%u if R%u = %ld\n", 2 * READINGS + i, 2 * READINGS + i, i, values[i]);
        add_format(text, "!E0 causes A%u\nnever A%u if R%u != %ld\n", 3 * READINGS + i, 3 * READINGS + i, i, values[i]);
    }
    begin(subject, text);
    for (out = 0; out <= READINGS; out++) {
        uint64_t given = actions(0, READINGS), cancelled = given << 2 * READINGS;
        if (out < READINGS)
            given &= ~(UINT64_C(1) << out);
        cancelled |= (actions(0, READINGS) & ~given) << 3 * READINGS;
        line->length = 0;
        for (i = 0; i < READINGS; i++) {
            unsigned reading = out % 2 == 0 ? i : READINGS - 1 - i;
            if (reading != out)
                add_format(line, "R%u=%ld ", reading, values[reading]);
        }
        expect(subject, line, given | given << 3 * READINGS, cancelled);
    }
}

/* E63 and R15 at the end of a line, behind spaces or behind other tokens. */
static void compare_far(struct subject *subject, struct buffer *text, struct buffer *line)
{
    static const char *const tokens[] = {"E63", "R15=-7", "R15=2147483647"};
    static const char *const fillings[] = {" ", "E5 ", "E62  ", "R14=-7 E7 E7 E7 "};
    unsigned i, k;
    size_t length;
    step = "long lines";
    text->length = 0;
    add(text, "E63 causes A0\n!E63 causes A1\n!E0 causes A2 if R15 = -7\n!E0 causes A3 if R15 = 2147483647\n");
    begin(subject, text);
    for (i = 0; i < COUNT(tokens); i++)
        for (k = 0; k < COUNT(fillings); k++)
            for (length = 1000; length <= EPOCH_BYTES; length++) {
                line->length = 0;
                add(line, fillings[k]);
                while (k != 3 && line->length + strlen(fillings[k]) + strlen(tokens[i]) <= length)
                    add(line, fillings[k]);
                while (line->length + strlen(tokens[i]) < length)
                    add(line, " ");
                add(line, tokens[i]);
                expect(subject, line, i == 0 ? 1 : i == 1 ? 2 + 4 : 2 + 8, 0);
            }
}

static void expect_words(const struct subject *subject, const struct buffer *line, size_t visited)
{
    if (compare_line(subject, line->bytes, line->length).visited != visited)
        fail_on("reference", "not as many words as the test names", line->bytes, line->length);
}

/* All rules hold and all actions are tried. Without never lines all words are visited. With them P + 64 * N is out of reach: the
   ending of a never line is visited only in a trial in which the line holds, which is one at most, since the action that makes it
   hold is cancelled. That trial ends there, so the words behind are left out too, unless the line is the last. So of L never lines
   at least 64 * L - 1 words are left out. */
static void compare_all_words(struct subject *subject, struct buffer *text, struct buffer *line)
{
    static const struct {
        const char *constraints;
        size_t left_out;
    } cases[] = {{"", 0}, {"never A0\n", 63}, {"never A0 & A1\n", 63}, {"never A0 & A63\n", 63},
        {"never A0 if R0 = 0 , R0 != 1 , R0 <= R0 , R0 > 0\n", 64}, {"never A0 if R0 != R0\nnever A0 & A63\n", 127},
        {"never A0 & A63\nnever A0 if R0 < 0\n", 130}};
    size_t i;
    unsigned action;
    step = "all words";
    line->length = 0;
    add(line, "E0 R0=0");
    for (i = 0; i < COUNT(cases); i++) {
        text->length = 0;
        for (action = 0; action < ACTIONS; action++)
            add_format(text, "E0 causes A%u if R0 = 0\n", action);
        add(text, cases[i].constraints);
        begin(subject, text);
        expect_words(subject, line, visit_limit(subject->image, CANCEL_ACTIONS) - cases[i].left_out);
    }
    text->length = 0;
    add_most_visited(text);
    begin(subject, text);
    if (visit_limit(subject->image, CANCEL_ACTIONS) != 71808 || MOST_VISITED != 62784)
        fail("reference", "not 71,808 words as the limit, or 62,784 as the most");
    line->length = 0;
    add_epoch_of_largest(line);
    expect_words(subject, line, MOST_VISITED);
}

void compare_extremes(struct buffer *text, struct buffer *line)
{
    static struct subject subject;
    compare_all_events(&subject, text, line);
    compare_all_actions(&subject, text, line);
    compare_all_readings(&subject, text, line);
    compare_far(&subject, text, line);
    compare_all_words(&subject, text, line);
}
