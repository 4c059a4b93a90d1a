/* Two texts as one, and why an action is issued or not by them. */
#include "compare.h"

#include <stdlib.h>
#include <string.h>

struct verdict compare_texts_rooms(struct texts texts, struct dice *dice)
{
    static uint8_t output[IMAGE_BYTES];
    size_t size;
    struct verdict verdict = compile_texts(current_form, texts, output, sizeof output, &size);
    compare_texts(texts, IMAGE_BYTES);
    compare_texts(texts, 0);
    compare_texts(texts, below(dice, MOST_ROOM + 1));
    if (verdict.fault != FAULT_NONE)
        return verdict;
    compare_texts(texts, size);
    compare_texts(texts, size - 1);
    compare_texts(texts, below(dice, (unsigned)size));
    return verdict;
}

void compare_beside_empty(const uint8_t *text, size_t length)
{
    static uint8_t alone[IMAGE_BYTES], beside[IMAGE_BYTES];
    struct kinohazel_compilation one = kinohazel_compile(current_form, text, length, alone, sizeof alone);
    bool refused = one.fault != KINOHAZEL_OK && one.fault != KINOHAZEL_IMAGE_FORM;
    uint64_t owner;
    for (owner = MAKER; owner <= SITE; owner++) {
        struct kinohazel_texts_compilation two = owner == MAKER
            ? kinohazel_compile_texts(current_form, text, length, NULL, 0, beside, sizeof beside)
            : kinohazel_compile_texts(current_form, NULL, 0, text, length, beside, sizeof beside);
        if (two.fault != one.fault || two.line != one.line || two.size != one.size || two.text != (refused ? owner : NEITHER)
            || !same(alone, beside, (size_t)one.size))
            fail_on("kinohazel_compile_texts", "a text beside an empty one is not compiled as alone", text, length);
        tally.comparisons++;
    }
}

void compare_any_texts(struct buffer *maker, struct buffer *site, struct dice *dice)
{
    unsigned kind;
    step = "two texts";
    for (kind = 0; kind < 10; kind++) {
        struct texts texts;
        maker->length = site->length = 0;
        add_texts(maker, site, dice, kind);
        texts = texts_of(maker, site);
        if (compare_texts_rooms(texts, dice).fault != FAULT_NONE)
            compare_explain(texts, NULL, any_pending(dice), (const uint8_t *)"E1", 2, chance(dice, 500) ? 1 : roll(dice));
        compare_beside_empty(maker->bytes, maker->length);
    }
}

/* Two texts that are accepted, with their policy and their image by the library. */
struct pair {
    struct texts texts;
    struct policy policy;
    uint8_t image[IMAGE_BYTES];
    size_t size;
};

static void make_pair(struct pair *pair, struct texts texts)
{
    struct kinohazel_texts_compilation answer = kinohazel_compile_texts(current_form,
        texts.maker.bytes, texts.maker.length, texts.site.bytes, texts.site.length, pair->image, sizeof pair->image);
    if (answer.fault != KINOHAZEL_OK || read_texts(current_form, texts, &pair->policy).fault != FAULT_NONE)
        fail("kinohazel_compile_texts", "two texts are refused");
    pair->texts = texts;
    pair->size = (size_t)answer.size;
}

/* An action is explained as the image of both texts decides it. */
static struct explanation compare_action(
    const struct pair *pair, event_set pending, const uint8_t *line, size_t length, uint64_t action)
{
    struct explanation why = compare_explain(pair->texts, &pair->policy, pending, line, length, action);
    struct kinohazel_decision decision = kinohazel_decide(pair->image, pair->size, pending, line, length);
    enum outcome due = NOT_PROPOSED;
    if (why.verdict.fault != FAULT_NONE) {
        if (decision.fault != (uint64_t)why.verdict.fault && (decision.fault != KINOHAZEL_OK || action < ACTIONS))
            fail_on("kinohazel_explain", "refused otherwise than it is decided", line, length);
        return why;
    }
    if (in_set(decision.accepted | decision.cancelled, (unsigned)action))
        due = in_set(decision.accepted, (unsigned)action) ? IS_ACCEPTED : IS_CANCELLED;
    if (decision.fault != KINOHAZEL_OK || why.outcome != due)
        fail_on("kinohazel_explain", "explained otherwise than it is decided", line, length);
    return why;
}

static const uint64_t no_actions[] = {64, 65, 127, 128, 255, 256, 259, UINT64_C(1) << 31, UINT64_C(1) << 32,
    (UINT64_C(1) << 32) + 3, UINT64_C(1) << 63, UINT64_MAX - 60, UINT64_MAX};

/* Every action, and numbers that are none. */
static void compare_every_action(const struct pair *pair, event_set pending, const void *line, size_t length)
{
    uint64_t action;
    size_t i;
    for (action = 0; action < ACTIONS; action++)
        compare_action(pair, pending, line, length, action);
    for (i = 0; i < COUNT(no_actions); i++)
        compare_action(pair, pending, line, length, no_actions[i]);
}

void compare_why(const struct buffer *input, size_t text_length, size_t at, struct buffer *maker, struct buffer *site,
    struct dice *dice)
{
    static struct pair pair;
    const uint8_t *line;
    size_t length;
    event_set pending = any_pending(dice);
    unsigned lines, i;
    step = "why";
    maker->length = site->length = 0;
    split_text(input->bytes, text_length, dice, maker, site);
    if (compare_texts_rooms(texts_of(maker, site), dice).fault != FAULT_NONE)
        return;
    make_pair(&pair, texts_of(maker, site));
    for (lines = 0; lines < 20 && next_line(input->bytes, input->length, &at, &line, &length); lines++) {
        struct decision decision = compare_decide(pair.image, pair.size, pending, line, length, &pair.policy);
        if (lines == 0)
            compare_every_action(&pair, pending, line, length);
        for (i = 0; i < 4; i++)
            compare_action(
                &pair, pending, line, length, chance(dice, 950) ? below(dice, i < 3 ? 6 : ACTIONS) : CHOOSE(dice, no_actions));
        pending = pending_after(pending, decision);
    }
}

/* Limits */

static struct slice string(const char *bytes)
{
    struct slice slice = {(const uint8_t *)bytes, strlen(bytes)};
    return slice;
}

static struct slice slice_of(const struct buffer *buffer)
{
    struct slice slice = {buffer->bytes, buffer->length};
    return slice;
}

static void compare_limit(struct slice maker, struct slice site, struct dice *dice)
{
    struct texts texts = {maker, site};
    compare_texts_rooms(texts, dice);
    compare_explain(texts, NULL, 0, (const uint8_t *)"E1", 2, 3);
    compare_explain(texts, NULL, 2, (const uint8_t *)"", 0, 3);
    compare_explain(texts, NULL, 0, (const uint8_t *)"E64", 3, 64);
}

/* Texts about as long as they may be, beside others. */
static void compare_text_lengths(struct buffer *text, struct buffer *full, struct dice *dice)
{
    static const char *const others[] = {"", "E1 causes A2\n", "\nE64 causes A2", "E1 causes"};
    size_t length, i;
    step = "lengths of two texts";
    full->length = 0;
    add_length(full, TEXT_BYTES, true);
    for (length = TEXT_BYTES - 1; length <= TEXT_BYTES + 2; length++) {
        text->length = 0;
        add_length(text, length, length % 2 == 0);
        compare_limit(slice_of(text), slice_of(text), dice);
        compare_limit(slice_of(text), slice_of(full), dice);
        compare_limit(slice_of(full), slice_of(text), dice);
        for (i = 0; i < COUNT(others); i++) {
            compare_limit(slice_of(text), string(others[i]), dice);
            compare_limit(string(others[i]), slice_of(text), dice);
        }
    }
}

/* About as many rules or never lines as there may be, over the two texts in all ways. */
static void compare_shared_lines(struct buffer *maker, struct buffer *site)
{
    unsigned rule, all, first;
    step = "lines of two texts";
    for (rule = 0; rule < 2; rule++) {
        const char *line = rule ? "E0 causes A0\n" : "never A0\n";
        unsigned limit = rule ? RULES : CONSTRAINTS;
        for (all = limit; all <= limit + 1; all++)
            for (first = 0; first <= all; first++) {
                struct verdict verdict;
                size_t due = all == limit ? 0 : first == all ? all : all - first;
                maker->length = site->length = 0;
                add_times(maker, line, first);
                maker->length -= first % 3 == 1;
                add_times(site, line, all - first);
                verdict = compare_texts(texts_of(maker, site), IMAGE_BYTES);
                if (verdict.location != due || verdict.text != (due == 0 ? NEITHER : first == all ? MAKER : SITE))
                    fail("reference", "not the text and the line of the 129th rule or the 65th never line");
                compare_explain(texts_of(maker, site), NULL, 0, (const uint8_t *)"E0", 2, 0);
            }
    }
}

/* Each line of two texts is shown for one action, at every place, with spaces around it. */
static void compare_each_part(struct buffer *maker, struct buffer *site, struct dice *dice)
{
    static struct pair pair;
    unsigned n, spaces;
    step = "parts";
    for (spaces = 0; spaces < 3; spaces++) {
        maker->length = site->length = 0;
        for (n = 0; n < ACTIONS; n++) {
            struct buffer *to = n % 3 == 0 ? site : maker;
            add_times(to, " ", spaces * below(dice, 4));
            add_format(to, "E%u causes A%u", n, n);
            add_times(to, " ", spaces * below(dice, 4));
            add(to, chance(dice, 200) ? "\n# \n\n" : "\n");
            to = n % 2 == 0 ? site : maker;
            add_times(to, " ", spaces * below(dice, 4));
            add_format(to, "never A%u if R0 = %u", n, n);
            add_times(to, " ", spaces * below(dice, 4));
            add(to, "\n");
        }
        maker->length -= spaces != 1;
        make_pair(&pair, texts_of(maker, site));
        for (n = 0; n < ACTIONS; n++) {
            char line[40];
            int length = sprintf(line, "E%u R0=%u", n, n % 4 == 0 ? 64 : n);
            struct explanation why = compare_action(&pair, 0, (const uint8_t *)line, (size_t)length, n);
            enum owner due = n % 4 == 0 ? (n % 3 == 0 ? SITE : MAKER) : n % 2 == 0 ? SITE : MAKER;
            if (why.shown.text != due)
                fail("reference", "not the part that the test names");
        }
    }
}

/* A line that is shown as long as a text may be. */
static void compare_longest_part(struct buffer *maker, struct buffer *site)
{
    static struct pair pair;
    struct explanation why;
    step = "the longest part";
    maker->length = site->length = 0;
    add(maker, "E1");
    add_times(maker, " ", TEXT_BYTES - 11);
    add(maker, "causes A1");
    add(site, "never");
    add_times(site, " ", TEXT_BYTES - 17);
    add(site, "A1 if R0 > 5");
    make_pair(&pair, texts_of(maker, site));
    compare_every_action(&pair, 0, "E1 R0=5", 7);
    compare_every_action(&pair, 2, "R0=6", 4);
    why = compare_action(&pair, 0, (const uint8_t *)"E1 R0=5", 7, 1);
    if (why.shown.length != TEXT_BYTES)
        fail("reference", "the longest part has not 32,768 bytes");
}

/* Every byte in the place of each byte of a text, and between each two. The text is the maker's or the site's. */
static void compare_bytes_of(const char *text, const char *other, enum owner owner, struct buffer *work)
{
    unsigned byte, inserted;
    size_t at;
    for (byte = 0; byte < 256; byte++)
        for (inserted = 0; inserted < 2; inserted++)
            for (at = 0; at < strlen(text) + inserted; at++) {
                uint8_t one = (uint8_t)byte;
                struct texts texts = {string(other), string(other)};
                work->length = 0;
                add(work, text);
                splice(work, at, at + !inserted, &one, 1);
                *(owner == MAKER ? &texts.maker : &texts.site) = slice_of(work);
                compare_texts(texts, IMAGE_BYTES);
                compare_explain(texts, NULL, 0, (const uint8_t *)"E1 E3 R0=41 R1=0", 16, 3 + at % 2);
            }
}

static void compare_text_bytes(struct buffer *work)
{
    static const char maker[] = " E1 & !E2 causes A3 if R0 > 40\nnever A3 & A4",
                      site[] = "# \nE3 causes A4 \nnever A3 if R1 < -7";
    step = "every byte of two texts";
    compare_bytes_of(maker, site, MAKER, work);
    compare_bytes_of(site, maker, SITE, work);
}

/* Both texts and the line lie in the same bytes, which are only read. */
static void compare_overlapping(void)
{
    static const char bytes[] = "E1 E2\nE1 causes A3\nE1 causes A4\nnever A3 & A4\nE1";
    const size_t length = sizeof bytes - 1;
    const uint8_t *lent = lend(text_pen, (const uint8_t *)bytes, length);
    const struct slice text = {lent + 6, length - 8}, first = {lent, 5};
    size_t from, until, n;
    step = "texts in the same bytes";
    for (from = 0; from <= length; from++)
        for (until = from; until <= length; until++)
            for (n = 0; n < 4; n++) {
                struct slice piece = {lent + from, until - from}, line = n < 2 ? first : piece;
                struct texts texts = {n % 2 == 0 ? text : piece, n % 2 == 0 ? piece : text};
                struct explanation wanted = explain(texts, 0, line.bytes, line.length, 4);
                if (!agree_why(kinohazel_explain(texts.maker.bytes, texts.maker.length, texts.site.bytes, texts.site.length, 0,
                                   line.bytes, line.length, 4),
                        wanted)
                    || !same(lent, (const uint8_t *)bytes, length))
                    fail_on("kinohazel_explain", "texts in the same bytes are explained otherwise", piece.bytes, piece.length);
                tally.overlapping += wanted.outcome == IS_CANCELLED;
                tally.comparisons++;
            }
}

/* The largest texts, split, and every action. */
static void compare_largest_pair(struct buffer *maker, struct buffer *site, struct dice *dice)
{
    static struct pair pair;
    struct buffer text = new_buffer(), epochs = new_buffer();
    const uint8_t *line;
    size_t at, length;
    unsigned i;
    step = "the largest texts";
    add_epochs_of_largest(&epochs);
    for (i = 0; i < 8; i++) {
        text.length = maker->length = site->length = 0;
        if (i % 2 == 0)
            add_largest(&text);
        else
            add_widest(&text, current_form);
        split_text(text.bytes, text.length, dice, maker, site);
        compare_texts_rooms(texts_of(maker, site), dice);
        make_pair(&pair, texts_of(maker, site));
        for (at = 0; next_line(epochs.bytes, epochs.length, &at, &line, &length);)
            compare_every_action(&pair, UINT64_C(1) << 31, line, length);
    }
    free(text.bytes);
    free(epochs.bytes);
}

void compare_limit_joint(struct buffer *maker, struct buffer *site, struct dice *dice)
{
    compare_text_lengths(maker, site, dice);
    compare_shared_lines(maker, site);
    compare_each_part(maker, site, dice);
    compare_longest_part(maker, site);
    compare_text_bytes(maker);
    compare_overlapping();
    compare_largest_pair(maker, site, dice);
}
