/* Lines that trigger events, and what is remembered from one epoch to the next. */
#include "compare.h"

#include <string.h>

/* What a decision shows */

/* Whether the answer would be another if nothing were pending. */
static bool occurs(const struct policy *policy, const uint8_t *line, size_t length, struct decision decision, enum mode mode)
{
    struct decision alone = decide_by_policy(policy, 0, line, length, mode);
    return alone.verdict.fault != decision.verdict.fault || alone.accepted != decision.accepted
        || alone.cancelled != decision.cancelled || alone.triggered != decision.triggered;
}

void count_remembered(const struct policy *policy, event_set pending, const struct epoch *epoch, const uint8_t *line, size_t length,
    struct decision decision, enum mode mode)
{
    unsigned long *counts = tally.remembered[mode];
    struct epoch named;
    event_set kept = epoch->present;
    if (pending == 0 && reserved(policy) == 0)
        return;
    read_epoch(line, length, &named);
    if (mode == CANCEL_EVENTS)
        kept_events(policy, epoch, &kept);
    counts[ONE_TRIGGERED] += decision.triggered != 0;
    counts[ALL_TRIGGERED] += decision.triggered == UINT64_MAX;
    counts[OCCURS] += pending != 0 && occurs(policy, line, length, decision, mode);
    counts[NAMED_TOO] += (named.present & pending) != 0;
    counts[WITH_CANCELLED] += decision.cancelled != 0 && decision.triggered != 0;
    counts[NOT_TRIGGERED] += decision.triggered != triggered(policy, epoch);
    counts[PENDING_DROPPED] += (pending & ~kept) != 0;
}

void count_step(event_set pending, struct decision decision, enum mode mode)
{
    unsigned long *counts = tally.remembered[mode];
    bool taken = decision.verdict.fault == FAULT_NONE;
    tally.steps[mode][decision.verdict.fault]++;
    counts[KEPT_PENDING] += !taken && pending != 0;
    counts[FORGOTTEN] += taken && (pending & ~decision.triggered) != 0;
    counts[AGAIN] += taken && (pending & decision.triggered) != 0;
}

event_set any_pending(struct dice *dice)
{
    event_set set = 0;
    unsigned count = chance(dice, 500) ? below(dice, 4) : 0;
    if (chance(dice, 30))
        return chance(dice, 500) ? UINT64_MAX : roll(dice);
    while (count-- > 0)
        set |= UINT64_C(1) << below(dice, chance(dice, 800) ? 12 : EVENTS);
    return set;
}

/* Sessions */

void compare_session(const struct subject *subject, const struct buffer *input, size_t at, struct dice *dice)
{
    struct kinohazel_state state = KINOHAZEL_STATE_START;
    event_set pending = 0;
    const uint8_t *line;
    size_t length;
    step = "sessions";
    while (next_line(input->bytes, input->length, &at, &line, &length)) {
        enum mode mode = chance(dice, 500) ? CANCEL_ACTIONS : CANCEL_EVENTS;
        struct decision plain = decide_by_policy(&subject->policy, pending, line, length, mode);
        struct kinohazel_decision answer = deciders[mode].step(subject->image, subject->size, &state, line, length);
        plain.visited = (size_t)answer.visited; /* the plain machine counts none */
        pending = pending_after(pending, plain);
        if (!agree(answer, plain) || state.pending != pending)
            fail_on(deciders[mode].step_name, "not the answer of the plain machine, or not what it remembers", line, length);
        tally.comparisons++;
    }
    tally.sessions++;
}

/* Known answers to lines, one after the other; the first begins with nothing pending. */
struct scan {
    const char *line;
    enum fault fault;
    uint64_t accepted, cancelled, triggered;
    size_t visited;
};

static void expect_session(struct buffer *text, const char *lines, enum mode mode, const struct scan *scans, size_t count)
{
    static struct subject subject;
    event_set pending = 0;
    size_t i;
    text->length = 0;
    add(text, lines);
    begin(&subject, text);
    for (i = 0; i < count; i++) {
        const uint8_t *line = (const uint8_t *)scans[i].line;
        size_t length = strlen(scans[i].line);
        struct decision decision = compare_mode(subject.image, subject.size, pending, line, length, &subject.policy, mode);
        if (decision.verdict.fault != scans[i].fault || decision.verdict.location != 0 || decision.accepted != scans[i].accepted
            || decision.cancelled != scans[i].cancelled || decision.triggered != scans[i].triggered
            || decision.visited != scans[i].visited)
            fail_on("reference", "not the answer that the session names", line, length);
        pending = pending_after(pending, decision);
    }
}

#define A(n) (UINT64_C(1) << (n))
#define E(n) (UINT64_C(1) << (n))

static const char chain[] = "E1 triggers E60\nE60 causes A2\nE2 causes A1\nnever A1 & A2\n",
                  stop[] = "E0 causes A0\nE1 causes A1\nE1 triggers E2\n!E1 triggers E3\nE2 causes A2\nnever A0 & A1\nnever A0 & A2\n",
                  absent[] = "E1 triggers E9\nE9 causes A1\n!E0 causes A2\nnever A2 if R0 > 5\n",
                  again[] = "E5 triggers E5\n!E5 & E1 triggers E5\n";

static void compare_known(struct buffer *text)
{
    static const struct scan by_actions[] = {{"E1", FAULT_NONE, 0, 0, E(60), 4}, {"", FAULT_NONE, A(2), 0, 0, 5},
        {"", FAULT_NONE, 0, 0, 0, 3}, {"E1", FAULT_NONE, 0, 0, E(60), 4}, {"E64", FAULT_EPOCH_RANGE, 0, 0, 0, 0},
        {"E1 E2", FAULT_NONE, A(1), A(2), E(60), 11}, {"E2", FAULT_NONE, A(1), A(2), 0, 10}, {"E60", FAULT_RESERVED, 0, 0, 0, 0},
        {"E2", FAULT_NONE, A(1), 0, 0, 6}};
    /* E60 is tried behind E1 and E2, and dropped because of E2 */
    static const struct scan by_events[] = {{"E1", FAULT_NONE, 0, 0, E(60), 4 + 5}, {"", FAULT_NONE, A(2), 0, 0, 4 + 5},
        {"", FAULT_NONE, 0, 0, 0, 4}, {"E1", FAULT_NONE, 0, 0, E(60), 4 + 5}, {"E64", FAULT_EPOCH_RANGE, 0, 0, 0, 0},
        {"E1 E2", FAULT_NONE, A(1), A(2), E(60), 4 + 5 + 7 + 9}, {"E2", FAULT_NONE, A(1), A(2), 0, 4 + 6 + 8},
        {"E60", FAULT_RESERVED, 0, 0, 0, 0}, {"E2", FAULT_NONE, A(1), 0, 0, 4 + 6}};
    /* a cancelled action stops no trigger */
    static const struct scan stop_actions[] = {{"E0 E1", FAULT_NONE, A(0), A(1), E(2), (2 + 2 + 2 + 1 + 1) + (2 + 1) + (1 + 3)},
        {"E0", FAULT_NONE, A(0), A(2), E(3), (2 + 1 + 1 + 2 + 2) + (2 + 2) + (2 + 3)}, {"E3", FAULT_RESERVED, 0, 0, 0, 0},
        {"E1", FAULT_NONE, A(1), 0, E(2), (1 + 2 + 2 + 1 + 1) + (1 + 1)}};
    /* a dropped event triggers nothing, and is not absent */
    static const struct scan stop_events[] = {{"E0 E1", FAULT_NONE, A(0), A(1), 0, (5 + 2) + (6 + 2 + 2) + (8 + 3)},
        {"E1", FAULT_NONE, A(1), 0, E(2), (5 + 2) + (7 + 2)}, {"E0 E2", FAULT_RESERVED, 0, 0, 0, 0},
        {"E0", FAULT_NONE, A(0), A(2), E(3), (6 + 2) + (7 + 2 + 2) + (8 + 2 + 3)}};
    /* each refusal leaves E9 pending; 18 comes behind 14 and before 17 */
    static const struct scan refused[] = {{"E0 E1 R0=0", FAULT_NONE, 0, 0, E(9), 4 + 4 + 5}, {"x E9", FAULT_EPOCH_SHAPE, 0, 0, 0, 0},
        {"E64 E9", FAULT_EPOCH_RANGE, 0, 0, 0, 0}, {"E9 R0=6 R0=6", FAULT_TWICE, 0, 0, 0, 0}, {"E9 R0=6", FAULT_RESERVED, 0, 0, 0, 0},
        {"R0=6", FAULT_UNAVOIDABLE, 0, 0, 0, 0}, {"", FAULT_UNAVOIDABLE, 0, 0, 0, 0}, {"R0=5", FAULT_NONE, A(1) | A(2), 0, 0, 7 + 8},
        {"E9 E9 R0=5", FAULT_RESERVED, 0, 0, 0, 0}, {"R0=5", FAULT_NONE, A(2), 0, 0, 7}};
    static const struct scan own[] = {{"E1", FAULT_NONE, 0, 0, E(5), 1 + 3}, {"", FAULT_NONE, 0, 0, E(5), 2 + 1},
        {"E1", FAULT_NONE, 0, 0, E(5), 2 + 1}, {"E5", FAULT_RESERVED, 0, 0, 0, 0}, {"R0=1", FAULT_NONE, 0, 0, E(5), 2 + 1}};
    step = "known sessions";
    expect_session(text, chain, CANCEL_ACTIONS, by_actions, COUNT(by_actions));
    expect_session(text, chain, CANCEL_EVENTS, by_events, COUNT(by_events));
    expect_session(text, stop, CANCEL_ACTIONS, stop_actions, COUNT(stop_actions));
    expect_session(text, stop, CANCEL_EVENTS, stop_events, COUNT(stop_events));
    expect_session(text, absent, CANCEL_EVENTS, refused, COUNT(refused));
    expect_session(text, again, CANCEL_ACTIONS, own, COUNT(own));
}

/* Every refusal that an epoch or an image can have leaves the state as it was, and is the same whatever is pending. */
static void compare_refusals(struct buffer *text, struct buffer *line)
{
    static struct subject subject;
    static const event_set pendings[] = {0, E(9), E(0) | E(63), UINT64_MAX};
    static const char *const lines[] = {"x E9", "E64 E9", "E9 R0=6 R0=6", "E9 R0=6", "E9", "E9 E1"};
    size_t i, k, n;
    step = "refused steps";
    text->length = 0;
    add(text, absent);
    begin(&subject, text);
    for (k = 0; k < COUNT(pendings); k++)
        for (n = 0; n < 3; n++) { /* so that each is a step once */
            for (i = 0; i < COUNT(lines); i++)
                compare_line_after(&subject, pendings[k], lines[i], strlen(lines[i]));
            line->length = 0;
            add_times(line, "E9 ", EPOCH_BYTES / 2);
            compare_line_after(&subject, pendings[k], line->bytes, EPOCH_BYTES + 1);
            compare_line_after(&subject, pendings[k], line->bytes, EPOCH_BYTES);
            for (i = 0; i < subject.size; i += 3) {
                subject.image[i] ^= 4;
                compare_decide(subject.image, subject.size, pendings[k], (const uint8_t *)"E9", 2, NULL);
                put_check_words(subject.image, subject.size / WORD_BYTES, (unsigned)current_form);
                compare_decide(subject.image, subject.size, pendings[k], (const uint8_t *)"E0 E1", 5, NULL);
                make_subject(&subject, text->bytes, text->length);
            }
            tally.comparisons++;
        }
}

/* Each event is triggered, occurs once and may not be named; then all of them. */
static void compare_each_event(struct buffer *text)
{
    static struct subject subject;
    unsigned event;
    step = "each event triggered";
    for (event = 0; event < EVENTS; event++) {
        char lines[100], first[8], named[16];
        unsigned other = (event + 1) % EVENTS;
        uint64_t one = UINT64_C(1) << event;
        const struct scan scans[] = {{first, FAULT_NONE, 0, 0, one, 3}, {named, FAULT_RESERVED, 0, 0, 0, 0},
            {"", FAULT_NONE, one, 0, 0, 3}, {named, FAULT_RESERVED, 0, 0, 0, 0}, {"", FAULT_NONE, 0, 0, 0, 2},
            {first, FAULT_NONE, 0, 0, one, 3}, {first, FAULT_NONE, one, 0, one, 4}, {"", FAULT_NONE, one, 0, 0, 3}};
        sprintf(lines, "E%u triggers E%u\nE%u causes A%u\n", other, event, event, event);
        sprintf(first, "E%u", other);
        sprintf(named, "E%u E%u", other, event);
        expect_session(text, lines, CANCEL_ACTIONS, scans, COUNT(scans));
    }
    text->length = 0;
    for (event = 0; event < EVENTS; event++)
        add_format(text, "E0 triggers E%u\nE%u causes A%u\n", event, event, EVENTS - 1 - event);
    begin(&subject, text);
    for (event = 0; event < EVENTS; event++) {
        event_set pending = UINT64_C(1) << event | 1;
        struct decision decision = compare_line_after(&subject, pending, "", 0);
        if (decision.triggered != UINT64_MAX || size_of_set(decision.accepted) != (event == 0 ? 1 : 2))
            fail("reference", "E0 does not trigger all events");
        if (compare_line_after(&subject, UINT64_MAX, "", 0).accepted != UINT64_MAX)
            fail("reference", "not every pending event occurs");
    }
}

/* The forms: from form 3 on the images differ in word 0 and the check words alone. */

static void compare_body(struct buffer *text)
{
    static uint8_t image[IMAGE_BYTES], other[IMAGE_BYTES];
    struct kinohazel_compilation one, two;
    size_t body;
    step = "forms that trigger";
    text->length = 0;
    add(text, stop);
    add(text, absent);
    one = kinohazel_compile(TRIGGER_FORM, text->bytes, text->length, image, sizeof image);
    two = kinohazel_compile(current_form, text->bytes, text->length, other, sizeof other);
    body = (size_t)one.size - (1 + CHECK_WORDS) * WORD_BYTES;
    if (one.fault != KINOHAZEL_OK || two.fault != KINOHAZEL_OK || one.size != two.size || image[0] != TRIGGER_FORM
        || other[0] != current_form || !same(image + 1, other + 1, WORD_BYTES - 1 + body))
        fail("kinohazel_compile", "the image has another body than in form 3");
}

/* In forms 1 and 2 a line that triggers has neither shape, before all its other faults, and no image has operation 8. */
static void compare_lower(struct buffer *text, struct dice *dice)
{
    static const struct {
        const char *text;
        enum fault fault;
        size_t line;
    } texts[] = {{"E1 triggers E60", FAULT_SHAPE, 1}, {"E1 causes A1\nnever A1\n\nE1 triggers E2\nx", FAULT_SHAPE, 4},
        {"E64 triggers E1", FAULT_SHAPE, 1}, {"E1 & E1 triggers E64", FAULT_SHAPE, 1}, {"# E1 triggers E60\n", FAULT_NONE, 0},
        {"E64 causes A1\nE1 triggers E60", FAULT_RANGE, 1}};
    static struct policy policy;
    static uint8_t image[IMAGE_BYTES];
    size_t i, size;
    struct verdict verdict;
    step = "forms that do not trigger";
    for (i = 0; i < COUNT(texts); i++) {
        text->length = 0;
        add(text, texts[i].text);
        verdict = compare_rooms(text->bytes, text->length, dice);
        if (verdict.fault != texts[i].fault || verdict.location != texts[i].line)
            fail("reference", texts[i].text);
    }
    text->length = 0;
    add(text, "E1 causes A1\nE1 & E2 causes A2 if R0 > 5\nE3 triggers E4\nnever A1\n");
    read_text(TRIGGER_FORM, text->bytes, text->length, &policy);
    size = write_image((unsigned)current_form, &policy, image);
    verdict = compare_check(image, size);
    if (verdict.fault != FAULT_BODY || verdict.location != 8)
        fail("reference", "an image of form 1 or 2 with operation 8 is not refused under 11 at its line");
    compare_damaged(image, size, dice);
    compare_text(image, size, WRITTEN_BYTES);
}

/* Shapes of lines that trigger, and the order of their faults. */
static void compare_shapes(struct buffer *text, struct dice *dice)
{
    static const struct {
        const char *line;
        enum fault fault;
    } lines[] = {{"E0 triggers E0", FAULT_NONE}, {"E0 & !E63 triggers E63 if R0 = R15 , R1 != -1", FAULT_NONE},
        {"  !E1  triggers   E2  ", FAULT_NONE}, {"E0 triggers", FAULT_SHAPE}, {"triggers E0", FAULT_SHAPE},
        {"E0 triggers A0", FAULT_SHAPE}, {"E0 triggers !E1", FAULT_SHAPE}, {"E0 triggers E1 & E2", FAULT_SHAPE}, {"E0 triggers E1 E2", FAULT_SHAPE},
        {"E0 triggers E1 causes A1", FAULT_SHAPE}, {"E0 causes A1 triggers E1", FAULT_SHAPE}, {"E0 causes E1", FAULT_SHAPE},
        {"E0 Triggers E1", FAULT_SHAPE}, {"E0 trigger E1", FAULT_SHAPE}, {"E0 triggers E01", FAULT_SHAPE}, {"E0 triggers E", FAULT_SHAPE},
        {"E0 triggers E1 if", FAULT_SHAPE}, {"E0 triggers E0x1", FAULT_SHAPE}, {"never A1 triggers E1", FAULT_SHAPE},
        {"never triggers E1", FAULT_SHAPE}, {"E0 & triggers E1", FAULT_SHAPE}, {"E0 triggersE1", FAULT_SHAPE},
        {"E0 triggers E64", FAULT_RANGE}, {"E0 triggers E18446744073709551616", FAULT_RANGE}, {"E0 & E0 triggers E64", FAULT_RANGE},
        {"E0 & E1 & E2 & E3 & E4 & E5 & E6 & E7 & E8 triggers E1", FAULT_CROWD}, {"E0 & !E0 triggers E1", FAULT_REPEAT},
        {"E0 triggers E1 if R0 = 0 , R0 = 0 , R0 = 0 , R0 = 0 , R0 = 0", FAULT_CROWD}};
    size_t i;
    step = "lines that trigger";
    for (i = 0; i < COUNT(lines); i++) {
        text->length = 0;
        add(text, lines[i].line);
        if (compare_rooms(text->bytes, text->length, dice).fault != lines[i].fault)
            fail("reference", lines[i].line);
    }
}

/* A pending event that the line may not name is explained too; the fault for that comes before the action's. */
static void compare_pending_why(void)
{
    static const struct {
        const char *line;
        event_set pending;
        uint64_t action;
        enum fault fault;
        enum outcome outcome;
        size_t start; /* of the part */
    } cases[] = {{"", E(60), 2, FAULT_NONE, IS_ACCEPTED, 16}, {"", 0, 2, FAULT_NONE, NOT_PROPOSED, 0},
        {"E2", E(60), 2, FAULT_NONE, IS_CANCELLED, 43}, {"E2", E(60), 1, FAULT_NONE, IS_ACCEPTED, 30},
        {"E1", 0, 60, FAULT_NONE, NOT_PROPOSED, 0}, {"", E(2), 1, FAULT_NONE, IS_ACCEPTED, 30},
        {"E60", E(60), 2, FAULT_RESERVED, OUTCOME_NONE, 0}, {"E60", 0, 64, FAULT_RESERVED, OUTCOME_NONE, 0},
        {"E60 R0=1 R0=1", 0, 2, FAULT_TWICE, OUTCOME_NONE, 0}, {"E1", UINT64_MAX, 64, FAULT_EPOCH_RANGE, OUTCOME_NONE, 0}};
    struct texts texts = {{(const uint8_t *)chain, strlen(chain)}, {NULL, 0}};
    size_t i;
    step = "why with pending events";
    for (i = 0; i < COUNT(cases); i++) {
        struct explanation why =
            compare_explain(texts, NULL, cases[i].pending, (const uint8_t *)cases[i].line, strlen(cases[i].line), cases[i].action);
        if (why.verdict.fault != cases[i].fault || why.outcome != cases[i].outcome || why.shown.start != cases[i].start)
            fail("reference", "not the explanation that the test names");
    }
}

void compare_triggers(struct buffer *text, struct buffer *line, struct dice *dice)
{
    compare_pending_why();
    if (current_form < TRIGGER_FORM) {
        compare_lower(text, dice);
        return;
    }
    compare_shapes(text, dice);
    compare_body(text);
    compare_known(text);
    compare_refusals(text, line);
    compare_each_event(text);
}
