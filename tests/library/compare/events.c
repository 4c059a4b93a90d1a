/* Event cancellation: which events are kept, and what is issued. */
#include "compare.h"

#include <string.h>

/* Every reduction of an epoch */

enum { MOST_LINES = 4096 }; /* lines of the policy, over all reductions */

/* The first of all reductions on which no never line holds. False if there is none. Since a reduction comes before those that are
   smaller, the first is maximal. */
static bool first_reduction(const struct policy *policy, const struct epoch *epoch, event_set *first)
{
    event_set kept = 0;
    bool found = false;
    do {
        struct epoch reduced = reduction(epoch, kept);
        if (is_consistent(policy, &reduced) && (!found || comes_first(kept, *first))) {
            *first = kept;
            found = true;
        }
        kept = (kept - epoch->present) & epoch->present; /* the next subset */
    } while (kept != 0);
    return found;
}

void check_reductions(const struct policy *policy, const struct epoch *epoch, struct kinohazel_decision answer)
{
    struct epoch reduced;
    event_set first = 0;
    action_set issued;
    unsigned size = size_of_set(epoch->present);
    if (size > 12 || (policy->rule_count + policy->constraint_count) << size > MOST_LINES)
        return;
    tally.droppings[ALL_REDUCTIONS]++;
    if (!first_reduction(policy, epoch, &first)) {
        if (answer.fault != KINOHAZEL_UNAVOIDABLE)
            fail("kinohazel_decide_events", "every reduction clashes, and the epoch is not refused under 17");
        return;
    }
    reduced = reduction(epoch, first);
    issued = proposed(policy, &reduced);
    if (answer.fault != KINOHAZEL_OK || answer.accepted != issued || answer.cancelled != (proposed(policy, epoch) & ~issued)
        || answer.triggered != triggered(policy, &reduced))
        fail("kinohazel_decide_events", "not what the first reduction without a clash proposes and triggers");
}

/* What a decision shows */

/* The actions that would be issued if the events were tried by falling number, or if those not kept were absent. False if it would be
   refused. */
static bool issued_otherwise(const struct policy *policy, const struct epoch *epoch, bool falling, bool absent, action_set *issued)
{
    struct epoch tried = reduction(epoch, 0);
    event_set kept = 0;
    unsigned i;
    for (i = 0; i <= EVENTS; i++) { /* none at first */
        event_set one = i == 0 ? 0 : UINT64_C(1) << (falling ? EVENTS - i : i - 1);
        if (i > 0 && (epoch->present & one) == 0)
            continue;
        tried.present = kept | one;
        tried.absent = absent ? ~tried.present : epoch->absent;
        if (is_consistent(policy, &tried)) {
            kept = tried.present;
            *issued = proposed(policy, &tried);
        } else if (i == 0) {
            return false;
        }
    }
    return true;
}

static bool answers_otherwise(
    const struct policy *policy, const struct epoch *epoch, struct decision decision, bool falling, bool absent)
{
    action_set issued;
    return !issued_otherwise(policy, epoch, falling, absent, &issued) || issued != decision.accepted;
}

/* Whether the dropped events propose an action that is issued, and that is not proposed without any event. */
static bool still_issued(const struct policy *policy, const struct epoch *epoch, struct decision decision, event_set dropped)
{
    struct epoch alone = reduction(epoch, dropped), none = reduction(epoch, 0);
    return (proposed(policy, &alone) & ~proposed(policy, &none) & decision.accepted) != 0;
}

void count_droppings(const struct policy *policy, const struct epoch *epoch, struct decision decision, struct visits visits)
{
    event_set kept, dropped;
    kept_events(policy, epoch, &kept);
    dropped = epoch->present & ~kept;
    tally.droppings[ALL_KEPT] += kept == UINT64_MAX;
    tally.droppings[ALL_DROPPED] += dropped == UINT64_MAX;
    tally.droppings[IDLE] += visits.idle > 0 && policy->constraint_count > 0;
    tally.droppings[MOST_TRIALS] += decision.visited == MOST_TRIED;
    if (dropped == 0)
        return;
    tally.droppings[ONE_DROPPED]++;
    tally.droppings[KEPT_BEHIND] += (kept & ~(dropped ^ (dropped - 1))) != 0;
    tally.droppings[NOT_ABSENT] += answers_otherwise(policy, epoch, decision, false, true);
    tally.droppings[NOT_FALLING] += answers_otherwise(policy, epoch, decision, true, false);
    tally.droppings[NOT_ACTIONS] += accepted(policy, epoch, proposed(policy, epoch)) != decision.accepted;
    tally.droppings[STILL_ISSUED] += still_issued(policy, epoch, decision, dropped);
}

/* Texts by chance */

void compare_clashing(struct buffer *text, struct buffer *line, struct dice *dice)
{
    static struct subject subject;
    unsigned events, triggered, i;
    step = "clashing texts";
    for (events = 2; events <= EVENTS; events = events < 9 ? events + 1 : events == 9 ? EVENTS : EVENTS + 1) {
        event_set pending = 0;
        triggered = current_form < TRIGGER_FORM ? 0 : below(dice, 1 + events / 2);
        text->length = 0;
        add_clashing_text(text, dice, events, triggered);
        begin(&subject, text);
        for (i = events < EVENTS ? 8 : 2; i > 0; i--) {
            line->length = 0;
            add_clashing_epoch(line, dice, events - (chance(dice, 900) ? triggered : 0));
            pending = pending_after(pending, compare_line_after(&subject, pending, line->bytes, line->length));
        }
    }
}

/* Known answers */

static struct decision decide_line(const struct subject *subject, const void *line, size_t length)
{
    compare_mode(subject->image, subject->size, 0, line, length, &subject->policy, CANCEL_ACTIONS);
    return compare_mode(subject->image, subject->size, 0, line, length, &subject->policy, CANCEL_EVENTS);
}

/* A line on a subject is refused so, or has these sets. */
static struct decision expect_events(
    const struct subject *subject, const char *line, enum fault fault, uint64_t accepted, uint64_t cancelled)
{
    struct decision decision = decide_line(subject, line, strlen(line));
    if (decision.verdict.fault != fault || decision.verdict.location != 0 || decision.accepted != accepted
        || decision.cancelled != cancelled)
        fail_on("reference", "not the answer that the test names", (const uint8_t *)line, strlen(line));
    return decision;
}

enum { A0 = 1, A1 = 2, A2 = 4, A3 = 8, A4 = 16 };

static void compare_known(struct buffer *text)
{
    static const char orders[] = "E0 causes A0\nE1 causes A1\nE1 causes A2\nnever A0 & A1\n",
                      absent[] = "E0 causes A0\nE1 causes A1\n!E1 causes A2\nnever A0 & A1\n",
                      calls[] = "E0 causes A0\nE1 causes A1\nE1 causes A2\nE2 causes A2\nnever A0 & A1\n",
                      chain[] = "E1 causes A1\nE2 causes A2\nE3 causes A3\nnever A1 & A2\nnever A2 & A3\n",
                      joined[] = "E0 & E1 causes A0\nE2 causes A1\nnever A0\n",
                      negated[] = "!E0 causes A0\n!E1 causes A1\nnever A0 & A1\n",
                      limit[] = "!E0 causes A0\nE1 causes A1\nnever A0 if R0 > 5\n";
    static const struct {
        const char *text, *line;
        enum fault fault;
        uint64_t accepted, cancelled;
        size_t visited;
    } cases[] = {/* the README's example, with its five epochs */
        {EXAMPLE, "E1 E3 R0=41", FAULT_NONE, A3, A4, 3 + (6 + 2) + (7 + 3)},
        {EXAMPLE, "E1 E3 R0=40", FAULT_NONE, A4, 0, 3 + (5 + 1) + (6 + 1)},
        {EXAMPLE, "E1 E2 E3 R0=41", FAULT_NONE, A4, 0, 3 + (3 + 1) + (3 + 1) + (4 + 1)},
        {EXAMPLE, "", FAULT_NONE, 0, 0, 3}, {EXAMPLE, "E64", FAULT_EPOCH_RANGE, 0, 0, 0},
        /* goods that cannot be mailed are not charged: the order is dropped whole */
        {orders, "E0 E1", FAULT_NONE, A0, A1 | A2, 4 + 6 + 9}, {orders, "E1", FAULT_NONE, A1 | A2, 0, 4 + 6},
        {orders, "E0", FAULT_NONE, A0, 0, 4 + 6}, {orders, "", FAULT_NONE, 0, 0, 4},
        /* a service call is charged though the order is dropped */
        {calls, "E0 E1 E2", FAULT_NONE, A0 | A2, A1, 5 + 7 + 10 + 8}, {calls, "E0 E1", FAULT_NONE, A0, A1 | A2, 5 + 7 + 10},
        /* a dropped event is not absent */
        {absent, "E0 E1", FAULT_NONE, A0, A1, 4 + 6 + 8}, {absent, "E0", FAULT_NONE, A0 | A2, 0, 5 + 7},
        {chain, "E1 E2 E3", FAULT_NONE, A1 | A3, A2, 5 + 7 + (5 + 3) + (5 + 3)},
        {joined, "E0 E1", FAULT_NONE, 0, A0, 3 + 4 + (4 + 2)}, {joined, "E1 E2", FAULT_NONE, A1, 0, 3 + 3 + 4},
        /* unavoidable, if the events are absent in the full epoch */
        {negated, "", FAULT_UNAVOIDABLE, 0, 0, 0}, {negated, "E2 R0=1", FAULT_UNAVOIDABLE, 0, 0, 0},
        {negated, "E0", FAULT_NONE, A1, 0, (3 + 1) + (3 + 1)}, {negated, "E1", FAULT_NONE, A0, 0, (3 + 2) + (3 + 2)},
        {negated, "E0 E1", FAULT_NONE, 0, 0, 3 * (2 + 1)},
        /* with comparisons in never lines, a missing reading among them */
        {limit, "R0=5", FAULT_NONE, A0, 0, 3 + 3}, {limit, "E1 R0=5", FAULT_NONE, A0 | A1, 0, 6 + 7},
        {limit, "R0=6", FAULT_UNAVOIDABLE, 0, 0, 0}, {limit, "E1", FAULT_UNAVOIDABLE, 0, 0, 0},
        {limit, "E0", FAULT_NONE, 0, 0, 2 * (2 + 1)}, {limit, "E1 E0 R0=6", FAULT_NONE, A1, 0, 3 + 3 + 4},
        /* the other grounds come first */
        {limit, "E64", FAULT_EPOCH_RANGE, 0, 0, 0}, {limit, "x", FAULT_EPOCH_SHAPE, 0, 0, 0},
        {limit, "R0=6 R0=6", FAULT_TWICE, 0, 0, 0}, {"", "E0 E63", FAULT_NONE, 0, 0, 0}};
    static struct subject subject;
    size_t i;
    step = "known epochs";
    for (i = 0; i < COUNT(cases); i++) {
        struct decision decision;
        text->length = 0;
        add(text, cases[i].text);
        begin(&subject, text);
        decision = expect_events(&subject, cases[i].line, cases[i].fault, cases[i].accepted, cases[i].cancelled);
        if (decision.visited != cases[i].visited)
            fail_on("reference", "not as many words as the test names", (const uint8_t *)cases[i].line, strlen(cases[i].line));
    }
}

/* An epoch that is unavoidable, with the other grounds that come before: those of the image and of the line's length. */
static void compare_order_of_grounds(struct buffer *text, struct buffer *line)
{
    static struct subject subject;
    size_t i;
    step = "unavoidable epochs";
    text->length = line->length = 0;
    add(text, "!E0 causes A0\nnever A0\n");
    begin(&subject, text);
    add_times(line, " ", EPOCH_BYTES + 1);
    if (decide_line(&subject, line->bytes, EPOCH_BYTES).verdict.fault != FAULT_UNAVOIDABLE
        || decide_line(&subject, line->bytes, EPOCH_BYTES + 1).verdict.fault != FAULT_LONG)
        fail("reference", "not 17 after 1");
    for (i = 0; i < subject.size; i++) {
        enum fault fault;
        subject.image[i] ^= 1;
        fault = compare_mode(subject.image, subject.size, 0, NULL, 0, NULL, CANCEL_EVENTS).verdict.fault;
        if (fault < FAULT_SIZE || fault > FAULT_SUM)
            fail("reference", "one changed word is not refused under 7 to 10");
        subject.image[i] ^= 1;
    }
}

/* The numbers from `from` to `until`. */
static uint64_t numbers(unsigned from, unsigned until)
{
    uint64_t set = 0;
    while (from < until)
        set |= UINT64_C(1) << from++;
    return set;
}

static void add_one_each(struct buffer *text)
{
    unsigned i;
    text->length = 0;
    for (i = 0; i < EVENTS; i++)
        add_format(text, "E%u causes A%u\n", i, i);
}

/* 64 events, each with an action of its own. First those are dropped whose action is forbidden by R0, then the last of every two to
   eight. */
static void compare_64_events(struct buffer *text, struct buffer *line)
{
    static struct subject subject;
    unsigned i, size;
    step = "64 events";
    add_one_each(text);
    for (i = 0; i < CONSTRAINTS; i++)
        add_format(text, "never A%u if R0 > %u\n", i, i);
    begin(&subject, text);
    for (i = 0; i <= EVENTS; i++) {
        line->length = 0;
        add_events(line, 0, EVENTS);
        add_format(line, "R0=%u", i);
        add_byte(line, 0);
        expect_events(&subject, (const char *)line->bytes, FAULT_NONE, ~numbers(0, i), numbers(0, i));
    }
    for (size = 2; size <= 8; size++) {
        uint64_t dropped = 0;
        unsigned k;
        add_one_each(text);
        for (i = 0; i + size <= EVENTS; i += size) {
            for (k = 0; k < size; k++)
                add_format(text, "%s A%u", k == 0 ? "never" : " &", i + k);
            add(text, "\n");
            dropped |= UINT64_C(1) << (i + size - 1);
        }
        begin(&subject, text);
        line->length = 0;
        add_events(line, 0, EVENTS);
        add_byte(line, 0);
        expect_events(&subject, (const char *)line->bytes, FAULT_NONE, ~dropped, dropped);
    }
}

/* One event alone is dropped, of every number, and with it every action; its absence proposes nothing. */
static void compare_each_event(struct buffer *text)
{
    static struct subject subject;
    unsigned event, i;
    step = "each event";
    for (event = 0; event < EVENTS; event++) {
        char line[20];
        unsigned other = (event + 1) % EVENTS;
        text->length = 0;
        for (i = 0; i < ACTIONS; i++)
            add_format(text, "E%u causes A%u\n", event, i);
        add_format(text, "!E%u causes A%u\n!E%u & E%u causes A%u\nnever A%u\n", event, event, event, other, event, event);
        begin(&subject, text);
        sprintf(line, "E%u", event);
        expect_events(&subject, line, FAULT_NONE, 0, UINT64_MAX);
        sprintf(line, "E%u E%u", other, event);
        expect_events(&subject, line, FAULT_NONE, 0, UINT64_MAX);
        sprintf(line, "E%u", other);
        expect_events(&subject, line, FAULT_UNAVOIDABLE, 0, 0);
    }
}

static void expect_visited(const struct subject *subject, const struct buffer *line, size_t visited)
{
    if (decide_line(subject, line->bytes, line->length).visited != visited)
        fail_on("reference", "not as many words as the test names", line->bytes, line->length);
}

/* Rules that hold in every trial, by the absence of E0: all words in 64 trials. Then the most words of all inputs. */
static void compare_all_trials(struct buffer *text, struct buffer *line)
{
    static struct subject subject;
    unsigned i;
    step = "all trials";
    text->length = line->length = 0;
    for (i = 0; i < RULES; i++)
        add_format(text, "!E0 causes A%u if R0 = 0\n", i % ACTIONS);
    begin(&subject, text);
    add_events(line, 1, EVENTS - 1);
    add(line, "R0=0");
    expect_visited(&subject, line, visit_limit(subject.image, CANCEL_EVENTS) / (EVENTS + 1) * EVENTS);
    text->length = line->length = 0;
    add_most_tried(text);
    begin(&subject, text);
    if (visit_limit(subject.image, CANCEL_EVENTS) != 212160 || MOST_TRIED != 187520)
        fail("reference", "not 212,160 words as the limit, or 187,520 as the most");
    add_epoch_of_most_tried(line);
    expect_visited(&subject, line, MOST_TRIED);
}

void compare_events(struct buffer *text, struct buffer *line)
{
    compare_known(text);
    compare_order_of_grounds(text, line);
    compare_64_events(text, line);
    compare_each_event(text);
    compare_all_trials(text, line);
}
