/* What was met, and messages about what is not as it should be. */
#include "compare.h"

#include <stdlib.h>

struct tally tally;
unsigned long current_round;
uint64_t current_form = FIRST_FORM;
const char *step = "start";

void print_bytes(const char *name, const uint8_t *bytes, size_t length)
{
    size_t i;
    printf("; %s of %lu bytes:", name, (unsigned long)length);
    for (i = 0; i < length && i < 128; i++)
        printf("%s%02X", i % 4 == 0 ? " " : "", (unsigned)bytes[i]);
    fputs(i < length ? " ..." : "", stdout);
}

void describe(const char *function, const char *what)
{
    printf("library: round %lu, form %lu, %s: %s: %s", current_round, (unsigned long)current_form, step, function, what);
}

void fail(const char *function, const char *what)
{
    describe(function, what);
    printf("\n");
    exit(1);
}

void fail_on(const char *function, const char *what, const uint8_t *bytes, size_t length)
{
    describe(function, what);
    print_bytes("input", bytes, length);
    printf("\n");
    exit(1);
}

static void print_locations(const char *function, const unsigned long locations[4])
{
    printf("; %s 11 at the first rule %lu, a later one %lu, the first constraint %lu, a later one %lu", function,
        locations[0], locations[1], locations[2], locations[3]);
}

/* Prints how often each fault was met for each text that it can be in. False if one never was. */
static bool print_by_text(const char *function, unsigned long counts[FAULTS][OWNERS], const enum fault *others, size_t size)
{
    bool all = counts[FAULT_NONE][NEITHER] > 0;
    int fault, owner;
    size_t i;
    printf("; %s 0: %lu", function, counts[FAULT_NONE][NEITHER]);
    for (owner = MAKER; owner <= SITE; owner++) {
        printf(", text %d", owner);
        for (fault = FAULT_LONG; fault <= FAULT_REPEAT; fault++) {
            printf(" %d: %lu", fault, counts[fault][owner]);
            all = all && counts[fault][owner] > 0;
        }
    }
    printf(", neither");
    for (i = 0; i < size; i++) {
        printf(" %d: %lu", (int)others[i], counts[others[i]][NEITHER]);
        all = all && counts[others[i]][NEITHER] > 0;
    }
    return all;
}

static bool print_outcomes(void)
{
    bool all = tally.outcomes[NOT_PROPOSED][NEITHER] > 0 && tally.over > 0 && tally.overlapping > 0;
    int owner, i;
    printf("; explained as not proposed %lu", tally.outcomes[NOT_PROPOSED][NEITHER]);
    for (owner = MAKER; owner <= SITE; owner++) {
        printf(", accepted by text %d %lu, cancelled by it %lu", owner, tally.outcomes[IS_ACCEPTED][owner],
            tally.outcomes[IS_CANCELLED][owner]);
        all = all && tally.outcomes[IS_ACCEPTED][owner] > 0 && tally.outcomes[IS_CANCELLED][owner] > 0;
    }
    printf(", refused for the action alone %lu", tally.over);
    for (i = 0; i < 8; i++)
        all = all && tally.texts_nulls[i] > 0 && tally.explain_nulls[i] > 0;
    return all;
}

/* All forms, and how damages of images with a weighted word are refused. */
static bool print_forms(void)
{
    static const char *const damages[DAMAGES_OF_FORM_2] = {[SWAP_AT_START] = "words 0 and 1 exchanged",
        [SWAP_BEHIND] = "later ones",
        [SWAP_OF_CHECK_WORDS] = "the check words",
        [WEIGHT_BEFORE_BODY] = "16 before 11",
        [SUM_BEFORE_WEIGHT] = "10 before 16"};
    bool all = true;
    int i;
    for (i = FIRST_FORM; i <= LAST_FORM; i++) {
        printf("; images of form %d accepted %lu", i, tally.taken[i]);
        all = all && tally.taken[i] > 0;
    }
    for (i = 0; i < DAMAGES_OF_FORM_2; i++) {
        printf(", %s %lu", damages[i], tally.form_2[i]);
        all = all && tally.form_2[i] > 0;
    }
    return all;
}

/* Both modes, and how the second one keeps and drops events. */
static bool print_modes(void)
{
    static const char *const droppings[DROPPINGS] = {[ONE_DROPPED] = "an event dropped",
        [KEPT_BEHIND] = "one kept behind it",
        [ALL_KEPT] = "64 events kept",
        [ALL_DROPPED] = "64 dropped",
        [NOT_ABSENT] = "another answer than if a dropped event were absent",
        [NOT_FALLING] = "than by falling number",
        [NOT_ACTIONS] = "than by action cancellation",
        [STILL_ISSUED] = "an action issued that a dropped event proposes too",
        [IDLE] = "never words counted where nothing is proposed",
        [ALL_REDUCTIONS] = "all reductions compared",
        [MOST_TRIALS] = "187,520 words"};
    static const char *const choosings[CHOOSINGS] = {[ALL_CHOICES] = "all choices of actions compared",
        [OTHER_CHOICE] = "one without a clash that is no part of the accepted",
        [LARGER_CHOICE] = "one with more actions"};
    bool all = true;
    int i;
    for (i = CANCEL_ACTIONS; i <= CANCEL_EVENTS; i++) {
        printf("; by %s %lu accept an action, %lu cancel one", i == CANCEL_ACTIONS ? "action cancellation" : "event cancellation",
            tally.accepting[i], tally.cancelling[i]);
        all = all && tally.accepting[i] > 0 && tally.cancelling[i] > 0;
    }
    for (i = 0; i < CHOOSINGS; i++) {
        printf(", %s %lu", choosings[i], tally.choosings[i]);
        all = all && tally.choosings[i] > 0;
    }
    for (i = 0; i < DROPPINGS; i++) {
        printf(", %s %lu", droppings[i], tally.droppings[i]);
        all = all && tally.droppings[i] > 0;
    }
    return all;
}

/* What is remembered in either mode, and the steps by their faults. */
static bool print_remembered(void)
{
    static const char *const shown[REMEMBERINGS] = {[ONE_TRIGGERED] = "an event triggered",
        [ALL_TRIGGERED] = "64 events",
        [OCCURS] = "another answer than with nothing pending",
        [NAMED_TOO] = "a pending event named too",
        [WITH_CANCELLED] = "an event triggered and an action cancelled",
        [NOT_TRIGGERED] = "none triggered by a dropped event",
        [PENDING_DROPPED] = "a pending event dropped",
        [KEPT_PENDING] = "events pending after a refused step",
        [FORGOTTEN] = "a pending event forgotten",
        [AGAIN] = "one pending again"};
    bool all = tally.sessions > 0;
    int mode, i;
    printf("; sessions with the plain machine %lu", tally.sessions);
    for (mode = CANCEL_ACTIONS; mode <= CANCEL_EVENTS; mode++) {
        printf("; remembered by %s", mode == CANCEL_ACTIONS ? "action cancellation" : "event cancellation");
        for (i = 0; i < REMEMBERINGS; i++) {
            if (mode == CANCEL_ACTIONS && (i == NOT_TRIGGERED || i == PENDING_DROPPED))
                continue;
            printf("%s %s %lu", i == 0 ? "" : ",", shown[i], tally.remembered[mode][i]);
            all = all && tally.remembered[mode][i] > 0;
        }
    }
    return all;
}

bool report(void)
{
    static const enum fault compile_faults[] = {FAULT_NONE, FAULT_LONG, FAULT_SHAPE, FAULT_RANGE, FAULT_CROWD,
        FAULT_FULL, FAULT_REPEAT, FAULT_FORM, FAULT_ROOM};
    static const enum fault text_faults[] = {
        FAULT_NONE, FAULT_SIZE, FAULT_FORM, FAULT_COUNT, FAULT_SUM, FAULT_WEIGHTED_SUM, FAULT_BODY, FAULT_ROOM};
    static const enum fault check_faults[] = {
        FAULT_NONE, FAULT_SIZE, FAULT_FORM, FAULT_COUNT, FAULT_SUM, FAULT_WEIGHTED_SUM, FAULT_BODY};
    static const enum fault texts_others[] = {FAULT_FORM, FAULT_ROOM};
    static const enum fault explain_others[] = {FAULT_LONG, FAULT_EPOCH_SHAPE, FAULT_EPOCH_RANGE, FAULT_TWICE, FAULT_RESERVED};
    static const enum fault decide_faults[] = {FAULT_NONE, FAULT_LONG, FAULT_SIZE, FAULT_FORM, FAULT_COUNT, FAULT_SUM,
        FAULT_WEIGHTED_SUM, FAULT_BODY, FAULT_EPOCH_SHAPE, FAULT_EPOCH_RANGE, FAULT_TWICE, FAULT_RESERVED,
        FAULT_UNAVOIDABLE}; /* the last in the second mode alone */
    static const struct {
        const char *name;
        const unsigned long *counts;
        const enum fault *faults;
        size_t size;
    } functions[] = {
        {"compile", tally.compile, compile_faults, COUNT(compile_faults)},
        {"check", tally.check, check_faults, COUNT(check_faults)},
        {"text", tally.text, text_faults, COUNT(text_faults)},
        {"decide", tally.decide[CANCEL_ACTIONS], decide_faults, COUNT(decide_faults) - 1},
        {"decide_events", tally.decide[CANCEL_EVENTS], decide_faults, COUNT(decide_faults)},
        {"step", tally.steps[CANCEL_ACTIONS], decide_faults, COUNT(decide_faults) - 1},
        {"step_events", tally.steps[CANCEL_EVENTS], decide_faults, COUNT(decide_faults)}};
    static const char *const extremes[EXTREMES] = {[ALL_ACCEPTED] = "all actions accepted",
        [ALL_CANCELLED] = "all cancelled",
        [OVER_30_CANCELLED] = "over 30 cancelled",
        [ALL_EVENTS] = "all events",
        [ALL_READINGS] = "all readings",
        [FAR_EVENT] = "E63 at the end of 1,024 bytes",
        [FAR_READING] = "R15 there",
        [ALL_WORDS] = "all words visited and no never lines",
        [NEARLY_ALL] = "63 words fewer than P + 64 * N",
        [MOST_WORDS] = "62,784 words"};
    static const char *const counted[COUNTED] = {[REMAINDER] = "a trial ends before the last never line",
        [FAILING_IN_RULE] = "a comparison with a constant fails in a rule",
        [FAILING_IN_CONSTRAINT] = "in a never line",
        [MISSING_IN_RULE] = "its reading is missing in a rule",
        [MISSING_IN_CONSTRAINT] = "in a never line",
        [NO_TRIAL] = "nothing is tried"};
    bool all = tally.lines_in_images[CANCEL_ACTIONS] > 0 && tally.lines_in_images[CANCEL_EVENTS] > 0 && tally.empty > 0
        && tally.longest > 0 && tally.missing[0] > 0 && tally.missing[1] > 0 && tally.patterns[0] > 0 && tally.patterns[1] > 0;
    size_t i, k;
    printf("library: %lu comparisons agree", tally.comparisons);
    for (i = 0; i < COUNT(functions); i++) {
        printf("; %s", functions[i].name);
        for (k = 0; k < functions[i].size; k++) {
            unsigned long count = functions[i].counts[functions[i].faults[k]];
            printf(" %d: %lu", (int)functions[i].faults[k], count);
            all = all && count > 0;
        }
    }
    all = print_by_text("compile_texts", tally.texts, texts_others, COUNT(texts_others)) && all;
    all = print_by_text("explain", tally.explain, explain_others, COUNT(explain_others)) && all;
    all = print_outcomes() && all;
    print_locations("check", tally.check_locations);
    print_locations("text", tally.text_locations);
    printf("; %lu written texts compile again, %lu of them of 0 bytes, %lu of %d", tally.written, tally.empty, tally.longest,
        (int)WRITTEN_BYTES);
    all = print_forms() && all;
    all = print_modes() && all;
    all = print_remembered() && all;
    printf("; decided with");
    for (i = 0; i < EXTREMES; i++) {
        printf("%s %s %lu", i == 0 ? "" : ",", extremes[i], tally.extremes[i]);
        all = all && tally.extremes[i] > 0;
    }
    printf("; accepted with constants in hexadecimal texts %lu, epoch lines %lu", tally.patterns[0], tally.patterns[1]);
    printf("; missing readings that are not 0 to the rules %lu, to the never lines %lu; words counted where", tally.missing[0],
        tally.missing[1]);
    for (i = 0; i < COUNTED; i++) {
        printf("%s %s %lu", i == 0 ? "" : ",", counted[i], tally.counted[i]);
        all = all && tally.counted[i] > 0;
    }
    printf("\n");
    for (i = 0; i < 4; i++)
        all = all && tally.check_locations[i] > 0 && tally.text_locations[i] > 0 && tally.compile_nulls[i] > 0
            && tally.text_nulls[i] > 0 && tally.decide_nulls[CANCEL_ACTIONS][i] > 0
            && tally.decide_nulls[CANCEL_EVENTS][i] > 0 && tally.step_nulls[CANCEL_ACTIONS][i] > 0
            && tally.step_nulls[CANCEL_EVENTS][i] > 0 && (tally.check_nulls[i] > 0 || i > 1);
    for (i = 0; i < FLAWS; i++)
        all = all && tally.flaws[0][i] > 0 && (tally.flaws[1][i] > 0 || i == FIRST_UNUSED);
    return all;
}
