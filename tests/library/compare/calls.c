/* One call of each function, compared with the reference: the answer, what was lent, and what lies around it. */
#include "compare.h"

#include <inttypes.h>
#include <stdlib.h>
#include <string.h>

bool same(const uint8_t *one, const uint8_t *other, size_t length)
{
    return length == 0 || memcmp(one, other, length) == 0;
}

static unsigned nulls(const uint8_t *first, const uint8_t *second)
{
    return (first == NULL ? 1 : 0) + (second == NULL ? 2 : 0);
}

static struct verdict write_text_of(
    uint64_t form, const uint8_t *image, size_t length, uint8_t *buffer, size_t room, size_t *written)
{
    (void)form;
    return decompile(image, length, buffer, room, written);
}

const struct filler compiling = {
    "kinohazel_compile", compile, fill_with_image, IMAGE_BYTES, tally.compile, tally.compile_nulls};
const struct filler writing = {
    "kinohazel_text", write_text_of, fill_with_text, WRITTEN_BYTES, tally.text, tally.text_nulls};

static void count_location(unsigned long locations[4], struct verdict verdict, const uint8_t *image)
{
    size_t rules_end;
    if (verdict.fault != FAULT_BODY)
        return;
    rules_end = 1 + unpack_header(word_at(image, 0)).rule_words;
    locations[verdict.location < rules_end ? verdict.location > 1 : 2 + (verdict.location > rules_end)]++;
}

static bool has_pattern(const uint8_t *bytes, size_t length)
{
    size_t i;
    for (i = 1; i + 1 < length; i++)
        if (bytes[i] == '0' && bytes[i + 1] == 'x' && (bytes[i - 1] == ' ' || bytes[i - 1] == '='))
            return true;
    return false;
}

/* What the buffer and all around it has to hold after a call. */
static uint8_t wanted_out[OUT_BYTES];

/* A buffer with so much room, which is to be filled with this output. */
static uint8_t *lend_out(size_t room, const uint8_t *output, size_t size)
{
    uint8_t *out = tally.comparisons % 3 == 0 ? out_pen.from + GUARD
        : tally.comparisons % 3 == 1          ? out_pen.end - GUARD - room
                                              : out_pen.end - room;
    memcpy(out_pen.from, pattern, OUT_BYTES);
    memcpy(wanted_out, pattern, OUT_BYTES);
    memcpy(wanted_out + (out - out_pen.from), output, size);
    return room == 0 && out_pen.null ? NULL : out;
}

struct verdict compare_filler(const struct filler *filler, const uint8_t *input, size_t length, size_t room)
{
    static uint8_t output[OUT_BYTES];
    char what[300];
    size_t size;
    struct verdict verdict = filler->reference(current_form, input, length, output, room, &size);
    struct filled answer;
    const uint8_t *lent = lend(text_pen, input, length);
    uint8_t *lent_out = lend_out(room, output, size);
    start_call(true);
    answer = filler->library(current_form, lent, length, lent_out, room);
    end_call();
    if (answer.fault != (uint64_t)verdict.fault || answer.location != verdict.location || answer.size != size) {
        sprintf(what,
            "form %" PRIu64 ", room %lu, fault %" PRIu64 " location %" PRIu64 " size %" PRIu64 ", expected %d, %lu, %lu",
            current_form, (unsigned long)room, answer.fault, answer.location, answer.size, (int)verdict.fault,
            (unsigned long)verdict.location, (unsigned long)size);
        fail_on(filler->name, what, input, length);
    }
    if (!same(out_pen.from, wanted_out, OUT_BYTES))
        fail_on(filler->name, "wrong bytes in the buffer, or changed ones outside the output", input, length);
    if (!same(lent, input, length))
        fail_on(filler->name, "the input was changed", input, length);
    if (filler == &compiling && verdict.fault == FAULT_NONE)
        tally.patterns[0] += has_pattern(input, length);
    filler->faults[verdict.fault]++;
    filler->nulls[nulls(lent, lent_out)]++;
    tally.comparisons++;
    return verdict;
}

struct verdict compare_compile(const uint8_t *text, size_t length, size_t room)
{
    return compare_filler(&compiling, text, length, room);
}

struct verdict compare_text(const uint8_t *image, size_t length, size_t room)
{
    struct verdict verdict = compare_filler(&writing, image, length, room);
    count_location(tally.text_locations, verdict, image);
    return verdict;
}

/* These end the program, and show two texts. */
static void fail_on_texts(const char *function, const char *what, struct texts texts)
{
    describe(function, what);
    print_bytes("maker's", texts.maker.bytes, texts.maker.length);
    print_bytes("site's", texts.site.bytes, texts.site.length);
    printf("\n");
    exit(1);
}

static bool same_texts(const uint8_t *maker, const uint8_t *site, struct texts texts)
{
    return same(maker, texts.maker.bytes, texts.maker.length) && same(site, texts.site.bytes, texts.site.length);
}

struct verdict compare_texts(struct texts texts, size_t room)
{
    static const char name[] = "kinohazel_compile_texts";
    static uint8_t output[OUT_BYTES];
    char what[300];
    size_t size;
    struct verdict verdict = compile_texts(current_form, texts, output, room, &size);
    const uint8_t *maker = lend(text_pen, texts.maker.bytes, texts.maker.length),
                  *site = lend(site_pen, texts.site.bytes, texts.site.length);
    uint8_t *out = lend_out(room, output, size);
    struct kinohazel_texts_compilation answer;
    start_call(true);
    answer = kinohazel_compile_texts(current_form, maker, texts.maker.length, site, texts.site.length, out, room);
    end_call();
    if (answer.fault != (uint64_t)verdict.fault || answer.text != (uint64_t)verdict.text
        || answer.line != verdict.location || answer.size != size) {
        sprintf(what,
            "form %" PRIu64 ", room %lu, fault %" PRIu64 " text %" PRIu64 " line %" PRIu64 " size %" PRIu64
            ", expected %d, %d, %lu, %lu",
            current_form, (unsigned long)room, answer.fault, answer.text, answer.line, answer.size, (int)verdict.fault,
            (int)verdict.text, (unsigned long)verdict.location, (unsigned long)size);
        fail_on_texts(name, what, texts);
    }
    if (!same(out_pen.from, wanted_out, OUT_BYTES))
        fail_on_texts(name, "wrong bytes in the buffer, or changed ones outside the output", texts);
    if (!same_texts(maker, site, texts))
        fail_on_texts(name, "a text was changed", texts);
    tally.texts[verdict.fault][verdict.text]++;
    tally.texts_nulls[nulls(maker, site) + (out == NULL ? 4 : 0)]++;
    tally.comparisons++;
    return verdict;
}

struct verdict compare_check(const uint8_t *image, size_t length)
{
    static struct policy policy;
    static const char name[] = "kinohazel_check";
    char what[200];
    struct verdict verdict = load_image(image, length, &policy);
    struct kinohazel_image_check answer;
    const uint8_t *lent = lend(text_pen, image, length);
    size_t rules = 0, constraints = 0;
    if (verdict.fault == FAULT_NONE) {
        rules = policy.rule_count;
        constraints = policy.constraint_count;
        tally.taken[image[0]]++;
    }
    start_call(false);
    answer = kinohazel_check(lent, length);
    end_call();
    if (answer.fault != (uint64_t)verdict.fault || answer.word != verdict.location || answer.rules != rules
        || answer.constraints != constraints) {
        sprintf(what,
            "fault %" PRIu64 " word %" PRIu64 " rules %" PRIu64 " constraints %" PRIu64 ", expected %d, %lu, %lu, %lu",
            answer.fault, answer.word, answer.rules, answer.constraints, (int)verdict.fault,
            (unsigned long)verdict.location, (unsigned long)rules, (unsigned long)constraints);
        fail_on(name, what, image, length);
    }
    if (!same(lent, image, length))
        fail_on(name, "the image was changed", image, length);
    count_location(tally.check_locations, verdict, image);
    tally.check[verdict.fault]++;
    tally.check_nulls[lent == NULL]++;
    tally.comparisons++;
    return verdict;
}

bool agree(struct kinohazel_decision answer, struct decision wanted)
{
    return answer.fault == (uint64_t)wanted.verdict.fault && answer.word == wanted.verdict.location
        && answer.accepted == wanted.accepted && answer.cancelled == wanted.cancelled && answer.triggered == wanted.triggered
        && answer.visited == wanted.visited;
}

static bool all_readings(const struct epoch *epoch)
{
    const int32_t *readings = epoch->readings;
    bool negative = false, positive = false;
    unsigned i, k;
    for (i = 0; i < READINGS; i++) {
        negative = negative || readings[i] < 0;
        positive = positive || readings[i] > 0;
        for (k = 0; k < i; k++)
            if (!in_set(epoch->given, i) || readings[i] == 0 || readings[k] == 0 || readings[i] == readings[k])
                return false;
    }
    return negative && positive;
}

/* The last token of a line of 1,024 bytes begins so, behind 1,000 bytes and more. */
static bool far(const uint8_t *line, size_t length, const char *token)
{
    size_t from = length, size = strlen(token);
    while (from > 0 && line[from - 1] != ' ')
        from--;
    return length == EPOCH_BYTES && from >= 1000 && length - from >= size && memcmp(line + from, token, size) == 0;
}

static void count_extremes(struct decision decision, const uint8_t *line, size_t length)
{
    struct epoch epoch;
    read_epoch(line, length, &epoch);
    tally.extremes[ALL_ACCEPTED] += decision.accepted == UINT64_MAX;
    tally.extremes[ALL_CANCELLED] += decision.cancelled == UINT64_MAX;
    tally.extremes[OVER_30_CANCELLED] += size_of_set(decision.cancelled) > 30;
    tally.extremes[ALL_EVENTS] += epoch.present == UINT64_MAX;
    tally.extremes[ALL_READINGS] += all_readings(&epoch);
    tally.extremes[FAR_EVENT] += far(line, length, "E63");
    tally.extremes[FAR_READING] += far(line, length, "R15=");
    tally.patterns[1] += has_pattern(line, length);
}

/* Whether the decision would be another if missing readings were 0: by what the rules propose, and by what the never lines cancel
   of that. */
static void count_missing(const struct policy *policy, struct decision decision, const struct epoch *epoch)
{
    action_set candidates = decision.accepted | decision.cancelled;
    struct epoch zeros = *epoch;
    zeros.given = (UINT64_C(1) << READINGS) - 1;
    tally.missing[0] += proposed(policy, &zeros) != candidates;
    tally.missing[1] += accepted(policy, &zeros, candidates) != decision.accepted;
}

static void count_words(struct visits visits, struct decision decision, const uint8_t *image)
{
    struct header header = unpack_header(word_at(image, 0));
    size_t limit = visit_limit(image, CANCEL_ACTIONS);
    bool nevers = header.constraint_words > 0, rules = header.rule_words > 0;
    tally.extremes[ALL_WORDS] += rules && !nevers && decision.visited == limit;
    tally.extremes[NEARLY_ALL] += rules && nevers && decision.visited == limit - (ACTIONS - 1);
    tally.extremes[MOST_WORDS] += decision.visited == MOST_VISITED;
    tally.counted[REMAINDER] += visits.stops > 0;
    tally.counted[FAILING_IN_RULE] += visits.failing[IN_RULE] > 0;
    tally.counted[FAILING_IN_CONSTRAINT] += visits.failing[IN_CONSTRAINT] > 0;
    tally.counted[MISSING_IN_RULE] += visits.missing[IN_RULE] > 0;
    tally.counted[MISSING_IN_CONSTRAINT] += visits.missing[IN_CONSTRAINT] > 0;
    tally.counted[NO_TRIAL] += nevers && (decision.accepted | decision.cancelled) == 0;
}

/* The words of a decision that is not refused are those of the policy. */
static void compare_words(const struct policy *policy, struct decision decision, const struct epoch *epoch, const uint8_t *image,
    enum mode mode)
{
    struct visits visits = visits_by_policy(policy, epoch, mode);
    if (decision.visited != visits.words)
        fail("reference", "the words visited are not those of the policy");
    if (mode == CANCEL_ACTIONS)
        count_words(visits, decision, image);
    else
        count_droppings(policy, epoch, decision, visits);
}

/* What a decision that is not refused shows, by the policy. */
static void count_decision(const struct policy *policy, struct decision decision, event_set pending, const uint8_t *image,
    const uint8_t *line, size_t length, enum mode mode)
{
    struct epoch epoch;
    read_next_epoch(policy, pending, line, length, &epoch);
    if (mode == CANCEL_ACTIONS)
        count_missing(policy, decision, &epoch);
    compare_words(policy, decision, &epoch, image, mode);
    count_remembered(policy, pending, &epoch, line, length, decision, mode);
}

const struct decider deciders[MODES] = {
    [CANCEL_ACTIONS] = {"kinohazel_decide", "kinohazel_step", kinohazel_decide, kinohazel_step},
    [CANCEL_EVENTS] = {"kinohazel_decide_events", "kinohazel_step_events", kinohazel_decide_events, kinohazel_step_events}};

static void fail_on_decision(const char *name, struct kinohazel_decision answer, struct decision wanted, const uint8_t *image,
    size_t length, event_set pending, const uint8_t *line, size_t line_length)
{
    char what[400];
    sprintf(what,
        "pending %" PRIX64 ", fault %" PRIu64 " word %" PRIu64 " sets %" PRIX64 " %" PRIX64 " %" PRIX64 " visited %" PRIu64
        ", expected %d, %lu, %" PRIX64 " %" PRIX64 " %" PRIX64 ", %lu",
        pending, answer.fault, answer.word, answer.accepted, answer.cancelled, answer.triggered, answer.visited,
        (int)wanted.verdict.fault, (unsigned long)wanted.verdict.location, wanted.accepted, wanted.cancelled, wanted.triggered,
        (unsigned long)wanted.visited);
    describe(name, what);
    print_bytes("image", image, length);
    print_bytes("line", line, line_length);
    printf("\n");
    exit(1);
}

/* What is known of an answer without the reference's words. */
static void check_answer(struct kinohazel_decision answer, const uint8_t *image, event_set pending, const uint8_t *line, size_t length,
    const struct policy *policy, enum mode mode)
{
    const char *name = deciders[mode].name;
    struct decision plain;
    struct epoch epoch;
    if (answer.fault != KINOHAZEL_OK && (answer.accepted | answer.cancelled | answer.triggered | answer.visited) != 0)
        fail_on(name, "sets or words on a refusal", line, length);
    if (answer.fault == KINOHAZEL_OK && answer.visited > visit_limit(image, mode))
        fail_on(name, "over P + 64 * N words, or 65 * (P + N)", line, length);
    if (policy == NULL)
        return;
    plain = decide_by_policy(policy, pending, line, length, mode);
    plain.visited = (size_t)answer.visited; /* the plain machine counts none */
    if (!agree(answer, plain))
        fail_on(name, "the plain machine answers differently", line, length);
    if (read_next_epoch(policy, pending, line, length, &epoch).fault != FAULT_NONE)
        return;
    if (mode == CANCEL_ACTIONS)
        check_choices(policy, &epoch, answer.accepted);
    else
        check_reductions(policy, &epoch, answer);
}

/* The step of a state with these pending events: the answer is that of the decision, and the state is as it has to be after it. */
static void compare_step(struct decision wanted, const uint8_t *image, size_t length, event_set pending, const uint8_t *line,
    size_t line_length, enum mode mode)
{
    const char *name = deciders[mode].step_name;
    struct kinohazel_state *state = lend_state(pending);
    struct kinohazel_decision answer;
    start_call(false);
    answer = deciders[mode].step(image, length, state, line, line_length);
    end_call();
    if (!agree(answer, wanted))
        fail_on_decision(name, answer, wanted, image, length, pending, line, line_length);
    if (state->pending != pending_after(pending, wanted) || !is_state_alone())
        fail_on(name, "the state is not as it has to be after the line, or what lies before it was changed", line, line_length);
    count_step(pending, wanted, mode);
    tally.step_nulls[mode][nulls(image, line)]++;
    tally.comparisons++;
}

struct decision compare_mode(const uint8_t *image, size_t length, event_set pending, const uint8_t *line, size_t line_length,
    const struct policy *policy, enum mode mode)
{
    static unsigned long turn;
    const char *name = deciders[mode].name;
    struct decision wanted = decide(image, length, pending, line, line_length, mode);
    struct kinohazel_decision answer;
    const uint8_t *lent = lend(text_pen, image, length), *lent_line = lend(line_pen, line, line_length);
    start_call(false);
    answer = deciders[mode].library(lent, length, pending, lent_line, line_length);
    end_call();
    if (!agree(answer, wanted))
        fail_on_decision(name, answer, wanted, image, length, pending, line, line_length);
    check_answer(answer, image, pending, line, line_length, policy, mode);
    if (turn++ % 3 == 0) /* of both modes */
        compare_step(wanted, lent, length, pending, lent_line, line_length, mode);
    if (!same(lent, image, length) || !same(lent_line, line, line_length))
        fail_on(name, "the image or the line was changed", line, line_length);
    if (wanted.verdict.fault == FAULT_NONE && mode == CANCEL_ACTIONS)
        count_extremes(wanted, line, line_length);
    if (wanted.verdict.fault == FAULT_NONE && policy != NULL)
        count_decision(policy, wanted, pending, image, line, line_length, mode);
    tally.decide[mode][wanted.verdict.fault]++;
    tally.decide_nulls[mode][nulls(lent, lent_line)]++;
    tally.accepting[mode] += wanted.accepted != 0;
    tally.cancelling[mode] += wanted.cancelled != 0;
    tally.comparisons++;
    return wanted;
}

struct decision compare_decide(const uint8_t *image, size_t length, event_set pending, const uint8_t *line, size_t line_length,
    const struct policy *policy)
{
    compare_mode(image, length, pending, line, line_length, policy, CANCEL_EVENTS);
    return compare_mode(image, length, pending, line, line_length, policy, CANCEL_ACTIONS);
}

bool agree_why(struct kinohazel_explanation answer, struct explanation wanted)
{
    return answer.fault == (uint64_t)wanted.verdict.fault && answer.text == (uint64_t)wanted.verdict.text
        && answer.line == wanted.verdict.location && answer.outcome == (uint64_t)wanted.outcome
        && answer.part_text == (uint64_t)wanted.shown.text && answer.part_start == wanted.shown.start
        && answer.part_length == wanted.shown.length;
}

static void count_explanation(struct explanation wanted, const uint8_t *line, size_t length, uint64_t action)
{
    struct epoch epoch;
    tally.explain[wanted.verdict.fault][wanted.verdict.text]++;
    tally.outcomes[wanted.outcome][wanted.shown.text]++;
    tally.over += wanted.verdict.text == NEITHER && wanted.verdict.fault == FAULT_EPOCH_RANGE && action >= ACTIONS
        && read_epoch(line, length, &epoch).fault == FAULT_NONE;
}

struct explanation compare_explain(struct texts texts, const struct policy *policy, event_set pending, const uint8_t *line,
    size_t length, uint64_t action)
{
    static const char name[] = "kinohazel_explain";
    char what[500];
    struct explanation wanted =
        policy == NULL ? explain(texts, pending, line, length, action) : explain_by_policy(policy, pending, line, length, action);
    const uint8_t *maker = lend(text_pen, texts.maker.bytes, texts.maker.length),
                  *site = lend(site_pen, texts.site.bytes, texts.site.length), *lent_line = lend(line_pen, line, length);
    struct kinohazel_explanation answer;
    start_call(false);
    answer = kinohazel_explain(maker, texts.maker.length, site, texts.site.length, pending, lent_line, length, action);
    end_call();
    if (!agree_why(answer, wanted)) {
        sprintf(what,
            "pending %" PRIX64 ", action %" PRIu64 ", fault %" PRIu64 " text %" PRIu64 " line %" PRIu64 " outcome %" PRIu64
            " part %" PRIu64 " %" PRIu64 " %" PRIu64 ", expected %d, %d, %lu, %d, %d %lu %lu",
            pending, action, answer.fault, answer.text, answer.line, answer.outcome, answer.part_text, answer.part_start,
            answer.part_length, (int)wanted.verdict.fault, (int)wanted.verdict.text, (unsigned long)wanted.verdict.location,
            (int)wanted.outcome, (int)wanted.shown.text, (unsigned long)wanted.shown.start, (unsigned long)wanted.shown.length);
        describe(name, what);
        print_bytes("line", line, length);
        fail_on_texts(name, "the texts", texts);
    }
    if (!same_texts(maker, site, texts) || !same(lent_line, line, length))
        fail_on_texts(name, "a text or the line was changed", texts);
    count_explanation(wanted, line, length, action);
    tally.explain_nulls[nulls(maker, site) + (lent_line == NULL ? 4 : 0)]++;
    tally.comparisons++;
    return wanted;
}
