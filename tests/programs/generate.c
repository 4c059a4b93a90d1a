/* Makes inputs for the programs and the outputs that the reference expects, the same on each run: `generate DIR` writes
   DIR/PROGRAM/NAME.in and .out, or .maker, .site and .out with the .in of `explain`, and prints how often each fault was met. It
   fails if one was never met. */
#include "../reference/inputs.h"

#include <stdlib.h>
#include <string.h>

enum {
    COMPILER_CASES = 3200,
    DECOMPILER_CASES = 1600,
    ENGINE_CASES = 3200,
    CLASH_CASES = 400,
    REMEMBERED_CASES = 400,
    TEXTS_CASES = 1600,
    EXPLAIN_CASES = 2640
};

/* How often each fault has to be met in each of two texts, and each answer to a question. */
enum { TEXTS_LEAST = 20, ANSWERS_LEAST = 500 };

static void fail(const char *message, const char *name)
{
    fprintf(stderr, "generate: %s: %s\n", name, message);
    exit(1);
}

/* Writing cases, and counting what they meet */

struct tally {
    unsigned long text[FAULTS], epoch[MODES][FAULTS], dump[FAULTS], no_words, forms[LAST_FORM + 1]; /* of accepted dumps */
    unsigned long decisions[MODES], cancelling[MODES], dropping, loaded, bodies;
    unsigned long triggering[MODES], occurring[MODES], kept[MODES]; /* accepted with pending events, and refused with them */
    unsigned long most_accepted[MODES], most_cancelled[MODES], most_visited[MODES], most_epochs; /* in one decision, in one input */
    unsigned long texts[FAULTS][OWNERS], refused_texts[FAULTS][OWNERS]; /* of the compiler, of explain */
    unsigned long question[FAULTS], outcomes[OUTCOMES][OWNERS], over; /* refused for the number of the action or of an event alone */
    unsigned long asked_pending, changed; /* answered with pending events, and by them otherwise than without */
    unsigned long both, most_questions; /* accepted texts with lines of both; in one input */
};

static FILE *open_file(const char *folder, const char *program, const char *name, const char *end)
{
    char path[4096];
    FILE *file;
    snprintf(path, sizeof path, "%s/%s/%s.%s", folder, program, name, end);
    file = fopen(path, "wb");
    if (file == NULL)
        fail("cannot be written", path);
    return file;
}

static void close_file(FILE *file, const char *name)
{
    if (fclose(file) != 0)
        fail("cannot be written", name);
}

/* Changes one word of an image's body and mends the check words: what still loads is written again as it was. */
static void check_loader(const uint8_t *image, size_t length, struct dice *dice, const char *name, struct tally *tally)
{
    static uint8_t changed[IMAGE_BYTES], again[IMAGE_BYTES];
    static struct policy loaded;
    struct verdict verdict;
    unsigned form = image[0];
    size_t count = length / WORD_BYTES, at = 1 + below(dice, (unsigned)(count - 1));
    memcpy(changed, image, length);
    if (chance(dice, 500)) /* a word of another place, or one bit */
        put_word(changed, at, word_at(image, 1 + below(dice, (unsigned)(count - 1))));
    else
        changed[WORD_BYTES * at + below(dice, WORD_BYTES)] ^= (uint8_t)(1u << below(dice, 8));
    put_check_words(changed, count, form);
    verdict = load_image(changed, length, &loaded);
    tally->loaded += verdict.fault == FAULT_NONE;
    tally->bodies += verdict.fault == FAULT_BODY;
    if (verdict.fault == FAULT_BODY ? verdict.location == 0 || verdict.location > at
                                    : verdict.fault != FAULT_NONE || verdict.location != 0)
        fail("a changed body is refused for another fault or at another location", name);
    if (verdict.fault == FAULT_NONE
        && (write_image(form, &loaded, again) != length || memcmp(again, changed, length) != 0))
        fail("a changed image is not written again as it was", name);
}

/* Two words before the weighted one that stand next to each other and differ are refused if they are exchanged: words 0 and 1
   under 8, others under 16. */
static void check_swap(const uint8_t *image, size_t length, struct dice *dice, const char *name)
{
    static uint8_t changed[IMAGE_BYTES];
    static struct policy loaded;
    struct verdict verdict;
    size_t weighted = length / WORD_BYTES - CHECK_WORDS, at;
    if (weighted < 2)
        return;
    at = below(dice, (unsigned)weighted - 1);
    memcpy(changed, image, length);
    put_word(changed, at, word_at(image, at + 1));
    put_word(changed, at + 1, word_at(image, at));
    verdict = load_image(changed, length, &loaded);
    if (word_at(image, at) != word_at(image, at + 1)
        && (verdict.fault != (at == 0 ? FAULT_FORM : FAULT_WEIGHTED_SUM) || verdict.location != 0))
        fail("exchanged words are not refused under 8 or 16", name);
}

static void raise_to(unsigned long *most, unsigned long number)
{
    if (*most < number)
        *most = number;
}

/* The text of an image compiles to it in its form. */
static void check_writer(const uint8_t *image, size_t length, const char *name)
{
    static uint8_t text[WRITTEN_BYTES], again[IMAGE_BYTES];
    size_t size, written;
    if (decompile(image, length, text, sizeof text, &size).fault != FAULT_NONE
        || compile(image[0], text, size, again, sizeof again, &written).fault != FAULT_NONE || written != length
        || memcmp(again, image, length) != 0)
        fail("the text of the image does not compile to it", name);
}

/* The words and the policy decide alike on an epoch line where these events are pending, and agree on the words that are visited. */
static struct decision check_decision(const struct policy *policy, const uint8_t *image, size_t size, event_set pending,
    const uint8_t *line, size_t length, enum mode mode, const char *name)
{
    struct decision one = decide(image, size, pending, line, length, mode),
                    other = decide_by_policy(policy, pending, line, length, mode);
    struct epoch epoch;
    if (one.verdict.fault != other.verdict.fault || one.verdict.location != other.verdict.location
        || one.accepted != other.accepted || one.cancelled != other.cancelled || one.triggered != other.triggered)
        fail("the words and the policy decide differently", name);
    if (one.verdict.fault == FAULT_NONE) {
        read_next_epoch(policy, pending, line, length, &epoch);
        other.visited = visits_by_policy(policy, &epoch, mode).words;
    }
    if (one.visited != other.visited || one.visited > visit_limit(image, mode))
        fail("the words visited are not those of the policy, or too many", name);
    return one;
}

static void count_decision(struct decision decision, event_set pending, enum mode mode, struct tally *tally)
{
    bool taken = decision.verdict.fault == FAULT_NONE;
    tally->triggering[mode] += decision.triggered != 0;
    tally->occurring[mode] += taken && pending != 0;
    tally->kept[mode] += !taken && pending != 0;
    tally->epoch[mode][decision.verdict.fault]++;
    tally->decisions[mode] += decision.accepted != 0;
    tally->cancelling[mode] += decision.cancelled != 0;
    raise_to(&tally->most_accepted[mode], size_of_set(decision.accepted));
    raise_to(&tally->most_cancelled[mode], size_of_set(decision.cancelled));
    raise_to(&tally->most_visited[mode], decision.visited);
}

/* Of an accepted epoch line: whether the second mode drops an event. */
static bool drops(const struct policy *policy, event_set pending, const uint8_t *line, size_t length)
{
    struct epoch epoch;
    event_set kept;
    return read_next_epoch(policy, pending, line, length, &epoch).fault == FAULT_NONE && kept_events(policy, &epoch, &kept)
        && kept != epoch.present;
}

/* The image of an accepted text in a form loads as it was written, and its text compiles to it. A changed word is refused under 7
   to 10. */
static void check_image(
    unsigned form, const uint8_t *text, size_t length, struct dice *dice, const char *name, struct tally *tally)
{
    static uint8_t image[IMAGE_BYTES], changed[IMAGE_BYTES];
    static struct policy loaded;
    size_t written, byte;
    struct verdict verdict;
    compile(form, text, length, image, sizeof image, &written);
    if (load_image(image, written, &loaded).fault != FAULT_NONE || write_image(form, &loaded, changed) != written
        || memcmp(changed, image, written) != 0)
        fail("the image does not load as it was written", name);
    check_writer(image, written, name);
    verdict = compile(form, text, length, changed, written - 1, &byte);
    if (verdict.fault != FAULT_ROOM || byte != 0)
        fail("a buffer with too little room was taken", name);
    memcpy(changed, image, written);
    byte = below(dice, (unsigned)written);
    changed[byte] = (uint8_t)(changed[byte] + 1 + below(dice, 255));
    verdict = load_image(changed, written, &loaded);
    if (verdict.fault < FAULT_SIZE || verdict.fault > FAULT_SUM)
        fail("a changed word was not refused under 7 to 10", name);
    for (byte = 0; byte < 4; byte++)
        check_loader(image, written, dice, name, tally);
    if (form != FIRST_FORM)
        check_swap(image, written, dice, name);
}

/* The least form for which a text of this policy is accepted. */
static unsigned least_form(const struct policy *policy)
{
    return reserved(policy) == 0 ? FIRST_FORM : TRIGGER_FORM;
}

/* A text in every form; in a lower form than its least one its first line that triggers has neither shape. */
static void check_forms(const struct policy *policy, const uint8_t *text, size_t length, struct dice *dice, const char *name,
    struct tally *tally)
{
    static uint8_t image[IMAGE_BYTES];
    unsigned form;
    size_t size;
    for (form = FIRST_FORM; form <= LAST_FORM; form++)
        if (form >= least_form(policy))
            check_image(form, text, length, dice, name, tally);
        else if (compile(form, text, length, image, sizeof image, &size).fault != FAULT_SHAPE)
            fail("a line that triggers is taken in a lower form", name);
}

/* A text in every form; running one of its images and the plain machine agree on each epoch line, one after the other. */
static void check_reference(const struct buffer *input, const char *name, bool engine, struct tally *tally)
{
    static uint8_t image[IMAGE_BYTES];
    static struct policy policy;
    struct dice dice = {input->length};
    unsigned long epochs = 0;
    event_set pending = 0;
    const uint8_t *line;
    size_t text_length = input->length, at = input->length, written, line_length;
    struct verdict verdict;
    struct decision decision;
    enum mode mode = CANCEL_ACTIONS;
    if (engine)
        find_run(input->bytes, input->length, &text_length, &at, &mode);
    verdict = read_text(NEWEST_FORM, input->bytes, text_length, &policy);
    tally->text[verdict.fault]++;
    if (verdict.fault != FAULT_NONE)
        return;
    check_forms(&policy, input->bytes, text_length, &dice, name, tally);
    compile(LAST_FORM - below(&dice, LAST_FORM + 1 - least_form(&policy)), input->bytes, text_length, image, sizeof image, &written);
    while (next_line(input->bytes, input->length, &at, &line, &line_length)) {
        decision = check_decision(&policy, image, written, pending, line, line_length, mode, name);
        count_decision(decision, pending, mode, tally);
        tally->dropping += mode == CANCEL_EVENTS && drops(&policy, pending, line, line_length);
        pending = pending_after(pending, decision);
        raise_to(&tally->most_epochs, ++epochs);
    }
}

static void write_file(
    const char *folder, const char *program, const char *name, const char *end, const struct buffer *bytes)
{
    FILE *file = open_file(folder, program, name, end);
    fwrite(bytes->bytes, 1, bytes->length, file);
    close_file(file, name);
}

static void write_files(const char *folder, const char *program, const char *name, const struct buffer *input)
{
    FILE *file;
    write_file(folder, program, name, "in", input);
    file = open_file(folder, program, name, "out");
    print_program(program, input->bytes, input->length, file);
    close_file(file, name);
}

/* A dump, for the decompiler. */
static void write_dump(const char *folder, const char *name, const struct buffer *dump, struct tally *tally)
{
    static uint8_t image[DUMP_BYTES], text[WRITTEN_BYTES];
    size_t size, written;
    struct verdict verdict;
    write_files(folder, "decompiler", name, dump);
    if (read_dump(dump->bytes, dump->length, image, &size) > 0) {
        tally->no_words++;
        return;
    }
    verdict = decompile(image, size, text, sizeof text, &written);
    tally->dump[verdict.fault]++;
    if (verdict.fault == FAULT_NONE)
        tally->forms[image[0]]++;
}

/* The image of a text in one of the other forms, if the text is accepted. That in the newest form is what the compiler prints, and goes
   through the decompiler in `run`. */
static void write_dump_of(const char *folder, const char *name, const struct buffer *text, struct tally *tally)
{
    static const unsigned others[] = {1, 2, 4, 5};
    static uint8_t image[IMAGE_BYTES];
    struct buffer dump;
    size_t size;
    if (compile(others[text->length % 4], text->bytes, text->length, image, sizeof image, &size).fault != FAULT_NONE)
        return;
    dump = new_buffer();
    add_dump(&dump, image, size);
    write_dump(folder, name, &dump, tally);
    free(dump.bytes);
}

static void write_case(
    const char *folder, bool engine, const char *name, const struct buffer *input, struct tally *tally)
{
    write_files(folder, engine ? "engine" : "compiler", name, input);
    check_reference(input, name, engine, tally);
    if (!engine)
        write_dump_of(folder, name, input, tally);
}

/* Cases with two texts */

/* Two texts, and questions about them. */
struct asked {
    struct buffer maker, site, questions;
};

static void clear(struct asked *asked)
{
    asked->maker.length = asked->site.length = asked->questions.length = 0;
}

static struct texts texts_in(const struct asked *asked)
{
    return texts_of(&asked->maker, &asked->site);
}

/* Two texts have the image of one text with the lines of both, unless that is too long. */
static void check_joined(const struct asked *asked, const uint8_t *image, size_t size, const char *name)
{
    static uint8_t other[IMAGE_BYTES];
    struct buffer joined = new_buffer();
    size_t written;
    add_bytes(&joined, asked->maker.bytes, asked->maker.length);
    add(&joined, "\n");
    add_bytes(&joined, asked->site.bytes, asked->site.length);
    if (joined.length <= TEXT_BYTES
        && (compile(NEWEST_FORM, joined.bytes, joined.length, other, sizeof other, &written).fault != FAULT_NONE || written != size
            || memcmp(image, other, size) != 0))
        fail("two texts have not the image of their lines in one text", name);
    free(joined.bytes);
}

/* The policy of two texts. False if they are refused. */
static bool check_texts(const struct asked *asked, const char *name, unsigned long counts[FAULTS][OWNERS],
    struct policy *policy, struct tally *tally)
{
    static uint8_t image[IMAGE_BYTES], less[IMAGE_BYTES];
    size_t size, written, i;
    bool lines[OWNERS] = {false, false, false};
    struct verdict verdict = compile_texts(NEWEST_FORM, texts_in(asked), image, sizeof image, &size);
    counts[verdict.fault][verdict.text]++;
    if (verdict.fault != FAULT_NONE)
        return false;
    check_joined(asked, image, size, name);
    verdict = compile_texts(NEWEST_FORM, texts_in(asked), less, size - 1, &written);
    if (verdict.fault != FAULT_ROOM || verdict.text != NEITHER || verdict.location != 0 || written != 0)
        fail("a buffer with too little room was taken, or a text is named for it", name);
    read_texts(NEWEST_FORM, texts_in(asked), policy);
    for (i = 0; i < policy->rule_count; i++)
        lines[policy->rules[i].shown.text] = true;
    for (i = 0; i < policy->constraint_count; i++)
        lines[policy->constraints[i].shown.text] = true;
    tally->both += lines[MAKER] && lines[SITE];
    return true;
}

/* The line that is shown, read alone, is a rule that proposes the action or a never line that cancels it after those kept before
   it. */
static void check_shown(const struct asked *asked, struct part shown, const struct epoch *epoch, struct decision decision,
    unsigned action, const char *name)
{
    static struct policy alone;
    const struct buffer *text = shown.text == MAKER ? &asked->maker : &asked->site;
    action_set one = UINT64_C(1) << action, before = decision.accepted & (one - 1);
    const uint8_t *line = text->bytes + shown.start;
    if (read_text(NEWEST_FORM, line, shown.length, &alone).fault != FAULT_NONE || line[0] == ' ' || line[shown.length - 1] == ' '
        || (in_set(decision.accepted, action) ? proposed(&alone, epoch) != one || alone.rule_count != 1
                                              : accepted(&alone, epoch, before | one) != before || alone.constraint_count != 1))
        fail("the line that is shown does not say why", name);
}

/* What becomes of an action by a decision that is not refused. */
static enum outcome outcome_of(struct decision decision, uint64_t action)
{
    if (!in_set(decision.accepted | decision.cancelled, (unsigned)action))
        return NOT_PROPOSED;
    return in_set(decision.accepted, (unsigned)action) ? IS_ACCEPTED : IS_CANCELLED;
}

static void check_question(const struct asked *asked, const struct policy *policy, const uint8_t *bytes, size_t length,
    const char *name, struct tally *tally)
{
    struct explanation why = answer_question(policy, bytes, length);
    struct question question;
    struct decision decision;
    struct epoch epoch;
    enum fault fault;
    read_question(bytes, length, &question);
    fault = read_next_epoch(policy, question.pending, question.line.bytes, question.line.length, &epoch).fault;
    tally->question[why.verdict.fault]++;
    tally->outcomes[why.outcome][why.shown.text]++;
    tally->over += why.verdict.fault == FAULT_EPOCH_RANGE && fault == FAULT_NONE;
    if (why.verdict.fault != FAULT_NONE)
        return;
    decision = decide_by_policy(policy, question.pending, question.line.bytes, question.line.length, CANCEL_ACTIONS);
    if (why.outcome != outcome_of(decision, question.action))
        fail("an action is explained otherwise than it is decided", name);
    if (why.outcome != NOT_PROPOSED)
        check_shown(asked, why.shown, &epoch, decision, (unsigned)question.action, name);
    decision = decide_by_policy(policy, 0, question.line.bytes, question.line.length, CANCEL_ACTIONS);
    tally->asked_pending += question.pending != 0;
    tally->changed += why.outcome != outcome_of(decision, question.action);
}

static void write_on_texts(const char *folder, const char *program, const char *name, const struct asked *asked)
{
    FILE *file;
    write_file(folder, program, name, "maker", &asked->maker);
    write_file(folder, program, name, "site", &asked->site);
    file = open_file(folder, program, name, "out");
    print_on_texts(program, texts_in(asked), asked->questions.bytes, asked->questions.length, file);
    close_file(file, name);
}

static void write_texts(const char *folder, const char *name, const struct asked *asked, struct tally *tally)
{
    static struct policy policy;
    write_on_texts(folder, "compiler", name, asked);
    check_texts(asked, name, tally->texts, &policy, tally);
}

static void write_explain(const char *folder, const char *name, const struct asked *asked, struct tally *tally)
{
    static struct policy policy;
    const uint8_t *question;
    size_t at = 0, length;
    unsigned long questions = 0;
    write_on_texts(folder, "explain", name, asked);
    write_file(folder, "explain", name, "in", &asked->questions);
    if (!check_texts(asked, name, tally->refused_texts, &policy, tally))
        return;
    while (next_line(asked->questions.bytes, asked->questions.length, &at, &question, &length)) {
        check_question(asked, &policy, question, length, name, tally);
        raise_to(&tally->most_questions, ++questions);
    }
}

/* Cases at the limits, by name */

/* An image as large as it can be in each form, and with it a word more, and a line that is none. */
static void write_widest_dumps(const char *folder, struct tally *tally)
{
    static uint8_t image[IMAGE_BYTES];
    struct buffer text = new_buffer(), dump = new_buffer();
    size_t size;
    unsigned form;
    char name[40];
    for (form = FIRST_FORM; form <= LAST_FORM; form++) {
        text.length = 0;
        add_widest(&text, form);
        compile(form, text.bytes, text.length, image, sizeof image, &size);
        dump.length = 0;
        add_dump(&dump, image, size);
        sprintf(name, "widest_%u", form);
        write_dump(folder, name, &dump, tally);
        add(&dump, "00000000\n");
        sprintf(name, "widest_%u_and_word", form);
        write_dump(folder, name, &dump, tally);
        add(&dump, "\n");
        sprintf(name, "widest_%u_and_blank", form);
        write_dump(folder, name, &dump, tally);
    }
    free(text.bytes);
    free(dump.bytes);
}

static void write_limits(const char *folder, struct buffer *input, struct tally *tally)
{
    static struct policy policy;
    static uint8_t image[IMAGE_BYTES], text[WRITTEN_BYTES];
    unsigned i;
    size_t k;

    input->length = 0;
    add_largest(input);
    if (read_text(NEWEST_FORM, input->bytes, input->length, &policy).fault != FAULT_NONE
        || write_image(NEWEST_FORM, &policy, image) != IMAGE_BYTES || IMAGE_WORDS != 3267)
        fail("the largest image has not 3,267 words", "largest");
    write_case(folder, false, "largest", input, tally);
    add(input, "run\n");
    k = input->length;
    add_epochs_of_largest(input);
    write_case(folder, true, "largest", input, tally);
    {
        struct epoch epoch;
        const uint8_t *line;
        size_t length;
        next_line(input->bytes, input->length, &k, &line, &length);
        if (read_epoch(line, length, &epoch).fault != FAULT_NONE || proposed(&policy, &epoch) != UINT64_MAX)
            fail("not all actions are proposed", "largest");
    }
    input->length = 0;
    add_most_visited(input);
    add(input, "run\n");
    add_epochs_of_largest(input);
    write_case(folder, true, "most_visited", input, tally);
    input->length = 0;
    add_largest(input);
    add(input, "run events\n");
    add_epochs_of_largest(input);
    write_case(folder, true, "largest_events", input, tally);
    input->length = 0;
    add_most_tried(input);
    add(input, "run events\n");
    add_epoch_of_most_tried(input);
    add(input, "\n");
    add_epochs_of_largest(input);
    write_case(folder, true, "most_tried", input, tally);
    input->length = 0;
    add_widest(input, NEWEST_FORM);
    if (read_text(NEWEST_FORM, input->bytes, input->length, &policy).fault != FAULT_NONE
        || write_text(&policy, text) != WRITTEN_BYTES || WRITTEN_BYTES != 28224)
        fail("the longest text has not 28,224 bytes", "widest");
    write_case(folder, false, "widest", input, tally);
    input->length = 0;
    add_widest(input, FIRST_FORM);
    write_case(folder, false, "widest_1", input, tally);
    write_widest_dumps(folder, tally);

    for (i = 0; i < 4; i++) {
        static const char *const names[] = {"rules_128", "rules_129", "nevers_64", "nevers_65"};
        input->length = 0;
        add_times(input, i < 2 ? "E0 causes A0\n" : "never A0\n", (i < 2 ? RULES : CONSTRAINTS) + i % 2);
        write_case(folder, false, names[i], input, tally);
    }
    for (i = 0; i < FAULTY_LINES; i++) { /* the other faults of a line come before 5 */
        static const char *const names[] = {"full_and_shape", "full_and_range", "full_and_crowd", "full_and_repeat"};
        input->length = 0;
        add_times(input, "E0 causes A0\n", RULES);
        add(input, faulty_lines[i]);
        write_case(folder, false, names[i], input, tally);
    }
    for (i = 0; i < 5; i++) {
        static const char *const names[] = {"bytes_32768", "bytes_32769", "bytes_32768_open", "bytes_32769_open",
            "bytes_65536"};
        static const size_t lengths[] = {32768, 32769, 32768, 32769, 65536};
        input->length = 0;
        add_length(input, lengths[i], i < 2 || i > 3);
        write_case(folder, false, names[i], input, tally);
        if (i == 2 || i == 3) { /* no `run` line: all is text */
            write_case(folder, true, names[i], input, tally);
            continue;
        }
        add(input, "run\nE1\nE64\n");
        write_case(folder, true, names[i], input, tally);
    }
    for (i = 0; i < 4; i++) { /* long comes before the fault of a line */
        input->length = 0;
        add(input, "E64 causes A3\n");
        add_length(input, (i % 2 == 0 ? 32768 : 32769) - 14, true);
        if (i >= 2)
            add(input, "run\nE1\n");
        write_case(folder, i >= 2, i % 2 == 0 ? "range_in_32768" : "range_in_32769", input, tally);
    }
    input->length = 0;
    add_longest_line(input);
    write_case(folder, false, "one_line", input, tally);
    input->length = 0;
    add_most_lines(input);
    write_case(folder, false, "lines_32768", input, tally);
    input->length = 0;
    add(input, "E1 causes A3\nE2 causes A4\nnever A3 & A4\nrun\n");
    for (i = 0; i < 1200; i++)
        add(input, i % 3 == 0 ? "E1\n" : i % 3 == 1 ? "E1 E2\n" : "\n");
    write_case(folder, true, "epochs_1200", input, tally);
    for (i = 1023; i <= 1026; i++) { /* by spaces and by events; long comes before the fault of a token */
        static const char *const names[] = {"epoch_1023", "epoch_1024", "epoch_1025", "epoch_1026"};
        unsigned n;
        input->length = 0;
        add(input, "E1 causes A3\nrun\nE1");
        add_times(input, " ", i - 2);
        add(input, "\n");
        for (n = 0; n + 3 <= i; n += 3)
            add(input, "E1 ");
        add_times(input, " ", i - n);
        add(input, "\nE64 x");
        add_times(input, " ", i - 5);
        add(input, "\nE1\n");
        add_times(input, " ", i - 2);
        add(input, "E1");
        write_case(folder, true, names[i - 1023], input, tally);
    }
}

/* Further cases, by name: `limit_` those about the length of a text, `large_` those of many bytes, `shift_` those that
   differ in where a buffer ends. */

/* Sets of every size, in either mode. Of the proposed actions those under R0 are cancelled. */
static void write_sets(const char *folder, struct buffer *input, const char *run, const char *name, struct tally *tally)
{
    unsigned i;
    input->length = 0;
    for (i = 0; i < ACTIONS; i++)
        add_format(input, "E%u causes A%u\nnever A%u if R0 > %u\n", i, i, i, i);
    add(input, run);
    for (i = 0; i <= ACTIONS; i++) {
        add_events(input, 0, EVENTS); /* all proposed, i of them cancelled */
        add_format(input, "R0=%u\n", i);
        add_events(input, 0, i); /* i proposed, none cancelled, and all */
        add(input, "\n");
        add_events(input, EVENTS - i, i);
        add(input, "R0=64\n");
    }
    for (i = 0; i < EVENTS; i++) { /* all but one */
        add_events(input, 0, i);
        add_events(input, i + 1, EVENTS - 1 - i);
        add_format(input, "R0=%u\n", i % 3 * 32);
    }
    write_case(folder, true, name, input, tally);
}

/* All but the first are cancelled because of it, or all with their event. */
static void write_first(const char *folder, struct buffer *input, const char *run, const char *name, struct tally *tally)
{
    unsigned i;
    input->length = 0;
    for (i = 0; i < ACTIONS; i++)
        add_format(input, "E63 causes A%u\n", i);
    for (i = 1; i < ACTIONS; i++)
        add_format(input, "never A0 & A%u\n", i);
    add(input, run);
    add(input, "E63\n\nE63");
    write_case(folder, true, name, input, tally);
}

/* All readings in one line, by rising and by falling number; each once another way, once left out. */
static void write_readings(const char *folder, struct buffer *input, struct tally *tally)
{
    static const long values[READINGS] = {-2147483647 - 1, 2147483647, -1, 1, 40, -40, 65536, -65536, 32768, -32769,
        255, -256, 1000000000, -1000000000, 7, -2147483647};
    unsigned i, k;
    input->length = 0;
    for (i = 0; i < READINGS; i++) {
        add_format(input, "E0 causes A%u if R%u = %ld\n", i, i, values[i]);
        add_format(input, "E1 causes A%u if R%u < R%u\n", 16 + i, i, (i + 1) % READINGS);
        add_format(input, "E2 causes A%u if R%u >= %ld\n", 32 + i, i, values[i]);
        add_format(input, "E63 causes A%u if R%u != %ld\n", 48 + i, i, values[i]);
    }
    add(input, "run\n");
    for (k = 0; k <= 3 * READINGS; k++) {
        if (k % 2 == 0)
            add_events(input, 0, EVENTS);
        else
            add(input, "E0 E2 ");
        for (i = 0; i < READINGS; i++) {
            unsigned reading = k % 3 == 0 ? i : k % 3 == 1 ? READINGS - 1 - i : (i * 7 + k) % READINGS;
            if (k == READINGS + reading)
                continue;
            if (k == 2 * READINGS + reading)
                add_format(input, "R%u=%ld ", reading, values[(reading + 1) % READINGS]);
            else
                add_format(input, "R%u=%ld ", reading, k == reading ? values[reading] / 2 : values[reading]);
        }
        add(input, k % 4 == 0 ? "E1\n" : "\n");
    }
    write_case(folder, true, "readings", input, tally);
}

/* The last token of lines about as long as they may be, and a token at every place of a line. */
static void write_lines(const char *folder, struct buffer *input, struct tally *tally)
{
    static const char text[] = "E63 causes A63\nE0 & !E63 causes A1\nE0 causes A2 if R15 = -2147483648\n"
                               "E0 causes A3 if R15 = 7\nE62 causes A62\nrun\n";
    static const char *const fills[] = {" ", "E1 ", "E62 ", "E0 E1 E62 "};
    static const char *const ends[] = {
        "E63", "R15=-2147483648", "E63 R15=7", "R15=7 E63", "E63 ", "E64", "R15=7 R15=7"};
    unsigned length, i, k;
    size_t from;
    for (i = 0; i < 4; i++) {
        char name[] = "large_line_ends_0";
        name[sizeof name - 2] = (char)('0' + i);
        input->length = 0;
        add(input, text);
        for (length = 1000; length <= 1026; length++)
            for (k = 0; k < 7; k++) {
                from = input->length;
                add(input, "E0 ");
                while (input->length - from + strlen(fills[i]) + strlen(ends[k]) <= length)
                    add(input, fills[i]);
                while (input->length - from + strlen(ends[k]) < length)
                    add(input, " ");
                add(input, ends[k]);
                add(input, "\n");
            }
        write_case(folder, true, name, input, tally);
    }
    for (k = 0; k < 2; k++) {
        input->length = 0;
        add(input, text);
        for (i = 0; i < 1026; i++) {
            add_times(input, " ", i);
            add(input, k == 0 ? "E63\n" : "R15=7 E0\n");
        }
        write_case(folder, true, k == 0 ? "large_places_event" : "large_places_reading", input, tally);
    }
    input->length = 0; /* lines far longer, and good ones behind them */
    add(input, text);
    for (i = 0; i < 12; i++) {
        static const unsigned lengths[] = {
            65535, 65536, 65537, 65538, 65539, 66560, 66561, 131072, 131075, 1100, 4096, 4097};
        from = input->length;
        if (i % 3 == 1)
            add_times(input, " ", lengths[i] - 3);
        while (input->length - from + 3 < lengths[i] && i % 3 == 2)
            add(input, "E0 ");
        add(input, "E63");
        while (input->length - from < lengths[i])
            add(input, " ");
        add(input, "\nE63\nE0 E63 R15=7\n\nE64\n");
    }
    write_case(folder, true, "large_lines", input, tally);
    for (i = 0; i < 3; i++) {
        static const char *const names[] = {"large_line_spaces", "large_line_events", "large_line_open"};
        input->length = 0;
        add(input, text);
        add(input, "E0\nE63");
        while (input->length < (i == 0 ? 300000 : i == 1 ? 700000 : 400000))
            add(input, i == 0 ? " " : i == 1 ? " E62" : "x");
        if (i < 2)
            add(input, "\nE63\n\nE0 R15=-2147483648\nE0");
        write_case(folder, true, names[i], input, tally);
    }
}

/* Many answers to one read. */
static void write_floods(const char *folder, struct buffer *input, struct tally *tally)
{
    static const char *const lines[] = {"", "E0", "E1", "E2", "E64", "E0 R0=1", "E3 R0=1", "x", "R0=1 R0=1", "E3"};
    static const char all[] = "never A0 & A63 if R0 = 1\nE1 causes A5\nE2 causes A5\nE2 causes A10\nE2 causes A11\n"
                              "E2 causes A12\nE2 causes A13\nE3 causes A10\n";
    unsigned i, k;
    input->length = 0; /* numbers of six digits */
    add(input, "E1 causes A1\nE2 causes A63\nnever A63\nrun\n");
    for (i = 1; i <= 100200; i++)
        add(input, i % 1000 == 0 ? "E1\n" : i % 1000 == 536 ? "E2\n" : "\n");
    write_case(folder, true, "large_epochs", input, tally);
    for (k = 0; k < 5; k++) { /* answers of all lengths by chance, mostly long ones, only long ones, short ones; in the second mode */
        char name[] = "large_flood_0";
        struct dice dice = {UINT64_C(0xF0) << 32 | k};
        name[sizeof name - 2] = (char)('0' + k);
        input->length = 0;
        for (i = 0; i < ACTIONS; i++)
            add_format(input, "E0 causes A%u\n", i);
        add(input, all);
        for (i = 1; i < CONSTRAINTS; i++)
            add_format(input, "never A%u if R0 = 1\n", i);
        add(input, k < 4 ? "run\n" : "run events\n");
        for (i = 0; i < 6000; i++) {
            add(input, k == 2 || (k == 1 && chance(&dice, 800)) ? "E0" : k == 3 ? "E64" : CHOOSE(&dice, lines));
            if (k % 4 == 0 && chance(&dice, 5))
                add_times(input, " ", 1024);
            add(input, "\n");
        }
        write_case(folder, true, name, input, tally);
    }
    for (k = 0; k < 288; k++) { /* some answers that take k bytes more, then long ones */
        char name[32];
        input->length = 0;
        for (i = 0; i < ACTIONS; i++)
            add_format(input, "E0 causes A%u\n", i);
        add(input, all);
        add(input, "run\n");
        for (i = 0; i < 32; i++)
            add(input, i < k / 16 ? "E2\n" : i < k / 16 + k % 16 ? "E3\n" : "E1\n");
        add_times(input, "E0\n", 260);
        sprintf(name, "shift_%03u", k);
        write_files(folder, "engine", name, input);
    }
}

/* Texts far over their length, by comments, rules, blank lines and one line without an end. */
static void write_long_texts(const char *folder, struct buffer *input, struct tally *tally)
{
    static const unsigned lengths[] = {
        32769, 65535, 65537, 65593, 98304, 98361, 131072, 131129, 200000, 500000, 1000000};
    static const char *const fills[] = {"# E1 causes A3\n", "E1 causes A3\n", "\n", "E1"};
    unsigned i, k;
    for (i = 0; i < sizeof lengths / sizeof *lengths; i++)
        for (k = 0; k < 4; k++) {
            char name[40];
            input->length = 0;
            add(input, EXAMPLE);
            while (input->length < lengths[i])
                add(input, fills[k]);
            input->length = lengths[i];
            sprintf(name, "large_text_%u_%u", lengths[i], k);
            write_case(folder, false, name, input, tally);
            if (k == 3)
                write_case(folder, true, name, input, tally);
            input->bytes[input->length - 1] = '\n';
            add(input, (i + k) % 2 == 0 ? "run\nE1\n\nE64\n" : "run events\nE1\n\nE64\n");
            sprintf(name, "large_run_%u_%u", lengths[i], k);
            write_case(folder, true, name, input, tally);
        }
}

/* A line `run`, or one like it before the line `run`, at the end of a text of about the full length. */
static void write_runs(const char *folder, struct buffer *input, struct tally *tally)
{
    static const char *const lines[] = {
        "", "ru\n", "runx\n", "xrun\n", " run\n", "run \n", "rrun\n", "#run\n", "\n", "r\n"};
    static const char *const ends[] = {"run\nE1\n\nE64\n", "run\nE1", "run\n", "run", "ru", "runx", "run "};
    unsigned i, k, n;
    char name[40];
    for (i = 0; i < sizeof lines / sizeof *lines; i++)
        for (k = 0; k < sizeof ends / sizeof *ends; k++)
            for (n = TEXT_BYTES - 6; n <= TEXT_BYTES + 6; n++) {
                if (i > 0 && k > 0 && (n + i + k) % 4 != 0) /* not all of them */
                    continue;
                input->length = 0;
                add_length(input, n - strlen(lines[i]), true);
                add(input, lines[i]);
                add(input, ends[k]);
                sprintf(name, "limit_%u_%u_%u", n, i, k);
                write_case(folder, true, name, input, tally);
            }
    for (i = 1; i < sizeof lines / sizeof *lines; i++) /* past the limit */
        for (k = 0; k < 2; k++) {
            input->length = 0;
            add_length(input, k == 0 ? 40000 : 65530 + i, true);
            for (n = 1; n <= i; n++)
                add(input, lines[n]);
            add(input, i % 3 == 0 ? "run" : "run\nE1\nrun\nE1\n");
            sprintf(name, "limit_past_%u_%u", i, k);
            write_case(folder, true, name, input, tally);
        }
}

/* The same with `run events`. */
static void write_event_runs(const char *folder, struct buffer *input, struct tally *tally)
{
    static const char *const lines[] = {
        "", "run event\n", "run eventsx\n", " run events\n", "run events \n", "run  events\n", "rrun events\n", "#run events\n"};
    static const char *const ends[] = {"run events\nE1\n\nE64\n", "run events\nE1", "run events\n", "run events", "run event",
        "run eventsx", "run events ", "run events\nrun\nE1\n", "run\nrun events\nE1\n"};
    unsigned i, k, n;
    char name[40];
    for (i = 0; i < sizeof lines / sizeof *lines; i++)
        for (k = 0; k < sizeof ends / sizeof *ends; k++)
            for (n = TEXT_BYTES - 12; n <= TEXT_BYTES + 12; n++) {
                if (i > 0 && (n + i + k) % (k > 0 ? 12 : 2) != 0) /* not all of them */
                    continue;
                input->length = 0;
                add_length(input, n - strlen(lines[i]), true);
                add(input, lines[i]);
                add(input, ends[k]);
                sprintf(name, "limit_events_%u_%u_%u", n, i, k);
                write_case(folder, true, name, input, tally);
            }
    for (i = 1; i < sizeof lines / sizeof *lines; i++) /* past the limit */
        for (k = 0; k < 2; k++) {
            input->length = 0;
            add_length(input, k == 0 ? 40000 : 65520 + 2 * i, true);
            for (n = 1; n <= i; n++)
                add(input, lines[n]);
            add(input, i % 3 == 0 ? "run events" : i % 3 == 1 ? "run events\nE1\nrun\nE1\n" : "run\nE1\nrun events\nE1\n");
            sprintf(name, "limit_events_past_%u_%u", i, k);
            write_case(folder, true, name, input, tally);
        }
}

/* Texts with many clashes, and their epochs in the second mode. */
static void write_clashes(const char *folder, struct buffer *input, struct tally *tally)
{
    unsigned i, k;
    char name[32];
    for (i = 0; i < CLASH_CASES; i++) {
        struct dice dice = {UINT64_C(0xE7) << 32 | i};
        unsigned events = i % 8 == 7 ? EVENTS : 2 + i % 8;
        input->length = 0;
        add_clashing_text(input, &dice, events, 0);
        add(input, "run events\n");
        for (k = 0; k < 16; k++) {
            add_clashing_epoch(input, &dice, events);
            add(input, "\n");
        }
        sprintf(name, "seed_clash_%03u", i);
        write_case(folder, true, name, input, tally);
    }
}

/* Events that are remembered */

/* Texts with lines that trigger, and epochs in either mode, one after the other, with refused ones between. */
static void write_remembered(const char *folder, struct buffer *input, struct tally *tally)
{
    static const char *const refused[] = {"E64", "x", "R0=1 R0=1", "E0 R0=1 R0=1 E63", "E1,E2", "R0=1 E1 R0=2"};
    unsigned i, k;
    char name[32];
    for (i = 0; i < REMEMBERED_CASES; i++) {
        struct dice dice = {UINT64_C(0xE8) << 32 | i};
        unsigned events = i % 8 == 7 ? EVENTS : 2 + i % 8, triggered = 1 + below(&dice, events / 2);
        input->length = 0;
        add_clashing_text(input, &dice, events, triggered);
        add(input, i / 8 % 2 == 0 ? "run\n" : "run events\n");
        for (k = 0; k < 24; k++) {
            if (chance(&dice, 150)) /* some name an event that is triggered, if not all */
                add_clashing_epoch(input, &dice, events);
            else if (chance(&dice, 100))
                add(input, CHOOSE(&dice, refused));
            else if (chance(&dice, 800))
                add_clashing_epoch(input, &dice, events - triggered);
            if (chance(&dice, 10))
                add_times(input, " ", EPOCH_BYTES);
            add(input, "\n");
        }
        sprintf(name, i < 24 ? "remembered_%03u" : "seed_remembered_%03u", i);
        write_case(folder, true, name, input, tally);
    }
}

/* Each event is triggered by the one before it, so that it goes round; all of them at once; and one that triggers itself, over many
   epochs and over refused ones. */
static void write_rounds(const char *folder, struct buffer *input, struct tally *tally)
{
    static const char *const runs[] = {"run\n", "run events\n"};
    unsigned i, k;
    char name[32];
    for (k = 0; k < 2; k++) {
        input->length = 0;
        add(input, "E0 triggers E1 if R0 = 1\n");
        for (i = 1; i < EVENTS; i++)
            add_format(input, "E%u triggers E%u\nE%u causes A%u\n", i, i == EVENTS - 1 ? 1 : i + 1, i, i);
        add(input, "never A10 & A11\n");
        add(input, runs[k]);
        add(input, "E0 R0=1\n");
        for (i = 0; i < 150; i++)
            add(input, i % 70 == 30 ? "E0 R0=1\n" : i % 9 == 4 ? "E64\n" : i % 11 == 5 ? "E0 E7\n" : i % 5 == 0 ? "R0=1\n" : "\n");
        sprintf(name, "round_%u", k);
        write_case(folder, true, name, input, tally);
        input->length = 0;
        for (i = 1; i < EVENTS; i++)
            add_format(input, "E0 triggers E%u\nE%u causes A%u\n", i, i, i);
        add(input, "E63 & E1 triggers E1\n");
        add(input, runs[k]);
        for (i = 0; i < 12; i++)
            add(input, i % 4 == 0 ? "E0\n" : i % 4 == 2 ? "E1\n" : "\n");
        sprintf(name, "round_all_%u", k);
        write_case(folder, true, name, input, tally);
        input->length = 0;
        add(input, "E1 triggers E5\nE5 triggers E5\nE5 causes A5\nE2 causes A2\nnever A2 & A5\n");
        add(input, runs[k]);
        for (i = 0; i < 6000; i++)
            add(input, i == 100 ? "E1\n" : i % 7 == 3 ? "E2\n" : i % 13 == 6 ? "x\n" : i % 17 == 8 ? "E5\n" : "\n");
        sprintf(name, "large_round_%u", k);
        write_case(folder, true, name, input, tally);
    }
}

/* Lines that trigger and such that nearly do; their images in each form, known or not. */
static void write_trigger_lines(const char *folder, struct buffer *input, struct tally *tally)
{
    static const char *const lines[] = {"E0 triggers E0", "E0 & !E63 triggers E63 if R0 = R15 , R1 != -1", "  !E1  triggers   E2  ",
        "E0 triggers", "triggers E0", "E0 triggers A0", "E0 triggers !E1", "E0 triggers E1 & E2", "E0 triggers E1 causes A1",
        "E0 causes A1 triggers E1", "E0 causes E1", "E0 Triggers E1", "E0 trigger E1", "E0 triggers E01", "E0 triggers E1 if",
        "never A1 triggers E1", "never triggers E1", "E0 & triggers E1", "E0 triggersE1", "E0 triggers E64", "E0 & E0 triggers E64",
        "E0 & E1 & E2 & E3 & E4 & E5 & E6 & E7 & E8 triggers E1", "E0 & !E0 triggers E1", "E0 triggers\tE1", "E0\ttriggers E1",
        "E0 triggers E4294967296", "E0 triggers E1\r", "# E0 triggers E1"};
    static const uint32_t words[] = {0x10400004, 0x10800003, 0x30008001, 0x00000005, 0x8F000000};
    enum { WORDS = sizeof words / sizeof *words };
    uint8_t image[WORD_BYTES * (1 + WORDS + CHECK_WORDS)];
    unsigned i, form;
    char name[32];
    for (i = 0; i < sizeof lines / sizeof *lines; i++) {
        input->length = 0;
        add(input, "E1 causes A1\n");
        add(input, lines[i]);
        sprintf(name, "trigger_%02u", i);
        write_case(folder, false, name, input, tally);
    }
    for (i = 0; i < 2; i++) { /* they count among the rules */
        input->length = 0;
        add_times(input, "E0 causes A0\nE1 triggers E2\n", RULES / 2);
        add(input, i == 0 ? "" : "E1 triggers E2\n");
        write_case(folder, false, i == 0 ? "triggers_64_of_128" : "triggers_129", input, tally);
    }
    for (form = 0; form <= LAST_FORM + 1; form++) { /* E1 & E2 triggers E60 if R0 > 5 */
        struct header header = {form, WORDS, 0};
        size_t count = 1 + WORDS + check_words(form);
        put_word(image, 0, pack_header(header));
        for (i = 0; i < WORDS; i++)
            put_word(image, 1 + i, words[i]);
        put_check_words(image, count, form);
        input->length = 0;
        add_dump(input, image, WORD_BYTES * count);
        sprintf(name, "trigger_of_form_%u", form);
        write_dump(folder, name, input, tally);
    }
}

/* Constants in hexadecimal */

/* Strings of digits of every length up to 40, and about as long as a line and a text may be; `G` behind some of them. */
static void write_digits(const char *folder, struct buffer *input, struct tally *tally)
{
    static const char *const digits[] = {"0", "1", "7", "F", "a"};
    unsigned count, i;
    char name[40];
    for (count = 0; count <= 40; count++) {
        input->length = 0;
        add(input, "E1 causes A1\nnever A1 if R0 != 0x");
        add_times(input, digits[count % 5], count);
        sprintf(name, "digits_%02u", count);
        write_case(folder, false, name, input, tally);
    }
    for (count = TEXT_BYTES - 1; count <= TEXT_BYTES + 1; count++)
        for (i = 0; i < 2; i++) {
            input->length = 0;
            add(input, "E1 causes A1 if R0 = 0x");
            add_times(input, "0", count - (unsigned)input->length - 1);
            add(input, i == 0 ? "1" : "G");
            sprintf(name, "limit_digits_%u_%u", count, i);
            write_case(folder, false, name, input, tally);
        }
    input->length = 0;
    add(input, "E1 causes A1 if R0 = 0\nE1 causes A2 if R0 < 0\nE1 causes A3 if R0 > 268435455\nrun\n");
    for (count = 0; count <= EPOCH_BYTES; count += count == 40 ? 970 : 1)
        for (i = 0; i < 10; i++) {
            add(input, "E1 R0=0x");
            add_times(input, digits[i / 2], count);
            add(input, i % 2 == 0 ? "\n" : "G\n");
        }
    write_case(folder, true, "large_digits", input, tally);
}

/* Every byte in a constant: a text with it in the place of one of the digits, and lines with it in the place of each byte, before each
   and behind the last. */
static void write_pattern_bytes(const char *folder, struct buffer *input, struct tally *tally)
{
    static const char constant[] = "0x1234aBcD";
    const size_t length = sizeof constant - 1;
    unsigned byte, inserted;
    size_t at, from;
    char name[32];
    for (byte = 0; byte < 256; byte++) {
        uint8_t one = (uint8_t)byte;
        input->length = 0;
        add(input, "E1 causes A1 if R0 = ");
        from = input->length + 2 + byte % 8;
        add(input, constant);
        add(input, " , R1 = 1\n");
        splice(input, from, from + 1, &one, 1);
        sprintf(name, "byte_digit_%03u", byte);
        write_case(folder, false, name, input, tally);
    }
    for (inserted = 0; inserted < 2; inserted++) {
        input->length = 0;
        add(input, "E1 causes A1 if R0 = 305441741\nE1 causes A2 if R0 < 305441741\nE1 causes A3 if R0 > 305441741\nrun\n");
        for (at = 0; at < length + inserted; at++)
            for (byte = 0; byte < 256; byte++) {
                add(input, "E1 R0=");
                add_bytes(input, constant, at);
                add_byte(input, byte);
                add(input, constant + at + !inserted);
                add(input, "\n");
            }
        write_case(folder, true, inserted == 0 ? "large_bytes_replaced" : "large_bytes_inserted", input, tally);
    }
}

/* Every word with one bit, and with all but one, which have letters: each stands in a rule and in a never line, in capital or small
   letters. Each epoch gives one of these words as R0 and another as R1. */
static void write_bits(const char *folder, struct buffer *input, struct tally *tally)
{
    static const char *const formats[] = {"0x%lX", "0x%lx", "0x%08lx"};
    char constants[2 * 32][16];
    unsigned i, form;
    input->length = 0;
    for (i = 0; i < ACTIONS; i++) {
        uint32_t word = UINT32_C(1) << i / 2;
        sprintf(constants[i], formats[i / 2 % 3], (unsigned long)(i % 2 == 0 ? word : ~word));
        add_format(input, "E0 causes A%u if R0 <= %s\nnever A%u if R1 = %s\n", i, constants[i], i, constants[i]);
    }
    write_case(folder, false, "bits", input, tally);
    add(input, "run\n");
    for (i = 0; i < ACTIONS; i++)
        for (form = 0; form < 4; form++) {
            uint32_t word = (uint32_t)strtoul(constants[i], NULL, 16);
            add(input, "E0 R0=");
            if (form == 3)
                add_number(input, (long)value_of(word));
            else
                add_format(input, formats[form], (unsigned long)word);
            add_format(input, " R1=%s\n", constants[(i * 5 + form) % ACTIONS]);
        }
    write_case(folder, true, "bits", input, tally);
}

/* Dumps */

/* Every byte in the place of a digit. */
static void write_bytes(const char *folder, struct buffer *input, struct tally *tally)
{
    unsigned byte;
    for (byte = 0; byte < 256; byte++) {
        char name[32];
        input->length = 0;
        add(input, "01000000\nFF0000"); /* with a 0 the image of the empty text */
        add_byte(input, byte);
        add(input, "0\n");
        sprintf(name, "byte_%03u", byte);
        write_dump(folder, name, input, tally);
        input->length = 0; /* in form 2 */
        add(input, "02000000\n02000000\nFC0000");
        add_byte(input, byte);
        add(input, "0\n");
        sprintf(name, "byte_of_form_2_%03u", byte);
        write_dump(folder, name, input, tally);
    }
}

/* Words about as many as there may be, and far more; then a line that is no word, no line end, or one line alone. */
static void write_long_dumps(const char *folder, struct buffer *input, struct tally *tally)
{
    static const unsigned counts[] = {
        3264, 3265, 3266, 3267, 3268, 3269, 3640, 3641, 3642, 4096, 7280, 7281, 7282, 7283, 14563, 32768, 65536, 65538, 110000};
    static const char *const ends[] = {"", "00000000", "0000000", "000000000", "\n", "x\n00000000\n", "\n00000000\n\n"};
    unsigned i, k;
    char name[40];
    for (i = 0; i < sizeof counts / sizeof *counts; i++) {
        for (k = 0; k < NEWEST_FORM * (sizeof ends / sizeof *ends); k++) {
            struct header header = {FIRST_FORM + k % NEWEST_FORM, RULE_WORDS, CONSTRAINT_WORDS};
            uint32_t word = pack_header(header), weighted = header.form == FIRST_FORM ? 0 : word;
            input->length = 0;
            add_format(input, "%08lX\n", (unsigned long)word);
            add_times(input, "00000000\n", counts[i] - 3);
            add_format(input, "%08lX\n", (unsigned long)weighted);
            add_format(input, "%08lX\n", (unsigned long)(uint32_t)(0 - word - weighted));
            add(input, ends[k / NEWEST_FORM]);
            sprintf(name, "large_words_%u_%u_%u", counts[i], header.form, k / NEWEST_FORM);
            write_dump(folder, name, input, tally);
        }
        input->length = 0;
        add_times(input, "0", counts[i] * 9);
        sprintf(name, "large_line_%u", counts[i]);
        write_dump(folder, name, input, tally);
        input->length = 0;
        add_times(input, "\n", counts[i]);
        sprintf(name, "large_blank_%u", counts[i]);
        write_dump(folder, name, input, tally);
    }
}

/* An image with words changed, exchanged, put in or taken out, its check words mended, its sum alone, or none. */
static void damage_words(struct buffer *image, struct dice *dice)
{
    unsigned times = 1 + below(dice, 3);
    while (times-- > 0) {
        unsigned count = (unsigned)(image->length / WORD_BYTES);
        size_t at = WORD_BYTES * below(dice, count);
        uint8_t word[WORD_BYTES], bit = (uint8_t)(1 << below(dice, 8));
        put_word(word, 0, chance(dice, 300) ? (uint32_t)roll(dice) : word_at(image->bytes, below(dice, count)));
        switch (below(dice, 6)) {
        case 0: image->bytes[below(dice, (unsigned)image->length)] ^= bit; break;
        case 5: /* with the word behind it */
            if (at + WORD_BYTES == image->length)
                break;
            put_word(word, 0, word_at(image->bytes + at, 1));
            put_word(image->bytes + at, 1, word_at(image->bytes + at, 0));
            memcpy(image->bytes + at, word, WORD_BYTES);
            break;
        case 1: image->bytes[1 + below(dice, WORD_BYTES - 1)] ^= bit; break; /* in the counts */
        case 2: splice(image, at, at, word, WORD_BYTES); break;
        case 3: splice(image, at, at + WORD_BYTES, word, count > 1 ? 0 : WORD_BYTES); break;
        default: splice(image, at, at + WORD_BYTES, word, WORD_BYTES); break;
        }
    }
    if (chance(dice, 600))
        put_check_words(image->bytes, image->length / WORD_BYTES, image->bytes[0]);
    else if (chance(dice, 500))
        put_sum(image->bytes, image->length / WORD_BYTES);
}

/* A dump with letters in the other case, and maybe without its last line end. */
static void vary_dump(struct buffer *dump, struct dice *dice)
{
    unsigned lower = chance(dice, 500) ? 500 : below(dice, 2) * 1000;
    lower_letters(dump, 0, dice, lower);
    if (chance(dice, 300))
        dump->length--;
}

/* A dump with bytes put in, taken out or replaced. */
static void damage_dump(struct buffer *dump, struct dice *dice)
{
    static const char *const parts[] = {"", "", "\n", "\n\n", " ", "\r", "\t", "0", "F", "G", "g", "/", ":", "@", "`", "x",
        "-", "0x", "00000000\n", "\n00000000", "#", "\xFF", "\x80"};
    unsigned times = 1 + (chance(dice, 300) ? below(dice, 6) : 0);
    while (times-- > 0) {
        size_t at = below(dice, (unsigned)dump->length), end = at + below(dice, 2);
        const char *part = CHOOSE(dice, parts);
        uint8_t byte = (uint8_t)below(dice, 256);
        if (chance(dice, 300))
            splice(dump, at, end, &byte, 1);
        else
            splice(dump, at, end, part, strlen(part));
        if (dump->length == 0)
            return;
    }
}

/* A dump of a kind from 0 to 7: of the image of a text in any form, of a damaged image, damaged itself, or by chance. */
static void add_any_dump(struct buffer *to, struct dice *dice, unsigned kind)
{
    struct buffer text = new_buffer(), image = new_buffer();
    struct taste taste = make_taste(dice);
    unsigned least = taste.triggers > 0 ? TRIGGER_FORM : FIRST_FORM, i;
    if (kind < 7) {
        if (kind == 0)
            add_lines(&text, dice, &taste, 0, RULES, 0, CONSTRAINTS, true);
        else
            add_lines(&text, dice, &taste, 0, 6, 0, 4, true);
        compile(least + below(dice, LAST_FORM + 1 - least), text.bytes, text.length, image.bytes, IMAGE_BYTES, &image.length);
    } else {
        for (i = below(dice, 12) * WORD_BYTES; i > 0; i--)
            add_byte(&image, below(dice, 256));
    }
    if (kind >= 2 && kind < 5)
        damage_words(&image, dice);
    add_dump(to, image.bytes, image.length);
    if (to->length > 0)
        vary_dump(to, dice);
    if (kind == 5 || kind == 6)
        damage_dump(to, dice);
    free(text.bytes);
    free(image.bytes);
}

/* Two texts at the limits */

/* Two texts for both programs, which have to be answered so. */
static void write_limit_texts(const char *folder, const char *name, const struct asked *asked, struct verdict due,
    struct tally *tally)
{
    static struct policy policy;
    struct verdict verdict = read_texts(NEWEST_FORM, texts_in(asked), &policy);
    if (verdict.fault != due.fault || verdict.text != due.text || verdict.location != due.location)
        fail("not the fault, text and line that are due", name);
    write_texts(folder, name, asked, tally);
    write_explain(folder, name, asked, tally);
}

/* Texts of about the full length: each has its own limit, and the maker's faults come first. */
static void write_text_lengths(const char *folder, struct asked *asked, struct tally *tally)
{
    static const struct {
        const char *name, *maker, *site; /* the texts begin so */
        size_t lengths[2]; /* and have so many bytes; 0: no more than that */
        struct verdict due;
    } cases[] = {{"32768_32768", "", "", {32768, 32768}, {FAULT_NONE, NEITHER, 0}},
        {"32769_0", "", "", {32769, 0}, {FAULT_LONG, MAKER, 0}}, {"0_32769", "", "", {0, 32769}, {FAULT_LONG, SITE, 0}},
        {"32769_32769", "", "", {32769, 32769}, {FAULT_LONG, MAKER, 0}},
        {"32768_32769", "", "", {32768, 32769}, {FAULT_LONG, SITE, 0}},
        {"range_32769", "\nE64 causes A1\n", "", {0, 32769}, {FAULT_RANGE, MAKER, 2}},
        {"32769_range", "", "E64 causes A1\n", {32769, 0}, {FAULT_LONG, MAKER, 0}},
        {"32768_range", "", "\nE64 causes A1\n", {32768, 0}, {FAULT_RANGE, SITE, 2}},
        {"range_in_32768", "E64 causes A1\n", "", {32768, 100000}, {FAULT_RANGE, MAKER, 1}},
        {"range_in_32769", "E64 causes A1\n", "", {32769, 0}, {FAULT_LONG, MAKER, 0}},
        {"range_in_32769_site", "", "E64 causes A1\n", {0, 32769}, {FAULT_LONG, SITE, 0}},
        {"range_in_32768_site", "", "E64 causes A1\n", {0, 32768}, {FAULT_RANGE, SITE, 1}},
        {"65536_0", "", "", {65536, 0}, {FAULT_LONG, MAKER, 0}}, {"0_65536", "", "", {0, 65536}, {FAULT_LONG, SITE, 0}},
        {"500000_900000", "", "", {500000, 900000}, {FAULT_LONG, MAKER, 0}},
        {"0_900000", "", "", {0, 900000}, {FAULT_LONG, SITE, 0}}};
    size_t i;
    unsigned open;
    char name[40];
    for (i = 0; i < sizeof cases / sizeof *cases; i++)
        for (open = 0; open < 2; open++) {
            clear(asked);
            add(&asked->maker, cases[i].maker);
            add(&asked->site, cases[i].site);
            if (cases[i].lengths[0] > 0)
                add_length(&asked->maker, cases[i].lengths[0] - asked->maker.length, open == 0);
            if (cases[i].lengths[1] > 0)
                add_length(&asked->site, cases[i].lengths[1] - asked->site.length, open == 0);
            add(&asked->questions, "A3 E1\nA3\nA64\n");
            sprintf(name, "limit_two_%s_%u", cases[i].name, open);
            write_limit_texts(folder, name, asked, cases[i].due, tally);
        }
}

/* As many lines as there may be, or one more, over the two texts in many ways. */
static void write_shared_lines(const char *folder, struct asked *asked, struct tally *tally)
{
    unsigned rule, more, first;
    char name[40];
    for (rule = 0; rule < 2; rule++)
        for (more = 0; more < 2; more++) {
            const char *line = rule ? "E0 causes A0\n" : "never A0\n";
            unsigned limit = rule ? RULES : CONSTRAINTS, all = limit + more;
            for (first = 0; first <= all; first += first % 8 == 1 ? 6 : 1) {
                struct verdict due = {FAULT_NONE, NEITHER, 0};
                if (more > 0)
                    due = (struct verdict){FAULT_FULL, first == all ? MAKER : SITE, first == all ? all : all - first};
                clear(asked);
                add_times(&asked->maker, line, first);
                add_times(&asked->site, line, all - first);
                if (first % 3 == 1)
                    asked->maker.length--;
                add(&asked->questions, "A0 E0\nA0");
                sprintf(name, "two_%s_%u_%u", rule ? "rules" : "nevers", first, all - first);
                write_limit_texts(folder, name, asked, due, tally);
            }
        }
}

/* The largest text and the widest, split at some lines, with every action and the epochs of the largest. */
static void write_largest_texts(const char *folder, struct asked *asked, struct tally *tally)
{
    static const unsigned shares[] = {0, 1, 64, 96, 128, 191, 192}; /* lines of the maker */
    struct buffer text = new_buffer(), epochs = new_buffer();
    const struct verdict due = {FAULT_NONE, NEITHER, 0};
    size_t i, at, from, length;
    const uint8_t *line;
    unsigned kind;
    char name[40];
    add_epochs_of_largest(&epochs);
    for (kind = 0; kind < 3; kind++)
        for (i = 0; i < sizeof shares / sizeof *shares; i++) {
            static const char *const names[] = {"largest", "widest", "widest_1"};
            clear(asked);
            text.length = 0;
            if (kind == 0)
                add_largest(&text);
            else
                add_widest(&text, kind == 1 ? NEWEST_FORM : FIRST_FORM);
            for (at = from = 0; from < shares[i] && next_line(text.bytes, text.length, &at, &line, &length); from++)
                continue;
            add_bytes(&asked->maker, text.bytes, at);
            add_bytes(&asked->site, text.bytes + at, text.length - at);
            for (at = 0; next_line(epochs.bytes, epochs.length, &at, &line, &length);)
                add_every_question(&asked->questions, i % 2 == 0 ? 0 : UINT64_C(0xC0000003), line, length);
            sprintf(name, "large_%s_%u", names[kind], shares[i]);
            write_limit_texts(folder, name, asked, due, tally);
        }
    free(text.bytes);
    free(epochs.bytes);
}

/* Lines that are shown, as long as a text may be, at its start and at its end. */
static void write_long_parts(const char *folder, struct asked *asked, struct tally *tally)
{
    const struct verdict due = {FAULT_NONE, NEITHER, 0};
    unsigned i;
    char name[40];
    for (i = 0; i < 4; i++) {
        clear(asked);
        add(&asked->maker, i % 2 == 0 ? "E1" : "     E1 causes A2\n  E1");
        add_times(&asked->maker, " ", TEXT_BYTES - 9 - (unsigned)asked->maker.length - i);
        add(&asked->maker, "causes A1");
        add_times(&asked->maker, " ", i);
        add(&asked->site, i < 2 ? "never" : "E1 causes A1\nnever A1 & A9\n never");
        add_times(&asked->site, " ", TEXT_BYTES - 12 - (unsigned)asked->site.length - i);
        add(&asked->site, "A1 if R0 > 5");
        add_times(&asked->site, " ", i);
        add_times(&asked->questions, "A1 E1 R0=5\nA1 E1\nA2 E1\nA1\nA1 E1 R0=6\nA64\n", i == 3 ? 12 : 1);
        sprintf(name, "limit_part_%u", i);
        write_limit_texts(folder, name, asked, due, tally);
    }
}

/* Questions */

/* Texts with answers of all kinds. */
static void add_asked_texts(struct asked *asked)
{
    clear(asked);
    add(&asked->maker, "E1 causes A4\n  E2 causes A6 \nnever A4 & A5 if R0 > 1");
    add(&asked->site, "# E9 causes A9\n!E1 causes A4 \nE1 causes A5\n never A6 if R1 < 0x10\nE2 triggers E3\nE3 causes A7");
}

/* Every byte in the place of each byte of a question, before each and behind the last. */
static void write_bytes_of_question(
    const char *folder, const char *question, unsigned inserted, const char *name, struct asked *asked, struct tally *tally)
{
    unsigned byte;
    size_t at;
    add_asked_texts(asked);
    for (at = 0; at < strlen(question) + inserted; at++)
        for (byte = 0; byte < 256; byte++) {
            add_bytes(&asked->questions, question, at);
            add_byte(&asked->questions, byte);
            add(&asked->questions, question + at + !inserted);
            add(&asked->questions, "\n");
        }
    write_explain(folder, name, asked, tally);
}

static void write_question_bytes(const char *folder, struct asked *asked, struct tally *tally)
{
    write_bytes_of_question(folder, "A5 E1 R0=2", 0, "large_bytes_replaced", asked, tally);
    write_bytes_of_question(folder, "A5 E1 R0=2", 1, "large_bytes_inserted", asked, tally);
    write_bytes_of_question(folder, "A7,E3,E12 E1", 0, "large_pending_replaced", asked, tally);
    write_bytes_of_question(folder, "A7,E3,E12 E1", 1, "large_pending_inserted", asked, tally);
}

/* Pending events in any number, each in any number of digits, in range or not, before lines of all kinds. */
static void write_pending(const char *folder, struct asked *asked, struct tally *tally)
{
    static const char *const fills[] = {",E3", ",E63", ",E1,E2", ",E3,E64", ",", ",E3 ", ",E"};
    static const char *const ends[] = {"\n", " \n", " E1\n", " E3\n", " E64\n", " x\n", ",E3 R0=1 R0=1\n", ",E12 E2\n"};
    static const unsigned counts[] = {1, 2, 3, 63, 64, 65, 255, 256, 340, 341, 342, 1000, 20000};
    unsigned i, k, n;
    char name[40];
    for (i = 0; i < sizeof counts / sizeof *counts; i++) {
        add_asked_texts(asked);
        for (k = 0; k < (counts[i] < 1000 ? 7 : 4); k++)
            for (n = 0; n < (counts[i] < 1000 ? 8 : 2); n++) {
                add(&asked->questions, k % 2 == 0 ? "A7" : "A64");
                add_times(&asked->questions, fills[k], counts[i]);
                add(&asked->questions, ends[n]);
            }
        sprintf(name, "large_pending_%u", counts[i]);
        write_explain(folder, name, asked, tally);
    }
    add_asked_texts(asked);
    for (n = 1; n < 70000; n += n < 24 ? 1 : n < 2000 ? 499 : 16384)
        for (k = 0; k < 4; k++) {
            add(&asked->questions, k % 2 == 0 ? "A7,E3" : "A7,E0");
            add_times(&asked->questions, "0", n - 1);
            add(&asked->questions, k < 2 ? "\n" : ",E3 E1\n");
        }
    write_explain(folder, "large_pending_digits", asked, tally);
    add_asked_texts(asked);
    for (n = 0; n < 70; n++) /* each event, and some beyond */
        add_format(&asked->questions, "A7,E%u\nA6,E%u E1 R1=16\nA4,E%u\nA4,E3,E%u E2\n", n, n, n, n);
    write_explain(folder, "pending_each", asked, tally);
}

/* Actions of any number of digits, before epoch lines about as long as they may be, and far longer lines. */
static void write_question_lengths(const char *folder, struct asked *asked, struct tally *tally)
{
    static const char *const actions[] = {"A4", "A63", "A64", "A", "x", "", "A04"};
    static const unsigned lengths[] = {2, 3, 1020, 1021, 1022, 1023, 1024, 1025, 1026, 2048, 4096, 65537};
    unsigned i, k, digits;
    add_asked_texts(asked);
    for (i = 0; i < sizeof lengths / sizeof *lengths; i++)
        for (k = 0; k < 7; k++) {
            add(&asked->questions, actions[k]);
            add(&asked->questions, k % 2 == 0 ? " E1" : "   ");
            add_times(&asked->questions, " ", lengths[i] - 2);
            add(&asked->questions, i % 4 == 3 ? "\nA5 E1 R0=2\n" : "\n");
        }
    write_explain(folder, "large_lengths", asked, tally);
    add_asked_texts(asked);
    for (digits = 1; digits < 70000; digits += digits < 24 ? 1 : digits < 2000 ? 499 : 16384)
        for (k = 0; k < 4; k++) {
            add(&asked->questions, k < 2 ? "A6" : k == 2 ? "A0" : "E6");
            add_times(&asked->questions, "0", digits - 1);
            add(&asked->questions, k == 1 ? " E2 R1=0x10\n" : "\n");
        }
    write_explain(folder, "large_digits", asked, tally);
}

/* Many questions at once. */
static void write_question_floods(const char *folder, struct asked *asked, struct tally *tally)
{
    static const char *const lines[] = {"A4", "A5 E1 R0=2", "A6 E2", "A64", "", "A6 E2 R1=16", "x", "A4 E1", "A5 R0=1 R0=1", "A6"};
    unsigned i;
    struct dice dice = {UINT64_C(0xF6) << 32};
    add_asked_texts(asked);
    for (i = 1; i <= 100200; i++)
        add(&asked->questions, i % 1000 == 0 ? "A4\n" : i % 1000 == 536 ? "A6 E2\n" : "\n");
    write_explain(folder, "large_questions", asked, tally);
    add_asked_texts(asked);
    for (i = 0; i < 6000; i++) {
        add(&asked->questions, CHOOSE(&dice, lines));
        if (chance(&dice, 5))
            add_times(&asked->questions, " ", 1024);
        add(&asked->questions, "\n");
    }
    write_explain(folder, "large_flood", asked, tally);
}

static void write_two_texts(const char *folder, struct tally *tally)
{
    struct asked asked = {new_buffer(), new_buffer(), new_buffer()};
    char name[32];
    unsigned i;
    write_text_lengths(folder, &asked, tally);
    write_shared_lines(folder, &asked, tally);
    write_largest_texts(folder, &asked, tally);
    write_long_parts(folder, &asked, tally);
    write_question_bytes(folder, &asked, tally);
    write_question_lengths(folder, &asked, tally);
    write_pending(folder, &asked, tally);
    write_question_floods(folder, &asked, tally);
    for (i = 0; i < TEXTS_CASES; i++) {
        struct dice dice = {UINT64_C(0xC6) << 32 | i};
        clear(&asked);
        add_texts(&asked.maker, &asked.site, &dice, i % 10);
        sprintf(name, "seed_two_%04u", i);
        write_texts(folder, name, &asked, tally);
    }
    for (i = 0; i < EXPLAIN_CASES; i++) {
        struct dice dice = {UINT64_C(0xE6) << 32 | i};
        clear(&asked);
        add_explain_input(&asked.maker, &asked.site, &asked.questions, &dice, i % 16);
        sprintf(name, "seed_%04u", i);
        write_explain(folder, name, &asked, tally);
    }
    free(asked.maker.bytes);
    free(asked.site.bytes);
    free(asked.questions.bytes);
}

/* Prints how often each of these faults was met. False if one never was. */
static bool print_counts(const unsigned long counts[FAULTS], const enum fault *faults, size_t size)
{
    bool all = true;
    size_t i;
    for (i = 0; i < size; i++) {
        printf(" %d: %lu", (int)faults[i], counts[faults[i]]);
        all = all && counts[faults[i]] > 0;
    }
    return all;
}

/* Prints how often two texts were refused. False if that was seldom for one of the faults in one of the texts. */
static bool print_texts(const unsigned long counts[FAULTS][OWNERS])
{
    bool all = counts[FAULT_NONE][NEITHER] >= TEXTS_LEAST;
    int fault, owner;
    printf(" accepted %lu", counts[FAULT_NONE][NEITHER]);
    for (owner = MAKER; owner <= SITE; owner++) {
        printf(", refused in the %s under", owner == MAKER ? "maker's" : "site's");
        for (fault = FAULT_LONG; fault <= FAULT_REPEAT; fault++) {
            printf(" %d: %lu", fault, counts[fault][owner]);
            all = all && counts[fault][owner] >= TEXTS_LEAST;
        }
    }
    return all;
}

/* The same for questions and their answers. */
static bool print_questions(const struct tally *tally, const enum fault *faults, size_t size)
{
    static const char *const names[OUTCOMES] = {[IS_ACCEPTED] = "accepted", [IS_CANCELLED] = "cancelled"};
    bool all = tally->outcomes[NOT_PROPOSED][NEITHER] >= ANSWERS_LEAST && tally->over >= ANSWERS_LEAST;
    int outcome, owner;
    size_t i;
    printf(" not proposed %lu", tally->outcomes[NOT_PROPOSED][NEITHER]);
    for (outcome = IS_ACCEPTED; outcome <= IS_CANCELLED; outcome++)
        for (owner = MAKER; owner <= SITE; owner++) {
            printf(", %s by the %s %lu", names[outcome], owner == MAKER ? "maker's" : "site's", tally->outcomes[outcome][owner]);
            all = all && tally->outcomes[outcome][owner] >= ANSWERS_LEAST;
        }
    printf(", refused under");
    print_counts(tally->question, faults, size);
    printf(", for the number of the action or a pending event alone %lu; with pending events %lu, otherwise by them %lu", tally->over,
        tally->asked_pending, tally->changed);
    for (i = 0; i < size; i++)
        all = all && tally->question[faults[i]] >= ANSWERS_LEAST;
    return all && tally->asked_pending >= ANSWERS_LEAST && tally->changed >= ANSWERS_LEAST;
}

/* The same for the epochs in one mode, with the most words that were visited. */
static bool print_epochs(const struct tally *tally, enum mode mode, const enum fault *faults, size_t size)
{
    bool all;
    printf("; epochs decided by %s %lu (%lu accept an action, %lu cancel one), refused under",
        mode == CANCEL_ACTIONS ? "action cancellation" : "event cancellation", tally->epoch[mode][FAULT_NONE],
        tally->decisions[mode], tally->cancelling[mode]);
    all = print_counts(tally->epoch[mode], faults, size);
    printf("; at most %lu words visited; %lu trigger an event, %lu are accepted with pending ones, %lu refused with them",
        tally->most_visited[mode], tally->triggering[mode], tally->occurring[mode], tally->kept[mode]);
    return all && tally->decisions[mode] > 0 && tally->cancelling[mode] > 0 && tally->most_accepted[mode] == ACTIONS
        && tally->most_cancelled[mode] == ACTIONS && tally->triggering[mode] > 0 && tally->occurring[mode] > 0 && tally->kept[mode] > 0
        && tally->most_visited[mode] == (mode == CANCEL_ACTIONS ? (unsigned long)MOST_VISITED : (unsigned long)MOST_TRIED);
}

/* Prints the counts. False if a fault was never met, or a set of all actions, the most words that can be visited, or an epoch or
   a question over 100,000; or if something was seldom met in the cases with two texts. */
static bool report(const struct tally *tally)
{
    static const enum fault text[] = {FAULT_LONG, FAULT_SHAPE, FAULT_RANGE, FAULT_CROWD, FAULT_FULL, FAULT_REPEAT};
    static const enum fault dump[] = {FAULT_SIZE, FAULT_FORM, FAULT_COUNT, FAULT_SUM, FAULT_WEIGHTED_SUM, FAULT_BODY};
    static const enum fault epoch[] = {FAULT_LONG, FAULT_EPOCH_SHAPE, FAULT_EPOCH_RANGE, FAULT_TWICE, FAULT_RESERVED,
        FAULT_UNAVOIDABLE}; /* the last in the second mode alone */
    const size_t faults = sizeof epoch / sizeof *epoch;
    bool all = true;
    int form;
    printf("texts accepted %lu, refused under", tally->text[FAULT_NONE]);
    all = print_counts(tally->text, text, sizeof text / sizeof *text) && all;
    printf("; dumps written as texts");
    for (form = FIRST_FORM; form <= LAST_FORM; form++) {
        printf(" of form %d %lu,", form, tally->forms[form]);
        all = all && tally->forms[form] > 0;
    }
    printf(" with a line that is no word %lu, refused under", tally->no_words);
    all = print_counts(tally->dump, dump, sizeof dump / sizeof *dump) && all;
    all = print_epochs(tally, CANCEL_ACTIONS, epoch, faults - 1) && all;
    all = print_epochs(tally, CANCEL_EVENTS, epoch, faults) && all;
    printf("; %lu drop an event; two texts", tally->dropping);
    all = print_texts(tally->texts) && all;
    printf("; before questions");
    all = print_texts(tally->refused_texts) && all;
    printf("; %lu accepted with lines of both; questions", tally->both);
    all = print_questions(tally, epoch, faults - 1) && all;
    printf("\n");
    return all && tally->text[FAULT_NONE] > 0 && tally->no_words > 0 && tally->loaded > 0
        && tally->bodies > 0 && tally->dropping > 0 && tally->most_epochs > 100000 && tally->most_questions > 100000
        && tally->both >= TEXTS_LEAST;
}

int main(int argc, char **argv)
{
    struct tally tally;
    struct buffer input = new_buffer();
    char name[32];
    unsigned i;
    if (argc != 2)
        fail("generate DIR", "usage");
    memset(&tally, 0, sizeof tally);
    write_limits(argv[1], &input, &tally);
    write_sets(argv[1], &input, "run\n", "sets", &tally);
    write_sets(argv[1], &input, "run events\n", "sets_events", &tally);
    write_first(argv[1], &input, "run\n", "sets_first", &tally);
    write_first(argv[1], &input, "run events\n", "sets_first_events", &tally);
    write_readings(argv[1], &input, &tally);
    write_lines(argv[1], &input, &tally);
    write_floods(argv[1], &input, &tally);
    write_long_texts(argv[1], &input, &tally);
    write_runs(argv[1], &input, &tally);
    write_event_runs(argv[1], &input, &tally);
    write_clashes(argv[1], &input, &tally);
    write_remembered(argv[1], &input, &tally);
    write_rounds(argv[1], &input, &tally);
    write_trigger_lines(argv[1], &input, &tally);
    write_digits(argv[1], &input, &tally);
    write_pattern_bytes(argv[1], &input, &tally);
    write_bits(argv[1], &input, &tally);
    write_bytes(argv[1], &input, &tally);
    write_long_dumps(argv[1], &input, &tally);
    for (i = 0; i < COMPILER_CASES; i++) {
        struct dice dice = {UINT64_C(0xC0) << 32 | i};
        input.length = 0;
        add_text(&input, &dice, i % 10, false);
        sprintf(name, "seed_%04u", i);
        write_case(argv[1], false, name, &input, &tally);
    }
    for (i = 0; i < DECOMPILER_CASES; i++) {
        struct dice dice = {UINT64_C(0xD0) << 32 | i};
        input.length = 0;
        add_any_dump(&input, &dice, i % 8);
        sprintf(name, "seed_dump_%04u", i);
        write_dump(argv[1], name, &input, &tally);
    }
    for (i = 0; i < ENGINE_CASES; i++) {
        struct dice dice = {UINT64_C(0xE0) << 32 | i};
        input.length = 0;
        add_engine_input(&input, &dice, i % 16);
        sprintf(name, "seed_%04u", i);
        write_case(argv[1], true, name, &input, &tally);
    }
    free(input.bytes);
    write_two_texts(argv[1], &tally);
    if (!report(&tally)) {
        fprintf(stderr,
            "generate: a fault, a set of all actions, 62,784 or 187,520 words or an epoch over 100,000 was never met, or more words, "
            "or something with two texts seldom\n");
        return 1;
    }
    return 0;
}
