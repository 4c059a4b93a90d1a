#include "reference.h"

#include <inttypes.h>
#include <string.h>

static const struct verdict ACCEPTED = {FAULT_NONE, NEITHER, 0};

static struct verdict refuse_text(enum fault fault, enum owner text, size_t line)
{
    struct verdict verdict = {fault, text, line};
    return verdict;
}

static struct verdict refuse(enum fault fault, size_t location)
{
    return refuse_text(fault, NEITHER, location);
}

/* Bytes and tokens */

static struct slice part(struct slice whole, size_t from, size_t to)
{
    struct slice slice = {whole.bytes + from, to - from};
    return slice;
}

static bool is(struct slice slice, const char *word)
{
    return slice.length == strlen(word) && memcmp(slice.bytes, word, slice.length) == 0;
}

/* The tokens of one line, taken one by one. */
struct tokens {
    struct slice line;
    size_t at;
};

/* False if none is left. */
static bool take(struct tokens *tokens, struct slice *token)
{
    struct slice line = tokens->line;
    size_t from = tokens->at, to;
    while (from < line.length && line.bytes[from] == ' ')
        from++;
    for (to = from; to < line.length && line.bytes[to] != ' ';)
        to++;
    tokens->at = to;
    if (from == to)
        return false;
    *token = part(line, from, to);
    return true;
}

bool next_line(const uint8_t *input, size_t length, size_t *at, const uint8_t **line, size_t *line_length)
{
    size_t from = *at, to = from;
    if (from >= length)
        return false;
    while (to < length && input[to] != '\n')
        to++;
    *line = input + from;
    *line_length = to - from;
    *at = to < length ? to + 1 : to;
    return true;
}

/* Numbers. These readers say whether the shape is right; a value too large for every range stays too large. */

static const uint64_t HUGE_NUMBER = UINT64_C(1) << 40;

static bool read_number(struct slice slice, uint64_t *value)
{
    size_t i;
    if (slice.length == 0 || (slice.bytes[0] == '0' && slice.length > 1))
        return false;
    *value = 0;
    for (i = 0; i < slice.length; i++) {
        if (slice.bytes[i] < '0' || slice.bytes[i] > '9')
            return false;
        *value = *value * 10 + (uint64_t)(slice.bytes[i] - '0');
        if (*value > HUGE_NUMBER)
            *value = HUGE_NUMBER;
    }
    return true;
}

/* A letter and a number: E1, A3, R0. */
static bool read_name(struct slice slice, char letter, uint64_t *value)
{
    return slice.length > 0 && slice.bytes[0] == (uint8_t)letter
        && read_number(part(slice, 1, slice.length), value);
}

/* The value of a hexadecimal digit of either case; 16 if the byte is none. */
static unsigned digit_value(uint8_t byte)
{
    if (byte >= '0' && byte <= '9')
        return (unsigned)(byte - '0');
    if (byte >= 'A' && byte <= 'F')
        return (unsigned)(byte - 'A' + 10);
    if (byte >= 'a' && byte <= 'f')
        return (unsigned)(byte - 'a' + 10);
    return 16;
}

/* One or more hexadecimal digits. The word is that of the last eight. */
static bool read_digits(struct slice slice, uint32_t *word)
{
    size_t i;
    *word = 0;
    for (i = 0; i < slice.length; i++) {
        unsigned digit = digit_value(slice.bytes[i]);
        if (digit == 16)
            return false;
        *word = *word << 4 | digit;
    }
    return slice.length > 0;
}

/* A constant in hexadecimal has 0x before it. Over eight digits are out of range, whatever their value. */
static bool read_constant(struct slice slice, int64_t *value)
{
    uint64_t size;
    uint32_t word;
    if (slice.length >= 2 && is(part(slice, 0, 2), "0x")) {
        if (!read_digits(part(slice, 2, slice.length), &word))
            return false;
        *value = slice.length - 2 <= 2 * WORD_BYTES ? value_of(word) : (int64_t)HUGE_NUMBER;
        return true;
    }
    if (slice.length > 0 && slice.bytes[0] == '-') {
        if (!read_number(part(slice, 1, slice.length), &size) || size == 0)
            return false;
        *value = -(int64_t)size;
        return true;
    }
    if (!read_number(slice, &size))
        return false;
    *value = (int64_t)size;
    return true;
}

static bool is_reading_value(int64_t value)
{
    return value >= INT32_MIN && value <= INT32_MAX;
}

const char *const relation_names[RELATIONS] = {
    [EQUAL] = "=", [UNEQUAL] = "!=", [LESS] = "<", [AT_MOST] = "<=", [GREATER] = ">", [AT_LEAST] = ">="};

static bool read_relation(struct slice slice, enum relation *relation)
{
    int i;
    for (i = 0; i < RELATIONS; i++)
        if (is(slice, relation_names[i])) {
            *relation = (enum relation)i;
            return true;
        }
    return false;
}

/* The faults that a line of the right shape may have. */
struct defects {
    bool range, crowd, repeat;
};

/* A number of a name, checked against its range. */
static unsigned ranged(uint64_t value, unsigned limit, struct defects *defects)
{
    if (value < limit)
        return (unsigned)value;
    defects->range = true;
    return 0;
}

/* Notes a member of a list of distinct numbers. */
static void note(uint64_t *seen, unsigned number, struct defects *defects)
{
    if (in_set(*seen, number))
        defects->repeat = true;
    *seen |= UINT64_C(1) << number;
}

static bool read_comparison(struct tokens *tokens, struct comparison *comparison, struct defects *defects)
{
    struct slice left, relation, right;
    uint64_t number;
    int64_t constant;
    memset(comparison, 0, sizeof *comparison);
    if (!take(tokens, &left) || !take(tokens, &relation) || !take(tokens, &right))
        return false;
    if (!read_name(left, 'R', &number) || !read_relation(relation, &comparison->relation))
        return false;
    comparison->reading = ranged(number, READINGS, defects);
    if (read_name(right, 'R', &number)) {
        comparison->with_reading = true;
        comparison->other = ranged(number, READINGS, defects);
        return true;
    }
    if (!read_constant(right, &constant))
        return false;
    if (is_reading_value(constant))
        comparison->constant = (int32_t)constant;
    else
        defects->range = true;
    return true;
}

/* What follows the word `if`, to the end of the line. */
static bool read_condition(struct tokens *tokens, struct condition *condition, struct defects *defects)
{
    struct comparison comparison;
    struct slice token;
    for (;;) {
        if (!read_comparison(tokens, &comparison, defects))
            return false;
        if (condition->count < COMPARISONS)
            condition->comparisons[condition->count++] = comparison;
        else
            defects->crowd = true;
        if (!take(tokens, &token))
            return true;
        if (!is(token, ","))
            return false;
    }
}

/* The end of the line, or `if` and a condition. */
static bool read_option(struct tokens *tokens, struct condition *condition, struct defects *defects)
{
    struct slice token;
    if (!take(tokens, &token))
        return true;
    return is(token, "if") && read_condition(tokens, condition, defects);
}

/* What a rule causes, or triggers; `word` is one of both. */
static bool read_yield(struct tokens *tokens, struct slice word, struct rule *rule, struct defects *defects)
{
    struct slice token;
    uint64_t number;
    rule->triggers = is(word, "triggers");
    if (!take(tokens, &token) || !read_name(token, rule->triggers ? 'E' : 'A', &number))
        return false;
    rule->yield = ranged(number, rule->triggers ? EVENTS : ACTIONS, defects);
    return true;
}

static bool read_rule(uint64_t form, struct tokens tokens, struct rule *rule, struct defects *defects)
{
    struct slice token;
    struct literal literal;
    uint64_t number, seen = 0;
    memset(rule, 0, sizeof *rule);
    for (;;) {
        if (!take(&tokens, &token))
            return false;
        literal.negated = token.bytes[0] == '!';
        if (!read_name(literal.negated ? part(token, 1, token.length) : token, 'E', &number))
            return false;
        literal.event = ranged(number, EVENTS, defects);
        note(&seen, literal.event, defects);
        if (rule->count < LITERALS)
            rule->literals[rule->count++] = literal;
        else
            defects->crowd = true;
        if (!take(&tokens, &token))
            return false;
        if (is(token, "causes") || (form >= TRIGGER_FORM && is(token, "triggers")))
            break;
        if (!is(token, "&"))
            return false;
    }
    return read_yield(&tokens, token, rule, defects) && read_option(&tokens, &rule->condition, defects);
}

/* `tokens` begins behind the word `never`. */
static bool read_constraint(struct tokens tokens, struct constraint *constraint, struct defects *defects)
{
    struct slice token;
    struct tokens behind;
    unsigned action;
    uint64_t number, seen = 0;
    memset(constraint, 0, sizeof *constraint);
    for (;;) {
        if (!take(&tokens, &token) || !read_name(token, 'A', &number))
            return false;
        action = ranged(number, ACTIONS, defects);
        note(&seen, action, defects);
        if (constraint->count < MEMBERS)
            constraint->members[constraint->count++] = action;
        else
            defects->crowd = true;
        behind = tokens;
        if (!take(&behind, &token) || !is(token, "&"))
            return read_option(&tokens, &constraint->condition, defects);
        tokens = behind;
    }
}

/* Adds what one line of a text for a form says to the policy; `shown` is where it stands. */
static enum fault read_line(uint64_t form, struct slice line, struct part shown, struct policy *policy)
{
    struct tokens tokens = {line, 0}, behind = tokens;
    struct slice first;
    struct rule rule;
    struct constraint constraint;
    struct defects defects = {false, false, false};
    bool is_rule;
    if (!take(&behind, &first) || first.bytes[0] == '#')
        return FAULT_NONE;
    is_rule = !is(first, "never");
    if (is_rule ? !read_rule(form, tokens, &rule, &defects) : !read_constraint(behind, &constraint, &defects))
        return FAULT_SHAPE;
    if (defects.range)
        return FAULT_RANGE;
    if (defects.crowd)
        return FAULT_CROWD;
    if (defects.repeat)
        return FAULT_REPEAT;
    if (is_rule ? policy->rule_count == RULES : policy->constraint_count == CONSTRAINTS)
        return FAULT_FULL;
    if (is_rule) {
        rule.shown = shown;
        policy->rules[policy->rule_count++] = rule;
    } else {
        constraint.shown = shown;
        policy->constraints[policy->constraint_count++] = constraint;
    }
    return FAULT_NONE;
}

/* A line of a text without the spaces at both ends. */
static struct part trim(struct slice line, enum owner owner, struct slice text)
{
    size_t from = 0, to = line.length;
    struct part shown = {owner, (size_t)(line.bytes - text.bytes), 0};
    while (from < to && line.bytes[from] == ' ')
        from++;
    while (from < to && line.bytes[to - 1] == ' ')
        to--;
    shown.start += from;
    shown.length = to - from;
    return shown;
}

/* Adds what one text says to the policy. */
static struct verdict read_lines(uint64_t form, struct slice text, enum owner owner, struct policy *policy)
{
    struct slice line;
    size_t at = 0, number = 0;
    enum fault fault;
    if (text.length > TEXT_BYTES)
        return refuse_text(FAULT_LONG, owner, 0);
    while (next_line(text.bytes, text.length, &at, &line.bytes, &line.length)) {
        number++;
        fault = read_line(form, line, trim(line, owner, text), policy);
        if (fault != FAULT_NONE)
            return refuse_text(fault, owner, number);
    }
    return ACCEPTED;
}

struct verdict read_texts(uint64_t form, struct texts texts, struct policy *policy)
{
    struct policy result;
    struct verdict verdict;
    memset(&result, 0, sizeof result);
    verdict = read_lines(form, texts.maker, MAKER, &result);
    if (verdict.fault == FAULT_NONE)
        verdict = read_lines(form, texts.site, SITE, &result);
    if (verdict.fault == FAULT_NONE)
        *policy = result;
    return verdict;
}

static struct texts one_text(const uint8_t *text, size_t length)
{
    struct texts texts = {{text, length}, {NULL, 0}};
    return texts;
}

struct verdict read_text(uint64_t form, const uint8_t *text, size_t length, struct policy *policy)
{
    return read_texts(form, one_text(text, length), policy);
}

/* Images */

static size_t comparison_words(const struct comparison *comparison)
{
    return comparison->with_reading ? 1 : 2;
}

static size_t condition_words(const struct condition *condition)
{
    size_t i, words = 0;
    for (i = 0; i < condition->count; i++)
        words += comparison_words(&condition->comparisons[i]);
    return words;
}

/* Writes the tests of a condition from word `at` of a line of `size` words. */
static size_t write_condition(const struct condition *condition, size_t at, size_t size, uint8_t *line)
{
    size_t i;
    for (i = 0; i < condition->count; i++) {
        const struct comparison *comparison = &condition->comparisons[i];
        size_t own = comparison_words(comparison);
        struct fields fields = {.operation = AGAINST_CONSTANT,
            .first = comparison->reading,
            .relation = comparison->relation,
            .skip = (unsigned)(size - at - own)};
        if (comparison->with_reading) {
            fields.operation = AGAINST_READING;
            fields.second = comparison->other;
        } else {
            put_word(line, at + 1, (uint32_t)comparison->constant);
        }
        put_word(line, at, pack(fields));
        at += own;
    }
    return at;
}

static size_t write_rule(const struct rule *rule, uint8_t *line)
{
    size_t at, size = rule->count + condition_words(&rule->condition) + 1;
    struct fields end = {.operation = rule->triggers ? TRIGGER : PROPOSE, .first = rule->yield};
    for (at = 0; at < rule->count; at++) {
        struct fields fields = {.operation = rule->literals[at].negated ? ABSENT : PRESENT,
            .first = rule->literals[at].event,
            .skip = (unsigned)(size - at - 1)};
        put_word(line, at, pack(fields));
    }
    at = write_condition(&rule->condition, at, size, line);
    put_word(line, at, pack(end));
    return size;
}

static size_t write_constraint(const struct constraint *constraint, uint8_t *line)
{
    size_t at, size = constraint->count + condition_words(&constraint->condition) + 1;
    struct fields end = {.operation = FORBID};
    for (at = 0; at < constraint->count; at++) {
        struct fields fields = {
            .operation = MEMBER, .first = constraint->members[at], .skip = (unsigned)(size - at - 1)};
        put_word(line, at, pack(fields));
    }
    at = write_condition(&constraint->condition, at, size, line);
    put_word(line, at, pack(end));
    return size;
}

size_t write_image(unsigned form, const struct policy *policy, uint8_t image[IMAGE_BYTES])
{
    struct header header = {.form = form};
    size_t i, at = 1;
    for (i = 0; i < policy->rule_count; i++)
        at += write_rule(&policy->rules[i], image + WORD_BYTES * at);
    header.rule_words = (unsigned)(at - 1);
    for (i = 0; i < policy->constraint_count; i++)
        at += write_constraint(&policy->constraints[i], image + WORD_BYTES * at);
    header.constraint_words = (unsigned)(at - 1) - header.rule_words;
    put_word(image, 0, pack_header(header));
    at += check_words(form);
    put_check_words(image, at, form);
    return WORD_BYTES * at;
}

/* Copies what was made into a lent buffer. */
static struct verdict hand_over(const uint8_t *bytes, size_t size, uint8_t *buffer, size_t room, size_t *written)
{
    if (room < size)
        return refuse(FAULT_ROOM, 0);
    if (size > 0)
        memcpy(buffer, bytes, size);
    *written = size;
    return ACCEPTED;
}

struct verdict compile_texts(uint64_t form, struct texts texts, uint8_t *buffer, size_t room, size_t *written)
{
    struct policy policy;
    uint8_t image[IMAGE_BYTES];
    struct verdict verdict = is_known_form(form) ? read_texts(form, texts, &policy) : refuse(FAULT_FORM, 0);
    *written = 0;
    if (verdict.fault != FAULT_NONE)
        return verdict;
    return hand_over(image, write_image((unsigned)form, &policy, image), buffer, room, written);
}

struct verdict compile(uint64_t form, const uint8_t *text, size_t length, uint8_t *buffer, size_t room, size_t *written)
{
    return compile_texts(form, one_text(text, length), buffer, room, written);
}

/* Loading. A line is read from its operations and numbers, then written again: the words have to be the same. */

static struct comparison against_reading(struct fields fields)
{
    struct comparison comparison = {.reading = fields.first,
        .relation = (enum relation)fields.relation,
        .with_reading = true,
        .other = fields.second};
    return comparison;
}

static struct comparison against_constant(struct fields fields, uint32_t constant)
{
    struct comparison comparison = {
        .reading = fields.first, .relation = (enum relation)fields.relation, .constant = value_of(constant)};
    return comparison;
}

/* The word behind the comparisons from `at` on; `end` if one of them is faulty. */
static size_t load_condition(const uint8_t *image, size_t at, size_t end, struct condition *condition)
{
    while (at < end) {
        struct fields fields = unpack(word_at(image, at));
        struct comparison *comparison = &condition->comparisons[condition->count];
        if (fields.operation != AGAINST_CONSTANT && fields.operation != AGAINST_READING)
            return at;
        if (condition->count == COMPARISONS || fields.first >= READINGS || fields.second >= READINGS
            || fields.relation >= RELATIONS || (fields.operation == AGAINST_CONSTANT && at + 1 == end))
            return end;
        *comparison = fields.operation == AGAINST_READING ? against_reading(fields)
                                                          : against_constant(fields, word_at(image, at + 1));
        condition->count++;
        at += comparison_words(comparison);
    }
    return end;
}

static bool same_words(const uint8_t *one, size_t one_count, const uint8_t *other, size_t other_count)
{
    return one_count == other_count && memcmp(one, other, WORD_BYTES * one_count) == 0;
}

/* The number of words of the rule that begins at `at` of an image of a form and ends before `end`; 0 if there is none. */
static size_t load_rule(unsigned form, const uint8_t *image, size_t at, size_t end, struct rule *rule)
{
    uint8_t line[WORD_BYTES * LINE_WORDS];
    uint64_t seen = 0;
    struct defects defects = {false, false, false};
    size_t start = at, size;
    memset(rule, 0, sizeof *rule);
    for (; at < end; at++) {
        struct fields fields = unpack(word_at(image, at));
        if (fields.operation != PRESENT && fields.operation != ABSENT)
            break;
        if (rule->count == LITERALS)
            return 0;
        rule->literals[rule->count].event = fields.first;
        rule->literals[rule->count].negated = fields.operation == ABSENT;
        rule->count++;
        note(&seen, fields.first, &defects);
    }
    at = load_condition(image, at, end, &rule->condition);
    if (at == end || rule->count == 0 || defects.repeat)
        return 0;
    rule->triggers = form >= TRIGGER_FORM && operation_of(word_at(image, at)) == TRIGGER;
    rule->yield = first_of(word_at(image, at));
    size = at + 1 - start;
    return same_words(line, write_rule(rule, line), image + WORD_BYTES * start, size) ? size : 0;
}

static size_t load_constraint(const uint8_t *image, size_t at, size_t end, struct constraint *constraint)
{
    uint8_t line[WORD_BYTES * LINE_WORDS];
    uint64_t seen = 0;
    struct defects defects = {false, false, false};
    size_t start = at, size;
    memset(constraint, 0, sizeof *constraint);
    for (; at < end; at++) {
        struct fields fields = unpack(word_at(image, at));
        if (fields.operation != MEMBER)
            break;
        if (constraint->count == MEMBERS)
            return 0;
        constraint->members[constraint->count++] = fields.first;
        note(&seen, fields.first, &defects);
    }
    at = load_condition(image, at, end, &constraint->condition);
    if (at == end || constraint->count == 0 || defects.repeat)
        return 0;
    size = at + 1 - start;
    return same_words(line, write_constraint(constraint, line), image + WORD_BYTES * start, size) ? size : 0;
}

/* What is wrong with the size, the header and the check words, in this order; P + N is the number of the words between them. */
static enum fault frame_fault(const uint8_t *image, size_t length)
{
    struct header header;
    size_t words = length / WORD_BYTES, body;
    if (length < 2 * WORD_BYTES || length > IMAGE_BYTES || length % WORD_BYTES != 0)
        return FAULT_SIZE;
    header = unpack_header(word_at(image, 0));
    if (!is_known_form(header.form))
        return FAULT_FORM;
    body = header.rule_words + header.constraint_words;
    if (header.rule_words > RULE_WORDS || header.constraint_words > CONSTRAINT_WORDS
        || words != body + (header.form == FIRST_FORM ? 2 : 3))
        return FAULT_COUNT;
    if (sum_words(image, words) != 0)
        return FAULT_SUM;
    if (header.form != FIRST_FORM && word_at(image, 1 + body) != weigh_words(image, 1 + body))
        return FAULT_WEIGHTED_SUM;
    return FAULT_NONE;
}

struct verdict load_image(const uint8_t *image, size_t length, struct policy *policy)
{
    struct policy result;
    struct header header;
    size_t at = 1, end, size;
    enum fault fault = frame_fault(image, length);
    if (fault != FAULT_NONE)
        return refuse(fault, 0);
    header = unpack_header(word_at(image, 0));
    memset(&result, 0, sizeof result);
    for (end = at + header.rule_words; at < end; at += size) {
        struct rule rule;
        size = result.rule_count < RULES ? load_rule(header.form, image, at, end, &rule) : 0;
        if (size == 0)
            return refuse(FAULT_BODY, at);
        result.rules[result.rule_count++] = rule;
    }
    for (end = at + header.constraint_words; at < end; at += size) {
        struct constraint constraint;
        size = result.constraint_count < CONSTRAINTS ? load_constraint(image, at, end, &constraint) : 0;
        if (size == 0)
            return refuse(FAULT_BODY, at);
        result.constraints[result.constraint_count++] = constraint;
    }
    *policy = result;
    return ACCEPTED;
}

/* Writing texts */

/* A text in the making: what is put goes behind `length`, where there is room for it. */
struct draft {
    uint8_t *bytes;
    size_t length;
};

static void put_string(struct draft *draft, const char *string)
{
    size_t length = strlen(string);
    memcpy(draft->bytes + draft->length, string, length);
    draft->length += length;
}

static void put_number(struct draft *draft, int32_t number)
{
    char decimal[sizeof "-2147483648"];
    snprintf(decimal, sizeof decimal, "%" PRId32, number);
    put_string(draft, decimal);
}

/* A letter, or `!E`, and a number. */
static void put_name(struct draft *draft, const char *letter, unsigned number)
{
    put_string(draft, letter);
    put_number(draft, (int32_t)number);
}

static void put_comparison(struct draft *draft, const struct comparison *comparison)
{
    put_name(draft, "R", comparison->reading);
    put_string(draft, " ");
    put_string(draft, relation_names[comparison->relation]);
    put_string(draft, " ");
    if (comparison->with_reading)
        put_name(draft, "R", comparison->other);
    else
        put_number(draft, comparison->constant);
}

/* The end of the line, with `if` and the comparisons before it if there are any. */
static void put_option(struct draft *draft, const struct condition *condition)
{
    size_t i;
    for (i = 0; i < condition->count; i++) {
        put_string(draft, i == 0 ? " if " : " , ");
        put_comparison(draft, &condition->comparisons[i]);
    }
    put_string(draft, "\n");
}

static void put_rule(struct draft *draft, const struct rule *rule)
{
    size_t i;
    for (i = 0; i < rule->count; i++) {
        put_string(draft, i == 0 ? "" : " & ");
        put_name(draft, rule->literals[i].negated ? "!E" : "E", rule->literals[i].event);
    }
    put_string(draft, rule->triggers ? " triggers " : " causes ");
    put_name(draft, rule->triggers ? "E" : "A", rule->yield);
    put_option(draft, &rule->condition);
}

static void put_constraint(struct draft *draft, const struct constraint *constraint)
{
    size_t i;
    for (i = 0; i < constraint->count; i++) {
        put_string(draft, i == 0 ? "never " : " & ");
        put_name(draft, "A", constraint->members[i]);
    }
    put_option(draft, &constraint->condition);
}

size_t write_text(const struct policy *policy, uint8_t text[WRITTEN_BYTES])
{
    struct draft draft = {text, 0};
    size_t i;
    for (i = 0; i < policy->rule_count; i++)
        put_rule(&draft, &policy->rules[i]);
    for (i = 0; i < policy->constraint_count; i++)
        put_constraint(&draft, &policy->constraints[i]);
    return draft.length;
}

struct verdict decompile(const uint8_t *image, size_t length, uint8_t *buffer, size_t room, size_t *written)
{
    struct policy policy;
    uint8_t text[WRITTEN_BYTES];
    struct verdict verdict = load_image(image, length, &policy);
    *written = 0;
    if (verdict.fault != FAULT_NONE)
        return verdict;
    return hand_over(text, write_text(&policy, text), buffer, room, written);
}

/* Epochs */

struct verdict read_epoch(const uint8_t *line, size_t length, struct epoch *epoch)
{
    struct tokens tokens = {{line, length}, 0};
    struct slice token;
    struct epoch result;
    struct defects defects = {false, false, false};
    uint64_t number;
    int64_t value;
    size_t i;
    memset(&result, 0, sizeof result);
    if (length > EPOCH_BYTES)
        return refuse(FAULT_LONG, 0);
    for (i = 0; i < length; i++)
        if (line[i] == '\n')
            return refuse(FAULT_EPOCH_SHAPE, 0);
    while (take(&tokens, &token)) {
        size_t sign = 0;
        if (read_name(token, 'E', &number)) {
            result.present |= UINT64_C(1) << ranged(number, EVENTS, &defects);
            continue;
        }
        while (sign < token.length && token.bytes[sign] != '=')
            sign++;
        if (sign == token.length || !read_name(part(token, 0, sign), 'R', &number)
            || !read_constant(part(token, sign + 1, token.length), &value))
            return refuse(FAULT_EPOCH_SHAPE, 0);
        if (!is_reading_value(value) || number >= READINGS) {
            defects.range = true;
            continue;
        }
        note(&result.given, (unsigned)number, &defects);
        result.readings[number] = (int32_t)value;
    }
    if (defects.range)
        return refuse(FAULT_EPOCH_RANGE, 0);
    if (defects.repeat)
        return refuse(FAULT_TWICE, 0);
    result.absent = ~result.present;
    *epoch = result;
    return ACCEPTED;
}

event_set reserved(const struct policy *policy)
{
    event_set set = 0;
    size_t i;
    for (i = 0; i < policy->rule_count; i++)
        if (policy->rules[i].triggers)
            set |= UINT64_C(1) << policy->rules[i].yield;
    return set;
}

struct verdict read_next_epoch(
    const struct policy *policy, event_set pending, const uint8_t *line, size_t length, struct epoch *epoch)
{
    struct epoch result;
    struct verdict verdict = read_epoch(line, length, &result);
    if (verdict.fault != FAULT_NONE)
        return verdict;
    if ((result.present & reserved(policy)) != 0)
        return refuse(FAULT_RESERVED, 0);
    result.present |= pending;
    result.absent = ~result.present;
    *epoch = result;
    return ACCEPTED;
}

/* Comparisons. A reading that the epoch does not give has no value. */

/* Whether a comparison that names a reading without a value holds. */
static const bool holds_if_missing[] = {[IN_RULE] = false, [IN_CONSTRAINT] = true};

static bool names_missing(const struct comparison *comparison, const struct epoch *epoch)
{
    return !in_set(epoch->given, comparison->reading)
        || (comparison->with_reading && !in_set(epoch->given, comparison->other));
}

static bool comparison_holds(const struct comparison *comparison, enum line_kind kind, const struct epoch *epoch)
{
    int32_t left, right;
    if (names_missing(comparison, epoch))
        return holds_if_missing[kind];
    left = epoch->readings[comparison->reading];
    right = comparison->with_reading ? epoch->readings[comparison->other] : comparison->constant;
    return relation_holds(comparison->relation, left, right);
}

/* What an epoch yields, by the policy */

static bool condition_holds(const struct condition *condition, enum line_kind kind, const struct epoch *epoch)
{
    size_t i;
    for (i = 0; i < condition->count; i++)
        if (!comparison_holds(&condition->comparisons[i], kind, epoch))
            return false;
    return true;
}

static bool literal_holds(struct literal literal, const struct epoch *epoch)
{
    return in_set(literal.negated ? epoch->absent : epoch->present, literal.event);
}

static bool rule_holds(const struct rule *rule, const struct epoch *epoch)
{
    size_t i;
    for (i = 0; i < rule->count; i++)
        if (!literal_holds(rule->literals[i], epoch))
            return false;
    return condition_holds(&rule->condition, IN_RULE, epoch);
}

/* What the rules that hold yield: the actions that they cause, or the events that they trigger. */
static uint64_t yields(const struct policy *policy, const struct epoch *epoch, bool events)
{
    uint64_t set = 0;
    size_t i;
    for (i = 0; i < policy->rule_count; i++)
        if (policy->rules[i].triggers == events && rule_holds(&policy->rules[i], epoch))
            set |= UINT64_C(1) << policy->rules[i].yield;
    return set;
}

action_set proposed(const struct policy *policy, const struct epoch *epoch)
{
    return yields(policy, epoch, false);
}

event_set triggered(const struct policy *policy, const struct epoch *epoch)
{
    return yields(policy, epoch, true);
}

static bool constraint_holds(const struct constraint *constraint, const struct epoch *epoch, action_set set)
{
    size_t i;
    for (i = 0; i < constraint->count; i++)
        if (!in_set(set, constraint->members[i]))
            return false;
    return condition_holds(&constraint->condition, IN_CONSTRAINT, epoch);
}

/* The first never line that holds on a set; NULL if none does. */
static const struct constraint *violated(const struct policy *policy, const struct epoch *epoch, action_set set)
{
    size_t i;
    for (i = 0; i < policy->constraint_count; i++)
        if (constraint_holds(&policy->constraints[i], epoch, set))
            return &policy->constraints[i];
    return NULL;
}

bool satisfies(const struct policy *policy, const struct epoch *epoch, action_set set)
{
    return violated(policy, epoch, set) == NULL;
}

action_set accepted(const struct policy *policy, const struct epoch *epoch, action_set candidates)
{
    action_set kept = 0;
    unsigned action;
    for (action = 0; action < ACTIONS; action++)
        if (in_set(candidates, action) && satisfies(policy, epoch, kept | UINT64_C(1) << action))
            kept |= UINT64_C(1) << action;
    return kept;
}

/* Event cancellation: the epoch is reduced until no never line holds on what it proposes. */

struct epoch reduction(const struct epoch *epoch, event_set kept)
{
    struct epoch result = *epoch;
    result.present = kept;
    return result;
}

bool is_consistent(const struct policy *policy, const struct epoch *epoch)
{
    return satisfies(policy, epoch, proposed(policy, epoch));
}

bool kept_events(const struct policy *policy, const struct epoch *epoch, event_set *kept)
{
    struct epoch tried = reduction(epoch, 0);
    unsigned event;
    *kept = 0;
    if (!is_consistent(policy, &tried))
        return false;
    for (event = 0; event < EVENTS; event++) {
        if (!in_set(epoch->present, event))
            continue;
        tried.present = *kept | UINT64_C(1) << event;
        if (is_consistent(policy, &tried))
            *kept = tried.present;
    }
    return true;
}

struct decision decide_by_policy(
    const struct policy *policy, event_set pending, const uint8_t *line, size_t length, enum mode mode)
{
    struct decision decision = {ACCEPTED, 0, 0, 0, 0};
    struct epoch epoch, reduced;
    action_set candidates;
    event_set kept;
    decision.verdict = read_next_epoch(policy, pending, line, length, &epoch);
    if (decision.verdict.fault == FAULT_NONE && mode == CANCEL_EVENTS && !kept_events(policy, &epoch, &kept))
        decision.verdict = refuse(FAULT_UNAVOIDABLE, 0);
    if (decision.verdict.fault != FAULT_NONE)
        return decision;
    candidates = proposed(policy, &epoch);
    if (mode == CANCEL_ACTIONS) {
        decision.accepted = accepted(policy, &epoch, candidates);
        decision.triggered = triggered(policy, &epoch); /* also where an action is cancelled */
    } else {
        reduced = reduction(&epoch, kept);
        decision.accepted = proposed(policy, &reduced);
        decision.triggered = triggered(policy, &reduced);
    }
    decision.cancelled = candidates & ~decision.accepted;
    return decision;
}

event_set pending_after(event_set pending, struct decision decision)
{
    return decision.verdict.fault == FAULT_NONE ? decision.triggered : pending;
}

/* Why an action is accepted or not */

/* The first rule that proposes a proposed action. */
static const struct rule *proposer(const struct policy *policy, const struct epoch *epoch, uint64_t action)
{
    const struct rule *rule = policy->rules;
    while (rule->triggers || rule->yield != action || !rule_holds(rule, epoch))
        rule++;
    return rule;
}

struct explanation explain_by_policy(
    const struct policy *policy, event_set pending, const uint8_t *line, size_t length, uint64_t action)
{
    struct explanation why = {ACCEPTED, OUTCOME_NONE, {NEITHER, 0, 0}};
    struct epoch epoch;
    action_set candidates, kept, one;
    why.verdict = read_next_epoch(policy, pending, line, length, &epoch);
    if (why.verdict.fault == FAULT_NONE && action >= ACTIONS)
        why.verdict = refuse(FAULT_EPOCH_RANGE, 0);
    if (why.verdict.fault != FAULT_NONE)
        return why;
    candidates = proposed(policy, &epoch);
    kept = accepted(policy, &epoch, candidates);
    one = UINT64_C(1) << action;
    if ((candidates & one) == 0) {
        why.outcome = NOT_PROPOSED;
    } else if ((kept & one) != 0) {
        why.outcome = IS_ACCEPTED;
        why.shown = proposer(policy, &epoch, action)->shown;
    } else { /* on those that were kept before it, and itself */
        why.outcome = IS_CANCELLED;
        why.shown = violated(policy, &epoch, (kept & (one - 1)) | one)->shown;
    }
    return why;
}

struct explanation explain(struct texts texts, event_set pending, const uint8_t *line, size_t length, uint64_t action)
{
    struct explanation why = {ACCEPTED, OUTCOME_NONE, {NEITHER, 0, 0}};
    struct policy policy;
    why.verdict = read_texts(NEWEST_FORM, texts, &policy);
    if (why.verdict.fault != FAULT_NONE)
        return why;
    return explain_by_policy(&policy, pending, line, length, action);
}

/* The bytes of a question up to the first of these, from `at` on. */
static struct slice up_to(struct slice whole, size_t at, char first)
{
    size_t to = at;
    while (to < whole.length && whole.bytes[to] != (uint8_t)first)
        to++;
    return part(whole, at, to);
}

/* The action and the pending events are all before the first space, the epoch line all behind it. */
bool read_question(const uint8_t *bytes, size_t length, struct question *question)
{
    struct slice whole = {bytes, length}, asked = up_to(whole, 0, ' '), name = up_to(asked, 0, ',');
    struct defects defects = {false, false, false};
    size_t at = name.length;
    uint64_t number;
    question->action = 0;
    question->pending = 0;
    question->line = part(whole, asked.length < length ? asked.length + 1 : length, length);
    if (!read_name(name, 'A', &question->action))
        return false;
    for (; at < asked.length; at += 1 + name.length) { /* a comma stands at `at` */
        name = up_to(asked, at + 1, ',');
        if (!read_name(name, 'E', &number))
            return false;
        question->pending |= UINT64_C(1) << ranged(number, EVENTS, &defects);
    }
    if (defects.range)
        question->action = ACTIONS;
    return true;
}

/* The length of the line is looked at first, and last whether the action and the pending events are in their ranges. */
struct explanation answer_question(const struct policy *policy, const uint8_t *bytes, size_t length)
{
    struct explanation why = {ACCEPTED, OUTCOME_NONE, {NEITHER, 0, 0}};
    struct question question;
    if (!read_question(bytes, length, &question) && question.line.length <= EPOCH_BYTES) {
        why.verdict = refuse(FAULT_EPOCH_SHAPE, 0);
        return why;
    }
    return explain_by_policy(policy, question.pending, question.line.bytes, question.line.length, question.action);
}

/* The words that a decision visits, by the policy. In a line the parts are tested in the order of the text, up to and with
   the first that fails; a comparison with a constant has two words, and the ending is visited if every part holds. */

/* From the first comparison of a line on. True if the line holds. */
static bool visit_condition(
    const struct condition *condition, enum line_kind kind, const struct epoch *epoch, struct visits *visits)
{
    size_t i;
    for (i = 0; i < condition->count; i++) {
        const struct comparison *comparison = &condition->comparisons[i];
        bool holds = comparison_holds(comparison, kind, epoch);
        visits->words++;
        if (!comparison->with_reading) {
            visits->words++;
            visits->failing[kind] += !holds;
            visits->missing[kind] += names_missing(comparison, epoch);
        }
        if (!holds)
            return false;
    }
    visits->words++;
    return true;
}

static void visit_rule(const struct rule *rule, const struct epoch *epoch, struct visits *visits)
{
    size_t i;
    for (i = 0; i < rule->count; i++) {
        visits->words++;
        if (!literal_holds(rule->literals[i], epoch))
            return;
    }
    visit_condition(&rule->condition, IN_RULE, epoch, visits);
}

static bool visit_constraint(
    const struct constraint *constraint, const struct epoch *epoch, action_set set, struct visits *visits)
{
    size_t i;
    for (i = 0; i < constraint->count; i++) {
        visits->words++;
        if (!in_set(set, constraint->members[i]))
            return false;
    }
    return visit_condition(&constraint->condition, IN_CONSTRAINT, epoch, visits);
}

static void visit_rules(const struct policy *policy, const struct epoch *epoch, struct visits *visits)
{
    size_t i;
    for (i = 0; i < policy->rule_count; i++)
        visit_rule(&policy->rules[i], epoch, visits);
}

/* Up to and with the first never line that holds. */
static void visit_constraints(const struct policy *policy, const struct epoch *epoch, action_set set, struct visits *visits)
{
    size_t i;
    for (i = 0; i < policy->constraint_count; i++)
        if (visit_constraint(&policy->constraints[i], epoch, set, visits)) {
            visits->stops += i + 1 < policy->constraint_count;
            return;
        }
}

/* The rules once, and the never lines in the trial of each proposed action. */
static void visit_by_actions(const struct policy *policy, const struct epoch *epoch, struct visits *visits)
{
    action_set candidates = proposed(policy, epoch), kept = accepted(policy, epoch, candidates);
    unsigned action;
    visit_rules(policy, epoch, visits);
    for (action = 0; action < ACTIONS; action++) {
        action_set one = UINT64_C(1) << action, kept_before = kept & (one - 1);
        if (in_set(candidates, action))
            visit_constraints(policy, epoch, kept_before | one, visits);
    }
}

/* The trial of some events: the rules and the never lines, even if nothing is proposed. */
static void visit_trial(const struct policy *policy, const struct epoch *epoch, event_set tried, struct visits *visits)
{
    struct epoch reduced = reduction(epoch, tried);
    action_set set = proposed(policy, &reduced);
    visit_rules(policy, &reduced, visits);
    visit_constraints(policy, &reduced, set, visits);
    visits->idle += set == 0;
}

/* The trial with no event, and one for each event of the epoch. */
static void visit_by_events(const struct policy *policy, const struct epoch *epoch, struct visits *visits)
{
    event_set kept;
    unsigned event;
    visit_trial(policy, epoch, 0, visits);
    if (!kept_events(policy, epoch, &kept))
        return;
    for (event = 0; event < EVENTS; event++) {
        event_set one = UINT64_C(1) << event, kept_before = kept & (one - 1);
        if (in_set(epoch->present, event))
            visit_trial(policy, epoch, kept_before | one, visits);
    }
}

struct visits visits_by_policy(const struct policy *policy, const struct epoch *epoch, enum mode mode)
{
    struct visits visits = {0};
    if (mode == CANCEL_ACTIONS)
        visit_by_actions(policy, epoch, &visits);
    else
        visit_by_events(policy, epoch, &visits);
    return visits;
}

/* What an epoch yields, by the words of an image */

/* The words of an image as they are fetched. */
struct fetcher {
    const uint8_t *image;
    size_t rules_end, end; /* behind the last word of the rules, and of the constraints */
    size_t at, count;      /* the next word, and how many were fetched */
};

static struct fetcher words_of(const uint8_t *image)
{
    struct header header = unpack_header(word_at(image, 0));
    struct fetcher words = {image, 1 + header.rule_words, 1 + header.rule_words + header.constraint_words, 1, 0};
    return words;
}

static uint32_t fetch(struct fetcher *words)
{
    words->count++;
    return word_at(words->image, words->at++);
}

/* What rule words propose and trigger. */
struct effects {
    action_set actions;
    event_set events;
};

/* Runs the words up to `end`, which are of lines of one kind, on an epoch and a set of actions, and collects what they propose and
   trigger. True if a constraint holds; the run ends there. */
static bool run_words(struct fetcher *words, size_t end, enum line_kind kind, const struct epoch *epoch, action_set set,
    struct effects *effects)
{
    while (words->at < end) {
        struct fields fields = unpack(fetch(words));
        struct comparison comparison;
        bool holds = true;
        switch (fields.operation) {
        case PRESENT: holds = in_set(epoch->present, fields.first); break;
        case ABSENT: holds = in_set(epoch->absent, fields.first); break;
        case AGAINST_CONSTANT:
            comparison = against_constant(fields, fetch(words));
            holds = comparison_holds(&comparison, kind, epoch);
            break;
        case AGAINST_READING:
            comparison = against_reading(fields);
            holds = comparison_holds(&comparison, kind, epoch);
            break;
        case PROPOSE: effects->actions |= UINT64_C(1) << fields.first; break;
        case TRIGGER: effects->events |= UINT64_C(1) << fields.first; break;
        case MEMBER: holds = in_set(set, fields.first); break;
        default: return true;
        }
        if (!holds)
            words->at += fields.skip;
    }
    return false;
}

static struct effects run_rules(struct fetcher *words, const struct epoch *epoch)
{
    struct effects effects = {0, 0};
    words->at = 1;
    run_words(words, words->rules_end, IN_RULE, epoch, 0, &effects);
    return effects;
}

/* True if a constraint holds on the set. */
static bool run_constraints(struct fetcher *words, const struct epoch *epoch, action_set set)
{
    struct effects none = {0, 0};
    words->at = words->rules_end;
    return run_words(words, words->end, IN_CONSTRAINT, epoch, set, &none);
}

static void run_by_actions(const uint8_t *image, const struct epoch *epoch, struct decision *decision)
{
    struct fetcher words = words_of(image);
    struct effects effects = run_rules(&words, epoch);
    unsigned action;
    for (action = 0; action < ACTIONS; action++) {
        action_set tried = decision->accepted | UINT64_C(1) << action;
        if (in_set(effects.actions, action) && !run_constraints(&words, epoch, tried))
            decision->accepted = tried;
    }
    decision->cancelled = effects.actions & ~decision->accepted;
    decision->triggered = effects.events;
    decision->visited = words.count;
}

/* The trial of some events of an epoch. True if what they propose makes no constraint hold. */
static bool run_trial(struct fetcher *words, const struct epoch *epoch, event_set tried, struct effects *effects)
{
    struct epoch reduced = reduction(epoch, tried);
    *effects = run_rules(words, &reduced);
    return !run_constraints(words, &reduced, effects->actions);
}

/* The words of the full epoch, which say what is cancelled, do not count. */
static void run_by_events(const uint8_t *image, const struct epoch *epoch, struct decision *decision)
{
    struct fetcher words = words_of(image), full = words;
    struct effects effects, issued;
    event_set kept = 0;
    unsigned event;
    if (!run_trial(&words, epoch, kept, &issued)) {
        decision->verdict = refuse(FAULT_UNAVOIDABLE, 0);
        return;
    }
    for (event = 0; event < EVENTS; event++) {
        event_set tried = kept | UINT64_C(1) << event;
        if (in_set(epoch->present, event) && run_trial(&words, epoch, tried, &effects)) {
            kept = tried;
            issued = effects;
        }
    }
    decision->accepted = issued.actions;
    decision->cancelled = run_rules(&full, epoch).actions & ~issued.actions;
    decision->triggered = issued.events;
    decision->visited = words.count;
}

struct decision decide(
    const uint8_t *image, size_t image_length, event_set pending, const uint8_t *line, size_t length, enum mode mode)
{
    struct decision decision = {ACCEPTED, 0, 0, 0, 0};
    struct policy policy;
    struct epoch epoch;
    decision.verdict = load_image(image, image_length, &policy);
    if (decision.verdict.fault == FAULT_NONE)
        decision.verdict = read_next_epoch(&policy, pending, line, length, &epoch);
    if (decision.verdict.fault != FAULT_NONE)
        return decision;
    if (mode == CANCEL_ACTIONS)
        run_by_actions(image, &epoch, &decision);
    else
        run_by_events(image, &epoch, &decision);
    return decision;
}

size_t visit_limit(const uint8_t *image, enum mode mode)
{
    struct header header = unpack_header(word_at(image, 0));
    if (mode == CANCEL_ACTIONS)
        return header.rule_words + (size_t)ACTIONS * header.constraint_words;
    return (size_t)(1 + EVENTS) * (header.rule_words + header.constraint_words);
}

/* The programs */

/* Whether a line ends the text, and the mode that it picks. */
static bool is_run(struct slice line, enum mode *mode)
{
    *mode = is(line, "run events") ? CANCEL_EVENTS : CANCEL_ACTIONS;
    return *mode == CANCEL_EVENTS || is(line, "run");
}

bool find_run(const uint8_t *input, size_t length, size_t *text_length, size_t *epochs, enum mode *mode)
{
    struct slice line;
    size_t at = 0, start = 0;
    while (next_line(input, length, &at, &line.bytes, &line.length)) {
        if (is_run(line, mode)) {
            *text_length = start;
            *epochs = at;
            return true;
        }
        start = at;
    }
    *text_length = length;
    *epochs = length;
    *mode = CANCEL_ACTIONS;
    return false;
}

/* The location is a line or a word. */
static void print_refusal(struct verdict verdict, const char *unit, FILE *out)
{
    fprintf(out, "refused %d %s %lu\n", (int)verdict.fault, unit, (unsigned long)verdict.location);
}

static void print_set(action_set set, FILE *out)
{
    unsigned action;
    const char *before = "";
    if (set == 0)
        fputs("-", out);
    for (action = 0; action < ACTIONS; action++)
        if (in_set(set, action)) {
            fprintf(out, "%sA%u", before, action);
            before = ",";
        }
}

void print_decision(unsigned long number, struct decision decision, FILE *out)
{
    if (decision.verdict.fault != FAULT_NONE) {
        fprintf(out, "%lu refused %d", number, (int)decision.verdict.fault);
    } else {
        fprintf(out, "%lu accept ", number);
        print_set(decision.accepted, out);
        fputs(" cancel ", out);
        print_set(decision.cancelled, out);
    }
    fprintf(out, " words %lu\n", (unsigned long)decision.visited);
}

static void print_words(const uint8_t *image, size_t size, FILE *out)
{
    size_t i;
    for (i = 0; i < size / WORD_BYTES; i++)
        fprintf(out, "%08" PRIX32 "\n", word_at(image, i));
}

static void print_compiler(const uint8_t *input, size_t length, FILE *out)
{
    uint8_t image[IMAGE_BYTES];
    size_t written;
    struct verdict verdict = compile(NEWEST_FORM, input, length, image, sizeof image, &written);
    if (verdict.fault != FAULT_NONE)
        print_refusal(verdict, "line", out);
    else
        print_words(image, written, out);
}

size_t read_dump(const uint8_t *input, size_t length, uint8_t image[DUMP_BYTES], size_t *size)
{
    struct slice line;
    uint32_t word;
    size_t at = 0, number = 0;
    *size = 0;
    while (next_line(input, length, &at, &line.bytes, &line.length)) {
        number++;
        if (line.length != 2 * WORD_BYTES || !read_digits(line, &word))
            return number;
        if (*size == DUMP_BYTES)
            continue;
        put_word(image, *size / WORD_BYTES, word);
        *size += WORD_BYTES;
    }
    return 0;
}

static void print_decompiler(const uint8_t *input, size_t length, FILE *out)
{
    uint8_t image[DUMP_BYTES], text[WRITTEN_BYTES];
    size_t size, written, line = read_dump(input, length, image, &size);
    struct verdict verdict;
    if (line > 0) {
        fprintf(out, "line %lu is not a word\n", (unsigned long)line);
        return;
    }
    verdict = decompile(image, size, text, sizeof text, &written);
    if (verdict.fault != FAULT_NONE)
        print_refusal(verdict, "word", out);
    else
        fwrite(text, 1, written, out);
}

static void print_engine(const uint8_t *input, size_t length, FILE *out)
{
    uint8_t image[IMAGE_BYTES];
    size_t written, text_length, at, line_length;
    const uint8_t *line;
    unsigned long number = 0;
    event_set pending = 0;
    struct verdict verdict;
    enum mode mode;
    find_run(input, length, &text_length, &at, &mode);
    verdict = compile(NEWEST_FORM, input, text_length, image, sizeof image, &written);
    if (verdict.fault != FAULT_NONE) {
        print_refusal(verdict, "line", out);
        return;
    }
    while (next_line(input, length, &at, &line, &line_length)) {
        struct decision decision = decide(image, written, pending, line, line_length, mode);
        pending = pending_after(pending, decision);
        print_decision(++number, decision, out);
    }
}

bool print_program(const char *program, const uint8_t *input, size_t length, FILE *out)
{
    static const struct {
        const char *name;
        void (*print)(const uint8_t *, size_t, FILE *);
    } programs[] = {{"compiler", print_compiler}, {"decompiler", print_decompiler}, {"engine", print_engine}};
    size_t i;
    for (i = 0; i < sizeof programs / sizeof *programs; i++)
        if (strcmp(program, programs[i].name) == 0) {
            programs[i].print(input, length, out);
            return true;
        }
    return false;
}

/* The programs with the names of two texts */

static void print_refusal_of_text(struct verdict verdict, FILE *out)
{
    fprintf(out, "refused %d text %d line %lu\n", (int)verdict.fault, (int)verdict.text, (unsigned long)verdict.location);
}

static void print_compiler_on_texts(struct texts texts, FILE *out)
{
    uint8_t image[IMAGE_BYTES];
    size_t written;
    struct verdict verdict = compile_texts(NEWEST_FORM, texts, image, sizeof image, &written);
    if (verdict.fault != FAULT_NONE)
        print_refusal_of_text(verdict, out);
    else
        print_words(image, written, out);
}

static void print_explanation(unsigned long number, struct explanation why, struct texts texts, FILE *out)
{
    static const char *const outcomes[OUTCOMES] = {
        [NOT_PROPOSED] = "not proposed", [IS_ACCEPTED] = "accepted", [IS_CANCELLED] = "cancelled"};
    if (why.verdict.fault != FAULT_NONE) {
        fprintf(out, "%lu refused %d\n", number, (int)why.verdict.fault);
        return;
    }
    fprintf(out, "%lu %s", number, outcomes[why.outcome]);
    if (why.shown.text != NEITHER) {
        fprintf(out, " %d ", (int)why.shown.text);
        fwrite((why.shown.text == MAKER ? texts.maker : texts.site).bytes + why.shown.start, 1, why.shown.length, out);
    }
    fputs("\n", out);
}

static void print_explain(struct texts texts, const uint8_t *input, size_t length, FILE *out)
{
    struct policy policy;
    struct slice question;
    size_t at = 0;
    unsigned long number = 0;
    struct verdict verdict = read_texts(NEWEST_FORM, texts, &policy);
    if (verdict.fault != FAULT_NONE) {
        print_refusal_of_text(verdict, out);
        return;
    }
    while (next_line(input, length, &at, &question.bytes, &question.length))
        print_explanation(++number, answer_question(&policy, question.bytes, question.length), texts, out);
}

bool print_on_texts(const char *program, struct texts texts, const uint8_t *input, size_t length, FILE *out)
{
    if (strcmp(program, "compiler") == 0)
        print_compiler_on_texts(texts, out);
    else if (strcmp(program, "explain") == 0)
        print_explain(texts, input, length, out);
    else
        return false;
    return true;
}
