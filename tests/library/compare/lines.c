#include "lines.h"

#include <string.h>

static void put(struct line *line, enum kind kind, uint32_t word)
{
    line->words[line->size] = word;
    line->kinds[line->size++] = kind;
}

static void set_skips(struct line *line)
{
    size_t i;
    for (i = 0; i < line->size; i++)
        if (line->kinds[i] & TEST) {
            struct fields fields = unpack(line->words[i]);
            fields.skip = (unsigned)(line->size - i - (line->kinds[i] == WITH_CONSTANT ? 2 : 1));
            line->words[i] = pack(fields);
        }
}

static unsigned head_operation(struct dice *dice, bool rule)
{
    return !rule ? MEMBER : below(dice, 2) == 0 ? PRESENT : ABSENT;
}

static uint32_t end_word(struct dice *dice, bool rule)
{
    struct fields fields = {.operation = FORBID};
    if (rule) {
        fields.operation = current_form >= TRIGGER_FORM && chance(dice, 400) ? TRIGGER : PROPOSE;
        fields.first = below(dice, ACTIONS);
    }
    return pack(fields);
}

/* An operation that no word has in the current form. */
static unsigned no_operation(struct dice *dice)
{
    if (current_form < TRIGGER_FORM && chance(dice, 400))
        return TRIGGER;
    return chance(dice, 200) ? 0 : TRIGGER + 1 + below(dice, 7);
}

static void put_comparison(struct line *line, struct dice *dice)
{
    /* some of them look like words of a line */
    static const uint32_t constants[] = {
        0, 1, UINT32_MAX, 0x7FFFFFFF, 0x80000000, 0x10400001, 0x20800003, 0x50C00000, 0x60C00002, 0x70000000};
    unsigned first = below(dice, READINGS), second = below(dice, READINGS), relation = below(dice, RELATIONS);
    struct fields fields = {.first = first, .relation = relation};
    if (chance(dice, 500)) {
        fields.operation = AGAINST_READING;
        fields.second = second;
        put(line, WITH_READING, pack(fields));
    } else {
        fields.operation = AGAINST_CONSTANT;
        put(line, WITH_CONSTANT, pack(fields));
        put(line, CONSTANT, chance(dice, 700) ? CHOOSE(dice, constants) : (uint32_t)roll(dice));
    }
}

struct line make_line(struct dice *dice, bool rule, unsigned heads, unsigned comparisons)
{
    struct line line;
    uint64_t seen = 0;
    memset(&line, 0, sizeof line);
    while (heads-- > 0) {
        struct fields fields = {0};
        do
            fields.first = below(dice, 64);
        while (in_set(seen, fields.first));
        seen |= UINT64_C(1) << fields.first;
        fields.operation = head_operation(dice, rule);
        put(&line, HEAD, pack(fields));
    }
    while (comparisons-- > 0)
        put_comparison(&line, dice);
    put(&line, END, end_word(dice, rule));
    set_skips(&line);
    return line;
}

struct line good_line(struct dice *dice, bool rule, bool brief)
{
    unsigned heads = 1 + below(dice, brief ? 2 : 8), comparisons = below(dice, brief ? 2 : 5);
    return make_line(dice, rule, heads, comparisons);
}

/* A word of one of the kinds, or the line's size if there is none. */
static size_t find(const struct line *line, struct dice *dice, unsigned kinds)
{
    size_t from = below(dice, (unsigned)line->size), i;
    for (i = 0; i < line->size; i++)
        if (line->kinds[(from + i) % line->size] & kinds)
            return (from + i) % line->size;
    return line->size;
}

/* A right line in which the flaw can be, and the word `at` for it. */
static struct line line_for(struct dice *dice, bool rule, enum flaw flaw, size_t *at)
{
    static const unsigned kinds[FLAWS] = {
        [SKIP_MORE] = TEST,
        [SKIP_LESS] = TEST,
        [SKIP_AT_END] = END,
        [ZERO_FIELD] = ANY,
        [SECOND_UNUSED] = HEAD | WITH_CONSTANT | END,
        [RELATION_UNUSED] = HEAD | END,
        [FIRST_UNUSED] = END,
        [READING_16] = WITH_CONSTANT | WITH_READING,
        [OTHER_READING_16] = WITH_READING,
        [RELATION_6] = WITH_CONSTANT | WITH_READING,
        [REPEATED_HEAD] = HEAD,
        [HEAD_BEHIND_COMPARISON] = WITH_CONSTANT | WITH_READING,
        [OPERATION_OF_OTHER_PART] = HEAD | END,
        [NO_OPERATION] = ANY,
        [NO_CONSTANT_AT_PART_END] = WITH_CONSTANT,
        [END_AS_CONSTANT] = WITH_CONSTANT};
    struct line line;
    do {
        line = good_line(dice, rule, false);
        *at = kinds[flaw] == 0 ? 0 : find(&line, dice, kinds[flaw]);
    } while (*at == line.size || (flaw == REPEATED_HEAD && line.kinds[1] != HEAD)
        || (flaw == END_AS_CONSTANT && line.kinds[line.size - 2] != CONSTANT));
    return line;
}

/* The flaws of one word. */
static uint32_t flawed_word(const struct line *line, size_t at, struct dice *dice, bool rule, enum flaw flaw)
{
    struct fields fields = unpack(line->words[at]);
    size_t other;
    switch (flaw) {
    case SKIP_MORE: fields.skip = (fields.skip + 1) % 32; break;
    case SKIP_LESS: fields.skip = (fields.skip - 1) % 32; break;
    case SKIP_AT_END: fields.skip = 1 + below(dice, 31); break;
    case ZERO_FIELD: fields.zero = 1u << below(dice, 8); break;
    case SECOND_UNUSED: fields.second = 1 + below(dice, 63); break;
    case RELATION_UNUSED: fields.relation = 1 + below(dice, 7); break;
    case FIRST_UNUSED: fields.first = 1 + below(dice, 63); break;
    case READING_16: fields.first |= 16u << below(dice, 2); break;
    case OTHER_READING_16: fields.second |= 16u << below(dice, 2); break;
    case RELATION_6: fields.relation = RELATIONS + below(dice, 2); break;
    case REPEATED_HEAD:
        do
            other = find(line, dice, HEAD);
        while (other == at);
        fields.first = unpack(line->words[other]).first;
        break;
    case OPERATION_OF_OTHER_PART:
        if (line->kinds[at] == END)
            return end_word(dice, !rule);
        fields.operation = head_operation(dice, !rule);
        break;
    case NO_OPERATION: fields.operation = no_operation(dice); break;
    default: break;
    }
    return pack(fields);
}

/* The head before the first comparison is put behind it. */
static void put_head_behind(struct line *line)
{
    size_t at = 0, width;
    uint32_t moved;
    while (line->kinds[at] == HEAD)
        at++;
    width = line->kinds[at] == WITH_CONSTANT ? 2 : 1;
    moved = line->words[at - 1];
    memmove(&line->words[at - 1], &line->words[at], width * sizeof *line->words);
    memmove(&line->kinds[at - 1], &line->kinds[at], width * sizeof *line->kinds);
    line->words[at - 1 + width] = moved;
    line->kinds[at - 1 + width] = HEAD;
    set_skips(line);
}

/* The last comparison lacks its constant, and the skips are those of the shorter line. */
static void leave_out_constant(struct line *line)
{
    line->size--;
    line->words[line->size - 1] = line->words[line->size];
    line->kinds[line->size - 1] = END;
    set_skips(line);
}

struct line flawed_line(struct dice *dice, bool rule, enum flaw flaw)
{
    size_t at;
    struct line line = line_for(dice, rule, flaw, &at);
    switch (flaw) {
    case NINE_HEADS: return make_line(dice, rule, 9, below(dice, 5));
    case FIVE_COMPARISONS: return make_line(dice, rule, 1 + below(dice, 8), 5);
    case NO_HEAD: return make_line(dice, rule, 0, below(dice, 5));
    case NO_END: line.size--; break;
    case HEAD_BEHIND_COMPARISON: put_head_behind(&line); break;
    case CUT_AT_PART_END: line.size = 1 + below(dice, (unsigned)line.size - 1); break;
    case NO_CONSTANT_AT_PART_END: line.size = at + 1; break;
    case END_AS_CONSTANT: leave_out_constant(&line); break;
    default: line.words[at] = flawed_word(&line, at, dice, rule, flaw); break;
    }
    return line;
}

void append(struct draft *draft, struct line line)
{
    memcpy(draft->words + draft->count, line.words, line.size * sizeof *line.words);
    draft->count += line.size;
}

size_t finish(const struct draft *draft, uint8_t *bytes)
{
    struct header header = {.form = (unsigned)current_form, .rule_words = (unsigned)draft->rule_words};
    size_t i, count = draft->count + check_words(header.form);
    header.constraint_words = (unsigned)(draft->count - 1 - draft->rule_words);
    put_word(bytes, 0, pack_header(header));
    for (i = 1; i < draft->count; i++)
        put_word(bytes, i, draft->words[i]);
    put_check_words(bytes, count, header.form);
    return WORD_BYTES * count;
}
