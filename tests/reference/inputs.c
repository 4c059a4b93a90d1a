#include "inputs.h"

#include <stdarg.h>
#include <stdlib.h>
#include <string.h>

static void no_room(void)
{
    fprintf(stderr, "inputs: no room\n");
    exit(1);
}

struct buffer new_buffer(void)
{
    struct buffer buffer = {malloc(ROOM), 0};
    if (buffer.bytes == NULL)
        no_room();
    return buffer;
}

void add_bytes(struct buffer *to, const void *bytes, size_t length)
{
    if (length > ROOM - to->length)
        no_room();
    memcpy(to->bytes + to->length, bytes, length);
    to->length += length;
}

void add(struct buffer *to, const char *string)
{
    add_bytes(to, string, strlen(string));
}

void add_byte(struct buffer *to, unsigned byte)
{
    uint8_t one = (uint8_t)byte;
    add_bytes(to, &one, 1);
}

void add_format(struct buffer *to, const char *format, ...)
{
    char string[256];
    va_list list;
    va_start(list, format);
    if (vsnprintf(string, sizeof string, format, list) >= (int)sizeof string)
        no_room();
    va_end(list);
    add(to, string);
}

void add_number(struct buffer *to, long number)
{
    add_format(to, "%ld", number);
}

void add_times(struct buffer *to, const char *string, unsigned times)
{
    while (times-- > 0)
        add(to, string);
}

void add_events(struct buffer *to, unsigned first, unsigned count)
{
    for (; count > 0; count--)
        add_format(to, "E%u ", first++);
}

struct texts texts_of(const struct buffer *maker, const struct buffer *site)
{
    struct texts texts = {{maker->bytes, maker->length}, {site->bytes, site->length}};
    return texts;
}

void splice(struct buffer *in, size_t from, size_t until, const void *bytes, size_t length)
{
    if (in->length - (until - from) + length > ROOM)
        no_room();
    memmove(in->bytes + from + length, in->bytes + until, in->length - until);
    memcpy(in->bytes + from, bytes, length);
    in->length = in->length - (until - from) + length;
}

/* Chance */

uint64_t roll(struct dice *dice)
{
    uint64_t z = dice->state += UINT64_C(0x9E3779B97F4A7C15);
    z = (z ^ z >> 30) * UINT64_C(0xBF58476D1CE4E5B9);
    z = (z ^ z >> 27) * UINT64_C(0x94D049BB133111EB);
    return z ^ z >> 31;
}

unsigned below(struct dice *dice, unsigned limit)
{
    return (unsigned)(roll(dice) % limit);
}

bool chance(struct dice *dice, unsigned per_mille)
{
    return below(dice, 1000) < per_mille;
}

/* Lines */

struct taste make_taste(struct dice *dice)
{
    static const unsigned universes[] = {2, 4, 6, 10, 64};
    static const unsigned shares[] = {0, 0, 300, 1000}, triggers[] = {0, 0, 0, 150, 400, 800};
    struct taste taste = {0};
    taste.events = CHOOSE(dice, universes);
    taste.actions = CHOOSE(dice, universes);
    taste.readings = chance(dice, 300) ? READINGS : 1 + below(dice, 4);
    taste.loose = chance(dice, 300) ? 300 : 0;
    taste.limits = chance(dice, 300) ? 500 : 20;
    taste.hexadecimal = CHOOSE(dice, shares);
    taste.triggers = CHOOSE(dice, triggers);
    if (taste.triggers > 0) {
        taste.triggered = 1 + below(dice, 4);
        taste.events -= taste.events == EVENTS ? taste.triggered : 0;
    }
    return taste;
}

static void add_gap(struct buffer *to, struct dice *dice, const struct taste *taste)
{
    static const char *const odd[] = {"", "", "\t", "\r", "  \t", "\v", "\xC2\xA0"};
    if (chance(dice, taste->shape)) {
        add(to, CHOOSE(dice, odd));
        return;
    }
    add(to, " ");
    while (chance(dice, taste->loose))
        add(to, " ");
}

static void add_edge(struct buffer *to, struct dice *dice, const struct taste *taste)
{
    while (chance(dice, taste->loose))
        add(to, " ");
}

/* A number under `used`, or one out of the range, or none at all. */
static void add_index(struct buffer *to, struct dice *dice, const struct taste *taste, unsigned used, unsigned limit)
{
    static const char *const wrapping[] = {
        "100", "128", "255", "256", "257", "65536", "65539", "4294967295", "4294967296", "4294967299",
        "1099511627776", "9223372036854775807", "9223372036854775808", "18446744073709551615",
        "18446744073709551616", "18446744073709551619", "340282366920938463463374607431768211456",
        "340282366920938463463374607431768211459", "999999999999999999999999999999999999999999999999999999999999"};
    static const char *const odd[] = {
        "", "00", "01", "063", "0000000000000000000000000", "-1", "-0", "+1", "1.", "0x1", "0x", "1e1", "!", "1!", "E1",
        "x", " 1", "1#", "\xD9\xA1", "1,", "1&", "&", "1:", "1/", "4294967296x", "018446744073709551616"};
    unsigned i;
    if (chance(dice, taste->shape)) {
        add(to, CHOOSE(dice, odd));
    } else if (chance(dice, taste->range)) {
        switch (below(dice, 4)) {
        case 0: add_number(to, (long)limit); break;
        case 1: add_number(to, (long)(limit + 1 + below(dice, 300))); break;
        case 2: add(to, CHOOSE(dice, wrapping)); break;
        default:
            add_byte(to, '1' + below(dice, 9));
            for (i = 1 + below(dice, 200); i > 0; i--)
                add_byte(to, '0' + below(dice, 10));
            break;
        }
    } else if (chance(dice, 30)) {
        add_number(to, (long)limit - 1);
    } else {
        add_number(to, (long)below(dice, used));
    }
}

static void add_name(struct buffer *to, struct dice *dice, const struct taste *taste, char letter, unsigned used,
    unsigned limit)
{
    static const char *const odd[] = {"", "e", "a", "r", "E", "A", "R", "!E", "!A", "!", "!!E", "B", "#", "\xC5", "EE"};
    if (chance(dice, taste->shape))
        add(to, CHOOSE(dice, odd));
    else
        add_byte(to, (unsigned)letter);
    add_index(to, dice, taste, used, limit);
}

void lower_letters(struct buffer *in, size_t from, struct dice *dice, unsigned lower)
{
    for (; from < in->length; from++)
        if (in->bytes[from] >= 'A' && in->bytes[from] <= 'F' && chance(dice, lower))
            in->bytes[from] = (uint8_t)(in->bytes[from] + 'a' - 'A');
}

void add_pattern(struct buffer *to, struct dice *dice, uint32_t word, unsigned digits)
{
    size_t from = to->length;
    add_format(to, "0x%0*lX", (int)digits, (unsigned long)word);
    lower_letters(to, from, dice, below(dice, 3) * 500);
}

/* A word of any size. */
static uint32_t any_word(struct dice *dice)
{
    uint32_t word = (uint32_t)roll(dice);
    return word >> below(dice, 32);
}

/* More than eight digits: a few or many, with a small value or any. */
static void add_long_pattern(struct buffer *to, struct dice *dice)
{
    unsigned digits = 9 + below(dice, chance(dice, 700) ? 9 : 200), zeros = chance(dice, 500) ? below(dice, 20) : 0;
    size_t from = to->length;
    add(to, "0x");
    add_times(to, "0", zeros);
    while (digits-- > zeros)
        add_byte(to, (unsigned)(uint8_t)"0123456789ABCDEF"[below(dice, 16)]);
    lower_letters(to, from, dice, below(dice, 3) * 500);
}

/* One to ten digits, and a byte that is none before one of them, in the place of one or behind all. */
static void add_odd_pattern(struct buffer *to, struct dice *dice)
{
    static const uint8_t odd[] = {'/', ':', '@', 'G', '`', 'g', 'x', 'X', '-', '.', 0, 0xB0};
    uint32_t word = any_word(dice);
    unsigned digits = 1 + below(dice, 10), replaced = below(dice, 2);
    size_t from = to->length + 2, at;
    add_pattern(to, dice, word, digits);
    at = from + below(dice, (unsigned)(to->length - from) + 1);
    splice(to, at, at < to->length ? at + replaced : at, &CHOOSE(dice, odd), 1);
}

/* A constant in hexadecimal, or one out of the range, or none at all. */
static void add_hexadecimal(struct buffer *to, struct dice *dice, const struct taste *taste)
{
    static const uint32_t ends[] = {
        0x7FFFFFFF, 0x80000000, 0x7FFFFFFE, 0x80000001, 0xFFFFFFFF, 0xFFFFFFFE, 0x8040, 0xABCDEF, 1, 0};
    static const char *const outside[] = {"0x000000000", "0x000000001", "0x07FFFFFFF", "0x080000000", "0x0ffffffff",
        "0x100000000", "0x100000001", "0xFFFFFFFFF", "0x0000000000000000", "0x10000000000000000", "0x10000000000000001"};
    static const char *const odd[] = {"0x", "0X1", "-0x1", "0x1G", "0x123456789G", "0x000000001g", "0XFF", "0x 1", "0 x1",
        "x1", "00x1", "01x1", "1x1", "+0x1", "0x-1", "0x+1", "-0x", "0x0x1", "0xx", "R0x1", "0x1,", "0x1h", "$FF", "0b1"};
    unsigned digits = 1 + below(dice, 8);
    bool listed = chance(dice, 500);
    if (chance(dice, taste->shape)) {
        if (listed)
            add(to, CHOOSE(dice, odd));
        else
            add_odd_pattern(to, dice);
    } else if (chance(dice, taste->range)) {
        if (listed)
            add(to, CHOOSE(dice, outside));
        else
            add_long_pattern(to, dice);
    } else if (chance(dice, taste->limits)) {
        add_pattern(to, dice, CHOOSE(dice, ends), digits);
    } else if (chance(dice, 100)) {
        add_pattern(to, dice, any_word(dice), digits);
    } else {
        add_pattern(to, dice, below(dice, 9) - 4, digits);
    }
}

/* A decimal constant, or one out of the range, or none at all. */
static void add_decimal(struct buffer *to, struct dice *dice, const struct taste *taste)
{
    static const char *const ends[] = {
        "2147483647", "-2147483648", "2147483646", "-2147483647", "1000000000", "-1000000000", "-1", "1", "0"};
    static const char *const outside[] = {
        "2147483648", "-2147483649", "2147483649", "3000000000", "-3000000000", "4294967295", "4294967296",
        "-4294967295", "-4294967296", "4294967297", "-4294967297", "10000000000", "9223372036854775807",
        "9223372036854775808", "-9223372036854775808", "-9223372036854775809", "18446744073709551616",
        "18446744073709551617", "-18446744073709551617", "99999999999999999999999999999999999999999999999999"};
    static const char *const odd[] = {
        "-0", "00", "01", "-01", "-", "--1", "+1", "+0", "1-", "", "- 1", "-00", "0X10", "1.0", "R", "-R1", "r1", "A1",
        "E1", "R01", "02147483648", "-02147483648", "1,", "'1'", "\xE2\x88\x92" "1"};
    if (chance(dice, taste->shape))
        add(to, CHOOSE(dice, odd));
    else if (chance(dice, taste->range))
        add(to, CHOOSE(dice, outside));
    else if (chance(dice, taste->limits))
        add(to, CHOOSE(dice, ends));
    else
        add_number(to, (long)below(dice, 9) - 4);
}

static void add_constant(struct buffer *to, struct dice *dice, const struct taste *taste)
{
    if (chance(dice, taste->hexadecimal))
        add_hexadecimal(to, dice, taste);
    else
        add_decimal(to, dice, taste);
}

static void add_condition(struct buffer *to, struct dice *dice, const struct taste *taste)
{
    static const char *const odd[] = {"==", "=>", "=<", "<>", "!", "", "is", "!==", "& ", "-", ">==", "<<"};
    static const char *const commas[] = {"", ",,", "&", ", ,", ";", "and", "if"};
    unsigned count = 1 + below(dice, chance(dice, 500) ? 4 : 2), i;
    if (chance(dice, taste->crowd))
        count = 5 + (chance(dice, 200) ? below(dice, 60) : 0);
    for (i = 0; i < count; i++) {
        if (i > 0) {
            add_gap(to, dice, taste);
            add(to, chance(dice, taste->shape) ? CHOOSE(dice, commas) : ",");
            add_gap(to, dice, taste);
        }
        add_name(to, dice, taste, 'R', taste->readings, READINGS);
        add_gap(to, dice, taste);
        add(to, chance(dice, taste->shape) ? CHOOSE(dice, odd) : CHOOSE(dice, relation_names));
        add_gap(to, dice, taste);
        if (chance(dice, 350))
            add_name(to, dice, taste, 'R', taste->readings, READINGS);
        else
            add_constant(to, dice, taste);
    }
    if (chance(dice, taste->shape)) {
        add_gap(to, dice, taste);
        add(to, ",");
    }
}

/* A list of events or actions joined by `&`, distinct unless there is a fault. */
static void add_list(struct buffer *to, struct dice *dice, const struct taste *taste, bool events)
{
    static const char *const joints[] = {"", "&&", ",", "& &", "and", "|", "& #", "causes"};
    char letter = events ? 'E' : 'A';
    unsigned limit = events ? EVENTS : ACTIONS, used = events ? taste->events + taste->triggered : taste->actions;
    unsigned count = 1 + below(dice, chance(dice, 250) ? 8 : 3), i, number, first = 0;
    uint64_t seen = 0;
    bool repeat = chance(dice, taste->repeat);
    if (!events && chance(dice, 300))
        count = 1;
    if (chance(dice, 40))
        count = 8;
    if (repeat && count == 1)
        count = 2;
    if (chance(dice, taste->crowd))
        count = 9 + (chance(dice, 200) ? below(dice, 300) : 0);
    if (used < count)
        used = count < limit ? count : limit;
    for (i = 0; i < count; i++) {
        if (i > 0) {
            add_gap(to, dice, taste);
            add(to, chance(dice, taste->shape) ? CHOOSE(dice, joints) : "&");
            add_gap(to, dice, taste);
        }
        if (events && chance(dice, 350))
            add(to, "!");
        if (chance(dice, taste->shape + taste->range)) {
            add_name(to, dice, taste, letter, used, limit);
            continue;
        }
        number = below(dice, used);
        while (i < used && in_set(seen, number))
            number = (number + 1) % used;
        if (i == 0)
            first = number;
        if (repeat && i == count - 1)
            number = first;
        seen |= UINT64_C(1) << number;
        add_byte(to, (unsigned)letter);
        add_number(to, (long)number);
    }
    if (chance(dice, taste->shape)) {
        add_gap(to, dice, taste);
        add(to, "&");
    }
}

static void add_keyword(struct buffer *to, struct dice *dice, const struct taste *taste, const char *word)
{
    static const char *const odd[] = {"", "Causes", "cause", "causess", "NEVER", "nevers", "IF", "iff", "when", "if if",
        "causes causes", "never never", "#", "# if", "run", "causes", "if", "never", "caus\x80s", "triggers", "trigger", "Triggers",
        "triggerss", "causes triggers"};
    add(to, chance(dice, taste->shape) ? CHOOSE(dice, odd) : word);
}

/* `if` and a condition in `per_mille` of 1000 cases, or nothing, to the end of the line. */
static void add_option(struct buffer *to, struct dice *dice, const struct taste *taste, unsigned per_mille)
{
    if (chance(dice, per_mille)) {
        add_gap(to, dice, taste);
        add_keyword(to, dice, taste, "if");
        add_gap(to, dice, taste);
        add_condition(to, dice, taste);
    }
    add_edge(to, dice, taste);
}

/* The event that a rule triggers. */
static void add_triggered(struct buffer *to, struct dice *dice, const struct taste *taste)
{
    if (chance(dice, 50 + taste->shape + taste->range))
        add_name(to, dice, taste, 'E', taste->events + taste->triggered, EVENTS);
    else
        add_format(to, "E%u", taste->events + below(dice, taste->triggered));
}

static void add_rule(struct buffer *to, struct dice *dice, const struct taste *taste)
{
    bool triggers = chance(dice, taste->triggers);
    add_edge(to, dice, taste);
    add_list(to, dice, taste, true);
    add_gap(to, dice, taste);
    add_keyword(to, dice, taste, triggers ? "triggers" : "causes");
    add_gap(to, dice, taste);
    if (triggers)
        add_triggered(to, dice, taste);
    else
        add_name(to, dice, taste, 'A', taste->actions, ACTIONS);
    add_option(to, dice, taste, 400);
}

static void add_constraint(struct buffer *to, struct dice *dice, const struct taste *taste)
{
    add_edge(to, dice, taste);
    add_keyword(to, dice, taste, "never");
    add_gap(to, dice, taste);
    add_list(to, dice, taste, false);
    add_option(to, dice, taste, 600);
}

static void add_skipped(struct buffer *to, struct dice *dice, const struct taste *taste)
{
    unsigned i, byte;
    add_edge(to, dice, taste);
    if (chance(dice, 400))
        return;
    add(to, "#");
    for (i = below(dice, 30); i > 0; i--) {
        byte = below(dice, 256);
        add_byte(to, byte == '\n' ? 0 : byte);
    }
}

void add_lines(struct buffer *to, struct dice *dice, const struct taste *taste, unsigned rules, unsigned more_rules,
    unsigned constraints, unsigned more_constraints, bool closed)
{
    rules += below(dice, more_rules + 1);
    constraints += below(dice, more_constraints + 1);
    while (rules + constraints > 0) {
        if (chance(dice, 80)) {
            add_skipped(to, dice, taste);
        } else if (below(dice, rules + constraints) < rules) {
            add_rule(to, dice, taste);
            rules--;
        } else {
            add_constraint(to, dice, taste);
            constraints--;
        }
        if (rules + constraints > 0 || closed || chance(dice, 600))
            add(to, "\n");
    }
}

void spoil(struct taste *taste, struct dice *dice)
{
    unsigned rate = chance(dice, 500) ? 20 : 120;
    unsigned kinds = 1 + below(dice, 15);
    if (kinds & 1)
        taste->range = rate;
    if (kinds & 2)
        taste->crowd = rate * 2;
    if (kinds & 4)
        taste->repeat = rate * 2;
    if ((kinds & 8) && chance(dice, 600))
        taste->shape = rate / 8;
}

void damage(struct buffer *in, size_t from, struct dice *dice)
{
    static const char *const tokens[] = {
        "E1", "!E1", "A1", "R1", "E64", "A64", "R16", "&", ",", "causes", "triggers", "never", "if", "=", "!=", "<", "<=", ">",
        ">=", "0", "-1", "-0", "2147483648", "#", "!", "-", "run", "E1&E2", "E1 & E1", "A1 & A1", "R0=1", "\n", "\n\n",
        "\r\n", "\nrun\n", "# \n", "&\n", "\t", "0x1", "0x", "R0=0x8040", "R1=0xffffffff", "R0=0x", "R0=0x000000001"};
    static const uint8_t signs[] = "&!,=<>-#EARear019xXfFgG \n\r\t\0";
    static const char *const events[] = {"E0", "E1", "!E0", "!E1", "E63", "!E64", "E64", "E4294967296", "E1 & E1", "E01"};
    static const char *const actions[] = {"A0", "A1", "A63", "A64", "A18446744073709551616", "A1 & A1", "A1 & A2", "A00"};
    static const char *const readings[] = {"R0", "R1", "R15", "R16", "R4294967296", "0", "R01", "E1"};
    static const char *const constants[] = {"0", "-1", "R0", "R16", "2147483647", "2147483648", "-2147483648",
        "-2147483649", "-0", "0 , R0 = 0", "0 , R0 = 0 , R1 != 1 , R2 < 2 , R3 >= -3", "0x0", "0xFFFFFFFF", "0x80000000",
        "0x8040", "0x00000001", "0x000000001", "0x100000000", "0x", "0X1", "-0x1", "0x1G"};
    unsigned times = 1 + (chance(dice, 300) ? below(dice, 6) : 0);
    while (times-- > 0 && in->length > from) {
        size_t at = from + below(dice, (unsigned)(in->length - from)), end = at;
        uint8_t byte = chance(dice, 600) ? signs[below(dice, sizeof signs)] : (uint8_t)below(dice, 256);
        const char *token = CHOOSE(dice, tokens);
        uint8_t copy[200];
        size_t length;
        switch (below(dice, 12)) {
        case 0: in->bytes[at] = byte; break;
        case 1: splice(in, at, at, &byte, 1); break;
        case 2: splice(in, at, at + 1, "", 0); break;
        case 3:
            length = 1 + below(dice, 40);
            splice(in, at, at + length < in->length ? at + length : in->length, "", 0);
            break;
        default:
            while (at > from && in->bytes[at - 1] != ' ' && in->bytes[at - 1] != '\n')
                at--;
            while (end < in->length && in->bytes[end] != ' ' && in->bytes[end] != '\n')
                end++;
            length = end - at < sizeof copy ? end - at : sizeof copy;
            memcpy(copy, in->bytes + at, length);
            switch (below(dice, 6)) {
            case 0: splice(in, at, end, token, strlen(token)); break;
            case 1:
            case 2:
            case 3: /* another token of the same kind */
                if (length == 0)
                    break;
                if (copy[0] == 'E' || copy[0] == '!')
                    token = CHOOSE(dice, events);
                else if (copy[0] == 'A')
                    token = CHOOSE(dice, actions);
                else if (copy[0] == 'R')
                    token = CHOOSE(dice, readings);
                else if (copy[0] == '-' || (copy[0] >= '0' && copy[0] <= '9'))
                    token = CHOOSE(dice, constants);
                else if (!chance(dice, 100))
                    break;
                splice(in, at, end, token, strlen(token));
                break;
            case 4:
                splice(in, at, at, " ", 1);
                splice(in, at, at, copy, length);
                break;
            default: splice(in, at, end < in->length ? end + 1 : end, "", 0); break;
            }
            break;
        }
    }
}

/* Comments, blank lines and spaces, until the buffer has `length` bytes. */
static void pad(struct buffer *to, size_t length, struct dice *dice)
{
    while (to->length < length) {
        size_t rest = length - to->length;
        switch (below(dice, 3)) {
        case 0: add(to, "\n"); break;
        case 1: add(to, rest > 2 ? " \n" : "\n"); break;
        default:
            rest = rest < 3 ? 0 : 1 + below(dice, (unsigned)(rest - 2 < 3000 ? rest - 2 : 3000));
            if (rest > 0) {
                add(to, "#");
                while (--rest > 0)
                    add(to, ".");
            }
            add(to, "\n");
            break;
        }
    }
    to->length = length;
}

void add_text(struct buffer *to, struct dice *dice, unsigned kind, bool closed)
{
    static const long lengths[] = {
        32000, 32700, 32765, 32766, 32767, 32768, 32768, 32769, 32769, 32770, 33000, 65535, 65536, 65537, 100000};
    static const char *const tails[] = {
        "E1 causes A1", "never A1", "E64 causes A1", "never A64", "E1 & E1 causes A1", "never A1 & A1", "E1 causes",
        "E1 triggers E1", "E1 triggers E64", "E1 triggers A1", "E1 causes E1", "E1 & E1 triggers E2", "E1 triggers",
        "never", "never A1 & A2 & A3 & A4 & A5 & A6 & A7 & A8 & A1", "E1 & E1 & E64 causes A1",
        "never A1 & A1 if R0 = 0 , R0 = 0 , R0 = 0 , R0 = 0 , R0 = 0", "# E1 causes A1", ""};
    struct taste taste = make_taste(dice);
    size_t from = to->length;
    unsigned i;
    switch (kind) {
    case 0: add_lines(to, dice, &taste, 1, 5, 0, 4, closed); break;
    case 1: add_lines(to, dice, &taste, 0, RULES, 0, CONSTRAINTS, closed); break;
    case 2:
    case 3:
    case 4:
        spoil(&taste, dice);
        add_lines(to, dice, &taste, 1, 4, 0, 3, closed);
        break;
    case 5:
    case 6:
        add_lines(to, dice, &taste, 1, 3, 0, 2, closed);
        damage(to, from, dice);
        if (closed && to->length > from && to->bytes[to->length - 1] != '\n')
            add(to, "\n");
        break;
    case 7: /* about as many lines as there may be, then one more */
        add_lines(to, dice, &taste, RULES - 2, 2, CONSTRAINTS - 2, 2, true);
        for (i = below(dice, 4); i > 0; i--) {
            add(to, chance(dice, 600) ? tails[below(dice, 2)] : CHOOSE(dice, tails));
            add(to, "\n");
        }
        add(to, CHOOSE(dice, tails));
        if (closed || chance(dice, 500))
            add(to, "\n");
        break;
    case 8: /* about as many bytes as there may be */
        if (chance(dice, 300))
            spoil(&taste, dice);
        add_lines(to, dice, &taste, 1, 40, 0, 20, true);
        if (chance(dice, 150)) { /* one long list: crowd, repeat or neither */
            add(to, "E0");
            while (to->length - from < 32000)
                add(to, " & E1");
            add(to, chance(dice, 700) ? " causes A0\n" : " causes\n");
        }
        pad(to, from + (size_t)CHOOSE(dice, lengths), dice);
        if (!closed && chance(dice, 500))
            to->bytes[to->length - 1] = ' ';
        break;
    default: /* bytes */
        for (i = 1 + below(dice, 60); i > 0; i--)
            add_byte(to, chance(dice, 700) ? (unsigned)(uint8_t)"E A R & , ! causes never if 019 \n=<>-#"[below(dice, 38)]
                                           : below(dice, 256));
        if (closed)
            add(to, "\n");
        break;
    }
}

static bool is_digit(uint8_t byte)
{
    return byte >= '0' && byte <= '9';
}

/* Whether a constant begins at `at` of a text that was written. */
static bool at_constant(const uint8_t *text, size_t at)
{
    return at > 0 && text[at - 1] == ' ' && (is_digit(text[at]) || text[at] == '-');
}

/* A text that was written, with `share` of 1000 constants in hexadecimal. */
static void add_in_hexadecimal(struct buffer *to, const uint8_t *text, size_t length, struct dice *dice, unsigned share)
{
    size_t at = 0;
    while (at < length) {
        uint32_t word = 0;
        bool minus = text[at] == '-';
        if (!at_constant(text, at) || !chance(dice, share)) {
            add_byte(to, text[at++]);
            continue;
        }
        for (at += minus; at < length && is_digit(text[at]); at++)
            word = word * 10 + (uint32_t)(text[at] - '0');
        add_pattern(to, dice, minus ? 0 - word : word, 1 + below(dice, 8));
    }
}

void add_variant(struct buffer *to, const uint8_t *text, size_t length, struct dice *dice)
{
    struct taste taste = {.loose = chance(dice, 500) ? 300 : 0};
    struct buffer mixed = new_buffer();
    const uint8_t *line;
    size_t line_length, from = to->length, i, at[2] = {0, 0}, ends[2] = {0, 0}; /* rules and constraints */
    add_in_hexadecimal(&mixed, text, length, dice, below(dice, 3) * 500);
    while (ends[0] < mixed.length && mixed.bytes[ends[0]] != 'n')
        next_line(mixed.bytes, mixed.length, &ends[0], &line, &line_length);
    at[1] = ends[0];
    ends[1] = mixed.length;
    while (at[0] < ends[0] || at[1] < ends[1]) {
        unsigned part = at[0] == ends[0] ? 1 : at[1] == ends[1] ? 0 : below(dice, 2);
        if (chance(dice, 80)) {
            add_skipped(to, dice, &taste);
            add(to, "\n");
        }
        next_line(mixed.bytes, mixed.length, &at[part], &line, &line_length);
        add_edge(to, dice, &taste);
        for (i = 0; i < line_length; i++) {
            if (line[i] == ' ')
                add_gap(to, dice, &taste);
            else
                add_byte(to, line[i]);
        }
        add_edge(to, dice, &taste);
        add(to, "\n");
    }
    if (to->length > from && chance(dice, 300))
        to->length--;
    free(mixed.bytes);
}

void add_dump(struct buffer *to, const uint8_t *image, size_t length)
{
    size_t i;
    for (i = 0; i < length / WORD_BYTES; i++)
        add_format(to, "%08lX\n", (unsigned long)word_at(image, i));
}

static void add_reading(struct buffer *to, struct dice *dice, const struct taste *taste, unsigned number)
{
    add_byte(to, 'R');
    if (chance(dice, taste->range))
        add_index(to, dice, taste, READINGS, READINGS);
    else
        add_number(to, (long)number);
    add(to, "=");
    add_constant(to, dice, taste);
}

void add_epoch(struct buffer *to, struct dice *dice, const struct taste *taste)
{
    static const char *const odd[] = {
        "#", "# E1", "run", "!E1", "A1", "E", "R1", "R1=", "=1", "E1=1", "R0 = 1", "R0= 1", "R0 =1", "E1,E2", "e1",
        "r0=1", "R0==1", "R0=1=1", "R0>1", "R0=R1", "R=1", "E01", "R00=1", "R0=01", "R0=-0", "R0=+1", "R0=--1", "E1\r",
        "\r", "\t", "E1\tE2", "\x80", "\xFF", "R0=1\x0B", "E-1", "R-1=1", "R01=1", "&", ",", "-", "E1&E2", "never A1",
        "E0x1", "R0x0=1", "R0=0x", "R0=0X1", "R0=-0x1", "R0=0x1G", "R0=0x 1", "R0=0x123456789g", "R0=0x1=1"};
    static const size_t lengths[] = {1022, 1023, 1024, 1024, 1025, 1025, 1026, 1100, 2048, 5000, 70000};
    uint64_t given = 0;
    size_t from = to->length, i;
    unsigned kind = below(dice, 100), count, number;
    if (kind < 4)
        return;
    add_edge(to, dice, taste);
    if (kind < 6) { /* bytes */
        for (i = 1 + below(dice, 20); i > 0; i--) {
            number = below(dice, 256);
            add_byte(to, number == '\n' ? 0 : number);
        }
        return;
    }
    for (count = below(dice, 3 + taste->events / 2 + taste->readings); count > 0; count--) {
        if (to->length > from)
            add_gap(to, dice, taste);
        if (chance(dice, taste->shape)) {
            add(to, CHOOSE(dice, odd));
        } else if (chance(dice, 550)) {
            add_byte(to, 'E');
            add_index(to, dice, taste, taste->events + (chance(dice, 10) ? taste->triggered : 0), EVENTS);
        } else {
            number = below(dice, taste->readings);
            if (in_set(given, number) && !chance(dice, taste->repeat))
                continue;
            given |= UINT64_C(1) << number;
            add_reading(to, dice, taste, number);
        }
    }
    if (chance(dice, 200)) /* every reading is given */
        for (number = 0; number < READINGS; number++)
            if (!in_set(given, number)) {
                add_gap(to, dice, taste);
                add_reading(to, dice, taste, number);
            }
    add_edge(to, dice, taste);
    if (chance(dice, 20)) { /* about as long as it may be */
        size_t length = from + CHOOSE(dice, lengths);
        bool events = chance(dice, 500);
        while (to->length < length)
            add(to, events ? " E1" : " ");
        to->length = length;
        if (to->bytes[length - 1] == 'E')
            to->bytes[length - 1] = ' ';
    }
}

/* One to `most` distinct numbers under `limit`, joined by `&`; `negated` of 1000 have `!` before them. */
static void add_distinct(struct buffer *to, struct dice *dice, const char *letter, unsigned limit, unsigned most, unsigned negated)
{
    unsigned count = 1 + below(dice, most < limit ? most : limit), i, number;
    uint64_t seen = 0;
    for (i = 0; i < count; i++) {
        do
            number = below(dice, limit);
        while (in_set(seen, number));
        seen |= UINT64_C(1) << number;
        add_format(to, "%s%s%s%u", i == 0 ? "" : " & ", chance(dice, negated) ? "!" : "", letter, number);
    }
}

static void add_brief_option(struct buffer *to, struct dice *dice)
{
    if (chance(dice, 250))
        add_format(to, " if R%u %s %d", below(dice, 2), CHOOSE(dice, relation_names), (int)below(dice, 5) - 2);
    add(to, "\n");
}

void add_clashing_text(struct buffer *to, struct dice *dice, unsigned events, unsigned triggered)
{
    static const unsigned shares[] = {0, 200, 200, 500, 1000};
    unsigned negated = CHOOSE(dice, shares), actions = events < 16 ? 2 + below(dice, 7) : ACTIONS;
    unsigned rules = events + below(dice, events + 1), constraints = 1 + below(dice, events), i;
    for (i = 0; i < rules; i++) {
        add_distinct(to, dice, "E", events, chance(dice, 700) ? 2 : 4, negated);
        if (triggered > 0 && chance(dice, 300))
            add_format(to, " triggers E%u", events - 1 - below(dice, triggered));
        else
            add_format(to, " causes A%u", below(dice, actions));
        add_brief_option(to, dice);
    }
    for (i = 0; i < constraints; i++) {
        add(to, "never ");
        add_distinct(to, dice, "A", actions, 3, 0);
        add_brief_option(to, dice);
    }
}

void add_clashing_epoch(struct buffer *to, struct dice *dice, unsigned events)
{
    unsigned share = 500 + 250 * below(dice, 3), first = below(dice, events), i;
    for (i = 0; i < events; i++)
        if (chance(dice, share))
            add_format(to, "E%u ", (first + i) % events);
    for (i = 0; i < 2; i++)
        if (chance(dice, 700))
            add_format(to, "R%u=%d ", i, (int)below(dice, 5) - 2);
}

/* A text with clashes, or with lines of any kind, that is accepted. The events that its epochs are about are returned, 0 if any. */
static unsigned add_good_text(struct buffer *to, struct dice *dice, const struct taste *taste, bool large)
{
    unsigned events = large ? EVENTS : 2 + below(dice, 9), triggered = taste->triggers > 0 ? 1 + below(dice, events / 2) : 0;
    if (chance(dice, 300)) {
        add_clashing_text(to, dice, events, triggered);
        return events - triggered;
    }
    if (large)
        add_lines(to, dice, taste, 60, RULES - 60, 0, CONSTRAINTS, true);
    else
        add_lines(to, dice, taste, 2, 14, 0, 8, true);
    return 0;
}

void add_engine_input(struct buffer *to, struct dice *dice, unsigned kind)
{
    static const char *const near[] = {"run ", " run", "run\r", "RUN", "runs", "run run", "r", "ru", "\nrun", "#run", "# run",
        "run events ", " run events", "run  events", "run events\r", "Run events", "RUN EVENTS", "run Events", "run event",
        "run eventss", "run\tevents", "run,events", "run events run", "runevents", "events", "# run events"};
    struct taste taste = make_taste(dice);
    unsigned count, clashing = 0;
    if (kind < 10) { /* a text that is accepted, and any epochs */
        taste.shape = taste.range = taste.crowd = taste.repeat = 0;
        taste.limits = chance(dice, 300) ? 500 : 20;
        clashing = add_good_text(to, dice, &taste, kind >= 8);
    } else { /* any text */
        add_text(to, dice, below(dice, 10), true);
    }
    if (chance(dice, 30)) {
        add(to, CHOOSE(dice, near));
        add(to, "\n");
    }
    if (chance(dice, 40)) {
        if (chance(dice, 500))
            add(to, chance(dice, 500) ? "run" : "run events");
        return;
    }
    add(to, chance(dice, 500) ? "run\n" : "run events\n");
    if (chance(dice, 400)) {
        taste.range = chance(dice, 500) ? 40 : 0;
        taste.repeat = chance(dice, 500) ? 150 : 0;
        taste.shape = chance(dice, 500) ? 25 : 0;
    }
    count = chance(dice, 20) ? 300 + below(dice, 900) : below(dice, 20);
    while (count-- > 0) {
        if (chance(dice, 8))
            add(to, chance(dice, 500) ? "run" : "run events");
        else if (clashing > 0 && chance(dice, 800))
            add_clashing_epoch(to, dice, clashing + (clashing < EVENTS && chance(dice, 30)));
        else
            add_epoch(to, dice, &taste);
        if (count > 0 || chance(dice, 600))
            add(to, "\n");
    }
}

/* Two texts, and questions */

/* Takes away the line end of the last line, or not. */
static void open_last(struct buffer *text, struct dice *dice)
{
    if (text->length > 0 && text->bytes[text->length - 1] == '\n' && chance(dice, 300))
        text->length--;
}

void split_text(const uint8_t *text, size_t length, struct dice *dice, struct buffer *maker, struct buffer *site)
{
    static const unsigned shares[] = {0, 100, 500, 500, 900, 1000}; /* of the maker, of 1000 lines */
    unsigned share = CHOOSE(dice, shares);
    size_t from = 0, at = 0, line_length, cut = below(dice, (unsigned)length + 1);
    bool cuts = chance(dice, 400);
    const uint8_t *line;
    while (next_line(text, length, &at, &line, &line_length)) {
        bool makers = cuts ? from < cut : chance(dice, share);
        add_bytes(makers ? maker : site, line, at - from);
        from = at;
    }
    open_last(maker, dice);
    open_last(site, dice);
}

void add_texts(struct buffer *maker, struct buffer *site, struct dice *dice, unsigned kind)
{
    enum { GOOD = 0, MANY_LINES = 7, MANY_BYTES = 8 }; /* the last two about as large as they may be */
    unsigned first = below(dice, 10), second = below(dice, 10);
    struct buffer text;
    if (kind < 5) {
        text = new_buffer();
        add_text(&text, dice, kind == 0 ? MANY_LINES : first, false);
        split_text(text.bytes, text.length, dice, maker, site);
        free(text.bytes);
        return;
    }
    switch (kind) {
    case 5: first = MANY_LINES; break;
    case 6: first = MANY_BYTES; break;
    case 7:
        first = GOOD;
        second = MANY_BYTES;
        break;
    default: break;
    }
    add_text(maker, dice, first, false);
    add_text(site, dice, second, false);
}

/* What stands behind the action of a question. */
static void add_pending(struct buffer *to, event_set pending)
{
    unsigned event;
    for (event = 0; event < EVENTS; event++)
        if (in_set(pending, event))
            add_format(to, ",E%u", event);
}

void add_every_question(struct buffer *to, event_set pending, const uint8_t *line, size_t length)
{
    unsigned action;
    for (action = 0; action < ACTIONS; action++) {
        add_format(to, "A%u", action);
        add_pending(to, pending);
        add(to, " ");
        add_bytes(to, line, length);
        add(to, "\n");
    }
}

/* Events of small numbers mostly, as those that the texts are about. */
static event_set few_events(struct dice *dice)
{
    event_set set = 0;
    unsigned count = below(dice, 4);
    while (count-- > 0)
        set |= UINT64_C(1) << below(dice, chance(dice, 900) ? 12 : EVENTS);
    return set;
}

/* Pending events, or something like that. */
static void add_some_pending(struct buffer *to, struct dice *dice)
{
    static const char *const odd[] = {",", ",E", ",A1", ",,E1", ", E1", ",e1", ",E01", ",!E1", ",E1,", ",E1\t", ",E1,E2,E", ",R1", ",E-1",
        ",E1 ,E2", ";E1", ",E1&E2", ",E1\xB1", ",\xC5" "1", ",E0x1", ",E1=1", "E1", ",E1.", ",E1A1"};
    static const char *const outside[] = {",E64", ",E65", ",E1,E64", ",E64,E1", ",E64,E", ",E100", ",E128", ",E256", ",E257", ",E65537",
        ",E4294967297", ",E18446744073709551617", ",E340282366920938463463374607431768211457"};
    if (chance(dice, 60))
        add(to, CHOOSE(dice, odd));
    else if (chance(dice, 60))
        add(to, CHOOSE(dice, outside));
    else if (chance(dice, 60)) /* twice, and not by rising number */
        add(to, ",E3,E1,E3,E3");
    else
        add_pending(to, few_events(dice));
}

/* A question, or something like one. */
static void add_question(struct buffer *to, struct dice *dice, const uint8_t *line, size_t length)
{
    static const char *const odd[] = {"", "A", "a1", "A01", "A00", "1", "E1", " A1", "A-1", "A1x", "A1,", "!A1", "A1\t", "A1\r",
        "A0x1", "AA1", "\xC1", "A\xB1", "A1E1", "#", "run", "A1 A1"};
    static const char *const outside[] = {"64", "65", "68", "100", "127", "128", "255", "256", "260", "65536", "4294967295",
        "4294967296", "4294967300", "18446744073709551615", "18446744073709551616", "18446744073709551620",
        "340282366920938463463374607431768211460", "99999999999999999999999999999999999999999999"};
    size_t from = to->length;
    if (chance(dice, 100))
        add(to, CHOOSE(dice, odd));
    else if (chance(dice, 100))
        add_format(to, "A%s", CHOOSE(dice, outside));
    else
        add_format(to, "A%u", below(dice, chance(dice, 900) ? 6 : ACTIONS));
    if (chance(dice, 300))
        add_some_pending(to, dice);
    if (chance(dice, 950)) {
        add(to, " ");
        add_bytes(to, line, length);
    }
    if (chance(dice, 80))
        damage(to, from, dice);
    add(to, "\n");
}

void add_questions(struct buffer *to, struct dice *dice, const uint8_t *lines, size_t length)
{
    const uint8_t *line;
    size_t at = 0, line_length;
    unsigned number = 0, chosen = below(dice, 3), i;
    while (to->length < 100000 && next_line(lines, length, &at, &line, &line_length)) {
        if (number++ == chosen && line_length <= EPOCH_BYTES)
            add_every_question(to, few_events(dice), line, line_length);
        for (i = line_length > 2 * EPOCH_BYTES ? 1 : below(dice, 12); i > 0; i--)
            add_question(to, dice, line, line_length);
    }
    open_last(to, dice);
}

void add_explain_input(
    struct buffer *maker, struct buffer *site, struct buffer *questions, struct dice *dice, unsigned kind)
{
    struct buffer input = new_buffer();
    size_t text_length, at;
    enum mode mode;
    add_engine_input(&input, dice, kind);
    find_run(input.bytes, input.length, &text_length, &at, &mode);
    if (kind < 10)
        split_text(input.bytes, text_length, dice, maker, site);
    else
        add_texts(maker, site, dice, below(dice, 10));
    add_questions(questions, dice, input.bytes + at, input.length - at);
    free(input.bytes);
}

/* Texts at the limits */

static const char largest_condition[] = "if R0 = 7 , R1 != -2147483648 , R2 < 2147483647 , R3 >= -1\n",
                  largest_readings[] = "R0=7 R1=0 R2=0 R3=0";

/* Rule `i` of the largest texts, with 17 words. */
static void add_largest_rule(struct buffer *to, unsigned i)
{
    unsigned k;
    for (k = 0; k < LITERALS; k++)
        add_format(to, "%sE%u%s", k % 2 == 0 ? "" : "!", (i + k) % 32 + 32 * (k % 2),
            k < LITERALS - 1 ? " & " : " causes ");
    add_format(to, "A%u %s", i * 5 % ACTIONS, largest_condition);
}

void add_largest(struct buffer *to)
{
    unsigned i, k;
    for (i = 0; i < RULES; i++) {
        add_largest_rule(to, i);
        if (i % 2 == 1) {
            for (k = 0; k < MEMBERS; k++)
                add_format(to, "%s A%u ", k == 0 ? "never" : "&", (i / 2 + 3 * k) % ACTIONS);
            add(to, largest_condition);
        }
    }
}

/* Constraints that fail at their last comparison. */
static void add_late_constraints(struct buffer *to)
{
    add_times(to,
        "never A0 & A1 & A2 & A3 & A4 & A5 & A6 & A7 if R0 = 7 , R1 != -2147483648 , R2 < 2147483647 , R3 < -1\n",
        CONSTRAINTS);
}

void add_most_visited(struct buffer *to)
{
    unsigned i;
    for (i = 0; i < RULES; i++)
        add_largest_rule(to, i);
    add_late_constraints(to);
}

void add_most_tried(struct buffer *to)
{
    unsigned i;
    for (i = 0; i < RULES; i++)
        add_format(to, "E0 & E1 & E2 & E3 & E4 & E5 & E6 & E7 causes A%u %s", i % ACTIONS, largest_condition);
    add_late_constraints(to);
}

void add_epoch_of_most_tried(struct buffer *to)
{
    add_events(to, 0, EVENTS);
    add(to, largest_readings);
}

void add_epoch_of_largest(struct buffer *to)
{
    add_events(to, 0, 32);
    add(to, largest_readings);
}

void add_epochs_of_largest(struct buffer *to)
{
    add_epoch_of_largest(to);
    add(to, "\n\nE1 E3 R0=7\n");
    add_events(to, 0, 31);
    add(to, "E31\n");
    add_events(to, 1, 31);
    add(to, "R0=7 R1=1 R3=-1 R2=-5\n");
}

void add_largest_input(struct buffer *to)
{
    add_largest(to);
    add(to, "run\n");
    add_epochs_of_largest(to);
}

void add_widest(struct buffer *to, uint64_t form)
{
    static const char condition[] =
        " if R10 >= -2147483648 , R11 <= -2147483647 , R12 != -1000000000 , R15 >= -2000000000\n";
    unsigned i, k;
    for (i = 0; i < RULES + CONSTRAINTS; i++) {
        add(to, i < RULES ? "" : "never ");
        for (k = 0; k < 8; k++) /* of the 54 numbers with two digits */
            add_format(to, "%s%s%u", k == 0 ? "" : " & ", i < RULES ? "!E" : "A", 10 + (i + 7 * k) % 54);
        if (i < RULES)
            add_format(to, form < TRIGGER_FORM ? " causes A%u" : " triggers E%u", 10 + i % 54);
        add(to, condition);
    }
}

void add_longest_line(struct buffer *to)
{
    size_t from = to->length;
    add(to, "E0");
    while (to->length - from + 15 < TEXT_BYTES)
        add(to, " & E0");
    add(to, " causes A0");
}

void add_most_lines(struct buffer *to)
{
    add_times(to, "\n", TEXT_BYTES - 1);
    add(to, "E");
}

const char *const faulty_lines[FAULTY_LINES] = {"E0 causes", "E64 causes A0",
    "E0 & E1 & E2 & E3 & E4 & E5 & E6 & E7 & E8 causes A0", "E0 & !E0 causes A0"};

void add_length(struct buffer *to, size_t length, bool closed)
{
    size_t from = to->length;
    add(to, "E1 causes A3\n#");
    while (to->length - from < length - 1)
        add(to, ".");
    add(to, closed ? "\n" : ".");
}
