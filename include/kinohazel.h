/* Kinohazel for C and C++: compile a rule text to an image, check an image, write its text, decide an epoch on it in either mode, alone
 * or with what the epoch before has triggered, and say why an action is issued or not.
 *
 * The header is for C99, C++11 and later. It is for three libraries, of which each is linked alone or with the others: libkinohazel.a
 * for a controller and whatever compiles for it, libkinohazel_events.a with kinohazel_decide_events and kinohazel_step_events, for a
 * controller that cancels events, and libkinohazel_tools.a with kinohazel_explain, for a programming station or a fitter's panel. `rt lib`
 * in the folders crates/kinohazel, crates/kinohazel_events and crates/kinohazel_tools builds each as out/libNAME.a there. They are for
 * the level v2 of x86-64 (SSE4.2 and POPCNT: processors since about 2009) with the System V calling convention, as Linux has it, and use
 * the red zone and the SSE registers of that convention. On an older processor a call may end by an illegal instruction. They need
 * nothing of the C library, but for memset in libkinohazel.a and libkinohazel_tools.a.
 *
 * No function keeps anything of its own, allocates memory or needs a start-up call, and each ends for every input. What is remembered
 * from one epoch to the next stands in a `struct kinohazel_state` of the caller.
 *
 * The caller lends areas of bytes for the time of a call, each as a pointer and a length: `text`, `maker`, `site`, `image`, `line`
 * and `out`. A function reads only the bytes it is lent, and writes only to `out` and to `state`. The caller must see to this:
 *
 *   - `out` overlaps no other area of the call, nor does the `state`. The others may overlap or be the same, since they are only read.
 *   - Nobody else changes an area or the state during the call, or reads `out` or the state.
 *   - No pointer is null where its length is over 0. That is the caller's fault, and no function looks for it. Where its length
 *     is 0, a pointer may be null. The pointer to a state is never null.
 *
 * Calls from several threads at once are safe as long as the `out` of none overlaps an area of another, and no two have the same state:
 * threads that share a state take a lock for the whole call.
 */
#ifndef KINOHAZEL_H
#define KINOHAZEL_H

#include <stddef.h>
#include <stdint.h>

#ifdef __cplusplus
extern "C" {
#endif

#define KINOHAZEL_VERSION_MAJOR 5
#define KINOHAZEL_VERSION_MINOR 0
#define KINOHAZEL_VERSION_PATCH 0
#define KINOHAZEL_VERSION "5.0.0"

/* The forms of an image are 1 to 5; its first byte says which it has. In all of them the last word brings the sum of all words to 0,
 * which misses words that a writer exchanged. From form 2 on there is a weighted word before the last: each word before it, times its
 * index plus 1, summed modulo 2 to the power of 32. Two words before it that differ, stand next to each other and were exchanged are
 * noticed: refused under 16, or under 8 if the first of them was word 0.
 *
 * From form 3 on a line may trigger an event: `E1 & E2 triggers E60 if R0 > 5`. In a text that is compiled to form 1 or 2 such a line
 * has neither shape (2). Forms 4 and 5 mean what form 3 means, and are known for engines to come; whoever compiles names form 3.
 *
 * All functions that take an image read all forms. Engines before version 5 know forms 1 and 2, those before version 4 form 1 alone:
 * they refuse an image in another form under 8, or under 7 if it has too many bytes for them. For them compile in a form that they
 * know, which gives the same image as those versions, byte for byte. */
#define KINOHAZEL_NEWEST_FORM 3

/* Limits. A buffer of KINOHAZEL_IMAGE_LIMIT bytes has room for every image of any form, one of KINOHAZEL_WRITTEN_TEXT_LIMIT bytes
 * for the text of every image. */
#define KINOHAZEL_TEXT_LIMIT 32768   /* bytes of a rule text */
#define KINOHAZEL_EPOCH_LIMIT 1024   /* bytes of an epoch line, without its line end */
#define KINOHAZEL_IMAGE_LIMIT 13068  /* bytes of an image; in form 1 at most 13,064 */
#define KINOHAZEL_WRITTEN_TEXT_LIMIT 28224 /* bytes of the text of an image: 128 rules of 152, 64 never lines of 137 */
#define KINOHAZEL_RULE_LIMIT 128
#define KINOHAZEL_CONSTRAINT_LIMIT 64 /* never lines */

/* Bytes of stack that a call takes at most, rounded up. They are measured, not proved: tests/library/stack.c makes some thousand
 * calls through this header, compiled without optimisation, on painted stacks, with the largest inputs and with others. They belong
 * to the libraries as the kit builds them. */
#define KINOHAZEL_COMPILE_STACK 1024
#define KINOHAZEL_COMPILE_TEXTS_STACK 1024
#define KINOHAZEL_CHECK_STACK 384
#define KINOHAZEL_TEXT_STACK 1024
#define KINOHAZEL_DECIDE_STACK 1408
#define KINOHAZEL_DECIDE_EVENTS_STACK 640
#define KINOHAZEL_STEP_STACK 1472
#define KINOHAZEL_STEP_EVENTS_STACK 704
#define KINOHAZEL_EXPLAIN_STACK 15360 /* it has an image */

/* Why something is refused. The words for each stand in kinohazel_fault_words. */
enum kinohazel_fault {
    KINOHAZEL_OK = 0,
    KINOHAZEL_TOO_LONG = 1,
    KINOHAZEL_SYNTAX = 2,
    KINOHAZEL_OUT_OF_RANGE = 3,
    KINOHAZEL_TOO_MANY_PARTS = 4,
    KINOHAZEL_TOO_MANY_LINES = 5,
    KINOHAZEL_DUPLICATE = 6,
    KINOHAZEL_IMAGE_SIZE = 7,
    KINOHAZEL_IMAGE_FORM = 8,
    KINOHAZEL_IMAGE_COUNT = 9,
    KINOHAZEL_IMAGE_SUM = 10,
    KINOHAZEL_IMAGE_BODY = 11,
    KINOHAZEL_EPOCH_SYNTAX = 12,
    KINOHAZEL_EPOCH_RANGE = 13,
    KINOHAZEL_DUPLICATE_READING = 14,
    KINOHAZEL_BUFFER_TOO_SMALL = 15,
    KINOHAZEL_IMAGE_WEIGHTED_SUM = 16, /* looked for behind 10 and before 11; not in form 1 */
    KINOHAZEL_UNAVOIDABLE = 17,
    KINOHAZEL_RESERVED_EVENT = 18 /* looked for behind 14 and before 17 */
};

/* The words for a fault, or "unknown fault" for a number that no fault has. */
static inline const char *kinohazel_fault_words(uint64_t fault)
{
    switch (fault) {
    case KINOHAZEL_OK: return "no fault";
    case KINOHAZEL_TOO_LONG: return "rule text or epoch line over its length";
    case KINOHAZEL_SYNTAX: return "text line of neither shape";
    case KINOHAZEL_OUT_OF_RANGE: return "number in a text line out of range";
    case KINOHAZEL_TOO_MANY_PARTS: return "over eight events or actions, or over four comparisons";
    case KINOHAZEL_TOO_MANY_LINES: return "the 129th rule or the 65th never line";
    case KINOHAZEL_DUPLICATE: return "an event twice in a rule, or an action twice in a never line";
    case KINOHAZEL_IMAGE_SIZE: return "image too short, too long, or not whole words";
    case KINOHAZEL_IMAGE_FORM: return "form of an image, or asked for it, not known";
    case KINOHAZEL_IMAGE_COUNT: return "counts of the image do not fit it";
    case KINOHAZEL_IMAGE_SUM: return "words of the image do not add up to 0";
    case KINOHAZEL_IMAGE_BODY: return "no accepted text compiles to the image";
    case KINOHAZEL_EPOCH_SYNTAX: return "part of an epoch line of neither shape";
    case KINOHAZEL_EPOCH_RANGE: return "number in an epoch line, or of the action asked about, out of range";
    case KINOHAZEL_DUPLICATE_READING: return "a reading given twice";
    case KINOHAZEL_BUFFER_TOO_SMALL: return "buffer lent for an image or a text has too few bytes";
    case KINOHAZEL_IMAGE_WEIGHTED_SUM: return "weighted word of the image does not fit the words before it";
    case KINOHAZEL_UNAVOIDABLE: return "a never line holds even with every event dropped";
    case KINOHAZEL_RESERVED_EVENT: return "an event named that some line triggers";
    default: return "unknown fault";
    }
}

struct kinohazel_compilation {
    uint64_t fault; /* enum kinohazel_fault */
    uint64_t line;  /* the line at fault, counted from 1, for 2 to 6; otherwise 0 */
    uint64_t size;  /* bytes of the image; 0 on a refusal */
};

/* For two texts that are compiled as one. */
struct kinohazel_texts_compilation {
    uint64_t fault; /* enum kinohazel_fault */
    uint64_t text;  /* the text at fault for 1 to 6: 1 the maker's, 2 the site's; otherwise 0 */
    uint64_t line;  /* the line of that text, counted from 1, for 2 to 6; otherwise 0 */
    uint64_t size;  /* bytes of the image; 0 on a refusal */
};

struct kinohazel_image_check {
    uint64_t fault;       /* enum kinohazel_fault */
    uint64_t word;        /* the index of the word at fault for 11; otherwise 0 */
    uint64_t rules;       /* 0 on a refusal */
    uint64_t constraints; /* never lines; 0 on a refusal */
};

struct kinohazel_text_written {
    uint64_t fault; /* enum kinohazel_fault */
    uint64_t word;  /* the index of the word at fault for 11; otherwise 0 */
    uint64_t size;  /* bytes of the text; 0 on a refusal */
};

struct kinohazel_decision {
    uint64_t fault;     /* enum kinohazel_fault */
    uint64_t word;      /* the index of the word at fault for 11; otherwise 0 */
    uint64_t accepted;  /* action n is bit n; 0 on a refusal */
    uint64_t cancelled; /* likewise */
    uint64_t triggered; /* event n is bit n: those that occur in the next accepted epoch; 0 on a refusal */
    uint64_t visited;   /* words of the image that were fetched; 0 on a refusal */
};

/* What is remembered from one epoch to the next. Before the first epoch it is KINOHAZEL_STATE_START; then only kinohazel_step and
 * kinohazel_step_events write it. */
struct kinohazel_state {
    uint64_t pending; /* event n is bit n: those that the last accepted epoch triggered */
};

#define KINOHAZEL_STATE_START {0}

/* What becomes of an action in an epoch. */
enum kinohazel_outcome {
    KINOHAZEL_NONE = 0, /* refused */
    KINOHAZEL_NOT_PROPOSED = 1,
    KINOHAZEL_ACCEPTED = 2,
    KINOHAZEL_CANCELLED = 3
};

struct kinohazel_explanation {
    uint64_t fault;       /* enum kinohazel_fault */
    uint64_t text;        /* the text at fault: 1 the maker's, 2 the site's; otherwise 0, as for a line or an action at fault */
    uint64_t line;        /* the line of that text, counted from 1, for 2 to 6; otherwise 0 */
    uint64_t outcome;     /* enum kinohazel_outcome */
    uint64_t part_text;   /* the text with the line that says why: 1 the maker's, 2 the site's, 0 if there is none */
    uint64_t part_start;  /* from which byte of that text, counted from 0 */
    uint64_t part_length; /* bytes */
};

/* The functions as the libraries export them, for callers from other languages. Here no pointer is null, even where its length
 * is 0. The last is in libkinohazel_tools.a, the two before it are in libkinohazel_events.a. */
struct kinohazel_compilation kinohazel_compile_nonnull(
    uint64_t form, const uint8_t *text, size_t text_length, uint8_t *out, size_t out_length);
struct kinohazel_texts_compilation kinohazel_compile_texts_nonnull(uint64_t form, const uint8_t *maker, size_t maker_length,
    const uint8_t *site, size_t site_length, uint8_t *out, size_t out_length);
struct kinohazel_image_check kinohazel_check_nonnull(const uint8_t *image, size_t image_length);
struct kinohazel_text_written kinohazel_text_nonnull(
    const uint8_t *image, size_t image_length, uint8_t *out, size_t out_length);
struct kinohazel_decision kinohazel_decide_nonnull(
    const uint8_t *image, size_t image_length, uint64_t pending, const uint8_t *line, size_t line_length);
struct kinohazel_decision kinohazel_step_nonnull(
    const uint8_t *image, size_t image_length, struct kinohazel_state *state, const uint8_t *line, size_t line_length);
struct kinohazel_decision kinohazel_decide_events_nonnull(
    const uint8_t *image, size_t image_length, uint64_t pending, const uint8_t *line, size_t line_length);
struct kinohazel_decision kinohazel_step_events_nonnull(
    const uint8_t *image, size_t image_length, struct kinohazel_state *state, const uint8_t *line, size_t line_length);
struct kinohazel_explanation kinohazel_explain_nonnull(const uint8_t *maker, size_t maker_length, const uint8_t *site,
    size_t site_length, uint64_t pending, const uint8_t *line, size_t line_length, uint64_t action);

/* For the functions below: the area, or `none` in place of a null pointer with length 0. */
static inline const uint8_t *kinohazel_lent(const uint8_t *area, size_t length, const uint8_t *none)
{
    return area == NULL && length == 0 ? none : area;
}

static inline uint8_t *kinohazel_lent_out(uint8_t *area, size_t length, uint8_t *none)
{
    return area == NULL && length == 0 ? none : area;
}

/* Compiles a rule text to an image in a form: KINOHAZEL_NEWEST_FORM, or 1 or 2 for an older engine. On success the image
 * stands at the start of `out` and what lies behind it is unchanged. On a refusal `out` is unchanged. A form that is not known, as 0, 6
 * and every number over 255, is refused under 8 before the text is looked at, with no line.
 *
 * A constant is a decimal number, as 40 or -1, or a word of 32 bits in two's complement: `0x` and one to eight hexadecimal digits of
 * either case, leading zeros among them. 0x8040 is 32832, 0xFFFFFFFF is -1 and 0x80000000 is -2147483648. More than eight digits are
 * out of range (3), and `0x` without a digit is no constant (2). */
static inline struct kinohazel_compilation kinohazel_compile(
    uint64_t form, const uint8_t *text, size_t text_length, uint8_t *out, size_t out_length)
{
    uint8_t none = 0;
    return kinohazel_compile_nonnull(form, kinohazel_lent(text, text_length, &none), text_length,
        kinohazel_lent_out(out, out_length, &none), out_length);
}

/* Compiles two rule texts as one: the maker's text and the lines that a site adds to it. The image has the maker's rules, then the
 * site's, then the maker's never lines, then the site's. Otherwise it is as kinohazel_compile, which compiles a text as the maker's
 * with an empty one of the site.
 *
 * Each text has its own limit of KINOHAZEL_TEXT_LIMIT bytes. The limits of 128 rules and 64 never lines are for both together, so the
 * 129th rule (5) may stand in either. A text begins a line of its own, even where the last line of the maker's text lacks its line
 * end. The faults of the maker's text come before those of the site's, and the lines of each are counted from 1. */
static inline struct kinohazel_texts_compilation kinohazel_compile_texts(uint64_t form, const uint8_t *maker, size_t maker_length,
    const uint8_t *site, size_t site_length, uint8_t *out, size_t out_length)
{
    uint8_t none = 0;
    return kinohazel_compile_texts_nonnull(form, kinohazel_lent(maker, maker_length, &none), maker_length,
        kinohazel_lent(site, site_length, &none), site_length, kinohazel_lent_out(out, out_length, &none), out_length);
}

/* Checks an image of any form: every word of it. */
static inline struct kinohazel_image_check kinohazel_check(const uint8_t *image, size_t image_length)
{
    uint8_t none = 0;
    return kinohazel_check_nonnull(kinohazel_lent(image, image_length, &none), image_length);
}

/* Writes the rule text of an image: its rules, then its never lines, each on a line that ends with byte 10, with one space between
 * tokens and decimal constants. It compiles to the image again in the form of the image, which is `image[0]`: the text of an image of
 * form 1 by kinohazel_compile in form 1. On success the text stands at the start of `out` and what lies behind it is unchanged; no byte
 * 0 is put behind it. On a refusal `out` is unchanged. The whole image is checked first. */
static inline struct kinohazel_text_written kinohazel_text(
    const uint8_t *image, size_t image_length, uint8_t *out, size_t out_length)
{
    uint8_t none = 0;
    return kinohazel_text_nonnull(kinohazel_lent(image, image_length, &none), image_length,
        kinohazel_lent_out(out, out_length, &none), out_length);
}

/* Decides an epoch line, such as `E1 E3 R0=41` with no line end, on an image. `pending` has the events that the epoch before triggered,
 * event n as bit n: they are among this epoch's events, beside those that the line names. It is 0 where nothing is remembered, and any
 * set may be handed in; kinohazel_step keeps it for a caller that decides one epoch after the other. A line that names an event which
 * some line of the text triggers is refused (18), whether the event is pending or not: only the rules make it occur.
 *
 * `triggered` has the events that are triggered by the rules that hold. A cancelled action stops none of them.
 *
 * The whole image is checked each time. A reading that the line does not give is missing, which is not 0: a comparison that names it
 * does not hold in a rule and holds in a never line. So leave out the reading of a sensor that is dead, and give 0 only where 0 was
 * measured.
 *
 * A value is a constant as in a rule text, so the status word of a drive can be given as its manual prints it: `R3=0x8040`. More than
 * eight hexadecimal digits are out of range (13), and `0x` without a digit is no value (12).
 *
 * `visited` is how many words of the image the decision fetched: rule words, and never words anew in each trial of a proposed action,
 * constants with their operation. Words that are passed over do not count, nor does the check of the image, nor the search for what its
 * lines trigger. It is at most P + 64 * N, where P and N are the rule words and never words of the image, which in any form are
 * `image[1] << 4 | image[2] >> 4` and `(image[2] & 15) << 8 | image[3]`, so at most 71,808. It counts the trials one by one. Of a
 * trial that goes as an earlier one went the number is known without fetching the words again: where N is over 16, the most that a
 * decision runs on that image, beside its check and the reading of the line, are P + 3 * N words (argued from the code, not proved;
 * the bounds on `visited` are proved). */
static inline struct kinohazel_decision kinohazel_decide(
    const uint8_t *image, size_t image_length, uint64_t pending, const uint8_t *line, size_t line_length)
{
    uint8_t none = 0;
    return kinohazel_decide_nonnull(kinohazel_lent(image, image_length, &none), image_length, pending,
        kinohazel_lent(line, line_length, &none), line_length);
}

/* Decides the next epoch line as kinohazel_decide does with the events that are pending in the state. If the line is accepted, the
 * events that it triggered are pending from then on, and no others: a triggered event occurs in the next accepted epoch, once. If the
 * line or the image is refused, the state is as before.
 *
 *   struct kinohazel_state state = KINOHAZEL_STATE_START;
 *   while (read_scan(line, &line_length))
 *       act_on(kinohazel_step(image, image_length, &state, line, line_length));
 *
 * Each engine has a state of its own. One that is started anew begins with KINOHAZEL_STATE_START. One that goes on with another image
 * keeps its state if the events that are pending in it are to occur there. */
static inline struct kinohazel_decision kinohazel_step(
    const uint8_t *image, size_t image_length, struct kinohazel_state *state, const uint8_t *line, size_t line_length)
{
    uint8_t none = 0;
    return kinohazel_step_nonnull(kinohazel_lent(image, image_length, &none), image_length, state,
        kinohazel_lent(line, line_length, &none), line_length);
}

/* In libkinohazel_events.a: decides an epoch line on an image by event cancellation. Image, line and readings are as for
 * kinohazel_decide; the two differ in how a clash is resolved. There an action is cancelled, and what else its event causes is still
 * issued. Here the event is dropped with all that it causes: an order that cannot be mailed is not charged either.
 *
 * The events of the epoch, named or pending, are tried by rising number. Each is kept unless a never line holds on the actions that the
 * rules then propose by the events kept so far together with it; otherwise it is dropped. A dropped event is neither present nor absent:
 * no rule holds that asks for it, nor one that asks for its absence, so that to drop an event causes nothing new.
 *
 *   - `accepted` has the actions that are proposed by the kept events.
 *   - `cancelled` has the actions that are proposed by all events of the epoch, but not by the kept ones.
 *   - `triggered` has the events that are triggered by the kept ones.
 *
 * No never line holds on the accepted actions, and giving back one dropped event or more would make one hold. If a never line holds
 * even with no event kept, on what rules cause that ask for the absence of events alone, the line is refused as unavoidable (17);
 * the other faults of the image and the line come before that.
 *
 * `visited` is the number of words fetched in a trial with no event and in one for each event of the epoch, whether it is kept or not:
 * the rule words, then the never words up to the end of the first never line that holds, also where nothing is proposed. Finding what
 * is cancelled does not count. It is at most 65 * (P + N), so at most 212,160. */
static inline struct kinohazel_decision kinohazel_decide_events(
    const uint8_t *image, size_t image_length, uint64_t pending, const uint8_t *line, size_t line_length)
{
    uint8_t none = 0;
    return kinohazel_decide_events_nonnull(kinohazel_lent(image, image_length, &none), image_length, pending,
        kinohazel_lent(line, line_length, &none), line_length);
}

/* In libkinohazel_events.a: decides the next epoch line as kinohazel_decide_events does with the events that are pending in the state,
 * which is kept as by kinohazel_step. */
static inline struct kinohazel_decision kinohazel_step_events(
    const uint8_t *image, size_t image_length, struct kinohazel_state *state, const uint8_t *line, size_t line_length)
{
    uint8_t none = 0;
    return kinohazel_step_events_nonnull(kinohazel_lent(image, image_length, &none), image_length, state,
        kinohazel_lent(line, line_length, &none), line_length);
}

/* In libkinohazel_tools.a: says why an action, 0 to 63, is issued or not by two texts in the epoch of a line: the maker's text and the
 * site's, which are read as kinohazel_compile_texts reads them in KINOHAZEL_NEWEST_FORM, and pending events and a line as for
 * kinohazel_decide. It is for decisions of kinohazel_decide and kinohazel_step, not for those by events.
 *
 *   - KINOHAZEL_NOT_PROPOSED: no rule proposes the action. There is no line to show.
 *   - KINOHAZEL_ACCEPTED: it is issued. The line to show is the first rule that proposes it.
 *   - KINOHAZEL_CANCELLED: it is proposed, and a never line forbids it. The line to show is the first never line that holds on the
 *     accepted actions of lower numbers together with it.
 *
 * First is the maker's text before the site's, and each from its start. The line is shown as it stands in its text, without its
 * line end and without the spaces at both ends:
 *
 *   const uint8_t *part = (why.part_text == 2 ? site : maker) + why.part_start;
 *   printf("%.*s\n", (int)why.part_length, (const char *)part);
 *
 * It has part_length bytes, and no byte 0 is behind them. It points into the text that was lent, so it is there as long as that is.
 * Where there is no line to show, all three members are 0.
 *
 * The texts are looked at first, then the line, then the action: one over 63 is out of range (13). Texts, line and action are looked
 * at anew in each call; a controller decides by kinohazel_decide, and asks here only for those who want to know. */
static inline struct kinohazel_explanation kinohazel_explain(const uint8_t *maker, size_t maker_length, const uint8_t *site,
    size_t site_length, uint64_t pending, const uint8_t *line, size_t line_length, uint64_t action)
{
    uint8_t none = 0;
    return kinohazel_explain_nonnull(kinohazel_lent(maker, maker_length, &none), maker_length,
        kinohazel_lent(site, site_length, &none), site_length, pending, kinohazel_lent(line, line_length, &none), line_length,
        action);
}

#ifdef __cplusplus
}
#endif

#endif
