/* What the parts of `compare` share; main.c says what it is. */
#ifndef COMPARE_H
#define COMPARE_H

#include "../../reference/inputs.h"
#include "../fill.h"

#define COUNT(list) (sizeof(list) / sizeof *(list))

/* tally.c */

/* Damages that a line of an image can have. Each makes the image be refused under 11 at the start of the line. */
enum flaw {
    SKIP_MORE,
    SKIP_LESS,
    SKIP_AT_END,
    ZERO_FIELD,
    SECOND_UNUSED,
    RELATION_UNUSED,
    FIRST_UNUSED,
    READING_16,
    OTHER_READING_16,
    RELATION_6,
    REPEATED_HEAD,
    NINE_HEADS,
    FIVE_COMPARISONS,
    NO_HEAD,
    NO_END,
    HEAD_BEHIND_COMPARISON,
    OPERATION_OF_OTHER_PART,
    NO_OPERATION,
    CUT_AT_PART_END,
    NO_CONSTANT_AT_PART_END,
    END_AS_CONSTANT,
    TOO_MANY_LINES,
    FLAWS
};

/* What accepted epochs have at the most. */
enum extreme {
    ALL_ACCEPTED,
    ALL_CANCELLED,
    OVER_30_CANCELLED,
    ALL_EVENTS,
    ALL_READINGS, /* all different, some below 0 and some above */
    FAR_EVENT,    /* E63 behind 1,000 bytes, the last of 1,024 */
    FAR_READING,  /* R15 likewise */
    ALL_WORDS,    /* P + 64 * N words visited, where N is 0 */
    NEARLY_ALL,   /* 63 words fewer, where N is over 0 */
    MOST_WORDS,   /* MOST_VISITED words visited */
    EXTREMES
};

/* Decisions by action cancellation, compared with every other choice of the proposed actions. */
enum choosing {
    ALL_CHOICES,   /* compared */
    OTHER_CHOICE,  /* there is another one without a clash that is no part of what is accepted */
    LARGER_CHOICE, /* there is one that has more actions */
    CHOOSINGS
};

/* Decisions by event cancellation that show how events are kept and dropped. */
enum dropping {
    ONE_DROPPED,    /* an event is dropped */
    KEPT_BEHIND,    /* one is kept behind it */
    ALL_KEPT,       /* of 64 events */
    ALL_DROPPED,
    NOT_ABSENT,     /* the answer would be another if a dropped event were absent */
    NOT_FALLING,    /* the answer would be another if the events were tried by falling number */
    NOT_ACTIONS,    /* another set is accepted than by action cancellation */
    STILL_ISSUED,   /* a dropped event proposes an action that is issued because of kept ones */
    IDLE,           /* nothing is proposed in a trial: its never words count */
    ALL_REDUCTIONS, /* compared with every reduction of the epoch */
    MOST_TRIALS,    /* MOST_TRIED words visited */
    DROPPINGS
};

/* Damages of images in a form with a weighted word, each refused as it has to be. */
enum damage_of_form_2 {
    SWAP_AT_START, /* words 0 and 1 exchanged: refused under 8 */
    SWAP_BEHIND,   /* two later words before the weighted one: 16 */
    SWAP_OF_CHECK_WORDS, /* 16 */
    WEIGHT_BEFORE_BODY,  /* a wrong weighted word and a faulty line: 16 */
    SUM_BEFORE_WEIGHT,   /* a wrong sum and a wrong weighted word: 10 */
    DAMAGES_OF_FORM_2
};

/* Decisions whose number of words shows how they are counted. */
enum counted {
    REMAINDER,             /* a trial ends before the last never line: the words behind do not count */
    FAILING_IN_RULE,       /* the comparison with a constant fails: the constant counts */
    FAILING_IN_CONSTRAINT,
    MISSING_IN_RULE,       /* the reading compared with a constant is missing: the constant counts */
    MISSING_IN_CONSTRAINT,
    NO_TRIAL,              /* nothing is proposed: no never word counts */
    COUNTED
};

/* Decisions that show what is remembered from one epoch to the next. */
enum remembering {
    ONE_TRIGGERED, /* an event is triggered */
    ALL_TRIGGERED, /* 64 events */
    OCCURS,        /* the answer would be another if nothing were pending */
    NAMED_TOO,     /* a pending event is named as well */
    WITH_CANCELLED, /* an action is cancelled, and an event is triggered */
    NOT_TRIGGERED, /* a dropped event would have triggered another one */
    PENDING_DROPPED, /* a pending event is dropped */
    KEPT_PENDING,  /* a step is refused, and events stay pending */
    FORGOTTEN,     /* a pending event is not pending after a step */
    AGAIN,         /* one is pending again, since it was triggered again */
    REMEMBERINGS
};

/* What was met. Locations of fault 11: the first line of the rules, a later one, and the same of the constraints. Nulls: 1 if the
   first area of a call is null, 2 more if the second one is, and 4 more if the third one is. */
struct tally {
    unsigned long comparisons, compile[FAULTS], check[FAULTS], text[FAULTS], decide[MODES][FAULTS];
    unsigned long check_locations[4], text_locations[4], flaws[2][FLAWS], accepting[MODES], cancelling[MODES];
    unsigned long extremes[EXTREMES], choosings[CHOOSINGS], droppings[DROPPINGS];
    unsigned long remembered[MODES][REMEMBERINGS], steps[MODES][FAULTS], sessions;
    unsigned long compile_nulls[4], check_nulls[4], text_nulls[4], decide_nulls[MODES][4], step_nulls[MODES][4];
    unsigned long lines_in_images[MODES];
    unsigned long missing[2]; /* proposals, and cancellations, that would be others if missing readings were 0 */
    unsigned long counted[COUNTED];
    unsigned long patterns[2]; /* accepted texts, and epoch lines, that have 0x behind a space or an equals sign */
    unsigned long texts[FAULTS][OWNERS], explain[FAULTS][OWNERS]; /* refusals by the text at fault */
    unsigned long outcomes[OUTCOMES][OWNERS], over; /* by the text of the part; actions over 63 as the only fault */
    unsigned long taken[LAST_FORM + 1], form_2[DAMAGES_OF_FORM_2]; /* images accepted by their form */
    unsigned long texts_nulls[8], explain_nulls[8], overlapping;
    unsigned long written, empty, longest; /* texts that compile to their image again; those of 0 and of 28,224 bytes */
};

extern struct tally tally;
extern unsigned long current_round;
extern uint64_t current_form; /* that texts are compiled to */
extern const char *step;

/* Prints the counts. False if something was never met. */
bool report(void);

/* The beginning of a message about the step at hand; `bytes` are shown behind it. */
void describe(const char *function, const char *what);
void print_bytes(const char *name, const uint8_t *bytes, size_t length);

/* These end the program. */
void fail(const char *function, const char *what);
void fail_on(const char *function, const char *what, const uint8_t *bytes, size_t length);

/* lend.c */

enum {
    GUARD = 64,
    OUT_BYTES = 32768, /* the buffer lent for an image or a text, and what lies before and behind it */
    MOST_ROOM = OUT_BYTES - 2 * GUARD
};

/* Bytes between two pages that cannot be touched. If `null`, no bytes are lent as a null pointer. */
struct pen {
    uint8_t *from, *end;
    bool null;
};

extern struct pen text_pen, site_pen, line_pen, out_pen;

/* What the buffer holds before a call. */
extern uint8_t pattern[OUT_BYTES];

void make_pens(void);

/* Bit 0 is for the texts and images, bit 1 for the lines, bit 2 for the buffer, bit 3 for the texts of the site. */
void set_nulls(unsigned which);
void make_pattern(struct dice *dice);

/* A copy of the bytes, mostly at the end of the pen, else near it or at the start. */
const uint8_t *lend(struct pen pen, const uint8_t *bytes, size_t length);

/* A state with these events, between two pages that cannot be touched; it alone can be written to in every call. */
struct kinohazel_state *lend_state(event_set pending);

/* Whether the bytes before the state are as they were. */
bool is_state_alone(void);

/* Before and after a call: nothing but the buffer, and that only by a call that fills it, can be written to during the call. One
   call of 499 is made so, since it takes long. */
void start_call(bool filling);
void end_call(void);

/* calls.c: the functions. The answers of the reference are returned. */

/* A function that fills a buffer. */
struct filler {
    const char *name;
    struct verdict (*reference)(uint64_t, const uint8_t *, size_t, uint8_t *, size_t, size_t *);
    fill_function *library;
    size_t limit; /* bytes that it writes at most */
    unsigned long *faults, *nulls;
};

extern const struct filler compiling, writing;

bool same(const uint8_t *one, const uint8_t *other, size_t length);
struct verdict compare_filler(const struct filler *filler, const uint8_t *input, size_t length, size_t room);
struct verdict compare_compile(const uint8_t *text, size_t length, size_t room);
struct verdict compare_text(const uint8_t *image, size_t length, size_t room);
struct verdict compare_check(const uint8_t *image, size_t length);

/* A decision in one mode where these events are pending, and in both; the answer of the first mode is returned then. Every third one is
   made by a step of a state too. The policy, if there is one, is that of the text the image was compiled from. */
struct decision compare_mode(const uint8_t *image, size_t length, event_set pending, const uint8_t *line, size_t line_length,
    const struct policy *policy, enum mode mode);
struct decision compare_decide(const uint8_t *image, size_t length, event_set pending, const uint8_t *line, size_t line_length,
    const struct policy *policy);
bool agree(struct kinohazel_decision answer, struct decision wanted);

/* The functions of each mode. */
struct decider {
    const char *name, *step_name;
    struct kinohazel_decision (*library)(const uint8_t *, size_t, uint64_t, const uint8_t *, size_t);
    struct kinohazel_decision (*step)(const uint8_t *, size_t, struct kinohazel_state *, const uint8_t *, size_t);
};

extern const struct decider deciders[MODES];

/* Two texts, and why an action is issued or not by them. The policy, if there is one, is theirs. */
struct verdict compare_texts(struct texts texts, size_t room);
struct explanation compare_explain(struct texts texts, const struct policy *policy, event_set pending, const uint8_t *line,
    size_t length, uint64_t action);
bool agree_why(struct kinohazel_explanation answer, struct explanation wanted);

/* texts.c */

/* A text or an image with buffers of several lengths. */
struct verdict compare_filler_rooms(const struct filler *filler, const uint8_t *input, size_t length, struct dice *dice);
struct verdict compare_rooms(const uint8_t *text, size_t length, struct dice *dice);
void compare_limit_texts(struct buffer *input, struct dice *dice);

/* Forms that are not known, for texts of all kinds. */
void compare_unknown_forms(struct buffer *input, struct dice *dice);

/* joint.c: two texts as one, and why an action is issued or not. */

/* Two texts with buffers of several lengths. */
struct verdict compare_texts_rooms(struct texts texts, struct dice *dice);

/* A text beside an empty one is compiled as it is alone, but for the text that a refusal names. */
void compare_beside_empty(const uint8_t *text, size_t length);

/* Two texts by chance. */
void compare_any_texts(struct buffer *maker, struct buffer *site, struct dice *dice);

/* A text split over two, the epoch lines of an input from `at` on, and actions: every one, and numbers that are none. */
void compare_why(const struct buffer *input, size_t text_length, size_t at, struct buffer *maker, struct buffer *site,
    struct dice *dice);
void compare_limit_joint(struct buffer *maker, struct buffer *site, struct dice *dice);

/* written.c */

/* The text of an image that is accepted: it compiles to the image again, and so does the text as someone else would write it,
   which gives the same text again. */
void compare_written(const uint8_t *image, size_t length, struct buffer *work, struct dice *dice);
void compare_limit_written(struct buffer *input, struct buffer *work, struct dice *dice);

/* images.c */

void compare_flaws(struct dice *dice, struct buffer *work);

/* Lines with any numbers of parts, and words without any order. */
void compare_draft(struct dice *dice, struct buffer *work);

/* Words by chance, with a header of the right form or the right counts or neither, mostly with a right sum. */
void compare_random(struct dice *dice, struct buffer *work);
void compare_limit_images(struct buffer *input, struct buffer *work, struct dice *dice);

/* Images of one line that has the number twice. */
void compare_repeated(unsigned number, struct dice *dice);

/* damages.c */

uint32_t other_word(struct dice *dice, uint32_t word);

/* A decision on a damaged image and its text: no epoch line and no room counts, since the image is looked at first. */
void compare_damaged(const uint8_t *image, size_t length, struct dice *dice);

/* An image with damages; `share` of 1000 words, bits and lengths are tried in damages of one place. */
void damage_image(const uint8_t *original, size_t length, struct dice *dice, unsigned share);

/* epochs.c */

/* A text that is accepted, with its policy and its image. */
struct subject {
    struct policy policy;
    uint8_t image[IMAGE_BYTES];
    size_t size;
};

void make_subject(struct subject *subject, const void *text, size_t length);

/* A line on a subject, in both modes, where nothing or these events are pending; the answer of the first is returned. */
struct decision compare_line(const struct subject *subject, const void *line, size_t length);
struct decision compare_line_after(const struct subject *subject, event_set pending, const void *line, size_t length);

/* A subject whose text is compared too, and a line on it that has these sets. */
void begin(struct subject *subject, const struct buffer *text);
void expect(const struct subject *subject, const struct buffer *line, uint64_t accepted, uint64_t cancelled);

/* The epoch lines of an input from `at` on, and others, full and damaged. */
void compare_lines(const struct subject *subject, const struct buffer *input, size_t at, struct buffer *work,
    struct dice *dice);
void compare_limit_epochs(struct buffer *input);
void compare_lines_in_image(void);

/* Decisions that take all there can be. */
void compare_extremes(struct buffer *text, struct buffer *line);

/* actions.c: action cancellation. */

/* Of two sets, the one that has the lowest number in which they differ comes first. */
bool comes_first(uint64_t one, uint64_t other);

/* What is accepted comes before every other set of proposed actions on which no never line holds. Nothing is done where there are too
   many sets. */
void check_choices(const struct policy *policy, const struct epoch *epoch, action_set chosen);

/* events.c: event cancellation. */

/* An answer that is not refused for the image or the line: the kept events are those that come first of all reductions on which no
   never line holds, and they are maximal. Nothing is done where there are too many reductions. */
void check_reductions(const struct policy *policy, const struct epoch *epoch, struct kinohazel_decision answer);

/* What the decision shows of the events. */
void count_droppings(const struct policy *policy, const struct epoch *epoch, struct decision decision, struct visits visits);

/* Texts with many clashes by chance. */
void compare_clashing(struct buffer *text, struct buffer *line, struct dice *dice);

/* Epochs with known answers, and decisions that take all there can be. */
void compare_events(struct buffer *text, struct buffer *line);

/* triggers.c: what is remembered from one epoch to the next. */

/* What a decision that is not refused shows of that, and a step. */
void count_remembered(const struct policy *policy, event_set pending, const struct epoch *epoch, const uint8_t *line, size_t length,
    struct decision decision, enum mode mode);
void count_step(event_set pending, struct decision decision, enum mode mode);

/* A few events, or none. */
event_set any_pending(struct dice *dice);

/* The epoch lines of an input from `at` on, one after the other on one state, each in a mode by chance, against the plain machine. */
void compare_session(const struct subject *subject, const struct buffer *input, size_t at, struct dice *dice);

/* Lines that trigger events: in the forms that have them, in those that have not, and sessions with known answers. */
void compare_triggers(struct buffer *text, struct buffer *line, struct dice *dice);

/* each.c */

/* Every byte in the place of each byte of a text, an image and an epoch line, and between each two. */
void compare_each_byte(struct buffer *input);

/* Every number of an event, an action and a reading, and some beyond. */
void compare_each_number(struct buffer *input, struct buffer *work, struct dice *dice);

/* patterns.c */

/* Constants in hexadecimal: their digits, lengths and bits, and each byte of them. */
void compare_patterns(struct buffer *input, struct buffer *work, struct dice *dice);

/* header.c */

/* Limits, faults and the words for them. */
void compare_header(void);

/* Null pointers for areas of length 0. */
void compare_nulls(void);

#endif
