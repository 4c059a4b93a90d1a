/* Rule texts, images of all forms and epochs as docs/REFERENCE.md defines them, with the text of an image, readings that are not
   given, the words that a decision visits, constants in hexadecimal, two texts as one with the reason for an action, event
   cancellation, and events that are remembered until the next epoch, in plain C, written from what is asked for and not from the
   Rattle code. The programs and the library are compared with it. */
#ifndef REFERENCE_H
#define REFERENCE_H

#include "words.h"

#include <stdio.h>

enum {
    TEXT_BYTES = 32768,
    EPOCH_BYTES = 1024,
    RULE_TEXT_BYTES = 152, /* of the longest rule that is written, its line end included; the longest never line has 137 */
    CONSTRAINT_TEXT_BYTES = 137,
    WRITTEN_BYTES = RULES * RULE_TEXT_BYTES + CONSTRAINTS * CONSTRAINT_TEXT_BYTES,
    DUMP_BYTES = IMAGE_BYTES + WORD_BYTES /* what is kept of the words of a dump: if they are too many, one too many */
};

/* Why something is refused: the faults of docs/REFERENCE.md, by their numbers. */
enum fault {
    FAULT_NONE = 0,
    FAULT_LONG = 1,
    FAULT_SHAPE = 2,
    FAULT_RANGE = 3,
    FAULT_CROWD = 4,
    FAULT_FULL = 5,
    FAULT_REPEAT = 6,
    FAULT_SIZE = 7,
    FAULT_FORM = 8,
    FAULT_COUNT = 9,
    FAULT_SUM = 10,
    FAULT_BODY = 11,
    FAULT_EPOCH_SHAPE = 12,
    FAULT_EPOCH_RANGE = 13,
    FAULT_TWICE = 14,
    FAULT_ROOM = 15,
    FAULT_WEIGHTED_SUM = 16,
    FAULT_UNAVOIDABLE = 17,
    FAULT_RESERVED = 18,
    FAULTS = 19
};

/* Lent bytes. */
struct slice {
    const uint8_t *bytes;
    size_t length;
};

/* The maker's text and the site's, which are read as one. A text alone is the maker's, and the site's is empty. */
struct texts {
    struct slice maker, site;
};

/* Which of them something is about: 0 where it is about neither alone. */
enum owner { NEITHER = 0, MAKER = 1, SITE = 2, OWNERS = 3 };

/* What a call answers: no fault, or a fault and its location, with the text that it is in. */
struct verdict {
    enum fault fault;
    enum owner text;
    size_t location;
};

/* A line as it stands in a text: from which byte, and how many, without its line end and the spaces at both ends. */
struct part {
    enum owner text;
    size_t start, length;
};

/* How a text writes each relation. */
extern const char *const relation_names[RELATIONS];

struct comparison {
    unsigned reading;
    enum relation relation;
    bool with_reading; /* against the reading `other`, otherwise against `constant` */
    unsigned other;
    int32_t constant;
};

struct condition {
    size_t count;
    struct comparison comparisons[COMPARISONS];
};

struct literal {
    unsigned event;
    bool negated;
};

/* E1 & !E2 causes A3 if ..., or triggers E60 in its place */
struct rule {
    size_t count;
    struct literal literals[LITERALS];
    bool triggers;
    unsigned yield; /* the number of the event that it triggers, or of the action that it causes */
    struct condition condition;
    struct part shown; /* none if it was not read from a text */
};

/* never A3 & A4 if ... */
struct constraint {
    size_t count;
    unsigned members[MEMBERS];
    struct condition condition;
    struct part shown; /* likewise */
};

struct policy {
    size_t rule_count, constraint_count;
    struct rule rules[RULES];
    struct constraint constraints[CONSTRAINTS];
};

/* In which kind of line a comparison stands. */
enum line_kind { IN_RULE, IN_CONSTRAINT, LINE_KINDS };

typedef uint64_t event_set;
typedef uint64_t action_set;
typedef uint64_t reading_set;

/* Events that are in neither set are undefined, as in section 3.5 of Chomicki, Lobo and Naqvi, "Conflict Resolution Using Logic
   Programming" (2003): no literal of them holds. A line that is read leaves none undefined. */
struct epoch {
    event_set present, absent;
    reading_set given;
    int32_t readings[READINGS]; /* of those that are given */
};

/* How a clash is resolved: by action cancellation, the first mode, or by event cancellation, the second. */
enum mode { CANCEL_ACTIONS, CANCEL_EVENTS, MODES };

struct decision {
    struct verdict verdict;
    action_set accepted, cancelled;
    event_set triggered; /* which occur in the next accepted epoch; none on a refusal */
    size_t visited; /* words of the image that were fetched; 0 on a refusal */
};

/* What becomes of an action in an epoch. */
enum outcome { OUTCOME_NONE = 0, NOT_PROPOSED = 1, IS_ACCEPTED = 2, IS_CANCELLED = 3, OUTCOMES = 4 };

struct explanation {
    struct verdict verdict;
    enum outcome outcome; /* none on a refusal */
    struct part shown;    /* the line that says why; none on a refusal and for an action that is not proposed */
};

/* Reads a rule text, or two as one, for a known form: in a lower form than TRIGGER_FORM no line triggers an event. Refused ones leave
   the policy as it was. */
struct verdict read_text(uint64_t form, const uint8_t *text, size_t length, struct policy *policy);
struct verdict read_texts(uint64_t form, struct texts texts, struct policy *policy);

/* Writes the image of a policy in a known form, for which it was read; the number of its bytes is returned. */
size_t write_image(unsigned form, const struct policy *policy, uint8_t image[IMAGE_BYTES]);

/* Compiles a rule text, or two as one, in a form into a lent buffer; `written` is the number of image bytes. An unknown form and
   refused texts leave the buffer as it was and write 0 bytes. */
struct verdict compile(uint64_t form, const uint8_t *text, size_t length, uint8_t *buffer, size_t room, size_t *written);
struct verdict compile_texts(uint64_t form, struct texts texts, uint8_t *buffer, size_t room, size_t *written);

/* Loads an image as the policy that compiles to it in its form, which is its first byte. A refused one leaves the policy as it was. */
struct verdict load_image(const uint8_t *bytes, size_t length, struct policy *policy);

/* Writes the text of a policy; the number of its bytes is returned. */
size_t write_text(const struct policy *policy, uint8_t text[WRITTEN_BYTES]);

/* Writes the text of an image into a lent buffer; `written` is the number of its bytes. A refused call leaves the buffer as
   it was and writes 0 bytes. */
struct verdict decompile(const uint8_t *image, size_t length, uint8_t *buffer, size_t room, size_t *written);

/* Reads the words of an image, one a line, as the compiler prints them. The number of the first line that is no word is
   returned, or 0. */
size_t read_dump(const uint8_t *input, size_t length, uint8_t image[DUMP_BYTES], size_t *size);

/* Reads an epoch line: its events are those that it names. A refused one leaves the epoch as it was. */
struct verdict read_epoch(const uint8_t *line, size_t length, struct epoch *epoch);

/* The events that some line of a policy triggers. An epoch line may name none of them. */
event_set reserved(const struct policy *policy);

/* The epoch of a line where these events are pending, which are among its events. */
struct verdict read_next_epoch(
    const struct policy *policy, event_set pending, const uint8_t *line, size_t length, struct epoch *epoch);

/* Whether no never line holds on a set of actions. */
bool satisfies(const struct policy *policy, const struct epoch *epoch, action_set set);

/* The events that the rules of a policy trigger. */
event_set triggered(const struct policy *policy, const struct epoch *epoch);

/* What the rules of a policy propose, and in the first mode which of it is accepted; the rest is cancelled. */
action_set proposed(const struct policy *policy, const struct epoch *epoch);
action_set accepted(const struct policy *policy, const struct epoch *epoch, action_set candidates);

/* The reduction of an epoch to some of its events: the others are undefined. */
struct epoch reduction(const struct epoch *epoch, event_set kept);

/* Whether no never line holds on what the rules propose (Definition 10 of that paper). */
bool is_consistent(const struct policy *policy, const struct epoch *epoch);

/* The events that the second mode keeps. False if the epoch is unavoidable. */
bool kept_events(const struct policy *policy, const struct epoch *epoch, event_set *kept);

/* What the plain machine answers where these events are pending. It sees no image and visits no words. */
struct decision decide_by_policy(
    const struct policy *policy, event_set pending, const uint8_t *line, size_t length, enum mode mode);

/* What the engine answers: the image is loaded and its words are run. */
struct decision decide(
    const uint8_t *image, size_t image_length, event_set pending, const uint8_t *line, size_t length, enum mode mode);

/* Which events are pending after a decision: those that it triggered, or after a refusal the same as before. */
event_set pending_after(event_set pending, struct decision decision);

/* Why an action is accepted or not in an epoch where these events are pending, by two texts or by their policy. */
struct explanation explain(struct texts texts, event_set pending, const uint8_t *line, size_t length, uint64_t action);
struct explanation explain_by_policy(
    const struct policy *policy, event_set pending, const uint8_t *line, size_t length, uint64_t action);

/* The same for a question, such as `A4 E1 E3 R0=41`, or `A4,E60 E1` where E60 is pending: an action, after commas the pending events,
   a space and an epoch line. */
struct question {
    uint64_t action; /* over 63 if one of the pending events is */
    event_set pending;
    struct slice line;
};

/* False if what stands before the space is of another shape; the line is that of the question all the same. */
bool read_question(const uint8_t *bytes, size_t length, struct question *question);
struct explanation answer_question(const struct policy *policy, const uint8_t *question, size_t length);

/* The most words that a decision on an image may visit: P + 64 * N, or 65 * (P + N) in the second mode. */
size_t visit_limit(const uint8_t *image, enum mode mode);

/* The words that a decision visits, by the lines of a policy; the constants among them whose comparison fails, and those whose
   reading is not given; the trials that end before the last never line; and those of the second mode in which nothing is
   proposed. An unavoidable epoch has the words of its one trial here, which the decision does not report. */
struct visits {
    size_t words, failing[LINE_KINDS], missing[LINE_KINDS], stops, idle;
};

struct visits visits_by_policy(const struct policy *policy, const struct epoch *epoch, enum mode mode);

/* How many bytes of the engine's input are text, where the epoch lines begin, and the mode that the line between them picks: `run`
   or `run events`. False if there is no such line. */
bool find_run(const uint8_t *input, size_t length, size_t *text_length, size_t *epochs, enum mode *mode);

/* The next line of `input` from `*at` on, without its line end; `*at` moves behind it. False at the end. */
bool next_line(const uint8_t *input, size_t length, size_t *at, const uint8_t **line, size_t *line_length);

/* What a program, `compiler`, `decompiler` or `engine`, prints for its input. False if there is no such program. */
bool print_program(const char *program, const uint8_t *input, size_t length, FILE *out);

/* What `compiler` or `explain` prints that is called with the names of two texts. `compiler` reads no input. */
bool print_on_texts(const char *program, struct texts texts, const uint8_t *input, size_t length, FILE *out);
void print_decision(unsigned long number, struct decision decision, FILE *out);

#endif
