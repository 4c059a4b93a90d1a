/* Rule texts, epoch lines and inputs of the engine made by chance, the same for the same dice, and some at the limits. */
#ifndef INPUTS_H
#define INPUTS_H

#include "reference.h"

/* The rule text of the README's example. */
#define EXAMPLE "E1 & !E2 causes A3 if R0 > 40\nE3 causes A4\nnever A3 & A4\n"

enum { ROOM = 1 << 20 };

/* Lent bytes with room for ROOM of them. What is added is put behind `length`. */
struct buffer {
    uint8_t *bytes;
    size_t length;
};

struct buffer new_buffer(void);
void add_bytes(struct buffer *to, const void *bytes, size_t length);
void add(struct buffer *to, const char *string);
void add_byte(struct buffer *to, unsigned byte);
void add_number(struct buffer *to, long number);
void add_format(struct buffer *to, const char *format, ...); /* at most 255 bytes */
void add_times(struct buffer *to, const char *string, unsigned times);
void add_events(struct buffer *to, unsigned first, unsigned count); /* E3 E4 E5, each with a space behind it */

/* The maker's text and the site's. */
struct texts texts_of(const struct buffer *maker, const struct buffer *site);

/* Puts other bytes in the place of those from `from` to `until`. */
void splice(struct buffer *in, size_t from, size_t until, const void *bytes, size_t length);

struct dice {
    uint64_t state;
};

uint64_t roll(struct dice *dice);
unsigned below(struct dice *dice, unsigned limit);

/* True in `per_mille` of 1000 cases. */
bool chance(struct dice *dice, unsigned per_mille);

#define CHOOSE(dice, list) ((list)[below((dice), sizeof(list) / sizeof *(list))])

/* What the lines of one case are like: how many numbers are in use, and how many of 1000 places have a fault. */
struct taste {
    unsigned events, actions, readings;
    unsigned shape, range, crowd, repeat;
    unsigned loose; /* further spaces */
    unsigned limits; /* constants at the ends of the range */
    unsigned hexadecimal; /* constants in hexadecimal */
    unsigned triggers; /* rules that trigger an event */
    unsigned triggered; /* how many events they mostly trigger: those from `events` on, which epochs seldom name */
};

struct taste make_taste(struct dice *dice);

/* Makes `lower` of 1000 letters A to F small, from `from` on. */
void lower_letters(struct buffer *in, size_t from, struct dice *dice, unsigned lower);

/* A constant in hexadecimal: the digits of a word, with zeros before them if they are fewer than `digits`, and letters of either
   case. */
void add_pattern(struct buffer *to, struct dice *dice, uint32_t word, unsigned digits);

/* Lines of a text: the least rules and constraints, and up to how many more. The last line may lack its line end. */
void add_lines(struct buffer *to, struct dice *dice, const struct taste *taste, unsigned rules, unsigned more_rules,
    unsigned constraints, unsigned more_constraints, bool closed);

/* Faults in the making of lines: few of one kind, or many of all. */
void spoil(struct taste *taste, struct dice *dice);

/* Faults in lines already made: bytes and tokens put in, taken out, doubled or replaced. */
void damage(struct buffer *in, size_t from, struct dice *dice);

/* One rule text, of a kind from 0 to 9. */
void add_text(struct buffer *to, struct dice *dice, unsigned kind, bool closed);

/* The lines of a text that was written from a policy, as someone else would write them: with other spaces, constants in
   hexadecimal, skipped lines between them, and rules and constraints mixed, each in their order. */
void add_variant(struct buffer *to, const uint8_t *text, size_t length, struct dice *dice);

/* The words of an image as the compiler prints them. */
void add_dump(struct buffer *to, const uint8_t *image, size_t length);

/* One epoch line, without its line end. */
void add_epoch(struct buffer *to, struct dice *dice, const struct taste *taste);

/* A text with many clashes and an epoch line, without its line end: rules that share events under `events`, present or absent, and never
   lines on the actions they propose. Some rules trigger one of the last `triggered` events; a line for the events before those names
   none of them. */
void add_clashing_text(struct buffer *to, struct dice *dice, unsigned events, unsigned triggered);
void add_clashing_epoch(struct buffer *to, struct dice *dice, unsigned events);

/* A whole input of the engine in either mode, of a kind from 0 to 15. */
void add_engine_input(struct buffer *to, struct dice *dice, unsigned kind);

/* The lines of a text, each in the maker's text or in the site's, in their order. The last of each may lack its line end. */
void split_text(const uint8_t *text, size_t length, struct dice *dice, struct buffer *maker, struct buffer *site);

/* Two texts, of a kind from 0 to 9: one that was split, or two. */
void add_texts(struct buffer *maker, struct buffer *site, struct dice *dice, unsigned kind);

/* A question for every action about one epoch line where these events are pending. */
void add_every_question(struct buffer *to, event_set pending, const uint8_t *line, size_t length);

/* Questions about epoch lines: for one of the lines about every action, for all of them some by chance, with and without faults. */
void add_questions(struct buffer *to, struct dice *dice, const uint8_t *lines, size_t length);

/* Two texts and questions, of a kind from 0 to 15: those under 10 are from inputs of the engine that are accepted. */
void add_explain_input(
    struct buffer *maker, struct buffer *site, struct buffer *questions, struct dice *dice, unsigned kind);

/* 128 rules and 64 constraints of 17 words each. With E0 to E31 and R0=7 R1=0 R2=0 R3=0, the epoch of the largest, every
   rule proposes its action, and all 64 actions are proposed. */
void add_largest(struct buffer *to);
void add_epoch_of_largest(struct buffer *to); /* without its line end */
void add_epochs_of_largest(struct buffer *to);

/* An input of the engine with that text and its epochs. */
void add_largest_input(struct buffer *to);

/* The rules of the largest, and constraints that fail at their last comparison. With the epoch of the largest a decision on this
   text visits all words of the rules; of each constraint 2 to 8 words in the trials of A0 to A6, which fail at a member, and all
   but the ending in the other 57 trials. By reckoning, which nothing proves, no decision visits more; tests/programs asks that none
   on its made inputs does. */
enum { MOST_VISITED = RULE_WORDS + CONSTRAINTS * (2 + 3 + 4 + 5 + 6 + 7 + 8 + 57 * (LINE_WORDS - 1)) };
void add_most_visited(struct buffer *to);

/* The same constraints, and rules of 17 words that ask for E0 to E7. With the epoch of all events a decision in the second mode visits
   of each rule 1 to 8 words in the first eight trials and all words in the other 57; of each constraint one word and all but the
   ending. No decision on the inputs that are made here visits more. */
enum {
    MOST_TRIED = RULES * (1 + 2 + 3 + 4 + 5 + 6 + 7 + 8 + 57 * LINE_WORDS) + CONSTRAINTS * (8 + 57 * (LINE_WORDS - 1))
};
void add_most_tried(struct buffer *to);
void add_epoch_of_most_tried(struct buffer *to); /* without its line end */

/* 128 rules and 64 constraints of 17 words each, every token as long as it can be in a text for a form. */
void add_widest(struct buffer *to, uint64_t form);

/* One line, a list as long as a text may be. */
void add_longest_line(struct buffer *to);

/* As many lines as a text may have, the last one faulty. */
void add_most_lines(struct buffer *to);

/* A line for each of the faults 2, 3, 4 and 6. */
enum { FAULTY_LINES = 4 };
extern const char *const faulty_lines[FAULTY_LINES];

/* A text of so many bytes with one rule, padded by a comment. */
void add_length(struct buffer *to, size_t length, bool closed);

#endif
