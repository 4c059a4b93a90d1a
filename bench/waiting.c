/* What a scan costs in plain C where each never line stands on what is kept: a trial touches only the lines that wait for its action.
 * The algorithm of the library's first mode; plain.c tries each action against all lines. */
#include "scan.h"

/* Up to so many words, or of fewer actions, plain trials take less. */
enum { FEW_WORDS = 16, FEW_ACTIONS = 3 };

/* Where each line stands on a set of actions. */
struct waiting {
    uint16_t starts[CONSTRAINTS + 1]; /* the word at which each line starts, and behind the last the end of the words */
    uint16_t behind[CONSTRAINTS];     /* the word behind the last of each line that was fetched */
    uint64_t waits[ACTIONS];          /* by action, the lines that wait for it */
    uint64_t all;                     /* how many words a trial of the set fetches */
};

/* Why the run of a line ended: the action that the set lacks, or one of these. */
enum { FAILED = ACTIONS, HELD };

/* Runs a line from `*at` on, up to the first test that fails; `*at` is left behind the last word that was fetched. */
static inline unsigned reach(const uint8_t *image, size_t *at, uint64_t set, const struct epoch *epoch)
{
    for (;;) {
        uint32_t word = word_at(image, (*at)++);
        switch (operation_of(word)) {
        case MEMBER:
            if (!in_set(set, first_of(word)))
                return first_of(word);
            break;
        case AGAINST_CONSTANT: {
            uint32_t constant = word_at(image, (*at)++);
            if (!constant_holds(epoch, word, constant, true))
                return FAILED;
            break;
        }
        case AGAINST_READING:
            if (!reading_holds(epoch, word, true))
                return FAILED;
            break;
        default: return HELD;
        }
    }
}

/* The lines of the words from `at` up to `end`, none of which holds on no action. */
static void stand(struct waiting *w, const uint8_t *image, size_t at, size_t end, const struct epoch *epoch)
{
    unsigned line = 0;
    memset(w->waits, 0, sizeof w->waits);
    w->all = 0;
    for (; at < end; line++) {
        uint32_t first = word_at(image, at);
        size_t behind = at;
        unsigned stop = reach(image, &behind, 0, epoch);
        if (stop < ACTIONS)
            w->waits[stop] |= (uint64_t)1 << line;
        w->starts[line] = (uint16_t)at;
        w->behind[line] = (uint16_t)behind;
        w->all += behind - at;
        at += 1 + skip_of(first);
    }
    w->starts[line] = (uint16_t)at;
}

/* Whether a line holds on what is kept with one action more. `words` are those that the trial fetched. */
static bool clashes(
    const struct waiting *w, const uint8_t *image, uint64_t more, unsigned action, const struct epoch *epoch, uint64_t *words)
{
    *words = w->all;
    for (uint64_t left = w->waits[action]; left != 0; left &= left - 1) {
        unsigned line = (unsigned)__builtin_ctzll(left);
        size_t at = w->behind[line];
        if (reach(image, &at, more, epoch) == HELD) {
            *words += at - w->starts[line] - w->all;
            for (unsigned k = 0; k < line; k++)
                *words += (uint64_t)(w->behind[k] - w->starts[k]);
            return true;
        }
        *words += at - w->behind[line];
    }
    return false;
}

static void keep(struct waiting *w, const uint8_t *image, uint64_t more, unsigned action, const struct epoch *epoch, uint64_t words)
{
    uint64_t left = w->waits[action];
    w->waits[action] = 0;
    for (; left != 0; left &= left - 1) {
        unsigned line = (unsigned)__builtin_ctzll(left);
        size_t at = w->behind[line];
        unsigned stop = reach(image, &at, more, epoch);
        if (stop < ACTIONS)
            w->waits[stop] |= (uint64_t)1 << line;
        w->behind[line] = (uint16_t)at;
    }
    w->all = words;
}

struct kinohazel_decision waiting_decide(
    const uint8_t *image, size_t image_length, uint64_t pending, const uint8_t *line, size_t line_length)
{
    struct kinohazel_decision decision = {0, 0, 0, 0, 0, 0};
    struct kinohazel_image_check check = load(image, image_length);
    if (check.fault != KINOHAZEL_OK) {
        decision.fault = check.fault;
        decision.word = check.word;
        return decision;
    }
    struct epoch epoch;
    decision.fault = read_epoch(line, line_length, &epoch);
    if (decision.fault != KINOHAZEL_OK)
        return decision;
    epoch.events |= pending;

    struct header header = unpack_header(word_at(image, 0));
    size_t middle = 1 + header.rule_words;
    size_t end = middle + header.constraint_words;
    uint64_t visited = 0;
    uint64_t proposed = run_rules(image, 1, middle, &epoch, epoch.events, &visited);
    uint64_t kept = 0;
    if (header.constraint_words <= FEW_WORDS || __builtin_popcountll(proposed) < FEW_ACTIONS) {
        for (uint64_t left = proposed; left != 0; left &= left - 1) {
            uint64_t more = kept | (left & -left);
            if (!is_violated(image, middle, end, more, &epoch, &visited))
                kept = more;
        }
    } else {
        struct waiting w;
        stand(&w, image, middle, end, &epoch);
        for (uint64_t left = proposed; left != 0; left &= left - 1) {
            unsigned action = (unsigned)__builtin_ctzll(left);
            uint64_t more = kept | (uint64_t)1 << action, words;
            if (!clashes(&w, image, more, action, &epoch, &words)) {
                keep(&w, image, more, action, &epoch, words);
                kept = more;
            }
            visited += words;
        }
    }
    decision.accepted = kept;
    decision.cancelled = proposed & ~kept;
    decision.visited = visited;
    return decision;
}
