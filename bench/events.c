/* What a scan costs in plain C by event cancellation: each event is tried against the rule words and the never words. */
#include "scan.h"

struct kinohazel_decision plain_decide_events(
    const uint8_t *image, size_t image_length, uint64_t pending, const uint8_t *line, size_t line_length)
{
    struct kinohazel_decision decision = {0, 0, 0, 0, 0, 0};
    struct kinohazel_image_check check = load(image, image_length);
    if (check.fault != KINOHAZEL_OK) {
        decision.fault = check.fault;
        decision.word = check.word;
        return decision;
    }
    struct epoch epoch;
    decision.fault = read_epoch(line, line_length, &epoch);
    if (decision.fault != KINOHAZEL_OK)
        return decision;
    epoch.events |= pending;

    struct header header = unpack_header(word_at(image, 0));
    size_t middle = 1 + header.rule_words;
    size_t end = middle + header.constraint_words;
    uint64_t visited = 0;
    uint64_t kept = 0, issued = 0, one = 0; /* none in the first trial */
    for (uint64_t left = epoch.events;; left &= left - 1) {
        uint64_t proposed = run_rules(image, 1, middle, &epoch, kept | one, &visited);
        if (!is_violated(image, middle, end, proposed, &epoch, &visited)) {
            kept |= one;
            issued = proposed;
        } else if (one == 0) {
            decision.fault = KINOHAZEL_UNAVOIDABLE;
            return decision;
        }
        if (left == 0)
            break;
        one = left & (0 - left);
    }
    decision.accepted = issued;
    decision.visited = visited;
    if (kept != epoch.events) /* otherwise the last trial was that of all events */
        decision.cancelled = run_rules(image, 1, middle, &epoch, epoch.events, &visited) & ~issued;
    return decision;
}
