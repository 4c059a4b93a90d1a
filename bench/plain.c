/* What a scan costs in plain C: each proposed action is tried against the never words. */
#include "scan.h"

struct kinohazel_image_check plain_check(const uint8_t *image, size_t image_length)
{
    return load(image, image_length);
}

struct kinohazel_decision plain_decide(
    const uint8_t *image, size_t image_length, uint64_t pending, const uint8_t *line, size_t line_length)
{
    struct kinohazel_decision decision = {0, 0, 0, 0, 0, 0};
    struct kinohazel_image_check check = load(image, image_length);
    if (check.fault != KINOHAZEL_OK) {
        decision.fault = check.fault;
        decision.word = check.word;
        return decision;
    }
    struct epoch epoch;
    decision.fault = read_epoch(line, line_length, &epoch);
    if (decision.fault != KINOHAZEL_OK)
        return decision;
    epoch.events |= pending;

    struct header header = unpack_header(word_at(image, 0));
    size_t middle = 1 + header.rule_words;
    size_t end = middle + header.constraint_words;
    uint64_t visited = 0;
    uint64_t proposed = run_rules(image, 1, middle, &epoch, epoch.events, &visited);
    uint64_t kept = 0;
    uint64_t left = proposed;
    for (unsigned n = 0; left != 0; n++) {
        if (left & 1) {
            uint64_t more = kept | (uint64_t)1 << n;
            if (!is_violated(image, middle, end, more, &epoch, &visited))
                kept = more;
        }
        left >>= 1;
    }
    decision.accepted = kept;
    decision.cancelled = proposed & ~kept;
    decision.visited = visited;
    return decision;
}
