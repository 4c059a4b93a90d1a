/* What a scan costs in plain C: what checks and decisions of the library are measured against. Same inputs, same answers, but for lines
 * that trigger events: images are measured in forms 1 and 2, which have none. */
#ifndef PLAIN_H
#define PLAIN_H

#include "kinohazel.h"

struct kinohazel_image_check plain_check(const uint8_t *image, size_t image_length);
struct kinohazel_decision plain_decide(
    const uint8_t *image, size_t image_length, uint64_t pending, const uint8_t *line, size_t line_length);
/* The same decision by where each never line stands on what is kept (waiting.c). */
struct kinohazel_decision waiting_decide(
    const uint8_t *image, size_t image_length, uint64_t pending, const uint8_t *line, size_t line_length);
struct kinohazel_decision plain_decide_events(
    const uint8_t *image, size_t image_length, uint64_t pending, const uint8_t *line, size_t line_length);

#endif
