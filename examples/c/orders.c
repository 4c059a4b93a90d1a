/* Decides the epochs of a bottling line's orders with the Kinohazel library in both modes: by action cancellation a case that is not
 * sent is still charged, by event cancellation the whole order is dropped.
 *
 *   (cd crates/kinohazel && rt lib) && (cd crates/kinohazel_events && rt lib)
 *   gcc -std=c99 -Wall -Wextra -Werror -Iinclude examples/c/orders.c crates/kinohazel/out/libkinohazel.a \
 *       crates/kinohazel_events/out/libkinohazel_events.a -o /tmp/orders
 *   /tmp/orders
 */
#include <inttypes.h>
#include <stdio.h>
#include <string.h>

#include "kinohazel.h"

/* E0 broken glass     A0 stop the line      R0 lorries in the yard
 * E1 order            A1 send the case
 * E2 guard on duty    A2 charge for it
 *                     A3 lock the gate */
static const char text[] =
    "E0 causes A0\n"
    "E1 causes A1\n"
    "E1 causes A2\n"
    "!E2 causes A3\n"
    "never A0 & A1\n"
    "never A3 if R0 > 0\n";

/* In the last the gate would be locked with a lorry in the yard. No event causes that, so to drop events is of no help. */
static const char *const scans[] = {"E1 E2 R0=1", "E0 E1 E2 R0=1", "E0 E1 R0=0", "E1 R0=1"};

static void print_actions(const char *name, uint64_t actions)
{
    const char *before = " ";
    printf(" %s", name);
    if (actions == 0)
        printf(" -");
    for (int n = 0; n < 64; n++) {
        if (actions >> n & 1) {
            printf("%sA%d", before, n);
            before = ",";
        }
    }
}

static void print_decision(const char *mode, struct kinohazel_decision decision)
{
    printf("  by %s:", mode);
    if (decision.fault == KINOHAZEL_OK) {
        print_actions("issue", decision.accepted);
        print_actions("cancel", decision.cancelled);
    } else {
        printf(" refused %" PRIu64 ": %s", decision.fault, kinohazel_fault_words(decision.fault));
    }
    printf("\n");
}

int main(void)
{
    static uint8_t image[KINOHAZEL_IMAGE_LIMIT];
    struct kinohazel_compilation compiled =
        kinohazel_compile(KINOHAZEL_NEWEST_FORM, (const uint8_t *)text, strlen(text), image, sizeof image);
    if (compiled.fault != KINOHAZEL_OK) {
        printf("line %" PRIu64 ": %s\n", compiled.line, kinohazel_fault_words(compiled.fault));
        return 1;
    }
    for (size_t i = 0; i < sizeof scans / sizeof scans[0]; i++) {
        const uint8_t *line = (const uint8_t *)scans[i];
        size_t length = strlen(scans[i]);
        printf("%s\n", scans[i]);
        print_decision("actions", kinohazel_decide(image, compiled.size, 0, line, length));
        print_decision("events", kinohazel_decide_events(image, compiled.size, 0, line, length));
    }
    return 0;
}
