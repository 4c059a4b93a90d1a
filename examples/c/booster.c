/* Runs a booster station with the Kinohazel library, scan by scan: what a scan triggers is remembered until the next one that is
 * accepted.
 *
 *   (cd crates/kinohazel && rt lib)
 *   gcc -std=c99 -Wall -Wextra -Werror -Iinclude examples/c/booster.c crates/kinohazel/out/libkinohazel.a -o /tmp/booster
 *   /tmp/booster
 */
#include <inttypes.h>
#include <stdio.h>
#include <string.h>

#include "kinohazel.h"

/* E1  pressure in town is low       A2 open the valve    R0 pressure before the valve, mbar
 * E60 the valve was open before     A3 run the pump */
static const char text[] =
    "E1 causes A2\n"
    "E1 & E60 causes A3\n"
    "E1 triggers E60 if R0 > 300\n"
    "never A3 if R0 <= 300\n";

/* The third is refused: a reading is given twice. So is the fourth: no scan may name E60. */
static const char *const scans[] = {
    "E1 R0=900", "E1 R0=900", "E1 R0=900 R0=901", "E60 E1 R0=900", "E1 R0=250", "E1 R0=900", "", "E1 R0=900"};

static void print_numbers(const char *name, char letter, uint64_t set)
{
    const char *before = " ";
    printf(" %s", name);
    if (set == 0)
        printf(" -");
    for (int n = 0; n < 64; n++) {
        if (set >> n & 1) {
            printf("%s%c%d", before, letter, n);
            before = ",";
        }
    }
}

int main(void)
{
    static uint8_t image[KINOHAZEL_IMAGE_LIMIT];
    struct kinohazel_state state = KINOHAZEL_STATE_START;
    struct kinohazel_compilation compiled =
        kinohazel_compile(KINOHAZEL_NEWEST_FORM, (const uint8_t *)text, strlen(text), image, sizeof image);
    if (compiled.fault != KINOHAZEL_OK) {
        printf("line %" PRIu64 ": %s\n", compiled.line, kinohazel_fault_words(compiled.fault));
        return 1;
    }
    for (size_t i = 0; i < sizeof scans / sizeof scans[0]; i++) {
        struct kinohazel_decision decision =
            kinohazel_step(image, compiled.size, &state, (const uint8_t *)scans[i], strlen(scans[i]));
        printf("%zu", i + 1);
        if (decision.fault == KINOHAZEL_OK) {
            print_numbers("issue", 'A', decision.accepted);
            print_numbers("cancel", 'A', decision.cancelled);
        } else {
            printf(" refused %" PRIu64 ": %s,", decision.fault, kinohazel_fault_words(decision.fault));
        }
        print_numbers("pending", 'E', state.pending);
        printf("\n");
    }
    return 0;
}
