/* Compiles a rule text and decides some epochs with the Kinohazel library, as a controller's scan would.
 *
 *   (cd crates/kinohazel && rt lib)
 *   gcc -std=c99 -Wall -Wextra -Werror -Iinclude examples/c/station.c crates/kinohazel/out/libkinohazel.a -o /tmp/station
 *   /tmp/station
 */
#include <inttypes.h>
#include <stdio.h>
#include <string.h>

#include "kinohazel.h"

static const char text[] =
    "E1 & !E2 causes A3 if R0 > 40\n"
    "E3 causes A4\n"
    "never A3 & A4\n";

static const char *const scans[] = {"E1 E3 R0=41", "E1 E3 R0=40", "E1 E2 E3 R0=41", "", "E64"};

static void print_refusal(uint64_t fault)
{
    printf(" refused %" PRIu64 ": %s", fault, kinohazel_fault_words(fault));
}

static void print_actions(const char *name, uint64_t actions)
{
    const char *before = " ";
    printf(" %s", name);
    if (actions == 0)
        printf(" -");
    for (int n = 0; n < 64; n++) {
        if (actions >> n & 1) {
            printf("%sA%d", before, n);
            before = ",";
        }
    }
}

int main(void)
{
    static uint8_t image[KINOHAZEL_IMAGE_LIMIT];
    printf("Kinohazel %s\n", KINOHAZEL_VERSION);
    struct kinohazel_compilation compiled =
        kinohazel_compile(KINOHAZEL_NEWEST_FORM, (const uint8_t *)text, strlen(text), image, sizeof image);
    if (compiled.fault != KINOHAZEL_OK) {
        printf("line %" PRIu64, compiled.line);
        print_refusal(compiled.fault);
        printf("\n");
        return 1;
    }
    printf("%" PRIu64 " bytes\n", compiled.size);

    for (size_t i = 0; i < sizeof scans / sizeof scans[0]; i++) {
        struct kinohazel_decision decision =
            kinohazel_decide(image, compiled.size, 0, (const uint8_t *)scans[i], strlen(scans[i])); /* no event is pending */
        printf("%zu", i + 1);
        if (decision.fault == KINOHAZEL_OK) {
            print_actions("accept", decision.accepted);
            print_actions("cancel", decision.cancelled);
            printf(" words %" PRIu64, decision.visited);
        } else {
            print_refusal(decision.fault);
        }
        printf("\n");
    }

    /* One changed constant, 40 to 41, and the image is refused. */
    image[19] = 41;
    printf("changed:");
    print_refusal(kinohazel_check(image, compiled.size).fault);
    printf("\n");

    /* Words 5 and 6 exchanged, as a faulty writer does: their sum stays, their weights do not. */
    image[19] = 40;
    for (size_t i = 20; i < 24; i++) {
        uint8_t byte = image[i];
        image[i] = image[i + 4];
        image[i + 4] = byte;
    }
    printf("exchanged:");
    print_refusal(kinohazel_check(image, compiled.size).fault);
    printf("\n");
    return 0;
}
