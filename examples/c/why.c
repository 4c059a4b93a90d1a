/* Asks the Kinohazel library why an action was issued or not, as a fitter's panel would: by the text of a pump's maker and the lines
 * that a site has added.
 *
 *   (cd crates/kinohazel && rt lib) && (cd crates/kinohazel_tools && rt lib)
 *   gcc -std=c99 -Wall -Wextra -Werror -Iinclude examples/c/why.c crates/kinohazel/out/libkinohazel.a \
 *       crates/kinohazel_tools/out/libkinohazel_tools.a -o /tmp/why
 *   /tmp/why
 */
#include <inttypes.h>
#include <stdio.h>
#include <string.h>

#include "kinohazel.h"

static const char maker[] =
    "E0 causes A0\n"
    "E1 causes A4\n"
    "never A0 & A4\n"
    "never A4 if R0 < 300\n";

static const char site[] =
    "# The tank is filled at night.\n"
    "  E10 causes A4 if R10 < 380\n"
    "never A4 if R11 > 70\n";

static const struct {
    const char *scan;
    uint64_t action;
} questions[] = {{"E10 R0=900 R10=200 R11=40", 4}, {"E10 R0=900 R10=400 R11=40", 4}, {"E1 R11=40", 4},
    {"E1 R0=900 R11=85", 4}, {"E0 E1 R0=900 R11=85", 4}, {"E1 R0=900 R11=40", 64}};

static void print_explanation(struct kinohazel_explanation why)
{
    static const char *const outcomes[] = {
        [KINOHAZEL_NOT_PROPOSED] = "is not proposed",
        [KINOHAZEL_ACCEPTED] = "is issued",
        [KINOHAZEL_CANCELLED] = "is cancelled"};
    const char *part = (why.part_text == 2 ? site : maker) + why.part_start;
    if (why.fault != KINOHAZEL_OK) {
        printf(" is refused %" PRIu64 ": %s\n", why.fault, kinohazel_fault_words(why.fault));
        return;
    }
    printf(" %s", outcomes[why.outcome]);
    if (why.part_text != 0)
        printf(" by the %s line: %.*s", why.part_text == 2 ? "site's" : "maker's", (int)why.part_length, part);
    printf("\n");
}

int main(void)
{
    static uint8_t image[KINOHAZEL_IMAGE_LIMIT];
    struct kinohazel_texts_compilation compiled = kinohazel_compile_texts(KINOHAZEL_NEWEST_FORM,
        (const uint8_t *)maker, strlen(maker), (const uint8_t *)site, strlen(site), image, sizeof image);
    if (compiled.fault != KINOHAZEL_OK) {
        printf("text %" PRIu64 ", line %" PRIu64 ": %s\n", compiled.text, compiled.line, kinohazel_fault_words(compiled.fault));
        return 1;
    }
    printf("%" PRIu64 " bytes from two texts\n", compiled.size);
    for (size_t i = 0; i < sizeof questions / sizeof questions[0]; i++) {
        const char *scan = questions[i].scan;
        printf("%s: A%" PRIu64, scan, questions[i].action);
        print_explanation(kinohazel_explain((const uint8_t *)maker, strlen(maker), (const uint8_t *)site, strlen(site), 0,
            (const uint8_t *)scan, strlen(scan), questions[i].action)); /* no event is pending */
    }
    return 0;
}
