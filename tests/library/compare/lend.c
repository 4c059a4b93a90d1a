/* Lent bytes stand next to pages that cannot be touched. The linker puts the functions __wrap_.. between the header and the
   library. */
#define _DEFAULT_SOURCE
#include "compare.h"

#include <signal.h>
#include <string.h>
#include <sys/mman.h>
#include <unistd.h>

struct pen text_pen, site_pen, line_pen, out_pen;
static struct pen state_pen;
uint8_t pattern[OUT_BYTES];

static void stop(int number)
{
    (void)number;
    describe("a function", "read bytes that were not lent, or wrote to others than those of the buffer\n");
    fflush(stdout);
    _exit(1);
}

static struct pen new_pen(size_t least)
{
    size_t page = (size_t)sysconf(_SC_PAGESIZE), size = (least + page - 1) / page * page;
    uint8_t *all = mmap(NULL, size + 2 * page, PROT_NONE, MAP_PRIVATE | MAP_ANONYMOUS, -1, 0);
    struct pen pen;
    if (all == MAP_FAILED || mprotect(all + page, size, PROT_READ | PROT_WRITE) != 0)
        fail("mmap", "no memory");
    pen.from = all + page;
    pen.end = pen.from + size;
    pen.null = false;
    return pen;
}

void make_pens(void)
{
    signal(SIGSEGV, stop);
    signal(SIGBUS, stop);
    text_pen = new_pen(ROOM + 4096);
    site_pen = new_pen(ROOM + 4096);
    line_pen = new_pen(ROOM + 4096);
    out_pen = new_pen(OUT_BYTES);
    state_pen = new_pen(1);
    if (out_pen.end - out_pen.from != OUT_BYTES)
        fail("mmap", "pages of another size");
}

void set_nulls(unsigned which)
{
    text_pen.null = (which & 1) != 0;
    line_pen.null = (which & 2) != 0;
    out_pen.null = (which & 4) != 0;
    site_pen.null = (which & 8) != 0;
}

void make_pattern(struct dice *dice)
{
    size_t i;
    for (i = 0; i < OUT_BYTES; i++)
        pattern[i] = (uint8_t)roll(dice);
}

const uint8_t *lend(struct pen pen, const uint8_t *bytes, size_t length)
{
    size_t turn = tally.comparisons % 6;
    uint8_t *at = turn < 4 ? pen.end - length : turn == 4 ? pen.from : pen.end - length - 1 - tally.comparisons / 6 % 3;
    if (length == 0)
        return pen.null ? NULL : at;
    memcpy(at, bytes, length);
    return at;
}

enum { STATE_GUARD = 0x5A };

struct kinohazel_state *lend_state(event_set pending)
{
    struct kinohazel_state *state = (struct kinohazel_state *)(void *)state_pen.end - 1;
    memset(state_pen.from, STATE_GUARD, (size_t)(state_pen.end - state_pen.from));
    state->pending = pending;
    return state;
}

bool is_state_alone(void)
{
    const uint8_t *at = state_pen.from, *end = state_pen.end - sizeof(struct kinohazel_state);
    while (at < end && *at == STATE_GUARD)
        at++;
    return at == end;
}

static void let_write(struct pen pen, bool allowed)
{
    if (mprotect(pen.from, (size_t)(pen.end - pen.from), allowed ? PROT_READ | PROT_WRITE : PROT_READ) != 0)
        fail("mprotect", "no rights");
}

void start_call(bool filling)
{
    if (tally.comparisons % 499 != 0)
        return;
    let_write(text_pen, false);
    let_write(site_pen, false);
    let_write(line_pen, false);
    let_write(out_pen, filling);
}

void end_call(void)
{
    if (tally.comparisons % 499 != 0)
        return;
    let_write(text_pen, true);
    let_write(site_pen, true);
    let_write(line_pen, true);
    let_write(out_pen, true);
}

/* What the header hands on to the library has no null pointer. */

struct kinohazel_compilation __real_kinohazel_compile_nonnull(uint64_t, const uint8_t *, size_t, uint8_t *, size_t);
struct kinohazel_texts_compilation __real_kinohazel_compile_texts_nonnull(
    uint64_t, const uint8_t *, size_t, const uint8_t *, size_t, uint8_t *, size_t);
struct kinohazel_image_check __real_kinohazel_check_nonnull(const uint8_t *, size_t);
struct kinohazel_text_written __real_kinohazel_text_nonnull(const uint8_t *, size_t, uint8_t *, size_t);
struct kinohazel_decision __real_kinohazel_decide_nonnull(const uint8_t *, size_t, uint64_t, const uint8_t *, size_t);
struct kinohazel_decision __real_kinohazel_decide_events_nonnull(const uint8_t *, size_t, uint64_t, const uint8_t *, size_t);
struct kinohazel_decision __real_kinohazel_step_nonnull(
    const uint8_t *, size_t, struct kinohazel_state *, const uint8_t *, size_t);
struct kinohazel_decision __real_kinohazel_step_events_nonnull(
    const uint8_t *, size_t, struct kinohazel_state *, const uint8_t *, size_t);
struct kinohazel_explanation __real_kinohazel_explain_nonnull(
    const uint8_t *, size_t, const uint8_t *, size_t, uint64_t, const uint8_t *, size_t, uint64_t);
struct kinohazel_compilation __wrap_kinohazel_compile_nonnull(uint64_t, const uint8_t *, size_t, uint8_t *, size_t);
struct kinohazel_texts_compilation __wrap_kinohazel_compile_texts_nonnull(
    uint64_t, const uint8_t *, size_t, const uint8_t *, size_t, uint8_t *, size_t);
struct kinohazel_image_check __wrap_kinohazel_check_nonnull(const uint8_t *, size_t);
struct kinohazel_text_written __wrap_kinohazel_text_nonnull(const uint8_t *, size_t, uint8_t *, size_t);
struct kinohazel_decision __wrap_kinohazel_decide_nonnull(const uint8_t *, size_t, uint64_t, const uint8_t *, size_t);
struct kinohazel_decision __wrap_kinohazel_decide_events_nonnull(const uint8_t *, size_t, uint64_t, const uint8_t *, size_t);
struct kinohazel_decision __wrap_kinohazel_step_nonnull(
    const uint8_t *, size_t, struct kinohazel_state *, const uint8_t *, size_t);
struct kinohazel_decision __wrap_kinohazel_step_events_nonnull(
    const uint8_t *, size_t, struct kinohazel_state *, const uint8_t *, size_t);
struct kinohazel_explanation __wrap_kinohazel_explain_nonnull(
    const uint8_t *, size_t, const uint8_t *, size_t, uint64_t, const uint8_t *, size_t, uint64_t);

static void refuse_null(const uint8_t *pointer)
{
    if (pointer == NULL)
        fail("kinohazel.h", "a null pointer is handed on to the library");
}

struct kinohazel_compilation __wrap_kinohazel_compile_nonnull(
    uint64_t form, const uint8_t *text, size_t text_length, uint8_t *out, size_t out_length)
{
    refuse_null(text);
    refuse_null(out);
    return __real_kinohazel_compile_nonnull(form, text, text_length, out, out_length);
}

struct kinohazel_texts_compilation __wrap_kinohazel_compile_texts_nonnull(uint64_t form, const uint8_t *maker,
    size_t maker_length, const uint8_t *site, size_t site_length, uint8_t *out, size_t out_length)
{
    refuse_null(maker);
    refuse_null(site);
    refuse_null(out);
    return __real_kinohazel_compile_texts_nonnull(form, maker, maker_length, site, site_length, out, out_length);
}

struct kinohazel_image_check __wrap_kinohazel_check_nonnull(const uint8_t *image, size_t image_length)
{
    refuse_null(image);
    return __real_kinohazel_check_nonnull(image, image_length);
}

struct kinohazel_text_written __wrap_kinohazel_text_nonnull(
    const uint8_t *image, size_t image_length, uint8_t *out, size_t out_length)
{
    refuse_null(image);
    refuse_null(out);
    return __real_kinohazel_text_nonnull(image, image_length, out, out_length);
}

struct kinohazel_decision __wrap_kinohazel_decide_nonnull(
    const uint8_t *image, size_t image_length, uint64_t pending, const uint8_t *line, size_t line_length)
{
    refuse_null(image);
    refuse_null(line);
    return __real_kinohazel_decide_nonnull(image, image_length, pending, line, line_length);
}

struct kinohazel_decision __wrap_kinohazel_decide_events_nonnull(
    const uint8_t *image, size_t image_length, uint64_t pending, const uint8_t *line, size_t line_length)
{
    refuse_null(image);
    refuse_null(line);
    return __real_kinohazel_decide_events_nonnull(image, image_length, pending, line, line_length);
}

struct kinohazel_decision __wrap_kinohazel_step_nonnull(
    const uint8_t *image, size_t image_length, struct kinohazel_state *state, const uint8_t *line, size_t line_length)
{
    refuse_null(image);
    refuse_null(line);
    return __real_kinohazel_step_nonnull(image, image_length, state, line, line_length);
}

struct kinohazel_decision __wrap_kinohazel_step_events_nonnull(
    const uint8_t *image, size_t image_length, struct kinohazel_state *state, const uint8_t *line, size_t line_length)
{
    refuse_null(image);
    refuse_null(line);
    return __real_kinohazel_step_events_nonnull(image, image_length, state, line, line_length);
}

struct kinohazel_explanation __wrap_kinohazel_explain_nonnull(const uint8_t *maker, size_t maker_length, const uint8_t *site,
    size_t site_length, uint64_t pending, const uint8_t *line, size_t line_length, uint64_t action)
{
    refuse_null(maker);
    refuse_null(site);
    refuse_null(line);
    return __real_kinohazel_explain_nonnull(maker, maker_length, site, site_length, pending, line, line_length, action);
}
