// Uses all of include/kinohazel.h from C++: each struct and each enum by its name alone, each function and each macro. What it
// prints is stored in header.out.
#include "kinohazel.h"

#include <cstring>
#include <initializer_list>
#include <iostream>
#include <vector>

static const uint8_t *bytes_of(const char *string) { return reinterpret_cast<const uint8_t *>(string); }

static void print(const char *name, std::initializer_list<uint64_t> members)
{
    std::cout << name;
    for (const uint64_t member : members)
        std::cout << ' ' << member;
    std::cout << '\n';
}

static void print(const kinohazel_compilation &answer) { print("compile", {answer.fault, answer.line, answer.size}); }

static void print(const kinohazel_texts_compilation &answer)
{
    print("compile texts", {answer.fault, answer.text, answer.line, answer.size});
}

static void print(const kinohazel_image_check &answer)
{
    print("check", {answer.fault, answer.word, answer.rules, answer.constraints});
}

static void print(const kinohazel_text_written &answer) { print("text", {answer.fault, answer.word, answer.size}); }

static void print(const char *name, const kinohazel_decision &answer)
{
    print(name, {answer.fault, answer.word, answer.accepted, answer.cancelled, answer.triggered, answer.visited});
}

static void print(const char *name, const kinohazel_decision &answer, const kinohazel_state &state)
{
    print(name, answer);
    print("  pending", {state.pending});
}

static void print(const kinohazel_explanation &answer)
{
    print("explain", {answer.fault, answer.text, answer.line, answer.outcome, answer.part_text, answer.part_start,
                         answer.part_length});
}

int main()
{
    static const char text[] = "E1 causes A3\nE1 causes A4\nnever A3 & A4\n", line[] = "E1";
    const size_t text_length = std::strlen(text), line_length = std::strlen(line);
    const std::vector<uint8_t> nothing;
    std::vector<uint8_t> no_room, image(KINOHAZEL_IMAGE_LIMIT), written(KINOHAZEL_WRITTEN_TEXT_LIMIT);

    std::cout << "version " << KINOHAZEL_VERSION << ", " << KINOHAZEL_VERSION_MAJOR << ' ' << KINOHAZEL_VERSION_MINOR << ' '
              << KINOHAZEL_VERSION_PATCH << '\n';
    std::cout << "newest form " << KINOHAZEL_NEWEST_FORM << '\n';
    std::cout << "limits " << KINOHAZEL_TEXT_LIMIT << ' ' << KINOHAZEL_EPOCH_LIMIT << ' ' << KINOHAZEL_IMAGE_LIMIT << ' '
              << KINOHAZEL_WRITTEN_TEXT_LIMIT << ' ' << KINOHAZEL_RULE_LIMIT << ' ' << KINOHAZEL_CONSTRAINT_LIMIT << '\n';
    std::cout << "stack " << KINOHAZEL_COMPILE_STACK << ' ' << KINOHAZEL_COMPILE_TEXTS_STACK << ' ' << KINOHAZEL_CHECK_STACK
              << ' ' << KINOHAZEL_TEXT_STACK << ' ' << KINOHAZEL_DECIDE_STACK << ' ' << KINOHAZEL_DECIDE_EVENTS_STACK << ' '
              << KINOHAZEL_STEP_STACK << ' ' << KINOHAZEL_STEP_EVENTS_STACK << ' ' << KINOHAZEL_EXPLAIN_STACK << '\n';

    const uint64_t form = KINOHAZEL_NEWEST_FORM;
    print(kinohazel_compile(1, bytes_of(text), text_length, &image[0], image.size()));
    print(kinohazel_compile(0, bytes_of(text), text_length, &image[0], image.size()));
    print(kinohazel_compile_nonnull(form + 3, bytes_of(text), text_length, &image[0], image.size()));
    const kinohazel_compilation compilation = kinohazel_compile(form, bytes_of(text), text_length, &image[0], image.size());
    const size_t size = static_cast<size_t>(compilation.size);
    print(compilation);
    print(kinohazel_compile_nonnull(form, bytes_of(text), text_length, &image[0], size - 1));
    print(kinohazel_compile(form, bytes_of("x\n"), 2, no_room.data(), no_room.size()));
    print(kinohazel_compile(form, nothing.data(), nothing.size(), no_room.data(), no_room.size()));
    const kinohazel_image_check check = kinohazel_check(&image[0], size);
    print(check);
    print(kinohazel_check_nonnull(&image[0], size - 1));
    print(kinohazel_check(nothing.data(), nothing.size()));
    const kinohazel_text_written answer = kinohazel_text(&image[0], size, &written[0], written.size());
    print(answer);
    std::cout.write(reinterpret_cast<const char *>(&written[0]), static_cast<std::streamsize>(answer.size));
    print(kinohazel_text_nonnull(&image[0], size, &written[0], text_length - 1));
    print(kinohazel_text(&image[0], size, no_room.data(), no_room.size()));
    print(kinohazel_text(nothing.data(), nothing.size(), no_room.data(), no_room.size()));
    const kinohazel_decision decision = kinohazel_decide(&image[0], size, 0, bytes_of(line), line_length);
    print("decide", decision);
    print("decide", kinohazel_decide(&image[0], size, 2, nothing.data(), nothing.size()));
    print("decide", kinohazel_decide_nonnull(&image[0], size, 0, bytes_of("R0=1 R0=1"), 9));
    print("decide", kinohazel_decide(&image[0], size, 0, nothing.data(), nothing.size()));
    print("decide", kinohazel_decide(nothing.data(), nothing.size(), 0, nothing.data(), nothing.size()));
    const kinohazel_decision by_events = kinohazel_decide_events(&image[0], size, 0, bytes_of(line), line_length);
    print("decide events", by_events);
    print("decide events", kinohazel_decide_events(&image[0], size, 2, nothing.data(), nothing.size()));
    print("decide events", kinohazel_decide_events_nonnull(&image[0], size, 0, bytes_of("R0=1 R0=1"), 9));
    print("decide events", kinohazel_decide_events(&image[0], size, 0, nothing.data(), nothing.size()));
    print("decide events", kinohazel_decide_events(nothing.data(), nothing.size(), 0, nothing.data(), nothing.size()));
    static const char absence[] = "!E1 causes A3\nnever A3\n";
    const kinohazel_compilation unavoidable =
        kinohazel_compile(form, bytes_of(absence), std::strlen(absence), &image[0], image.size());
    print("decide events",
        kinohazel_decide_events(&image[0], static_cast<size_t>(unavoidable.size), 0, nothing.data(), nothing.size()));

    static const char chain[] = "E1 triggers E60\nE60 causes A2\nE2 causes A1\nnever A1 & A2\n";
    print(kinohazel_compile(2, bytes_of(chain), std::strlen(chain), &image[0], image.size()));
    const kinohazel_compilation remembering = kinohazel_compile(form, bytes_of(chain), std::strlen(chain), &image[0], image.size());
    print(remembering);
    const size_t chain_size = static_cast<size_t>(remembering.size);
    kinohazel_state state = KINOHAZEL_STATE_START;
    for (const char *const scan : {"E1", "E60", "E1 E2", "E2"})
        print("step", kinohazel_step(&image[0], chain_size, &state, bytes_of(scan), std::strlen(scan)), state);
    for (const char *const scan : {"E1", "E64", "E1 E2", "E2"})
        print("step events", kinohazel_step_events(&image[0], chain_size, &state, bytes_of(scan), std::strlen(scan)), state);
    state.pending = 1;
    print("step", kinohazel_step_nonnull(&image[0], chain_size - 1, &state, bytes_of(line), line_length), state);
    print("step events", kinohazel_step_events_nonnull(&image[0], chain_size, &state, bytes_of(line), line_length), state);
    print("step", kinohazel_step(nothing.data(), nothing.size(), &state, nothing.data(), nothing.size()), state);
    print("step events", kinohazel_step_events(&image[0], chain_size, &state, nothing.data(), nothing.size()), state);

    static const char site[] = "  E1 causes A5  \nnever A3 & A5";
    const size_t site_length = std::strlen(site);
    const kinohazel_texts_compilation joint =
        kinohazel_compile_texts(form, bytes_of(text), text_length, bytes_of(site), site_length, &image[0], image.size());
    print(joint);
    print(kinohazel_compile_texts(form + 3, bytes_of(text), text_length, bytes_of(site), site_length, &image[0], image.size()));
    print(kinohazel_compile_texts_nonnull(form, bytes_of(text), text_length, bytes_of(site), site_length, &image[0], size));
    print(kinohazel_compile_texts(form, bytes_of(text), text_length, bytes_of("\nx"), 2, no_room.data(), no_room.size()));
    print(kinohazel_compile_texts(form, bytes_of("x"), 1, bytes_of("\nx"), 2, no_room.data(), no_room.size()));
    print(kinohazel_compile_texts(
        form, nothing.data(), nothing.size(), nothing.data(), nothing.size(), no_room.data(), no_room.size()));
    for (uint64_t action = 2; action < 6; action++) {
        const kinohazel_explanation why = kinohazel_explain(
            bytes_of(text), text_length, bytes_of(site), site_length, 0, bytes_of(line), line_length, action);
        print(why);
        std::cout.write((why.part_text == 2 ? site : text) + why.part_start, static_cast<std::streamsize>(why.part_length));
        std::cout << '\n';
    }
    print(kinohazel_explain_nonnull(bytes_of(text), text_length, bytes_of("E64 causes A1"), 13, 0, bytes_of(line), line_length, 64));
    print(kinohazel_explain(bytes_of(text), text_length, nothing.data(), nothing.size(), 0, nothing.data(), nothing.size(), 64));
    print(kinohazel_explain(nothing.data(), nothing.size(), nothing.data(), nothing.size(), 0, nothing.data(), nothing.size(), 3));
    print(kinohazel_explain(bytes_of(text), text_length, bytes_of(site), site_length, 2, nothing.data(), nothing.size(), 4));
    print(kinohazel_explain(bytes_of(text), text_length, bytes_of(chain), std::strlen(chain), 0, bytes_of("E60"), 3, 64));
    const kinohazel_outcome outcomes[] = {
        KINOHAZEL_NONE, KINOHAZEL_NOT_PROPOSED, KINOHAZEL_ACCEPTED, KINOHAZEL_CANCELLED};
    for (const kinohazel_outcome outcome : outcomes)
        std::cout << outcome << (outcome == KINOHAZEL_CANCELLED ? "\n" : " ");

    const kinohazel_fault last = KINOHAZEL_RESERVED_EVENT;
    for (uint64_t fault = KINOHAZEL_OK; fault <= last + 1u; fault++)
        std::cout << fault << ' ' << kinohazel_fault_words(fault) << '\n';
    return 0;
}
