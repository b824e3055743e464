/* Tests the calls that keep nothing. Prints what fails; the last line is 'N passed, M failed'. */
#include <stdio.h>
#include <string.h>

#include "expect.h"

static const struct jt_options usual = {.autoescape = 1};
static const struct jt_budget budget = {
    .fuel = 1000000, .output = 1048576, .depth = 64, .size = 1048576, .nesting = 32};
static uint8_t out[65536];

/* Renders the template `t` of this source for a context, into `room` bytes of the buffer. */
static struct jt_answer rendered(const char *source, const char *context, size_t room) {
    uint8_t texts[4096];
    const struct jt_lengths lengths = {1, strlen(source)};
    texts[0] = 't';
    memcpy(texts + 1, source, lengths.source);
    return jt_render(texts, 1 + lengths.source, &lengths, 1, bytes("t"), 1, usual, bytes(context),
                     strlen(context), budget, out, room);
}

/* Returns whether the answer and the buffer are these. */
static int tells(struct jt_answer answer, uint32_t status, uint32_t code, uint32_t line,
                 const char *told) {
    return answer.status == status && answer.code == code && answer.line == line &&
           answer.letter == 0 && answer.length == strlen(told) &&
           memcmp(out, told, answer.length) == 0;
}

static void buffers(void) {
    memset(out, '#', 8);
    expect(tells(rendered("abc", "{}", sizeof out), JT_DONE, 0, 0, "abc") && out[3] == '#',
           "a text is at the start of the buffer");
    memset(out, '#', 8);
    expect(tells(rendered("abcd", "{}", 4), JT_DONE, 0, 0, "abcd") && out[4] == '#',
           "a text fits exactly");
    memset(out, '#', 8);
    expect(rendered("abcde", "{}", 4).length == 5 && memcmp(out, "########", 8) == 0,
           "a text that is too long leaves the buffer as it was");
    expect(rendered("abcde", "{}", 0).length == 5, "a buffer of no bytes");
    expect(rendered("", "{}", 0).length == 0, "a text of no bytes");
    expect(rendered("{{ nope + 1 }}", "{}", 0).length == 1,
           "the length of the name of a template");
}

static void statuses(void) {
    expect(tells(rendered("a\n{{ nope + 1 }}", "{}", 64), JT_FAULT, 2, 2, "t"), "F2 in t line 2");
    expect(tells(rendered("{{ 1 // 0 }}", "{}", 64), JT_FAULT, JT_FAULT_ZERO_DIVIDE, 1, "t"),
           "F4 in t line 1");
    static const struct {
        uint32_t code;
        const char *source;
    } faults[] = {
        {JT_FAULT_BAD_TYPE, "{{ true + 1 }}"},
        {JT_FAULT_UNDEFINED, "{{ nope.x }}"},
        {JT_FAULT_OVERFLOW, "{{ 9223372036854775807 + 1 }}"},
        {JT_FAULT_ZERO_DIVIDE, "{{ 1 % 0 }}"},
        {JT_FAULT_UNPRINTABLE, "{{ [1] }}"},
        {JT_FAULT_NOT_ITERABLE, "{{ 1 in 2 }}"},
        {JT_FAULT_UNPACK, "{% set a, b = [1] %}"},
        {JT_FAULT_RANGE, "{{ range(1, 2, 0) }}"},
        {JT_FAULT_BAD_ARGUMENT, "{{ 'a'|replace('', 'b') }}"},
    };
    for (size_t i = 0; i < COUNT_OF(faults); i++) {
        expect(tells(rendered(faults[i].source, "{}", 64), JT_FAULT, faults[i].code, 1, "t"),
               faults[i].source);
    }
    static const struct jt_options strict = {.autoescape = 1, .strict = 1};
    expect(tells(jt_render(bytes("ta{{ nope }}"), 12, &(struct jt_lengths){1, 11}, 1, bytes("t"), 1,
                           strict, bytes("{}"), 2, budget, out, 64),
                 JT_FAULT, JT_FAULT_UNDEFINED, 1, "t"),
           "an undefined value is printed in a strict template");
    expect(tells(rendered("a{{ nope }}", "{}", 64), JT_DONE, 0, 0, "a"), "and in another one");
    expect(tells(rendered("", "[]", 64), JT_REFUSED, 0, 0, "X2 NotObject"), "X2");
    expect(tells(rendered("", "", 64), JT_REFUSED, 0, 0, "X1 NotJson"), "X1 of no bytes");
    expect(tells(rendered("", "{\"a\": \"\xff\"}", 64), JT_REFUSED, 0, 0, "X1 NotJson"),
           "X1 of bytes that are not UTF-8");
    expect(tells(rendered("{{ 1 + }}", "{}", 64), JT_REFUSED, 0, 0, "P1 Syntax in t line 1"),
           "P1");
    expect(tells(rendered("{% for i in range(100000) %}aaaaaaaaaaaaaaaa{% endfor %}", "{}", 64),
                 JT_SPENT, JT_OUTPUT, 0, ""),
           "Output");
    expect(tells(rendered("{% macro m() %}{{ m() }}{% endmacro %}{{ m() }}", "{}", 64), JT_SPENT,
                 JT_DEPTH, 0, ""),
           "Depth");
    expect(tells(rendered("{{ range(1048576)|length }}", "{}", 64), JT_SPENT, JT_SIZE, 0, ""),
           "Size");
    expect(tells(jt_render(bytes("t{{ [[1]]|length }}"), 19, &(struct jt_lengths){1, 18}, 1,
                           bytes("t"), 1, (struct jt_options)JT_OPTIONS, bytes("{}"), 2,
                           (struct jt_budget){.fuel = 100, .output = 9, .size = 9, .nesting = 1},
                           out, 64),
                 JT_SPENT, JT_NESTING, 0, ""),
           "Nesting");
}

/* Checks that the constants of the header are those of the program `jt`. */
static void constants(void) {
    const struct jt_budget most = JT_BUDGET;
    const struct jt_options plain = JT_OPTIONS;
    expect(most.fuel == 1000000 && most.output == 1048576 && most.depth == 64 &&
               most.size == 1048576 && most.nesting == 32,
           "JT_BUDGET");
    expect(!plain.trim_blocks && !plain.lstrip_blocks && !plain.keep_trailing_newline &&
               plain.autoescape == 1 && !plain.strict,
           "JT_OPTIONS");
    char version[32];
    sprintf(version, "%d.%d.%d", JT_VERSION_MAJOR, JT_VERSION_MINOR, JT_VERSION_PATCH);
    expect(strcmp(version, JT_VERSION) == 0, "JT_VERSION");
}

static void misuse(void) {
    const struct jt_lengths more = {1, 9}, less = {1, 2}, much = {UINT64_MAX, UINT64_MAX},
                            pair[] = {{1, 0}, {1, 2}};
    const uint8_t *texts = bytes("tabc");
    expect(tells(jt_compile(texts, 4, &more, 1, texts, 1, usual, out, 64), JT_USAGE, JT_LENGTHS,
                 0, ""),
           "lengths beyond the bytes");
    expect(tells(jt_compile(texts, 4, &less, 1, texts, 1, usual, out, 64), JT_USAGE, JT_LENGTHS,
                 0, ""),
           "bytes beyond the lengths");
    expect(tells(jt_compile(texts, 4, &much, 1, texts, 1, usual, out, 64), JT_USAGE, JT_LENGTHS,
                 0, ""),
           "lengths of 64 bits");
    expect(tells(jt_compile(texts, 4, &more, 0, texts, 1, usual, out, 64), JT_USAGE, JT_LENGTHS,
                 0, ""),
           "bytes without lengths");
    expect(jt_compile(texts, 4, pair, 2, texts, 1, usual, out, sizeof out).status == JT_DONE,
           "a source of no bytes");
    expect(tells(jt_compile(texts, 0, &more, 0, texts, 1, usual, out, 64), JT_REFUSED, 0, 0,
                 "C1 Missing"),
           "no templates");
    expect(tells(jt_compile(bytes("t\xff\xff\xff"), 4, &(struct jt_lengths){1, 3}, 1, texts, 1,
                            usual, out, 64),
                 JT_USAGE, JT_NO_TEXT, 0, ""),
           "a source that is not UTF-8");
    expect(tells(jt_compile(bytes("\xffxxx"), 4, &(struct jt_lengths){1, 3}, 1, texts, 1, usual,
                            out, 64),
                 JT_USAGE, JT_NO_TEXT, 0, ""),
           "a name that is not UTF-8");
    expect(tells(jt_compile(texts, 4, &(struct jt_lengths){1, 3}, 1, bytes("\xff"), 1, usual, out,
                            64),
                 JT_USAGE, JT_NO_TEXT, 0, ""),
           "an entry that is not UTF-8");
    expect(tells(jt_compile(bytes("ta\xc3\xa9"), 4, (struct jt_lengths[]){{1, 2}, {1, 0}}, 2,
                            texts, 1, usual, out, 64),
                 JT_USAGE, JT_NO_TEXT, 0, ""),
           "a letter that lengths cut in two");
    const struct jt_lengths twice[] = {{1, 1}, {1, 1}};
    expect(tells(jt_render(bytes("tatb"), 4, twice, 2, texts, 1, usual, bytes("{}"), 2, budget,
                           out, 64),
                 JT_DONE, 0, 0, "b"),
           "the last source of a name counts");
}

/* Explains the template `t` of this source. */
static struct jt_answer explained(const char *source, size_t room) {
    uint8_t texts[4096];
    const struct jt_lengths lengths = {1, strlen(source)};
    texts[0] = 't';
    memcpy(texts + 1, source, lengths.source);
    return jt_explain(texts, 1 + lengths.source, &lengths, 1, bytes("t"), 1, usual, out, room);
}

/* Returns whether an explanation has this code, this line and this first line. */
static int explains(struct jt_answer answer, char letter, uint32_t code, uint32_t line,
                    const char *first) {
    return answer.status == JT_DONE && answer.letter == (uint32_t)letter && answer.code == code &&
           answer.line == line && answer.length > strlen(first) &&
           memcmp(out, first, strlen(first)) == 0 && out[strlen(first)] == '\n' &&
           out[answer.length - 1] == '\n';
}

static void explanations(void) {
    expect(tells(explained("a{{ x }}", 64), JT_DONE, 0, 0, "ok\n"), "nothing to explain");
    expect(explains(explained("a\n{{ x|uper }}", sizeof out), 'P', 3, 2,
                    "t:2: P3 UnknownFilter \"uper\""),
           "P3");
    expect(explains(explained("a\n\n{{ f() }}", sizeof out), 'V', 3, 3,
                    "t:3: V3 NotCallable \"f\""),
           "V3");
    expect(explains(explained("\n{{ x", sizeof out), 'S', 1, 2, "t:2: S1 UnclosedTag"), "S1");
    const struct jt_answer chain = explained("{% include 'no' %}", sizeof out);
    expect(chain.status == JT_DONE && chain.letter == 'C' && chain.code == 1, "C1");
    memset(out, '#', 8);
    const struct jt_answer shown = explained("{{ x|uper }}", 4);
    expect(shown.status == JT_DONE && shown.length > 4 && shown.code == 3 && out[0] == '#',
           "an explanation that is longer than the buffer");
    const struct jt_lengths more = {1, 9};
    expect(tells(jt_explain(bytes("tabc"), 4, &more, 1, bytes("t"), 1, usual, out, 64), JT_USAGE,
                 JT_LENGTHS, 0, ""),
           "lengths beyond the bytes are not explained");
    expect(tells(jt_explain(bytes("tabc"), 4, &(struct jt_lengths){1, 3}, 1, bytes("\xff"), 1,
                            usual, out, 64),
                 JT_USAGE, JT_NO_TEXT, 0, ""),
           "an entry that is not UTF-8 is not explained");
}

static void images(void) {
    static uint8_t image[65536];
    const struct jt_lengths lengths = {1, 7};
    struct jt_answer answer =
        jt_compile(bytes("t{{ n }}"), 8, &lengths, 1, bytes("t"), 1, usual, image, sizeof image);
    const size_t length = answer.length;
    expect(answer.status == JT_DONE && length > 0 && length <= sizeof image, "an image");
    expect(tells(jt_check(image, length, out, 64), JT_DONE, 0, 0, ""), "an image is accepted");
    expect(tells(jt_run(image, length, bytes("{\"n\": \"<\"}"), 10, budget, out, 64), JT_DONE, 0,
                 0, "&lt;"),
           "an image runs");
    expect(tells(jt_run(image, length, bytes("{}"), 2, (struct jt_budget){0}, out, 64), JT_SPENT,
                 JT_FUEL, 0, ""),
           "Fuel");
    size_t refused = 0;
    for (size_t at = 0; at < length; at++) {
        refused += jt_check(image, at, out, 64).status == JT_REFUSED && out[0] == 'I';
    }
    expect(refused == length, "a prefix of an image is refused");
    expect(jt_run(image, length - 1, bytes("{}"), 2, budget, out, 64).status == JT_REFUSED,
           "a prefix of an image does not run");
}

int main(void) {
    buffers();
    statuses();
    constants();
    misuse();
    explanations();
    images();
    return tally();
}
