/* Tests runs in slices. Prints what fails; the last line is 'N passed, M failed'. */
#include <stdlib.h>
#include <string.h>

#include "expect.h"

#define USUAL {.fuel = 100000, .output = 65536, .depth = 8, .size = 65536, .nesting = 8}
static const struct jt_budget budget = USUAL;
static const struct jt_options options = JT_OPTIONS;

/* Templates: a page with nested calls, a loop, kept texts and an include; one that prints a long
 * text, and one that never returns within a usual budget. */
#define PAGE                                                                                      \
    "{% macro twice(x) %}{{ x }}{{ x }}{% endmacro %}{% macro four(x) %}{{ twice(twice(x)) }}"     \
    "{% endmacro %}{% for x in xs %}{{ loop.index }}: {{ four(x) | upper }}\n{% endfor %}"         \
    "{% include 'part' %}"
#define PART "{% set kept %}<{{ name }}>{% endset %}{{ kept }}{{ 1 // n }}"
#define LONG "{% for x in range(300) %}{{ x }}, {% endfor %}"
#define ENDLESS "{% for x in range(30000) %}{% for y in range(30000) %}{% endfor %}{% endfor %}"
static const char texts[] = "page" PAGE "part" PART "long" LONG "endless" ENDLESS;
static const struct jt_lengths lengths[] = {
    {4, LENGTH(PAGE)}, {4, LENGTH(PART)}, {4, LENGTH(LONG)}, {7, LENGTH(ENDLESS)}};

/* Workloads: texts, faults with and without a line, each number of the budget, a context whose
 * value exceeds a limit before the first instruction. */
static const struct {
    const char *entry, *context;
    struct jt_budget budget;
    uint32_t status, code;
} works[] = {
    {"page", "{\"xs\": [\"a\", \"b\", 3], \"name\": \"n\", \"n\": 1}", USUAL, JT_DONE, 0},
    {"page", "{\"xs\": [\"<\"], \"n\": 0}", USUAL, JT_FAULT, JT_FAULT_ZERO_DIVIDE},
    {"page", "{\"xs\": 7}", USUAL, JT_FAULT, JT_FAULT_NOT_ITERABLE},
    {"long", "{}", USUAL, JT_DONE, 0},
    {"endless", "{}", {20000, 65536, 8, 65536, 8}, JT_SPENT, JT_FUEL},
    {"page", "{\"xs\": [\"a\"], \"n\": 1}", {100000, 65536, 1, 65536, 8}, JT_SPENT, JT_DEPTH},
    {"long", "{}", {100000, 100, 8, 65536, 8}, JT_SPENT, JT_OUTPUT},
    {"long", "{}", {100000, 65536, 8, 20, 8}, JT_SPENT, JT_SIZE},
    {"page", "{\"xs\": [[[]]], \"n\": 1}", {9999, 65536, 8, 999, 2}, JT_SPENT, JT_NESTING},
    {"long", "{}", {0, 65536, 8, 65536, 8}, JT_SPENT, JT_FUEL},
};

static bool equal(struct jt_used a, struct jt_used b) {
    return a.fuel == b.fuel && a.output == b.output && a.depth == b.depth && a.size == b.size &&
           a.nesting == b.nesting;
}

static struct jt_image image;
static struct jt_context context;

/* Fills the image and the context of a workload. */
static void load(size_t work) {
    static uint8_t made[65536], out[ROOM];
    const struct jt_answer answer =
        jt_compile(BYTES(texts), lengths, COUNT_OF(lengths), BYTES(works[work].entry), options,
                   made, sizeof made);
    expect(is(answer, JT_DONE, 0), "a template compiles");
    expect(is(jt_image_load(made, answer.length, &image, out, ROOM), JT_DONE, 0), "an image");
    expect(is(jt_context_load(BYTES(works[work].context), &context, out, ROOM), JT_DONE, 0),
           "a context");
}

static void unload(void) {
    jt_image_free(&image);
    jt_context_free(&context);
}

/* Runs the workload in one call. */
static struct jt_answer whole(struct jt_budget within, uint8_t *out, size_t room) {
    struct jt_outcome outcome = {0};
    const struct jt_answer answer = jt_image_run(&image, &context, within, &outcome, out, room);
    jt_outcome_free(&outcome);
    return answer;
}

/* Advances a run to its end by slices of a size, and returns the number of slices. */
static long to_the_end(struct jt_run *run, uint32_t steps) {
    long slices = 0;
    uint32_t status;
    do {
        status = jt_run_advance(run, steps);
        slices++;
    } while (status == JT_GOING);
    expect(status == JT_DONE, "a run ends");
    return slices;
}

/* Checks that the numbers that a text has used suffice for it, and that one less does not. */
static void suffices(struct jt_used used, const struct result *wanted) {
    struct result result;
    struct jt_budget within = budget;
    within.fuel = used.fuel;
    within.output = used.output;
    within.depth = used.depth;
    within.size = used.size;
    within.nesting = used.nesting;
    clear(&result);
    result.answer = whole(within, result.out, ROOM);
    expect(same(&result, wanted), "what was used suffices");
    within.fuel = used.fuel - 1;
    expect(is(whole(within, result.out, ROOM), JT_SPENT, JT_FUEL), "one fuel less");
    within.fuel = used.fuel;
    within.output = used.output - 1;
    expect(is(whole(within, result.out, ROOM), JT_SPENT, JT_OUTPUT), "one byte less");
    within.output = used.output;
    within.depth = used.depth - 1;
    expect(used.depth == 0 || is(whole(within, result.out, ROOM), JT_SPENT, JT_DEPTH),
           "one call less");
    within.depth = used.depth;
    within.size = used.size - 1;
    expect(used.size == 0 || is(whole(within, result.out, ROOM), JT_SPENT, JT_SIZE), "one size less");
    within.size = used.size;
    within.nesting = used.nesting - 1;
    expect(used.nesting == 0 || is(whole(within, result.out, ROOM), JT_SPENT, JT_NESTING),
           "one level less");
}

/* Checks that slices of any size have the outcome of the run in one call, and use the same. */
static void outcomes(size_t work) {
    const uint32_t sizes[] = {1, 7, 1000, 4294967295u};
    struct result wanted, result;
    struct jt_used first = {0, 0, 0, 0, 0};
    load(work);
    clear(&wanted);
    wanted.answer = whole(works[work].budget, wanted.out, ROOM);
    expect(is(wanted.answer, works[work].status, works[work].code), "a workload");
    for (size_t i = 0; i < COUNT_OF(sizes); i++) {
        struct jt_run run = {0};
        expect(jt_run_start(&image, &context, works[work].budget, &run) == JT_DONE && run.full,
               "a run starts");
        const long slices = to_the_end(&run, sizes[i]);
        expect(sizes[i] < 4294967295u || slices == 1, "one slice of all instructions");
        clear(&result);
        result.answer = jt_run_outcome(&run, result.out, ROOM);
        expect(same(&result, &wanted), "the outcome of a run in slices");
        const struct jt_used used = jt_run_used(&run);
        first = i == 0 ? used : first;
        expect(equal(used, first), "what a run has used, by slices of any size");
        expect(used.fuel <= works[work].budget.fuel && used.output <= works[work].budget.output &&
                   used.depth <= works[work].budget.depth && used.size <= works[work].budget.size &&
                   used.nesting <= works[work].budget.nesting,
               "no run uses more than its budget");
        expect(jt_run_advance(&run, 5) == JT_DONE && equal(jt_run_used(&run), first),
               "a run that has ended stays so");
        clear(&result);
        result.answer = jt_run_outcome(&run, result.out, 0);
        expect(result.answer.length == wanted.answer.length && result.out[0] == 'x',
               "the length of an outcome");
        jt_run_free(&run);
    }
    if (wanted.answer.status == JT_DONE) {
        suffices(first, &wanted);
    }
    unload();
}

/* Stops a run after each number of instructions, and checks that its memory is given back. */
static void stops(size_t work) {
    load(work);
    const int64_t before = jt_memory_held();
    struct jt_used last = {0, 0, 0, 0, 0};
    bool going = true;
    for (uint32_t steps = 0; going; steps++) {
        struct jt_run run = {0};
        struct result result;
        jt_run_start(&image, &context, works[work].budget, &run);
        const uint32_t status = jt_run_advance(&run, steps);
        const struct jt_used used = jt_run_used(&run);
        going = status == JT_GOING;
        expect(going || status == JT_DONE, "a slice");
        expect(last.fuel <= used.fuel && last.output <= used.output && last.depth <= used.depth &&
                   last.size <= used.size && last.nesting <= used.nesting,
               "what is used grows");
        last = used;
        clear(&result);
        result.answer = jt_run_outcome(&run, result.out, ROOM);
        expect(!going || (is(result.answer, JT_USAGE, JT_NOT_ENDED) && result.answer.length == 0 &&
                          result.out[0] == 'x'),
               "a run that goes on has no outcome");
        jt_run_free(&run);
        expect(!run.full && jt_memory_held() == before, "a run that is stopped gives all back");
    }
    unload();
}

/* Checks that runs that take turns go on as if alone, after image and context were freed. */
static void turns(void) {
    struct jt_run runs[COUNT_OF(works)] = {{0}};
    struct result wanted[COUNT_OF(works)], result;
    for (size_t i = 0; i < COUNT_OF(works); i++) {
        load(i);
        clear(&wanted[i]);
        wanted[i].answer = whole(works[i].budget, wanted[i].out, ROOM);
        expect(jt_run_start(&image, &context, works[i].budget, &runs[i]) == JT_DONE, "a turn");
        unload();
    }
    for (bool going = true; going;) {
        going = false;
        for (size_t i = 0; i < COUNT_OF(works); i++) {
            going = jt_run_advance(&runs[i], 3) == JT_GOING || going;
        }
    }
    for (size_t i = 0; i < COUNT_OF(works); i++) {
        clear(&result);
        result.answer = jt_run_outcome(&runs[i], result.out, ROOM);
        expect(same(&result, &wanted[i]), "the outcome of a run that took turns");
        jt_run_free(&runs[i]);
    }
}

/* Checks empty handles, handles of another kind, and a handle that is filled again. */
static void handles(void) {
    struct jt_image no_image = {0};
    struct jt_context no_context = {0};
    struct jt_run run = {0};
    struct result result;
    load(0);
    clear(&result);
    expect(jt_run_advance(&run, 1) == JT_USAGE && !run.full, "no run to advance");
    expect(is(jt_run_outcome(&run, result.out, ROOM), JT_USAGE, JT_NOT_HELD), "no run");
    expect(equal(jt_run_used(&run), (struct jt_used){0, 0, 0, 0, 0}), "no run has used anything");
    expect(jt_run_start(&no_image, &context, budget, &run) == JT_USAGE && !run.full, "no image");
    expect(jt_run_start(&image, &no_context, budget, &run) == JT_USAGE && !run.full,
           "no context");
    expect(jt_run_start(&image, &context, budget, &run) == JT_DONE && image.full && context.full,
           "image and context stay");
    expect(jt_run_advance(&run, 0) == JT_GOING, "a slice of no instruction");
    expect(jt_run_start(&image, &no_context, budget, &run) == JT_USAGE && !run.full,
           "a run that fails frees the one before");
    jt_run_start(&image, &context, budget, &run);
    jt_run_advance(&run, 10);
    expect(jt_run_start(&image, &context, budget, &run) == JT_DONE &&
               jt_run_used(&run).fuel == 0,
           "a second run frees the one before");
    struct jt_context *other = (struct jt_context *)&run;
    struct jt_run *no_run = (struct jt_run *)&context;
    struct jt_run second = {0};
    expect(jt_run_start(&image, other, budget, &second) == JT_USAGE && !second.full && run.full,
           "a run is no context");
    expect(jt_run_advance(no_run, 1) == JT_USAGE && context.full, "a context is no run");
    expect(is(jt_run_outcome(no_run, result.out, ROOM), JT_USAGE, JT_NOT_HELD) && context.full,
           "a context has no outcome");
    expect(equal(jt_run_used(no_run), (struct jt_used){0, 0, 0, 0, 0}) && context.full,
           "a context has used nothing");
    expect(is(jt_outcome_read((struct jt_outcome *)&run, result.out, ROOM), JT_USAGE, JT_NOT_HELD),
           "a run is no outcome");
    const struct jt_run moved = run;
    memset(&run, 0, sizeof run);
    second = moved;
    to_the_end(&second, 100);
    expect(is(jt_run_outcome(&second, result.out, ROOM), JT_DONE, 0), "a handle was moved");
    jt_run_free(&second);
    jt_run_free(&second);
    unload();
}

/* Starts and advances a run under each limit of memory: a refused growth loses no memory. */
static void memory(void) {
    struct result wanted, result;
    long lost = 0, ended = 0, refused = 0;
    load(0);
    clear(&wanted);
    wanted.answer = whole(budget, wanted.out, ROOM);
    for (uint64_t limit = 0; ended < 10; limit += 32) {
        struct jt_run run = {0};
        jt_memory_limit(limit);
        uint32_t status = jt_run_start(&image, &context, budget, &run);
        if (status == JT_MEMORY) {
            refused++;
            expect(!run.full, "a run that does not start");
        } else {
            while ((status = jt_run_advance(&run, 5)) == JT_GOING) {
            }
            clear(&result);
            result.answer = jt_run_outcome(&run, result.out, ROOM);
            if (status == JT_MEMORY) {
                lost++;
                const struct jt_used used = jt_run_used(&run);
                expect(is(result.answer, JT_MEMORY, 0) && run.full, "a lost run has no outcome");
                jt_memory_limit(JT_NO_LIMIT);
                expect(jt_run_advance(&run, 5) == JT_MEMORY && equal(jt_run_used(&run), used),
                       "a lost run stays lost");
                jt_run_free(&run);
                continue;
            }
            ended++;
            expect(same(&result, &wanted), "a run within its limit");
        }
        jt_run_free(&run);
        expect(jt_memory_held() == 0, "all memory is given back");
        jt_memory_limit(JT_NO_LIMIT);
    }
    expect(refused > 0 && lost > 0, "limits refuse starts and slices");
    unload();
}

int main(void) {
    for (size_t work = 0; work < COUNT_OF(works); work++) {
        outcomes(work);
        expect(jt_memory_held() == 0, "nothing is held after outcomes");
    }
    stops(0);
    stops(1);
    stops(5);
    turns();
    handles();
    expect(jt_memory_held() == 0, "nothing is held after all tests but that of limits");
    memory();
    return tally();
}
