/* Tests jt_memory_limit: each call is made under every limit, in steps, and ends with JT_MEMORY or
 * as without a limit; and all that it took is freed. The last line is 'N passed, M failed'. */
#define _POSIX_C_SOURCE 200809L
#include <pthread.h>
#include <stdio.h>
#include <string.h>
#include <sys/resource.h>

#include "expect.h"

#define PAGE                                                                                     \
    "{% extends 'base' %}{% block body %}{% for x in xs %}{{ x ~ '!' }}{% endfor %}"              \
    "{% set y = range(1000) %}{{ y | length }}{% endblock %}"
#define BASE "<p>{% block body %}{% endblock %}</p>"
#define STEP 64
#define MOST (192 * 1024)

static const char texts[] = "page" PAGE "base" BASE;
static const char context[] = "{\"xs\": [\"a\", \"b\", 3]}";
static const char text[] = "<p>a!b!3!1000</p>";
static const struct jt_budget budget = {
    .fuel = 100000, .output = 65536, .depth = 8, .size = 65536, .nesting = 8};
static uint8_t image[65536], out[65536], wanted[65536];
static size_t image_length;

/* What the calls over handles use, and what they fill. */
static struct jt_library library, filled_library;
static struct jt_image kept, filled_image;
static struct jt_context values, filled_context;
static struct jt_outcome outcome, filled_outcome;
static struct jt_run filled_run;
static const struct jt_lengths lengths[] = {{4, LENGTH(PAGE)}, {4, LENGTH(BASE)}};
#define TEMPLATES bytes(texts), LENGTH(texts), lengths, 2
static const struct jt_options options = JT_OPTIONS;

static struct jt_answer compile(uint8_t *to) {
    return jt_compile(TEMPLATES, bytes("page"), 4, options, to, sizeof out);
}

static struct jt_answer check(uint8_t *to) {
    return jt_check(image, image_length, to, sizeof out);
}

static struct jt_answer run(uint8_t *to) {
    return jt_run(image, image_length, bytes(context), LENGTH(context), budget, to, sizeof out);
}

static struct jt_answer render(uint8_t *to) {
    return jt_render(TEMPLATES, bytes("page"), 4, options, bytes(context), LENGTH(context), budget,
                     to, sizeof out);
}

static struct jt_answer load_library(uint8_t *to) {
    return jt_library_load(TEMPLATES, &filled_library, to, sizeof out);
}

static struct jt_answer compile_of(uint8_t *to) {
    return jt_library_compile(&library, bytes("page"), 4, options, &filled_image, to, sizeof out);
}

static struct jt_answer needs_of(uint8_t *to) {
    return jt_library_needs(&library, bytes("page"), 4, options, to, sizeof out);
}

static struct jt_answer share_library(uint8_t *to) {
    (void)to;
    return (struct jt_answer){.status = jt_library_share(&library, &filled_library)};
}

static struct jt_answer save(uint8_t *to) { return jt_image_save(&kept, to, sizeof out); }

static struct jt_answer load_image(uint8_t *to) {
    return jt_image_load(image, image_length, &filled_image, to, sizeof out);
}

static struct jt_answer load_context(uint8_t *to) {
    return jt_context_load(bytes(context), LENGTH(context), &filled_context, to, sizeof out);
}

static struct jt_answer run_image(uint8_t *to) {
    return jt_image_run(&kept, &values, budget, &filled_outcome, to, sizeof out);
}

/* Runs the image for two contexts, and returns the last answer. */
static struct jt_answer run_each(uint8_t *to) {
    const char two[] = "[]{\"xs\": [\"a\", \"b\", 3]}";
    const uint64_t of_two[] = {2, LENGTH(two) - 2};
    struct jt_answer answers[2];
    const size_t count = jt_image_run_each(&kept, bytes(two), LENGTH(two), of_two, 2, budget,
                                           &filled_outcome, answers, 2, to, sizeof out);
    return answers[count - 1];
}

/* Runs the image in slices. */
static struct jt_answer run_slices(uint8_t *to) {
    struct jt_answer answer = {.status = jt_run_start(&kept, &values, budget, &filled_run)};
    while (filled_run.full && jt_run_advance(&filled_run, 10) == JT_GOING) {
    }
    return filled_run.full ? jt_run_outcome(&filled_run, to, sizeof out) : answer;
}

static struct jt_answer read_outcome(uint8_t *to) {
    return jt_outcome_read(&outcome, to, sizeof out);
}

static struct jt_answer share_image(uint8_t *to) {
    (void)to;
    return (struct jt_answer){.status = jt_image_share(&kept, &filled_image)};
}

static const struct {
    const char *name;
    struct jt_answer (*make)(uint8_t *);
} calls[] = {
    {"jt_compile", compile},
    {"jt_check", check},
    {"jt_run", run},
    {"jt_render", render},
    {"jt_library_load", load_library},
    {"jt_library_compile", compile_of},
    {"jt_library_needs", needs_of},
    {"jt_library_share", share_library},
    {"jt_image_load", load_image},
    {"jt_image_save", save},
    {"jt_image_share", share_image},
    {"jt_context_load", load_context},
    {"jt_image_run", run_image},
    {"jt_image_run_each", run_each},
    {"jt_run_advance", run_slices},
    {"jt_outcome_read", read_outcome},
};

static void free_filled(void) {
    jt_library_free(&filled_library);
    jt_image_free(&filled_image);
    jt_context_free(&filled_context);
    jt_outcome_free(&filled_outcome);
    jt_run_free(&filled_run);
}

/* Makes a call under one limit. Returns whether it ends as it has to, and all is freed. */
static bool is_limited(size_t which, uint64_t limit, struct jt_answer usual, bool *was_refused) {
    jt_memory_limit(limit);
    const struct jt_answer answer = calls[which].make(out);
    const bool within = jt_memory_held() <= (int64_t)limit + 8192;
    free_filled();
    const bool freed = jt_memory_held() == 0;
    jt_memory_limit(JT_NO_LIMIT);
    *was_refused = answer.status == JT_MEMORY;
    return within && freed &&
           (*was_refused || (answer.status == usual.status && answer.length == usual.length &&
                             memcmp(out, wanted, usual.length) == 0));
}

static void each_limit(size_t which) {
    jt_memory_limit(JT_NO_LIMIT);
    const struct jt_answer usual = calls[which].make(wanted);
    free_filled();
    expect(usual.status == JT_DONE && jt_memory_held() == 0, calls[which].name);
    long refused = 0;
    bool all = true, was_refused = true;
    for (uint64_t limit = 0; limit < MOST && all; limit += STEP) {
        all = is_limited(which, limit, usual, &was_refused);
        refused += was_refused;
    }
    expect(all && !was_refused, calls[which].name);
    printf("%-18s %5ld of %d limits refuse it\n", calls[which].name, refused, MOST / STEP);
}

/* Runs a template that holds a large list for each of its tags. */
static void many_lists(void) {
    static char source[1 << 16] = "t";
    static uint8_t list_image[1 << 20];
    struct jt_budget page = budget;
    struct rusage used;
    char *end = source + 1;
    for (int i = 0; i < 1500; i++) {
        end += sprintf(end, "{%% set a%d = range(65535)|map('abs') %%}", i);
    }
    const size_t length = (size_t)(end - source);
    struct jt_answer answer =
        jt_compile(bytes(source), length, &(struct jt_lengths){1, length - 1}, 1, bytes("t"), 1,
                   options, list_image, sizeof list_image);
    expect(answer.status == JT_DONE && answer.length <= sizeof list_image, "many lists");
    page.fuel = 1000000000;
    jt_memory_limit(32 << 20);
    answer = jt_run(list_image, answer.length, bytes("{}"), 2, page, out, sizeof out);
    expect(answer.status == JT_MEMORY && jt_memory_held() == 0, "lists above the limit");
    jt_memory_limit(JT_NO_LIMIT);
    getrusage(RUSAGE_SELF, &used);
    expect(used.ru_maxrss < 96 * 1024, "lists are never held above the limit");
}

static void *without_limit(void *unused) {
    (void)unused;
    static uint8_t other[65536];
    const struct jt_answer answer =
        jt_run(image, image_length, bytes(context), LENGTH(context), budget, other, sizeof other);
    return answer.status == JT_DONE && jt_memory_held() == 0 ? other : NULL;
}

static void numbers(void) {
    pthread_t thread;
    void *done = NULL;
    expect(jt_memory_limit(1 << 20) == JT_NO_LIMIT, "a thread begins with no limit");
    load_context(out);
    const int64_t held = jt_memory_held();
    expect(0 < held && held < 4096, "a context is held");
    expect(jt_memory_limit(0) == (1 << 20) - (uint64_t)held, "what is left of a limit");
    expect(run(out).status == JT_MEMORY, "a limit of 0");
    expect(pthread_create(&thread, NULL, without_limit, NULL) == 0 &&
               pthread_join(thread, &done) == 0 && done != NULL,
           "another thread has no limit");
    free_filled();
    expect(jt_memory_held() == -held, "what was held before is freed");
    expect(jt_memory_limit(UINT64_MAX - 1) == (uint64_t)held, "freed bytes are left");
    expect(jt_memory_limit(JT_NO_LIMIT) == JT_NO_LIMIT, "a limit of all bytes is none");
}

int main(void) {
    image_length = compile(image).length;
    expect(jt_library_load(TEMPLATES, &library, out, sizeof out).status == JT_DONE, "a library");
    expect(jt_library_compile(&library, bytes("page"), 4, options, &kept, out, sizeof out).status ==
               JT_DONE,
           "an image");
    expect(jt_context_load(bytes(context), LENGTH(context), &values, out, sizeof out).status ==
               JT_DONE,
           "a context");
    const struct jt_answer answer = jt_image_run(&kept, &values, budget, &outcome, out, sizeof out);
    expect(answer.length == LENGTH(text) && memcmp(out, text, answer.length) == 0, "a text");
    const int64_t held_first = jt_memory_held();
    expect(held_first > 0, "handles hold memory");
    numbers();
    for (size_t which = 0; which < COUNT_OF(calls); which++) {
        each_limit(which);
    }
    many_lists();
    jt_memory_limit(JT_NO_LIMIT);
    jt_library_free(&library);
    jt_image_free(&kept);
    jt_context_free(&values);
    jt_outcome_free(&outcome);
    /* (Each limit counts from 0: the test of one call has compared what it takes with that.) */
    expect(jt_memory_held() == -held_first, "what the handles of the test held is freed");
    return tally();
}
