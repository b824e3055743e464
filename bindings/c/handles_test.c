/* Tests the calls over handles. Prints what fails; the last line is 'N passed, M failed'. */
#include <pthread.h>
#include <stdlib.h>
#include <string.h>

#include "expect.h"

static const struct jt_budget budget = {
    .fuel = 100000, .output = 65536, .depth = 8, .size = 65536, .nesting = 8};
static const struct jt_options options = JT_OPTIONS;

/* Templates, and the image of `page`. */
static const char texts[] = "pageHello {{ name }}!listed{% include 'page' %}bad{{ 1 + }}";
static const struct jt_lengths lengths[] = {{4, 17}, {6, 20}, {3, 9}};
#define TEMPLATES BYTES(texts), lengths, COUNT_OF(lengths)
static uint8_t image[4096];
static size_t image_length;

static void compile(void) {
    const struct jt_answer answer =
        jt_compile(TEMPLATES, BYTES("page"), options, image, sizeof image);
    expect(is(answer, JT_DONE, 0) && answer.length <= sizeof image, "an image");
    image_length = answer.length;
}

static void version(void) {
    struct result result;
    clear(&result);
    const struct jt_answer answer = jt_version(result.out, 256);
    expect(is(answer, JT_DONE, 0) && answer.length >= strlen(JT_VERSION) &&
               memcmp(result.out, JT_VERSION, strlen(JT_VERSION)) == 0,
           "the version of the header");
    expect(jt_version(result.out, 0).length == answer.length, "the length of the version");
}

static void empty_handles(void) {
    struct jt_library library = {0}, other_library = {0};
    struct jt_image nothing = {0}, other = {0};
    struct jt_context context = {0};
    struct jt_outcome outcome = {0};
    struct result result;
    expect(is(jt_library_compile(&library, BYTES("page"), options, &nothing, result.out, 256),
              JT_USAGE, JT_NOT_HELD) &&
               !nothing.full,
           "no library to compile from");
    expect(is(jt_library_explain(&library, BYTES("page"), options, result.out, 256), JT_USAGE,
              JT_NOT_HELD),
           "no library to explain from");
    clear(&result);
    expect(is(jt_library_needs(&library, BYTES("page"), options, result.out, 256), JT_USAGE,
              JT_NOT_HELD) &&
               result.out[0] == 'x' && !library.full,
           "no library that needs something");
    expect(is(jt_image_save(&nothing, result.out, 256), JT_USAGE, JT_NOT_HELD),
           "no image to save");
    expect(is(jt_image_run(&nothing, &context, budget, &outcome, result.out, 256), JT_USAGE,
              JT_NOT_HELD),
           "no image and no context");
    jt_outcome_free(&outcome);
    expect(is(jt_outcome_read(&outcome, result.out, 256), JT_USAGE, JT_NOT_HELD), "no outcome");
    expect(jt_image_share(&nothing, &other) == JT_USAGE && !other.full, "no image to share");
    expect(jt_library_share(&library, &other_library) == JT_USAGE && !other_library.full,
           "no library to share");
    for (int i = 0; i < 2; i++) {
        jt_library_free(&library);
        jt_image_free(&nothing);
        jt_context_free(&context);
        jt_outcome_free(&outcome);
    }
    expect(!library.full && !nothing.full && !context.full && !outcome.full,
           "an empty handle is freed");
}

/* Checks that the images of a library, and its refusals, are those of jt_compile. */
static void libraries(void) {
    const char *entries[] = {"page", "listed", "bad", "none", "\xff"};
    const struct jt_lengths more = {4, 18};
    struct jt_library library = {0}, other = {0};
    struct jt_image made = {0};
    static uint8_t saved[4096], compiled[4096];
    struct result a, b;
    expect(is(jt_library_load(TEMPLATES, &library, a.out, 256), JT_DONE, 0) && library.full,
           "a library is loaded");
    for (size_t which = 0; which < COUNT_OF(entries); which++) {
        clear(&a);
        clear(&b);
        const struct jt_answer usual = jt_compile(TEMPLATES, BYTES(entries[which]), options,
                                                  compiled, sizeof compiled);
        a.answer =
            jt_library_compile(&library, BYTES(entries[which]), options, &made, a.out, 256);
        expect(library.full, "a library is still there");
        if (usual.status == JT_DONE) {
            expect(is(a.answer, JT_DONE, 0) && made.full && a.answer.length == 0,
                   "a template of a library is compiled");
            const struct jt_answer save = jt_image_save(&made, saved, sizeof saved);
            expect(is(save, JT_DONE, 0) && save.length == usual.length &&
                       memcmp(saved, compiled, save.length) == 0,
                   "the image of a library is that of the templates");
            clear(&a);
            expect(jt_image_save(&made, a.out, 7).length == usual.length && a.out[0] == 'x' &&
                       made.full,
                   "an image that is longer than the buffer");
        } else {
            b.answer = jt_compile(TEMPLATES, BYTES(entries[which]), options, b.out, 256);
            expect(same(&a, &b) && !made.full, "a template of a library is refused");
        }
        clear(&a);
        clear(&b);
        a.answer = jt_library_explain(&library, BYTES(entries[which]), options, a.out, 256);
        b.answer = jt_explain(TEMPLATES, BYTES(entries[which]), options, b.out, 256);
        expect(same(&a, &b) && library.full && a.answer.length <= 256,
               "a template of a library is explained");
    }
    expect(jt_library_share(&library, &other) == JT_DONE && other.full, "a library is shared");
    expect(is(jt_library_load(BYTES(texts), &more, 1, &library, a.out, 256), JT_USAGE,
              JT_LENGTHS) &&
               !library.full,
           "lengths that do not fit free the library that was held");
    expect(is(jt_library_compile(&other, BYTES("page"), options, &made, a.out, 256), JT_DONE, 0),
           "a shared library outlives its first handle");
    jt_library_free(&other);
    expect(is(jt_image_save(&made, saved, sizeof saved), JT_DONE, 0),
           "an image outlives its library");
    jt_image_free(&made);
}

/* A template that needs names and templates, and one that needs a name alone. */
#define HOME                                                                                      \
    "{% extends 'base' %}{% block body %}{{ title }}{% include 'ad' ignore missing %}"            \
    "{% include 'menu' %}{% endblock %}"
#define BASE "{{ site }}{% block body %}{% endblock %}"
#define MENU "{% for link in links %}{{ link }}{% endfor %}"
#define OTHER "{{ title }}"
static const char site[] = "home" HOME "base" BASE "menu" MENU "other" OTHER;
static const struct jt_lengths site_lengths[] = {
    {4, LENGTH(HOME)}, {4, LENGTH(BASE)}, {4, LENGTH(MENU)}, {5, LENGTH(OTHER)}};

static const char site_needs[] = "name link\nname links\nname site\nname title\n"
                                 "template base\ntemplate home\ntemplate menu\nmissing ad\n";

/* Checks what templates need, in buffers of each length, and that refusals are those of a
 * compilation. */
static void needs(void) {
    const char *refused[] = {"none", "bad", "", "\xff"};
    const size_t length = LENGTH(site_needs);
    struct jt_library library = {0};
    struct jt_image made = {0};
    struct result a, b;
    jt_library_load(BYTES(site), site_lengths, COUNT_OF(site_lengths), &library, a.out, 256);
    for (size_t room = 0; room <= length + 1; room++) {
        clear(&a);
        clear(&b);
        a.answer = jt_library_needs(&library, BYTES("home"), options, a.out, room);
        b.answer = (struct jt_answer){.status = JT_DONE, .length = length};
        if (room >= length) {
            memcpy(b.out, site_needs, length);
        }
        expect(same(&a, &b) && library.full, "the needs of a template");
    }
    expect(jt_library_needs(&library, BYTES("other"), options, a.out, 256).length ==
               LENGTH("name title\ntemplate other\n"),
           "the needs of a template without others");
    jt_library_load(TEMPLATES, &library, a.out, 256);
    for (size_t which = 0; which < COUNT_OF(refused); which++) {
        clear(&a);
        clear(&b);
        a.answer = jt_library_needs(&library, BYTES(refused[which]), options, a.out, 256);
        b.answer =
            jt_library_compile(&library, BYTES(refused[which]), options, &made, b.out, 256);
        expect(a.answer.status != JT_DONE && same(&a, &b) && library.full,
               "a refused template needs nothing");
    }
    jt_library_free(&library);
}

static void refusals(void) {
    struct jt_image kept = {0};
    struct jt_context context = {0};
    struct result a, b;
    expect(is(jt_image_load(image, image_length, &kept, a.out, 256), JT_DONE, 0) && kept.full,
           "an image is kept");
    clear(&a);
    clear(&b);
    a.answer = jt_image_load(BYTES("no image"), &kept, a.out, 256);
    b.answer = jt_check(BYTES("no image"), b.out, 256);
    expect(a.answer.status == JT_REFUSED && same(&a, &b), "bytes that are no image");
    expect(!kept.full, "a refusal frees the image that was kept");
    expect(is(jt_context_load(BYTES("{}"), &context, a.out, 256), JT_DONE, 0) && context.full,
           "a context is kept");
    clear(&a);
    clear(&b);
    a.answer = jt_context_load(BYTES("[1"), &context, a.out, 256);
    b.answer = jt_run(image, image_length, BYTES("[1"), budget, b.out, 256);
    expect(a.answer.status == JT_REFUSED && same(&a, &b), "bytes that are no context");
    expect(!context.full, "a refusal frees the context that was kept");
}

/* Checks that a call refuses a handle of another kind, which only a cast passes. */
static void other_kinds(struct jt_image *kept, struct jt_context *context,
                        struct jt_outcome *outcome) {
    struct jt_library library = {0};
    struct jt_image made = {0};
    struct jt_outcome other = {0};
    struct result a;
    expect(is(jt_outcome_read((struct jt_outcome *)context, a.out, 256), JT_USAGE, JT_NOT_HELD),
           "a context is no outcome");
    expect(is(jt_image_run(kept, (struct jt_context *)outcome, budget, &other, a.out, 256),
              JT_USAGE, JT_NOT_HELD),
           "an outcome is no context");
    expect(is(jt_library_compile((struct jt_library *)kept, BYTES("page"), options, &made, a.out,
                                 256),
              JT_USAGE, JT_NOT_HELD),
           "an image is no library");
    expect(is(jt_library_explain((struct jt_library *)kept, BYTES("page"), options, a.out, 256),
              JT_USAGE, JT_NOT_HELD),
           "an image is no library to explain from");
    expect(is(jt_library_needs((struct jt_library *)kept, BYTES("page"), options, a.out, 256),
              JT_USAGE, JT_NOT_HELD),
           "an image is no library that needs something");
    jt_library_load(TEMPLATES, &library, a.out, 256);
    expect(is(jt_image_run((struct jt_image *)&library, context, budget, &other, a.out, 256),
              JT_USAGE, JT_NOT_HELD),
           "a library is no image");
    expect(is(jt_image_save((struct jt_image *)&library, a.out, 256), JT_USAGE, JT_NOT_HELD),
           "a library is not saved");
    expect(library.full && kept->full && context->full && outcome->full,
           "handles of another kind stay as they are");
    jt_library_free(&library);
    jt_outcome_free(&other);
}

/* Checks that each kept run and each outcome is what jt_run writes into the same buffer. */
static void runs(void) {
    const char *contexts[] = {"{\"name\": \"<World>\"}", "{\"name\": []}", "{}", "{\"name\": 7}"};
    struct jt_image kept = {0};
    struct jt_context context = {0};
    struct jt_outcome outcome = {0};
    struct result a, b;
    jt_image_load(image, image_length, &kept, a.out, 256);
    for (size_t which = 0; which < COUNT_OF(contexts); which++) {
        expect(is(jt_context_load(BYTES(contexts[which]), &context, a.out, 256), JT_DONE, 0),
               "a context replaces a context");
        for (size_t room = 0; room <= 64; room++) {
            clear(&a);
            clear(&b);
            a.answer = jt_image_run(&kept, &context, budget, &outcome, a.out, room);
            b.answer = jt_run(image, image_length, BYTES(contexts[which]), budget, b.out, room);
            expect(same(&a, &b), "a kept run");
            clear(&a);
            a.answer = jt_outcome_read(&outcome, a.out, room);
            expect(same(&a, &b), "an outcome in a buffer of the same length");
            clear(&a);
            clear(&b);
            a.answer = jt_outcome_read(&outcome, a.out, 256);
            b.answer = jt_run(image, image_length, BYTES(contexts[which]), budget, b.out, 256);
            expect(same(&a, &b), "an outcome in a longer buffer");
        }
    }
    struct jt_budget less = budget;
    less.fuel = 1;
    expect(is(jt_image_run(&kept, &context, less, &outcome, a.out, 256), JT_SPENT, JT_FUEL),
           "Fuel");
    expect(is(jt_outcome_read(&outcome, a.out, 256), JT_SPENT, JT_FUEL), "Fuel is kept");
    other_kinds(&kept, &context, &outcome);
    jt_context_free(&context);
    jt_outcome_free(&outcome);
    jt_image_free(&kept);
    expect(!context.full && !outcome.full && !kept.full, "handles are freed");
    jt_context_free(&context);
    jt_image_free(&kept);
}

/* Contexts of which one is refused, one makes a fault, and one is longer than what is left. */
static const char many[] = "{\"name\": 7}{\"name\": []}[1{\"name\": \"<World>\"}{}[";
static const uint64_t many_lengths[] = {11, 12, 2, 19, 2, 7, 1};
enum { MANY = COUNT_OF(many_lengths) };

/* Writes what a call of its own answers for a context of this length. */
static struct result one_of_many(const uint8_t *context, uint64_t length, size_t left) {
    struct result result;
    clear(&result);
    if (length <= left) {
        result.answer =
            jt_run(image, image_length, context, (size_t)length, budget, result.out, 256);
    } else {
        result.answer = (struct jt_answer){.status = JT_USAGE, .code = JT_LENGTHS};
    }
    return result;
}

/* Checks that each result of many contexts is that of a call of its own, if the buffer has `room`
 * bytes and there are `most` answers. */
static void each_in(struct jt_image *kept, size_t room, size_t most) {
    const uint8_t *contexts = (const uint8_t *)many;
    size_t left = sizeof many - 1;
    struct jt_outcome outcome = {0};
    struct jt_answer answers[MANY];
    uint8_t out[256];
    for (size_t at = 0; at < MANY;) {
        memset(out, 'x', sizeof out);
        const size_t done =
            jt_image_run_each(kept, contexts, left, many_lengths + at, MANY - at, budget, &outcome,
                              answers, most, out, room);
        size_t used = 0;
        expect(0 < done && done <= most && done <= MANY - at, "the number of answers");
        for (size_t i = 0; i < done; i++) {
            const struct result wanted = one_of_many(contexts, many_lengths[at + i], left);
            struct result result;
            clear(&result);
            result.answer = answers[i];
            if (answers[i].length <= room - used) {
                memcpy(result.out, out + used, answers[i].length);
                used += answers[i].length;
            } else {
                expect(i + 1 == done && outcome.full, "a result that does not fit is the last");
                result.answer = jt_outcome_read(&outcome, result.out, 256);
                jt_outcome_free(&outcome);
            }
            expect(same(&result, &wanted), "a result of many");
            if (many_lengths[at + i] <= left) {
                contexts += many_lengths[at + i];
                left -= many_lengths[at + i];
            }
        }
        expect(!outcome.full, "no outcome is kept if each result fits");
        expect(used == 256 || out[used] == 'x', "the rest of the buffer");
        at += done;
    }
}

static void each(void) {
    struct jt_image kept = {0}, nothing = {0};
    struct jt_outcome outcome = {0};
    struct jt_answer answers[MANY];
    uint8_t out[256];
    jt_image_load(image, image_length, &kept, out, 256);
    const int64_t held = jt_memory_held();
    for (size_t room = 0; room <= 96; room++) {
        each_in(&kept, room, MANY);
        each_in(&kept, room, 2);
    }
    each_in(&kept, 256, 1);
    expect(jt_memory_held() == held, "nothing is kept of many contexts");
    expect(jt_image_run_each(&kept, BYTES(many), many_lengths, 0, budget, &outcome, answers, MANY,
                             out, 256) == 0 &&
               jt_image_run_each(&kept, BYTES(many), many_lengths, MANY, budget, &outcome, answers,
                                 0, out, 256) == 0,
           "no context, and no room for an answer");
    expect(jt_image_run_each(&nothing, BYTES(many), many_lengths, 3, budget, &outcome, answers,
                             MANY, out, 256) == 3 &&
               is(answers[0], JT_USAGE, JT_NOT_HELD) && is(answers[2], JT_REFUSED, 0) &&
               !nothing.full,
           "no image for many contexts");
    jt_context_load(BYTES("{}"), (struct jt_context *)&outcome, out, 256);
    expect(jt_image_run_each(&kept, BYTES(many), many_lengths, 1, budget, &outcome, answers, MANY,
                             out, 256) == 1 &&
               !outcome.full,
           "what the handle of the outcome held is freed");
    jt_image_free(&kept);
}

/* Checks that a shared image outlives its first handle, and that a handle may be moved. */
static void owners(void) {
    struct jt_image first = {0}, second = {0};
    struct jt_context context = {0};
    struct jt_outcome outcome = {0};
    struct result result;
    jt_image_load(image, image_length, &first, result.out, 256);
    expect(jt_image_share(&first, &second) == JT_DONE, "an image is shared");
    expect(jt_image_share(&first, &second) == JT_DONE, "a shared image is replaced");
    jt_image_free(&first);
    struct jt_image *moved = malloc(sizeof *moved);
    memcpy(moved, &second, sizeof second);
    memset(&second, 0, sizeof second);
    jt_context_load(BYTES("{\"name\": 7}"), &context, result.out, 256);
    expect(is(jt_image_run(moved, &context, budget, &outcome, result.out, 256), JT_DONE, 0),
           "a moved handle");
    jt_image_free(moved);
    jt_context_free(&context);
    free(moved);
    const struct jt_answer answer = jt_outcome_read(&outcome, result.out, 256);
    expect(is(answer, JT_DONE, 0) && answer.length == 8 && memcmp(result.out, "Hello 7!", 8) == 0,
           "an outcome outlives its image and its context");
    jt_outcome_free(&outcome);
}

/* What the threads that have ended held more than when they began: less than 0 for a thread that
 * freed what another one had filled. */
static _Atomic int64_t held_elsewhere;

/* Runs the image of this handle for a context of this thread; returns the number of failures. */
static void *run_alone(void *handle) {
    struct jt_image *mine = handle;
    struct jt_context context = {0};
    struct jt_outcome outcome = {0};
    struct result result;
    size_t failures =
        jt_context_load(BYTES("{\"name\": \"<World>\"}"), &context, result.out, 256).status !=
        JT_DONE;
    for (int i = 0; i < 200; i++) {
        const struct jt_answer answer =
            jt_image_run(mine, &context, budget, &outcome, result.out, 256);
        failures += answer.status != JT_DONE || answer.length != 20 ||
                    memcmp(result.out, "Hello &lt;World&gt;!", 20) != 0;
    }
    jt_context_free(&context);
    jt_outcome_free(&outcome);
    jt_image_free(mine);
    held_elsewhere += jt_memory_held();
    return (void *)failures;
}

/* Compiles each template of the library of this handle; returns the number of failures. */
static void *compile_alone(void *handle) {
    struct jt_library *mine = handle;
    struct jt_image made = {0};
    struct result result;
    size_t failures = 0;
    for (int i = 0; i < 50; i++) {
        failures += jt_library_compile(mine, BYTES(i % 2 ? "page" : "listed"), options, &made,
                                       result.out, 256)
                        .status != JT_DONE;
    }
    jt_image_free(&made);
    jt_library_free(mine);
    held_elsewhere += jt_memory_held();
    return (void *)failures;
}

static void threads_of_a_library(void) {
    static struct jt_library theirs[4];
    pthread_t started[4];
    struct jt_library library = {0};
    struct result result;
    jt_library_load(TEMPLATES, &library, result.out, 256);
    for (int i = 0; i < 4; i++) {
        expect(jt_library_share(&library, &theirs[i]) == JT_DONE, "a library for a thread");
        expect(pthread_create(&started[i], NULL, compile_alone, &theirs[i]) == 0, "a thread");
    }
    for (int i = 0; i < 4; i++) {
        void *failures;
        pthread_join(started[i], &failures);
        expect(failures == NULL && !theirs[i].full, "compilations of a thread");
    }
    /* (The last handle is freed here, because helgrind does not know atomic counts.) */
    jt_library_free(&library);
}

static void threads(void) {
    static struct jt_image theirs[4];
    pthread_t started[4];
    struct jt_image kept = {0};
    struct result result;
    jt_image_load(image, image_length, &kept, result.out, 256);
    for (int i = 0; i < 4; i++) {
        expect(jt_image_share(&kept, &theirs[i]) == JT_DONE, "an image for a thread");
        expect(pthread_create(&started[i], NULL, run_alone, &theirs[i]) == 0, "a thread");
    }
    jt_image_free(&kept);
    for (int i = 0; i < 4; i++) {
        void *failures;
        pthread_join(started[i], &failures);
        expect(failures == NULL && !theirs[i].full, "runs of a thread");
    }
}

/* Makes a test of this thread alone, after which nothing is held. */
static void alone(void (*test)(void)) {
    test();
    expect(jt_memory_held() == 0, "nothing is held after a test");
}

int main(void) {
    alone(compile);
    alone(version);
    alone(empty_handles);
    alone(libraries);
    alone(needs);
    alone(refusals);
    alone(runs);
    alone(each);
    alone(owners);
    threads();
    threads_of_a_library();
    expect(jt_memory_held() + held_elsewhere == 0, "all threads together hold nothing");
    return tally();
}
