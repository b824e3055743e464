/* Refuses each growth of each call in turn: the answer is JT_MEMORY or the usual one, and no memory
 * is lost. This file takes the place of heap.c. The last line is 'N passed, M failed'. */
#include <stdio.h>
#include <stdlib.h>
#include <string.h>

#include "expect.h"

struct tried {
    bool ok;
    unsigned char *p;
};

static unsigned char nothing;
static long held;         /* the number of blocks */
static long growths;      /* the number of growths that the call has asked for */
static long refused = -1; /* the growth that is refused, counted from 0 */

static struct tried tried(void *p) {
    struct tried it = {p != NULL, p != NULL ? p : &nothing};
    return it;
}

struct tried rattle_alloc(size_t size, size_t align) {
    if (growths++ == refused) {
        return tried(NULL);
    }
    held++;
    return tried(malloc(size != 0 ? size : align));
}

struct tried rattle_realloc(unsigned char *p, size_t kept, size_t size, size_t align) {
    (void)kept;
    return tried(growths++ == refused ? NULL : realloc(p, size != 0 ? size : align));
}

void rattle_dealloc(unsigned char *p) {
    held--;
    free(p);
}

#define PAGE                                                                                     \
    "{% extends 'base' %}{% block body %}{% for x in xs %}{{ x ~ '!' }}{% endfor %}{% endblock " \
    "%}"
#define BASE "<p>{% block body %}{% endblock %}</p>"

static const char texts[] = "page" PAGE "base" BASE;
static const char context[] = "{\"xs\": [\"a\", [1, 2]]}";
static const struct jt_budget budget = {
    .fuel = 100000, .output = 65536, .depth = 8, .size = 65536, .nesting = 8};
static uint8_t image[65536], out[65536];
static size_t image_length;

/* What the calls over handles use. */
static struct jt_library library, other_library;
static struct jt_image kept, other;
static struct jt_context values;
static struct jt_outcome outcome;
static struct jt_run run;

enum {
    COMPILE,
    CHECK,
    RUN,
    RENDER,
    VERSION,
    LIBRARY_LOAD,
    IMAGE_LOAD,
    CONTEXT_LOAD,
    LIBRARY_COMPILE,
    LIBRARY_NEEDS,
    LIBRARY_SHARE,
    IMAGE_SAVE,
    IMAGE_RUN,
    IMAGE_RUN_EACH,
    RUN_START,
    RUN_ADVANCE,
    RUN_OUTCOME,
    OUTCOME_READ,
    IMAGE_SHARE,
    COUNT
};

static const struct jt_lengths lengths[] = {{4, LENGTH(PAGE)}, {4, LENGTH(BASE)}};
#define TEMPLATES bytes(texts), LENGTH(texts), lengths, 2

static void free_all(void) {
    jt_library_free(&library);
    jt_library_free(&other_library);
    jt_image_free(&kept);
    jt_image_free(&other);
    jt_context_free(&values);
    jt_outcome_free(&outcome);
    jt_run_free(&run);
}

/* Fills the handles that a call needs. */
static void prepare(int which) {
    if (which >= LIBRARY_COMPILE) {
        jt_library_load(TEMPLATES, &library, out, sizeof out);
    }
    if (which >= IMAGE_SAVE) {
        jt_image_load(image, image_length, &kept, out, sizeof out);
        jt_context_load(bytes(context), LENGTH(context), &values, out, sizeof out);
    }
    if (which == RUN_ADVANCE || which == RUN_OUTCOME) {
        jt_run_start(&kept, &values, budget, &run);
    }
    if (which == RUN_OUTCOME) {
        jt_run_advance(&run, 1000);
    }
    if (which == OUTCOME_READ) {
        jt_image_run(&kept, &values, budget, &outcome, out, sizeof out);
    }
}

static struct jt_answer call(int which, uint8_t *to) {
    const size_t room = sizeof out;
    const struct jt_options options = JT_OPTIONS;
    struct jt_answer answer = {0};
    switch (which) {
    case COMPILE:
        return jt_compile(TEMPLATES, bytes("page"), 4, options, to, room);
    case CHECK:
        return jt_check(image, image_length, to, room);
    case RUN:
        return jt_run(image, image_length, bytes(context), LENGTH(context), budget, to, room);
    case RENDER:
        return jt_render(TEMPLATES, bytes("page"), 4, options, bytes(context), LENGTH(context),
                         budget, to, room);
    case VERSION:
        return jt_version(to, room);
    case LIBRARY_LOAD:
        return jt_library_load(TEMPLATES, &library, to, room);
    case IMAGE_LOAD:
        return jt_image_load(image, image_length, &kept, to, room);
    case CONTEXT_LOAD:
        return jt_context_load(bytes(context), LENGTH(context), &values, to, room);
    case LIBRARY_COMPILE:
        return jt_library_compile(&library, bytes("page"), 4, options, &other, to, room);
    case LIBRARY_NEEDS:
        return jt_library_needs(&library, bytes("page"), 4, options, to, room);
    case LIBRARY_SHARE:
        answer.status = jt_library_share(&library, &other_library);
        return answer;
    case IMAGE_SAVE:
        return jt_image_save(&kept, to, room);
    case IMAGE_RUN:
        return jt_image_run(&kept, &values, budget, &outcome, to, room);
    case IMAGE_RUN_EACH:
        jt_image_run_each(&kept, bytes(context), LENGTH(context),
                          &(uint64_t){LENGTH(context)}, 1, budget, &outcome, &answer, 1, to, room);
        return answer;
    case RUN_START:
        answer.status = jt_run_start(&kept, &values, budget, &run);
        return answer;
    case RUN_ADVANCE:
        answer.status = jt_run_advance(&run, 1000);
        return answer;
    case RUN_OUTCOME:
        return jt_run_outcome(&run, to, room);
    case OUTCOME_READ:
        return jt_outcome_read(&outcome, to, room);
    default:
        answer.status = jt_image_share(&kept, &other);
        return answer;
    }
}

/* Returns whether the handle that a call fills is as its status says. */
static bool is_filled(int which, uint32_t status) {
    switch (which) {
    case LIBRARY_LOAD:
        return library.full == (status == JT_DONE);
    case IMAGE_LOAD:
        return kept.full == (status == JT_DONE);
    case CONTEXT_LOAD:
        return values.full == (status == JT_DONE);
    case LIBRARY_COMPILE:
        return library.full && other.full == (status == JT_DONE);
    case LIBRARY_NEEDS:
        return library.full;
    case LIBRARY_SHARE:
        return library.full && other_library.full == (status == JT_DONE);
    case IMAGE_SAVE:
        return kept.full;
    case IMAGE_RUN:
        return kept.full && values.full && (outcome.full || status == JT_MEMORY);
    case IMAGE_RUN_EACH:
        return kept.full && !outcome.full;
    case RUN_START:
        return kept.full && values.full && run.full == (status == JT_DONE);
    case RUN_ADVANCE:
    case RUN_OUTCOME:
        return kept.full && values.full && run.full;
    case OUTCOME_READ:
        return outcome.full;
    case IMAGE_SHARE:
        return kept.full && other.full == (status == JT_DONE);
    default:
        return true;
    }
}

int main(void) {
    static uint8_t wanted[65536];
    for (int which = 0; which < COUNT; which++) {
        const bool faults = which == RUN || which == RENDER || which == IMAGE_RUN ||
                            which == IMAGE_RUN_EACH || which == RUN_OUTCOME ||
                            which == OUTCOME_READ;
        refused = -1;
        prepare(which);
        const struct jt_answer usual = call(which, wanted);
        bool well = usual.status == (faults ? JT_FAULT : JT_DONE) && is_filled(which, usual.status);
        free_all();
        well = well && held == 0;
        if (which == COMPILE) {
            memcpy(image, wanted, usual.length);
            image_length = usual.length;
        }
        long last = 1, at;
        for (at = 0; at < last && well; at++) {
            prepare(which);
            growths = 0;
            refused = at;
            const struct jt_answer answer = call(which, out);
            refused = -1;
            last = growths;
            well = is_filled(which, answer.status) &&
                   (answer.status == JT_MEMORY ||
                    (equal_answers(answer, usual) && memcmp(out, wanted, usual.length) == 0)) &&
                   (at >= last || which < LIBRARY_LOAD || answer.status == JT_MEMORY);
            /* the handles are still good for the call, but a lost run stays lost */
            if (well && which >= LIBRARY_COMPILE && which != RUN_ADVANCE) {
                well = equal_answers(call(which, out), usual);
            }
            free_all();
            well = well && held == 0;
        }
        passed += well;
        failed += !well;
        if (!well) {
            printf("call %d, growth %ld: status %u, %ld held\n", which, at, usual.status, held);
        }
    }
    return tally();
}
