/* Calls of the static library with inputs that nobody wrote, as targets of libFuzzer. See run.sh.
 *
 * -DTARGET=image    an input is the bytes of an image, which is checked and run
 * -DTARGET=source   it is the source of the template `t`, or, with bytes 0 between them, of `t` and of `u` and `v`, which `t` may
 *                   extend, include and import
 * -DTARGET=context  it is the context of a template that looks at it in many ways
 * -DTARGET=compare  it is a context, a byte 0 and sources, which end alike in each way to render them
 * -DTARGET=handles  it is calls over handles, as its first bytes say, then a byte 0, a context, a byte 0 and sources
 * -DTARGET=seed     no target: it writes the image of a source into the folder that IMAGES names
 *
 * What has to hold is said at each `demand`. */
#include "../../bindings/c/jt.h"
#include <stdio.h>
#include <stdlib.h>
#include <string.h>

#define ROOM 65536
#define TEMPLATES 3
static const struct jt_options options = {.trim_blocks = 1, .autoescape = 1};
static const struct jt_budget budget = {
    .fuel = 20000, .output = 16384, .depth = 16, .size = 16384, .nesting = 8};
static const char usual[] =
    "{\"a\": \"<&>\", \"b\": [1, 2, [\"x\"]], \"c\": {\"k\": true, \"l\": null}, \"n\": -7, \"x\": \"word\"}";
static const char looking[] =
    "{% macro m(v, d) %}{% if v is mapping %}{% for k, w in v | items %}{{ k }}={% if d %}{{ m(w, d - 1) }}"
    "{% endif %};{% endfor %}{% elif v is string %}{{ v | upper }}{{ v | e | length }}{% elif v is integer %}"
    "{{ v }}{{ v is even }}{% elif v is boolean or v is none or v is undefined %}{{ v }}{% else %}"
    "{% for w in v %}{% if d %}{{ m(w, d - 1) }}{% endif %},{% endfor %}{% endif %}{% endmacro %}"
    "{{ m(a, 4) }}{{ m(b, 4) }}{{ a == b }}{{ a in [b] }}{{ [a, b] | unique | length }}"
    "{% for v in [b, a] if v %}{{ loop.index }}{% endfor %}{{ a | default('?') }}{{ a ~ b }}"
    "{{ a | int + b }}{{ [a, b] | sort | first }}";
static uint8_t told[ROOM], also[ROOM];

static void demand(int holds, const char *what) {
    if (!holds) {
        fprintf(stderr, "does not hold: %s\n", what);
        abort();
    }
}

static int same(struct jt_answer a, const uint8_t *one, struct jt_answer b, const uint8_t *other) {
    return a.status == b.status && a.code == b.code && a.line == b.line && a.length == b.length &&
           (a.length > ROOM || memcmp(one, other, a.length) == 0);
}

/* How a run ends, each with the codes that it has. */
static int is_ended(struct jt_answer a) {
    return (a.status == JT_DONE && a.code == 0) ||
           (a.status == JT_FAULT && 1 <= a.code && a.code <= 9) ||
           (a.status == JT_SPENT && JT_FUEL <= a.code && a.code <= JT_NESTING);
}

/* Whether what is told is why something was refused, as `X1 NotJson`: one of some letters and a number. */
static int is_refused(struct jt_answer a, const uint8_t *why, const char *letters) {
    return a.status == JT_REFUSED && a.code == 0 && 2 < a.length && a.length <= ROOM &&
           strchr(letters, why[0]) != NULL && '1' <= why[1] && why[1] <= '9';
}

static struct jt_answer run(const uint8_t *image, size_t length, const char *context, uint8_t *out) {
    return jt_run(image, length, (const uint8_t *)context, strlen(context), budget, out, ROOM);
}

/* An image is accepted, and then runs for every context, or is refused, by both calls for the same reason. */
void image(const uint8_t *data, size_t size) {
    const struct jt_answer checked = jt_check(data, size, told, ROOM);
    const char *contexts[] = {"{}", usual};
    for (int at = 0; at < 2; at++) {
        const struct jt_answer ran = run(data, size, contexts[at], also);
        if (checked.status == JT_DONE) {
            demand(checked.length == 0 && is_ended(ran), "an image that is accepted runs");
        } else {
            demand(is_refused(checked, told, "IK"), "an image is refused for a reason");
            demand(same(checked, told, ran, also), "a refused image does not run");
        }
    }
}

/* Templates as the calls take them. */
struct templates {
    uint8_t texts[ROOM];
    struct jt_lengths lengths[TEMPLATES];
    size_t length, count;
};

/* The templates of an input: sources with a byte 0 between them. */
static void split(struct templates *it, const uint8_t *data, size_t size) {
    it->length = it->count = 0;
    const uint8_t *end = data;
    while (end && it->count < TEMPLATES) {
        end = it->count + 1 < TEMPLATES && size > 0 ? memchr(data, 0, size) : NULL;
        const size_t part = end ? (size_t)(end - data) : size;
        it->texts[it->length++] = (uint8_t)"tuv"[it->count];
        memcpy(it->texts + it->length, data, part);
        it->length += part;
        it->lengths[it->count++] = (struct jt_lengths){1, part};
        data += part + (end != NULL);
        size -= part + (end != NULL);
    }
}

static struct jt_answer compile(const struct templates *it, uint8_t *out) {
    return jt_compile(it->texts, it->length, it->lengths, it->count, (const uint8_t *)"t", 1, options,
                      out, ROOM);
}

static struct jt_answer render(const struct templates *it, const uint8_t *context, size_t size,
                               uint8_t *out) {
    return jt_render(it->texts, it->length, it->lengths, it->count, (const uint8_t *)"t", 1, options,
                     context, size, budget, out, ROOM);
}

/* A template that does not compile is refused by both calls for the same reason; the image of one that does is accepted, and ends as
 * the template does. */
void source(const uint8_t *data, size_t size) {
    static uint8_t made[ROOM];
    static struct templates given;
    split(&given, data, size);
    const struct jt_answer compiled = compile(&given, made);
    const struct jt_answer whole = render(&given, (const uint8_t *)usual, sizeof usual - 1, told);
    if (compiled.status != JT_DONE) {
        demand(compiled.status == JT_USAGE ? compiled.code == JT_NO_TEXT
                                           : is_refused(compiled, made, "SPCVG"),
               "a template that does not compile is refused for a reason");
        demand(same(compiled, made, whole, told), "nor is it rendered");
    } else if (compiled.length <= ROOM) {
        demand(jt_check(made, compiled.length, also, ROOM).status == JT_DONE,
               "what is compiled is accepted");
        const struct jt_answer ran = run(made, compiled.length, usual, also);
        demand(is_ended(ran) && same(whole, told, ran, also), "a template and its image end alike");
    }
}

/* A context is read, and the template that looks at it ends, or it is refused; and once more it is the same. */
void context(const uint8_t *data, size_t size) {
    static uint8_t made[ROOM];
    static struct templates given;
    static struct jt_answer looks;
    if (looks.length == 0) {
        split(&given, (const uint8_t *)looking, sizeof looking - 1);
        looks = compile(&given, made);
        demand(looks.status == JT_DONE && looks.length <= ROOM, "the template that looks compiles");
    }
    const struct jt_answer first = jt_run(made, looks.length, data, size, budget, told, ROOM);
    const struct jt_answer again = jt_run(made, looks.length, data, size, budget, also, ROOM);
    demand(is_ended(first) || is_refused(first, told, "X"), "a context is read or refused");
    demand(same(first, told, again, also), "the same context gives the same");
}

/* The parts of an input that is a head, a byte 0 and a rest. */
struct parts {
    const uint8_t *head, *rest;
    size_t head_size, rest_size;
};

static struct parts parted(const uint8_t *data, size_t size) {
    const uint8_t *end = size > 0 ? memchr(data, 0, size) : NULL;
    const size_t head = end ? (size_t)(end - data) : size;
    return (struct parts){data, end ? end + 1 : data + size, head, end ? size - head - 1 : 0};
}

/* Renders templates for a context by a library, an image and a context that are kept, as the program does in one call. */
static struct jt_answer render_kept(const struct templates *it, const uint8_t *json, size_t size, uint8_t *out) {
    static uint8_t image_bytes[ROOM], compiled_bytes[ROOM];
    struct jt_library library = {0};
    struct jt_image image = {0}, loaded = {0};
    struct jt_context values = {0};
    struct jt_outcome outcome = {0};
    struct jt_answer answer = jt_library_load(it->texts, it->length, it->lengths, it->count, &library, out, ROOM);
    if (answer.status == JT_DONE) {
        answer = jt_context_load(json, size, &values, out, ROOM);
    }
    if (answer.status == JT_DONE) {
        answer = jt_library_compile(&library, (const uint8_t *)"t", 1, options, &image, out, ROOM);
    }
    if (answer.status == JT_DONE) {
        const struct jt_answer saved = jt_image_save(&image, image_bytes, ROOM);
        demand(same(compile(it, compiled_bytes), compiled_bytes, saved, image_bytes), "the image of a library is that of the templates");
        demand(saved.length > ROOM || jt_image_load(image_bytes, saved.length, &loaded, out, ROOM).status == JT_DONE,
               "what is saved is loaded");
        answer = jt_image_run(&image, &values, budget, &outcome, out, ROOM);
        demand(outcome.full, "an outcome is kept");
        static uint8_t again[ROOM];
        demand(same(answer, out, jt_outcome_read(&outcome, again, ROOM), again), "an outcome is read as it was written");
        demand(!loaded.full || same(answer, out, jt_image_run(&loaded, &values, budget, &outcome, again, ROOM), again),
               "an image that was saved and loaded runs alike");
    }
    jt_library_free(&library);
    jt_image_free(&image);
    jt_image_free(&loaded);
    jt_context_free(&values);
    jt_outcome_free(&outcome);
    return answer;
}

/* The same sources for the same context end alike by jt_render, by jt_compile and jt_run, and by handles; and under a limit of
 * memory too, or with JT_MEMORY. */
void compare(const uint8_t *data, size_t size) {
    static uint8_t made[ROOM];
    static struct templates given;
    const struct parts it = parted(data, size);
    split(&given, it.rest, it.rest_size);
    const struct jt_answer whole = render(&given, it.head, it.head_size, told);
    const struct jt_answer compiled = compile(&given, made);
    struct jt_context values = {0};
    const struct jt_answer read = jt_context_load(it.head, it.head_size, &values, also, ROOM);
    jt_context_free(&values);
    if (compiled.status == JT_USAGE || (compiled.status != JT_DONE && read.status == JT_DONE)) {
        demand(same(compiled, made, whole, told), "what does not compile is not rendered");
    } else if (read.status != JT_DONE) {
        demand(same(read, also, whole, told), "nothing is rendered for what is no context");
    } else if (compiled.length <= ROOM) {
        const struct jt_answer ran = jt_run(made, compiled.length, it.head, it.head_size, budget, also, ROOM);
        demand(same(ran, also, whole, told), "a template and its image end alike");
    }
    jt_memory_limit(JT_NO_LIMIT);
    demand(same(render_kept(&given, it.head, it.head_size, also), also, whole, told), "handles end alike");
    demand(jt_memory_held() == 0, "all is freed");
    jt_memory_limit(size * 97 % 65536);
    const struct jt_answer limited = render(&given, it.head, it.head_size, also);
    demand(jt_memory_held() == 0, "all is freed under a limit");
    jt_memory_limit(JT_NO_LIMIT);
    demand(limited.status == JT_MEMORY || same(limited, also, whole, told), "a limit ends a call or changes nothing");
}

/* The handles of an input, and the bytes that were held when the limit was last set. */
struct handles {
    int64_t held;
    struct jt_library libraries[2];
    struct jt_image images[2];
    struct jt_context contexts[2];
    struct jt_outcome outcomes[2];
};

static int is_not_held(struct jt_answer answer) {
    return answer.status == JT_USAGE && answer.code == JT_NOT_HELD;
}

static void demand_held(struct jt_answer answer, int held) {
    demand(is_not_held(answer) == !held, "a call is refused where a handle does not hold what it needs, and only there");
}

/* Makes one call over handles: `op` says which call, and which handles. */
static void call(struct handles *it, uint8_t op, const struct templates *given, const uint8_t *json, size_t size) {
    const int a = op >> 4 & 1, b = op >> 5 & 1, c = op >> 6 & 1;
    struct jt_library *library = &it->libraries[a];
    struct jt_image *image = &it->images[b];
    struct jt_context *values = &it->contexts[a];
    struct jt_outcome *outcome = &it->outcomes[c];
    const int had_library = library->full, had_image = image->full, had_values = values->full, had_outcome = outcome->full;
    struct jt_answer answer;
    switch (op & 15) {
    case 0:
        answer = jt_library_load(given->texts, given->length, given->lengths, given->count, library, told, ROOM);
        demand(library->full == (answer.status == JT_DONE), "a library is held if it was loaded");
        break;
    case 1:
        answer = jt_library_compile(library, (const uint8_t *)"tuv" + c, 1, options, image, told, ROOM);
        demand_held(answer, had_library);
        demand(image->full == (answer.status == JT_DONE) && library->full == had_library, "an image is held if it was compiled");
        break;
    case 2:
        answer = jt_image_save(image, also, ROOM);
        demand_held(answer, had_image);
        if (had_image && answer.length <= ROOM) {
            answer = jt_image_load(also, answer.length, &it->images[!b], told, ROOM);
            demand(answer.status == JT_DONE && it->images[!b].full, "what is saved is loaded");
        }
        break;
    case 3:
        answer = jt_image_load(given->texts, given->length, image, told, ROOM);
        demand(image->full == (answer.status == JT_DONE), "an image is held if it was loaded");
        break;
    case 4:
        answer = jt_context_load(json, size, values, told, ROOM);
        demand(values->full == (answer.status == JT_DONE), "a context is held if it was loaded");
        break;
    case 5:
        answer = jt_image_run(image, values, budget, outcome, told, ROOM);
        demand_held(answer, had_image && had_values);
        demand(image->full == had_image && values->full == had_values, "image and context stay");
        demand(!had_image || !had_values || (is_ended(answer) && outcome->full), "a run ends, and its outcome is kept");
        break;
    case 6:
        // (The outcome of a run of nothing is that nothing was held.)
        answer = jt_outcome_read(outcome, told, c ? ROOM : 3);
        demand(is_not_held(answer) || (had_outcome && is_ended(answer)), "an outcome is read");
        break;
    case 7:
        demand(jt_library_share(library, &it->libraries[!a]) == (had_library ? JT_DONE : JT_USAGE), "a library is shared");
        demand(it->libraries[!a].full == had_library, "a shared library is held");
        break;
    case 8:
        demand(jt_image_share(image, &it->images[!b]) == (had_image ? JT_DONE : JT_USAGE), "an image is shared");
        demand(it->images[!b].full == had_image, "a shared image is held");
        break;
    case 9:
        jt_library_free(library);
        break;
    case 10:
        jt_image_free(image);
        break;
    case 11:
        jt_context_free(values);
        break;
    case 12:
        jt_outcome_free(outcome);
        break;
    default:
        it->held += jt_memory_held();
        jt_memory_limit((uint64_t)1 << (op >> 4) * 2);
        answer = jt_library_load(given->texts, given->length, given->lengths, given->count, library, told, ROOM);
        demand(library->full == (answer.status == JT_DONE), "a library is held if it was loaded within the limit");
        it->held += jt_memory_held();
        jt_memory_limit(JT_NO_LIMIT);
    }
}

/* Calls over handles, in any order, do what their handles allow, and all is freed. */
void handles(const uint8_t *data, size_t size) {
    static struct templates given;
    struct handles it = {0};
    const struct parts ops = parted(data, size), rest = parted(ops.rest, ops.rest_size);
    split(&given, rest.rest, rest.rest_size);
    jt_memory_limit(JT_NO_LIMIT);
    for (size_t at = 0; at < ops.head_size && at < 64; at++) {
        call(&it, ops.head[at], &given, rest.head, rest.head_size);
    }
    for (int i = 0; i < 2; i++) {
        jt_library_free(&it.libraries[i]);
        jt_image_free(&it.images[i]);
        jt_context_free(&it.contexts[i]);
        jt_outcome_free(&it.outcomes[i]);
    }
    demand(it.held + jt_memory_held() == 0, "all is freed");
}

/* Writes the image of a source, where it has one. */
void seed(const uint8_t *data, size_t size) {
    static int count;
    static uint8_t made[ROOM];
    char name[4096];
    static struct templates given;
    split(&given, data, size);
    const struct jt_answer compiled = compile(&given, made);
    if (compiled.status == JT_DONE && compiled.length <= ROOM) {
        snprintf(name, sizeof name, "%s/%d", getenv("IMAGES"), count++);
        FILE *file = fopen(name, "wb");
        demand(file != NULL && fwrite(made, 1, compiled.length, file) == compiled.length, name);
        fclose(file);
    }
}

int LLVMFuzzerTestOneInput(const uint8_t *data, size_t size) {
    if (size <= ROOM / 2) {
        TARGET(data, size);
    }
    return 0;
}
