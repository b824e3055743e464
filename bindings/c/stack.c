/* Measures how much stack the calls need. Each input is compiled, rendered, explained and run over
 * handles on a thread with a small stack, in a process of its own, because an overflow kills the
 * process.
 *
 *     stack         prints the smallest stack on which each input passes, in steps of 16 KiB
 *     stack SIZE    checks that each input passes on a stack of SIZE KiB
 *
 * The status is 1 if an input fails on SIZE KiB, or on 1024. */
#define _POSIX_C_SOURCE 200809L
#include <pthread.h>
#include <stdio.h>
#include <stdlib.h>
#include <string.h>
#include <sys/resource.h>
#include <sys/wait.h>
#include <unistd.h>

#include "jt.h"

static const struct jt_options options = JT_OPTIONS;
static const struct jt_budget budget = {
    .fuel = 10000000, .output = 10000000, .depth = 5000, .size = 10000000, .nesting = 255};

/* The input: its templates, its context, and the status and the text that it must have. */
static uint8_t texts[1 << 20];
static struct jt_lengths lengths[1024];
static size_t texts_length, lengths_count;
static char context[8192], wanted[16];
static uint32_t wanted_status;

static uint8_t out[1 << 20], image[1 << 20];

static void add_template(const char *name, const char *source) {
    struct jt_lengths *added = &lengths[lengths_count++];
    added->name = strlen(name);
    added->source = strlen(source);
    memcpy(texts + texts_length, name, added->name);
    memcpy(texts + texts_length + added->name, source, added->source);
    texts_length += added->name + added->source;
}

static void append(char *text, int count, const char *part) {
    for (char *end = text + strlen(text); count > 0; count--) {
        end = stpcpy(end, part);
    }
}

/* Makes the template `t`: `open` and `close` stand `depth` times around `middle`. */
static void nest(int depth, const char *before, const char *open, const char *middle,
                 const char *close, const char *after, const char *text) {
    static char source[1 << 19];
    append(source, 1, before);
    append(source, depth, open);
    append(source, 1, middle);
    append(source, depth, close);
    append(source, 1, after);
    add_template("t", source);
    strcpy(wanted, text);
}

/* Makes `count` templates, each of which has a tag that names the next one. */
static void link_all(int count, const char *tag) {
    char name[8] = "t", source[64];
    for (int i = 1; i < count; i++) {
        sprintf(source, "{%% %s 'a%d' %%}", tag, i);
        add_template(name, source);
        sprintf(name, "a%d", i);
    }
    add_template(name, "x");
    strcpy(wanted, "x");
}

/* Makes a context with `opened` brackets, of which `closed` are closed. */
static void nest_json(int opened, int closed) {
    strcpy(context, "{\"a\": ");
    append(context, opened, "[");
    append(context, closed, "]");
    append(context, 1, "}");
    add_template("t", "{{ a | length }}");
    strcpy(wanted, "1");
}

static void parentheses(void) { nest(97, "{{ ", "(", "1", ")", " }}", "1"); }
static void brackets(void) { nest(97, "{{ ", "[", "1", "]", " | length }}", "1"); }
static void braces(void) { nest(97, "{{ ", "{'a': ", "1", "}", " | length }}", "1"); }
static void indexes(void) { nest(97, "{{ ", "[0][", "0", "]", " }}", "0"); }
static void arguments(void) {
    nest(97, "{% macro m(a) %}x{% endmacro %}{{ ", "m(", "1", ")", " }}", "x");
}
static void signs(void) { nest(97, "{{ ", "-", "1", "", " }}", "-1"); }
static void sums(void) { nest(97, "{{ 0", " + 1", "", "", " }}", "97"); }
static void filters(void) { nest(97, "{{ ' x'", "|trim", "", "", " }}", "x"); }
static void ifs(void) { nest(98, "", "{% if 1 %}", "x", "{% endif %}", "", "x"); }
static void fors(void) { nest(97, "", "{% for i in [1] %}", "x", "{% endfor %}", "", "x"); }
static void elifs(void) {
    nest(5000, "{% if 0 %}", "{% elif 0 %}", "", "", "{% else %}x{% endif %}", "x");
}
static void json(void) { nest_json(119, 119); }
static void includes(void) { link_all(1024, "include"); }
static void extends(void) { link_all(64, "extends"); }
static void calls(void) {
    add_template("t", "{% macro n(k) %}{% if k %}{{ n(k - 1) }}{% else %}x{% endif %}"
                      "{% endmacro %}{{ n(4000) }}");
    strcpy(wanted, "x");
}
static void values(void) {
    add_template("t", "{% macro n(v, k) %}{% if k %}{{ n([v], k - 1) }}{% else %}{{ v == v }}"
                      "{% endif %}{% endmacro %}{{ n([1], 250) }}");
    strcpy(wanted, "True");
}
static void many_parentheses(void) {
    nest(100000, "{{ ", "(", "1", ")", " }}", "");
    wanted_status = JT_REFUSED;
}
static void open_parentheses(void) {
    nest(100000, "{{ ", "(", "1", "", " }}", "");
    wanted_status = JT_REFUSED;
}
static void unknown_filter(void) {
    nest(96, "{{ ", "(", "x|nope", ")", " }}", "");
    wanted_status = JT_REFUSED;
}
static void unknown_test(void) {
    nest(97, "{{ ", "not ", "x is nope", "", " }}", "");
    wanted_status = JT_REFUSED;
}
static void unknown_name(void) {
    nest(97, "", "{% for i in [1] %}", "{{ f() }}", "{% endfor %}", "", "");
    wanted_status = JT_REFUSED;
}
static void open_brackets(void) {
    nest_json(4000, 0);
    wanted_status = JT_REFUSED;
}

static const struct input {
    const char *name;
    void (*make)(void);
} inputs[] = {
    {"97 nested parentheses", parentheses},
    {"97 nested lists", brackets},
    {"97 nested maps", braces},
    {"97 nested indexes", indexes},
    {"97 nested arguments", arguments},
    {"97 signs", signs},
    {"97 sums", sums},
    {"97 filters", filters},
    {"98 nested ifs", ifs},
    {"97 nested fors", fors},
    {"5,000 elifs", elifs},
    {"JSON nested 120 deep", json},
    {"1,024 includes", includes},
    {"64 extends", extends},
    {"4,000 open calls", calls},
    {"a value nested 251 deep", values},
    {"100,000 parentheses", many_parentheses},
    {"100,000 open parentheses", open_parentheses},
    {"4,000 open brackets", open_brackets},
    {"a filter in 96 parentheses", unknown_filter},
    {"a test after 97 nots", unknown_test},
    {"a callee in 97 fors", unknown_name},
};

static bool is_wanted(struct jt_answer answer) {
    return answer.status == wanted_status &&
           (answer.status != JT_DONE ||
            (answer.length == strlen(wanted) && memcmp(out, wanted, answer.length) == 0));
}

/* Lists what the input needs. Returns whether that ends as a compilation. */
static bool needs(const uint8_t *entry) {
    struct jt_library library = {0};
    const struct jt_answer loaded = jt_library_load(texts, texts_length, lengths, lengths_count,
                                                    &library, out, sizeof out);
    const struct jt_answer answer =
        jt_library_needs(&library, entry, 1, options, out, sizeof out);
    jt_library_free(&library);
    return loaded.status == JT_DONE && (answer.status == JT_DONE || answer.status == wanted_status);
}

/* Renders the input, explains it and lists its needs, then compiles it, keeps it and runs it.
 * Returns NULL, or what is wrong. */
static void *run(void *unused) {
    (void)unused;
    static char rendered[] = "render", explained[] = "explain", compiled[] = "compile";
    static char kept[] = "keep", ran[] = "run", held[] = "free", listed[] = "needs";
    const uint8_t *entry = (const uint8_t *)"t", *json = (const uint8_t *)context;
    const size_t length = strlen(context);
    struct jt_image page = {0};
    struct jt_context values = {0};
    struct jt_outcome outcome = {0};
    if (!is_wanted(jt_render(texts, texts_length, lengths, lengths_count, entry, 1, options, json,
                             length, budget, out, sizeof out))) {
        return rendered;
    }
    if (jt_explain(texts, texts_length, lengths, lengths_count, entry, 1, options, out, sizeof out)
            .status != JT_DONE) {
        return explained;
    }
    if (!needs(entry)) {
        return listed;
    }
    if (wanted_status != JT_DONE) {
        return NULL;
    }
    const struct jt_answer answer = jt_compile(texts, texts_length, lengths, lengths_count, entry,
                                               1, options, image, sizeof image);
    if (answer.status != JT_DONE || answer.length > sizeof image) {
        return compiled;
    }
    if (jt_image_load(image, answer.length, &page, out, sizeof out).status != JT_DONE ||
        jt_context_load(json, length, &values, out, sizeof out).status != JT_DONE) {
        return kept;
    }
    if (!is_wanted(jt_image_run(&page, &values, budget, &outcome, out, sizeof out))) {
        return ran;
    }
    jt_image_free(&page);
    jt_context_free(&values);
    jt_outcome_free(&outcome);
    return jt_memory_held() == 0 ? NULL : held;
}

/* Returns whether an input passes on a stack of `size` KiB. */
static bool passes(const struct input *input, size_t size) {
    const pid_t child = fork();
    if (child == 0) {
        const struct rlimit none = {0, 0};
        pthread_attr_t small;
        pthread_t thread;
        void *wrong = NULL;
        setrlimit(RLIMIT_CORE, &none);
        strcpy(context, "{}");
        input->make();
        pthread_attr_init(&small);
        if (pthread_attr_setstacksize(&small, size * 1024) != 0 ||
            pthread_create(&thread, &small, run, NULL) != 0 ||
            pthread_join(thread, &wrong) != 0) {
            _exit(2);
        }
        if (wrong != NULL) {
            fprintf(stderr, "%s: %s\n", input->name, (const char *)wrong);
        }
        _exit(wrong != NULL);
    }
    int status = 1;
    return child > 0 && waitpid(child, &status, 0) == child && status == 0;
}

/* Returns the smallest number of KiB on which an input passes, or 0 if it fails on 1024. */
static size_t needed(const struct input *input) {
    size_t low = 16, high = 1024;
    if (!passes(input, high)) {
        return 0;
    }
    while (high - low > 16) {
        const size_t middle = (low + high) / 32 * 16;
        *(passes(input, middle) ? &high : &low) = middle;
    }
    return high;
}

int main(int count, char **words) {
    const size_t size = count > 1 ? strtoul(words[1], NULL, 10) : 0;
    bool failed = false;
    for (size_t which = 0; which < sizeof inputs / sizeof *inputs; which++) {
        const struct input *input = &inputs[which];
        const size_t least = size == 0 ? needed(input) : passes(input, size) ? size : 0;
        failed = failed || least == 0;
        printf("%-28s%6zu KiB%s\n", input->name, least, least == 0 ? ": it fails" : "");
        fflush(stdout);
    }
    return failed;
}
