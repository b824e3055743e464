/* A host in C: compiles a page of a library once, and renders it for each context. */
#include <jt.h>
#include <stdio.h>
#include <stdlib.h>
#include <string.h>

#define PAGE "{% extends 'base' %}{% block body %}Hello {{ name }}!{% endblock %}"
#define BASE "<p>{% block body %}{% endblock %}</p>\n"
#define LENGTH(text) (sizeof(text) - 1)

static const uint8_t *bytes(const char *text) { return (const uint8_t *)text; }

/* Prints why there is no result. `out` has `room` bytes. */
static void print_failure(struct jt_answer answer, const uint8_t *out, size_t room) {
    const int length = answer.length <= room ? (int)answer.length : 0;
    switch (answer.status) {
    case JT_FAULT:
        printf("fault F%u in %.*s line %u\n", answer.code, length, (const char *)out,
               answer.line);
        break;
    case JT_REFUSED:
        printf("refused %.*s\n", length, (const char *)out);
        break;
    default:
        printf("status %u code %u\n", answer.status, answer.code);
    }
}

/* Compiles the template `page` of the library. Returns whether that succeeded. */
static bool compile(struct jt_image *page) {
    const char texts[] = "page" PAGE "base" BASE;
    const struct jt_lengths lengths[] = {{LENGTH("page"), LENGTH(PAGE)},
                                         {LENGTH("base"), LENGTH(BASE)}};
    const struct jt_options options = {.keep_trailing_newline = 1, .autoescape = 1};
    struct jt_library library = {0};
    uint8_t out[256];
    struct jt_answer answer =
        jt_library_load(bytes(texts), LENGTH(texts), lengths, 2, &library, out, sizeof out);
    if (answer.status == JT_DONE) {
        answer = jt_library_compile(&library, bytes("page"), LENGTH("page"), options, page, out,
                                    sizeof out);
    }
    if (answer.status != JT_DONE) {
        print_failure(answer, out, sizeof out);
    }
    jt_library_free(&library);
    return answer.status == JT_DONE;
}

/* Renders the page for a context, and prints the text. */
static void render(struct jt_image *page, const char *text) {
    const struct jt_budget budget = {
        .fuel = 100000, .output = 65536, .depth = 8, .size = 65536, .nesting = 8};
    struct jt_context context = {0};
    struct jt_outcome outcome = {0};
    uint8_t short_out[24], *long_out = NULL, *out = short_out;
    struct jt_answer answer =
        jt_context_load(bytes(text), strlen(text), &context, out, sizeof short_out);
    if (answer.status == JT_DONE) {
        answer = jt_image_run(page, &context, budget, &outcome, out, sizeof short_out);
        if (answer.length > sizeof short_out && (long_out = malloc(answer.length)) != NULL) {
            out = long_out;
            answer = jt_outcome_read(&outcome, out, answer.length);
        }
    }
    if (answer.length > sizeof short_out && long_out == NULL) {
        printf("no memory\n");
    } else if (answer.status != JT_DONE) {
        print_failure(answer, out, long_out != NULL ? answer.length : sizeof short_out);
    } else {
        fwrite(out, 1, answer.length, stdout);
    }
    free(long_out);
    jt_outcome_free(&outcome);
    jt_context_free(&context);
}

int main(void) {
    struct jt_image page = {0};
    const bool compiled = compile(&page);
    if (compiled) {
        render(&page, "{\"name\": \"<World>\"}");
        render(&page, "{\"name\": []}");
        render(&page, "[]");
    }
    jt_image_free(&page);
    return compiled ? 0 : 1;
}
