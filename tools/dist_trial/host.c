/* Renders the page of the tutorial: host PAGES CONTEXT. The templates of the page are in the folder PAGES. */
#include <jt.h>
#include <stdio.h>
#include <string.h>

enum { COUNT = 4, ROOM = 65536 };

static const char *const names[COUNT] = {"page.html", "base.html", "menu.html", "parts.html"};
static uint8_t texts[ROOM], given[ROOM], out[ROOM];
static struct jt_lengths lengths[COUNT];

/* Reads a file into a buffer of `room` bytes, and returns its length, which is 0 if there is no file. */
static size_t read_file(const char *path, uint8_t *to, size_t room) {
    FILE *file = fopen(path, "rb");
    const size_t length = file == NULL ? 0 : fread(to, 1, room, file);
    if (file != NULL) {
        fclose(file);
    }
    return length;
}

/* Reads the templates, each name followed by its source, and returns how many bytes that are. */
static size_t read_pages(const char *folder) {
    size_t used = 0;
    for (size_t at = 0; at < COUNT; at++) {
        char path[4096];
        snprintf(path, sizeof path, "%s/%s", folder, names[at]);
        lengths[at].name = strlen(names[at]);
        memcpy(texts + used, names[at], lengths[at].name);
        used += lengths[at].name;
        lengths[at].source = read_file(path, texts + used, ROOM - used);
        used += lengths[at].source;
    }
    return used;
}

/* Compiles the page. Returns whether that succeeded. */
static bool compile(const char *folder, struct jt_image *page) {
    const struct jt_options options = {.autoescape = 1};
    struct jt_library library = {0};
    struct jt_answer answer =
        jt_library_load(texts, read_pages(folder), lengths, COUNT, &library, out, ROOM);
    if (answer.status == JT_DONE) {
        answer = jt_library_compile(&library, (const uint8_t *)names[0], lengths[0].name, options,
                                    page, out, ROOM);
    }
    jt_library_free(&library);
    return answer.status == JT_DONE;
}

/* Renders the page and prints it. Returns whether that succeeded. */
static bool render(struct jt_image *page, const char *path) {
    const struct jt_budget budget = {
        .fuel = 100000, .output = ROOM, .depth = 8, .size = ROOM, .nesting = 8};
    struct jt_context context = {0};
    struct jt_outcome outcome = {0};
    struct jt_answer answer =
        jt_context_load(given, read_file(path, given, ROOM), &context, out, ROOM);
    if (answer.status == JT_DONE) {
        answer = jt_image_run(page, &context, budget, &outcome, out, ROOM);
    }
    if (answer.status == JT_DONE) {
        fwrite(out, 1, answer.length, stdout);
    }
    jt_outcome_free(&outcome);
    jt_context_free(&context);
    return answer.status == JT_DONE;
}

int main(int count, char **words) {
    struct jt_image page = {0};
    const bool is_done = count == 3 && compile(words[1], &page) && render(&page, words[2]);
    jt_image_free(&page);
    return is_done ? 0 : 1;
}
