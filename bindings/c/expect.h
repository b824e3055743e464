/* Counts what the tests in C expect, prints what fails, and compares what calls answer. */
#ifndef JT_EXPECT_H
#define JT_EXPECT_H

#include <stdbool.h>
#include <stdio.h>
#include <string.h>

#include "jt.h"

/* A text as the arguments of a call: its bytes, and their number. */
#define BYTES(text) (const uint8_t *)(text), strlen(text)
/* The number of bytes of a literal, and of the elements of an array. */
#define LENGTH(text) (sizeof(text) - 1)
#define COUNT_OF(array) (sizeof(array) / sizeof *(array))

/* The room of a struct result. */
enum { ROOM = 4096 };

/* What a call has answered and written; the rest of the buffer is 'x'. */
struct result {
    struct jt_answer answer;
    uint8_t out[ROOM];
};

static int passed, failed;

static inline const uint8_t *bytes(const char *text) { return (const uint8_t *)text; }

static inline void expect(bool holds, const char *what) {
    passed += holds;
    failed += !holds;
    if (!holds) {
        printf("failed: %s\n", what);
    }
}

/* Prints the last line of a test, 'N passed, M failed', and returns the status of its process. */
static inline int tally(void) {
    printf("%d passed, %d failed\n", passed, failed);
    return failed != 0;
}

static inline bool is(struct jt_answer answer, uint32_t status, uint32_t code) {
    return answer.status == status && answer.code == code;
}

static inline bool equal_answers(struct jt_answer a, struct jt_answer b) {
    return is(a, b.status, b.code) && a.line == b.line && a.letter == b.letter &&
           a.length == b.length;
}

static inline void clear(struct result *result) { memset(result->out, 'x', sizeof result->out); }

static inline bool same(const struct result *a, const struct result *b) {
    return equal_answers(a->answer, b->answer) && memcmp(a->out, b->out, sizeof a->out) == 0;
}

#endif
