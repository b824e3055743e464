/* jt: compiles Jinja templates to images, and runs images for contexts. docs/embedding.md has an
 * introduction, docs/errors.md the refusals and faults, docs/budgets.md the budgets.
 *
 * Load what is used again:
 *
 * - jt_library_load reads the sources of templates once, jt_library_compile makes an image of one
 *   of them, and jt_image_save writes its bytes.
 * - jt_image_load reads and verifies the bytes of an image once.
 * - jt_context_load reads a context once.
 * - jt_image_run runs an image for a context and keeps the outcome, and jt_outcome_read writes the
 *   outcome again, into a buffer of the right length.
 * - jt_image_run_each runs an image for many contexts in one call.
 * - jt_run_start and jt_run_advance run it in slices: the host stops a run, or gives it a deadline.
 *
 * jt_compile, jt_check, jt_explain, jt_run and jt_render keep nothing.
 *
 * If templates are refused, jt_explain and jt_library_explain say more of it to their author.
 * jt_library_needs lists the names of a context and the templates that a template needs.
 *
 * ANSWERS. Each call returns a struct jt_answer. A text, an image, a reason or an explanation goes
 * into the buffer `out`, which has `room` bytes. It is not terminated by a zero byte. If it is
 * longer than `room`, the buffer stays as it was, and `length` is the length that is needed.
 *
 * ERRORS. `status` states what happened, and `code` and `line` state more:
 *
 *     status      out holds                           code and line
 *     JT_DONE     the text or the image, or nothing   0
 *     JT_FAULT    the name of the template, or none   the fault, as enum jt_fault; the line
 *     JT_USAGE    nothing                             the mistake, as enum jt_usage
 *     JT_REFUSED  the reason, as "X1 NotJson"         0
 *     JT_SPENT    nothing                             the number, as enum jt_spent
 *     JT_MEMORY   nothing                             0
 *
 * JT_GOING is a status of jt_run_advance alone, which writes nothing.
 *
 * For JT_DONE of an explanation, `letter`, `code` and `line` state the refusal: 'P', 3 and the line
 * of the tag for P3. They are 0 if there is none, and `line` also if it is not known.
 *
 * Every input is checked, so all bytes are safe: templates, images and contexts may come from
 * anyone. No call ends the process, prints, or reads a file.
 *
 * OWNERSHIP. The caller owns all buffers. No call keeps a pointer to them. The structs jt_library,
 * jt_image, jt_context, jt_outcome and jt_run are handles, whose memory the caller provides:
 *
 * - A handle is zero at first: `struct jt_image image = {0};`. It holds nothing then.
 * - A call that fills a handle frees what the handle held before.
 * - jt_library_free, jt_image_free, jt_context_free, jt_outcome_free and jt_run_free free what a
 *   handle holds. It then holds nothing, so a second free does nothing.
 * - A handle may be moved in memory between calls, as by memcpy. The old place is not used again.
 * - Handles may be freed in any order: no handle depends on another one.
 *
 * THREADS. Calls that share no handle and no buffer may run at the same time.
 *
 * - A handle is used by one call at a time.
 * - A struct jt_library or jt_image may go to another thread, through a lock or the start or end of
 *   a thread. jt_library_share and jt_image_share make a second handle of the same library or image
 *   for a second thread, without a copy.
 * - A struct jt_context, jt_outcome or jt_run stays on the thread that filled it, also when it is
 *   freed.
 *
 * MEMORY. A growth that the system refuses ends the call with JT_MEMORY, and all that the call took
 * is freed. jt_memory_limit refuses growths of the calling thread too, above a limit of its own.
 * Each thread that makes a call has 16 bytes of static storage for it (an initial-exec TLS model).
 *
 * RULES, which no call can check:
 *
 * - A pointer is not null and points to as many elements as its length says, also if that is 0.
 * - Buffers and handles of a call do not overlap, and nobody else changes them during the call.
 * - No length is above PTRDIFF_MAX.
 * - The fields of a handle are neither changed nor copied to a second handle in use.
 * - No call is made in a signal handler. A child that a process with threads has forked uses only
 *   handles that no call was using at the fork.
 * - The stack has 256 KiB left. This is tested (bindings/c/stack.c) and not proved, by templates of
 *   98 levels, which are the deepest that are accepted, and by what they run. */
#ifndef JT_H
#define JT_H

#include <stddef.h>
#include <stdint.h>
#ifndef __cplusplus
#include <stdbool.h>
#endif

#define JT_VERSION "0.1.0"
#define JT_VERSION_MAJOR 0
#define JT_VERSION_MINOR 1
#define JT_VERSION_PATCH 0

#ifdef __cplusplus
extern "C" {
#endif

enum jt_status {
    JT_DONE = 0,
    JT_FAULT = 1,   /* a fault of the template */
    JT_USAGE = 2,   /* a mistake of the caller */
    JT_REFUSED = 3, /* templates, an image or a context that are not accepted */
    JT_SPENT = 4,   /* a number of the budget does not suffice */
    JT_MEMORY = 6,  /* memory was refused, by the system or by jt_memory_limit */
    JT_GOING = 7    /* a run in slices has not ended */
};

/* The codes of JT_FAULT: 2 is F2. */
enum jt_fault {
    JT_FAULT_BAD_TYPE = 1,
    JT_FAULT_UNDEFINED = 2,
    JT_FAULT_OVERFLOW = 3,
    JT_FAULT_ZERO_DIVIDE = 4,
    JT_FAULT_UNPRINTABLE = 5,
    JT_FAULT_NOT_ITERABLE = 6,
    JT_FAULT_UNPACK = 7,
    JT_FAULT_RANGE = 8,
    JT_FAULT_BAD_ARGUMENT = 9
};

/* The codes of JT_USAGE. */
enum jt_usage {
    JT_LENGTHS = 1,  /* the lengths of templates or contexts do not fit the bytes */
    JT_NO_TEXT = 2,  /* a name or a source is not UTF-8 */
    JT_NOT_HELD = 3, /* a handle does not hold what the call needs */
    JT_NOT_ENDED = 4 /* a run in slices has no outcome yet */
};

/* The codes of JT_SPENT. */
enum jt_spent { JT_FUEL = 1, JT_DEPTH = 2, JT_OUTPUT = 3, JT_SIZE = 4, JT_NESTING = 5 };

struct jt_answer {
    uint32_t status;   /* one of enum jt_status */
    uint32_t code;     /* see ERRORS */
    uint32_t line;     /* the line of a fault, from 1, or 0 if it is not known */
    uint32_t letter;   /* of an explained refusal, else 0 */
    uint64_t length;   /* the number of bytes of the result, also if `out` is too short for it */
};

/* The lengths in bytes of a template's name and of its source. */
struct jt_lengths {
    uint64_t name, source;
};

/* How templates are read: 0 is off, any other number is on. With `strict` an undefined value is a
 * fault where it is printed, iterated over, joined by ~, or the input of a filter but default. */
struct jt_options {
    uint8_t trim_blocks, lstrip_blocks, keep_trailing_newline, autoescape, strict;
};

/* The options of the program `jt`: struct jt_options options = JT_OPTIONS; */
#define JT_OPTIONS {0, 0, 0, 1, 0}

/* What a run may use. docs/budgets.md helps to choose the numbers. */
struct jt_budget {
    uint64_t fuel;   /* the sum of the costs of the instructions */
    uint64_t output; /* the number of written bytes, those of kept texts included */
    uint32_t depth;  /* the number of open calls */
    uint32_t size;   /* the size of each value */
    uint8_t nesting; /* the nesting of each value */
};

/* The budget of the program `jt`: struct jt_budget budget = JT_BUDGET; */
#define JT_BUDGET {1000000, 1048576, 64, 1048576, 32}

/* What a run in slices has used of its budget. */
struct jt_used {
    uint64_t fuel;   /* the sum of the costs of the executed instructions */
    uint64_t output; /* the number of written bytes, those of kept texts included */
    uint32_t depth;  /* the most calls that were open at once */
    uint32_t size;   /* the greatest size of a value that was tested, 0 if none was */
    uint8_t nesting; /* the greatest nesting of a value that was tested */
};

/* Sources of templates by their names, or nothing. */
struct jt_library {
    void *at;
    bool full;
};

/* An accepted image, or nothing. */
struct jt_image {
    void *at;
    bool full;
};

/* A context, or nothing. */
struct jt_context {
    void *at;
    bool full;
};

/* The outcome of a run, or nothing. */
struct jt_outcome {
    void *at;
    bool full;
};

/* A run in slices, or nothing. */
struct jt_run {
    void *at;
    bool full;
};

/* Writes the version of the library, as JT_VERSION spells it. */
struct jt_answer jt_version(uint8_t *out, size_t room);

/* Compiles the template `entry` to an image. `texts` holds all templates one after another, each
 * as its name and its source; `lengths` holds their lengths. If a name occurs twice, the last
 * source counts. */
struct jt_answer jt_compile(const uint8_t *texts, size_t texts_length,
                            const struct jt_lengths *lengths, size_t lengths_count,
                            const uint8_t *entry, size_t entry_length, struct jt_options options,
                            uint8_t *out, size_t room);

/* Reads the sources of templates into `library`; the bytes are copied. `texts` and `lengths` are as
 * for jt_compile. The library holds nothing if the status is not JT_DONE. */
struct jt_answer jt_library_load(const uint8_t *texts, size_t texts_length,
                                 const struct jt_lengths *lengths, size_t lengths_count,
                                 struct jt_library *library, uint8_t *out, size_t room);

/* Compiles the template `entry` of the library to an image, which `image` then holds. The image is
 * the one of jt_compile for the same sources, and so is the reason of a refusal. The image holds
 * nothing if the status is not JT_DONE. */
struct jt_answer jt_library_compile(struct jt_library *library, const uint8_t *entry,
                                    size_t entry_length, struct jt_options options,
                                    struct jt_image *image, uint8_t *out, size_t room);

/* Explains to the author of the templates why the template `entry` does not compile. `out` then
 * holds lines for a person, each with its end. The first has the template and the line of the tag,
 * where they are known, then the code, the name, and what the refusal is about, in quotes:
 *
 *     page:3: P3 UnknownFilter "uper"
 *
 * For a template that compiles `out` holds "ok" and a line end. Call this only after a refusal: it
 * compiles the template again. */
struct jt_answer jt_library_explain(struct jt_library *library, const uint8_t *entry,
                                    size_t entry_length, struct jt_options options, uint8_t *out,
                                    size_t room);

/* Writes what the image of the template `entry` depends on, a line for each, with its end:
 *
 *     name title          a name of the context that the image reads, or that its templates set
 *     template page.html  a template that the image is made of: the entry, and all that it extends,
 *                         includes and imports, also through others
 *     missing ad.html     a template that an `include` with `ignore missing` names, which the
 *                         library lacks
 *
 * The lines of each kind ascend by their bytes, and none occurs twice. (No name has a line end: the
 * name of a template has no byte below 32.) As long as these templates have the same sources and
 * the missing ones are missing, the entry compiles to the same image, whatever else the library
 * holds. A refusal is that of jt_library_compile. */
struct jt_answer jt_library_needs(struct jt_library *library, const uint8_t *entry,
                                  size_t entry_length, struct jt_options options, uint8_t *out,
                                  size_t room);

/* Reads and verifies the bytes of an image into `image`; the bytes are copied. The image holds
 * nothing if the status is not JT_DONE. */
struct jt_answer jt_image_load(const uint8_t *bytes, size_t bytes_length, struct jt_image *image,
                               uint8_t *out, size_t room);

/* Writes the bytes of the image. */
struct jt_answer jt_image_save(struct jt_image *image, uint8_t *out, size_t room);

/* Reads a context, a JSON object in UTF-8, into `context`. The context holds nothing if the status
 * is not JT_DONE. */
struct jt_answer jt_context_load(const uint8_t *bytes, size_t bytes_length,
                                 struct jt_context *context, uint8_t *out, size_t room);

/* Runs the image for the context and writes the text or the fault. `outcome` then holds how the run
 * ended, also if `room` is too small for the text. Image and context stay as they are. If there is
 * no memory to keep the outcome, the status is JT_MEMORY and `outcome` holds nothing. */
struct jt_answer jt_image_run(struct jt_image *image, struct jt_context *context,
                              struct jt_budget budget, struct jt_outcome *outcome, uint8_t *out,
                              size_t room);

/* Writes an outcome: the answer is that of jt_image_run with this buffer. Nothing runs. */
struct jt_answer jt_outcome_read(struct jt_outcome *outcome, uint8_t *out, size_t room);

/* Runs the image for many contexts, one after another. Each is a JSON object in UTF-8, which is
 * read for its run and then freed. `contexts` holds their bytes one after another, `lengths` the
 * length of each.
 *
 * Each answer is that of jt_context_load if this refuses the context, else that of jt_image_run. A
 * context whose length exceeds the bytes that are left has JT_USAGE with JT_LENGTHS. `out` holds
 * the results one after another, each as long as the `length` of its answer.
 *
 * Returns the number of answers, which is less than `count` if `answers` or `out` is full. A result
 * that does not fit the rest of `out` has the last answer, and `outcome` holds it for
 * jt_outcome_read. (If memory is refused for that, the last answer is JT_MEMORY.) Else `outcome`
 * holds nothing. The caller goes on with the first context that has no answer.
 *
 * No memory is kept from one context to the next, so jt_memory_limit before the call limits each
 * run as if it were alone. To stop between contexts, pass a few at a time: a call of 16 to 64
 * contexts costs little more than its runs. */
size_t jt_image_run_each(struct jt_image *image, const uint8_t *contexts, size_t contexts_length,
                         const uint64_t *lengths, size_t count, struct jt_budget budget,
                         struct jt_outcome *outcome, struct jt_answer *answers,
                         size_t answers_count, uint8_t *out, size_t room);

/* RUNS IN SLICES. A run that the host may stop: it executes a number of instructions in each call.
 *
 *     status = jt_run_start(&image, &context, budget, &run);
 *     while (status == JT_DONE || status == JT_GOING) {
 *         status = jt_run_advance(&run, 20000);
 *         if (status != JT_GOING || is_too_late()) {
 *             break;
 *         }
 *     }
 *     answer = jt_run_outcome(&run, out, room);
 *     jt_run_free(&run);
 *
 * The outcome is that of jt_image_run, whatever the numbers of instructions are. A slice of 10,000
 * instructions takes from a tenth of a millisecond to some milliseconds. One instruction may take
 * longer, as a filter over a long list: `size` of the budget bounds it. A run that is not continued
 * is stopped by jt_run_free, which gives all its memory back. Runs of one thread may take turns. */

/* Starts the run of an image for a context under a budget, before its first instruction. The run
 * shares the image and copies the values of the context that the image names, so `image` and
 * `context` may be freed or filled again while it goes on. Returns JT_DONE, JT_USAGE if `image` or
 * `context` holds nothing, or JT_MEMORY. The run holds nothing if the status is not JT_DONE. */
uint32_t jt_run_start(struct jt_image *image, struct jt_context *context, struct jt_budget budget,
                      struct jt_run *run);

/* Executes `steps` instructions, or fewer if the run ends. Returns JT_GOING, JT_DONE if the run has
 * ended, by a text or otherwise, JT_USAGE if `run` holds nothing, or JT_MEMORY if memory was
 * refused. The run is then lost: it has no outcome, and each later call returns JT_MEMORY. */
uint32_t jt_run_advance(struct jt_run *run, uint32_t steps);

/* Writes the outcome of a run that has ended: the answer is one of jt_image_run. The run stays as
 * it is, so a second call may have a larger buffer. A run that goes on has JT_USAGE with
 * JT_NOT_ENDED, a lost run JT_MEMORY. */
struct jt_answer jt_run_outcome(struct jt_run *run, uint8_t *out, size_t room);

/* Returns what the run has used, while it goes on and after its end. An instruction that ends the
 * run by a fault, or by a number of the budget, counts nothing. All is 0 if `run` holds nothing. */
struct jt_used jt_run_used(struct jt_run *run);

/* Makes `to` a second handle of what `from` holds. Returns JT_DONE, JT_USAGE if `from` holds
 * nothing, or JT_MEMORY. */
uint32_t jt_library_share(struct jt_library *from, struct jt_library *to);
uint32_t jt_image_share(struct jt_image *from, struct jt_image *to);

/* Frees what the handle holds. */
void jt_library_free(struct jt_library *library);
void jt_image_free(struct jt_image *image);
void jt_context_free(struct jt_context *context);
void jt_outcome_free(struct jt_outcome *outcome);
void jt_run_free(struct jt_run *run);

/* Limits the memory of the calling thread. From now on, the calls of this thread together hold at
 * most `bytes` more than now. A growth beyond the limit is refused, and the call ends with
 * JT_MEMORY. Returns what is left of the limit before, which is JT_NO_LIMIT if there was none.
 *
 * All that the calls allocate counts: what they hold while they run, and what handles hold after
 * them. The buffers of the caller and the stack do not count. To limit one call:
 *
 *     const uint64_t before = jt_memory_limit(1 << 24);
 *     answer = jt_run(...);
 *     jt_memory_limit(before);
 *
 * What is counted, exactly:
 *
 * - A block counts with the bytes that malloc_usable_size reports of it. So malloc, realloc, free
 *   and malloc_usable_size have to be of one allocator. A library that replaces malloc has to
 *   replace malloc_usable_size too.
 * - A block counts for the thread that allocates it, and is given back to the thread that frees it.
 *   A thread that loads libraries or images, which other threads free, keeps their bytes in its
 *   count. The count of the thread that frees them sinks below 0, and its limit allows that much
 *   more. To avoid both, set the limit for each call, as above.
 * - Each call of jt_memory_limit counts from 0 again. `jt_memory_limit(before)` restores what was
 *   left before the call. What the call has left in handles counts against no limit from then on.
 * - A block that grows may move. It then exists twice for a moment, and counts once.
 * - A block that grows may pass the limit by less than 8 KiB, since malloc rounds its size. */
#define JT_NO_LIMIT UINT64_MAX
uint64_t jt_memory_limit(uint64_t bytes);

/* Returns how many bytes the calling thread holds more than when its limit was set, or than when it
 * began. The number is negative if it has freed more than it allocated, as by freeing handles that
 * it had before, or that another thread filled. */
int64_t jt_memory_held(void);

/* Explains why the template `entry` does not compile, as jt_library_explain. */
struct jt_answer jt_explain(const uint8_t *texts, size_t texts_length,
                            const struct jt_lengths *lengths, size_t lengths_count,
                            const uint8_t *entry, size_t entry_length, struct jt_options options,
                            uint8_t *out, size_t room);

/* Checks whether the bytes are an image that is accepted. */
struct jt_answer jt_check(const uint8_t *image, size_t image_length, uint8_t *out, size_t room);

/* Runs an image for a context, a JSON object in UTF-8. Both are read in each call. */
struct jt_answer jt_run(const uint8_t *image, size_t image_length, const uint8_t *context,
                        size_t context_length, struct jt_budget budget, uint8_t *out, size_t room);

/* Compiles the template `entry` and runs it: jt_compile and jt_run in one call. */
struct jt_answer jt_render(const uint8_t *texts, size_t texts_length,
                           const struct jt_lengths *lengths, size_t lengths_count,
                           const uint8_t *entry, size_t entry_length, struct jt_options options,
                           const uint8_t *context, size_t context_length, struct jt_budget budget,
                           uint8_t *out, size_t room);

#ifdef __cplusplus
}
#endif
#endif
