/* The calls that are measured, each in three versions: the project's library, naive C and tuned C.
   All have the signatures of trieff.h. A new call needs a line in VERSION or COUNTS_VERSION, a
   line and a ROW in calls.c, its two functions in C, and a row in bench/plan for each way to
   measure it. */
#ifndef BENCH_CALLS_H
#define BENCH_CALLS_H

#include "trieff.h"
#include <stdbool.h>
#include <stddef.h>
#include <stdint.h>

#define IMAGE_MOST 16777216
#define KEY_MOST 64

/* `walk` is a check, then the walk of a listing without its lines. */
#define VERSION(of)                                                                               \
    trieff_answer of##_check(const uint8_t *image, size_t image_len, uint32_t *work,              \
                             size_t work_len);                                                    \
    trieff_answer of##_count(const uint8_t *image, size_t image_len, uint32_t *work,              \
                             size_t work_len);                                                    \
    trieff_answer of##_look_up(const uint8_t *image, size_t image_len, const uint8_t *letters,    \
                               size_t letters_len);                                               \
    trieff_answer of##_look_up_text(const uint8_t *image, size_t image_len, const uint8_t *text,  \
                                    size_t text_len);                                             \
    trieff_answer of##_store(uint8_t *image, size_t image_len, uint32_t *work, size_t work_len,   \
                             const uint8_t *letters, size_t letters_len, uint64_t value);         \
    trieff_answer of##_store_text(uint8_t *image, size_t image_len, uint32_t *work,               \
                                  size_t work_len, const uint8_t *text, size_t text_len,          \
                                  uint64_t value);                                                \
    trieff_answer of##_store_writes(uint8_t *image, size_t image_len, uint32_t *work,             \
                                    size_t work_len, const uint8_t *letters, size_t letters_len,  \
                                    uint64_t value, uint32_t *writes);                            \
    trieff_answer of##_store_text_writes(uint8_t *image, size_t image_len, uint32_t *work,        \
                                         size_t work_len, const uint8_t *text, size_t text_len,   \
                                         uint64_t value, uint32_t *writes);                       \
    trieff_answer of##_mend(uint8_t *image, size_t image_len, uint32_t *work, size_t work_len);   \
    trieff_answer of##_next_key(const uint8_t *image, size_t image_len, uint32_t *work,           \
                                size_t work_len, const uint8_t *letters, size_t letters_len,      \
                                bool after, uint8_t *key, size_t key_len);                        \
    /* the number of stored keys that the walk meets, without the root's;                         \
       0 for a refused image */                                                                   \
    uint64_t of##_walk(const uint8_t *image, size_t image_len, uint32_t *work, size_t work_len);  \
    /* writes document 01's lines for an image to standard output */                              \
    void of##_list(const uint8_t *image, size_t image_len, uint32_t *work, size_t work_len);

/* The calls with counts. */
#define COUNTS_VERSION(of)                                                                        \
    trieff_answer of##_counts(const uint8_t *image, size_t image_len, uint32_t *work,             \
                              size_t work_len, uint32_t *counts, size_t counts_len);              \
    trieff_answer of##_check_counts(const uint8_t *image, size_t image_len, uint32_t *work,       \
                                    size_t work_len, const uint32_t *counts, size_t counts_len);  \
    trieff_answer of##_store_counts(uint8_t *image, size_t image_len, uint32_t *work,             \
                                    size_t work_len, const uint8_t *letters, size_t letters_len,  \
                                    uint64_t value, uint32_t *counts, size_t counts_len);         \
    trieff_answer of##_store_text_counts(uint8_t *image, size_t image_len, uint32_t *work,        \
                                         size_t work_len, const uint8_t *text, size_t text_len,   \
                                         uint64_t value, uint32_t *counts, size_t counts_len);    \
    trieff_answer of##_key_at(const uint8_t *image, size_t image_len, uint32_t *work,             \
                              size_t work_len, const uint32_t *counts, size_t counts_len,         \
                              uint64_t position, uint8_t *key, size_t key_len);                   \
    trieff_answer of##_position(const uint8_t *image, size_t image_len, uint32_t *work,           \
                                size_t work_len, const uint32_t *counts, size_t counts_len,       \
                                const uint8_t *letters, size_t letters_len);                      \
    trieff_answer of##_position_text(const uint8_t *image, size_t image_len, uint32_t *work,      \
                                     size_t work_len, const uint32_t *counts, size_t counts_len,  \
                                     const uint8_t *text, size_t text_len);

VERSION(naive)
VERSION(tuned)
COUNTS_VERSION(naive)
COUNTS_VERSION(tuned)

/* The project's walk has a library of its own, and its listing is a program, target/bin/list. */
uint64_t measure_walk(const uint8_t *image, size_t image_len, uint32_t *work, size_t work_len);

/* The walk of a listing passes each stored key to such a function. */
typedef void key_sink(void *context, const uint8_t *letters, size_t letters_len, uint64_t value);

enum { PROJECT, NAIVE, TUNED, VERSIONS };
extern const char *const version_names[VERSIONS];

/* What is passed to the calls; each takes what it needs. The key is text if the call takes text,
   else letters. */
struct lent {
    uint8_t *image;
    size_t image_len;
    uint32_t *work;
    size_t work_len;
    const uint8_t *key;
    size_t key_len;
    uint64_t value;
    bool after;
    uint8_t *buffer;
    size_t buffer_len;
    uint32_t *writes; /* TRIEFF_WRITES_LEN numbers */
    uint32_t *counts;
    size_t counts_len;
    uint64_t position;
};

struct call {
    const char *name;
    trieff_answer (*perform[VERSIONS])(const struct lent *lent);
};

/* The call with this name. If there is none, the program ends. */
const struct call *call_named(const char *name);

/* The call with this index in the table; NULL after the last. */
const struct call *call_at(size_t place);

/* Performs a call in every version, on copies of what is lent. True if the five numbers, the
   image, the working numbers, the key buffer, the list of writes and the counts are the same in
   all. Otherwise it prints to standard error what differs. The answer is the project's. */
bool agree(const struct call *call, const struct lent *lent, trieff_answer *answer);

#endif
