/* The table of the calls that are measured, and the comparison of their three versions on one
   input. Every version gets its own copies of what is lent. */
#include "calls.h"
#include <stdio.h>
#include <stdlib.h>
#include <string.h>

const char *const version_names[VERSIONS] = {"project", "naive", "tuned"};

/* ---- the table */

#define IMAGE lent->image, lent->image_len
#define WORK lent->work, lent->work_len
#define KEY lent->key, lent->key_len
#define BUFFER lent->buffer, lent->buffer_len
#define COUNTS lent->counts, lent->counts_len

#define ON(of, name, ...)                                          \
    static trieff_answer on_##of##_##name(const struct lent *lent) \
    {                                                              \
        return of##_##name(__VA_ARGS__);                           \
    }
#define ON_ALL(name, ...)         \
    ON(trieff, name, __VA_ARGS__) \
    ON(naive, name, __VA_ARGS__)  \
    ON(tuned, name, __VA_ARGS__)
#define ON_WALK(of, walk)                                        \
    static trieff_answer on_##of##_walk(const struct lent *lent) \
    {                                                            \
        return (trieff_answer){.value = walk(IMAGE, WORK)};      \
    }
#define ROW(name) {#name, {on_trieff_##name, on_naive_##name, on_tuned_##name}}

ON_ALL(check, IMAGE, WORK)
ON_ALL(count, IMAGE, WORK)
ON_ALL(look_up, IMAGE, KEY)
ON_ALL(look_up_text, IMAGE, KEY)
ON_ALL(store, IMAGE, WORK, KEY, lent->value)
ON_ALL(store_text, IMAGE, WORK, KEY, lent->value)
ON_ALL(store_writes, IMAGE, WORK, KEY, lent->value, lent->writes)
ON_ALL(store_text_writes, IMAGE, WORK, KEY, lent->value, lent->writes)
ON_ALL(mend, IMAGE, WORK)
ON_ALL(next_key, IMAGE, WORK, KEY, lent->after, BUFFER)
ON_ALL(counts, IMAGE, WORK, COUNTS)
ON_ALL(check_counts, IMAGE, WORK, COUNTS)
ON_ALL(store_counts, IMAGE, WORK, KEY, lent->value, COUNTS)
ON_ALL(store_text_counts, IMAGE, WORK, KEY, lent->value, COUNTS)
ON_ALL(key_at, IMAGE, WORK, COUNTS, lent->position, BUFFER)
ON_ALL(position, IMAGE, WORK, COUNTS, KEY)
ON_ALL(position_text, IMAGE, WORK, COUNTS, KEY)
ON_WALK(trieff, measure_walk)
ON_WALK(naive, naive_walk)
ON_WALK(tuned, tuned_walk)

static const struct call calls[] = {
    ROW(check), ROW(count), ROW(look_up), ROW(look_up_text), ROW(store), ROW(store_text),
    ROW(store_writes), ROW(store_text_writes), ROW(mend), ROW(next_key), ROW(walk),
    ROW(counts), ROW(check_counts), ROW(store_counts), ROW(store_text_counts), ROW(key_at),
    ROW(position), ROW(position_text),
};

const struct call *call_at(size_t place)
{
    return place < sizeof calls / sizeof *calls ? &calls[place] : NULL;
}

const struct call *call_named(const char *name)
{
    size_t place = 0;
    while (call_at(place) != NULL && strcmp(call_at(place)->name, name) != 0)
        place++;
    if (call_at(place) == NULL) {
        fprintf(stderr, "there is no call %s\n", name);
        exit(2);
    }
    return call_at(place);
}

/* ---- the comparison */

/* A copy of some bytes, never NULL. */
static void *copy_of(const void *bytes, size_t len)
{
    void *copy = malloc(len + 1);
    if (copy == NULL) {
        fprintf(stderr, "no memory\n");
        exit(2);
    }
    if (len > 0)
        memcpy(copy, bytes, len);
    return copy;
}

static struct lent copies(const struct lent *from)
{
    struct lent to = *from;
    to.image = copy_of(from->image, from->image_len);
    to.work = copy_of(from->work, from->work_len * sizeof *from->work);
    to.key = copy_of(from->key, from->key_len);
    to.buffer = copy_of(from->buffer, from->buffer_len);
    to.writes = copy_of(from->writes, TRIEFF_WRITES_LEN * sizeof *from->writes);
    to.counts = copy_of(from->counts, from->counts_len * sizeof *from->counts);
    return to;
}

static void drop(struct lent *lent)
{
    free(lent->image);
    free(lent->work);
    free((void *)lent->key);
    free(lent->buffer);
    free(lent->writes);
    free(lent->counts);
}

static void print_answer(const char *of, trieff_answer a)
{
    fprintf(stderr, "  %s: number %u, place %u, length %u, change %d, value %llu\n", of, a.number,
            a.place, a.length, a.change, (unsigned long long)a.value);
}

static bool same_answer(trieff_answer a, trieff_answer b)
{
    return a.number == b.number && a.place == b.place && a.length == b.length &&
           a.change == b.change && a.value == b.value;
}

/* Are the answers and buffers of two versions the same? Prints the difference if not. */
static bool same(const char *call, int version, const struct lent *a, const struct lent *b,
                 trieff_answer x, trieff_answer y)
{
    bool answer = same_answer(x, y);
    bool image = memcmp(a->image, b->image, a->image_len) == 0;
    bool work = memcmp(a->work, b->work, a->work_len * sizeof *a->work) == 0;
    bool buffer = memcmp(a->buffer, b->buffer, a->buffer_len) == 0;
    bool writes = memcmp(a->writes, b->writes, TRIEFF_WRITES_LEN * sizeof *a->writes) == 0;
    bool counts = memcmp(a->counts, b->counts, a->counts_len * sizeof *a->counts) == 0;
    if (answer && image && work && buffer && writes && counts)
        return true;
    fprintf(stderr, "%s: project and %s differ in%s%s%s%s%s%s\n", call, version_names[version],
            answer ? "" : " the answer", image ? "" : " the image",
            work ? "" : " the working numbers", buffer ? "" : " the key buffer",
            writes ? "" : " the list of writes", counts ? "" : " the list of counts");
    print_answer("project", x);
    print_answer(version_names[version], y);
    return false;
}

bool agree(const struct call *call, const struct lent *lent, trieff_answer *answer)
{
    struct lent first = copies(lent);
    bool all = true;
    *answer = call->perform[PROJECT](&first);
    for (int version = PROJECT + 1; version < VERSIONS; version++) {
        struct lent other = copies(lent);
        trieff_answer said = call->perform[version](&other);
        all = same(call->name, version, &first, &other, *answer, said) && all;
        drop(&other);
    }
    drop(&first);
    return all;
}
