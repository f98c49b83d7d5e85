/* Performs the rows of bench/plan for one image. They are compared in all versions, counted in one
   version by callgrind, or timed in all versions. It writes lines IMAGE|ROW|VERSION|FIGURE; the
   figures of `count` are in callgrind's dumps. Usage:
     measure compare|time PLAN FOLDER IMAGE
     measure count PLAN FOLDER IMAGE VERSION */
#define _POSIX_C_SOURCE 200809L
#include "calls.h"
#include <stdio.h>
#include <stdlib.h>
#include <string.h>
#include <time.h>
#include <valgrind/callgrind.h>

#define ROWS_MOST 64
#define SPARE_NUMBERS 3
#define RUBBISH 0xA5
#define RUNS_LEAST 10
#define RUNS_MOST 1000
#define SECONDS_A_ROW 1.0

struct row {
    const struct call *call;
    char name[80];
    uint8_t key[256];
    size_t key_len;
    uint64_t value, position;
    bool stores, mends;
    char answer[24]; /* what it must answer, or "*" */
};

static uint8_t image[IMAGE_MOST + 1], kept_image[IMAGE_MOST + 1];
static uint8_t buffer[KEY_MOST];
static uint32_t writes[TRIEFF_WRITES_LEN];
static uint32_t *work, *counts, *kept_counts;
static size_t image_len, work_len, counts_len;
static const char *image_name;

static void fail(const char *what, const char *which)
{
    fprintf(stderr, "measure: %s %s\n", what, which);
    exit(2);
}

/* ---- the image and the plan */

static uint32_t field(const uint8_t *at, uint32_t width)
{
    uint32_t v = 0;
    for (uint32_t i = 0; i < width; i++)
        v = v << 8 | at[i];
    return v;
}

static void read_image(const char *folder)
{
    char path[4096];
    snprintf(path, sizeof path, "%s/%s.trieff", folder, image_name);
    FILE *file = fopen(path, "rb");
    if (file == NULL)
        fail("cannot read", path);
    image_len = fread(kept_image, 1, sizeof kept_image, file);
    fclose(file);
    if (image_len < 28)
        fail("no image in", path);
    work_len = (size_t)field(kept_image, 4) + 1 + SPARE_NUMBERS;
    work = malloc(work_len * sizeof *work);
    if (work == NULL)
        fail("no memory for", path);
}

/* The image's counts as the project works them out, with room for the nodes of a new key. A row of
   the plan compares them with those of the other versions. */
static void make_counts(void)
{
    counts_len = work_len + KEY_MOST;
    counts = malloc(counts_len * sizeof *counts);
    kept_counts = malloc(counts_len * sizeof *kept_counts);
    if (counts == NULL || kept_counts == NULL)
        fail("no memory for the counts of", image_name);
    memset(kept_counts, RUBBISH, counts_len * sizeof *kept_counts);
    if (trieff_counts(kept_image, image_len, work, work_len, kept_counts, counts_len).number != 0)
        fail("no counts of", image_name);
}

/* A row's key: its text, or the letter numbers of its one-byte characters, or a position. */
static void set_key(struct row *row, const char *text)
{
    uint32_t f = field(kept_image + 16, 4);
    if (strcmp(row->call->name, "key_at") == 0) {
        row->position = strtoull(text, NULL, 10);
        return;
    }
    row->key_len = strcmp(text, "-") == 0 ? 0 : strlen(text);
    for (size_t i = 0; i < row->key_len; i++) {
        row->key[i] = (uint8_t)text[i];
        if (strstr(row->call->name, "_text") != NULL)
            continue;
        const uint8_t *found = memchr(kept_image + 28, text[i], f);
        if (found == NULL)
            fail("a key has a character outside the alphabet:", text);
        row->key[i] = (uint8_t)(found - (kept_image + 28));
    }
}

/* Is the image named in a line `images A B ..`? */
static bool named_in(const char *line)
{
    char name[200];
    for (int took = 0; sscanf(line, "%199s%n", name, &took) == 1; line += took)
        if (strcmp(name, image_name) == 0)
            return true;
    return false;
}

static size_t read_plan(const char *path, struct row *rows)
{
    FILE *file = fopen(path, "r");
    if (file == NULL)
        fail("cannot read", path);
    char line[1000], call[80], key[256], value[24];
    bool wanted = false;
    size_t count = 0;
    while (fgets(line, sizeof line, file) != NULL) {
        struct row *row = &rows[count];
        if (line[0] == '#' || line[0] == '\n')
            continue;
        if (strncmp(line, "images ", 7) == 0) {
            wanted = named_in(line + 7);
            continue;
        }
        if (sscanf(line, "%79s %255s %23s %23s %79[^\n]", call, key, value, row->answer,
                   row->name) != 5)
            fail("not a row of the plan:", line);
        if (!wanted)
            continue;
        if (++count > ROWS_MOST)
            fail("too many rows in", path);
        row->call = call_named(call);
        row->stores = strcmp(value, "-") != 0;
        row->mends = strcmp(call, "mend") == 0;
        row->value = strtoull(value, NULL, 10);
        set_key(row, key);
    }
    fclose(file);
    return count;
}

/* Empties the link to a key's own node, as a cut before the last write of its store leaves it. */
static void cut(const struct row *row)
{
    uint32_t n = field(image + 4, 4), a = field(image + 8, 4), d = field(image + 12, 4),
             f = field(image + 16, 4), node = 0;
    uint8_t *link = NULL;
    for (size_t i = 0; i < row->key_len; i++) {
        link = image + 28 + f + (size_t)node * (n * a + d) + row->key[i] * a;
        node = field(link, a);
    }
    if (node == 0 || node != field(image, 4))
        fail("not the last new key:", row->name);
    memset(link, 0, a);
}

/* Restores the image as it was read, and its counts. For a row of mend with a key, the link to the
   key's node is then emptied. */
static void put_back(const struct row *row)
{
    memcpy(image, kept_image, image_len);
    memcpy(counts, kept_counts, counts_len * sizeof *counts);
    if (row->mends && row->key_len > 0)
        cut(row);
}

/* What a row lends: its image, the image's counts, and rubbish in the other buffers. */
static struct lent lend(const struct row *row)
{
    put_back(row);
    memset(work, RUBBISH, work_len * sizeof *work);
    memset(buffer, RUBBISH, sizeof buffer);
    memset(writes, RUBBISH, sizeof writes);
    if (strcmp(row->call->name, "counts") == 0)
        memset(counts, RUBBISH, counts_len * sizeof *counts);
    return (struct lent){.image = image,
                         .image_len = image_len,
                         .work = work,
                         .work_len = work_len,
                         .key = row->key,
                         .key_len = row->key_len,
                         .value = row->value,
                         .after = true,
                         .buffer = buffer,
                         .buffer_len = sizeof buffer,
                         .writes = writes,
                         .counts = counts,
                         .counts_len = counts_len,
                         .position = row->position};
}

/* ---- compare, count, time */

static bool compare(const struct row *row)
{
    struct lent lent = lend(row);
    trieff_answer answer;
    if (!agree(row->call, &lent, &answer)) {
        fprintf(stderr, "  in the row '%s' on %s\n", row->name, image_name);
        return false;
    }
    char said[24];
    if (row->stores)
        snprintf(said, sizeof said, "%d", answer.change);
    else
        snprintf(said, sizeof said, "%llu", (unsigned long long)answer.value);
    printf("%s|%s|answer|%s\n", image_name, row->name, said);
    if (answer.number == 0 && (strcmp(row->answer, "*") == 0 || strcmp(row->answer, said) == 0))
        return true;
    fprintf(stderr, "'%s' on %s: number %u, %s instead of %s\n", row->name, image_name,
            answer.number, said, row->answer);
    return false;
}

/* Callgrind counts only inside the functions of the version. Here a dump is made at the end of
   each row. The stack is aligned, so that the figures do not depend on where it begins: a call
   clears buffers on it, and memset takes 7 more or less by their alignment. */
static void count(const struct row *row, int version)
{
    struct lent lent = lend(row);
    _Alignas(64) char description[400];
    snprintf(description, sizeof description, "%s|%s|%s|", image_name, row->name,
             version_names[version]);
    CALLGRIND_ZERO_STATS;
    row->call->perform[version](&lent);
    CALLGRIND_DUMP_STATS_AT(description);
}

static double seconds(void)
{
    struct timespec now;
    clock_gettime(CLOCK_MONOTONIC, &now);
    return (double)now.tv_sec + (double)now.tv_nsec / 1e9;
}

/* A row that changes its image is called once in a run. */
static bool changes(const struct row *row)
{
    return row->stores || row->mends;
}

/* The mean time of a number of calls, one after the other. For a store or a mend the image is
   restored before. */
static double one_run(const struct row *row, int version, struct lent *lent, int calls)
{
    if (changes(row))
        put_back(row);
    double start = seconds();
    for (int i = 0; i < calls; i++)
        row->call->perform[version](lent);
    return (seconds() - start) / calls;
}

/* The number of calls that take tuned C 100 microseconds or more; 1 if the row changes its
   image. */
static int calls_in_a_run(const struct row *row, struct lent *lent)
{
    int calls = 1;
    while (!changes(row) && calls < 100000 && one_run(row, TUNED, lent, calls) * calls < 1e-4)
        calls *= 2;
    return calls;
}

/* The least of many runs, the versions in turn, after one run of each that warms the buffers. */
static void time_row(const struct row *row)
{
    struct lent lent = lend(row);
    double least[VERSIONS], start = seconds();
    int calls = calls_in_a_run(row, &lent);
    for (int version = 0; version < VERSIONS; version++)
        least[version] = one_run(row, version, &lent, calls);
    for (int run = 0;
         run < RUNS_LEAST || (run < RUNS_MOST && seconds() - start < SECONDS_A_ROW); run++)
        for (int version = 0; version < VERSIONS; version++) {
            double took = one_run(row, version, &lent, calls);
            if (took < least[version])
                least[version] = took;
        }
    for (int version = 0; version < VERSIONS; version++)
        printf("%s|%s|%s|%.1f\n", image_name, row->name, version_names[version],
               least[version] * 1e9);
}

static int version_named(const char *name)
{
    for (int version = 0; version < VERSIONS; version++)
        if (strcmp(version_names[version], name) == 0)
            return version;
    fail("there is no version", name);
    return 0;
}

int main(int argc, char **argv)
{
    static struct row rows[ROWS_MOST + 1];
    bool good = true;
    if (argc < 5 || (strcmp(argv[1], "count") == 0) != (argc == 6))
        fail("usage:", "measure compare|time|count PLAN FOLDER IMAGE [VERSION]");
    image_name = argv[4];
    read_image(argv[3]);
    make_counts();
    size_t many = read_plan(argv[2], rows);
    if (many == 0)
        fail("no row of the plan is for", image_name);
    for (size_t i = 0; i < many; i++) {
        if (argc == 6)
            count(&rows[i], version_named(argv[5]));
        else if (strcmp(argv[1], "time") == 0)
            time_row(&rows[i]);
        else
            good = compare(&rows[i]) && good;
    }
    return good ? 0 : 1;
}
