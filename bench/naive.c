/* The calls in plain C, as a good programmer writes them first: one rule of document 01 after the
   other, byte by byte, no tricks. Refusals come in document 01's order, and the working numbers
   end as it says. */
#include "calls.h"
#include <stdio.h>
#include <string.h>

struct head {
    uint32_t g, n, a, d, f, min, max;
};

/* A key in hand. A length above 64 is above any max, so only 64 letters are kept. */
struct key {
    uint8_t letters[KEY_MOST];
    size_t len;
};

static trieff_answer refusal(uint32_t number, uint32_t place)
{
    return (trieff_answer){.number = number, .place = place};
}

static trieff_answer valued(uint64_t value)
{
    return (trieff_answer){.value = value};
}

/* ---- fields, places, links */

static uint64_t field(const uint8_t *at, uint32_t width)
{
    uint64_t v = 0;
    for (uint32_t i = 0; i < width; i++)
        v = v << 8 | at[i];
    return v;
}

static void put_field(uint8_t *at, uint32_t width, uint64_t v)
{
    for (uint32_t i = width; i > 0; i--) {
        at[i - 1] = (uint8_t)v;
        v >>= 8;
    }
}

static size_t node_width(const struct head *h)
{
    return (size_t)h->n * h->a + h->d;
}

static size_t node_place(const struct head *h, size_t node)
{
    return 28 + h->f + node * node_width(h);
}

static size_t link_place(const struct head *h, uint32_t node, uint32_t letter)
{
    return node_place(h, node) + (size_t)letter * h->a;
}

static size_t data_place(const struct head *h, uint32_t node)
{
    return link_place(h, node, h->n);
}

static uint32_t link_of(const uint8_t *image, const struct head *h, uint32_t node, uint32_t letter)
{
    return (uint32_t)field(image + link_place(h, node, letter), h->a);
}

static uint64_t data_of(const uint8_t *image, const struct head *h, uint32_t node)
{
    return field(image + data_place(h, node), h->d);
}

/* ---- 1 to 4 */

static const uint8_t ROWS[9][5] = {
    {0x00, 0x7F, 0x00, 0x00, 1}, {0xC2, 0xDF, 0x80, 0xBF, 2}, {0xE0, 0xE0, 0xA0, 0xBF, 3},
    {0xE1, 0xEC, 0x80, 0xBF, 3}, {0xED, 0xED, 0x80, 0x9F, 3}, {0xEE, 0xEF, 0x80, 0xBF, 3},
    {0xF0, 0xF0, 0x90, 0xBF, 4}, {0xF1, 0xF3, 0x80, 0xBF, 4}, {0xF4, 0xF4, 0x80, 0x8F, 4},
};

/* The length of the well-formed character at s; 0 if there is none in the bytes left. */
static size_t char_len(const uint8_t *s, size_t left)
{
    for (int i = 0; i < 9; i++) {
        const uint8_t *row = ROWS[i];
        size_t len = row[4];
        if (left < len || s[0] < row[0] || row[1] < s[0])
            continue;
        if (len >= 2 && (s[1] < row[2] || row[3] < s[1]))
            return 0;
        for (size_t j = 2; j < len; j++)
            if (s[j] < 0x80 || 0xBF < s[j])
                return 0;
        return len;
    }
    return 0;
}

/* The letter number of a character in the first f bytes of an alphabet whose characters are
   well-formed; -1 if it is not there. */
static int letter_of(const uint8_t *alphabet, size_t f, const uint8_t *character, size_t len)
{
    int letter = 0;
    for (size_t at = 0; at < f; letter++) {
        size_t size = char_len(alphabet + at, f - at);
        if (size == len && memcmp(alphabet + at, character, len) == 0)
            return letter;
        at += size;
    }
    return -1;
}

static bool alphabet_good(const uint8_t *alphabet, const struct head *h)
{
    uint32_t count = 0;
    for (size_t at = 0; at < h->f; count++) {
        size_t len = char_len(alphabet + at, h->f - at);
        if (len == 0 || letter_of(alphabet, at, alphabet + at, len) >= 0)
            return false;
        at += len;
    }
    return count == h->n;
}

static bool permitted(const struct head *h)
{
    return 1 <= h->n && h->n <= 256 && 1 <= h->a && h->a <= 4 && 1 <= h->d && h->d <= 8 &&
           h->f <= 1024 && h->min <= h->max && h->max <= KEY_MOST;
}

/* 1 to 4: the number of the first refusal that applies, or 0. */
static uint32_t open_image(const uint8_t *image, size_t len, struct head *h)
{
    if (len < 28 || IMAGE_MOST < len)
        return 1;
    uint32_t *fields[7] = {&h->g, &h->n, &h->a, &h->d, &h->f, &h->min, &h->max};
    for (int i = 0; i < 7; i++)
        *fields[i] = (uint32_t)field(image + 4 * i, 4);
    if (!permitted(h))
        return 2;
    if (h->f > 0 && 28 + h->f <= len && !alphabet_good(image + 28, h))
        return 3;
    if (len < node_place(h, (size_t)h->g + 1))
        return 4;
    return 0;
}

/* ---- 5 to 8, 16 and 19 */

/* 6 to 8, with working numbers that are 0 at first. Each then counts the links in which its
   address stands. */
static trieff_answer judge_links(const uint8_t *image, const struct head *h, uint32_t *work)
{
    for (uint32_t node = 0; node <= h->g; node++)
        for (uint32_t i = 0; i < h->n; i++) {
            uint32_t link = link_of(image, h, node, i);
            if (link > h->g)
                return refusal(6, node);
            if (link != 0)
                work[link]++;
        }
    for (uint32_t x = 1; x <= h->g; x++)
        if (work[x] > 1)
            return refusal(7, x);
    for (uint32_t x = 1; x <= h->g; x++)
        if (work[x] == 0)
            return refusal(8, x);
    return valued(0);
}

/* 16, with working numbers that are 0 at first. The nodes that are met and wait for their links to
   be followed are a stack: the working number of each is the node under it, and that of the last
   is G+1. So 0 means that a node is not met. No address stands in two links, so that each node
   waits once. The root stands in no link. */
static trieff_answer judge_reach(const uint8_t *image, const struct head *h, uint32_t *work)
{
    uint32_t none = h->g + 1, top = 0;
    work[0] = none;
    while (top != none) {
        uint32_t node = top;
        top = work[node];
        for (uint32_t i = 0; i < h->n; i++) {
            uint32_t link = link_of(image, h, node, i);
            if (link == 0)
                continue;
            work[link] = top;
            top = link;
        }
    }
    for (uint32_t x = 1; x <= h->g; x++)
        if (work[x] == 0)
            return refusal(16, x);
    return valued(0);
}

/* Makes the working number 1 for each node at or under a node whose depth is in min..max. */
static void mark_allowed(const uint8_t *image, const struct head *h, uint32_t node, size_t depth,
                         uint32_t *work)
{
    if (h->min <= depth)
        work[node] = 1;
    for (uint32_t i = 0; depth < h->max && i < h->n; i++) {
        uint32_t link = link_of(image, h, node, i);
        if (link != 0)
            mark_allowed(image, h, link, depth + 1, work);
    }
}

/* 19, with working numbers that are 0 at first, for an image that passes 16. The walk from the
   root ends at max, so that it does not go down more than 64 levels in any image. */
static trieff_answer judge_depths(const uint8_t *image, const struct head *h, uint32_t *work)
{
    mark_allowed(image, h, 0, 0, work);
    for (uint32_t x = 0; x <= h->g; x++)
        if (work[x] == 0 && data_of(image, h, x) != 0)
            return refusal(19, x);
    return valued(0);
}

/* 1 to 8, 16 and 19. It is not inlined, so that what a call takes beyond it can be measured. */
__attribute__((noinline)) static trieff_answer check(
    const uint8_t *image, size_t len, uint32_t *work, size_t work_len, struct head *h)
{
    uint32_t number = open_image(image, len, h);
    if (number != 0)
        return refusal(number, 0);
    size_t nodes = (size_t)h->g + 1;
    if (work_len < nodes)
        return refusal(5, 0);
    memset(work, 0, nodes * sizeof *work);
    trieff_answer answer = judge_links(image, h, work);
    memset(work, 0, nodes * sizeof *work);
    if (answer.number == 0) {
        answer = judge_reach(image, h, work);
        memset(work, 0, nodes * sizeof *work);
    }
    if (answer.number == 0) {
        answer = judge_depths(image, h, work);
        memset(work, 0, nodes * sizeof *work);
    }
    return answer;
}

trieff_answer naive_check(const uint8_t *image, size_t image_len, uint32_t *work, size_t work_len)
{
    struct head h;
    return check(image, image_len, work, work_len, &h);
}

/* ---- keys: 9 and 10 */

static bool length_allowed(const struct head *h, size_t len)
{
    return h->min <= len && len <= h->max;
}

static struct key key_of(const uint8_t *letters, size_t len)
{
    struct key key = {.len = len};
    if (len > 0)
        memcpy(key.letters, letters, len < KEY_MOST ? len : KEY_MOST);
    return key;
}

static bool letters_good(const struct head *h, const struct key *key)
{
    for (size_t i = 0; i < key->len; i++)
        if (key->letters[i] >= h->n)
            return false;
    return true;
}

/* 9, then 10, for a key given by its letters. */
static uint32_t judge_key(const struct head *h, const struct key *key)
{
    if (!length_allowed(h, key->len))
        return 9;
    return letters_good(h, key) ? 0 : 10;
}

/* 10, then 9, for a key given by its text, which is read to its end. */
static uint32_t judge_text(const uint8_t *image, const struct head *h, const uint8_t *text,
                           size_t len, struct key *key)
{
    *key = (struct key){.len = 0};
    for (size_t at = 0; at < len;) {
        size_t size = char_len(text + at, len - at);
        int letter = size == 0 ? -1 : letter_of(image + 28, h->f, text + at, size);
        if (letter < 0)
            return 10;
        if (key->len < KEY_MOST)
            key->letters[key->len] = (uint8_t)letter;
        key->len++;
        at += size;
    }
    return length_allowed(h, key->len) ? 0 : 9;
}

/* ---- look up */

static trieff_answer look(const uint8_t *image, const struct head *h, const struct key *key)
{
    uint32_t node = 0;
    for (size_t i = 0; i < key->len; i++) {
        uint32_t link = link_of(image, h, node, key->letters[i]);
        if (link == 0)
            return valued(0);
        if (link > h->g)
            return refusal(6, node);
        node = link;
    }
    return valued(data_of(image, h, node));
}

trieff_answer naive_look_up(const uint8_t *image, size_t image_len, const uint8_t *letters,
                            size_t letters_len)
{
    struct head h;
    uint32_t number = open_image(image, image_len, &h);
    if (number != 0)
        return refusal(number, 0);
    struct key key = key_of(letters, letters_len);
    number = judge_key(&h, &key);
    return number != 0 ? refusal(number, 0) : look(image, &h, &key);
}

trieff_answer naive_look_up_text(const uint8_t *image, size_t image_len, const uint8_t *text,
                                 size_t text_len)
{
    struct head h;
    uint32_t number = open_image(image, image_len, &h);
    if (number != 0)
        return refusal(number, 0);
    struct key key;
    number = judge_text(image, &h, text, text_len, &key);
    return number != 0 ? refusal(number, 0) : look(image, &h, &key);
}

/* ---- store: 11, 12, 13 */

static uint64_t greatest(uint32_t width)
{
    return width == 8 ? UINT64_MAX : ((uint64_t)1 << 8 * width) - 1;
}

/* The list of writes of a store with writes. */
struct list {
    uint32_t *numbers;
    uint32_t len;
};

static void note(struct list *list, size_t place, size_t len)
{
    if (list == NULL)
        return;
    list->numbers[2 * list->len] = (uint32_t)place;
    list->numbers[2 * list->len + 1] = (uint32_t)len;
    list->len++;
}

/* The path stops at a node at a depth. Writes the nodes for the letters left, then G, then the
   link that was empty. `most` is the length of the list of counts, or SIZE_MAX if there is
   none. */
__attribute__((always_inline)) static inline trieff_answer extend(
    uint8_t *image, size_t len, const struct head *h, const struct key *key, uint32_t node,
    size_t depth, uint64_t value, struct list *list, size_t most)
{
    uint64_t total = h->g + (uint64_t)(key->len - depth);
    if (value == 0)
        return valued(0);
    if (total > greatest(h->a))
        return refusal(12, 0);
    if (len < node_place(h, total + 1))
        return refusal(13, 0);
    if (most < total + 1)
        return refusal(5, 0);
    for (uint32_t fresh = h->g + 1; fresh <= total; fresh++) {
        memset(image + node_place(h, fresh), 0, node_width(h));
        if (fresh < total)
            put_field(image + link_place(h, fresh, key->letters[depth + fresh - h->g]), h->a,
                      fresh + 1);
        else
            put_field(image + data_place(h, fresh), h->d, value);
        note(list, node_place(h, fresh), node_width(h));
    }
    put_field(image, 4, (uint32_t)total);
    note(list, 0, 4);
    put_field(image + link_place(h, node, key->letters[depth]), h->a, h->g + 1);
    note(list, link_place(h, node, key->letters[depth]), h->a);
    return (trieff_answer){.change = 1};
}

/* A store after the check and once the key has passed. It is inlined: where there is no list of
   writes, or no list of counts, the compiler drops the tests for it. */
__attribute__((always_inline)) static inline trieff_answer store_in(
    uint8_t *image, size_t len, const struct head *h, const struct key *key, uint64_t value,
    struct list *list, size_t most)
{
    if (value > greatest(h->d))
        return refusal(11, 0);
    uint32_t node = 0;
    for (size_t depth = 0; depth < key->len; depth++) {
        uint32_t link = link_of(image, h, node, key->letters[depth]);
        if (link == 0)
            return extend(image, len, h, key, node, depth, value, list, most);
        node = link;
    }
    uint64_t old = data_of(image, h, node);
    put_field(image + data_place(h, node), h->d, value);
    note(list, data_place(h, node), h->d);
    return (trieff_answer){.change = (value != 0) - (old != 0)};
}

/* It is not inlined, so that it can be counted alone. */
__attribute__((noinline)) static trieff_answer inner_store(
    uint8_t *image, size_t len, const struct head *h, const struct key *key, uint64_t value)
{
    return store_in(image, len, h, key, value, NULL, SIZE_MAX);
}

__attribute__((noinline)) static trieff_answer inner_store_writes(
    uint8_t *image, size_t len, const struct head *h, const struct key *key, uint64_t value,
    uint32_t *writes)
{
    struct list list = {.numbers = writes};
    trieff_answer answer = store_in(image, len, h, key, value, &list, SIZE_MAX);
    answer.length = list.len;
    return answer;
}

trieff_answer naive_store(uint8_t *image, size_t image_len, uint32_t *work, size_t work_len,
                          const uint8_t *letters, size_t letters_len, uint64_t value)
{
    struct head h;
    trieff_answer answer = check(image, image_len, work, work_len, &h);
    if (answer.number != 0)
        return answer;
    struct key key = key_of(letters, letters_len);
    uint32_t number = judge_key(&h, &key);
    return number != 0 ? refusal(number, 0) : inner_store(image, image_len, &h, &key, value);
}

trieff_answer naive_store_text(uint8_t *image, size_t image_len, uint32_t *work, size_t work_len,
                               const uint8_t *text, size_t text_len, uint64_t value)
{
    struct head h;
    trieff_answer answer = check(image, image_len, work, work_len, &h);
    if (answer.number != 0)
        return answer;
    struct key key;
    uint32_t number = judge_text(image, &h, text, text_len, &key);
    return number != 0 ? refusal(number, 0) : inner_store(image, image_len, &h, &key, value);
}

trieff_answer naive_store_writes(uint8_t *image, size_t image_len, uint32_t *work, size_t work_len,
                                 const uint8_t *letters, size_t letters_len, uint64_t value,
                                 uint32_t *writes)
{
    struct head h;
    trieff_answer answer = check(image, image_len, work, work_len, &h);
    if (answer.number != 0)
        return answer;
    struct key key = key_of(letters, letters_len);
    uint32_t number = judge_key(&h, &key);
    return number != 0 ? refusal(number, 0)
                       : inner_store_writes(image, image_len, &h, &key, value, writes);
}

trieff_answer naive_store_text_writes(uint8_t *image, size_t image_len, uint32_t *work,
                                      size_t work_len, const uint8_t *text, size_t text_len,
                                      uint64_t value, uint32_t *writes)
{
    struct head h;
    trieff_answer answer = check(image, image_len, work, work_len, &h);
    if (answer.number != 0)
        return answer;
    struct key key;
    uint32_t number = judge_text(image, &h, text, text_len, &key);
    return number != 0 ? refusal(number, 0)
                       : inner_store_writes(image, image_len, &h, &key, value, writes);
}

/* ---- mending */

trieff_answer naive_mend(uint8_t *image, size_t image_len, uint32_t *work, size_t work_len)
{
    struct head h, trial;
    trieff_answer answer = check(image, image_len, work, work_len, &h);
    if (answer.number != 8)
        return answer;
    put_field(image, 4, answer.place - 1);
    if (check(image, image_len, work, work_len, &trial).number == 0)
        return valued(0);
    put_field(image, 4, h.g);
    return answer;
}

/* ---- the stored keys in order */

/* Passes the stored keys at and under a node at a depth to the sink. The letters up to the node
   are at the front of the path. */
static void walk(const uint8_t *image, const struct head *h, uint32_t node, size_t depth,
                 uint8_t *path, key_sink *sink, void *context)
{
    uint64_t value = data_of(image, h, node);
    if (value != 0 && h->min <= depth)
        sink(context, path, depth, value);
    if (depth == h->max)
        return;
    for (uint32_t i = 0; i < h->n; i++) {
        uint32_t link = link_of(image, h, node, i);
        if (link == 0)
            continue;
        path[depth] = (uint8_t)i;
        walk(image, h, link, depth + 1, path, sink, context);
    }
}

/* Adds 1 to the context, which is a number of keys. */
static void add_key(void *context, const uint8_t *letters, size_t len, uint64_t value)
{
    (void)letters, (void)len, (void)value;
    ++*(uint64_t *)context;
}

static uint64_t keys_of(const uint8_t *image, const struct head *h)
{
    uint8_t path[KEY_MOST];
    uint64_t keys = 0;
    walk(image, h, 0, 0, path, add_key, &keys);
    return keys;
}

trieff_answer naive_count(const uint8_t *image, size_t image_len, uint32_t *work, size_t work_len)
{
    struct head h;
    trieff_answer answer = check(image, image_len, work, work_len, &h);
    return answer.number != 0 ? answer : valued(keys_of(image, &h));
}

uint64_t naive_walk(const uint8_t *image, size_t image_len, uint32_t *work, size_t work_len)
{
    struct head h;
    if (check(image, image_len, work, work_len, &h).number != 0)
        return 0;
    bool root = h.min == 0 && data_of(image, &h, 0) != 0;
    return keys_of(image, &h) - root;
}

/* A request for the next key, and the key that meets it. */
struct request {
    const uint8_t *image;
    const struct head *h;
    const struct key *key;
    bool after;
    struct key found;
    uint64_t value;
};

/* Finds the first key at or under a node that meets the request. `tied` says that the letters up
   to the node are the front of the key given. */
static bool search(struct request *r, uint32_t node, size_t depth, bool tied)
{
    bool within = tied && depth < r->key->len;
    bool allowed = !within && !(tied && r->after) && r->h->min <= depth;
    r->value = data_of(r->image, r->h, node);
    if (allowed && r->value != 0) {
        r->found.len = depth;
        return true;
    }
    if (depth == r->h->max)
        return false;
    uint32_t first = within ? r->key->letters[depth] : 0;
    for (uint32_t i = first; i < r->h->n; i++) {
        uint32_t link = link_of(r->image, r->h, node, i);
        r->found.letters[depth] = (uint8_t)i;
        if (link != 0 && search(r, link, depth + 1, within && i == first))
            return true;
    }
    return false;
}

trieff_answer naive_next_key(const uint8_t *image, size_t image_len, uint32_t *work,
                             size_t work_len, const uint8_t *letters, size_t letters_len,
                             bool after, uint8_t *key, size_t key_len)
{
    struct head h;
    trieff_answer answer = check(image, image_len, work, work_len, &h);
    if (answer.number != 0)
        return answer;
    if (letters_len > h.max)
        return refusal(9, 0);
    struct key from = key_of(letters, letters_len);
    if (!letters_good(&h, &from))
        return refusal(10, 0);
    if (key_len < h.max)
        return refusal(14, 0);
    struct request r = {.image = image, .h = &h, .key = &from, .after = after};
    if (!search(&r, 0, 0, true))
        return refusal(15, 0);
    if (r.found.len > 0)
        memcpy(key, r.found.letters, r.found.len);
    return (trieff_answer){.length = (uint32_t)r.found.len, .value = r.value};
}

/* ---- counts */

static size_t lesser(size_t a, size_t b)
{
    return a < b ? a : b;
}

static bool stored_at(const uint8_t *image, const struct head *h, uint32_t node, size_t depth)
{
    return h->min <= depth && data_of(image, h, node) != 0;
}

/* The number of stored keys at and under a node at a depth. Writes the counts of all these nodes
   to the list. Nodes deeper than max keep the 0 that they have. */
static uint32_t count_under(const uint8_t *image, const struct head *h, uint32_t node,
                            size_t depth, uint32_t *counts)
{
    uint32_t keys = stored_at(image, h, node, depth);
    for (uint32_t i = 0; depth < h->max && i < h->n; i++) {
        uint32_t link = link_of(image, h, node, i);
        if (link != 0)
            keys += count_under(image, h, link, depth + 1, counts);
    }
    counts[node] = keys;
    return keys;
}

trieff_answer naive_counts(const uint8_t *image, size_t image_len, uint32_t *work, size_t work_len,
                           uint32_t *counts, size_t counts_len)
{
    struct head h;
    trieff_answer answer = check(image, image_len, work, lesser(work_len, counts_len), &h);
    if (answer.number != 0)
        return answer;
    memset(counts, 0, ((size_t)h.g + 1) * sizeof *counts);
    count_under(image, &h, 0, 0, counts);
    return valued(0);
}

/* 1 to 8, where 5 is for the counts too, 16, 19 and 25. The fresh counts are in the working
   numbers while they are compared. */
__attribute__((noinline)) static trieff_answer compare(
    const uint8_t *image, size_t len, uint32_t *work, size_t work_len, const uint32_t *counts,
    size_t counts_len, struct head *h)
{
    trieff_answer answer = check(image, len, work, lesser(work_len, counts_len), h);
    if (answer.number != 0)
        return answer;
    size_t nodes = (size_t)h->g + 1;
    count_under(image, h, 0, 0, work);
    for (size_t x = nodes; x > 0; x--)
        if (counts[x - 1] != work[x - 1])
            answer = refusal(25, (uint32_t)(x - 1));
    memset(work, 0, nodes * sizeof *work);
    return answer;
}

trieff_answer naive_check_counts(const uint8_t *image, size_t image_len, uint32_t *work,
                                 size_t work_len, const uint32_t *counts, size_t counts_len)
{
    struct head h;
    return compare(image, image_len, work, work_len, counts, counts_len, &h);
}

/* A store, then the counts on its key's path. The new nodes are those above the old G. */
static trieff_answer inner_store_counts(uint8_t *image, size_t len, const struct head *h,
                                        const struct key *key, uint64_t value, uint32_t *counts,
                                        size_t counts_len)
{
    trieff_answer answer = store_in(image, len, h, key, value, NULL, counts_len);
    if (answer.number != 0 || answer.change == 0)
        return answer;
    uint32_t node = 0;
    counts[0] += (uint32_t)answer.change;
    for (size_t i = 0; i < key->len; i++) {
        node = link_of(image, h, node, key->letters[i]);
        counts[node] = node > h->g ? 1 : counts[node] + (uint32_t)answer.change;
    }
    return answer;
}

trieff_answer naive_store_counts(uint8_t *image, size_t image_len, uint32_t *work, size_t work_len,
                                 const uint8_t *letters, size_t letters_len, uint64_t value,
                                 uint32_t *counts, size_t counts_len)
{
    struct head h;
    trieff_answer answer = compare(image, image_len, work, work_len, counts, counts_len, &h);
    if (answer.number != 0)
        return answer;
    struct key key = key_of(letters, letters_len);
    uint32_t number = judge_key(&h, &key);
    if (number != 0)
        return refusal(number, 0);
    return inner_store_counts(image, image_len, &h, &key, value, counts, counts_len);
}

trieff_answer naive_store_text_counts(uint8_t *image, size_t image_len, uint32_t *work,
                                      size_t work_len, const uint8_t *text, size_t text_len,
                                      uint64_t value, uint32_t *counts, size_t counts_len)
{
    struct head h;
    trieff_answer answer = compare(image, image_len, work, work_len, counts, counts_len, &h);
    if (answer.number != 0)
        return answer;
    struct key key;
    uint32_t number = judge_text(image, &h, text, text_len, &key);
    if (number != 0)
        return refusal(number, 0);
    return inner_store_counts(image, image_len, &h, &key, value, counts, counts_len);
}

/* The letter of the link that leads from a node to the key at a position under it. The position
   becomes the one under that link. */
static uint32_t letter_towards(const uint8_t *image, const struct head *h, uint32_t node,
                               const uint32_t *counts, uint64_t *position)
{
    uint32_t letter = 0;
    for (;; letter++) {
        uint32_t link = link_of(image, h, node, letter);
        if (link != 0 && *position < counts[link])
            return letter;
        if (link != 0)
            *position -= counts[link];
    }
}

trieff_answer naive_key_at(const uint8_t *image, size_t image_len, uint32_t *work, size_t work_len,
                           const uint32_t *counts, size_t counts_len, uint64_t position,
                           uint8_t *key, size_t key_len)
{
    struct head h;
    trieff_answer answer = compare(image, image_len, work, work_len, counts, counts_len, &h);
    if (answer.number != 0)
        return answer;
    if (key_len < h.max)
        return refusal(14, 0);
    if (position >= counts[0])
        return refusal(15, 0);
    uint32_t node = 0;
    size_t depth = 0;
    while (position > 0 || !stored_at(image, &h, node, depth)) {
        position -= stored_at(image, &h, node, depth);
        key[depth] = (uint8_t)letter_towards(image, &h, node, counts, &position);
        node = link_of(image, &h, node, key[depth++]);
    }
    return (trieff_answer){.length = (uint32_t)depth, .value = data_of(image, &h, node)};
}

/* The position of a key: the number of keys stored on its path before its own node, and under
   lower letters. */
static trieff_answer position_of(const uint8_t *image, const struct head *h,
                                 const uint32_t *counts, const struct key *key)
{
    uint32_t node = 0;
    uint64_t position = 0;
    for (size_t depth = 0; depth < key->len; depth++) {
        position += stored_at(image, h, node, depth);
        for (uint32_t i = 0; i < key->letters[depth]; i++) {
            uint32_t link = link_of(image, h, node, i);
            if (link != 0)
                position += counts[link];
        }
        node = link_of(image, h, node, key->letters[depth]);
        if (node == 0)
            return refusal(15, 0);
    }
    return data_of(image, h, node) != 0 ? valued(position) : refusal(15, 0);
}

trieff_answer naive_position(const uint8_t *image, size_t image_len, uint32_t *work,
                             size_t work_len, const uint32_t *counts, size_t counts_len,
                             const uint8_t *letters, size_t letters_len)
{
    struct head h;
    trieff_answer answer = compare(image, image_len, work, work_len, counts, counts_len, &h);
    if (answer.number != 0)
        return answer;
    struct key key = key_of(letters, letters_len);
    uint32_t number = judge_key(&h, &key);
    return number != 0 ? refusal(number, 0) : position_of(image, &h, counts, &key);
}

trieff_answer naive_position_text(const uint8_t *image, size_t image_len, uint32_t *work,
                                  size_t work_len, const uint32_t *counts, size_t counts_len,
                                  const uint8_t *text, size_t text_len)
{
    struct head h;
    trieff_answer answer = compare(image, image_len, work, work_len, counts, counts_len, &h);
    if (answer.number != 0)
        return answer;
    struct key key;
    uint32_t number = judge_text(image, &h, text, text_len, &key);
    return number != 0 ? refusal(number, 0) : position_of(image, &h, counts, &key);
}

/* ---- the listing */

static void write_line(void *context, const uint8_t *letters, size_t len, uint64_t value)
{
    (void)context;
    if (len == 0)
        printf("-");
    for (size_t i = 0; i < len; i++)
        printf(i == 0 ? "%u" : ".%u", letters[i]);
    printf(" %llu\n", (unsigned long long)value);
}

void naive_list(const uint8_t *image, size_t image_len, uint32_t *work, size_t work_len)
{
    struct head h;
    trieff_answer answer = check(image, image_len, work, work_len, &h);
    if (answer.number != 0) {
        printf("refused %u at %u\n", answer.number, answer.place);
        return;
    }
    uint8_t path[KEY_MOST];
    printf("entries %llu\n", (unsigned long long)keys_of(image, &h));
    walk(image, &h, 0, 0, path, write_line, NULL);
}
