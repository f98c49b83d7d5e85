/* The calls in C, tuned by hand for speed: masked loads of four bytes for a link and of eight for
   data, 32 bytes of empty links at a time, one pass for the check. Where every child's address is
   above its node's, as our own stores leave it, no node needs to be searched for from the root,
   and the pass knows each node's depth before it comes to the node. No vector instruction is
   written by hand. */
#include "calls.h"
#include <string.h>
#include <unistd.h>

/* An image that has passed 1 to 4. */
struct opened {
    const uint8_t *nodes;
    size_t links_len, width; /* N*A and W */
    uint32_t g, n, a, d, f, min, max;
    uint32_t link_mask;
    uint64_t data_mask;
};

#define SLOTS 512

/* Letters by character. For one-byte characters there is a table of letter + 1. For the others
   there is a hash table of the same, by their bytes as a number. */
struct alphabet {
    uint16_t one[128];
    uint16_t slots[SLOTS];
    uint32_t codes[256];
    bool wide; /* the hash table is in use */
};

static trieff_answer refusal(uint32_t number, uint32_t place)
{
    return (trieff_answer){.number = number, .place = place};
}

/* ---- fields */

_Static_assert(__BYTE_ORDER__ == __ORDER_LITTLE_ENDIAN__,
               "fields are swapped on the way in and out");

static inline uint32_t load4(const uint8_t *at)
{
    uint32_t v;
    memcpy(&v, at, 4);
    return __builtin_bswap32(v);
}

static inline uint64_t load8(const uint8_t *at)
{
    uint64_t v;
    memcpy(&v, at, 8);
    return v;
}

/* The field of at most four bytes that ends at `end`. The head is in front of every node, so four
   bytes can always be read; so can the eight of `data_of`. */
static inline uint32_t field(const uint8_t *end, uint32_t mask)
{
    return load4(end - 4) & mask;
}

/* Writes the field that ends at `end`. The bytes in front of it keep what they hold. */
static inline void put_field(uint8_t *end, uint32_t mask, uint32_t v)
{
    uint32_t four = __builtin_bswap32((load4(end - 4) & ~mask) | v);
    memcpy(end - 4, &four, 4);
}

static inline const uint8_t *node_at(const struct opened *o, uint32_t node)
{
    return o->nodes + node * o->width;
}

static inline uint32_t link_of(const struct opened *o, const uint8_t *node, uint32_t letter)
{
    return field(node + (size_t)letter * o->a + o->a, o->link_mask);
}

static inline uint64_t data_of(const struct opened *o, const uint8_t *node)
{
    return __builtin_bswap64(load8(node + o->width - 8)) & o->data_mask;
}

/* Writes the data of a node. The bytes in front of it keep what they hold. */
static inline void put_data(const struct opened *o, uint8_t *node, uint64_t value)
{
    uint8_t *at = node + o->width - 8;
    uint64_t eight = __builtin_bswap64((__builtin_bswap64(load8(at)) & ~o->data_mask) | value);
    memcpy(at, &eight, 8);
}

/* The bitwise or of 32 bytes, as 8 bytes. */
static inline uint64_t any_of_32(const uint8_t *at)
{
    return load8(at) | load8(at + 8) | load8(at + 16) | load8(at + 24);
}

/* Are 8 to 31 bytes all 0? The last eight may be read twice. */
static inline bool few_blank(const uint8_t *at, size_t len)
{
    uint64_t any = load8(at + len - 8);
    for (size_t i = 0; i + 8 < len; i += 8)
        any |= load8(at + i);
    return any == 0;
}

/* Are all links of a node empty? If they have fewer than eight bytes in all, the answer is false.
   The last 32 bytes may be read twice. */
static inline bool childless(const struct opened *o, const uint8_t *node)
{
    size_t len = o->links_len;
    if (len < 32)
        return len >= 8 && few_blank(node, len);
    const uint8_t *last = node + len - 32;
    for (; node < last; node += 32)
        if (any_of_32(node) != 0)
            return false;
    return any_of_32(last) == 0;
}

/* The same for links of 32 to 64 bytes in all, the usual case, without a loop. */
static inline bool leaf_of_64(const uint8_t *node, size_t len)
{
    return (any_of_32(node) | any_of_32(node + len - 32)) == 0;
}

static inline bool usual(const struct opened *o)
{
    return 32 <= o->links_len && o->links_len <= 64;
}

/* ---- 1 to 4 */

/* The length of the well-formed character of two bytes or more at s; 0 if there is none in the
   bytes left. */
static size_t wide_len(const uint8_t *s, size_t left)
{
    uint8_t first = s[0];
    size_t len = first < 0xE0 ? 2 : first < 0xF0 ? 3 : 4;
    if (first < 0xC2 || 0xF4 < first || left < len)
        return 0;
    uint8_t low = first == 0xE0 ? 0xA0 : first == 0xF0 ? 0x90 : 0x80;
    uint8_t high = first == 0xED ? 0x9F : first == 0xF4 ? 0x8F : 0xBF;
    if (s[1] < low || high < s[1])
        return 0;
    if (len > 2 && (s[2] & 0xC0) != 0x80)
        return 0;
    return len > 3 && (s[3] & 0xC0) != 0x80 ? 0 : len;
}

static uint32_t code_of(const uint8_t *s, size_t len)
{
    uint32_t code = (uint32_t)s[0] << 8 | s[1];
    if (len > 2)
        code = code << 8 | s[2];
    return len > 3 ? code << 8 | s[3] : code;
}

/* The slot of a code: the one that holds its letter, or the empty one where it belongs. */
static inline uint16_t *slot_of(struct alphabet *al, uint32_t code)
{
    uint32_t at = code * 0x9E3779B1u >> 23;
    while (al->slots[at] != 0 && al->codes[al->slots[at] - 1] != code)
        at = (at + 1) % SLOTS;
    return &al->slots[at];
}

/* Puts a character of two bytes or more into the table as a letter. Returns its length; 0 if it is
   not well-formed or not new. */
static size_t add_wide(struct alphabet *al, const uint8_t *s, size_t left, uint32_t letter)
{
    size_t len = wide_len(s, left);
    if (len == 0)
        return 0;
    if (!al->wide) {
        memset(al->slots, 0, sizeof al->slots);
        al->wide = true;
    }
    uint32_t code = code_of(s, len);
    uint16_t *slot = slot_of(al, code);
    if (*slot != 0)
        return 0;
    al->codes[letter] = code;
    *slot = (uint16_t)(letter + 1);
    return len;
}

/* Are these bytes exactly n different well-formed characters? If so, the tables hold their
   letters. */
static bool read_alphabet(struct alphabet *al, const uint8_t *bytes, size_t len, uint32_t n)
{
    memset(al->one, 0, sizeof al->one);
    uint32_t letter = 0;
    for (size_t at = 0; at < len; letter++) {
        if (letter == n)
            return false;
        if (bytes[at] < 0x80) {
            uint16_t *one = &al->one[bytes[at++]];
            if (*one != 0)
                return false;
            *one = (uint16_t)(letter + 1);
            continue;
        }
        size_t size = add_wide(al, bytes + at, len - at, letter);
        if (size == 0)
            return false;
        at += size;
    }
    return letter == n;
}

static uint64_t ones(uint32_t width)
{
    return UINT64_MAX >> (64 - 8 * width);
}

/* 1 to 4: the number of the first refusal that applies, or 0. Without an alphabet the tables are
   not filled. */
static uint32_t open_image(const uint8_t *image, size_t len, struct opened *o, struct alphabet *al)
{
    if (len - 28 > IMAGE_MOST - 28)
        return 1;
    *o = (struct opened){.g = load4(image),       .n = load4(image + 4),
                         .a = load4(image + 8),   .d = load4(image + 12),
                         .f = load4(image + 16),  .min = load4(image + 20),
                         .max = load4(image + 24)};
    if (o->n - 1 > 255 || o->a - 1 > 3 || o->d - 1 > 7 || o->f > 1024 || o->min > o->max ||
        o->max > KEY_MOST)
        return 2;
    al->wide = false;
    if (o->f > 0 && 28 + o->f <= len && !read_alphabet(al, image + 28, o->f, o->n))
        return 3;
    o->nodes = image + 28 + o->f;
    o->links_len = o->n * o->a;
    o->width = o->links_len + o->d;
    o->link_mask = (uint32_t)ones(o->a);
    o->data_mask = ones(o->d);
    return len < 28 + o->f + ((size_t)o->g + 1) * o->width ? 4 : 0;
}

/* ---- 5 to 8, 16 and 19 */

/* Once x has been met in a link, working number x holds the node of that link, plus 1, in its low
   24 bits, and the depth of x, plus 1, in the bits above them. These are 0 while the depth is not
   known. Once it is known, the low bits no longer matter. Depths above 64 are all written as 65,
   since no max allows them. */
#define DEPTH_SHIFT 24
#define DEPTH_ONE (1u << DEPTH_SHIFT)
#define DEPTH_TOP ((KEY_MOST + 2u) << DEPTH_SHIFT)
_Static_assert(IMAGE_MOST / 2 < DEPTH_ONE, "a node, plus 1, takes 24 bits");

/* The depths in min..max, as they are in working numbers: the first, and how many. */
struct depths {
    uint32_t first, many;
};

static inline struct depths depths_of(const struct opened *o)
{
    return (struct depths){.first = (o->min + 1) << DEPTH_SHIFT,
                           .many = (o->max - o->min + 1) << DEPTH_SHIFT};
}

/* Is the depth of a working number outside min..max? It must be known. */
static inline bool outside(struct depths open, uint32_t number)
{
    return number - open.first >= open.many;
}

/* The working number of a node's child, from the node's own one. The depth must be known. */
static inline uint32_t one_deeper(uint32_t number)
{
    return number < DEPTH_TOP ? number + DEPTH_ONE : number;
}

/* The lowest child of a node that has data, if it is below `most`; else `most`. */
__attribute__((noinline)) static uint32_t child_with_data(const struct opened *o,
                                                          const uint8_t *node, uint32_t most)
{
    const uint8_t *end = node + o->a, *last = end + o->links_len;
    for (; end != last; end += o->a) {
        uint32_t link = field(end, o->link_mask);
        if (link != 0 && link < most && data_of(o, node_at(o, link)) != 0)
            most = link;
    }
    return most;
}

/* The results of one pass over all links. */
struct pass {
    uint32_t bad;    /* the lowest node that holds a link above G; above G if there is none */
    uint32_t links;  /* the number of links that are not empty */
    uint32_t twice;  /* not 0 if an address was met again */
    uint32_t falls;  /* 1 if a link is not above its node */
    uint32_t hidden; /* the lowest node whose depth was known and whose data is hidden; above G if
                        there is none */
    uint32_t keys;   /* the number of nodes with data, if they are counted */
};

/* Moves on from node q to the first node with links, past the leaves. The number of nodes on the
   way that have data is added to `*keys`, that node's own included. */
__attribute__((always_inline)) static inline uint32_t next_parent(
    const struct opened *o, uint32_t q, bool usual_len, bool counting, uint32_t *keys)
{
    size_t width = o->width, len = o->links_len;
    const uint8_t *node = node_at(o, q);
    uint32_t g = o->g, met = 0;
    uint64_t mask = __builtin_bswap64(o->data_mask);
    for (; q <= g; q++, node += width) {
        if (counting)
            met += (load8(node + width - 8) & mask) != 0;
        if (usual_len ? !leaf_of_64(node, len) : !childless(o, node))
            break;
    }
    *keys += met;
    return q;
}

/* One test finds both a link above G and one that is not above its node. All children of a node
   have one depth, and their data is read only if that depth is known and outside min..max. Where
   no link falls and every address stands in a link, each depth is known in time. */
__attribute__((always_inline)) static inline struct pass pass_links(
    const struct opened *o, uint32_t *work, bool usual_len, bool counting)
{
    struct pass p = {.bad = o->g + 1, .hidden = o->g + 1};
    uint32_t g = o->g, mask = o->link_mask, q = 0;
    size_t a = o->a, len = o->links_len;
    work[0] = DEPTH_ONE;
    if (o->min > 0 && data_of(o, o->nodes) != 0)
        p.hidden = 0;
    while ((q = next_parent(o, q, usual_len, counting, &p.keys)) <= g) {
        uint32_t own = work[q], mark = own < DEPTH_ONE ? q + 1 : one_deeper(own);
        const uint8_t *node = node_at(o, q), *end = node + a, *last = end + len;
        uint32_t rest = g - q++;
        for (; end != last; end += a) {
            uint32_t link = field(end, mask);
            if (link == 0)
                continue;
            if (link - q >= rest) {
                if (link > g) {
                    p.bad = q - 1;
                    return p;
                }
                p.falls = 1;
            }
            p.twice |= work[link];
            work[link] = mark;
            p.links++;
        }
        if (mark >= DEPTH_ONE && outside(depths_of(o), mark))
            p.hidden = child_with_data(o, node, p.hidden);
    }
    return p;
}

/* The pass that an image and a call need, each compiled by itself. */
static struct pass pass_for(const struct opened *o, uint32_t *work, bool counting)
{
    if (usual(o))
        return counting ? pass_links(o, work, true, true) : pass_links(o, work, true, false);
    return counting ? pass_links(o, work, false, true) : pass_links(o, work, false, false);
}

/* 7, for an image that has one and no link above G. Counts the links in which each address
   stands. */
static trieff_answer linked_twice(const struct opened *o, uint32_t *work)
{
    memset(work, 0, ((size_t)o->g + 1) * sizeof *work);
    for (uint32_t q = 0; q <= o->g; q++)
        for (uint32_t i = 0; i < o->n; i++)
            work[link_of(o, node_at(o, q), i)]++;
    uint32_t x = 1;
    while (work[x] < 2)
        x++;
    return refusal(7, x);
}

/* 8, for an image that has one, no link above G and no 7: the lowest address that was met in no
   link. */
static trieff_answer not_linked(const uint32_t *work)
{
    uint32_t x = 1;
    while (work[x] != 0)
        x++;
    return refusal(8, x);
}

/* Climbs from a node, by the nodes in the working numbers, to one whose depth is known. A second
   climb leaves the depths of the nodes on the way, and finds hidden data below `*hidden`. False if
   the first one is in a ring: it takes more than G steps. */
static bool climb(const struct opened *o, uint32_t *work, uint32_t from, uint32_t *hidden)
{
    struct depths open = depths_of(o);
    uint32_t y = from, steps = 0, g = o->g;
    for (; work[y] < DEPTH_ONE; steps++) {
        if (steps > g)
            return false;
        y = work[y] - 1;
    }
    uint32_t depth = (work[y] >> DEPTH_SHIFT) + steps;
    for (y = from; steps > 0; steps--, depth--) {
        uint32_t above = work[y] - 1;
        work[y] = depth < DEPTH_TOP >> DEPTH_SHIFT ? depth << DEPTH_SHIFT : DEPTH_TOP;
        if (outside(open, work[y]) && y < *hidden && data_of(o, node_at(o, y)) != 0)
            *hidden = y;
        y = above;
    }
    return true;
}

/* 16, 19 or done, for an image that passes 6 to 8 and has a link that falls. `hidden` is that of
   the pass. A node whose depth the pass did not know has it from the node above. That one may need
   a climb. The first climb that is in a ring comes from the lowest node that is not reached. Each
   node is passed at most three times. */
static trieff_answer judge_reach(const struct opened *o, uint32_t *work, uint32_t hidden)
{
    struct depths open = depths_of(o);
    uint32_t g = o->g;
    for (uint32_t x = 1; x <= g; x++) {
        uint32_t parent = work[x] - 1;
        if (parent >= DEPTH_ONE - 1)
            continue;
        if (work[parent] < DEPTH_ONE && !climb(o, work, parent, &hidden))
            return refusal(16, x);
        uint32_t own = work[parent] + DEPTH_ONE;
        if (outside(open, own)) {
            own = one_deeper(work[parent]);
            if (x < hidden && data_of(o, node_at(o, x)) != 0)
                hidden = x;
        }
        work[x] = own;
    }
    return hidden <= g ? refusal(19, hidden) : (trieff_answer){.number = 0};
}

/* 5 to 8, 16 and 19. `*p` is what the pass found, unless 5 is given. */
static trieff_answer judge_links(const struct opened *o, uint32_t *work, size_t work_len,
                                 bool counting, struct pass *p)
{
    size_t nodes = (size_t)o->g + 1;
    if (work_len < nodes)
        return refusal(5, 0);
    memset(work, 0, nodes * sizeof *work);
    *p = pass_for(o, work, counting);
    trieff_answer answer = {.number = 0};
    if (p->bad <= o->g)
        answer = refusal(6, p->bad);
    else if (p->twice != 0)
        answer = linked_twice(o, work);
    else if (p->links != o->g)
        answer = not_linked(work);
    else if (p->falls != 0)
        answer = judge_reach(o, work, p->hidden);
    else if (p->hidden <= o->g)
        answer = refusal(19, p->hidden);
    memset(work, 0, nodes * sizeof *work);
    return answer;
}

/* 1 to 8, 16 and 19. It is not inlined, so that what a call takes beyond it can be measured. */
__attribute__((noinline)) static trieff_answer check(
    const uint8_t *image, size_t len, uint32_t *work, size_t work_len, struct opened *o,
    struct alphabet *al)
{
    struct pass p;
    uint32_t number = open_image(image, len, o, al);
    return number != 0 ? refusal(number, 0) : judge_links(o, work, work_len, false, &p);
}

trieff_answer tuned_check(const uint8_t *image, size_t image_len, uint32_t *work, size_t work_len)
{
    struct opened o;
    struct alphabet al;
    return check(image, image_len, work, work_len, &o, &al);
}

/* ---- keys: 9 and 10 */

static bool letters_good(const struct opened *o, const uint8_t *letters, size_t len)
{
    uint8_t top = 0;
    for (size_t i = 0; i < len; i++)
        top = letters[i] > top ? letters[i] : top;
    return top < o->n;
}

static uint32_t judge_key(const struct opened *o, const uint8_t *letters, size_t len)
{
    if (len - o->min > o->max - o->min)
        return 9;
    return letters_good(o, letters, len) ? 0 : 10;
}

/* 10, then 9, for a text. Its first 64 letters are written to `letters`; `*count` is the number of
   its letters. */
static uint32_t judge_text(const struct opened *o, struct alphabet *al, const uint8_t *text,
                           size_t len, uint8_t *letters, size_t *count)
{
    size_t at = 0, most = 0;
    if (o->f == 0 && len > 0)
        return 10;
    for (; at < len; most++) {
        uint32_t letter = 0;
        if (text[at] < 0x80) {
            letter = al->one[text[at++]];
        } else {
            size_t size = wide_len(text + at, len - at);
            if (size != 0 && al->wide)
                letter = *slot_of(al, code_of(text + at, size));
            at += size;
        }
        if (letter == 0)
            return 10;
        if (most < KEY_MOST)
            letters[most] = (uint8_t)(letter - 1);
    }
    *count = most;
    return most - o->min > o->max - o->min ? 9 : 0;
}

/* ---- look up */

static inline trieff_answer look(const struct opened *o, const uint8_t *letters, size_t len)
{
    uint32_t q = 0;
    const uint8_t *node = o->nodes;
    for (size_t i = 0; i < len; i++) {
        uint32_t link = link_of(o, node, letters[i]);
        if (link == 0)
            return (trieff_answer){.value = 0};
        if (link > o->g)
            return refusal(6, q);
        q = link;
        node = node_at(o, q);
    }
    return (trieff_answer){.value = data_of(o, node)};
}

trieff_answer tuned_look_up(const uint8_t *image, size_t image_len, const uint8_t *letters,
                            size_t letters_len)
{
    struct opened o;
    struct alphabet al;
    uint32_t number = open_image(image, image_len, &o, &al);
    if (number == 0)
        number = judge_key(&o, letters, letters_len);
    return number != 0 ? refusal(number, 0) : look(&o, letters, letters_len);
}

trieff_answer tuned_look_up_text(const uint8_t *image, size_t image_len, const uint8_t *text,
                                 size_t text_len)
{
    struct opened o;
    struct alphabet al;
    uint8_t letters[KEY_MOST];
    size_t len;
    uint32_t number = open_image(image, image_len, &o, &al);
    if (number == 0)
        number = judge_text(&o, &al, text, text_len, letters, &len);
    return number != 0 ? refusal(number, 0) : look(&o, letters, len);
}

/* ---- store: 11, 12, 13 */

/* Adds a write to the list of writes, if there is one. Returns where the next one goes. */
static inline uint32_t *note(uint32_t *list, size_t place, size_t len)
{
    if (list == NULL)
        return NULL;
    list[0] = (uint32_t)place;
    list[1] = (uint32_t)len;
    return list + 2;
}

/* The old nodes on a key's path, for a store whose list of counts has `most` numbers. */
struct trail {
    uint32_t nodes[KEY_MOST + 1];
    size_t len, most;
};

/* The path stops at a link. Writes the new nodes, then G, then that link. `letters` are those
   after the link's own letter. */
__attribute__((always_inline)) static inline trieff_answer extend(
    uint8_t *image, size_t image_len, const struct opened *o, uint8_t *link_end,
    const uint8_t *letters, size_t len, uint64_t value, uint32_t *list, const struct trail *trail)
{
    size_t k = len + 1;
    if (value == 0)
        return (trieff_answer){.change = 0};
    if (o->g + k > o->link_mask)
        return refusal(12, 0);
    uint8_t *node = image + (node_at(o, o->g + 1) - image);
    if (image_len < (size_t)(node - image) + k * o->width)
        return refusal(13, 0);
    if (trail != NULL && trail->most < o->g + k + 1)
        return refusal(5, 0);
    memset(node, 0, k * o->width);
    for (size_t i = 0; i < len; i++, node += o->width)
        put_field(node + (size_t)letters[i] * o->a + o->a, o->link_mask, (uint32_t)(o->g + 2 + i));
    put_data(o, node, value);
    put_field(image + 4, 0xFFFFFFFF, (uint32_t)(o->g + k));
    put_field(link_end, o->link_mask, o->g + 1);
    if (list == NULL)
        return (trieff_answer){.change = 1};
    size_t place = (size_t)(node_at(o, o->g + 1) - image);
    for (size_t i = 0; i < k; i++, place += o->width)
        list = note(list, place, o->width);
    note(note(list, 0, 4), (size_t)(link_end - image) - o->a, o->a);
    return (trieff_answer){.change = 1, .length = (uint32_t)k + 2};
}

/* A store after the check and once the key has passed. It is inlined: where there is no list of
   writes, or no trail, the compiler drops the tests for it. */
__attribute__((always_inline)) static inline trieff_answer store_in(
    uint8_t *image, size_t image_len, const struct opened *o, const uint8_t *letters, size_t len,
    uint64_t value, uint32_t *list, struct trail *trail)
{
    if (value > o->data_mask)
        return refusal(11, 0);
    uint8_t *nodes = image + 28 + o->f, *node = nodes;
    if (trail != NULL)
        trail->nodes[0] = 0;
    for (size_t i = 0; i < len; i++) {
        uint8_t *end = node + (size_t)letters[i] * o->a + o->a;
        uint32_t link = field(end, o->link_mask);
        if (trail != NULL)
            trail->len = i + 1;
        if (link == 0)
            return extend(image, image_len, o, end, letters + i + 1, len - i - 1, value, list,
                          trail);
        node = nodes + link * o->width;
        if (trail != NULL)
            trail->nodes[i + 1] = link;
    }
    if (trail != NULL)
        trail->len = len + 1;
    uint64_t old = data_of(o, node);
    put_data(o, node, value);
    uint32_t *end = note(list, (size_t)(node - image) + o->links_len, o->d);
    return (trieff_answer){.change = (value != 0) - (old != 0), .length = end != NULL};
}

/* It is not inlined, so that it can be counted alone. */
__attribute__((noinline)) static trieff_answer inner_store(
    uint8_t *image, size_t image_len, const struct opened *o, const uint8_t *letters, size_t len,
    uint64_t value)
{
    return store_in(image, image_len, o, letters, len, value, NULL, NULL);
}

__attribute__((noinline)) static trieff_answer inner_store_writes(
    uint8_t *image, size_t image_len, const struct opened *o, const uint8_t *letters, size_t len,
    uint64_t value, uint32_t *writes)
{
    return store_in(image, image_len, o, letters, len, value, writes, NULL);
}

trieff_answer tuned_store(uint8_t *image, size_t image_len, uint32_t *work, size_t work_len,
                          const uint8_t *letters, size_t letters_len, uint64_t value)
{
    struct opened o;
    struct alphabet al;
    trieff_answer answer = check(image, image_len, work, work_len, &o, &al);
    if (answer.number != 0)
        return answer;
    uint32_t number = judge_key(&o, letters, letters_len);
    return number != 0 ? refusal(number, 0)
                       : inner_store(image, image_len, &o, letters, letters_len, value);
}

trieff_answer tuned_store_text(uint8_t *image, size_t image_len, uint32_t *work, size_t work_len,
                               const uint8_t *text, size_t text_len, uint64_t value)
{
    struct opened o;
    struct alphabet al;
    uint8_t letters[KEY_MOST];
    size_t len;
    trieff_answer answer = check(image, image_len, work, work_len, &o, &al);
    if (answer.number != 0)
        return answer;
    uint32_t number = judge_text(&o, &al, text, text_len, letters, &len);
    return number != 0 ? refusal(number, 0)
                       : inner_store(image, image_len, &o, letters, len, value);
}

trieff_answer tuned_store_writes(uint8_t *image, size_t image_len, uint32_t *work, size_t work_len,
                                 const uint8_t *letters, size_t letters_len, uint64_t value,
                                 uint32_t *writes)
{
    struct opened o;
    struct alphabet al;
    trieff_answer answer = check(image, image_len, work, work_len, &o, &al);
    if (answer.number != 0)
        return answer;
    uint32_t number = judge_key(&o, letters, letters_len);
    return number != 0 ? refusal(number, 0)
                       : inner_store_writes(image, image_len, &o, letters, letters_len, value,
                                            writes);
}

trieff_answer tuned_store_text_writes(uint8_t *image, size_t image_len, uint32_t *work,
                                      size_t work_len, const uint8_t *text, size_t text_len,
                                      uint64_t value, uint32_t *writes)
{
    struct opened o;
    struct alphabet al;
    uint8_t letters[KEY_MOST];
    size_t len;
    trieff_answer answer = check(image, image_len, work, work_len, &o, &al);
    if (answer.number != 0)
        return answer;
    uint32_t number = judge_text(&o, &al, text, text_len, letters, &len);
    return number != 0 ? refusal(number, 0)
                       : inner_store_writes(image, image_len, &o, letters, len, value, writes);
}

/* ---- mending */

/* The number of links in the nodes from q on that are not empty. */
static uint32_t links_from(const struct opened *o, uint32_t q)
{
    uint32_t links = 0;
    for (; q <= o->g; q++) {
        if (childless(o, node_at(o, q)))
            continue;
        for (uint32_t i = 0; i < o->n; i++)
            links += link_of(o, node_at(o, q), i) != 0;
    }
    return links;
}

/* If 8 at p is given, each address from 1 to p - 1 stands in exactly one link. Where all links
   rise, it is a link of a node below p, so the pass knew their depths. Then the image is accepted
   with p nodes exactly if these hold p - 1 links and no hidden data, and no second pass over them
   is needed. */
trieff_answer tuned_mend(uint8_t *image, size_t image_len, uint32_t *work, size_t work_len)
{
    struct opened o;
    struct alphabet al;
    struct pass p, trial;
    uint32_t number = open_image(image, image_len, &o, &al);
    if (number != 0)
        return refusal(number, 0);
    trieff_answer answer = judge_links(&o, work, work_len, false, &p);
    if (answer.number != 8)
        return answer;
    uint32_t links_below = p.links - links_from(&o, answer.place);
    o.g = answer.place - 1;
    if (p.falls == 0 ? links_below != o.g || p.hidden <= o.g
                     : judge_links(&o, work, work_len, false, &trial).number != 0)
        return answer;
    put_field(image + 4, 0xFFFFFFFF, o.g);
    return (trieff_answer){.number = 0};
}

/* ---- the next key */

/* The path of a search: the letters down to a depth, and the nodes on the way. */
struct path {
    uint8_t letters[KEY_MOST];
    const uint8_t *nodes[KEY_MOST + 1];
    size_t depth;
};

/* The first link of a node that is not empty, from a letter on; 0 if there is none. The letter
   becomes that of the link. */
static inline uint32_t next_link(const struct opened *o, const uint8_t *node, uint32_t *letter)
{
    if (*letter == 0 && childless(o, node))
        return 0;
    for (; *letter < o->n; ++*letter) {
        uint32_t link = link_of(o, node, *letter);
        if (link != 0)
            return link;
    }
    return 0;
}

/* Moves the path to the first stored key under its last node, from a letter on, or else to the
   next stored key after these. Returns its value, 0 for none. */
static uint64_t move_on(const struct opened *o, struct path *p, uint32_t letter)
{
    size_t depth = p->depth;
    for (;;) {
        uint32_t link = depth < o->max ? next_link(o, p->nodes[depth], &letter) : 0;
        if (link == 0) {
            if (depth == 0)
                return 0;
            letter = p->letters[--depth] + 1u;
            continue;
        }
        const uint8_t *node = node_at(o, link);
        p->letters[depth++] = (uint8_t)letter;
        p->nodes[depth] = node;
        letter = 0;
        if (data_of(o, node) == 0)
            continue;
        p->depth = depth;
        return data_of(o, node);
    }
}

/* Follows a key as far as its links go, and finds the first stored key from there on. */
static uint64_t seek(const struct opened *o, const uint8_t *letters, size_t len, bool after,
                     struct path *p)
{
    p->nodes[0] = o->nodes;
    for (p->depth = 0; p->depth < len; p->depth++) {
        uint8_t letter = letters[p->depth];
        uint32_t link = link_of(o, p->nodes[p->depth], letter);
        if (link == 0)
            return move_on(o, p, letter + 1u);
        p->letters[p->depth] = letter;
        p->nodes[p->depth + 1] = node_at(o, link);
    }
    uint64_t own = after ? 0 : data_of(o, p->nodes[len]);
    return own != 0 ? own : move_on(o, p, 0);
}

trieff_answer tuned_next_key(const uint8_t *image, size_t image_len, uint32_t *work,
                             size_t work_len, const uint8_t *letters, size_t letters_len,
                             bool after, uint8_t *key, size_t key_len)
{
    struct opened o;
    struct alphabet al;
    struct path p;
    trieff_answer answer = check(image, image_len, work, work_len, &o, &al);
    if (answer.number != 0)
        return answer;
    if (letters_len > o.max)
        return refusal(9, 0);
    if (!letters_good(&o, letters, letters_len))
        return refusal(10, 0);
    if (key_len < o.max)
        return refusal(14, 0);
    uint64_t value = seek(&o, letters, letters_len, after, &p);
    if (value == 0)
        return refusal(15, 0);
    for (size_t i = 0; i < p.depth; i++)
        key[i] = p.letters[i];
    return (trieff_answer){.length = (uint32_t)p.depth, .value = value};
}

/* ---- the number of keys, and counts */

/* Are all links of a node empty? Fewer than eight bytes are read together with the bytes in front
   of them. */
static inline bool leaf(const struct opened *o, const uint8_t *node)
{
    size_t len = o->links_len;
    return len < 8 ? load8(node + len - 8) >> (64 - 8 * len) == 0 : childless(o, node);
}

/* A walk from the root that judges the links on its way and leaves each node's count, plus 1, in
   its working number. So 0 means that a node was not met. It goes by links alone, so children may
   have lower addresses. The number of keys does not need it. */
struct tally {
    const struct opened *o;
    uint32_t *work;
    uint32_t met;  /* the number of nodes that were met, without the root */
    uint32_t odd;  /* not 0: a link above G, an address met again, data at a depth below min, or
                      nodes deeper than max */
    uint32_t deep; /* 1 if nodes deeper than max are odd */
};

typedef uint32_t tally_function(struct tally *t, uint32_t q, uint32_t depth, uint32_t own);

/* The number of stored keys at and under a node that is not at depth max; `own` is 1 if the node
   itself stores one. Leaves are counted in the loop. The recursion is at most max levels deep. A
   node is entered only once: after an address was met again, no node is entered. */
__attribute__((always_inline)) static inline uint32_t tally_in(
    struct tally *t, uint32_t q, uint32_t depth, uint32_t own, bool usual_len,
    tally_function *enter)
{
    const struct opened *o = t->o;
    size_t a = o->a, width = o->width, len = o->links_len;
    uint32_t *work = t->work, mask = o->link_mask, g = o->g, odd = 0, keys = own, met = 0;
    uint64_t data_mask = __builtin_bswap64(o->data_mask);
    if (++depth < o->min)
        odd = child_with_data(o, node_at(o, q), g + 1) <= g;
    const uint8_t *nodes = o->nodes, *end = node_at(o, q) + a, *last = end + len;
    for (; end != last; end += a) {
        uint32_t link = field(end, mask);
        if (link == 0)
            continue;
        if (link > g) {
            odd = 1;
            continue;
        }
        const uint8_t *child = nodes + link * width;
        own = (load8(child + width - 8) & data_mask) != 0;
        odd |= work[link];
        work[link] = own + 1;
        met++;
        if (usual_len ? !leaf_of_64(child, len) : !leaf(o, child)) {
            t->odd |= odd;
            if (depth == o->max)
                t->odd |= t->deep;
            else if (t->odd == 0)
                own = enter(t, link, depth, own);
        }
        keys += own;
    }
    t->odd |= odd;
    t->met += met;
    work[q] = keys + 1;
    return keys;
}

static uint32_t tally_usual(struct tally *t, uint32_t q, uint32_t depth, uint32_t own)
{
    return tally_in(t, q, depth, own, true, tally_usual);
}

static uint32_t tally_other(struct tally *t, uint32_t q, uint32_t depth, uint32_t own)
{
    return tally_in(t, q, depth, own, false, tally_other);
}

/* The walk, with working numbers that are 0 at first. */
static struct tally tally(const struct opened *o, uint32_t *work, uint32_t deep)
{
    struct tally t = {.o = o, .work = work, .deep = deep};
    uint32_t own = data_of(o, o->nodes) != 0;
    t.odd = o->min > 0 ? own : 0;
    work[0] = own + 1;
    if (o->max > 0)
        (usual(o) ? tally_usual : tally_other)(&t, 0, 0, own);
    else if (!leaf(o, o->nodes))
        t.odd = deep;
    return t;
}

/* 5 to 8, 16 and 19. When it is done, every working number is a count plus 1. If the walk meets
   every node and nothing odd, the image is accepted. Otherwise the check decides. An image that it
   then accepts has nodes deeper than max, whose counts are 0. */
static trieff_answer judge_by_walk(const struct opened *o, uint32_t *work, size_t work_len)
{
    size_t nodes = (size_t)o->g + 1;
    if (work_len < nodes)
        return refusal(5, 0);
    memset(work, 0, nodes * sizeof *work);
    struct tally t = tally(o, work, 1);
    if (t.odd != 0 || t.met != o->g) {
        struct pass p;
        trieff_answer answer = judge_links(o, work, work_len, false, &p);
        if (answer.number != 0)
            return answer;
        tally(o, work, 0);
        for (size_t x = 0; x < nodes; x++)
            work[x] += work[x] == 0;
    }
    return (trieff_answer){.number = 0};
}

/* 5 to 8, 16 and 19. When it is done, the answer's value is the number of stored keys: an accepted
   image has no other data. */
static trieff_answer keys_of(const struct opened *o, uint32_t *work, size_t work_len)
{
    struct pass p;
    trieff_answer answer = judge_links(o, work, work_len, true, &p);
    if (answer.number == 0)
        answer.value = p.keys;
    return answer;
}

trieff_answer tuned_count(const uint8_t *image, size_t image_len, uint32_t *work, size_t work_len)
{
    struct opened o;
    struct alphabet al;
    uint32_t number = open_image(image, image_len, &o, &al);
    return number != 0 ? refusal(number, 0) : keys_of(&o, work, work_len);
}

/* 1 to 8, where 5 is for the counts too, 16 and 19. When it is done, every working number is a
   count plus 1. */
static trieff_answer fresh(const uint8_t *image, size_t len, uint32_t *work, size_t work_len,
                           size_t counts_len, struct opened *o, struct alphabet *al)
{
    uint32_t number = open_image(image, len, o, al);
    if (number != 0)
        return refusal(number, 0);
    return judge_by_walk(o, work, work_len < counts_len ? work_len : counts_len);
}

#define BLOCK 32

/* Moves the counts from the working numbers to the list. The working numbers become 0. */
static void move_counts(uint32_t *restrict counts, uint32_t *restrict work, size_t nodes)
{
    size_t x = 0;
    for (; x + BLOCK <= nodes; x += BLOCK) {
        for (size_t i = 0; i < BLOCK; i++)
            counts[x + i] = work[x + i] - 1;
        memset(work + x, 0, BLOCK * sizeof *work);
    }
    for (; x < nodes; x++) {
        counts[x] = work[x] - 1;
        work[x] = 0;
    }
}

/* The lowest node whose count differs from the one in its working number; `nodes` if there is
   none. The working numbers become 0. */
static size_t first_other(const uint32_t *restrict counts, uint32_t *restrict work, size_t nodes)
{
    size_t x = 0;
    for (; x + BLOCK <= nodes; x += BLOCK) {
        uint32_t other = 0;
        for (size_t i = 0; i < BLOCK; i++)
            other |= (counts[x + i] + 1) ^ work[x + i];
        if (other != 0)
            break;
        memset(work + x, 0, BLOCK * sizeof *work);
    }
    size_t cleared = x;
    while (x < nodes && counts[x] + 1 == work[x])
        x++;
    memset(work + cleared, 0, (nodes - cleared) * sizeof *work);
    return x;
}

trieff_answer tuned_counts(const uint8_t *image, size_t image_len, uint32_t *work, size_t work_len,
                           uint32_t *counts, size_t counts_len)
{
    struct opened o;
    struct alphabet al;
    trieff_answer answer = fresh(image, image_len, work, work_len, counts_len, &o, &al);
    if (answer.number == 0)
        move_counts(counts, work, (size_t)o.g + 1);
    return answer;
}

/* 1 to 8, 16, 19 and 25. It is not inlined, so that what a call takes beyond it can be
   measured. */
__attribute__((noinline)) static trieff_answer compare(
    const uint8_t *image, size_t len, uint32_t *work, size_t work_len, const uint32_t *counts,
    size_t counts_len, struct opened *o, struct alphabet *al)
{
    trieff_answer answer = fresh(image, len, work, work_len, counts_len, o, al);
    if (answer.number != 0)
        return answer;
    size_t nodes = (size_t)o->g + 1, other = first_other(counts, work, nodes);
    return other < nodes ? refusal(25, (uint32_t)other) : answer;
}

trieff_answer tuned_check_counts(const uint8_t *image, size_t image_len, uint32_t *work,
                                 size_t work_len, const uint32_t *counts, size_t counts_len)
{
    struct opened o;
    struct alphabet al;
    return compare(image, image_len, work, work_len, counts, counts_len, &o, &al);
}

/* A store, then the counts of the old nodes on the path and of the new nodes. */
static trieff_answer inner_store_counts(uint8_t *image, size_t image_len, const struct opened *o,
                                        const uint8_t *letters, size_t len, uint64_t value,
                                        uint32_t *counts, size_t counts_len)
{
    struct trail trail;
    trail.most = counts_len;
    trieff_answer answer = store_in(image, image_len, o, letters, len, value, NULL, &trail);
    if (answer.number != 0 || answer.change == 0)
        return answer;
    for (size_t i = 0; i < trail.len; i++)
        counts[trail.nodes[i]] += (uint32_t)answer.change;
    for (size_t i = trail.len; i <= len; i++)
        counts[o->g + 1 + i - trail.len] = 1;
    return answer;
}

trieff_answer tuned_store_counts(uint8_t *image, size_t image_len, uint32_t *work, size_t work_len,
                                 const uint8_t *letters, size_t letters_len, uint64_t value,
                                 uint32_t *counts, size_t counts_len)
{
    struct opened o;
    struct alphabet al;
    trieff_answer answer = compare(image, image_len, work, work_len, counts, counts_len, &o, &al);
    if (answer.number != 0)
        return answer;
    uint32_t number = judge_key(&o, letters, letters_len);
    if (number != 0)
        return refusal(number, 0);
    return inner_store_counts(image, image_len, &o, letters, letters_len, value, counts,
                              counts_len);
}

trieff_answer tuned_store_text_counts(uint8_t *image, size_t image_len, uint32_t *work,
                                      size_t work_len, const uint8_t *text, size_t text_len,
                                      uint64_t value, uint32_t *counts, size_t counts_len)
{
    struct opened o;
    struct alphabet al;
    uint8_t letters[KEY_MOST];
    size_t len;
    trieff_answer answer = compare(image, image_len, work, work_len, counts, counts_len, &o, &al);
    if (answer.number != 0)
        return answer;
    uint32_t number = judge_text(&o, &al, text, text_len, letters, &len);
    if (number != 0)
        return refusal(number, 0);
    return inner_store_counts(image, image_len, &o, letters, len, value, counts, counts_len);
}

/* The count of the node that a link leads to; 0 if the link is empty. */
static inline uint32_t count_at(const uint32_t *counts, uint32_t link)
{
    return link == 0 ? 0 : counts[link];
}

trieff_answer tuned_key_at(const uint8_t *image, size_t image_len, uint32_t *work, size_t work_len,
                           const uint32_t *counts, size_t counts_len, uint64_t position,
                           uint8_t *key, size_t key_len)
{
    struct opened o;
    struct alphabet al;
    trieff_answer answer = compare(image, image_len, work, work_len, counts, counts_len, &o, &al);
    if (answer.number != 0)
        return answer;
    if (key_len < o.max)
        return refusal(14, 0);
    if (position >= counts[0])
        return refusal(15, 0);
    const uint8_t *node = o.nodes;
    uint32_t left = (uint32_t)position, a = o.a, mask = o.link_mask;
    for (uint32_t depth = 0;; depth++) {
        uint64_t value = data_of(&o, node);
        if (value != 0 && left == 0)
            return (trieff_answer){.length = depth, .value = value};
        left -= value != 0;
        const uint8_t *end = node + a;
        uint32_t letter = 0, link = field(end, mask), under = count_at(counts, link);
        while (left >= under) {
            left -= under;
            letter++;
            end += a;
            link = field(end, mask);
            under = count_at(counts, link);
        }
        key[depth] = (uint8_t)letter;
        node = node_at(&o, link);
    }
}

/* The position of a key: the number of keys stored on its path before its own node, and under
   lower letters. */
static inline trieff_answer position_of(const struct opened *o, const uint32_t *counts,
                                        const uint8_t *letters, size_t len)
{
    const uint8_t *node = o->nodes;
    uint32_t position = 0, a = o->a, mask = o->link_mask;
    for (size_t depth = 0; depth < len; depth++) {
        position += data_of(o, node) != 0;
        const uint8_t *end = node + a, *own = end + (size_t)letters[depth] * a;
        for (; end != own; end += a)
            position += count_at(counts, field(end, mask));
        uint32_t link = field(own, mask);
        if (link == 0)
            return refusal(15, 0);
        node = node_at(o, link);
    }
    if (data_of(o, node) == 0)
        return refusal(15, 0);
    return (trieff_answer){.value = position};
}

trieff_answer tuned_position(const uint8_t *image, size_t image_len, uint32_t *work,
                             size_t work_len, const uint32_t *counts, size_t counts_len,
                             const uint8_t *letters, size_t letters_len)
{
    struct opened o;
    struct alphabet al;
    trieff_answer answer = compare(image, image_len, work, work_len, counts, counts_len, &o, &al);
    if (answer.number != 0)
        return answer;
    uint32_t number = judge_key(&o, letters, letters_len);
    return number != 0 ? refusal(number, 0) : position_of(&o, counts, letters, letters_len);
}

trieff_answer tuned_position_text(const uint8_t *image, size_t image_len, uint32_t *work,
                                  size_t work_len, const uint32_t *counts, size_t counts_len,
                                  const uint8_t *text, size_t text_len)
{
    struct opened o;
    struct alphabet al;
    uint8_t letters[KEY_MOST];
    size_t len;
    trieff_answer answer = compare(image, image_len, work, work_len, counts, counts_len, &o, &al);
    if (answer.number != 0)
        return answer;
    uint32_t number = judge_text(&o, &al, text, text_len, letters, &len);
    return number != 0 ? refusal(number, 0) : position_of(&o, counts, letters, len);
}

/* ---- the walk of a listing, and its lines */

/* Passes the stored keys under a node at a depth to the sink. A leaf is not entered. */
static void walk_below(const struct opened *o, const uint8_t *node, size_t depth, uint8_t *letters,
                       key_sink *sink, void *context)
{
    uint32_t n = o->n, a = o->a, mask = o->link_mask;
    const uint8_t *end = node + a;
    for (uint32_t i = 0; i < n; i++, end += a) {
        uint32_t link = field(end, mask);
        if (link == 0)
            continue;
        const uint8_t *child = node_at(o, link);
        letters[depth] = (uint8_t)i;
        uint64_t value = data_of(o, child);
        if (value != 0)
            sink(context, letters, depth + 1, value);
        if (depth + 1 < o->max && !childless(o, child))
            walk_below(o, child, depth + 1, letters, sink, context);
    }
}

/* Adds 1 to the context, which is a number of keys. */
static void add_key(void *context, const uint8_t *letters, size_t len, uint64_t value)
{
    (void)letters, (void)len, (void)value;
    ++*(uint64_t *)context;
}

uint64_t tuned_walk(const uint8_t *image, size_t image_len, uint32_t *work, size_t work_len)
{
    struct opened o;
    struct alphabet al;
    uint8_t letters[KEY_MOST];
    uint64_t keys = 0;
    if (check(image, image_len, work, work_len, &o, &al).number == 0 && o.max > 0)
        walk_below(&o, o.nodes, 0, letters, add_key, &keys);
    return keys;
}

/* Lines that wait to be written. No line is longer than 288 bytes. */
struct lines {
    char text[65536];
    size_t len;
};

static void flush(struct lines *out)
{
    for (size_t done = 0; done < out->len;) {
        ssize_t wrote = write(STDOUT_FILENO, out->text + done, out->len - done);
        if (wrote <= 0)
            return;
        done += (size_t)wrote;
    }
    out->len = 0;
}

static char *add_text(char *to, const char *text)
{
    while (*text != 0)
        *to++ = *text++;
    return to;
}

static char *add_number(char *to, uint64_t v)
{
    char digits[20];
    size_t at = sizeof digits;
    do {
        digits[--at] = (char)('0' + v % 10);
        v /= 10;
    } while (v != 0);
    while (at < sizeof digits)
        *to++ = digits[at++];
    return to;
}

static inline char *add_letter(char *to, uint32_t letter)
{
    if (letter >= 100)
        *to++ = (char)('0' + letter / 100);
    if (letter >= 10)
        *to++ = (char)('0' + letter / 10 % 10);
    *to++ = (char)('0' + letter % 10);
    return to;
}

static void add_line(void *context, const uint8_t *letters, size_t len, uint64_t value)
{
    struct lines *out = context;
    if (out->len > sizeof out->text - 288)
        flush(out);
    char *to = out->text + out->len;
    for (size_t i = 0; i < len; i++) {
        to = add_letter(to, letters[i]);
        *to++ = '.';
    }
    if (len == 0)
        *to++ = '-';
    else
        to--;
    *to++ = ' ';
    to = add_number(to, value);
    *to++ = '\n';
    out->len = (size_t)(to - out->text);
}

void tuned_list(const uint8_t *image, size_t image_len, uint32_t *work, size_t work_len)
{
    static struct lines out;
    struct opened o;
    struct alphabet al;
    uint8_t letters[KEY_MOST];
    uint32_t number = open_image(image, image_len, &o, &al);
    trieff_answer answer = number != 0 ? refusal(number, 0) : keys_of(&o, work, work_len);
    char *to = add_text(out.text, answer.number != 0 ? "refused " : "entries ");
    to = add_number(to, answer.number != 0 ? answer.number : answer.value);
    if (answer.number != 0)
        to = add_number(add_text(to, " at "), answer.place);
    *to++ = '\n';
    out.len = (size_t)(to - out.text);
    if (answer.number == 0 && data_of(&o, o.nodes) != 0)
        add_line(&out, letters, 0, data_of(&o, o.nodes));
    if (answer.number == 0 && o.max > 0)
        walk_below(&o, o.nodes, 0, letters, add_line, &out);
    flush(&out);
}
