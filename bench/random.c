/* Compares the three versions on random small images and calls. The images are whole or damaged,
   with addresses that rise from node to child or not, some with data at depths outside min..max.
   The arguments are near the limits of 9 to 15, values also near 2^32 and 2^64, and the lists of
   counts are right, wrong or too short. The answers of naive C to the calls with counts are
   compared with its other calls too, and its 19 with a climb from every node. The run fails unless
   each number from 0 to 16, 19 and 25 is answered, 19 at PLACES_LEAST places or more, every call
   is done at least once and every call that checks answers 19, each case of `struct heard` is met,
   and for each D the value 256^D - 1 is stored and 256^D refused.
   Usage: random SEED IMAGES */
#include "calls.h"
#include <stdio.h>
#include <stdlib.h>
#include <string.h>

#define ROOM 16384
#define CALLS_PER_IMAGE 40
#define CALLS_MOST 32
#define NUMBERS 26
#define NODES_MOST 600
#define PLACES_LEAST 10
#define WIDTHS 9

static uint64_t state;

/* A number below `limit`, by xorshift. */
static uint32_t any_below(uint32_t limit)
{
    state ^= state << 13;
    state ^= state >> 7;
    state ^= state << 17;
    return (uint32_t)((state >> 20) % limit);
}

static bool one_in(uint32_t many)
{
    return any_below(many) == 0;
}

/* A number of 64 bits. At times its low 32 bits are 0. */
static uint64_t any_number(void)
{
    uint64_t high = any_below(0xFFFFFFFF);
    return high << 32 | (one_in(4) ? 0 : any_below(0xFFFFFFFF));
}

/* Is a number that is not 0 taken for 0 if its high 32 bits are lost? */
static bool low_blank(uint64_t v)
{
    return v != 0 && (uint32_t)v == 0;
}

/* ---- images */

struct small {
    uint32_t g, n, a, d, f, min, max;
    size_t len;
    bool hides;    /* data was put at a depth outside min..max */
    bool accepted; /* the check answers 0 */
    bool falls;    /* the check answers 0, 8 or 19, and a link is not above its node */
    uint8_t bytes[ROOM];
};

static void put_field(uint8_t *at, uint32_t width, uint64_t v)
{
    for (uint32_t i = width; i > 0; i--, v >>= 8)
        at[i - 1] = (uint8_t)v;
}

static uint64_t get_field(const uint8_t *at, uint32_t width)
{
    uint64_t v = 0;
    for (uint32_t i = 0; i < width; i++)
        v = v << 8 | at[i];
    return v;
}

static uint8_t *node_of(struct small *s, uint32_t node)
{
    return s->bytes + 28 + s->f + (size_t)node * (s->n * s->a + s->d);
}

static const char *const CHARACTERS[] = {
    "a", "b", "Z", "0", "\x7F", "\xC2\x80", "\xC3\xA4", "\xDF\xBF", "\xE0\xA0\x80", "\xE2\x82\xAC",
    "\xED\x9F\xBF", "\xEF\xBF\xBF", "\xF0\x90\x80\x80", "\xF1\x80\x80\x80", "\xF4\x8F\xBF\xBF",
    "c", "d", "-", "\xC3\xA5", "\xE2\x82\xAD",
};
#define CHARACTERS_MANY (sizeof CHARACTERS / sizeof *CHARACTERS)

static const char *const BROKEN[] = {
    "\x80", "\xC0\x80", "\xC2", "\xE0\x80\x80", "\xED\xA0\x80", "\xF4\x90\x80\x80",
    "\xF5\x80\x80\x80", "\xE2\x82", "\xF0\x90\x80", "\xC1\xBF", "\xC2\xC0", "\xE2\x82\xC0",
    "\xF0\x90\x80\xC0"};
#define BROKEN_MANY (sizeof BROKEN / sizeof *BROKEN)

/* N characters, from a random one on, all different for N up to 20. At times one of them is
   repeated or broken. */
static void add_alphabet(struct small *s)
{
    uint32_t from = any_below(CHARACTERS_MANY), fault = one_in(12) ? any_below(s->n) : s->n;
    for (uint32_t i = 0; i < s->n; i++) {
        const char *character = CHARACTERS[(from + i * 7) % CHARACTERS_MANY];
        if (i == fault)
            character = one_in(2) ? CHARACTERS[from] : BROKEN[any_below(BROKEN_MANY)];
        size_t len = strlen(character);
        memcpy(s->bytes + 28 + s->f, character, len);
        s->f += (uint32_t)len;
    }
}

/* Writes the address c to an empty link of a lower node; false if the link that was tried is not
   empty. */
static bool link_up(struct small *s, uint32_t c)
{
    uint8_t *link = node_of(s, one_in(2) ? c - 1 : any_below(c)) + any_below(s->n) * s->a;
    for (uint32_t i = 0; i < s->a; i++)
        if (link[i] != 0)
            return false;
    put_field(link, s->a, c);
    return true;
}

static void write_head(struct small *s)
{
    uint32_t fields[7] = {s->g, s->n, s->a, s->d, s->f, s->min, s->max};
    for (int i = 0; i < 7; i++)
        put_field(s->bytes + 4 * i, 4, fields[i]);
}

/* The link of a node for a letter. */
static uint8_t *link_at(struct small *s, uint32_t node, uint32_t letter)
{
    return node_of(s, node) + letter * s->a;
}

/* The link that holds an address; NULL if there is none. */
static uint8_t *link_to(struct small *s, uint32_t address)
{
    for (uint32_t q = 0; q <= s->g; q++)
        for (uint32_t i = 0; i < s->n; i++)
            if (get_field(link_at(s, q, i), s->a) == address)
                return link_at(s, q, i);
    return NULL;
}

/* Gives the nodes the addresses 1 to G in another order. The root stays. */
static void renumber(struct small *s)
{
    static uint8_t was[ROOM];
    uint32_t to[NODES_MOST] = {0}, width = s->n * s->a + s->d;
    for (uint32_t x = 1; x <= s->g; x++) {
        uint32_t other = 1 + any_below(x);
        to[x] = to[other];
        to[other] = x;
    }
    memcpy(was, node_of(s, 0), (size_t)(s->g + 1) * width);
    for (uint32_t x = 0; x <= s->g; x++) {
        memcpy(node_of(s, to[x]), was + (size_t)x * width, width);
        for (uint32_t i = 0; i < s->n; i++) {
            uint8_t *link = link_at(s, to[x], i);
            put_field(link, s->a, to[get_field(link, s->a)]);
        }
    }
}

/* Gives a node data that is not 0, at times in one of its bytes alone. */
static void put_any_data(struct small *s, uint32_t node)
{
    uint8_t *data = link_at(s, node, s->n);
    put_field(data, s->d, one_in(4) ? (uint64_t)1 << 8 * any_below(s->d) : any_number());
    if (get_field(data, s->d) == 0)
        put_field(data, s->d, 1);
}

/* Puts data into one to three nodes at depths outside min..max, if there are any: the root, or
   some that are found by trying. */
static void hide(struct small *s, const uint32_t *depths)
{
    for (uint32_t many = 1 + any_below(3); many > 0; many--)
        for (int tries = 0; tries < 20; tries++) {
            uint32_t node = one_in(10) ? 0 : any_below(s->g + 1);
            if (s->min <= depths[node] && depths[node] <= s->max)
                continue;
            put_any_data(s, node);
            s->hides = true;
            break;
        }
}

/* Gives data to two of three nodes at depths in min..max. In one of five images, and in half of
   the long chains, other nodes get some too. The links rise. */
static void add_data(struct small *s)
{
    uint32_t depths[NODES_MOST] = {0};
    for (uint32_t q = 0; q <= s->g; q++) {
        for (uint32_t i = 0; i < s->n; i++) {
            uint32_t link = get_field(link_at(s, q, i), s->a);
            if (link != 0)
                depths[link] = depths[q] + 1;
        }
        if (s->min <= depths[q] && depths[q] <= s->max && !one_in(3))
            put_any_data(s, q);
    }
    if (one_in(s->g > 256 ? 2 : 5))
        hide(s, depths);
}

/* Chooses the head but for G and F, and returns the number of nodes. Now and then A is 1 and
   nearly all addresses are in use, or there is a chain so long that its depths do not fit a
   byte, or N and A are as great as they may be. */
static uint32_t any_sizes(struct small *s)
{
    bool crowded = one_in(8), chain = !crowded && one_in(16), vast = !chain && one_in(24);
    s->d = 1 + any_below(8);
    s->max = chain || one_in(10) ? 64 : any_below(7);
    s->min = any_below(s->max + 1) / (1 + any_below(3));
    s->n = vast ? 256 : chain ? 1 : 1 + any_below(crowded ? 3 : one_in(4) ? 20 : 5);
    s->a = vast ? 4 : crowded ? 1 : chain ? 2 + any_below(3) : 1 + any_below(4);
    if (vast)
        return 1 + any_below(6);
    return crowded ? 250 + any_below(7) : chain ? 300 + any_below(250) : 1 + any_below(12);
}

/* A whole image of some nodes, with rubbish in its spare bytes. Half of the images are
   renumbered. */
static void make_whole(struct small *s)
{
    memset(s, 0, sizeof *s);
    uint32_t nodes = any_sizes(s);
    if (s->n <= CHARACTERS_MANY && !one_in(5))
        add_alphabet(s);
    for (uint32_t c = 1; c < nodes; c++) {
        int tries = 0;
        while (tries < 50 && !link_up(s, c))
            tries++;
        if (tries == 50)
            break;
        s->g = c;
    }
    add_data(s);
    if (one_in(2))
        renumber(s);
    write_head(s);
    s->len = (size_t)(node_of(s, s->g + 1) - s->bytes);
    size_t spare = one_in(3) ? 0 : any_below(4 * (s->n * s->a + s->d));
    for (size_t i = 0; i < spare; i++)
        s->bytes[s->len++] = (uint8_t)any_below(256);
}

/* Empties the link to one of the last nodes, as a store that is cut before its last write leaves
   it. The nodes after it may be the rest of its path. Or other nodes link to them, and then
   mending changes nothing. */
static void lose_link(struct small *s)
{
    if (s->g == 0)
        return;
    uint32_t lost = one_in(2) ? s->g : s->g - any_below(s->g < 3 ? s->g : 3);
    for (uint8_t *link = link_to(s, lost); link != NULL; link = link_to(s, lost))
        put_field(link, s->a, 0);
}

/* Moves the link to some node into that node, or into one under it, where a link is empty. No
   address then stands in two links or in none, but the node is on a ring that no link from outside
   leads to. What hangs under the ring may have lower addresses than the ring. */
static void make_ring(struct small *s)
{
    uint32_t node = s->g == 0 ? 0 : 1 + any_below(s->g), end = node;
    uint8_t *from = node == 0 ? NULL : link_to(s, node), *to = NULL;
    for (uint32_t steps = any_below(4); steps > 0; steps--) {
        uint32_t link = get_field(link_at(s, end, any_below(s->n)), s->a);
        if (0 < link && link <= s->g)
            end = link;
    }
    for (uint32_t i = 0; i < s->n && to == NULL; i++)
        if (get_field(link_at(s, end, i), s->a) == 0)
            to = link_at(s, end, i);
    if (from == NULL || to == NULL)
        return;
    put_field(from, s->a, 0);
    put_field(to, s->a, node);
}

/* Swaps two links, or copies one over the other. The result may be a tree whose addresses do not
   rise, a ring that no link from outside leads to, or an address in two links, at any depth. */
static void entangle(struct small *s)
{
    uint8_t *one = link_at(s, any_below(s->g + 1), any_below(s->n));
    uint8_t *other = link_at(s, any_below(s->g + 1), any_below(s->n));
    uint32_t to = get_field(one, s->a);
    if (one_in(2))
        put_field(one, s->a, get_field(other, s->a));
    put_field(other, s->a, to);
}

/* Raises min or lowers max by 1, if they differ. Data may be hidden then. */
static void narrow(struct small *s)
{
    if (s->min == s->max)
        return;
    if (one_in(2))
        put_field(s->bytes + 20, 4, s->min + 1);
    else
        put_field(s->bytes + 24, 4, s->max - 1);
}

/* Does one harm: to a head field, a link, two links, any byte, G, D or the length; or a link is
   missing, there is a ring, or min..max is narrower. */
static void harm(struct small *s)
{
    static const uint32_t ODD[] = {0, 1, 2, 4, 5, 8, 9, 64, 65, 256, 257, 1024, 1025, 0xFFFFFFFF};
    static const uint32_t GREAT[] = {0xFFFFFFFF, 0x7FFFFFFF, 0x3FFFFFFF, 0x00FFFFFF};
    switch (any_below(19)) {
    case 0:
        put_field(s->bytes + 4 * any_below(7), 4, ODD[any_below(sizeof ODD / sizeof *ODD)]);
        break;
    case 1:
    case 2:
        put_field(link_at(s, any_below(s->g + 1), any_below(s->n)), s->a, any_below(s->g + 2));
        break;
    case 3:
        s->bytes[any_below((uint32_t)s->len)] = (uint8_t)any_below(256);
        break;
    case 4:
        put_field(s->bytes, 4, one_in(3) ? GREAT[any_below(4)] : s->g + any_below(3) - 1);
        break;
    case 5:
        s->len = one_in(2) ? any_below((uint32_t)s->len + 1) : s->len - 1;
        break;
    case 6:
    case 7:
    case 8:
        entangle(s);
        break;
    case 9:
    case 10:
        make_ring(s);
        break;
    case 11:
        make_ring(s);
        lose_link(s);
        break;
    case 12:
        narrow(s);
        break;
    case 13:
    case 14:
    case 15:
        narrow(s);
        lose_link(s);
        break;
    case 16:
        put_field(s->bytes + 12, 4, one_in(3) ? 9 : any_below(9));
        break;
    default:
        lose_link(s);
    }
}

/* W, D and the first node's data, by an image's own head. */
static uint32_t width_in(const uint8_t *image)
{
    return get_field(image + 4, 4) * get_field(image + 8, 4) + get_field(image + 12, 4);
}

static uint32_t data_bytes(const uint8_t *image)
{
    return get_field(image + 12, 4);
}

static const uint8_t *root_data(const uint8_t *image)
{
    return image + 28 + get_field(image + 16, 4) + width_in(image) - data_bytes(image);
}

/* The links of an image that has passed 1 to 6, by its own head: for each node the one that links
   to it, or the node itself if none does. If two do, it is the last. Returns true if a link is not
   above its node. */
static bool parents_of(const uint8_t *image, uint32_t *parents)
{
    uint32_t g = get_field(image, 4), n = get_field(image + 4, 4), a = get_field(image + 8, 4);
    const uint8_t *node = image + 28 + get_field(image + 16, 4);
    bool falls = false;
    for (uint32_t q = 0; q <= g; q++)
        parents[q] = q;
    for (uint32_t q = 0; q <= g; q++, node += width_in(image))
        for (uint32_t i = 0; i < n; i++) {
            uint32_t link = get_field(node + i * a, a);
            if (link == 0)
                continue;
            falls = falls || link <= q;
            parents[link] = q;
        }
    return falls;
}

/* Does a climb from a node of an image that passes 1 to 8 come back to it? */
static bool on_ring(const uint8_t *image, uint32_t node)
{
    uint32_t parents[NODES_MOST], g = get_field(image, 4), at = node;
    parents_of(image, parents);
    for (uint32_t steps = 0; steps <= g; steps++) {
        at = parents[at];
        if (at == node)
            return true;
    }
    return false;
}

/* The nodes with data at a depth outside min..max, in an image that passes 1 to 8 and 16. */
struct hidden {
    uint32_t below, above; /* how many are at a depth below min, and how many above max */
    uint32_t lowest;       /* the lowest address among them .. */
    uint32_t depth;        /* .. and its depth */
    uint32_t least;        /* the least depth among them */
    uint64_t data;         /* the data of the lowest one */
};

/* Finds them by a climb from each node that has data to the root. */
static struct hidden hidden_in(const uint8_t *image)
{
    uint32_t parents[NODES_MOST], g = get_field(image, 4), d = data_bytes(image);
    uint32_t min = get_field(image + 20, 4), max = get_field(image + 24, 4);
    const uint8_t *data = root_data(image);
    struct hidden h = {.lowest = NODES_MOST, .least = NODES_MOST};
    parents_of(image, parents);
    for (uint32_t x = 0; x <= g; x++, data += width_in(image)) {
        uint32_t depth = 0;
        for (uint32_t at = x; at != 0; at = parents[at])
            depth++;
        if (get_field(data, d) == 0 || (min <= depth && depth <= max))
            continue;
        h.below += depth < min;
        h.above += depth > max;
        h.least = depth < h.least ? depth : h.least;
        if (h.lowest != NODES_MOST)
            continue;
        h.lowest = x;
        h.depth = depth;
        h.data = get_field(data, d);
    }
    return h;
}

/* Notes what the check says of an image. False if it is not right in 19. */
static bool judge(struct small *s)
{
    static uint32_t work[NODES_MOST], parents[NODES_MOST];
    trieff_answer answer = naive_check(s->bytes, s->len, work, NODES_MOST);
    uint32_t number = answer.number;
    s->accepted = number == 0;
    s->falls = (number == 0 || number == 8 || number == 19) && parents_of(s->bytes, parents);
    if (number != 0 && number != 19)
        return true;
    uint32_t lowest = hidden_in(s->bytes).lowest;
    if (number == 0 ? lowest == NODES_MOST : lowest == answer.place)
        return true;
    fprintf(stderr, "check: naive C answers %u at %u, and a climb finds hidden data at %u\n",
            number, answer.place, lowest);
    return false;
}

/* ---- calls */

/* Letters below N, now and then one that is not. The length is mostly at most max + 1. */
static size_t any_letters(const struct small *s, uint8_t *key)
{
    size_t len = one_in(20) ? any_below(80) : any_below(s->max + 2);
    for (size_t i = 0; i < len; i++)
        key[i] = (uint8_t)(one_in(60) ? any_below(256) : any_below(s->n));
    return len;
}

/* Letters along links that are not empty, from the root, and at times one to three letters more.
   The last node may hold a value or not. */
static size_t any_path(struct small *s, uint8_t *key)
{
    uint32_t node = 0, len = 0, most = any_below(s->max + 2);
    while (len < most) {
        uint32_t from = any_below(s->n), link = 0;
        for (uint32_t i = 0; i < s->n && link == 0; i++) {
            key[len] = (uint8_t)((from + i) % s->n);
            link = get_field(link_at(s, node, key[len]), s->a);
        }
        if (link == 0 || link > s->g)
            break;
        node = link;
        len++;
    }
    for (uint32_t more = one_in(4) ? 1 + any_below(3) : 0; more > 0 && len < s->max; more--)
        key[len++] = (uint8_t)any_below(s->n);
    return len;
}

/* Finds where the characters of the alphabet start; returns their number. */
static size_t starts_of(const struct small *s, size_t *starts)
{
    size_t many = 0;
    for (size_t at = 0; at < s->f && many < 80; at++)
        if ((s->bytes[28 + at] & 0xC0) != 0x80)
            starts[many++] = at;
    return many;
}

/* Appends the character that starts at an offset of the alphabet to a text, and returns the text's
   new length. */
static size_t add_character(const struct small *s, size_t at, uint8_t *text, size_t len)
{
    do
        text[len++] = s->bytes[28 + at++];
    while (at < s->f && (s->bytes[28 + at] & 0xC0) == 0x80);
    return len;
}

/* Characters of the image's alphabet, now and then another one or a broken one. */
static size_t any_text(const struct small *s, uint8_t *key)
{
    size_t len = 0, starts[80], many = one_in(20) ? any_below(80) : any_below(s->max + 2);
    size_t characters = starts_of(s, starts);
    for (size_t i = 0; i < many; i++) {
        const char *other = one_in(2) ? CHARACTERS[any_below(CHARACTERS_MANY)]
                                      : BROKEN[any_below(BROKEN_MANY)];
        if (characters == 0 || one_in(40)) {
            memcpy(key + len, other, strlen(other));
            len += strlen(other);
            continue;
        }
        len = add_character(s, starts[any_below((uint32_t)characters)], key, len);
    }
    return len;
}

/* The text of letters along links that are not empty. */
static size_t any_path_text(struct small *s, uint8_t *key)
{
    uint8_t letters[KEY_MOST + 2];
    size_t len = 0, starts[80], characters = starts_of(s, starts), many = any_path(s, letters);
    for (size_t i = 0; i < many; i++)
        if (letters[i] < characters)
            len = add_character(s, starts[letters[i]], key, len);
    return len;
}

/* A key as a call takes it. Half of the keys go along links that are not empty. */
static size_t any_key(struct small *s, bool text, uint8_t *key)
{
    if (one_in(2))
        return text ? any_path_text(s, key) : any_path(s, key);
    return text ? any_text(s, key) : any_letters(s, key);
}

/* Writes the image's counts, if it is accepted, to a list of NODES_MOST numbers. At times one or
   two of them are made wrong. The list that is lent has G counts or fewer, or G+1, or a few
   more. */
static void lend_counts(const struct small *s, struct lent *lent)
{
    static const uint32_t WRONG[] = {0, 1, 2, 0x7FFFFFFF, 0xFFFFFFFF};
    static uint32_t work[NODES_MOST];
    memset(lent->counts, 0xA5, NODES_MOST * sizeof *lent->counts);
    naive_counts(lent->image, lent->image_len, work, NODES_MOST, lent->counts, NODES_MOST);
    for (uint32_t many = one_in(4) ? 1 + any_below(2) : 0; many > 0; many--) {
        uint32_t *count = &lent->counts[any_below(s->g + 2)];
        *count = one_in(2) ? *count + 1 - 2 * any_below(2) : WRONG[any_below(5)];
    }
    lent->counts_len = one_in(10) ? any_below(s->g + 1) : s->g + 1 + any_below(4);
    lent->position = any_below(one_in(2) ? s->g + 3 : 5);
    if (one_in(12))
        lent->position |= (uint64_t)1 << (32 + any_below(32));
}

/* The greatest value that fits d bytes: 256^d - 1. */
static uint64_t most_in(uint32_t d)
{
    return UINT64_MAX >> (64 - 8 * d);
}

/* A value that fits, mostly, or 0, or one near 256^D, 2^32 or 2^64. */
static uint64_t any_value(const struct small *s)
{
    uint64_t most = most_in(s->d);
    const uint64_t edges[] = {most - 1, most, most + 1, 0xFFFFFFFF, 0x100000000, UINT64_MAX,
                              any_number()};
    if (one_in(4))
        return 0;
    return one_in(2) ? any_number() & most : edges[any_below(sizeof edges / sizeof *edges)];
}

/* ---- the calls with counts of naive C, compared with its other calls */

static uint32_t held_work[NODES_MOST];
#define HELD held_work, NODES_MOST

/* Is the root's count the number of keys, and does the list pass the check with counts? */
static bool held_counts(const struct lent *lent, const uint32_t *counts, size_t len)
{
    uint64_t keys = naive_count(lent->image, lent->image_len, HELD).value;
    return counts[0] == keys &&
           naive_check_counts(lent->image, lent->image_len, HELD, counts, len).number == 0;
}

/* Is the key at a position the first stored key, moved on by this number of steps of next key? */
static bool held_key_at(const struct lent *lent)
{
    uint8_t from[KEY_MOST], at[KEY_MOST], key[KEY_MOST];
    trieff_answer step = {.length = 0};
    for (uint64_t i = 0; i <= lent->position; i++) {
        size_t len = step.length;
        memcpy(from, at, len);
        step = naive_next_key(lent->image, lent->image_len, HELD, from, len, i > 0, at, KEY_MOST);
    }
    trieff_answer said = naive_key_at(lent->image, lent->image_len, HELD, lent->counts,
                                      lent->counts_len, lent->position, key, KEY_MOST);
    return step.number == 0 && said.number == 0 && step.value == said.value &&
           step.length == said.length && memcmp(key, at, step.length) == 0;
}

/* Does the position of a key lead back to that key? */
static bool held_position(const struct lent *lent)
{
    uint8_t key[KEY_MOST];
    uint64_t position = naive_position(lent->image, lent->image_len, HELD, lent->counts,
                                       lent->counts_len, lent->key, lent->key_len).value;
    trieff_answer said = naive_key_at(lent->image, lent->image_len, HELD, lent->counts,
                                      lent->counts_len, position, key, KEY_MOST);
    return said.number == 0 && said.length == lent->key_len &&
           memcmp(key, lent->key, lent->key_len) == 0;
}

/* Does a store with counts leave the image of the plain store, and the right counts of it? It
   changes what is lent. */
static bool held_store(const struct lent *lent)
{
    static uint8_t image[ROOM];
    memcpy(image, lent->image, lent->image_len);
    naive_store(image, lent->image_len, HELD, lent->key, lent->key_len, lent->value);
    naive_store_counts(lent->image, lent->image_len, HELD, lent->key, lent->key_len, lent->value,
                       lent->counts, lent->counts_len);
    return memcmp(image, lent->image, lent->image_len) == 0 &&
           held_counts(lent, lent->counts, lent->counts_len);
}

/* For a call that is done: does its answer agree with the other calls of naive C? */
static bool held(const char *name, const struct lent *lent)
{
    if (strcmp(name, "counts") == 0) {
        static uint32_t counts[NODES_MOST];
        naive_counts(lent->image, lent->image_len, HELD, counts, NODES_MOST);
        return held_counts(lent, counts, NODES_MOST);
    }
    if (strcmp(name, "key_at") == 0)
        return held_key_at(lent);
    if (strcmp(name, "position") == 0)
        return held_position(lent);
    return strcmp(name, "store_counts") == 0 ? held_store(lent) : true;
}

/* ---- a call */

/* What must be met at least once. An image falls if a link in it is not above its node. */
enum {
    MENDED_RISES, /* an image at 8 is mended that does not fall .. */
    MENDED_FALLS, /* .. or that falls */
    LEFT_RISES,   /* mending leaves an image at 8 that does not fall .. */
    LEFT_FALLS,   /* .. or that falls */
    LEFT_RING,    /* .. since with G lowered the check answers 16 */
    HIDES_RISES,  /* .. or 19, in an image that does not fall .. */
    HIDES_FALLS,  /* .. or that falls */
    NO_COUNTS,    /* a store finds its list of counts too short for its new nodes */
    DONE_FALLS,   /* a call is done on an accepted image that falls .. */
    NODES_FALL,   /* .. and writes new nodes there */
    ON_RING,      /* 16 at a node that is on a ring */
    UNDER_RING,   /* 16 at a node that is under a ring */
    BESIDE_6,     /* 6 where data was put at a depth outside min..max .. */
    BESIDE_7,     /* .. and 7 .. */
    BESIDE_8,     /* .. and 8 .. */
    BESIDE_16,    /* .. and 16 */
    ROOT_HIDES,   /* 19 at the root */
    BELOW_MIN,    /* 19 at another node whose depth is below min */
    ABOVE_MAX,    /* 19 at a node whose depth is above max .. */
    ABOVE_64,     /* .. and above 64 .. */
    AS_A_BYTE,    /* .. and in min..max if one byte were all that is kept of it */
    BOTH_HIDE,    /* 19 where data is below min and above max */
    DEEPER_FIRST, /* 19 at a node that is not the least deep of those with hidden data */
    HIDDEN_RISES, /* 19 in an image that does not fall .. */
    HIDDEN_FALLS, /* .. or that falls */
    LOW_HIDDEN,   /* 19 at a node whose data is not 0, but has low 32 bits that are .. */
    LOW_COUNTED,  /* .. or the number of keys, of an image with such data .. */
    LOW_READ,     /* .. or a key with such a value is found .. */
    LOW_STORED,   /* .. or a new key is stored with such a value .. */
    LOW_BEFORE,   /* .. or a stored key that had such a value gets another one */
    D_9,          /* 2 where D is 9 */
    W_1032,       /* a call is done where W is 1,032 */
    CASES
};
static const char *const CASE_NAMES[CASES] = {
    "mended that rise", "mended that fall", "left that rise", "left that fall", "left for 16",
    "left for 19 that rise", "left for 19 that fall", "too few counts for new nodes",
    "done on images that fall", "new nodes in images that fall", "16 on a ring",
    "16 under a ring", "6 beside hidden data", "7 beside it", "8 beside it", "16 beside it",
    "19 at the root", "19 below min", "19 above max", "19 deeper than 64",
    "19 in min..max as a byte", "19 on both sides", "19 not at the least depth",
    "19 in images that rise", "19 in images that fall", "19 for high bytes alone",
    "such data counted", "found", "stored", "replaced", "2 for D = 9", "done with W = 1,032"};

/* How often each number was answered, each call was done, each call answered 19, 19 had each
   place, and each case was met. For each D, how often 256^D - 1 was stored, and how often 11 was
   answered to 256^D or, for D = 8, to any value. */
struct heard {
    uint64_t numbers[NUMBERS], done[CALLS_MOST], hidden[CALLS_MOST], places[NODES_MOST];
    uint64_t cases[CASES], fits[WIDTHS], over[WIDTHS];
};

/* The number that mending finds with G lowered in an image that it leaves at 8. */
static uint32_t number_below(const struct lent *lent, uint32_t place)
{
    static uint8_t image[ROOM];
    static uint32_t work[NODES_MOST];
    memcpy(image, lent->image, lent->image_len);
    put_field(image, 4, place - 1);
    return naive_check(image, lent->image_len, work, NODES_MOST).number;
}

/* Notes an answer of mend. */
static void note_mend(uint64_t *cases, const struct small *s, const struct lent *lent,
                      trieff_answer answer)
{
    bool mended = answer.number == 0 && !s->accepted;
    cases[s->falls ? MENDED_FALLS : MENDED_RISES] += mended;
    if (answer.number != 8)
        return;
    uint32_t below = number_below(lent, answer.place);
    cases[s->falls ? LEFT_FALLS : LEFT_RISES]++;
    cases[LEFT_RING] += below == 16;
    cases[s->falls ? HIDES_FALLS : HIDES_RISES] += below == 19;
}

/* Notes an answer that is 19. */
static void note_hidden(struct heard *heard, size_t place, const struct small *s,
                        const struct lent *lent, trieff_answer answer)
{
    struct hidden h = hidden_in(lent->image);
    uint32_t min = get_field(lent->image + 20, 4), max = get_field(lent->image + 24, 4);
    uint64_t *cases = heard->cases;
    heard->hidden[place]++;
    heard->places[answer.place]++;
    cases[ROOT_HIDES] += answer.place == 0;
    cases[BELOW_MIN] += answer.place != 0 && h.depth < min;
    cases[ABOVE_MAX] += h.depth > max;
    cases[ABOVE_64] += h.depth > KEY_MOST;
    cases[AS_A_BYTE] += min <= h.depth % 256 && h.depth % 256 <= max;
    cases[BOTH_HIDE] += h.below > 0 && h.above > 0;
    cases[DEEPER_FIRST] += h.least < h.depth;
    cases[s->falls ? HIDDEN_FALLS : HIDDEN_RISES]++;
    cases[LOW_HIDDEN] += low_blank(h.data);
}

/* Does an image that passes 1 to 4 have data that is not 0, but has low 32 bits that are? */
static bool low_data(const uint8_t *image)
{
    uint32_t g = get_field(image, 4);
    const uint8_t *data = root_data(image);
    for (uint32_t x = 0; x <= g; x++, data += width_in(image))
        if (low_blank(get_field(data, data_bytes(image))))
            return true;
    return false;
}

/* Notes an answer of a store that is 0 or 11. */
static void note_store(struct heard *heard, const char *name, const struct lent *lent,
                       trieff_answer answer)
{
    uint32_t d = data_bytes(lent->image);
    uint64_t value = lent->value, most = most_in(d);
    heard->fits[d] += answer.number == 0 && value == most;
    heard->over[d] += answer.number == 11 && (value == most + 1 || d == 8);
    heard->cases[LOW_STORED] += answer.change == 1 && low_blank(value);
    if (strcmp(name, "store") != 0 || answer.number == 11 || value == 0)
        return;
    trieff_answer was = naive_look_up(lent->image, lent->image_len, lent->key, lent->key_len);
    heard->cases[LOW_BEFORE] += low_blank(was.value);
}

/* Notes an answer. The image is as it was before the call. */
static void note(struct heard *heard, size_t place, const struct small *s, const struct lent *lent,
                 trieff_answer answer)
{
    const char *name = call_at(place)->name;
    uint32_t g = lent->image_len < 4 ? 0 : get_field(lent->image, 4), number = answer.number;
    uint64_t *cases = heard->cases;
    heard->numbers[number]++;
    heard->done[place] += number == 0;
    cases[NO_COUNTS] += number == 5 && lent->work_len > g && lent->counts_len > g;
    cases[DONE_FALLS] += number == 0 && s->accepted && s->falls;
    if (strstr(name, "_writes") != NULL && s->falls)
        cases[NODES_FALL] += number == 0 && answer.length > 1;
    if (number == 16)
        cases[on_ring(lent->image, answer.place) ? ON_RING : UNDER_RING]++;
    cases[BESIDE_6] += s->hides && number == 6;
    cases[BESIDE_7] += s->hides && number == 7;
    cases[BESIDE_8] += s->hides && number == 8;
    cases[BESIDE_16] += s->hides && number == 16;
    cases[D_9] += number == 2 && data_bytes(lent->image) == 9;
    cases[W_1032] += number == 0 && width_in(lent->image) == 1032;
    cases[LOW_READ] += low_blank(answer.value);
    if (strcmp(name, "count") == 0)
        cases[LOW_COUNTED] += number == 0 && low_data(lent->image);
    if (strncmp(name, "store", 5) == 0 && (number == 0 || number == 11))
        note_store(heard, name, lent, answer);
    if (number == 19)
        note_hidden(heard, place, s, lent, answer);
    if (strcmp(name, "mend") == 0)
        note_mend(cases, s, lent, answer);
}

/* Makes a random call on an image and compares it. Its answer is noted. */
static bool try_call(struct small *s, struct heard *heard)
{
    static uint8_t image[ROOM], key[400], buffer[80];
    static uint32_t work[NODES_MOST], counts[NODES_MOST], writes[TRIEFF_WRITES_LEN];
    size_t calls = 0;
    while (call_at(calls) != NULL)
        calls++;
    size_t place = any_below((uint32_t)calls);
    const struct call *call = call_at(place);
    memcpy(image, s->bytes, s->len);
    memset(work, 0xA5, sizeof work);
    memset(buffer, 0xA5, sizeof buffer);
    memset(writes, 0xA5, sizeof writes);
    struct lent lent = {.image = image, .image_len = s->len, .work = work, .key = key,
                        .buffer = buffer, .writes = writes, .counts = counts};
    lent.work_len = one_in(8) ? any_below(s->g + 2) : s->g + 1 + any_below(4);
    lent.buffer_len = one_in(6) ? any_below(s->max + 1) : s->max + any_below(4);
    lent.key_len = any_key(s, strstr(call->name, "_text") != NULL, key);
    lent.value = any_value(s);
    lent.after = one_in(2);
    lend_counts(s, &lent);
    trieff_answer answer;
    if (!agree(call, &lent, &answer))
        return false;
    note(heard, place, s, &lent, answer);
    if (answer.number != 0 || held(call->name, &lent))
        return true;
    fprintf(stderr, "%s: naive C does not agree with its other calls\n", call->name);
    return false;
}

/* Does a call check the image and say so? A look up does not, and a walk has no number. */
static bool checks(const char *name)
{
    return strncmp(name, "look_up", 7) != 0 && strcmp(name, "walk") != 0;
}

/* Was 19 answered at enough places, by every call that checks, and by no other? */
static bool hidden_heard(const struct heard *heard)
{
    bool all = true;
    int places = 0;
    for (uint32_t x = 0; x < NODES_MOST; x++)
        places += heard->places[x] > 0;
    for (size_t place = 0; call_at(place) != NULL; place++)
        all = all && (heard->hidden[place] > 0) == checks(call_at(place)->name);
    printf("; 19 at %d places%s", places, all ? "" : ", not by every call that checks, or others");
    return all && places >= PLACES_LEAST;
}

/* Was 256^D - 1 stored for each D, and 256^D refused with 11, which is not answered for D = 8? */
static bool widths_heard(const struct heard *heard)
{
    bool all = true;
    for (uint32_t d = 1; d < WIDTHS; d++)
        all = all && heard->fits[d] > 0 && (heard->over[d] > 0) == (d < 8);
    printf("; 256^D - 1 stored and 256^D refused%s", all ? "" : ", but not for each D as it must");
    return all;
}

/* Was everything met that must be? Prints how often. */
static bool all_heard(const struct heard *heard)
{
    bool all = true;
    for (int number = 0; number < NUMBERS; number++) {
        if (heard->numbers[number] > 0)
            printf(" %d:%llu", number, (unsigned long long)heard->numbers[number]);
        bool unused = 16 < number && number < 25 && number != 19;
        all = all && (heard->numbers[number] > 0 || unused);
    }
    for (size_t place = 0; call_at(place) != NULL; place++)
        all = all && heard->done[place] > 0;
    all = hidden_heard(heard) && widths_heard(heard) && all;
    for (int i = 0; i < CASES; i++) {
        printf("%s %s %llu", i == 0 ? ";" : ",", CASE_NAMES[i],
               (unsigned long long)heard->cases[i]);
        all = all && heard->cases[i] > 0;
    }
    printf("\n");
    return all;
}

int main(int argc, char **argv)
{
    static struct small s;
    struct heard heard = {0};
    unsigned long long seed = argc == 3 ? strtoull(argv[1], NULL, 10) : 0;
    long images = argc == 3 ? strtol(argv[2], NULL, 10) : 0;
    if (seed == 0 || images <= 0)
        return fprintf(stderr, "usage: random SEED IMAGES\n"), 2;
    state = seed * 0x9E3779B97F4A7C15u;
    bool good = true;
    for (long i = 0; i < images && good; i++) {
        make_whole(&s);
        for (uint32_t harms = one_in(3) ? 1 + one_in(4) : 0; harms > 0 && s.len > 0; harms--)
            harm(&s);
        good = judge(&s);
        for (int j = 0; j < CALLS_PER_IMAGE && good; j++)
            good = try_call(&s, &heard);
        if (!good)
            fprintf(stderr, "  on image %ld of seed %llu\n", i, seed);
    }
    printf("random calls, seed %llu: %ld images, %d calls each; heard", seed, images,
           CALLS_PER_IMAGE);
    return all_heard(&heard) && good ? 0 : 1;
}
