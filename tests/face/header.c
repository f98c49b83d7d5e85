/* What include/trieff.h says, tried against the library: slices of no elements at NULL, the
   working numbers that mending needs, images whose children have lower addresses, images that are
   no tree or hold data that no lookup finds and that mending leaves, values of 64 bits and data of
   each length, the shapes whose fields stay inside a sector, a fresh image on a device, and a text
   for each number. It prints what is wrong, and ends with 1 if anything is. */
#include "trieff.h"

#include <stdio.h>
#include <string.h>

static int wrong;

#define EXPECT(what)                                             \
    do {                                                         \
        if (!(what)) {                                           \
            wrong = 1;                                           \
            printf("header.c:%d: not so: %s\n", __LINE__, #what); \
        }                                                        \
    } while (0)

enum { N = 3, A = 1, D = 1, F = 3, MAX = 3, NODES = 8 };
static uint8_t image[TRIEFF_LENGTH(NODES, N, A, D, F)];
static uint32_t work[NODES], counts[NODES], writes[TRIEFF_WRITES_LEN];
#define IMAGE image, sizeof image
#define WORK work, NODES
#define COUNTS counts, NODES
#define TEXT(s) (const uint8_t *)(s), strlen(s)

/* An image with keys of 0 to 3 letters, so that the empty key is one. */
static void fresh(void)
{
    EXPECT(trieff_make(IMAGE, N, A, D, TEXT("ABC"), 0, MAX).number == TRIEFF_DONE);
    EXPECT(trieff_store_text(IMAGE, WORK, TEXT("BA"), 9).number == TRIEFF_DONE);
    EXPECT(trieff_counts(IMAGE, WORK, COUNTS).number == TRIEFF_DONE);
}

static int same(trieff_answer a, trieff_answer b)
{
    return a.number == b.number && a.place == b.place && a.length == b.length &&
           a.change == b.change && a.value == b.value;
}

/* Each call answers the same for no elements at NULL as for no elements elsewhere. */
#define SAME(number_is, call, ...)                                      \
    do {                                                                \
        trieff_answer at_null, elsewhere;                               \
        uint8_t *bytes = NULL;                                          \
        uint32_t *numbers = NULL;                                       \
        fresh();                                                        \
        at_null = call(__VA_ARGS__);                                    \
        fresh();                                                        \
        bytes = &some_byte;                                             \
        numbers = &some_number;                                         \
        elsewhere = call(__VA_ARGS__);                                  \
        EXPECT(same(at_null, elsewhere) && at_null.number == number_is); \
        (void)bytes, (void)numbers;                                     \
    } while (0)

static void null_slices(void)
{
    uint8_t some_byte = 1, key[MAX];
    uint32_t some_number = 1;
    SAME(1, trieff_make, bytes, 0, N, A, D, TEXT("ABC"), 1, MAX);
    SAME(0, trieff_make, IMAGE, N, A, D, bytes, 0, 1, MAX);
    SAME(1, trieff_check, bytes, 0, WORK);
    SAME(5, trieff_check, IMAGE, numbers, 0);
    SAME(1, trieff_count, bytes, 0, numbers, 0);
    SAME(5, trieff_count, IMAGE, numbers, 0);
    SAME(1, trieff_look_up, bytes, 0, bytes, 0);
    SAME(0, trieff_look_up, IMAGE, bytes, 0);
    SAME(1, trieff_look_up_text, bytes, 0, bytes, 0);
    SAME(0, trieff_look_up_text, IMAGE, bytes, 0);
    SAME(1, trieff_store, bytes, 0, numbers, 0, bytes, 0, 5);
    SAME(5, trieff_store, IMAGE, numbers, 0, bytes, 0, 5);
    SAME(0, trieff_store, IMAGE, WORK, bytes, 0, 5);
    SAME(5, trieff_store_text, IMAGE, numbers, 0, bytes, 0, 5);
    SAME(0, trieff_store_text, IMAGE, WORK, bytes, 0, 5);
    SAME(1, trieff_store_writes, bytes, 0, numbers, 0, bytes, 0, 5, writes);
    SAME(0, trieff_store_writes, IMAGE, WORK, bytes, 0, 5, writes);
    SAME(0, trieff_store_text_writes, IMAGE, WORK, bytes, 0, 5, writes);
    SAME(1, trieff_mend, bytes, 0, numbers, 0);
    SAME(5, trieff_mend, IMAGE, numbers, 0);
    SAME(1, trieff_next_key, bytes, 0, numbers, 0, bytes, 0, false, bytes, 0);
    SAME(0, trieff_next_key, IMAGE, WORK, bytes, 0, false, key, MAX);
    SAME(14, trieff_next_key, IMAGE, WORK, bytes, 0, true, bytes, 0);
    SAME(5, trieff_counts, IMAGE, WORK, numbers, 0);
    SAME(5, trieff_check_counts, IMAGE, WORK, numbers, 0);
    SAME(5, trieff_store_counts, IMAGE, WORK, bytes, 0, 5, numbers, 0);
    SAME(0, trieff_store_counts, IMAGE, WORK, bytes, 0, 5, COUNTS);
    SAME(0, trieff_store_text_counts, IMAGE, WORK, bytes, 0, 5, COUNTS);
    SAME(14, trieff_key_at, IMAGE, WORK, COUNTS, 0, bytes, 0);
    SAME(5, trieff_key_at, IMAGE, WORK, numbers, 0, 0, bytes, 0);
    SAME(15, trieff_position, IMAGE, WORK, COUNTS, bytes, 0);
    SAME(15, trieff_position_text, IMAGE, WORK, COUNTS, bytes, 0);
}

/* A store in a fresh image needs one working number. If it is cut between G and the link, mending
   needs one for each node that G counts: with that one it is refused, and changes nothing. */
static void numbers_after_a_cut(void)
{
    uint8_t kept[sizeof image], cut[sizeof image];
    trieff_answer heard;
    EXPECT(trieff_make(IMAGE, N, A, D, TEXT("ABC"), 1, MAX).number == TRIEFF_DONE);
    memcpy(kept, image, sizeof kept);
    heard = trieff_store_text_writes(IMAGE, work, 1, TEXT("BA"), 9, writes);
    EXPECT(heard.number == TRIEFF_DONE && heard.length == 4);
    for (uint32_t i = 0; i + 1 < heard.length; i++)
        memcpy(kept + writes[2 * i], image + writes[2 * i], writes[2 * i + 1]);
    memcpy(cut, kept, sizeof cut);
    EXPECT(trieff_mend(kept, sizeof kept, work, 1).number == TRIEFF_TOO_FEW_NUMBERS);
    EXPECT(memcmp(kept, cut, sizeof cut) == 0);
    EXPECT(trieff_mend(kept, sizeof kept, WORK).number == TRIEFF_DONE);
    EXPECT(trieff_check(kept, sizeof kept, work, 1).number == TRIEFF_DONE);
}

/* An image with these nodes, four bytes each, the root first, and three letters. */
static void nodes_are(const char *nodes, size_t count)
{
    EXPECT(trieff_make(IMAGE, N, A, D, TEXT("ABC"), 1, MAX).number == TRIEFF_DONE);
    image[3] = (uint8_t)(count - 1);
    memcpy(image + TRIEFF_LENGTH(0, N, A, D, F), nodes, 4 * count);
}
#define NODES_ARE(nodes) nodes_are(nodes, (sizeof(nodes) - 1) / 4)

/* Whether an answer is this refusal. */
static int refuses(trieff_answer heard, uint32_t number, uint32_t place)
{
    return same(heard, (trieff_answer){.number = number, .place = place});
}

/* Every call that begins with the check answers this refusal, though its key is too long or has a
   wrong letter, its value is too great, its buffer too short and its counts are wrong. It changes
   nothing but the working numbers, of which the first G+1 are then 0. */
#define REFUSED(call)                                                        \
    do {                                                                     \
        for (size_t i = 0; i < NODES; i++)                                   \
            work[i] = 99;                                                    \
        EXPECT(refuses(call, number, place));                                \
        for (size_t i = 0; i < NODES; i++)                                   \
            EXPECT(work[i] == (i <= image[3] ? 0 : 99));                     \
        EXPECT(memcmp(image_before, image, sizeof image) == 0);              \
        EXPECT(memcmp(counts_before, counts, sizeof counts) == 0);           \
        EXPECT(memcmp(writes_before, writes, sizeof writes) == 0);           \
    } while (0)

static void refused(uint32_t number, uint32_t place)
{
    uint8_t key[99] = {0}, buffer[MAX], image_before[sizeof image];
    uint32_t counts_before[NODES], writes_before[TRIEFF_WRITES_LEN];
    memset(counts, 77, sizeof counts);
    memcpy(image_before, image, sizeof image);
    memcpy(counts_before, counts, sizeof counts);
    memcpy(writes_before, writes, sizeof writes);
    REFUSED(trieff_check(IMAGE, WORK));
    REFUSED(trieff_count(IMAGE, WORK));
    REFUSED(trieff_store(IMAGE, WORK, key, 99, 256));
    REFUSED(trieff_store_text(IMAGE, WORK, TEXT("X"), 256));
    REFUSED(trieff_store_writes(IMAGE, WORK, key, 99, 256, writes));
    REFUSED(trieff_store_text_writes(IMAGE, WORK, TEXT("X"), 256, writes));
    REFUSED(trieff_mend(IMAGE, WORK));
    REFUSED(trieff_next_key(IMAGE, WORK, key, 99, false, buffer, 0));
    REFUSED(trieff_counts(IMAGE, WORK, COUNTS));
    REFUSED(trieff_check_counts(IMAGE, WORK, COUNTS));
    REFUSED(trieff_store_counts(IMAGE, WORK, key, 99, 256, COUNTS));
    REFUSED(trieff_store_text_counts(IMAGE, WORK, TEXT("X"), 256, COUNTS));
    REFUSED(trieff_key_at(IMAGE, WORK, COUNTS, 99, buffer, 0));
    REFUSED(trieff_position(IMAGE, WORK, COUNTS, key, 99));
    REFUSED(trieff_position_text(IMAGE, WORK, COUNTS, TEXT("X")));
}

/* A child may have a lower address than its parent. If the nodes are no tree, every call that
   checks answers the first of 6, 7, 8 and 16, before anything that is wrong with the key, and
   mending does not help. A lookup answers 6 alone, and ends where links lead in a cycle too. */
static void trees(void)
{
    uint8_t b[] = {1, 1, 1};
    /* root to 2, 2 to 1; then CC = 7 in two nodes more */
    NODES_ARE("\0\2\0\0" "\0\0\0\11" "\1\0\0\5");
    EXPECT(trieff_check(IMAGE, WORK).number == TRIEFF_DONE);
    EXPECT(trieff_count(IMAGE, WORK).value == 2);
    EXPECT(trieff_look_up_text(IMAGE, TEXT("BA")).value == 9);
    EXPECT(trieff_store_text(IMAGE, WORK, TEXT("CC"), 7).change == 1);
    EXPECT(image[3] == 4 && trieff_count(IMAGE, WORK).value == 3);
    /* root to 3, above G; node 1 to itself */
    NODES_ARE("\0\3\0\0" "\0\1\0\0");
    refused(TRIEFF_LINK, 0);
    EXPECT(refuses(trieff_look_up(IMAGE, b, 2), TRIEFF_LINK, 0));
    /* root to 1, 1 to itself */
    NODES_ARE("\0\1\0\0" "\0\1\0\6");
    refused(TRIEFF_LINKED_TWICE, 1);
    EXPECT(trieff_look_up(IMAGE, b, 3).value == 6);
    /* 1 to 2, 2 to 1 */
    NODES_ARE("\0\0\0\0" "\2\0\0\0" "\1\0\0\0");
    refused(TRIEFF_NOT_REACHED, 1);
    EXPECT(same(trieff_look_up(IMAGE, b, 2), (trieff_answer){0}));
    /* root to 1; 3 to itself and to 2, which is under the cycle and not on it */
    NODES_ARE("\1\0\0\0" "\0\0\0\0" "\0\0\0\0" "\3\2\0\0");
    refused(TRIEFF_NOT_REACHED, 2);
    /* 2 to 1: with G = 1 node 1 is in no link */
    NODES_ARE("\0\0\0\0" "\0\0\0\0" "\1\0\0\0");
    refused(TRIEFF_NOT_LINKED, 2);
    /* 1 to 2, 2 to 1, no link to 3: with G = 2 there is still a cycle */
    NODES_ARE("\0\0\0\0" "\2\0\0\0" "\1\0\0\0" "\0\0\0\0");
    refused(TRIEFF_NOT_LINKED, 3);
    /* root to 2, 2 to 1, no link to 3: mending lowers G */
    NODES_ARE("\0\2\0\0" "\0\0\0\11" "\1\0\0\5" "\0\0\0\0");
    EXPECT(trieff_mend(IMAGE, WORK).number == TRIEFF_DONE && image[3] == 2);
}

/* An image with these nodes, and keys of `min` to `max` letters. */
#define KEYS_OF(min, max, nodes) (NODES_ARE(nodes), image[23] = (min), image[27] = (max))

/* The image is accepted, and this is its number of keys. */
static void keys_are(uint64_t keys)
{
    EXPECT(trieff_check(IMAGE, WORK).number == TRIEFF_DONE);
    EXPECT(same(trieff_count(IMAGE, WORK), (trieff_answer){.value = keys}));
    EXPECT(trieff_counts(IMAGE, WORK, COUNTS).number == TRIEFF_DONE && counts[0] == keys);
}

/* Data at a depth outside min..max is refused with 19, in every call that checks, after 6, 7, 8
   and 16. Nodes whose data is 0 may stand at any depth. The place is the lowest address, and the
   depth of its node does not matter. */
static void hidden_data(void)
{
    uint8_t ba[] = {1, 0, 0};
    /* root to 1, 1 to 2: data at the depths 0, 1 and 2 */
    KEYS_OF(0, 3, "\0\1\0\4" "\2\0\0\5" "\0\0\0\11");
    keys_are(3);
    KEYS_OF(1, 3, "\0\1\0\4" "\2\0\0\5" "\0\0\0\11");
    refused(TRIEFF_HIDDEN, 0);
    KEYS_OF(1, 3, "\0\1\0\0" "\2\0\0\5" "\0\0\0\11");
    keys_are(2);
    KEYS_OF(2, 3, "\0\1\0\0" "\2\0\0\5" "\0\0\0\11");
    refused(TRIEFF_HIDDEN, 1);
    KEYS_OF(0, 1, "\0\1\0\4" "\2\0\0\5" "\0\0\0\11");
    refused(TRIEFF_HIDDEN, 2);
    KEYS_OF(3, 3, "\0\1\0\0" "\2\0\0\0" "\0\0\0\11");
    refused(TRIEFF_HIDDEN, 2);
    KEYS_OF(0, 0, "\0\0\0\4");
    keys_are(1);
    /* nodes without data stand at depths that no key has */
    KEYS_OF(2, 2, "\0\1\0\0" "\2\0\0\0" "\3\0\0\11" "\0\0\0\0");
    keys_are(1);
    /* root to 3, 3 to 2, 2 to 1: the lowest address has the greatest depth, then the middle one */
    KEYS_OF(2, 2, "\0\3\0\0" "\0\0\0\7" "\1\0\0\11" "\2\0\0\5");
    refused(TRIEFF_HIDDEN, 1);
    KEYS_OF(3, 3, "\0\3\0\0" "\0\0\0\7" "\1\0\0\11" "\2\0\0\5");
    refused(TRIEFF_HIDDEN, 2);
    KEYS_OF(1, 3, "\0\3\0\1" "\0\0\0\7" "\1\0\0\11" "\2\0\0\5");
    refused(TRIEFF_HIDDEN, 0);
    KEYS_OF(1, 3, "\0\3\0\0" "\0\0\0\7" "\1\0\0\11" "\2\0\0\5");
    keys_are(3);
    /* the root's data is hidden, and a link is above G, one is double, one is missing, a cycle */
    KEYS_OF(1, 3, "\0\3\0\4" "\0\0\0\5");
    refused(TRIEFF_LINK, 0);
    KEYS_OF(1, 3, "\0\1\1\4" "\0\0\0\5");
    refused(TRIEFF_LINKED_TWICE, 1);
    KEYS_OF(1, 3, "\0\0\0\4" "\2\0\0\5" "\1\0\0\11");
    refused(TRIEFF_NOT_REACHED, 1);
    KEYS_OF(1, 3, "\0\1\0\4" "\0\0\0\5" "\0\0\0\11");
    refused(TRIEFF_NOT_LINKED, 2); /* and mending leaves it, since 19 would follow */
    /* the same without the root's data: mending cuts node 2 off, with its data */
    KEYS_OF(1, 3, "\0\1\0\0" "\0\0\0\5" "\0\0\0\11");
    EXPECT(trieff_mend(IMAGE, WORK).number == TRIEFF_DONE && image[3] == 1);
    keys_are(1);
    /* no link to 3; with G = 2 data stands deeper than max, or less deep than min */
    KEYS_OF(1, 1, "\0\1\0\0" "\2\0\0\5" "\0\0\0\11" "\0\0\0\0");
    refused(TRIEFF_NOT_LINKED, 3);
    KEYS_OF(2, 3, "\0\1\0\0" "\2\0\0\5" "\0\0\0\11" "\0\0\0\0");
    refused(TRIEFF_NOT_LINKED, 3);
    /* a lookup passes by hidden data, and never finds it */
    KEYS_OF(2, 2, "\0\1\0\4" "\2\0\0\5" "\3\0\0\11" "\0\0\0\7");
    EXPECT(same(trieff_look_up(IMAGE, ba, 2), (trieff_answer){.value = 9}));
    EXPECT(same(trieff_look_up_text(IMAGE, TEXT("BA")), (trieff_answer){.value = 9}));
    EXPECT(refuses(trieff_look_up(IMAGE, ba, 0), TRIEFF_KEY_LENGTH, 0));
    EXPECT(refuses(trieff_look_up(IMAGE, ba, 1), TRIEFF_KEY_LENGTH, 0));
    EXPECT(refuses(trieff_look_up(IMAGE, ba, 3), TRIEFF_KEY_LENGTH, 0));
    EXPECT(refuses(trieff_look_up_text(IMAGE, TEXT("B")), TRIEFF_KEY_LENGTH, 0));
    /* no call hides data: a store of such a key is refused, and a delete leaves a node alone */
    KEYS_OF(2, 2, "\0\1\0\0" "\2\0\0\0" "\3\0\0\11" "\0\0\0\0");
    EXPECT(refuses(trieff_store(IMAGE, WORK, ba, 1, 5), TRIEFF_KEY_LENGTH, 0));
    EXPECT(refuses(trieff_store(IMAGE, WORK, ba, 3, 5), TRIEFF_KEY_LENGTH, 0));
    EXPECT(trieff_store(IMAGE, WORK, ba, 2, 0).change == -1);
    keys_are(0);
}

/* A chain of one letter, deeper than any key, with data at one depth alone: done with one key
   where min and max allow it, else 19 at that node. Up the addresses and down, for each length of
   the data, with the first or the last bit of each of its bytes alone. */
static void hidden_in_a_chain(void)
{
    enum { DEPTHS = 140, KINDS = 6, BYTES = TRIEFF_D_MOST * (TRIEFF_D_MOST + 1) / 2 };
    static const uint8_t keys[KINDS][2] = {{0, 64}, {0, 0}, {1, 63}, {64, 64}, {63, 64}, {2, 3}};
    static uint8_t chain[TRIEFF_LENGTH(DEPTHS, 1, 1, TRIEFF_D_MOST, 0)];
    static uint32_t numbers[DEPTHS];
    for (uint32_t depth = 0; depth < DEPTHS; depth++)
        for (uint32_t kind = 0; kind < 2 * KINDS; kind++)
            for (uint32_t byte = 0, d = 1; byte < BYTES; byte++) {
                uint8_t min = keys[kind / 2][0], max = keys[kind / 2][1];
                d += byte == d * (d + 1) / 2; /* the bytes of all lengths before d are done */
                uint32_t down = kind % 2, at = depth == 0 || !down ? depth : DEPTHS - depth;
                int allowed = min <= depth && depth <= max;
                trieff_answer heard = trieff_make(chain, sizeof chain, 1, 1, d, NULL, 0, min, max);
                EXPECT(heard.number == TRIEFF_DONE);
                chain[3] = DEPTHS - 1;
                memset(chain + 28, 0, sizeof chain - 28);
                for (uint32_t node = 0; node < DEPTHS; node++)
                    chain[28 + node * (1 + d)] =
                        (uint8_t)(!down     ? (node + 1) % DEPTHS
                                  : node > 0 ? node - 1
                                             : DEPTHS - 1);
                chain[28 + at * (1 + d) + 1 + byte - d * (d - 1) / 2] = depth % 2 ? 1 : 0x80;
                heard = trieff_count(chain, sizeof chain, numbers, DEPTHS);
                EXPECT(allowed ? same(heard, (trieff_answer){.value = 1})
                               : refuses(heard, TRIEFF_HIDDEN, at));
            }
}

/* An image with D bytes of data. It has room for NODES nodes with the longest data. */
static uint8_t wide[TRIEFF_LENGTH(NODES, N, A, TRIEFF_D_MOST, F)];
#define WIDE wide, sizeof wide
static const uint8_t BA[] = {1, 0};

enum { STORES = 6 };

/* Stores a value under BA, by each of the stores in turn. */
static trieff_answer store_by(uint32_t way, uint64_t value)
{
    switch (way) {
    case 0: return trieff_store(WIDE, WORK, BA, 2, value);
    case 1: return trieff_store_text(WIDE, WORK, TEXT("BA"), value);
    case 2: return trieff_store_writes(WIDE, WORK, BA, 2, value, writes);
    case 3: return trieff_store_text_writes(WIDE, WORK, TEXT("BA"), value, writes);
    case 4: return trieff_store_counts(WIDE, WORK, BA, 2, value, COUNTS);
    default: return trieff_store_text_counts(WIDE, WORK, TEXT("BA"), value, COUNTS);
    }
}

/* A fresh image with D bytes of data, and its counts. */
static void fresh_wide(uint32_t d)
{
    EXPECT(trieff_make(WIDE, N, A, d, TEXT("ABC"), 1, MAX).number == TRIEFF_DONE);
    EXPECT(trieff_counts(WIDE, WORK, COUNTS).number == TRIEFF_DONE);
}

/* Every call that reads meets BA with this value, and it stands big-endian in the last node. */
static void holds(uint32_t d, uint64_t value)
{
    uint8_t key[MAX], *data = wide + TRIEFF_LENGTH(3, N, A, d, F) - d;
    trieff_answer found = {.length = 2, .value = value};
    EXPECT(same(trieff_check(WIDE, WORK), (trieff_answer){0}));
    EXPECT(same(trieff_mend(WIDE, WORK), (trieff_answer){0}));
    EXPECT(same(trieff_count(WIDE, WORK), (trieff_answer){.value = 1}));
    EXPECT(same(trieff_look_up(WIDE, BA, 2), (trieff_answer){.value = value}));
    EXPECT(same(trieff_look_up_text(WIDE, TEXT("BA")), (trieff_answer){.value = value}));
    EXPECT(same(trieff_next_key(WIDE, WORK, BA, 0, false, key, MAX), found));
    EXPECT(trieff_counts(WIDE, WORK, COUNTS).number == TRIEFF_DONE);
    EXPECT(counts[0] == 1 && counts[1] == 1 && counts[2] == 1);
    EXPECT(trieff_check_counts(WIDE, WORK, COUNTS).number == TRIEFF_DONE);
    EXPECT(same(trieff_key_at(WIDE, WORK, COUNTS, 0, key, MAX), found));
    EXPECT(same(trieff_position(WIDE, WORK, COUNTS, BA, 2), (trieff_answer){0}));
    EXPECT(same(trieff_position_text(WIDE, WORK, COUNTS, TEXT("BA")), (trieff_answer){0}));
    EXPECT(refuses(trieff_next_key(WIDE, WORK, BA, 2, true, key, MAX), TRIEFF_NO_KEY, 0));
    for (uint32_t i = d; i > 0; i--, value >>= 8)
        EXPECT(data[i - 1] == (uint8_t)value);
    EXPECT(value == 0);
}

/* Values at the limits of every length, by every store, for every D. Where D bytes hold the value,
   it is stored in new nodes, over 1, over itself, and is deleted. Else the answer is 11, and
   nothing changes. With eight bytes it never is. A value whose low 32 bits are 0 is not absent. */
static void values(void)
{
    static uint8_t kept[sizeof wide];
    uint64_t limits[3 * TRIEFF_D_MOST + 4] = {1, 0x100000001, 0xFFFFFFFF00000000, UINT64_MAX - 1};
    for (uint32_t i = 0; i < TRIEFF_D_MOST; i++) {
        limits[3 * i + 4] = UINT64_MAX >> 8 * i;
        limits[3 * i + 5] = (uint64_t)1 << 8 * i;
        limits[3 * i + 6] = (uint64_t)0x80 << 8 * i;
    }
    for (uint32_t d = 1; d <= TRIEFF_D_MOST; d++)
        for (uint32_t way = 0; way < STORES; way++)
            for (size_t i = 0; i < sizeof limits / sizeof *limits; i++) {
                uint64_t most = UINT64_MAX >> 8 * (TRIEFF_D_MOST - d), value = limits[i];
                fresh_wide(d);
                if (value > most) {
                    EXPECT(d < TRIEFF_D_MOST);
                    memcpy(kept, wide, sizeof wide);
                    EXPECT(refuses(store_by(way, value), TRIEFF_VALUE_TOO_GREAT, 0));
                    EXPECT(memcmp(kept, wide, sizeof wide) == 0 && counts[0] == 0);
                    continue;
                }
                EXPECT(store_by(way, value).change == 1);
                holds(d, value);
                EXPECT(store_by(way, value).change == 0);
                EXPECT(store_by(way, 1).change == 0);
                holds(d, 1);
                EXPECT(store_by(way, value).change == 0);
                holds(d, value);
                EXPECT(store_by(way, 0).change == -1);
                EXPECT(trieff_count(WIDE, WORK).value == 0);
                EXPECT(trieff_counts(WIDE, WORK, COUNTS).number == TRIEFF_DONE && counts[0] == 0);
                EXPECT(store_by(way, value).change == 1);
                holds(d, value);
            }
}

/* The list of writes of a data field has all of its bytes, and a new node W bytes. */
static void writes_of_wide_data(void)
{
    for (uint32_t d = 1; d <= TRIEFF_D_MOST; d++)
        for (uint32_t way = 2; way <= 3; way++) {
            uint32_t w = N * A + d, root = TRIEFF_LENGTH(0, N, A, d, F);
            trieff_answer heard;
            fresh_wide(d);
            heard = store_by(way, 1);
            EXPECT(heard.length == 4 && writes[0] == root + w && writes[1] == w);
            EXPECT(writes[2] == root + 2 * w && writes[3] == w);
            EXPECT(writes[4] == 0 && writes[5] == 4 && writes[6] == root + 1 && writes[7] == A);
            heard = store_by(way, 2);
            EXPECT(heard.length == 1 && writes[0] == root + 3 * w - d && writes[1] == d);
        }
}

/* The widest node takes 1,032 bytes: an image has room for two of them, or lacks one byte. */
static void widest_nodes(void)
{
    enum { LETTERS = TRIEFF_N_MOST, LINK = TRIEFF_A_MOST, DATA = TRIEFF_D_MOST };
    static uint8_t two[TRIEFF_LENGTH(2, LETTERS, LINK, DATA, 0)];
    const uint8_t last = LETTERS - 1;
    const size_t length = sizeof two;
    EXPECT(length == 28 + 2 * 1032);
    EXPECT(trieff_make(two, 28 + 1031, LETTERS, LINK, DATA, NULL, 0, 0, 1).number ==
           TRIEFF_IMAGE_ROOM);
    EXPECT(trieff_make(two, length, LETTERS, LINK, DATA, NULL, 0, 0, 1).number == TRIEFF_DONE);
    EXPECT(trieff_store(two, length - 1, WORK, &last, 1, UINT64_MAX).number == TRIEFF_NO_ROOM);
    EXPECT(trieff_store(two, length, WORK, &last, 1, UINT64_MAX).change == 1);
    EXPECT(trieff_check(two, length - 1, WORK).number == TRIEFF_IMAGE_ROOM);
    EXPECT(trieff_look_up(two, length, &last, 1).value == UINT64_MAX);
    EXPECT(trieff_count(two, length, WORK).value == 1);
    /* the root's last link leads to node 1, and the last eight bytes are its data */
    EXPECT(two[28 + LETTERS * LINK - 1] == 1 && two[28 + LETTERS * LINK] == 0);
    EXPECT(two[length - 9] == 0 && two[length - 8] == 255 && two[length - 1] == 255);
}

/* Every call answers 2, and changes nothing, where D is not 1 to 8. */
#define HEAD_REFUSED(call)                                                        \
    do {                                                                          \
        EXPECT(refuses(call, TRIEFF_HEAD_FIELD, 0));                              \
        EXPECT(memcmp(kept, wide, sizeof wide) == 0 && work[0] == 99);            \
    } while (0)

static void data_too_long(void)
{
    static const uint32_t refused_d[] = {0, 9, 10, 16, 256 + 8, 0x08000000, UINT32_MAX};
    for (size_t i = 0; i < sizeof refused_d / sizeof *refused_d; i++) {
        uint32_t d = refused_d[i];
        uint8_t kept[sizeof wide], key[MAX];
        fresh_wide(8);
        for (int byte = 0; byte < 4; byte++)
            wide[12 + byte] = (uint8_t)(d >> (24 - 8 * byte));
        memcpy(kept, wide, sizeof wide);
        work[0] = 99;
        HEAD_REFUSED(trieff_make(WIDE, N, A, d, TEXT("ABC"), 1, MAX));
        HEAD_REFUSED(trieff_check(WIDE, WORK));
        HEAD_REFUSED(trieff_count(WIDE, WORK));
        HEAD_REFUSED(trieff_look_up(WIDE, BA, 2));
        HEAD_REFUSED(trieff_look_up_text(WIDE, TEXT("BA")));
        for (uint32_t way = 0; way < STORES; way++)
            HEAD_REFUSED(store_by(way, 5));
        HEAD_REFUSED(trieff_mend(WIDE, WORK));
        HEAD_REFUSED(trieff_next_key(WIDE, WORK, BA, 0, false, key, MAX));
        HEAD_REFUSED(trieff_counts(WIDE, WORK, COUNTS));
        HEAD_REFUSED(trieff_check_counts(WIDE, WORK, COUNTS));
        HEAD_REFUSED(trieff_key_at(WIDE, WORK, COUNTS, 0, key, MAX));
        HEAD_REFUSED(trieff_position(WIDE, WORK, COUNTS, BA, 2));
        HEAD_REFUSED(trieff_position_text(WIDE, WORK, COUNTS, TEXT("BA")));
    }
}

/* Whether a field at an offset lies across the end of a sector. */
static int lies_across(size_t place, size_t length, size_t sector)
{
    return place / sector != (place + length - 1) / sector;
}

/* Where TRIEFF_FIELDS_WHOLE says so, no field does, for every small shape, with the usual sectors
   and with the shortest. It says so for data of one, two, four and eight bytes, and for no other
   length. */
static void fields_whole(void)
{
    unsigned shapes[TRIEFF_D_MOST + 1] = {0};
    for (size_t n = 1; n <= 9; n++)
        for (size_t a = 1; a <= TRIEFF_A_MOST; a++)
            for (size_t d = 1; d <= TRIEFF_D_MOST; d++)
                for (size_t f = 0; f <= 12; f++) {
                    size_t width = n * a + d, across = 0;
                    for (size_t node = 0; node < 600; node++) {
                        size_t place = 28 + f + node * width;
                        for (size_t sector = 8; sector <= 512; sector += 504) {
                            for (size_t link = 0; link < n; link++)
                                across += (size_t)lies_across(place + link * a, a, sector);
                            across += (size_t)lies_across(place + n * a, d, sector);
                        }
                    }
                    shapes[d] += TRIEFF_FIELDS_WHOLE(n, a, d, f);
                    EXPECT(!TRIEFF_FIELDS_WHOLE(n, a, d, f) || across == 0);
                }
    for (size_t d = 1; d <= TRIEFF_D_MOST; d++)
        EXPECT((shapes[d] > 0) == (d == 1 || d == 2 || d == 4 || d == 8));
    EXPECT(TRIEFF_FIELDS_WHOLE(16, 2, 4, 16) && !TRIEFF_FIELDS_WHOLE(16, 3, 4, 16));
    EXPECT(!TRIEFF_FIELDS_WHOLE(16, 2, 4, 15) && !TRIEFF_FIELDS_WHOLE(3, 2, 4, 16));
    /* for D = 8, F + 28 and N*A are multiples of 8 */
    EXPECT(TRIEFF_FIELDS_WHOLE(16, 2, 8, 12) && TRIEFF_FIELDS_WHOLE(2, 4, 8, 4));
    EXPECT(!TRIEFF_FIELDS_WHOLE(16, 2, 8, 16) && !TRIEFF_FIELDS_WHOLE(3, 4, 8, 12));
    EXPECT(!TRIEFF_FIELDS_WHOLE(16, 2, 6, 14) && !TRIEFF_FIELDS_WHOLE(16, 2, 8, 10));
    /* no image has such links or such data */
    EXPECT(!TRIEFF_FIELDS_WHOLE(8, 8, 8, 4) && !TRIEFF_FIELDS_WHOLE(16, 2, 16, 20));
}

/* A fresh image is put on a device that holds other bytes. A cut before the last write leaves a
   head that is refused with 2, whatever of the other bytes landed. The last write is that of the
   first 28 bytes or, on a device that promises words, that of D. */
static void on_a_device(void)
{
    uint8_t device[sizeof image];
    for (unsigned lot = 0; lot < 256; lot++) {
        for (size_t i = 0; i < sizeof device; i++)
            device[i] = (uint8_t)(i * lot >> 2);
        EXPECT(trieff_make(IMAGE, N, A, D, TEXT("ABC"), 1, MAX).number == TRIEFF_DONE);
        memset(device, 0, 28);
        EXPECT(trieff_check(device, sizeof device, WORK).number == TRIEFF_HEAD_FIELD);
        for (size_t i = 28; i < 28 + F + N * A + D; i++)
            if (lot >> i % 8 & 1)
                device[i] = image[i];
        EXPECT(trieff_check(device, sizeof device, WORK).number == TRIEFF_HEAD_FIELD);
        memcpy(device + 28, image + 28, F + N * A + D);
        EXPECT(trieff_check(device, sizeof device, WORK).number == TRIEFF_HEAD_FIELD);
        memcpy(device, image, 28);
        EXPECT(same(trieff_count(device, sizeof device, WORK), (trieff_answer){0}));
        for (size_t i = 0; i < sizeof device; i++)
            device[i] = (uint8_t)(i * lot >> 2);
        memset(device + 12, 0, 4);
        EXPECT(trieff_check(device, sizeof device, WORK).number == TRIEFF_HEAD_FIELD);
        for (size_t i = 0; i < 28 + F + N * A + D; i++)
            if ((i < 12 || i >= 16) && lot >> i % 8 & 1)
                device[i] = image[i];
        EXPECT(trieff_check(device, sizeof device, WORK).number == TRIEFF_HEAD_FIELD);
        memcpy(device, image, 12);
        memcpy(device + 16, image + 16, 12 + F + N * A + D);
        EXPECT(trieff_check(device, sizeof device, WORK).number == TRIEFF_HEAD_FIELD);
        memcpy(device + 12, image + 12, 4);
        EXPECT(same(trieff_count(device, sizeof device, WORK), (trieff_answer){0}));
    }
}

static void texts(void)
{
    const char *unknown = trieff_text(1000);
    for (uint32_t number = 0; number <= 40; number++) {
        int known = number <= 16 || number == 19 || number == 25;
        EXPECT((strcmp(trieff_text(number), unknown) != 0) == known);
        for (uint32_t other = 0; known && other < number; other++)
            EXPECT(strcmp(trieff_text(number), trieff_text(other)) != 0);
    }
}

int main(void)
{
    null_slices();
    numbers_after_a_cut();
    trees();
    hidden_data();
    hidden_in_a_chain();
    values();
    writes_of_wide_data();
    widest_nodes();
    data_too_long();
    fields_whole();
    on_a_device();
    texts();
    return wrong;
}
