/* What a bench's firmware does with the library. It keeps the labels of buckets in an image, each
   with its record number. It meets every refusal at least once, mends an image after a cut, jumps
   by position in samples/season.trieff, and does so in the same labels as another tool numbers
   their nodes. It takes that season over into an image with more bytes of data. It refuses a file
   with records that no lookup finds. All memory is static. (bench_file.c keeps its image in a
   file.) From the repository's root, after `tools/build trieff`:

     gcc -std=c11 -O2 -Iinclude -o target/bench-c examples/bench.c \
         target/staticlib/libtrieff.a && target/bench-c

   examples/bench.txt holds what it must print. */
#include "trieff.h"

#include <stdio.h>
#include <string.h>

/* The labels' image: 20 letters, room for 64 nodes. A record number begins with the year and the
   bench, as in 2026 04 000002402. It does not fit four bytes, so D is 8. A node takes 20 * 2 + 8
   bytes. With 20 letters no field lies across the end of a sector; with 16 some would. */
enum { N = 20, A = 2, D = 8, MIN = 1, MAX = 12, NODES = 64 };
static const char alphabet[] = "0123456789ABCDEFGHI-";
enum { F = sizeof alphabet - 1 };
_Static_assert(TRIEFF_FIELDS_WHOLE(N, A, D, F), "no field lies across the end of a sector");
static uint8_t image[TRIEFF_LENGTH(NODES, N, A, D, F)];
static uint32_t work[NODES];

/* TEXT: a text as the calls take it, a pointer and a length in bytes. ALL: a whole array as a
   slice, a pointer and the number of elements. */
#define TEXT(s) (const uint8_t *)(s), strlen(s)
#define ALL(array) (array), sizeof(array) / sizeof *(array)

/* What the bench shows for an answer. After 9 to 11 the worker taps again. If the record number
   was right, 11 needs an image with a greater D. 12 and 13 need a greater image. 5 and 14 are
   mistakes of the firmware. 15 is the end of the list. 8 may come from a cut, and then mending
   helps. After 25 the counts are worked out afresh. After any other refusal, and after an 8 of
   mending, the bench cannot go on with the image and loads its copy. A file that came in with 19
   can also be repaired where it was made: it holds a record under a label that is too short or too
   long. The place says where to look. */
static void show(const char *asked, trieff_answer heard)
{
    printf("%s: ", asked);
    switch (heard.number) {
    case TRIEFF_DONE: printf("done"); break;
    case TRIEFF_IMAGE_LENGTH: printf("no image is so short or so long"); break;
    case TRIEFF_HEAD_FIELD: printf("the head is not one of an image"); break;
    case TRIEFF_ALPHABET: printf("the alphabet is not N different characters"); break;
    case TRIEFF_IMAGE_ROOM: printf("the image is cut off"); break;
    case TRIEFF_TOO_FEW_NUMBERS: printf("lend more working numbers"); break;
    case TRIEFF_LINK: printf("torn link in node %u", (unsigned)heard.place); break;
    case TRIEFF_LINKED_TWICE: printf("two links to node %u", (unsigned)heard.place); break;
    case TRIEFF_NOT_LINKED: printf("no link to node %u", (unsigned)heard.place); break;
    case TRIEFF_KEY_LENGTH: printf("label too short or too long, tap again"); break;
    case TRIEFF_LETTER: printf("no label has this character, tap again"); break;
    case TRIEFF_VALUE_TOO_GREAT: printf("record number too great for this image"); break;
    case TRIEFF_NO_ADDRESS: printf("out of addresses, begin an image with a greater A"); break;
    case TRIEFF_NO_ROOM: printf("image full, lend more memory"); break;
    case TRIEFF_SHORT_BUFFER: printf("lend a key buffer of max letters"); break;
    case TRIEFF_NO_KEY: printf("no more labels"); break;
    case TRIEFF_NOT_REACHED: printf("no way to node %u", (unsigned)heard.place); break;
    case TRIEFF_HIDDEN: printf("hidden record in node %u", (unsigned)heard.place); break;
    case TRIEFF_COUNTS_DIFFER: printf("wrong count at node %u", (unsigned)heard.place); break;
    default: printf("a number that this firmware does not know"); break;
    }
    if (heard.number != TRIEFF_DONE)
        printf(" (refused %u at %u)", (unsigned)heard.number, (unsigned)heard.place);
    printf("\n");
}

static void store(const char *label, uint64_t record)
{
    trieff_answer heard = trieff_store_text(ALL(image), ALL(work), TEXT(label), record);
    if (heard.number == TRIEFF_DONE)
        printf("store %s = %llu: change %d\n", label, (unsigned long long)record,
               (int)heard.change);
    else
        show(label, heard);
}

static void look_up(const char *label)
{
    trieff_answer heard = trieff_look_up_text(ALL(image), TEXT(label));
    if (heard.number != TRIEFF_DONE)
        show(label, heard);
    else if (heard.value == 0)
        printf("look up %s: absent\n", label);
    else
        printf("look up %s: record %llu\n", label, (unsigned long long)heard.value);
}

/* A key's letters are numbers: letter i is the i-th character of the image's alphabet, from 0. */
static void print_label(const char *characters, const uint8_t *key, size_t length)
{
    for (size_t i = 0; i < length; i++)
        putchar(characters[key[i]]);
}

/* Every label in order: first the one at or after the empty key, then always the one after the
   last. The key found is copied, since the letters that a call reads and the buffer that it writes
   may not overlap. */
static void list(void)
{
    uint8_t last[MAX] = {0}, key[MAX];
    size_t length = 0;
    trieff_answer heard = trieff_count(ALL(image), ALL(work));
    if (heard.number != TRIEFF_DONE) {
        show("count", heard);
        return;
    }
    printf("labels: %llu\n", (unsigned long long)heard.value);
    heard = trieff_next_key(ALL(image), ALL(work), last, length, false, ALL(key));
    while (heard.number == TRIEFF_DONE) {
        length = heard.length;
        memcpy(last, key, length);
        print_label(alphabet, key, length);
        printf(" %llu\n", (unsigned long long)heard.value);
        heard = trieff_next_key(ALL(image), ALL(work), last, length, true, ALL(key));
    }
    show("after the last", heard);
}

/* A small image for the refusals: letters ABC, keys of 1 to 3 letters, nodes of 4 bytes. Node 0
   begins at byte 31. The image holds BA = 9 and B = 5. So the root's link to node 1 is at byte 32,
   and node 1's link to node 2 is at byte 35. In 54 bytes there is room for two more nodes. */
static uint8_t small[54];

static void refused_images(void)
{
    show("make ABC", trieff_make(ALL(small), 3, 1, 1, TEXT("ABC"), 1, 3));
    show("store BA = 9", trieff_store_text(ALL(small), ALL(work), TEXT("BA"), 9));
    show("store B = 5", trieff_store_text(ALL(small), ALL(work), TEXT("B"), 5));
    show("27 bytes", trieff_check(small, 27, ALL(work)));
    show("42 bytes", trieff_check(small, 42, ALL(work)));
    show("257 links in a node", trieff_make(ALL(image), 257, 2, 4, TEXT(""), 1, 3));
    show("alphabet ABA", trieff_make(ALL(image), 3, 1, 1, TEXT("ABA"), 1, 3));
    show("2 working numbers for 3 nodes", trieff_check(ALL(small), work, 2));

    /* single bytes are damaged; a lookup meets a bad link only on its key's path */
    small[35] = 7;
    show("node 1 links to node 7", trieff_check(ALL(small), ALL(work)));
    show("look up BA", trieff_look_up_text(ALL(small), TEXT("BA")));
    show("look up B", trieff_look_up_text(ALL(small), TEXT("B")));
    small[35] = 0;
    show("node 1 links to nothing", trieff_check(ALL(small), ALL(work)));
    small[35] = 2;
    small[33] = 2;
    show("root and node 1 link to node 2", trieff_check(ALL(small), ALL(work)));
    small[33] = 0;
    /* the root's link to node 1 moves to node 2: a cycle, and mending does not help */
    small[32] = 0;
    small[39] = 1;
    show("nodes 1 and 2 link to each other", trieff_check(ALL(small), ALL(work)));
    show("mend", trieff_mend(ALL(small), ALL(work)));
    small[32] = 1;
    small[39] = 0;
    /* data at the root, though the shortest key has one letter; mending does not help either */
    small[34] = 4;
    show("data at the root", trieff_check(ALL(small), ALL(work)));
    show("mend", trieff_mend(ALL(small), ALL(work)));
    show("look up BA", trieff_look_up_text(ALL(small), TEXT("BA")));
    small[34] = 0;
    show("all bytes as before", trieff_check(ALL(small), ALL(work)));
}

static void refused_keys(void)
{
    uint8_t letters[] = {1, 0}, key[3];
    show("look up BABA", trieff_look_up_text(ALL(small), TEXT("BABA")));
    show("look up BX", trieff_look_up_text(ALL(small), TEXT("BX")));
    show("store BA = 256", trieff_store_text(ALL(small), ALL(work), TEXT("BA"), 256));
    show("store CCC = 1", trieff_store_text(ALL(small), ALL(work), TEXT("CCC"), 1));
    show("next key, buffer of 2",
         trieff_next_key(ALL(small), ALL(work), ALL(letters), true, key, 2));
    show("next key after BA",
         trieff_next_key(ALL(small), ALL(work), ALL(letters), true, ALL(key)));
}

/* Links of one byte reach node 255. Keys of two letters are stored until there is no address for a
   new node. */
static void refused_address(void)
{
    static uint8_t many[TRIEFF_LENGTH(300, 16, 1, 1, 0)];
    static uint32_t numbers[300];
    trieff_answer heard = trieff_make(ALL(many), 16, 1, 1, TEXT(""), 2, 2);
    unsigned stored = 0;
    while (heard.number == TRIEFF_DONE && stored < 256) {
        uint8_t letters[] = {(uint8_t)(stored / 16), (uint8_t)(stored % 16)};
        heard = trieff_store(ALL(many), ALL(numbers), ALL(letters), 1);
        stored += (unsigned)heard.change;
    }
    printf("%u keys stored\n", stored);
    show("one more", heard);
}

/* A cut between two writes. `kept` stands for the small image in flash. The writes of a store of
   AC = 7 are carried out on it one by one, and the power is cut before the last one, which is the
   link. */
static void cut_off(void)
{
    static uint8_t kept[sizeof small];
    uint32_t writes[TRIEFF_WRITES_LEN];
    memcpy(kept, small, sizeof kept);
    trieff_answer heard = trieff_store_text_writes(ALL(small), ALL(work), TEXT("AC"), 7, writes);
    if (heard.number != TRIEFF_DONE || heard.length == 0) {
        show("store AC = 7", heard);
        return;
    }
    printf("store AC = 7: change %d, writes %u\n", (int)heard.change, (unsigned)heard.length);
    for (uint32_t i = 0; i < heard.length; i++) {
        uint32_t place = writes[2 * i], length = writes[2 * i + 1];
        printf("write %u: %u bytes at %u\n", (unsigned)i, (unsigned)length, (unsigned)place);
        if (i + 1 < heard.length)
            memcpy(kept + place, small + place, length);
    }
    show("cut before the last", trieff_check(ALL(kept), ALL(work)));
    show("mend with 3 working numbers for 5 nodes", trieff_mend(ALL(kept), work, 3));
    show("mend", trieff_mend(ALL(kept), ALL(work)));
    printf("AC: %llu in memory, %llu kept\n",
           (unsigned long long)trieff_look_up_text(ALL(small), TEXT("AC")).value,
           (unsigned long long)trieff_look_up_text(ALL(kept), TEXT("AC")).value);
    printf("BA: %llu kept, node %u is the last\n",
           (unsigned long long)trieff_look_up_text(ALL(kept), TEXT("BA")).value,
           (unsigned)kept[3]);
}

/* A season of labels from before, in an image with data of four bytes, an alphabet of its own and
   room for more nodes. The counts are a list beside it, one for each node. In renumbered.trieff
   the same nodes have other addresses: many a child has a lower one than its parent. In
   hidden.trieff min is 9, and two nodes of fewer letters hold a record. */
enum { SEASON_N = 16, SEASON_A = 3, SEASON_D = 4, SEASON_F = 16, SEASON_NODES = 700 };
static const char season_alphabet[] = "0123456789ABCDE-";
static uint8_t season[TRIEFF_LENGTH(SEASON_NODES, SEASON_N, SEASON_A, SEASON_D, SEASON_F)];
static uint32_t season_work[SEASON_NODES], counts[SEASON_NODES];
#define SEASON ALL(season), ALL(season_work)

static int read_season(const char *path)
{
    FILE *file = fopen(path, "rb");
    if (file == NULL) {
        fprintf(stderr, "no %s: start this in the repository's root\n", path);
        return 0;
    }
    size_t read = fread(season, 1, sizeof season, file);
    fclose(file);
    return read != 0;
}

static void label_at(uint64_t position)
{
    uint8_t key[MAX];
    trieff_answer heard = trieff_key_at(SEASON, ALL(counts), position, ALL(key));
    if (heard.number != TRIEFF_DONE) {
        show("jump", heard);
        return;
    }
    printf("label %llu of %u: ", (unsigned long long)position + 1, (unsigned)counts[0]);
    print_label(season_alphabet, key, heard.length);
    printf(", record %llu\n", (unsigned long long)heard.value);
}

static void position_of(const char *label)
{
    trieff_answer heard = trieff_position_text(SEASON, ALL(counts), TEXT(label));
    if (heard.number != TRIEFF_DONE)
        show(label, heard);
    else
        printf("position of %s: %llu\n", label, (unsigned long long)heard.value);
}

/* Jumps by position. The counts are worked out once, and a store with counts keeps them right. A
   store without counts does not: the next call with counts is refused with 25, and the counts are
   worked out afresh. */
static void jump(void)
{
    show("work the counts out", trieff_counts(SEASON, ALL(counts)));
    label_at(199);
    position_of("B03-145-1");
    show("store A01-100-1 = 2400",
         trieff_store_text_counts(SEASON, TEXT("A01-100-1"), 2400, ALL(counts)));
    position_of("B03-145-1");
    show("delete A01-100-1 without counts", trieff_store_text(SEASON, TEXT("A01-100-1"), 0));
    position_of("B03-145-1");
    show("work the counts out", trieff_counts(SEASON, ALL(counts)));
    position_of("B03-145-1");
    label_at(394);
    show("check with counts", trieff_check_counts(SEASON, ALL(counts)));
}

/* Takes the season over into a fresh image with D = 8, since D cannot be changed in an image: each
   label of the listing is stored anew. It is stored as text, for the letters have other numbers
   there. Nodes that a delete has left empty stay behind. The answer is that of the count. */
static uint8_t wide[TRIEFF_LENGTH(SEASON_NODES, N, A, D, F)];
#define WIDE ALL(wide), ALL(season_work)

static trieff_answer widen(void)
{
    uint8_t last[MAX] = {0}, key[MAX], label[MAX];
    size_t length = 0;
    trieff_answer heard = trieff_make(ALL(wide), N, A, D, TEXT(alphabet), MIN, MAX);
    while (heard.number == TRIEFF_DONE) {
        heard = trieff_next_key(SEASON, last, length, true, ALL(key));
        if (heard.number != TRIEFF_DONE)
            break;
        length = heard.length;
        memcpy(last, key, length);
        for (size_t i = 0; i < length; i++)
            label[i] = (uint8_t)season_alphabet[key[i]];
        heard = trieff_store_text(WIDE, label, length, heard.value);
    }
    return heard.number == TRIEFF_NO_KEY ? trieff_count(WIDE) : heard;
}

static void before_and_now(const char *label)
{
    printf("%s: record %llu before, %llu now\n", label,
           (unsigned long long)trieff_look_up_text(ALL(season), TEXT(label)).value,
           (unsigned long long)trieff_look_up_text(ALL(wide), TEXT(label)).value);
}

/* A record number of more than four bytes is refused in the season's image. In the wider one every
   label has its record number as before, and the new one is stored. */
static void more_bytes_of_data(void)
{
    const uint64_t record = 202604000002400;
    const char *asked = "store A01-101-1 = 202604000002400";
    show(asked, trieff_store_text(SEASON, TEXT("A01-101-1"), record));
    trieff_answer heard = widen();
    show("store each label in a wider image", heard);
    printf("labels: %llu before, %llu now\n", (unsigned long long)trieff_count(SEASON).value,
           (unsigned long long)heard.value);
    show(asked, trieff_store_text(WIDE, TEXT("A01-101-1"), record));
    before_and_now("A01-101-1");
    before_and_now("B03-145-1");
}

/* What the bench does with a file from elsewhere: it checks it before it goes by it. */
static void from_elsewhere(void)
{
    show("check the renumbered season", trieff_check(SEASON));
    show("work the counts out", trieff_counts(SEASON, ALL(counts)));
    label_at(199);
    show("store A01-100-1 = 2400",
         trieff_store_text_counts(SEASON, TEXT("A01-100-1"), 2400, ALL(counts)));
    position_of("B03-145-1");
}

/* A file that came in with records under a whole context and under a whole trench, which no label
   of nine letters finds. A lookup does not check the image, so the bench must: it goes by no label
   of such a file. */
static void hidden_records(void)
{
    show("check the file with hidden records", trieff_check(SEASON));
    show("mend", trieff_mend(SEASON));
    show("work the counts out", trieff_counts(SEASON, ALL(counts)));
    show("store B03-145-9 = 2797", trieff_store_text(SEASON, TEXT("B03-145-9"), 2797));
    show("look up B03-145", trieff_look_up_text(ALL(season), TEXT("B03-145")));
}

int main(void)
{
    show("make the labels' image", trieff_make(ALL(image), N, A, D, TEXT(alphabet), MIN, MAX));
    store("B04-117-2", 202604000002402);
    store("B04-117-1", 202604000002401);
    store("A01-101-1", 202604000002400);
    store("B04-117-2", 202604000002409);
    look_up("B04-117-2");
    look_up("B04-117-3");
    list();
    store("B04-117-1", 0);
    look_up("B04-117-1");
    list();
    refused_images();
    refused_keys();
    refused_address();
    cut_off();
    if (!read_season("samples/season.trieff"))
        return 1;
    jump();
    more_bytes_of_data();
    if (!read_season("samples/renumbered.trieff"))
        return 1;
    from_elsewhere();
    if (!read_season("samples/hidden.trieff"))
        return 1;
    hidden_records();
    return 0;
}
