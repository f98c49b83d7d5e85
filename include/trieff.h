/* TRIEFF 0.6.0 images over lent memory: make, check, count, look up, store, mend, list, jump by
   position. Link with libtrieff.a, which `tools/build trieff` builds, for x86-64 alone.

   What is lent
   ------------
   The caller lends memory: a pointer and a length, for the time of the call. Such a piece of
   memory is called a slice here. Its length counts elements: 32-bit numbers in `work` and
   `counts`, bytes in all others. The list of writes is lent as a pointer alone, to exactly
   TRIEFF_WRITES_LEN 32-bit numbers.

   The library keeps no pointer, has no variables, allocates nothing and never stops the program.
   It calls memcpy and memset, and nothing else. It does not trust what the slices hold: any bytes,
   any key, any text and any value may be passed, and each has its answer.

   C cannot check the following. It is the caller's part:
   - As many elements are there as the length says. Where the length is 0, the pointer may be NULL.
     `writes` has no length and is never NULL.
   - `work`, `counts` and `writes` are aligned as uint32_t is, as every array of uint32_t is.
   - A slice that a call may write to overlaps no other slice of that call. So `work` and `counts`
     are two lists.
   - Nobody else changes a lent slice during the call.
   - `after` is false or true.

   Calls may run at the same time if they share no slice that one of them writes to.

   As measured by examples/stack.c, a call takes at most 2,304 bytes of stack. The calls that
   search below a node by recursion, up to TRIEFF_KEY_MOST levels deep, take more: next_key and
   each call with counts at most 32 KiB.

   What is answered
   ----------------
   The comment of each call has a line `Refusals:`, which gives an order of numbers. The call
   answers the first refusal in this order that applies, else TRIEFF_DONE. A refused call changes
   nothing but the working numbers. A call that is done changes only the working numbers and what
   its comment says after `Done:`.

   Working numbers
   ---------------
   Every call but make and the lookups needs G+1 working numbers, one for each node in use. No
   answer depends on what they held. If the call stops at TRIEFF_TOO_FEW_NUMBERS, where its order
   first names it, or before that, all working numbers keep what they held. Otherwise the first G+1
   of them are 0 when the call returns, whatever the answer. G is the one at entry, also where a
   store raises it or mend lowers it. The rest keep what they held.

   Lend as many as the image can ever have nodes, in every call: `static uint32_t work[nodes]` for
   an image of TRIEFF_LENGTH(nodes, ..) bytes. A store needs one for each node from before it, but
   mend needs one for each node of the image that it meets. After a cut this may be the greater
   number: G may count new nodes already.

   The image
   ---------
   An image is seven big-endian 32-bit fields G, N, A, D, F, min, max, then F bytes of alphabet,
   then the nodes 0 to G. Node 0 is the root. A node takes W = N*A + D bytes, at most 1,032: N
   links of A bytes, then D bytes of data. Keys have min to max letters. The used length is
   U = 28 + F + (G+1)*W. The bytes from U on are spare and are never judged.

   A value is 64 bits wide in every call. An image holds it in D bytes, so there it is at most
   256^D - 1. With D = 8 every value fits. 0 means that nothing is stored.

   A link is the address of a node, or 0 if it is empty. The nodes of an accepted image are one
   tree: each address from 1 to G stands in exactly one link, and each node is reached from the
   root. A child may have a lower address than its parent, as in a file that another tool has
   renumbered. The new nodes of a store have the addresses after G.

   The depth of a node is the number of links from the root to it; the root has depth 0. In an
   accepted image data stands only at depths of min to max. So every record in it can be looked up,
   is listed and is counted. Nodes whose data is 0 may stand at any depth.

   6, 7 and 16 mean that the nodes are not one tree, 19 that data stands where no lookup finds it.
   No cut of a store leaves such an image, and mending does not help: refuse the file and restore a
   copy. Do the same if mend answers 8.

   A power cut
   -----------
   An image that must survive a power cut is kept twice: in memory, and in a file or on a device.
   The second one is called the kept image here. The calls work on the image in memory alone. One
   program at a time works on a kept image: in a file it takes a lock before it reads or makes it.

   At a start:
   1. Read the kept image into memory.
   2. Write back all that was read, in whole sectors, and flush; in a file, write it to a new file,
      as below. This may be left out if the machine was off since the last write: then what was
      read has landed. Otherwise it may be in a cache alone.
   3. Call trieff_mend. If it changed the first four bytes, write them back, and flush.
   4. Only now answer and store.

   To store, call trieff_store_writes or trieff_store_text_writes. Carry out the list of writes on
   the kept image, in its order, with three flushes: the new nodes, flush, G, flush, the link,
   flush. A list of one write has a data field: the field, flush. Answer after the last flush.

   If a write or a flush failed, or may have failed: store nothing more and answer nothing more, no
   lookup either. The image in memory holds a store that the kept image may lack, and the next
   store would build on it. What is read back may never have landed, and a second flush may succeed
   without it. So restart the machine and begin at step 1. Or begin at step 1 without a restart,
   and do not leave out step 2.

   A fresh image is made in memory by trieff_make. To put it on a device:
   1. Write 28 zero bytes where it begins, and flush. The check now answers TRIEFF_HEAD_FIELD.
   2. Write the bytes from 28 on, up to U at least, and flush.
   3. Write the first 28 bytes, and flush.
   If a start finds 28 zero bytes there, the making was cut: begin again. To put a fresh image in a
   file, write it to a new file, flush that file, rename it, and flush the folder.

   examples/bench_file.c does all of this in a file.

   The device must promise:
   - What was written before a flush has landed once the flush has returned without a failure. What
     comes after a flush is not begun before that.
   - A write of G, of a link, of a data field (up to 8 bytes) or of the first 28 bytes lands whole
     or not at all. Devices promise this within a sector. So the image begins at the start of a
     sector, and no field lies across the end of one: see TRIEFF_FIELDS_WHOLE.
   - Of nodes that were written since the last flush any bytes may have landed, in any order. They
     go to spare bytes.
   - No byte changes that was not written.

   Bare flash does not promise this: a field can be changed only by erasing its block and writing
   it again, and a cut meanwhile loses the neighbours. A layer that moves sectors, or a card,
   promises it if its maker says so. FRAM and EEPROM take single bytes: there the supply must last
   until the longest field is written whole, 8 bytes if D is 8. The order in which a call writes to
   the image in memory is not promised. So do not lend FRAM or memory with a battery as the image:
   also there keep two images, and go by the list of writes.

   A device may promise words, and not sectors. Then the image begins at the start of a word,
   TRIEFF_FIELDS_WHOLE holds, and a field is written by one write of its word. Words of 8 bytes are
   enough for every D, words of 4 only for a D of 1, 2 or 4. The first 28 bytes are longer than a
   word. So a fresh image is put there with D (bytes 12 to 15) as the guard: write D as zeros,
   flush, all other bytes, flush, D, flush. If a start finds D = 0, the making was cut.

   With words of 4 bytes, half of an 8-byte data field may land. Then the key has a value that was
   never stored, and no check can tell. No order of the two words avoids it. So do one of these:
   - Keep D at most 4. Longer values go into a table beside the image: write the value to a row
     that nothing refers to, flush, then store the row's number.
   - Put a layer between, such as a journal, which makes a write of 8 bytes land whole or not at
     all, and repairs the kept image before it is read at a start.
   This concerns a list of one write alone. New nodes have their data in spare bytes.

   With these promises, wherever the cut was, mending answers TRIEFF_DONE if enough working numbers
   are lent. After that, all answers are those from before the store, or all answers are those from
   after it. They are those from after it exactly if the last write of the list landed. That holds
   of every call and of every later run of calls. A key is never half stored, no other key is
   touched, and what a cut store wrote after the old used length is spare again.

   Positions and counts
   --------------------
   The position of a stored key says where it stands in the listing, from 0: the first key has
   position 0, the next key after it has position 1.

   To jump by position, lend a list of counts beside the image. It has one 32-bit number for each
   node: counts[i] is the number of stored keys at or under node i, which are those whose path from
   the root passes that node. So counts[0] is the number of stored keys, and a node that leads to
   no stored key has the count 0. Lend enough counts for the greatest G that the image can reach:
   `static uint32_t counts[nodes]` for an image of TRIEFF_LENGTH(nodes, ..) bytes. Counts after
   counts[G] are never read.

   How firmware keeps the counts:
   - Call trieff_counts once, after the start or after mend. It works the counts out. Then lend the
     same list to every call with counts.
   - trieff_store_counts and trieff_store_text_counts keep the counts right.
   - No other call that changes the image does. After a store with writes (trieff_store_writes,
     trieff_store_text_writes), carry out its list, then work the counts out afresh. Work them
     out afresh after trieff_store, trieff_store_text, trieff_mend and trieff_make too.
   - The counts are not part of the image, and need not be kept through a power cut.

   Every call with counts but trieff_counts compares them with fresh ones, once the image has
   passed the check. If one differs, the answer is TRIEFF_COUNTS_DIFFER. Then work the counts out
   afresh and call again. */
#ifndef TRIEFF_H
#define TRIEFF_H

#include <stdbool.h>
#include <stddef.h>
#include <stdint.h>

#ifdef __cplusplus
extern "C" {
#endif

/* The version of this header. It is raised by one whenever a prototype, or the layout of a struct,
   changes. A program that declares the calls itself, as one in another language does, must follow
   the header of the library that it links.
   1: the value that a store takes is 32 bits wide, and D is at most 4.
   2: the value is 64 bits wide in all six stores, and D is at most 8.
   Do not link a program with this library that was compiled with version 1: compile it anew. The
   linker does not notice, since the names are the same. Such a program passes 32 bits, and the
   upper half of the value is whatever stood there before. So the store is refused with 11, or it
   stores another value. And do not link a program of version 2 with a library of version 1, which
   drops the upper half. There trieff_make answers TRIEFF_HEAD_FIELD for D = 8. */
#define TRIEFF_VERSION 2

/* The limits of an image's length in bytes. The least is the length of the seven fields. */
#define TRIEFF_IMAGE_LEAST 28
#define TRIEFF_IMAGE_MOST 16777216

/* The most links in a node (N). */
#define TRIEFF_N_MOST 256
/* The most bytes in a link (A). */
#define TRIEFF_A_MOST 4
/* The most bytes of data in a node (D). */
#define TRIEFF_D_MOST 8
/* The most bytes of alphabet (F). */
#define TRIEFF_F_MOST 1024
/* The most letters in a key (the limit of max). */
#define TRIEFF_KEY_MOST 64

/* The most writes of one store: TRIEFF_KEY_MOST new nodes, G and a link. */
#define TRIEFF_WRITES_MOST 66
/* The numbers that are lent for a list of writes: two for each write. */
#define TRIEFF_WRITES_LEN 132

/* The used length of an image with a number of nodes, for static memory:
   `static uint8_t image[TRIEFF_LENGTH(nodes, n, a, d, f)]`. Then `static uint32_t work[nodes]` and
   `static uint32_t counts[nodes]` are enough, as long as the image in it was made with these
   numbers. */
#define TRIEFF_LENGTH(nodes, n, a, d, f)         \
    ((size_t)TRIEFF_IMAGE_LEAST + (size_t)(f) +  \
     (size_t)(nodes) * ((size_t)(n) * (size_t)(a) + (size_t)(d)))

/* Whether A is 1, 2 or 4, D is 1, 2, 4 or 8, and both divide 28 + F and W. Then each link and each
   data field stands at a multiple of its length, and none lies across the end of a sector, if the
   image begins at the start of a sector, and sectors have 512 bytes or another power of two from 8
   on: `_Static_assert(TRIEFF_FIELDS_WHOLE(n, a, d, f), "..")`. G never does.
   For D = 8 it says that 28 + F and N*A are multiples of 8. So F is 4, 12, 20 or such, and never
   0. If the alphabet has another length, add characters that no label has. For D = 3, 5, 6 or 7 it
   is false: take 4 or 8. */
#define TRIEFF_FIELDS_WHOLE(n, a, d, f)                                       \
    ((a) <= TRIEFF_A_MOST && TRIEFF_FIELD_WHOLE_(a, (n) * (a) + (d), f) &&    \
     TRIEFF_FIELD_WHOLE_(d, (n) * (a) + (d), f))
#define TRIEFF_FIELD_WHOLE_(length, w, f)                                     \
    (((length) == 1 || (length) == 2 || (length) == 4 || (length) == 8) &&    \
     (TRIEFF_IMAGE_LEAST + (f)) % (length) == 0 && (w) % (length) == 0)

/* The number of an answer. The place is 0 where the comment names none. */
enum trieff_number {
    /* Done. */
    TRIEFF_DONE = 0,
    /* The image is shorter than TRIEFF_IMAGE_LEAST or longer than TRIEFF_IMAGE_MOST bytes. */
    TRIEFF_IMAGE_LENGTH = 1,
    /* A head field is outside its limits: N 1 to TRIEFF_N_MOST, A 1 to TRIEFF_A_MOST,
       D 1 to TRIEFF_D_MOST, F 0 to TRIEFF_F_MOST, min 0 to max, max 0 to TRIEFF_KEY_MOST. */
    TRIEFF_HEAD_FIELD = 2,
    /* F is above 0, and the F bytes are not N different well-formed UTF-8 characters. It is given
       only if all F bytes are inside the image. For make the bytes are the alphabet given. */
    TRIEFF_ALPHABET = 3,
    /* U exceeds the image's length. */
    TRIEFF_IMAGE_ROOM = 4,
    /* Fewer than G+1 working numbers, or fewer than G+1 counts, are lent. A store with counts also
       gives it after 13: if fewer than G+k+1 counts are lent, for k new nodes. */
    TRIEFF_TOO_FEW_NUMBERS = 5,
    /* A link is above G. Place: the lowest node that holds such a link; in a lookup, the node that
       holds the first one on the key's path. */
    TRIEFF_LINK = 6,
    /* An address stands in two links or more. Place: the lowest such address. */
    TRIEFF_LINKED_TWICE = 7,
    /* An address in 1..G stands in no link. Place: the lowest such address. */
    TRIEFF_NOT_LINKED = 8,
    /* The key's length in letters is outside min..max. For next_key: it is above max. */
    TRIEFF_KEY_LENGTH = 9,
    /* A letter number is N or more. Or the text is not well-formed, or has a character outside the
       alphabet. */
    TRIEFF_LETTER = 10,
    /* The value is above 256^D - 1. It is never given for D = 8. */
    TRIEFF_VALUE_TOO_GREAT = 11,
    /* New nodes are needed, and G with them would exceed 256^A - 1. */
    TRIEFF_NO_ADDRESS = 12,
    /* New nodes are needed, and U with them would exceed the image's length. */
    TRIEFF_NO_ROOM = 13,
    /* The key buffer is shorter than max. */
    TRIEFF_SHORT_BUFFER = 14,
    /* No stored key meets the request. */
    TRIEFF_NO_KEY = 15,
    /* A node is not reached from the root by links. Since 7 and 8 come first, it is on a cycle of
       links or under one. Place: the lowest such node. */
    TRIEFF_NOT_REACHED = 16,
    /* Data that is not 0 stands at a depth outside min..max, where no lookup finds it. Place: the
       lowest such node, which may be the root, 0. */
    TRIEFF_HIDDEN = 19,
    /* A count differs from the fresh one. Place: the lowest such node. */
    TRIEFF_COUNTS_DIFFER = 25
};

/* The answer of every call. A field that a call does not use is 0. In a refusal all fields but
   number and place are 0. */
typedef struct trieff_answer {
    /* A number of enum trieff_number: TRIEFF_DONE, else the refusal. */
    uint32_t number;
    /* The node or address that the refusal names, else 0. */
    uint32_t place;
    /* next_key, key_at: the number of letters written to the key buffer.
       store_writes, store_text_writes: the number of writes in the list. */
    uint32_t length;
    /* Every store: the change in the number of stored keys, -1, 0 or 1. */
    int32_t change;
    /* look_up, look_up_text: the value, 0 for absent. next_key, key_at: the value of the key
       found. count: the number of stored keys. position, position_text: the key's position. */
    uint64_t value;
} trieff_answer;

/* A number in words, for a log or a person. */
static inline const char *trieff_text(uint32_t number)
{
    switch (number) {
    case TRIEFF_DONE: return "done";
    case TRIEFF_IMAGE_LENGTH: return "image shorter than 28 or longer than 16,777,216 bytes";
    case TRIEFF_HEAD_FIELD: return "a head field outside its limits";
    case TRIEFF_ALPHABET: return "the alphabet is not N different well-formed characters";
    case TRIEFF_IMAGE_ROOM: return "U exceeds the image's length";
    case TRIEFF_TOO_FEW_NUMBERS: return "too few working numbers or counts lent";
    case TRIEFF_LINK: return "a link is above G";
    case TRIEFF_LINKED_TWICE: return "an address stands in two links or more";
    case TRIEFF_NOT_LINKED: return "an address in 1..G stands in no link";
    case TRIEFF_KEY_LENGTH: return "key length outside min..max";
    case TRIEFF_LETTER: return "a letter number is N or more, or the text names no key";
    case TRIEFF_VALUE_TOO_GREAT: return "value above 256^D - 1";
    case TRIEFF_NO_ADDRESS: return "G + k above 256^A - 1, with k new nodes";
    case TRIEFF_NO_ROOM: return "U + k*W exceeds the image's length, with k new nodes";
    case TRIEFF_SHORT_BUFFER: return "key buffer shorter than max";
    case TRIEFF_NO_KEY: return "no stored key meets the request";
    case TRIEFF_NOT_REACHED: return "a node is not reached from the root";
    case TRIEFF_HIDDEN: return "data stands at a depth outside min..max";
    case TRIEFF_COUNTS_DIFFER: return "a count is not the fresh one";
    default: return "a number that this header does not know";
    }
}

/* Makes a fresh image: N links in a node, A bytes in a link, D bytes of data, keys of min to max
   letters. Letter i is the i-th character of the alphabet, from 0. F is the length of the alphabet
   in bytes. An alphabet of no bytes makes an image whose keys are letter numbers alone.
   Refusals: 1, 2, 3 (for the alphabet given), 4 (the slice has no room for head, alphabet and
   root).
   Done: writes head, alphabet and a zero root, 28 + F + W bytes. The spare bytes after them keep
   what they held. */
trieff_answer trieff_make(uint8_t *image, size_t image_len, uint32_t n, uint32_t a, uint32_t d,
                          const uint8_t *alphabet, size_t alphabet_len,
                          uint32_t min, uint32_t max);

/* Checks an image: its head, its alphabet, every link, whether each node is reached from the root,
   and whether data stands only at depths of min to max. An image that passes is accepted.
   Refusals: 1 to 8, 16, 19. */
trieff_answer trieff_check(const uint8_t *image, size_t image_len,
                           uint32_t *work, size_t work_len);

/* The number of stored keys, in `value`: keys of min to max letters whose data is not 0. It is the
   number of nodes whose data is not 0, since data at any other depth is refused.
   Refusals: 1 to 8, 16, 19. */
trieff_answer trieff_count(const uint8_t *image, size_t image_len,
                           uint32_t *work, size_t work_len);

/* The value that is stored under a key, in `value`; 0 for absent. The key is letter numbers, one
   byte each. The call does not check the image. Its time depends on the length of the key and of
   the alphabet, not on the number of nodes. 6 is given only for links on the key's path. Its place
   is the node that holds the first one above G. 19 is never given.
   Refusals: 1 to 4, 9, 10, 6. */
trieff_answer trieff_look_up(const uint8_t *image, size_t image_len,
                             const uint8_t *letters, size_t letters_len);

/* The same as trieff_look_up, for a key given as text in UTF-8. `text_len` counts bytes; the
   length that 9 judges counts characters.
   Refusals: 1 to 4, 10, 9, 6. */
trieff_answer trieff_look_up_text(const uint8_t *image, size_t image_len,
                                  const uint8_t *text, size_t text_len);

/* Stores a value under a key, or deletes the key if the value is 0. `change` is the change in the
   number of stored keys: 1 for a new key, -1 for a deleted one, 0 for another value of a stored
   key and for deleting a key that is not stored.
   Refusals: 1 to 8, 16, 19, 9, 10, 11, 12, 13. A value of 0 needs no new nodes, so 12 and 13 are
   never given for it.
   Done: if the key's path is complete, writes the D bytes of its data. If it is not complete, a
   value of 0 changes nothing. Any other value writes the new nodes to the spare bytes at U, G, and
   the link to the first new node. */
trieff_answer trieff_store(uint8_t *image, size_t image_len, uint32_t *work, size_t work_len,
                           const uint8_t *letters, size_t letters_len, uint64_t value);

/* The same as trieff_store, for a key given as text in UTF-8.
   Refusals: 1 to 8, 16, 19, 10, 9, 11, 12, 13. */
trieff_answer trieff_store_text(uint8_t *image, size_t image_len, uint32_t *work, size_t work_len,
                                const uint8_t *text, size_t text_len, uint64_t value);

/* A store with writes: the same as trieff_store in every refusal, in `change` and in every byte of
   the image. It also leaves the list of its writes at the front of `writes`. `length` is the
   number of writes, 0 to TRIEFF_WRITES_MOST. Write i begins at offset p = writes[2*i] of the image
   and has n = writes[2*i + 1] bytes. These bytes are image[p] to image[p + n - 1], as they are
   after the call. All writes, carried out in order, turn the image from before the call into the
   image after it.
   Refusals: 1 to 8, 16, 19, 9, 10, 11, 12, 13.
   Done: writes what trieff_store writes, and the list. If the key's path is complete, the list is
   one write, of the data field, also if the value was there already. If it is not complete, the
   list is empty for a value of 0. For any other value it is the new nodes, one write each by
   rising address, then G (offset 0, 4 bytes), then the link to the first new node. The numbers
   after the list keep what they held. */
trieff_answer trieff_store_writes(uint8_t *image, size_t image_len,
                                  uint32_t *work, size_t work_len,
                                  const uint8_t *letters, size_t letters_len, uint64_t value,
                                  uint32_t writes[TRIEFF_WRITES_LEN]);

/* The same as trieff_store_writes, for a key given as text in UTF-8.
   Refusals: 1 to 8, 16, 19, 10, 9, 11, 12, 13. */
trieff_answer trieff_store_text_writes(uint8_t *image, size_t image_len,
                                       uint32_t *work, size_t work_len,
                                       const uint8_t *text, size_t text_len, uint64_t value,
                                       uint32_t writes[TRIEFF_WRITES_LEN]);

/* Mends an image after a cut. If the check answers 8 at p, and the image with G set to p-1 is
   accepted, G becomes p-1 and the answer is TRIEFF_DONE. Otherwise nothing changes and the check's
   answer is returned: TRIEFF_DONE for an image that is accepted as it is. This holds for every
   image, cut or not. G is lowered once: in a file from elsewhere the lower G may leave a 6,
   another 8, a 16 or a 19, and then the answer is 8 at p.
   Refusals: 1 to 8, 16, 19.
   Done: changes the first four bytes or nothing. If they changed, write them back to the kept
   image, as one write that lands whole or not at all, and flush, before the next store. Until then
   the kept image still counts the nodes that were cut off, so new nodes would not go to its spare
   bytes. If a cut comes there, the next start mends again. */
trieff_answer trieff_mend(uint8_t *image, size_t image_len, uint32_t *work, size_t work_len);

/* The first stored key at or after the key given or, if `after` is true, after it. A key comes
   before its extensions; otherwise the first different letter number decides. The key given has 0
   to max letters and need not be stored. The first stored key of all is the one at or after the
   empty key.
   Refusals: 1 to 8, 16, 19, 9 (only for a key longer than max), 10, 14, 15.
   Done: writes the letters of the key found to the front of the key buffer, their number to
   `length` and the key's value to `value`. The rest of the buffer keeps what it held. `letters`
   and `key` are two buffers: to go on from the key found, copy it. */
trieff_answer trieff_next_key(const uint8_t *image, size_t image_len,
                              uint32_t *work, size_t work_len,
                              const uint8_t *letters, size_t letters_len, bool after,
                              uint8_t *key, size_t key_len);

/* Works the counts out afresh. What the list held does not matter, so 25 is never given.
   Refusals: 1 to 8 (5 for either list), 16, 19.
   Done: writes counts[0] to counts[G]. The rest of the list keeps what it held. */
trieff_answer trieff_counts(const uint8_t *image, size_t image_len,
                            uint32_t *work, size_t work_len,
                            uint32_t *counts, size_t counts_len);

/* Checks an image and its counts: each of counts[0] to counts[G] must be the fresh one.
   Refusals: 1 to 8 (5 for either list), 16, 19, 25. */
trieff_answer trieff_check_counts(const uint8_t *image, size_t image_len,
                                  uint32_t *work, size_t work_len,
                                  const uint32_t *counts, size_t counts_len);

/* A store with counts: stores a value under a key, or deletes the key if the value is 0, and keeps
   the counts right. `change` and every byte of the image are as trieff_store leaves them.
   Refusals: 1 to 8 (5 for either list), 16, 19, 25, 9, 10, 11, 12, 13, then 5 again if fewer than
   G+k+1 counts are lent. Here k is the number of nodes that are missing on the key's path. A value
   of 0 needs no new nodes, so 12, 13 and the second 5 are never given for it.
   Done: writes what trieff_store writes, and the counts. counts[0] to counts[G], with the new G,
   are then those of the new image. Only the counts on the key's path and those of the new nodes
   change. The rest of the list keeps what it held. */
trieff_answer trieff_store_counts(uint8_t *image, size_t image_len,
                                  uint32_t *work, size_t work_len,
                                  const uint8_t *letters, size_t letters_len, uint64_t value,
                                  uint32_t *counts, size_t counts_len);

/* The same as trieff_store_counts, for a key given as text in UTF-8.
   Refusals: 1 to 8 (5 for either list), 16, 19, 25, 10, 9, 11, 12, 13, then 5 again. */
trieff_answer trieff_store_text_counts(uint8_t *image, size_t image_len,
                                       uint32_t *work, size_t work_len,
                                       const uint8_t *text, size_t text_len, uint64_t value,
                                       uint32_t *counts, size_t counts_len);

/* The stored key at a position: the first stored key moved on by `position` steps of next key.
   Refusals: 1 to 8 (5 for either list), 16, 19, 25, 14, 15 (`position` is the number of stored
   keys or more).
   Done: writes the key's letters to the front of the key buffer, their number to `length` and the
   key's value to `value`. The rest of the buffer keeps what it held. */
trieff_answer trieff_key_at(const uint8_t *image, size_t image_len,
                            uint32_t *work, size_t work_len,
                            const uint32_t *counts, size_t counts_len, uint64_t position,
                            uint8_t *key, size_t key_len);

/* The position of a stored key, in `value`.
   Refusals: 1 to 8 (5 for either list), 16, 19, 25, 9, 10, 15 (the key is not stored). */
trieff_answer trieff_position(const uint8_t *image, size_t image_len,
                              uint32_t *work, size_t work_len,
                              const uint32_t *counts, size_t counts_len,
                              const uint8_t *letters, size_t letters_len);

/* The same as trieff_position, for a key given as text in UTF-8.
   Refusals: 1 to 8 (5 for either list), 16, 19, 25, 10, 9, 15 (the key is not stored). */
trieff_answer trieff_position_text(const uint8_t *image, size_t image_len,
                                   uint32_t *work, size_t work_len,
                                   const uint32_t *counts, size_t counts_len,
                                   const uint8_t *text, size_t text_len);

#ifdef __cplusplus
}
#endif

#endif
