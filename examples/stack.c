/* Measures the stack that each call takes, on an image with a key of the greatest length and data
   of eight bytes. A firmware engineer needs these figures, and the header gives their limits. Each
   call runs on a stack of its own, which was filled with the byte A5. The part that no longer
   holds it was used. The program fails if a call takes more than the header says. From the
   repository's root, after `tools/build trieff`:

     gcc -std=c11 -O2 -Iinclude -o target/stack examples/stack.c target/staticlib/libtrieff.a \
         && target/stack */
#define _XOPEN_SOURCE 700
#include "trieff.h"

#include <stdio.h>
#include <string.h>
#include <ucontext.h>

enum { DEEP = TRIEFF_KEY_MOST, NODES = DEEP + 1, ROOM = 65536 };
enum { N = 2, A = 1, D = TRIEFF_D_MOST, F = 2 };
enum { MOST = 2304, NEXT_MOST = 32768, COUNTS_MOST = 32768 };
#define VALUE (UINT64_MAX - 7)
static uint8_t image[TRIEFF_LENGTH(NODES, N, A, D, F)];
static uint32_t work[NODES], writes[TRIEFF_WRITES_LEN], counts[NODES];
static uint8_t letters[DEEP], text[DEEP], key[DEEP];
static uint8_t stack[ROOM];
static trieff_answer heard;

#define IMAGE image, sizeof image
#define WORK work, NODES
#define COUNTS counts, NODES
#define NODE(address) (image + TRIEFF_LENGTH(address, N, A, D, F))

/* The calls, with one key of TRIEFF_KEY_MOST letters, so that each goes down as far as it can. */
static void call_make(void)
{
    heard = trieff_make(IMAGE, N, A, D, (const uint8_t *)"AB", F, 0, DEEP);
}
static void call_store(void) { heard = trieff_store(IMAGE, WORK, letters, DEEP, VALUE); }
static void call_store_text(void) { heard = trieff_store_text(IMAGE, WORK, text, DEEP, VALUE); }
static void call_store_writes(void)
{
    heard = trieff_store_writes(IMAGE, WORK, letters, DEEP, VALUE, writes);
}
static void call_store_text_writes(void)
{
    heard = trieff_store_text_writes(IMAGE, WORK, text, DEEP, VALUE, writes);
}
static void call_mend(void) { heard = trieff_mend(IMAGE, WORK); }
static void call_check(void) { heard = trieff_check(IMAGE, WORK); }
static void call_count(void) { heard = trieff_count(IMAGE, WORK); }
static void call_look_up(void) { heard = trieff_look_up(IMAGE, letters, DEEP); }
static void call_look_up_text(void) { heard = trieff_look_up_text(IMAGE, text, DEEP); }
static void call_next_key(void)
{
    heard = trieff_next_key(IMAGE, WORK, letters, 0, false, key, DEEP);
}
static void call_counts(void) { heard = trieff_counts(IMAGE, WORK, COUNTS); }
static void call_check_counts(void) { heard = trieff_check_counts(IMAGE, WORK, COUNTS); }
static void call_store_counts(void)
{
    heard = trieff_store_counts(IMAGE, WORK, letters, DEEP, VALUE, COUNTS);
}
static void call_store_text_counts(void)
{
    heard = trieff_store_text_counts(IMAGE, WORK, text, DEEP, VALUE, COUNTS);
}
static void call_key_at(void) { heard = trieff_key_at(IMAGE, WORK, COUNTS, 1, key, DEEP); }
static void call_position(void) { heard = trieff_position(IMAGE, WORK, COUNTS, letters, DEEP); }
static void call_position_text(void)
{
    heard = trieff_position_text(IMAGE, WORK, COUNTS, text, DEEP);
}
static void call_nothing(void) { heard = (trieff_answer){0}; }

/* The image before the call. whole: with the key stored. lower: the same key, but each child of a
   node other than the root has a lower address, so that the check must follow the links from the
   root. cut: as a store that was cut between G and the link leaves it; the link is the second of
   the root's two. whole_counted: with its counts, the key stored, so that comparing them goes down
   all levels, and the empty key stored too, so that the long key has position 1. */
static void whole(void)
{
    call_make();
    call_store();
}
static void lower(void)
{
    whole();
    for (size_t node = 0; node <= DEEP; node++)
        NODE(node)[1] = (uint8_t)(node == 0 ? DEEP : node - 1);
    memcpy(NODE(1) + N * A, NODE(DEEP) + N * A, D);
    memset(NODE(DEEP) + N * A, 0, D);
}
static void cut(void)
{
    whole();
    NODE(0)[1] = 0;
}

static void whole_counted(void)
{
    whole();
    trieff_store(IMAGE, WORK, letters, 0, VALUE - 1);
    call_counts();
}

static size_t taken_by(void (*call)(void))
{
    static ucontext_t here, there;
    size_t untouched = 0;
    memset(stack, 0xA5, ROOM);
    getcontext(&there);
    there.uc_stack.ss_sp = stack;
    there.uc_stack.ss_size = ROOM;
    there.uc_link = &here;
    makecontext(&there, call, 0);
    swapcontext(&here, &there);
    while (untouched < ROOM && stack[untouched] == 0xA5)
        untouched++;
    return ROOM - untouched;
}

int main(void)
{
    static const struct {
        const char *name;
        void (*before)(void), (*call)(void);
        size_t most;
        uint32_t length;
        uint64_t value;
    } calls[] = {
        {"make", whole, call_make, MOST, 0, 0},
        {"store", call_make, call_store, MOST, 0, 0},
        {"store_text", call_make, call_store_text, MOST, 0, 0},
        {"store_writes", call_make, call_store_writes, MOST, TRIEFF_WRITES_MOST, 0},
        {"store_text_writes", call_make, call_store_text_writes, MOST, TRIEFF_WRITES_MOST, 0},
        {"mend", cut, call_mend, MOST, 0, 0},
        {"check", whole, call_check, MOST, 0, 0},
        {"check, lower", lower, call_check, MOST, 0, 0},
        {"look_up", whole, call_look_up, MOST, 0, VALUE},
        {"look_up_text", whole, call_look_up_text, MOST, 0, VALUE},
        {"count", whole, call_count, MOST, 0, 1},
        {"next_key", whole, call_next_key, NEXT_MOST, DEEP, VALUE},
        {"next_key, lower", lower, call_next_key, NEXT_MOST, DEEP, VALUE},
        {"counts", whole, call_counts, COUNTS_MOST, 0, 0},
        {"check_counts", whole_counted, call_check_counts, COUNTS_MOST, 0, 0},
        {"store_counts", whole_counted, call_store_counts, COUNTS_MOST, 0, 0},
        {"store_text_counts", whole_counted, call_store_text_counts, COUNTS_MOST, 0, 0},
        {"key_at", whole_counted, call_key_at, COUNTS_MOST, DEEP, VALUE},
        {"position", whole_counted, call_position, COUNTS_MOST, 0, 1},
        {"position_text", whole_counted, call_position_text, COUNTS_MOST, 0, 1},
    };
    int failed = 0;
    memset(letters, 1, DEEP);
    memset(text, 'B', DEEP);
    whole(); /* so that the linker's work at the first memset is not measured */
    size_t bare = taken_by(call_nothing);
    for (size_t i = 0; i < sizeof calls / sizeof *calls; i++) {
        calls[i].before();
        size_t taken = taken_by(calls[i].call) - bare;
        int good = heard.number == TRIEFF_DONE && heard.value == calls[i].value &&
                   taken <= calls[i].most;
        good = good && heard.length == calls[i].length;
        printf("%-17s %5zu bytes of stack, at most %zu%s\n", calls[i].name, taken, calls[i].most,
               good ? "" : ": FAILED");
        failed |= !good;
    }
    return failed;
}
