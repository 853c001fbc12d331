/* mpakirovu.h: the one best route through a network whose nodes convert, wrap and unwrap protocols.

   C99, usable from C++. The library needs nothing beside the C library; link it by

       cc -std=c99 -Iinclude host.c crates/mpakirovu/out/libmpakirovu.a

   1. WORDS

   network    n nodes (0 to n - 1), p protocols (0 to p - 1), links and functions, given as a file.
   packet     carries a stack of protocols; the topmost is the current one.
   link       leads from one node to another, or back to its own, in this direction only. It has a
              number and a weight, and carries every protocol.
   function   what a node can do to a packet's stack, with a weight:
                  conv x y     the top must be x; it becomes y (with x = y it is only carried)
                  wrap x y     the top must be x; y is put above it
                  unwrap x y   the top must be y and directly beneath it x; y is removed
   step       one function of the present node, then one link leaving that node. It weighs what both
              weigh together. Its key is four numbers: link number, kind (conv 0, wrap 1, unwrap 2),
              x, y.
   place      a node with a protocol; its number is node * p + protocol. There are N = n * p places.
   route      a list of steps, each allowed where it stands. Nodes and links may be met any number of
              times, and no bound on length or height belongs to it.
   enquiry    S, a, D, b. The packet starts at node S with a stack holding only a. A route is feasible
              if it ends at node D with a stack holding only b. The route of no steps is feasible
              exactly when S = D and a = b.
   tunnel     the part of a route from a wrap to the unwrap that uncovers again what the wrap hid.
              Inside, the hidden protocol stays; the outer one may be converted.
   best       of all feasible routes the one with the least weight; of these, with the fewest steps;
              of these, with the smaller key at the first step at which they differ.
   trace      the best route as text, spelled as the file is: a line "path", weight, steps; then for
              each step a line "step", link number, kind word, x, y, node reached, and the stack after
              it, bottom first, parted by dots.

   2. THE NETWORK FILE

   Lines of text, fields parted by one tab, every line ended by one LF. Numbers are decimal, without
   sign or leading zero (zero itself is 0). There are no empty lines, spaces, carriage returns or
   comments.

       net   n  p                                      the first line, and no other
       link  number  from  to  weight                  these two in any order
       fun   node  conv | wrap | unwrap  x  y  weight

   A link number may occur once, and so may a function (node, kind, x and y). The limits are in
   section 4. The normal file has the same lines in one order: net, then links rising by number, then
   functions rising by node, kind, x, y. It is exactly as long as the file it came from.

   3. ROOMS

   A room is memory that the caller lends for one call: a pointer, then a length that counts entries,
   not bytes. What a room holds before the call never matters to the answer. NULL is allowed where the
   length is 0. A room must not overlap another room or the file, and is aligned for its entries.

   The library keeps nothing: no heap, no global state, no file, no locale. Threads may call it at the
   same time, each with rooms of its own; the file may be shared. So every call reads the file and
   fills the tables anew: that takes milliseconds for 64 places and some tenths of a second for 1,024.

   EXAMPLE (examples/minimal.c)

       #include "mpakirovu.h"
       #include <stdio.h>

       int main(void)
       {
           const uint8_t file[] = "net\t3\t2\nlink\t1\t0\t1\t5\nlink\t2\t1\t2\t5\n"
                                  "fun\t0\twrap\t0\t1\t2\nfun\t1\tunwrap\t0\t1\t3\n";
           uint32_t weight[MPAKIROVU_WEIGHT_ENTRIES(6)];
           uint16_t count[MPAKIROVU_COUNT_ENTRIES(6)], choice[MPAKIROVU_CHOICE_ENTRIES(6)];
           uint16_t step[MPAKIROVU_STEP_ENTRIES(16)];
           uint8_t text[MPAKIROVU_TRACE_BYTES(16)];
           struct mpakirovu_outcome o = mpakirovu_route(file, sizeof file - 1, 0, 0, 2, 0,
               MPAKIROVU_LEND(weight), MPAKIROVU_LEND(count), MPAKIROVU_LEND(choice),
               MPAKIROVU_LEND(step), MPAKIROVU_LEND(text));
           if (o.number != MPAKIROVU_FOUND)
               return 1;
           return fwrite(text, 1, o.length, stdout) != o.length || fflush(stdout) != 0;
       }

   writes, with tabs for spaces:

       path 15 2
       step 1 wrap 0 1 1 0.1
       step 2 unwrap 0 1 2 0
*/
#ifndef MPAKIROVU_H
#define MPAKIROVU_H

#include <stddef.h>
#include <stdint.h>

#ifdef __cplusplus
extern "C" {
#endif

/* 4. LIMITS */

#define MPAKIROVU_MOST_BYTES 65536u       /* of a network file */
#define MPAKIROVU_MOST_NODES 256u         /* n is 1 to this */
#define MPAKIROVU_MOST_PROTOCOLS 16u      /* p is 1 to this */
#define MPAKIROVU_MOST_PLACES 1024u       /* n * p is at most this */
#define MPAKIROVU_MOST_RECORDS 1024u      /* links, and as many functions */
#define MPAKIROVU_MOST_NUMBER 65535u      /* a link number is 0 to this */
#define MPAKIROVU_MOST_WEIGHT 1000000000u /* a link's or function's weight is 0 to this */
#define MPAKIROVU_HEAVIEST 4000000000u    /* weight of a route that is handed out */
#define MPAKIROVU_LONGEST 4096u           /* steps of a route that is handed out */

/* The stack that a call may need, in bytes: a thread that calls the library has to have it free. Each
   tunnel that is open at once takes about 700 bytes: the most that a route can have, 2,048, overflow
   1,350 KiB and run in 1,500 KiB. It is no part of what is proved. */
#define MPAKIROVU_STACK_BYTES 2097152u

/* 5. SIZES OF ROOMS */

/* Entries for N places. A longer room serves as well. */
#define MPAKIROVU_WEIGHT_ENTRIES(N) ((size_t)(N) * (size_t)(N))
#define MPAKIROVU_COUNT_ENTRIES(N) ((size_t)(N) * (size_t)(N))
#define MPAKIROVU_CHOICE_ENTRIES(N) ((size_t)8 * (size_t)(N) * (size_t)(N))

/* Entries for a route of k steps. A step room holds its length divided by four, rounded down. */
#define MPAKIROVU_STEP_ENTRIES(k) ((size_t)4 * (size_t)(k))

/* Bytes that hold the trace of every route of at most k steps: up to 21 for the path line, and for a
   step 28 and three for each protocol on its stack. After i of k steps the stack is at most
   1 + min(i, k - i) high, and these heights add up to k + k * k / 4. For MPAKIROVU_LONGEST steps that
   is 12,709,909 bytes; most traces are far shorter. */
#define MPAKIROVU_TRACE_BYTES(k) \
    ((size_t)21 + (size_t)31 * (size_t)(k) + (size_t)3 * ((size_t)(k) * (size_t)(k) / (size_t)4))

/* Lends a whole array: its address and its number of entries, two arguments. Not for pointers. */
#define MPAKIROVU_LEND(array) (array), (sizeof(array) / sizeof((array)[0]))

/* 6. WHAT THE ROOMS HOLD */

/* The number of a place where there are p protocols, and where the entry for the places P and Q
   stands in the weight and count rooms of N places. */
#define MPAKIROVU_PLACE(p, node, protocol) ((size_t)(node) * (size_t)(p) + (size_t)(protocol))
#define MPAKIROVU_ENTRY(N, P, Q) ((size_t)(P) * (size_t)(N) + (size_t)(Q))

/* Marks in the weight room, in place of the least weight from P to Q. The count is 0 under either. */
#define MPAKIROVU_OVER_MARK 4294967294u  /* feasible routes exist, all over MPAKIROVU_HEAVIEST */
#define MPAKIROVU_NEVER_MARK 4294967295u /* none exists */

/* Mark in the count room: the fewest steps at the least weight are over MPAKIROVU_LONGEST. */
#define MPAKIROVU_LONG_MARK 4097u

/* The kinds, as they stand in the second entry of a step. */
enum mpakirovu_kind {
    MPAKIROVU_CONV = 0,
    MPAKIROVU_WRAP = 1,
    MPAKIROVU_UNWRAP = 2
};

/* 7. OUTCOMES */

/* Each number is given exactly when its line says so. Where several would fit, 1 comes first; then
   the lines of the file from the top, of which the first bad one decides, and within it 2, 3, 4, 5 in
   that order; then 6 to 11 in that order. */
enum mpakirovu_number {
    MPAKIROVU_FOUND = 0,           /* the best route is found; its steps and its trace are written */
    MPAKIROVU_WRITTEN = 0,         /* the same number from mpakirovu_normal: the file is written */
    MPAKIROVU_FILE_TOO_LONG = 1,   /* the file has over 65,536 bytes */
    MPAKIROVU_MISSHAPEN = 2,       /* a line is missing or misshapen: unknown word or kind word,
                                      wrong number of fields, bad number, no LF, net line absent or
                                      repeated */
    MPAKIROVU_OUT_OF_RANGE = 3,    /* a well-spelled number is outside its range, or n * p is over
                                      1,024, or a node or protocol is not below n or p */
    MPAKIROVU_GIVEN_TWICE = 4,     /* link number or function already given on an earlier line */
    MPAKIROVU_TOO_MANY = 5,        /* the 1,025th link or function */
    MPAKIROVU_UNKNOWN_PLACE = 6,   /* S or D is not below n, or a or b is not below p */
    MPAKIROVU_ROOM_TOO_SHORT = 7,  /* the weight, count or choice room is too short */
    MPAKIROVU_NO_ROUTE = 8,        /* no feasible route exists */
    MPAKIROVU_TOO_HEAVY = 9,       /* a feasible route exists, none weighs 4,000,000,000 or less */
    MPAKIROVU_TOO_MANY_STEPS = 10, /* the best route has more than 4,096 steps, or more than the step
                                      room holds; a heavier one is never given in its place */
    MPAKIROVU_TEXT_TOO_LONG = 11   /* the text is longer than the text room */
};

struct mpakirovu_outcome {
    uint32_t number; /* one of enum mpakirovu_number */
    uint32_t line;   /* for 2 to 5 the bad line of the file, counted from 1; otherwise 0 */
    uint32_t weight; /* of the route for 0 and 11 of mpakirovu_route; otherwise 0 */
    uint32_t steps;  /* likewise */
    size_t length;   /* bytes written to the text room: 0 for every number but 0 */
};

/* 8. CALLS */

/* Answers the enquiry S, a, D, b over the network in file.

   outcome      weight, count, choice rooms   step room    text room
   0            tables                        the route    the trace
   1 to 7       as before                     as before    as before
   8, 9, 10     tables                        as before    as before
   11           tables                        the route    as before

   Tables: for all places P and Q, not only those of the enquiry, weight[MPAKIROVU_ENTRY(N, P, Q)] is
   the least weight of the feasible routes from P to Q, and count[MPAKIROVU_ENTRY(N, P, Q)] the fewest
   steps at that weight, or their marks; so a host that wants only weights asks once for all pairs.
   The first 8 * N * N entries of the choice room are 0.
   The route: four entries a step, its key. The trace: outcome.length bytes, with no NUL at its end.
   Entries and bytes past these are untouched. */
struct mpakirovu_outcome mpakirovu_route(
    const uint8_t *file, size_t file_len,
    uint32_t S, uint32_t a, uint32_t D, uint32_t b,
    uint32_t *weight, size_t weight_len,
    uint16_t *count, size_t count_len,
    uint16_t *choice, size_t choice_len,
    uint16_t *step, size_t step_len,
    uint8_t *text, size_t text_len);

/* Writes the normal file of the network in file: outcome 0, 1 to 5 or 11. On 0 the text room's first
   outcome.length bytes are the normal file and those past it are untouched; otherwise the room is as
   before. A text room of file_len bytes is long enough. One of length 0 has the file only judged: the
   outcome 11 then says that it is accepted. */
struct mpakirovu_outcome mpakirovu_normal(
    const uint8_t *file, size_t file_len,
    uint8_t *text, size_t text_len);

#ifdef __cplusplus
}
#endif

#endif
