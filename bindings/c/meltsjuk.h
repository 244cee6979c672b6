/* Double-base chains from C and C++.
 *
 * A chain writes a number as a sum of parts 2^a * 3^b, each a proper multiple of the next. The functions count the chains of a
 * number, find its best chain and its cheapest, tell the position of a chain, run a chain on a residue, read and write tree words,
 * move a chain on a bench, and reply to a line of hexadecimal. Each is proved to answer and to leave behind exactly what its
 * contract in crates/meltsjuk/src/lib.rt says, for every argument.
 * `rt lib`, in crates/meltsjuk, writes the archive crates/meltsjuk/out/libmeltsjuk.a, for x86-64 Linux:
 *
 *     cc -I bindings/c program.c crates/meltsjuk/out/libmeltsjuk.a
 *
 * Memory is lent by the caller, for the time of the call: a pointer, and how many numbers or bytes stand there. They may hold
 * anything before the call, but must be initialised. The proof rests on this, which C does not check:
 *
 *   - no pointer is null, also where the length is 0, and each is aligned as its type asks;
 *   - as many numbers or bytes as the length says can be read, and also written unless the pointer is to const;
 *   - no two pieces of memory that are lent to one call overlap, also not the single numbers that are written through a pointer;
 *   - nothing else reads or writes them before the call returns.
 *
 * Nothing is allocated, and nothing is kept between calls, so threads may call at the same time with memory of their own. A thread
 * with a stack of MELTSJUK_STACK bytes can make every call. The caller's own functions and signal handlers need more on top.
 *
 * Too little lent is refused first of all, and then nothing is written. On every other return the first MELTSJUK_SCRATCH numbers of
 * the scratch are zero and those after them are as they were. More may be lent than is asked for. For meltsjuk_cheapest and
 * meltsjuk_count_up_to all this is so with MELTSJUK_TABLE in place of MELTSJUK_SCRATCH. meltsjuk_run, meltsjuk_write_tree and the
 * functions for a bench are lent no scratch.
 */
#ifndef MELTSJUK_H
#define MELTSJUK_H

#include <stdbool.h>
#include <stddef.h>
#include <stdint.h>

#define MELTSJUK_SCRATCH 512     /* a scratch has at least so many numbers; they take 4 KB */
#define MELTSJUK_TABLE 174720    /* so many for meltsjuk_cheapest and meltsjuk_count_up_to; they take 1.4 MB */
#define MELTSJUK_PLACES 64       /* at least so many places are lent for part numbers; a chain has no more parts */
#define MELTSJUK_TREE_PLACES 160 /* at least so many places are lent for the letters of a tree word; it has at most 157 */
#define MELTSJUK_REPLY 514       /* at least so many bytes are lent for a reply */
#define MELTSJUK_BENCH 378       /* at least so many numbers are lent for a bench; they take 3 KB */
#define MELTSJUK_NAMES 8         /* a bench has so many names: 0 to 7 */
#define MELTSJUK_STACK 32768     /* a thread with so many bytes of stack can make any of the calls */

/* The answers of the functions but meltsjuk_reply; at each function stands which of them it gives. meltsjuk_reply answers
 * MELTSJUK_LITTLE_LENT too, and otherwise a length. Refusal 16, for a and b that are not those of the largest part, is for lines
 * alone: the other functions take and tell chains without a and b. */
#define MELTSJUK_SERVED 0        /* the answer stands where the caller asked for it */
#define MELTSJUK_LITTLE_LENT 1   /* too little is lent, and nothing was written */
#define MELTSJUK_NONE_FITS 5     /* no chain is within the limits */
#define MELTSJUK_NO_PART 8       /* a part number is 1344 or more, or there are more than 64 part numbers */
#define MELTSJUK_NO_CHAIN 9      /* a part is not a proper multiple of the next */
#define MELTSJUK_LARGE_SUM 10    /* the parts sum to 2^64 or more, or the number of a tree word is 2^64 or more */
#define MELTSJUK_BAD_MODULUS 13  /* the modulus is 0 or above 2^63 */
#define MELTSJUK_NO_RESIDUE 14   /* x is not below the modulus */
#define MELTSJUK_NO_TREE_WORD 15 /* the letters are no tree word, or the chain is empty and has none */
#define MELTSJUK_NO_MOVE 17      /* the bench holds a state that is no chain of its n, or the move is not allowed */
#define MELTSJUK_NO_NAME 18      /* the name is above 7, or, in coming back, nothing was saved under it */

#ifdef __cplusplus
extern "C" {
#endif

/* The reply to one line of hexadecimal, given without its byte 10: the digits that the program `intake` writes for it. The line may
 * have capitals A to F and small letters a to f; the reply has capitals.
 *
 * Lent: the line; the scratch, MELTSJUK_SCRATCH numbers or more; `out`, MELTSJUK_REPLY bytes or more.
 * Answers how many digits the reply has, at least 2 and at most 512. They stand in `out`, then zeros up to MELTSJUK_REPLY, so that
 * the digits are a C string, and later bytes are as they were. A refused line's reply is its number as two hexadecimal digits: 02 to
 * 0B, or 0D to 10. docs/LINES.md shows all lines and replies. A chain stands there as k, a and b of its largest part 2^a * 3^b, and
 * its k part numbers.
 * Answers MELTSJUK_LITTLE_LENT, which is no length, where the scratch or `out` is too short; then nothing was written. */
uint64_t meltsjuk_reply(const uint8_t *line, size_t line_length, uint64_t *scratch, size_t scratch_length, uint8_t *out,
                        size_t out_length);

/* How many chains n has.
 *
 * Lent: the scratch, MELTSJUK_SCRATCH numbers or more; one number for the count.
 * Answers MELTSJUK_SERVED with the count in *count, or MELTSJUK_LITTLE_LENT, and *count is as it was. */
uint8_t meltsjuk_count(uint64_t n, uint64_t *scratch, size_t scratch_length, uint64_t *count);

/* How many chains of n have at most `parts` parts. The number 0 has one, the empty chain. No chain has more than 64 parts, so with
 * `parts` of 64 or more this is the count that meltsjuk_count tells.
 *
 * Lent: the scratch, MELTSJUK_TABLE numbers or more; one number for the count.
 * Answers MELTSJUK_SERVED with the count in *count, which is 0 where there is no such chain, or MELTSJUK_LITTLE_LENT, and *count is
 * as it was. */
uint8_t meltsjuk_count_up_to(uint64_t n, uint8_t parts, uint64_t *scratch, size_t scratch_length, uint64_t *count);

/* The best chain of n: the fewest parts, then the lowest price, then the earliest position in the list of n's chains, among the
 * chains with at most `parts_limit` parts and a largest part 2^a * 3^b with a up to `a_limit` and b up to `b_limit`. Limits above
 * 64, 63 and 40 exclude nothing. The number 0 has the empty chain, of no parts and price 0, within any limits.
 *
 * The price of a chain is d * a + t * b, plus an addition for each part but the largest. The addition at a part costs s3 if the
 * next larger part of the chain has more factors 3 (letter 3 in the chain's word), and s2 if it has as many (letter 1). When the
 * chain is run, an addition right after a tripling costs s3, and one right after a doubling costs s2.
 *
 * Lent: the scratch, MELTSJUK_SCRATCH numbers or more; MELTSJUK_PLACES places or more; one number each for the position, the number
 * of parts and the price.
 * Answers MELTSJUK_SERVED with the three in *position, *k and *price. The first *k places hold the chain's part numbers, largest
 * part first: the parts below 2^64 are numbered in ascending order from 0 (1, 2, 3, 4, 6, 8, ...). Then come zeros up to
 * MELTSJUK_PLACES, and later places are as they were.
 * Answers MELTSJUK_LITTLE_LENT or MELTSJUK_NONE_FITS otherwise, and the places and the three numbers are as they were. */
uint8_t meltsjuk_best(uint64_t n, uint8_t parts_limit, uint8_t a_limit, uint8_t b_limit, uint16_t d, uint16_t t, uint16_t s2,
                      uint16_t s3, uint64_t *scratch, size_t scratch_length, uint16_t *places, size_t places_length,
                      uint64_t *position, uint64_t *k, uint64_t *price);

/* Choosing: the chain that meltsjuk_best finds, without its position. This takes about two thirds of the time of meltsjuk_best.
 *
 * Lent: as for meltsjuk_best, without the number for the position.
 * Answers MELTSJUK_SERVED with the number of parts and the price in *k and *price, and the part numbers in the places, as for
 * meltsjuk_best. Answers MELTSJUK_LITTLE_LENT or MELTSJUK_NONE_FITS otherwise, and the places and the two numbers are as they were. */
uint8_t meltsjuk_choose(uint64_t n, uint8_t parts_limit, uint8_t a_limit, uint8_t b_limit, uint16_t d, uint16_t t, uint16_t s2,
                        uint16_t s3, uint64_t *scratch, size_t scratch_length, uint16_t *places, size_t places_length,
                        uint64_t *k, uint64_t *price);

/* The cheapest chain of n: the lowest price, then the fewest parts, then the earliest position in the list of n's chains, among the
 * chains within the same limits as for meltsjuk_best. It may have more parts than the best chain and cost less. With prices of 0 it
 * is the best chain.
 *
 * Lent: the scratch, MELTSJUK_TABLE numbers or more; MELTSJUK_PLACES places or more; one number each for the number of parts and the
 * price.
 * Answers MELTSJUK_SERVED with the number of parts and the price in *k and *price, and the part numbers in the places, as for
 * meltsjuk_best. Answers MELTSJUK_LITTLE_LENT or MELTSJUK_NONE_FITS otherwise, and the places and the two numbers are as they were. */
uint8_t meltsjuk_cheapest(uint64_t n, uint8_t parts_limit, uint8_t a_limit, uint8_t b_limit, uint16_t d, uint16_t t, uint16_t s2,
                          uint16_t s3, uint64_t *scratch, size_t scratch_length, uint16_t *places, size_t places_length,
                          uint64_t *k, uint64_t *price);

/* Placing: the position of a chain in the list of n's chains, where n is the sum of its parts. After meltsjuk_choose, the first *k
 * places hold the part numbers of such a chain, and this is the position that meltsjuk_best tells. After meltsjuk_cheapest they hold
 * those of the cheapest chain.
 *
 * Lent: the chain's part numbers, largest part first, as meltsjuk_best gives them, and where there are none the length is 0 and the
 * pointer is not null; the scratch, MELTSJUK_SCRATCH numbers or more; one number for the position.
 * Answers MELTSJUK_SERVED with the position in *position. Otherwise answers the first of these that holds, and *position is as it
 * was: MELTSJUK_LITTLE_LENT, MELTSJUK_NO_PART, MELTSJUK_NO_CHAIN, MELTSJUK_LARGE_SUM. */
uint8_t meltsjuk_place(const uint16_t *numbers, size_t numbers_length, uint64_t *scratch, size_t scratch_length,
                       uint64_t *position);

/* A chain run on x modulo m. A residue follows the chain's path back from the largest part. It begins as 0, is doubled or tripled
 * at each step, and x is added at each part. It ends as n * x modulo m, where n is the sum of the parts. The empty chain gives 0.
 *
 * Lent: the chain's part numbers, largest part first, as meltsjuk_best gives them; one number for the residue. No scratch is lent.
 * The empty chain has no part numbers: the length is 0, and the pointer is not null.
 * Answers MELTSJUK_SERVED with the residue in *residue. Otherwise answers the first of these that holds, and *residue is as it was:
 * MELTSJUK_BAD_MODULUS, MELTSJUK_NO_RESIDUE, MELTSJUK_NO_PART, MELTSJUK_NO_CHAIN, MELTSJUK_LARGE_SUM. */
uint8_t meltsjuk_run(const uint16_t *numbers, size_t numbers_length, uint64_t m, uint64_t x, uint64_t *residue);

/* The chain of a tree word, which docs/LINES.md explains: n, the chain's position in the list of n's chains, and its parts. The
 * letters are the bytes 1, 2 and 3. They are read from the last to the first. The chain begins as the part 1 alone; letter 1 adds
 * one to the sum of its powers of two, and 2 and 3 multiply every part. The empty word is that of the chain 1.
 *
 * Lent: the letters, and where there are none the length is 0 and the pointer is not null; the scratch, MELTSJUK_SCRATCH numbers or
 * more; MELTSJUK_PLACES places or more; one number each for n, the position and the number of parts.
 * Answers MELTSJUK_SERVED with the three in *n, *position and *k. The first *k places hold the chain's part numbers, largest part
 * first, as meltsjuk_best gives them. Then come zeros up to MELTSJUK_PLACES, and later places are as they were.
 * Otherwise answers the first of these that holds, and the places and the three numbers are as they were: MELTSJUK_LITTLE_LENT;
 * MELTSJUK_NO_TREE_WORD, where a letter is not 1, 2 or 3; MELTSJUK_LARGE_SUM, where the word's number is 2^64 or more: it begins as
 * 1 and is taken plus one, times two or times three by the letters from the last to the first; MELTSJUK_NO_TREE_WORD, where the
 * letters are not the word of any chain. */
uint8_t meltsjuk_read_tree(const uint8_t *letters, size_t letters_length, uint64_t *scratch, size_t scratch_length,
                           uint16_t *places, size_t places_length, uint64_t *n, uint64_t *position, uint64_t *k);

/* The tree word of a chain. Every chain but the empty one has exactly one, and meltsjuk_read_tree leads back.
 *
 * Lent: the chain's part numbers, largest part first, as meltsjuk_best gives them, and where there are none the length is 0 and the
 * pointer is not null; MELTSJUK_TREE_PLACES places or more; one number for the length of the word. No scratch is lent.
 * Answers MELTSJUK_SERVED with the length in *k. The first *k places hold the letters, bytes 1 to 3. Then come zeros up to
 * MELTSJUK_TREE_PLACES, and later places are as they were.
 * Otherwise answers the first of these that holds, and the places and *k are as they were: MELTSJUK_LITTLE_LENT, MELTSJUK_NO_PART,
 * MELTSJUK_NO_CHAIN, MELTSJUK_LARGE_SUM, and MELTSJUK_NO_TREE_WORD for the empty chain. */
uint8_t meltsjuk_write_tree(const uint16_t *numbers, size_t numbers_length, uint8_t *places, size_t places_length, uint64_t *k);

/* A bench, which docs/BENCH.md explains, holds a chain of a number n to be moved by hand, and up to eight saved chains of n. The
 * caller lends it as MELTSJUK_BENCH numbers:
 *
 *     0 to 40       the present chain by rows: bit a of number b is 1 where 2^a * 3^b is a part
 *     41 to 368     the chains saved under the names 0 to 7, 41 numbers each, in the same way
 *     369           n
 *     370 to 377    for each name 0 if nothing was saved under it, else another number
 *
 * meltsjuk_open_bench writes all of them, and then the other five functions keep them. The library keeps nothing else, so a bench can
 * be copied, stored and sent as its numbers. The five look first whether enough is lent (MELTSJUK_LITTLE_LENT), then whether the
 * present chain and each saved one is a chain of n (MELTSJUK_NO_MOVE), and only then at the rest. Numbers 41 to 368 that are those
 * of a name never saved may be anything. With any answer but MELTSJUK_SERVED the bench is as it was. Numbers after the first
 * MELTSJUK_BENCH are always as they were. */

/* Opens a bench on a chain, with no name saved.
 *
 * Lent: the chain's part numbers, largest part first, as meltsjuk_best gives them, and where there are none the length is 0 and the
 * pointer is not null; the bench, MELTSJUK_BENCH numbers or more, which may hold anything.
 * Answers MELTSJUK_SERVED, and the bench is open. Otherwise answers the first of these that holds, and the bench is as it was:
 * MELTSJUK_LITTLE_LENT, MELTSJUK_NO_PART, MELTSJUK_NO_CHAIN, MELTSJUK_LARGE_SUM. */
uint8_t meltsjuk_open_bench(const uint16_t *numbers, size_t numbers_length, uint64_t *bench, size_t bench_length);

/* Moves the present chain, by the move of kind 1 or 2, up or down, at a row: the b of the upward move's 2^a * 3^b, for both
 * directions. There is at most one such move.
 *
 * Lent: the bench, MELTSJUK_BENCH numbers or more.
 * Answers MELTSJUK_SERVED, and the present chain is the one after the move; n and the names are as they were. Otherwise answers
 * MELTSJUK_LITTLE_LENT or MELTSJUK_NO_MOVE, and the bench is as it was. A kind that is not 1 or 2 and a row above 39 have no move. */
uint8_t meltsjuk_move(uint64_t *bench, size_t bench_length, uint8_t kind, bool up, uint8_t row);

/* Saves the present chain under a name, over what was saved there before.
 *
 * Lent: the bench, MELTSJUK_BENCH numbers or more.
 * Answers MELTSJUK_SERVED; the present chain and the other names are as they were. Otherwise answers the first of these that holds,
 * and the bench is as it was: MELTSJUK_LITTLE_LENT, MELTSJUK_NO_MOVE, MELTSJUK_NO_NAME. */
uint8_t meltsjuk_save(uint64_t *bench, size_t bench_length, uint8_t name);

/* Comes back to the chain that was saved under a name: it is the present one.
 *
 * Lent: the bench, MELTSJUK_BENCH numbers or more.
 * Answers MELTSJUK_SERVED; all eight names are as they were. Otherwise answers the first of these that holds, and the bench is as it
 * was: MELTSJUK_LITTLE_LENT, MELTSJUK_NO_MOVE, MELTSJUK_NO_NAME. */
uint8_t meltsjuk_come_back(uint64_t *bench, size_t bench_length, uint8_t name);

/* Walks the present chain down to the binary one, by downward moves, always at the smallest part in the highest row.
 *
 * Lent: the bench, MELTSJUK_BENCH numbers or more; one number each for the number of moves and of parts.
 * Answers MELTSJUK_SERVED with how many moves the walk has in *moves, never above 1,280, and how many parts the binary chain has in
 * *k: as many as n has one bits. The present chain is the binary one, and all eight names are as they were.
 * Answers MELTSJUK_LITTLE_LENT or MELTSJUK_NO_MOVE otherwise, and the bench and the two numbers are as they were. */
uint8_t meltsjuk_walk(uint64_t *bench, size_t bench_length, uint64_t *moves, uint64_t *k);

/* Tells the present chain.
 *
 * Lent: the bench, MELTSJUK_BENCH numbers or more; MELTSJUK_PLACES places or more; one number each for n and the number of parts.
 * Answers MELTSJUK_SERVED with the two in *n and *k. The first *k places hold the chain's part numbers, largest part first, as
 * meltsjuk_best gives them. Then come zeros up to MELTSJUK_PLACES, and later places are as they were.
 * Answers MELTSJUK_LITTLE_LENT or MELTSJUK_NO_MOVE otherwise, and the places and the two numbers are as they were. */
uint8_t meltsjuk_tell(const uint64_t *bench, size_t bench_length, uint16_t *places, size_t places_length, uint64_t *n, uint64_t *k);

#ifdef __cplusplus
}
#endif

#endif
