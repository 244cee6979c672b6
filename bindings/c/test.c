/* The library from C, for tests/exports.
 *
 * Without an argument: the reply to each line of standard input, a line each, as the program `intake` writes them.
 * With the argument `calls`: the same for lines of kinds 01, 02, 04, 07, 08 and 09 of the right length, by the calls for the count,
 * the best chain, choosing and placing, the run of a chain and the two for tree words, whose answers are written here as replies. The
 * calls take and tell chains without a and b of the largest part. So these are passed over in a line, and for a reply they are looked
 * up. For a line of kind 02 choosing and placing must tell what the best chain tells.
 * With the argument `limited`: the cheapest chain for lines as those of kind 02, and the count of chains with at most so many parts for
 * lines as those of kind 01 with one byte more, the number of parts. There are no replies to such calls. Written are 00 and the count in
 * 8 bytes, or 00, the number of parts, the part numbers and the price in 4 bytes, or the refusal.
 *
 * Every call is made on a thread with a stack of MELTSJUK_STACK bytes. The page below the stack must not be touched: a call that
 * needs more stack ends the program by a signal.
 *
 * Every scratch stands before a page that must not be touched either: a call that reads or writes past its end is stopped alike. A
 * scratch has MELTSJUK_SCRATCH numbers, one more, or 5,248. All bits are set before a call. After it the first MELTSJUK_SCRATCH
 * numbers must be zero and the others as they were. A scratch of one number less is refused and left as it was. The same is tried with
 * MELTSJUK_TABLE numbers, one more and one less, for the two calls that ask for so many. The places for part numbers and for letters,
 * and the numbers of a bench, stand before such a page too. */
#define _DEFAULT_SOURCE
#define _POSIX_C_SOURCE 200809L
#include "meltsjuk.h"

#include <inttypes.h>
#include <pthread.h>
#include <stdio.h>
#include <stdlib.h>
#include <string.h>
#include <sys/mman.h>
#include <sys/types.h>
#include <unistd.h>

#define PARTS 1344 /* so many parts are below 2^64 */
#define LATER 3 /* so many places are lent beyond those asked for; they must be as they were */

/* A scratch to lend. */
struct scratch {
    uint64_t *numbers;
    size_t length;
};

/* A part 2^a * 3^b below 2^64. */
struct part {
    uint64_t value;
    unsigned a, b;
};

static struct scratch shorter, exact, longer, large;
static struct scratch short_table, table, long_table; /* MELTSJUK_TABLE numbers less one, as many, and one more */
static uint16_t *places, *more_places; /* MELTSJUK_PLACES of them, and LATER more */
static uint8_t *tree_places, *more_tree_places; /* MELTSJUK_TREE_PLACES of them, and LATER more */
static uint64_t *short_bench, *bench, *more_bench; /* MELTSJUK_BENCH numbers less one, as many, and LATER more */
static struct part parts_by_number[PARTS];
static uint16_t numbers[255]; /* a line tells in one byte how many part numbers it has */
static uint8_t letters[255]; /* or how many letters */
static uint8_t out[MELTSJUK_REPLY];
static pthread_attr_t small; /* a thread with just as much stack */

static void must(int holds, const char *what)
{
    if (!holds) {
        fprintf(stderr, "test.c: %s\n", what);
        exit(1);
    }
}

static void make_small(void)
{
    size_t page = (size_t)sysconf(_SC_PAGESIZE);
    char *memory = mmap(NULL, page + MELTSJUK_STACK, PROT_READ | PROT_WRITE, MAP_PRIVATE | MAP_ANONYMOUS, -1, 0);

    must(memory != MAP_FAILED && mprotect(memory, page, PROT_NONE) == 0, "no memory for a stack");
    must(pthread_attr_init(&small) == 0 && pthread_attr_setstack(&small, memory + page, MELTSJUK_STACK) == 0,
         "a thread cannot have a stack of MELTSJUK_STACK bytes");
}

/* So many bytes between two pages that must not be touched. They end where the second begins. Where they fill whole pages, as 512
 * numbers do, they begin where the first ends. */
static void *fenced(size_t bytes)
{
    size_t page = (size_t)sysconf(_SC_PAGESIZE);
    size_t room = (bytes + page - 1) / page * page;
    char *memory = mmap(NULL, page + room + page, PROT_READ | PROT_WRITE, MAP_PRIVATE | MAP_ANONYMOUS, -1, 0);

    must(memory != MAP_FAILED && mprotect(memory, page, PROT_NONE) == 0 && mprotect(memory + page + room, page, PROT_NONE) == 0,
         "no memory to lend");
    return memory + page + room - bytes;
}

static struct scratch scratch_of(size_t length)
{
    struct scratch s = {fenced(length * sizeof(uint64_t)), length};

    return s;
}

static void make_memory(void)
{
    shorter = scratch_of(MELTSJUK_SCRATCH - 1);
    exact = scratch_of(MELTSJUK_SCRATCH);
    longer = scratch_of(MELTSJUK_SCRATCH + 1);
    large = scratch_of(5248);
    short_table = scratch_of(MELTSJUK_TABLE - 1);
    table = scratch_of(MELTSJUK_TABLE);
    long_table = scratch_of(MELTSJUK_TABLE + 1);
    places = fenced(MELTSJUK_PLACES * sizeof(uint16_t));
    more_places = fenced((MELTSJUK_PLACES + LATER) * sizeof(uint16_t));
    tree_places = fenced(MELTSJUK_TREE_PLACES);
    more_tree_places = fenced(MELTSJUK_TREE_PLACES + LATER);
    short_bench = fenced((MELTSJUK_BENCH - 1) * sizeof(uint64_t));
    bench = fenced(MELTSJUK_BENCH * sizeof(uint64_t));
    more_bench = fenced((MELTSJUK_BENCH + LATER) * sizeof(uint64_t));
}

static int by_value(const void *x, const void *y)
{
    const struct part *p = x, *q = y;

    return p->value < q->value ? -1 : p->value > q->value;
}

static void make_parts(void)
{
    struct part p = {1, 0, 0};
    size_t found = 0;

    for (;;) { /* up in a, and then up in b with a from 0 */
        parts_by_number[found++] = p;
        if (p.value <= UINT64_MAX / 2) {
            p.value *= 2;
            p.a++;
        } else {
            p.value >>= p.a;
            p.a = 0;
            if (p.value > UINT64_MAX / 3)
                break;
            p.value *= 3;
            p.b++;
        }
    }
    must(found == PARTS, "there are 1344 parts");
    qsort(parts_by_number, found, sizeof *parts_by_number, by_value);
}

/* The scratch for a line: the least that is served for most lines. */
static struct scratch scratch_for(uint64_t line)
{
    return line % 8 == 1 ? longer : line % 8 == 3 ? large : exact;
}

/* The same for a call that asks for MELTSJUK_TABLE numbers. */
static struct scratch table_for(uint64_t line)
{
    return line % 8 == 1 ? long_table : table;
}

/* Sets all bits of the scratch, of the places and of the reply's bytes. */
static void set_bits(struct scratch s)
{
    memset(s.numbers, 0xFF, s.length * sizeof(uint64_t));
    memset(places, 0xFF, MELTSJUK_PLACES * sizeof(uint16_t));
    memset(more_places, 0xFF, (MELTSJUK_PLACES + LATER) * sizeof(uint16_t));
    memset(tree_places, 0xFF, MELTSJUK_TREE_PLACES);
    memset(more_tree_places, 0xFF, MELTSJUK_TREE_PLACES + LATER);
    memset(out, 0xFF, sizeof out);
}

/* Whether each of so many bytes has the value. */
static int is_all(const void *memory, size_t bytes, unsigned char value)
{
    const unsigned char *byte = memory;

    while (bytes > 0 && *byte == value) {
        byte++;
        bytes--;
    }
    return bytes == 0;
}

/* Whether the first `zeros` numbers of the scratch are zero, and the others have all bits set. */
static int is_left(struct scratch s, size_t zeros)
{
    return is_all(s.numbers, zeros * sizeof(uint64_t), 0)
           && is_all(s.numbers + zeros, (s.length - zeros) * sizeof(uint64_t), 0xFF);
}

/* Whether the places hold these part numbers and then zeros, and whether so many later places have all bits set. */
static int are_parts(const uint16_t *lent, const uint16_t *parts, size_t k, size_t later)
{
    return memcmp(lent, parts, k * sizeof *parts) == 0 && is_all(lent + k, (MELTSJUK_PLACES - k) * sizeof *lent, 0)
           && is_all(lent + MELTSJUK_PLACES, later * sizeof *lent, 0xFF);
}

/* The same for letters. */
static int are_letters(const uint8_t *lent, const uint8_t *word, size_t k, size_t later)
{
    return memcmp(lent, word, k) == 0 && is_all(lent + k, MELTSJUK_TREE_PLACES - k, 0)
           && is_all(lent + MELTSJUK_TREE_PLACES, later, 0xFF);
}

/* Whether all places have all bits set. */
static int are_untouched(void)
{
    return is_all(places, MELTSJUK_PLACES * sizeof *places, 0xFF)
           && is_all(more_places, (MELTSJUK_PLACES + LATER) * sizeof *more_places, 0xFF)
           && is_all(tree_places, MELTSJUK_TREE_PLACES, 0xFF) && is_all(more_tree_places, MELTSJUK_TREE_PLACES + LATER, 0xFF);
}

static void on_small_stack(void *(*calls)(void *), void *argument)
{
    pthread_t thread;

    must(pthread_create(&thread, &small, calls, argument) == 0 && pthread_join(thread, NULL) == 0, "no thread");
}

/* One number, place or byte less than is asked for: each call refuses, and what it would write to is as it was. */
static void *too_little(void *unused)
{
    const uint8_t line[18] = "010000000000000013";
    const uint8_t word[4] = {1, 3, 3, 2};
    const uint16_t parts[2] = {9, 0}; /* 18 + 1 */
    uint64_t count = 7, n = 7, position = 7, k = 7, price = 7;

    set_bits(shorter);
    set_bits(exact);
    must(meltsjuk_reply(line, 18, shorter.numbers, shorter.length, out, MELTSJUK_REPLY) == MELTSJUK_LITTLE_LENT,
         "a reply with a short scratch");
    must(meltsjuk_reply(line, 18, exact.numbers, exact.length, out, MELTSJUK_REPLY - 1) == MELTSJUK_LITTLE_LENT,
         "a reply with few bytes");
    must(meltsjuk_count(19, shorter.numbers, shorter.length, &count) == MELTSJUK_LITTLE_LENT, "a count with a short scratch");
    must(meltsjuk_best(19, 64, 63, 40, 4, 7, 8, 9, shorter.numbers, shorter.length, places, MELTSJUK_PLACES, &position, &k, &price)
             == MELTSJUK_LITTLE_LENT,
         "a best chain with a short scratch");
    must(meltsjuk_best(19, 64, 63, 40, 4, 7, 8, 9, exact.numbers, exact.length, places, MELTSJUK_PLACES - 1, &position, &k, &price)
             == MELTSJUK_LITTLE_LENT,
         "a best chain with few places");
    must(meltsjuk_choose(19, 64, 63, 40, 4, 7, 8, 9, shorter.numbers, shorter.length, places, MELTSJUK_PLACES, &k, &price)
             == MELTSJUK_LITTLE_LENT,
         "a chain chosen with a short scratch");
    must(meltsjuk_choose(19, 64, 63, 40, 4, 7, 8, 9, exact.numbers, exact.length, places, MELTSJUK_PLACES - 1, &k, &price)
             == MELTSJUK_LITTLE_LENT,
         "a chain chosen with few places");
    must(meltsjuk_place(parts, 2, shorter.numbers, shorter.length, &position) == MELTSJUK_LITTLE_LENT,
         "a chain placed with a short scratch");
    must(meltsjuk_read_tree(word, 4, shorter.numbers, shorter.length, places, MELTSJUK_PLACES, &n, &position, &k)
             == MELTSJUK_LITTLE_LENT,
         "a tree word read with a short scratch");
    must(meltsjuk_read_tree(word, 4, exact.numbers, exact.length, places, MELTSJUK_PLACES - 1, &n, &position, &k)
             == MELTSJUK_LITTLE_LENT,
         "a tree word read with few places");
    must(meltsjuk_write_tree(parts, 2, tree_places, MELTSJUK_TREE_PLACES - 1, &k) == MELTSJUK_LITTLE_LENT,
         "a tree word written with few places");
    must(meltsjuk_write_tree(parts, 0, tree_places, 0, &k) == MELTSJUK_LITTLE_LENT, "a tree word written with no places");
    must(is_left(shorter, 0) && is_left(exact, 0), "a scratch written although it was refused");
    must(are_untouched() && is_all(out, sizeof out, 0xFF), "memory written although it was refused");
    must(count == 7 && n == 7 && position == 7 && k == 7 && price == 7, "numbers written although they were refused");
    return unused;
}

/* The same of the two calls that ask for MELTSJUK_TABLE numbers. */
static void *too_little_table(void *unused)
{
    uint64_t count = 7, k = 7, price = 7;

    set_bits(short_table);
    set_bits(table);
    must(meltsjuk_count_up_to(19, 64, short_table.numbers, short_table.length, &count) == MELTSJUK_LITTLE_LENT,
         "a count up to 64 parts with a short table");
    must(meltsjuk_cheapest(19, 64, 63, 40, 4, 7, 2, 2, short_table.numbers, short_table.length, places, MELTSJUK_PLACES, &k, &price)
             == MELTSJUK_LITTLE_LENT,
         "a cheapest chain with a short table");
    must(meltsjuk_cheapest(19, 64, 63, 40, 4, 7, 2, 2, table.numbers, table.length, places, MELTSJUK_PLACES - 1, &k, &price)
             == MELTSJUK_LITTLE_LENT,
         "a cheapest chain with few places");
    must(is_left(short_table, 0) && is_left(table, 0) && are_untouched(), "memory written although too little is lent for a table");
    must(count == 7 && k == 7 && price == 7, "numbers written although too little is lent for a table");
    return unused;
}

/* Each call that is lent a scratch, served with this one. */
static void *served(void *scratch)
{
    const struct scratch s = *(const struct scratch *)scratch;
    const uint8_t line[18] = "010000000000000013";
    const uint8_t record[16] = "0402010200090000"; /* 18 = 2^1 * 3^2 */
    const uint16_t parts[2] = {9, 0}; /* 18 + 1 */
    uint64_t count = 7, position = 7, k = 7, price = 7;

    set_bits(s);
    must(meltsjuk_reply(line, 18, s.numbers, s.length, out, MELTSJUK_REPLY) == 18, "a reply with the count of 19");
    must(strcmp((const char *)out, "000000000000000004") == 0 && is_all(out + 18, MELTSJUK_REPLY - 18, 0), "what a reply leaves");
    must(is_left(s, MELTSJUK_SCRATCH), "what a reply leaves in the scratch");
    set_bits(s);
    must(meltsjuk_reply(record, 16, s.numbers, s.length, out, MELTSJUK_REPLY) == 48, "a reply to the record of 18 + 1");
    must(strcmp((const char *)out, "000000000000000013000000000000000302010200090000") == 0
             && is_all(out + 48, MELTSJUK_REPLY - 48, 0) && is_left(s, MELTSJUK_SCRATCH),
         "what a reply to a record leaves");
    set_bits(s);
    must(meltsjuk_count(19, s.numbers, s.length, &count) == MELTSJUK_SERVED && count == 4, "the count of 19");
    must(is_left(s, MELTSJUK_SCRATCH), "what a count leaves in the scratch");
    set_bits(s);
    must(meltsjuk_best(19, 64, 63, 40, 4, 7, 8, 9, s.numbers, s.length, places, MELTSJUK_PLACES, &position, &k, &price)
             == MELTSJUK_SERVED,
         "the best chain of 19");
    must(position == 3 && k == 2 && price == 27 && are_parts(places, parts, 2, 0),
         "what a best chain leaves"); /* the addition costs s3 = 9 */
    must(is_left(s, MELTSJUK_SCRATCH), "what a best chain leaves in the scratch");
    return NULL;
}

/* Choosing and placing, served with this scratch. The places may be more than are asked for. */
static void *served_apart(void *scratch)
{
    const struct scratch s = *(const struct scratch *)scratch;
    const uint16_t parts[2] = {9, 0}; /* 18 + 1 */
    uint64_t position = 7, k = 7, price = 7;

    set_bits(s);
    must(meltsjuk_choose(19, 64, 63, 40, 4, 7, 8, 9, s.numbers, s.length, more_places, MELTSJUK_PLACES + LATER, &k, &price)
             == MELTSJUK_SERVED,
         "the chain chosen for 19");
    must(k == 2 && price == 27 && are_parts(more_places, parts, 2, LATER) && is_left(s, MELTSJUK_SCRATCH), "what choosing leaves");
    set_bits(s);
    must(meltsjuk_place(parts, 2, s.numbers, s.length, &position) == MELTSJUK_SERVED && position == 3, "the position of 18 + 1");
    must(is_left(s, MELTSJUK_SCRATCH), "what placing leaves in the scratch");
    set_bits(s);
    must(meltsjuk_place(parts, 0, s.numbers, s.length, &position) == MELTSJUK_SERVED && position == 0, "the empty chain's position");
    must(is_left(s, MELTSJUK_SCRATCH), "what placing the empty chain leaves in the scratch");
    return NULL;
}

/* The two calls that ask for MELTSJUK_TABLE numbers, served with these. The places may be more than are asked for. */
static void *served_limited(void *scratch)
{
    static const uint64_t counts[6] = {0, 0, 1, 3, 4, 4}; /* 18 1; 16 2 1 and 12 6 1; 12 4 2 1 */
    static const uint16_t parts[2][3] = {{9, 0}, {7, 4, 0}}; /* 18 1 and 12 6 1 */
    const struct scratch s = *(const struct scratch *)scratch;
    uint64_t count = 7, k = 7, price = 7;

    for (uint8_t most = 0; most < 6; most++) {
        set_bits(s);
        must(meltsjuk_count_up_to(19, most, s.numbers, s.length, &count) == MELTSJUK_SERVED && count == counts[most],
             "the count of 19 up to some parts");
        must(is_left(s, MELTSJUK_TABLE), "what a count up to some parts leaves");
    }
    set_bits(s);
    must(meltsjuk_cheapest(19, 255, 255, 255, 4, 7, 2, 2, s.numbers, s.length, more_places, MELTSJUK_PLACES + LATER, &k, &price)
             == MELTSJUK_SERVED,
         "the cheapest chain of 19");
    must(k == 3 && price == 19 && are_parts(more_places, parts[1], 3, LATER) && is_left(s, MELTSJUK_TABLE),
         "what a cheapest chain leaves"); /* 18 + 1, the best, costs 20 */
    set_bits(s);
    must(meltsjuk_cheapest(19, 2, 63, 40, 4, 7, 2, 2, s.numbers, s.length, places, MELTSJUK_PLACES, &k, &price) == MELTSJUK_SERVED,
         "the cheapest chain of 19 with two parts");
    must(k == 2 && price == 20 && are_parts(places, parts[0], 2, 0) && is_left(s, MELTSJUK_TABLE),
         "what a cheapest chain of two parts leaves");
    set_bits(s);
    must(meltsjuk_cheapest(0, 0, 0, 0, 4, 7, 2, 2, s.numbers, s.length, places, MELTSJUK_PLACES, &k, &price) == MELTSJUK_SERVED,
         "the cheapest chain of 0");
    must(k == 0 && price == 0 && are_parts(places, parts[0], 0, 0) && is_left(s, MELTSJUK_TABLE), "what the empty chain leaves");
    set_bits(s);
    must(meltsjuk_cheapest(19, 1, 63, 40, 4, 7, 2, 2, s.numbers, s.length, places, MELTSJUK_PLACES, &k, &price) == MELTSJUK_NONE_FITS,
         "a cheapest chain of one part for 19");
    must(k == 0 && price == 0 && are_untouched() && is_left(s, MELTSJUK_TABLE), "what is left where no chain is within the limits");
    return NULL;
}

/* A record that is not placed, with this scratch: it is zeroed, and the position is as it was. */
static void place_refused(struct scratch s, const uint16_t *parts, size_t k, uint8_t refusal, const char *what)
{
    uint64_t position = 7;

    set_bits(s);
    must(meltsjuk_place(parts, k, s.numbers, s.length, &position) == refusal, what);
    must(is_left(s, MELTSJUK_SCRATCH) && position == 7, "what is left where a record is not placed");
}

/* What choosing and placing refuse, with this scratch: each record has the faults of the later ones too. */
static void *refused_apart(void *scratch)
{
    const struct scratch s = *(const struct scratch *)scratch;
    const uint16_t none[3] = {PARTS - 1, PARTS - 1, PARTS}, same[2] = {PARTS - 1, PARTS - 1};
    const uint16_t large[2] = {PARTS - 1, 0}; /* the largest part and 1 sum to less than 2^64 */
    uint16_t twos[2] = {0, 0};
    uint64_t position = 7, k = 7, price = 7;

    for (uint16_t i = 0; i < PARTS; i++) { /* 3 * 2^62 and 3 * 2^61 */
        if (parts_by_number[i].value == (uint64_t)3 << 62)
            twos[0] = i;
        if (parts_by_number[i].value == (uint64_t)3 << 61)
            twos[1] = i;
    }
    set_bits(s);
    must(meltsjuk_choose(5, 1, 63, 40, 4, 7, 8, 9, s.numbers, s.length, places, MELTSJUK_PLACES, &k, &price) == MELTSJUK_NONE_FITS,
         "a chain of one part chosen for 5");
    must(is_left(s, MELTSJUK_SCRATCH) && are_untouched() && k == 7 && price == 7, "what is left where none is chosen");
    place_refused(s, none, 3, MELTSJUK_NO_PART, "a number that no part has, placed");
    place_refused(s, same, 2, MELTSJUK_NO_CHAIN, "a part twice, placed");
    place_refused(s, twos, 2, MELTSJUK_LARGE_SUM, "3 * 2^62 and 3 * 2^61, placed");
    must(meltsjuk_place(large, 2, s.numbers, s.length, &position) == MELTSJUK_SERVED, "the largest part and 1, placed");
    return NULL;
}

/* A tree word with its chain. */
struct tree {
    const uint8_t *word;
    size_t length;
    uint64_t n, position;
    const uint16_t *parts;
    size_t k;
};

/* Reads the tree word with this scratch and so many later places, and writes it again. */
static void tree_both_ways(struct scratch s, struct tree t, size_t later)
{
    uint16_t *for_parts = later > 0 ? more_places : places;
    uint8_t *for_letters = later > 0 ? more_tree_places : tree_places;
    uint64_t n = 7, position = 7, k = 7, length = 7;

    set_bits(s);
    must(meltsjuk_read_tree(t.word, t.length, s.numbers, s.length, for_parts, MELTSJUK_PLACES + later, &n, &position, &k)
             == MELTSJUK_SERVED,
         "a tree word is not read");
    must(n == t.n && position == t.position && k == t.k, "what the reading of a tree word tells");
    must(are_parts(for_parts, t.parts, t.k, later), "what the reading of a tree word leaves");
    must(is_left(s, MELTSJUK_SCRATCH), "what the reading of a tree word leaves in the scratch");
    must(meltsjuk_write_tree(t.parts, t.k, for_letters, MELTSJUK_TREE_PLACES + later, &length) == MELTSJUK_SERVED,
         "a tree word is not written");
    must(length == t.length && are_letters(for_letters, t.word, t.length, later), "what the writing of a tree word leaves");
}

/* Tree words, with this scratch: the four of 19, the empty one, and the longest there is. */
static void *served_trees(void *scratch)
{
    static const uint8_t words[4][7] = {{1, 1, 1, 2, 2, 2, 2}, {1, 1, 1, 2, 2, 1, 3}, {1, 3, 1, 1, 2, 2}, {1, 3, 3, 2}};
    static const uint16_t parts[4][4] = {{8, 1, 0}, {7, 3, 1, 0}, {7, 4, 0}, {9, 0}}; /* 16 2 1, 12 4 2 1, 12 6 1, 18 1 */
    const struct scratch s = *(const struct scratch *)scratch;
    uint16_t powers[MELTSJUK_PLACES];
    uint8_t longest[157] = {1, 2};
    uint64_t position = 7, k = 7, price = 7;

    must(meltsjuk_best(UINT64_MAX, 64, 63, 0, 0, 0, 0, 0, s.numbers, s.length, powers, MELTSJUK_PLACES, &position, &k, &price)
                 == MELTSJUK_SERVED
             && k == 64,
         "the binary chain of 2^64 - 1");
    for (size_t i = 0; i < 155; i++)
        longest[2 + i] = words[0][i % 5]; /* 11122 again and again */

    const struct tree trees[6] = {
        {words[0], 7, 19, 0, parts[0], 3},
        {words[1], 7, 19, 1, parts[1], 4},
        {words[2], 6, 19, 2, parts[2], 3},
        {words[3], 4, 19, 3, parts[3], 2},
        {words[0], 0, 1, 0, parts[0] + 2, 1},
        {longest, 157, UINT64_MAX, position, powers, 64},
    };

    for (size_t i = 0; i < 6; i++) {
        tree_both_ways(s, trees[i], 0);
        tree_both_ways(s, trees[i], LATER);
    }
    return NULL;
}

/* A line of no kind, a record with a and b of another part, and limits that no chain is within, with this scratch: it is zeroed as
 * where they are served. */
static void *refused(void *scratch)
{
    const struct scratch s = *(const struct scratch *)scratch;
    const uint8_t record[16] = "0402020100090000"; /* 18 = 2^1 * 3^2, and 12 = 2^2 * 3^1 */
    uint64_t position = 7, k = 7, price = 7;

    set_bits(s);
    must(meltsjuk_reply((const uint8_t *)"7F", 2, s.numbers, s.length, out, MELTSJUK_REPLY) == 2, "a reply to a line of no kind");
    must(strcmp((const char *)out, "04") == 0 && is_left(s, MELTSJUK_SCRATCH), "what is left where a line is refused");
    set_bits(s);
    must(meltsjuk_reply(record, 16, s.numbers, s.length, out, MELTSJUK_REPLY) == 2, "a reply to a record with a and b of 12");
    must(strcmp((const char *)out, "10") == 0 && is_all(out + 2, MELTSJUK_REPLY - 2, 0) && is_left(s, MELTSJUK_SCRATCH),
         "what is left where a record is refused");
    set_bits(s);
    must(meltsjuk_best(5, 1, 63, 40, 4, 7, 8, 9, s.numbers, s.length, places, MELTSJUK_PLACES, &position, &k, &price)
             == MELTSJUK_NONE_FITS,
         "a chain of one part for 5");
    must(is_left(s, MELTSJUK_SCRATCH) && are_untouched(), "what is left where none fits");
    must(position == 7 && k == 7 && price == 7, "numbers written although none fits");
    return NULL;
}

/* Letters that are refused, with this scratch: it is zeroed, and the places and the three numbers are as they were. */
static void tree_refused(struct scratch s, const uint8_t *word, size_t length, uint8_t refusal, const char *what)
{
    uint64_t n = 7, position = 7, k = 7;

    set_bits(s);
    must(meltsjuk_read_tree(word, length, s.numbers, s.length, more_places, MELTSJUK_PLACES + LATER, &n, &position, &k) == refusal,
         what);
    must(is_left(s, MELTSJUK_SCRATCH) && are_untouched() && n == 7 && position == 7 && k == 7,
         "what is left where a tree word is not read");
}

/* Each refusal of a tree word that is read, in the order in which the service looks for them. The first words have the faults of
 * the later ones too, and get the first refusal. */
static void *refused_trees(void *scratch)
{
    const struct scratch s = *(const struct scratch *)scratch;
    uint8_t word[69], long_word[300]; /* a line carries at most 255 letters */

    memset(word, 1, 4);
    memset(word + 4, 2, 64);
    word[68] = 4;
    tree_refused(s, word, 69, MELTSJUK_NO_TREE_WORD, "a tree word with a letter 4");
    word[68] = 0;
    tree_refused(s, word, 69, MELTSJUK_NO_TREE_WORD, "a tree word with a letter 0");
    tree_refused(s, word, 68, MELTSJUK_LARGE_SUM, "a tree word of 2^64 + 4, which would begin with 2");
    tree_refused(s, word + 4, 64, MELTSJUK_LARGE_SUM, "a tree word of 2^64");
    tree_refused(s, word, 67, MELTSJUK_NO_TREE_WORD, "a tree word of 2^63 + 4 that begins with 1111");
    tree_refused(s, word, 2, MELTSJUK_NO_TREE_WORD, "the letters 11; the words of 3 are 3 and 12");
    memset(long_word, 1, sizeof long_word);
    tree_refused(s, long_word, sizeof long_word, MELTSJUK_NO_TREE_WORD, "300 letters 1");
    memset(long_word, 2, sizeof long_word);
    tree_refused(s, long_word, sizeof long_word, MELTSJUK_LARGE_SUM, "300 letters 2");
    return NULL;
}

/* Each refusal of a tree word that is written, likewise. The places and the length are as they were. */
static void *refused_writings(void *unused)
{
    const uint16_t bad[4] = {1327, 1286, 1327, 1344}; /* 3 * 2^62, 3 * 2^61, 3 * 2^62, and no part's number */
    const uint16_t many[65] = {0};
    uint64_t k = 7;

    set_bits(exact);
    must(meltsjuk_write_tree(bad, 4, more_tree_places, MELTSJUK_TREE_PLACES + LATER, &k) == MELTSJUK_NO_PART,
         "a tree word of a part number 1344");
    must(meltsjuk_write_tree(many, 65, more_tree_places, MELTSJUK_TREE_PLACES + LATER, &k) == MELTSJUK_NO_PART,
         "a tree word of 65 parts");
    must(meltsjuk_write_tree(bad, 3, more_tree_places, MELTSJUK_TREE_PLACES + LATER, &k) == MELTSJUK_NO_CHAIN,
         "a tree word of parts that are no chain");
    must(meltsjuk_write_tree(bad, 2, more_tree_places, MELTSJUK_TREE_PLACES + LATER, &k) == MELTSJUK_LARGE_SUM,
         "a tree word of parts with too large a sum");
    must(meltsjuk_write_tree(bad, 0, more_tree_places, MELTSJUK_TREE_PLACES + LATER, &k) == MELTSJUK_NO_TREE_WORD,
         "a tree word of the empty chain");
    must(k == 7 && are_untouched(), "what is left where a tree word is not written");
    return unused;
}

/* Each refusal of a run, in the order in which the service looks for them. Each call has the faults of the calls after it too, and
 * gets the first refusal. The residue is as it was. */
static void *refused_runs(void *unused)
{
    const uint16_t bad[4] = {1327, 1286, 1327, 1344}; /* 3 * 2^62, 3 * 2^61, 3 * 2^62, and no part's number */
    const uint64_t most = UINT64_C(1) << 63;
    uint64_t residue = 7;

    must(meltsjuk_run(bad, 4, 0, 0, &residue) == MELTSJUK_BAD_MODULUS, "a run modulo 0");
    must(meltsjuk_run(bad, 4, most + 1, most + 1, &residue) == MELTSJUK_BAD_MODULUS, "a run modulo 2^63 + 1");
    must(meltsjuk_run(bad, 4, most, most, &residue) == MELTSJUK_NO_RESIDUE, "a run on an x that is m");
    must(meltsjuk_run(bad, 4, most, most - 1, &residue) == MELTSJUK_NO_PART, "a run of a part number 1344");
    must(meltsjuk_run(bad, 3, most, most - 1, &residue) == MELTSJUK_NO_CHAIN, "a run of parts that are no chain");
    must(meltsjuk_run(bad, 2, most, most - 1, &residue) == MELTSJUK_LARGE_SUM, "a run of parts with too large a sum");
    must(residue == 7, "a residue written although the run was refused");
    must(meltsjuk_run(bad, 0, most, most - 1, &residue) == MELTSJUK_SERVED && residue == 0, "a run of the empty chain");
    return unused;
}

/* ---- the bench */

/* Where the numbers of a bench stand: 41 for each state, n, and for each name whether it was saved. */
#define ROWS 41
#define STATE(name) (ROWS + ROWS * (name))
#define N 369
#define SAVED(name) (370 + (name))

/* Whether the bench with so many numbers more tells this chain of n, and whether these later numbers have all bits set. */
static int is_told(const uint64_t *b, size_t later, uint64_t n, const uint16_t *parts, size_t k)
{
    uint64_t told = 7, length = 7;

    memset(more_places, 0xFF, (MELTSJUK_PLACES + LATER) * sizeof *more_places);
    return meltsjuk_tell(b, MELTSJUK_BENCH + later, more_places, MELTSJUK_PLACES + LATER, &told, &length) == MELTSJUK_SERVED
           && told == n && length == k && are_parts(more_places, parts, k, LATER)
           && is_all(b + MELTSJUK_BENCH, later * sizeof *b, 0xFF);
}

/* A bench on 18 + 1, with so many numbers more: a move, a name saved, the walk, and back. */
static void use_bench(uint64_t *b, size_t later)
{
    static const uint16_t chains[4][4] = {{9, 0}, {7, 4, 0}, {7, 3, 1, 0}, {8, 1, 0}}; /* 18 1, 12 6 1, 12 4 2 1, 16 2 1 */
    const size_t length = MELTSJUK_BENCH + later;
    uint64_t moves = 7, k = 7;

    memset(b, 0xFF, length * sizeof *b);
    must(meltsjuk_open_bench(chains[0], 2, b, length) == MELTSJUK_SERVED, "a bench on 18 + 1");
    must(b[0] == 1 && b[1] == 0 && b[2] == 2 && b[N] == 19, "the rows and the number of a bench");
    must(is_all(b + 3, (N - 3) * sizeof *b, 0) && is_all(b + SAVED(0), MELTSJUK_NAMES * sizeof *b, 0), "the rest of an open bench");
    must(is_told(b, later, 19, chains[0], 2), "18 + 1 on a bench");
    must(meltsjuk_move(b, length, 1, false, 1) == MELTSJUK_SERVED && is_told(b, later, 19, chains[1], 3), "18 becomes 12 + 6");
    must(meltsjuk_save(b, length, 7) == MELTSJUK_SERVED && is_told(b, later, 19, chains[1], 3), "a chain saved");
    must(meltsjuk_move(b, length, 1, true, 1) == MELTSJUK_SERVED && is_told(b, later, 19, chains[0], 2), "12 + 6 becomes 18");
    must(meltsjuk_walk(b, length, &moves, &k) == MELTSJUK_SERVED && moves == 3 && k == 3, "the walk from 18 + 1");
    must(is_told(b, later, 19, chains[3], 3), "the binary chain of 19");
    must(meltsjuk_move(b, length, 2, true, 0) == MELTSJUK_SERVED && is_told(b, later, 19, chains[2], 4), "16 becomes 12 + 4");
    must(meltsjuk_move(b, length, 2, false, 0) == MELTSJUK_SERVED && is_told(b, later, 19, chains[3], 3), "12 + 4 becomes 16");
    must(meltsjuk_come_back(b, length, 7) == MELTSJUK_SERVED && is_told(b, later, 19, chains[1], 3), "a chain come back to");
    must(meltsjuk_walk(b, length, &moves, &k) == MELTSJUK_SERVED && moves == 2 && k == 3, "the walk from 12 + 6 + 1");
    must(meltsjuk_save(b, length, 7) == MELTSJUK_SERVED && meltsjuk_save(b, length, 0) == MELTSJUK_SERVED, "chains saved");
    must(is_all(b + STATE(1), 6 * ROWS * sizeof *b, 0) && b[STATE(0)] == 19 && b[STATE(7)] == 19, "what names hold");
}

/* A bench on the empty chain, and one on 3^40, the longest walk from a chain of one part. */
static void use_ends(void)
{
    const uint16_t power[1] = {1320}; /* 3^40 */
    uint64_t moves = 7, k = 7;

    must(meltsjuk_open_bench(power, 0, bench, MELTSJUK_BENCH) == MELTSJUK_SERVED && is_told(bench, 0, 0, power, 0),
         "a bench on the empty chain");
    must(meltsjuk_walk(bench, MELTSJUK_BENCH, &moves, &k) == MELTSJUK_SERVED && moves == 0 && k == 0, "the walk from no parts");
    must(meltsjuk_move(bench, MELTSJUK_BENCH, 1, true, 0) == MELTSJUK_NO_MOVE, "a move of no parts");
    must(meltsjuk_open_bench(power, 1, bench, MELTSJUK_BENCH) == MELTSJUK_SERVED, "a bench on 3^40");
    must(bench[40] == 1 && bench[N] == UINT64_C(12157665459056928801), "the row and the number of 3^40");
    must(meltsjuk_walk(bench, MELTSJUK_BENCH, &moves, &k) == MELTSJUK_SERVED && moves == 453 && k == 28, "the walk from 3^40");
    must(bench[0] == bench[N] && is_all(bench + 1, (ROWS - 1) * sizeof *bench, 0), "the binary chain of 3^40");
}

static void *served_benches(void *unused)
{
    use_bench(bench, 0);
    use_bench(more_bench, LATER);
    use_ends();
    return unused;
}

/* What each of the five calls answers on the bench as it stands. The bench, the places and the numbers must be as they were. */
static void all_refuse(uint8_t refusal, const char *what)
{
    uint64_t was[MELTSJUK_BENCH], n = 7, moves = 7, k = 7;

    memcpy(was, bench, sizeof was);
    memset(places, 0xFF, MELTSJUK_PLACES * sizeof *places);
    must(meltsjuk_move(bench, MELTSJUK_BENCH, 1, false, 1) == refusal, what);
    must(meltsjuk_save(bench, MELTSJUK_BENCH, 8) == refusal, what);
    must(meltsjuk_come_back(bench, MELTSJUK_BENCH, 8) == refusal, what);
    must(meltsjuk_walk(bench, MELTSJUK_BENCH, &moves, &k) == refusal, what);
    must(meltsjuk_tell(bench, MELTSJUK_BENCH, places, MELTSJUK_PLACES, &n, &k) == refusal, what);
    must(memcmp(was, bench, sizeof was) == 0 && n == 7 && moves == 7 && k == 7, "a bench written although it was refused");
    must(is_all(places, MELTSJUK_PLACES * sizeof *places, 0xFF), "places written although the bench was refused");
}

/* One number or place less than is asked for. */
static void too_small_bench(void)
{
    const uint16_t parts[2] = {9, 0}; /* 18 + 1 */
    uint64_t n = 7, moves = 7, k = 7;

    memset(short_bench, 0xFF, (MELTSJUK_BENCH - 1) * sizeof *short_bench);
    memset(places, 0xFF, MELTSJUK_PLACES * sizeof *places);
    must(meltsjuk_open_bench(parts, 2, short_bench, MELTSJUK_BENCH - 1) == MELTSJUK_LITTLE_LENT
             && meltsjuk_move(short_bench, MELTSJUK_BENCH - 1, 1, false, 1) == MELTSJUK_LITTLE_LENT
             && meltsjuk_save(short_bench, MELTSJUK_BENCH - 1, 8) == MELTSJUK_LITTLE_LENT
             && meltsjuk_come_back(short_bench, MELTSJUK_BENCH - 1, 8) == MELTSJUK_LITTLE_LENT
             && meltsjuk_walk(short_bench, MELTSJUK_BENCH - 1, &moves, &k) == MELTSJUK_LITTLE_LENT
             && meltsjuk_tell(short_bench, MELTSJUK_BENCH - 1, places, MELTSJUK_PLACES, &n, &k) == MELTSJUK_LITTLE_LENT
             && meltsjuk_tell(bench, MELTSJUK_BENCH, places, MELTSJUK_PLACES - 1, &n, &k) == MELTSJUK_LITTLE_LENT,
         "a bench or places of too little memory");
    must(is_all(short_bench, (MELTSJUK_BENCH - 1) * sizeof *short_bench, 0xFF) && n == 7 && moves == 7 && k == 7
             && is_all(places, MELTSJUK_PLACES * sizeof *places, 0xFF),
         "memory written although too little is lent for a bench");
}

/* Benches that are too small, that are not opened because the record is bad, or that were never opened. */
static void *unopened_benches(void *unused)
{
    const uint16_t bad[4] = {1327, 1286, 1327, 1344}; /* 3 * 2^62, 3 * 2^61, 3 * 2^62, and no part's number */

    memset(bench, 0xFF, MELTSJUK_BENCH * sizeof *bench);
    too_small_bench();
    must(meltsjuk_open_bench(bad, 4, bench, MELTSJUK_BENCH) == MELTSJUK_NO_PART, "a bench on a part number 1344");
    must(meltsjuk_open_bench(bad, 3, bench, MELTSJUK_BENCH) == MELTSJUK_NO_CHAIN, "a bench on parts that are no chain");
    must(meltsjuk_open_bench(bad, 2, bench, MELTSJUK_BENCH) == MELTSJUK_LARGE_SUM, "a bench on parts with too large a sum");
    must(is_all(bench, MELTSJUK_BENCH * sizeof *bench, 0xFF), "a bench written although it was not opened");
    all_refuse(MELTSJUK_NO_MOVE, "a bench of ones");
    return unused;
}

/* A bench on 18 + 1, which stays open for the next: moves and names that are refused. */
static void *refused_calls(void *unused)
{
    const uint16_t parts[2] = {9, 0}; /* 18 + 1 */
    uint64_t was[MELTSJUK_BENCH];

    must(meltsjuk_open_bench(parts, 2, bench, MELTSJUK_BENCH) == MELTSJUK_SERVED, "a bench on 18 + 1");
    bench[STATE(3)] = 19; /* a name never saved may hold anything */
    memcpy(was, bench, sizeof was);
    must(meltsjuk_save(bench, MELTSJUK_BENCH, 8) == MELTSJUK_NO_NAME
             && meltsjuk_save(bench, MELTSJUK_BENCH, 255) == MELTSJUK_NO_NAME
             && meltsjuk_come_back(bench, MELTSJUK_BENCH, 8) == MELTSJUK_NO_NAME
             && meltsjuk_come_back(bench, MELTSJUK_BENCH, 3) == MELTSJUK_NO_NAME,
         "names that are not there");
    must(meltsjuk_move(bench, MELTSJUK_BENCH, 2, false, 1) == MELTSJUK_NO_MOVE, "a move of the other kind");
    must(meltsjuk_move(bench, MELTSJUK_BENCH, 1, true, 1) == MELTSJUK_NO_MOVE, "a move the other way");
    must(meltsjuk_move(bench, MELTSJUK_BENCH, 1, false, 0) == MELTSJUK_NO_MOVE, "a move at another row");
    must(meltsjuk_move(bench, MELTSJUK_BENCH, 0, false, 1) == MELTSJUK_NO_MOVE
             && meltsjuk_move(bench, MELTSJUK_BENCH, 3, false, 1) == MELTSJUK_NO_MOVE,
         "a move of no kind");
    for (unsigned row = 39; row < 256; row++)
        for (unsigned way = 0; way < 4; way++)
            must(meltsjuk_move(bench, MELTSJUK_BENCH, (uint8_t)(1 + way / 2), way % 2, (uint8_t)row) == MELTSJUK_NO_MOVE,
                 "a move at the highest row or above");
    must(memcmp(was, bench, sizeof was) == 0, "a bench written although the call was refused");
    return unused;
}

/* The same bench, spoiled. */
static void *spoiled_benches(void *unused)
{
    bench[SAVED(3)] = 2; /* the saved chain is 19 in binary: now it counts, and it is one of 19 */
    must(meltsjuk_come_back(bench, MELTSJUK_BENCH, 3) == MELTSJUK_SERVED && bench[0] == 19, "a name marked with 2");
    bench[STATE(3)] = 18;
    all_refuse(MELTSJUK_NO_MOVE, "a saved chain of another number");
    bench[STATE(3)] = 16;
    bench[STATE(3) + 1] = 1; /* 16 + 3: no chain */
    all_refuse(MELTSJUK_NO_MOVE, "saved parts that are no chain");
    bench[SAVED(3)] = 0;
    bench[N] = 18;
    all_refuse(MELTSJUK_NO_MOVE, "a bench whose n is another");
    return unused;
}

/* ---- lines and calls */

/* A line, and what the call for it answers. */
struct request {
    const char *line;
    size_t length;
    struct scratch scratch;
    uint64_t digits, count, n, position, k, price, residue;
    size_t items; /* how many part numbers or letters the line has */
    uint8_t status;
};

/* The value of `bytes` bytes of a line, from byte `at` on. */
static uint64_t field(const char *line, size_t at, size_t bytes)
{
    char digits[17] = {0};

    memcpy(digits, line + 2 * at, 2 * bytes);
    return strtoull(digits, NULL, 16);
}

static void *call_reply(void *request)
{
    struct request *r = request;

    r->digits = meltsjuk_reply((const uint8_t *)r->line, r->length, r->scratch.numbers, r->scratch.length, out, MELTSJUK_REPLY);
    return NULL;
}

static void *call_count(void *request)
{
    struct request *r = request;

    r->status = meltsjuk_count(field(r->line, 1, 8), r->scratch.numbers, r->scratch.length, &r->count);
    return NULL;
}

static void *call_best(void *request)
{
    struct request *r = request;

    r->status = meltsjuk_best(field(r->line, 1, 8), (uint8_t)field(r->line, 9, 1), (uint8_t)field(r->line, 10, 1),
                              (uint8_t)field(r->line, 11, 1), (uint16_t)field(r->line, 12, 2), (uint16_t)field(r->line, 14, 2),
                              (uint16_t)field(r->line, 16, 2), (uint16_t)field(r->line, 18, 2), r->scratch.numbers,
                              r->scratch.length, places, MELTSJUK_PLACES, &r->position, &r->k, &r->price);
    return NULL;
}

static void *call_choose(void *request)
{
    struct request *r = request;

    r->status = meltsjuk_choose(field(r->line, 1, 8), (uint8_t)field(r->line, 9, 1), (uint8_t)field(r->line, 10, 1),
                                (uint8_t)field(r->line, 11, 1), (uint16_t)field(r->line, 12, 2), (uint16_t)field(r->line, 14, 2),
                                (uint16_t)field(r->line, 16, 2), (uint16_t)field(r->line, 18, 2), r->scratch.numbers,
                                r->scratch.length, places, MELTSJUK_PLACES, &r->k, &r->price);
    return NULL;
}

static void *call_count_up_to(void *request)
{
    struct request *r = request;

    r->status = meltsjuk_count_up_to(field(r->line, 1, 8), (uint8_t)field(r->line, 9, 1), r->scratch.numbers, r->scratch.length,
                                     &r->count);
    return NULL;
}

static void *call_cheapest(void *request)
{
    struct request *r = request;

    r->status = meltsjuk_cheapest(field(r->line, 1, 8), (uint8_t)field(r->line, 9, 1), (uint8_t)field(r->line, 10, 1),
                                  (uint8_t)field(r->line, 11, 1), (uint16_t)field(r->line, 12, 2), (uint16_t)field(r->line, 14, 2),
                                  (uint16_t)field(r->line, 16, 2), (uint16_t)field(r->line, 18, 2), r->scratch.numbers,
                                  r->scratch.length, places, MELTSJUK_PLACES, &r->k, &r->price);
    return NULL;
}

/* The part numbers that were taken from the line or left in the places. */
static void *call_place(void *request)
{
    struct request *r = request;

    r->status = meltsjuk_place(numbers, r->items, r->scratch.numbers, r->scratch.length, &r->position);
    return NULL;
}

static void *call_run(void *request)
{
    struct request *r = request;

    r->status = meltsjuk_run(numbers, r->items, field(r->line, 1, 8), field(r->line, 9, 8), &r->residue);
    return NULL;
}

static void *call_read_tree(void *request)
{
    struct request *r = request;

    r->status = meltsjuk_read_tree(letters, r->items, r->scratch.numbers, r->scratch.length, places, MELTSJUK_PLACES, &r->n,
                                   &r->position, &r->k);
    return NULL;
}

static void *call_write_tree(void *request)
{
    struct request *r = request;

    r->status = meltsjuk_write_tree(numbers, r->items, tree_places, MELTSJUK_TREE_PLACES, &r->k);
    return NULL;
}

/* Makes a call that leaves so many zeros in the scratch that it is lent. */
static void with_zeros(void *(*call)(void *), struct request *r, size_t zeros)
{
    set_bits(r->scratch);
    on_small_stack(call, r);
    must(is_left(r->scratch, zeros), "a scratch is not left as it should be");
}

static void with_scratch(void *(*call)(void *), struct request *r)
{
    with_zeros(call, r, MELTSJUK_SCRATCH);
}

static void reply_by_count(struct request *r)
{
    with_scratch(call_count, r);
    must(r->status == MELTSJUK_SERVED, "a count is refused");
    printf("00%016" PRIX64 "\n", r->count);
}

/* Writes the chain in the places as replies have it: n, position, k, a and b of the largest part, the part numbers. */
static void print_chain(uint64_t n, const struct request *r)
{
    struct part largest = {0, 0, 0};

    if (r->k > 0) {
        must(places[0] < PARTS, "a number that no part has");
        largest = parts_by_number[places[0]];
    }
    printf("%016" PRIX64 "%016" PRIX64 "%02X%02X%02X", n, r->position, (unsigned)r->k, largest.a, largest.b);
    for (uint64_t i = 0; i < r->k; i++)
        printf("%04X", places[i]);
}

/* Choosing, and placing what it left in the places, tell what the best chain told, and leave the same in the places. */
static void must_be_chosen(const struct request *best)
{
    struct request r = *best;
    uint16_t before[MELTSJUK_PLACES];

    memcpy(before, places, sizeof before);
    r.position = r.k = r.price = UINT64_MAX;
    with_scratch(call_choose, &r);
    must(r.status == best->status && memcmp(before, places, sizeof before) == 0, "another chain is chosen than is best");
    if (r.status != MELTSJUK_SERVED) {
        must((r.k & r.price) == UINT64_MAX, "numbers written although none is chosen");
        return;
    }
    r.items = (size_t)r.k;
    memcpy(numbers, places, r.items * sizeof *numbers);
    with_scratch(call_place, &r);
    must(r.status == MELTSJUK_SERVED && r.position == best->position && r.k == best->k && r.price == best->price,
         "choosing and placing tell something else than the best chain");
}

static void reply_by_best(struct request *r)
{
    with_scratch(call_best, r);
    printf("%02X", r->status);
    if (r->status == MELTSJUK_SERVED) {
        print_chain(field(r->line, 1, 8), r);
        printf("%08" PRIX64, r->price);
    }
    printf("\n");
    must_be_chosen(r);
}

/* Takes the part numbers of a line; byte `at` says how many they are, and a and b come between. */
static void take_numbers(struct request *r, size_t at)
{
    r->items = (size_t)field(r->line, at, 1);
    for (size_t i = 0; i < r->items; i++)
        numbers[i] = (uint16_t)field(r->line, at + 3 + 2 * i, 2);
}

/* A record by placing: the number that its parts sum to is summed here. */
static void reply_by_place(struct request *r)
{
    uint64_t n = 0;

    take_numbers(r, 1);
    r->position = UINT64_MAX;
    with_scratch(call_place, r);
    printf("%02X", r->status);
    if (r->status == MELTSJUK_SERVED) {
        for (size_t i = 0; i < r->items; i++) {
            places[i] = numbers[i];
            n += parts_by_number[numbers[i]].value;
        }
        r->k = r->items;
        print_chain(n, r);
    } else {
        must(r->position == UINT64_MAX, "a position written although the record was refused");
    }
    printf("\n");
}

static void reply_by_run(struct request *r)
{
    take_numbers(r, 17);
    r->residue = UINT64_MAX;
    on_small_stack(call_run, r);
    printf("%02X", r->status);
    if (r->status == MELTSJUK_SERVED)
        printf("%016" PRIX64, r->residue);
    else
        must(r->residue == UINT64_MAX, "a residue written although the line was refused");
    printf("\n");
}

static void reply_by_read_tree(struct request *r)
{
    r->items = (size_t)field(r->line, 1, 1);
    for (size_t i = 0; i < r->items; i++)
        letters[i] = (uint8_t)field(r->line, 2 + i, 1);
    r->n = r->position = r->k = UINT64_MAX;
    with_scratch(call_read_tree, r);
    printf("%02X", r->status);
    if (r->status == MELTSJUK_SERVED) {
        must(r->k <= MELTSJUK_PLACES && are_parts(places, places, (size_t)r->k, 0), "no zeros after the parts of a tree word");
        print_chain(r->n, r);
    } else {
        must((r->n & r->position & r->k) == UINT64_MAX && are_untouched(), "something written although the line was refused");
    }
    printf("\n");
}

static void reply_by_write_tree(struct request *r)
{
    take_numbers(r, 1);
    r->k = UINT64_MAX;
    memset(tree_places, 0xFF, MELTSJUK_TREE_PLACES);
    on_small_stack(call_write_tree, r);
    printf("%02X", r->status);
    if (r->status == MELTSJUK_SERVED) {
        must(r->k <= MELTSJUK_TREE_PLACES && are_letters(tree_places, tree_places, (size_t)r->k, 0), "no zeros after a tree word");
        printf("%02X", (unsigned)r->k);
        for (uint64_t i = 0; i < r->k; i++)
            printf("%02X", tree_places[i]);
    } else {
        must(r->k == UINT64_MAX && is_all(tree_places, MELTSJUK_TREE_PLACES, 0xFF), "letters written although it was refused");
    }
    printf("\n");
}

static void reply_by_call(struct request *r)
{
    if (r->length == 18 && strncmp(r->line, "01", 2) == 0)
        reply_by_count(r);
    else if (r->length == 40 && strncmp(r->line, "02", 2) == 0)
        reply_by_best(r);
    else if (r->length >= 8 && r->length == 8 + 4 * field(r->line, 1, 1) && strncmp(r->line, "04", 2) == 0)
        reply_by_place(r);
    else if (r->length >= 40 && r->length == 40 + 4 * field(r->line, 17, 1) && strncmp(r->line, "07", 2) == 0)
        reply_by_run(r);
    else if (r->length >= 4 && r->length == 4 + 2 * field(r->line, 1, 1) && strncmp(r->line, "08", 2) == 0)
        reply_by_read_tree(r);
    else if (r->length >= 8 && r->length == 8 + 4 * field(r->line, 1, 1) && strncmp(r->line, "09", 2) == 0)
        reply_by_write_tree(r);
    else
        must(0, "a line that no call serves");
}

static void tell_count_up_to(struct request *r)
{
    with_zeros(call_count_up_to, r, MELTSJUK_TABLE);
    must(r->status == MELTSJUK_SERVED && are_untouched(), "a count up to some parts is refused");
    printf("00%016" PRIX64 "\n", r->count);
}

static void tell_cheapest(struct request *r)
{
    r->k = r->price = UINT64_MAX;
    with_zeros(call_cheapest, r, MELTSJUK_TABLE);
    printf("%02X", r->status);
    if (r->status == MELTSJUK_SERVED) {
        must(r->k <= MELTSJUK_PLACES && are_parts(places, places, (size_t)r->k, 0), "no zeros after the parts of a cheapest chain");
        printf("%02X", (unsigned)r->k);
        for (uint64_t i = 0; i < r->k; i++)
            printf("%04X", places[i]);
        printf("%08" PRIX64, r->price);
    } else {
        must((r->k & r->price) == UINT64_MAX && are_untouched(), "something written although no chain is within the limits");
    }
    printf("\n");
}

static void tell_limited(struct request *r)
{
    if (r->length == 20 && strncmp(r->line, "01", 2) == 0)
        tell_count_up_to(r);
    else if (r->length == 40 && strncmp(r->line, "02", 2) == 0)
        tell_cheapest(r);
    else
        must(0, "a line that neither call serves");
}

static void reply_by_line(struct request *r)
{
    with_scratch(call_reply, r);
    must(r->digits != MELTSJUK_LITTLE_LENT, "a line gets no reply");
    fwrite(out, 1, (size_t)r->digits, stdout);
    putchar('\n');
}

static void with_each_scratch(void)
{
    struct scratch each[3] = {exact, longer, large};

    for (size_t i = 0; i < 3; i++) {
        on_small_stack(served, &each[i]);
        on_small_stack(served_apart, &each[i]);
        on_small_stack(served_trees, &each[i]);
        on_small_stack(refused, &each[i]);
        on_small_stack(refused_apart, &each[i]);
        on_small_stack(refused_trees, &each[i]);
    }
    on_small_stack(served_limited, &table);
    on_small_stack(served_limited, &long_table);
}

int main(int argc, char **argv)
{
    int calls = argc > 1 && strcmp(argv[1], "calls") == 0;
    int limited = argc > 1 && strcmp(argv[1], "limited") == 0;
    char *line = NULL;
    size_t room = 0;
    uint64_t lines = 0;
    ssize_t got;

    make_small();
    make_memory();
    make_parts();
    while ((got = getline(&line, &room, stdin)) > 0) {
        struct request r = {.line = line, .length = (size_t)got, .scratch = limited ? table_for(lines) : scratch_for(lines)};

        lines++;
        if (line[r.length - 1] == '\n')
            r.length--;
        if (limited)
            tell_limited(&r);
        else if (calls)
            reply_by_call(&r);
        else
            reply_by_line(&r);
    }
    free(line);
    on_small_stack(too_little, NULL);
    on_small_stack(too_little_table, NULL);
    with_each_scratch();
    on_small_stack(refused_runs, NULL);
    on_small_stack(refused_writings, NULL);
    on_small_stack(served_benches, NULL);
    on_small_stack(unopened_benches, NULL);
    on_small_stack(refused_calls, NULL);
    on_small_stack(spoiled_benches, NULL);
    must(!ferror(stdin) && fflush(stdout) == 0, "reading or writing failed");
    return 0;
}
