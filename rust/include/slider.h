/* Which squares a rook or a bishop attacks: the C interface of the proved library libslider.a (x86-64).
 *
 * rust/library proves it and writes target/staticlib/libslider.a. The line to copy, from the repository's folder:
 *     cc -O2 -Irust/include rust/examples/attacks.c target/staticlib/libslider.a -o attacks
 *
 * Board: a square is 0 (a1) to 63 (h8), h1 is 7, a8 is 56. A set of squares is a uint64_t: bit s is square s.
 * Blocks: bishop on s is s, rook on s is 64 + s.
 *
 * Every function takes any numbers, returns, and keeps no pointer; the library keeps nothing between calls, so threads may call it at
 * once. A slice is a pointer and the number of elements behind it; the elements must be there, aligned, and lent for the call: what is
 * const is read, what is not is written and must not overlap with anything else that is lent. Of length 0 the pointer is not read.
 *
 * Stack: measured, a search needs 112 KiB, a build from a seed 232 KiB, one from multipliers 140 KiB, all else 20 KiB at most. Give a
 * thread that builds or searches SLIDER_STACK bytes, which is more than twice that.
 *
 * `number` in an answer is SLIDER_OK or the refusal's. The first that holds in the order 1, 2, 9, 10, 3 is given; in a look-up 8 before
 * 7; within a block 4 before 5 and 6. What has no meaning in an answer is 0.
 */
#ifndef SLIDER_H
#define SLIDER_H

#include <stddef.h>
#include <stdint.h>

#ifdef __cplusplus
extern "C" {
#endif

/* Of this header and of the package: 10000 * major + 100 * minor + patch. */
#define SLIDER_VERSION 100
#define SLIDER_VERSION_TEXT "0.1.0"

/* Kinds. */
#define SLIDER_ROOK 0
#define SLIDER_BISHOP 1

#define SLIDER_BLOCKS 128
/* So many slots suffice for every build; a PEXT table has as many entries. */
#define SLIDER_SLOTS 107648
#define SLIDER_MAX_BUDGET 16777216
/* A stack on which every call runs, in bytes. */
#define SLIDER_STACK 524288

/* The numbers of an answer. More may come. */
enum SliderNumber {
    SLIDER_OK = 0,
    SLIDER_REFUSED_KIND = 1,     /* kind above 1 */
    SLIDER_REFUSED_SQUARE = 2,   /* square above 63, name unreadable */
    SLIDER_REFUSED_LENGTHS = 3,  /* table and marks differ in length */
    SLIDER_REFUSED_ROOM = 4,     /* no room for a block */
    SLIDER_REFUSED_SPENT = 5,    /* budget spent, no candidate passed for a block */
    SLIDER_REFUSED_COLLIDES = 6, /* the lent multiplier of a block collides */
    SLIDER_REFUSED_INDEX = 7,    /* index at or past the table's length */
    SLIDER_REFUSED_RECORD = 8,   /* look-up: shift outside 52 to 59; audit: mask or shift of a block wrong */
    SLIDER_REFUSED_LENGTH = 9,   /* not 128 multipliers, not 107,648 PEXT entries */
    SLIDER_REFUSED_BUDGET = 10,  /* budget above SLIDER_MAX_BUDGET */
    SLIDER_REFUSED_SLOT = 11     /* audit: the slot of a block's subset does not give the walk */
};

typedef struct SliderAnswer {
    uint64_t number;
    uint64_t value;
} SliderAnswer;

/* an audit's answer: the reach, which is the end of block 127, or the refusal with its block and subset */
typedef struct SliderVerdict {
    uint64_t number;
    uint64_t block;
    uint64_t subset;
    uint64_t reach;
} SliderVerdict;

/* a search's answer: the candidate and its position from 1, or the refusal with its block */
typedef struct SliderFound {
    uint64_t number;
    uint64_t block;
    uint64_t multiplier;
    uint64_t count;
} SliderFound;

/* What a look-up needs of a block. Three bytes of padding follow: compare records by their fields. */
typedef struct SliderRecord {
    uint64_t multiplier;
    uint64_t mask;
    uint32_t offset;
    uint8_t shift;
} SliderRecord;

/* a build's answer: slots used, records and attempt counts in block order, or the refusal with its block */
typedef struct SliderBuild {
    uint64_t number;
    uint64_t block;
    uint64_t used;
    SliderRecord records[128];
    uint64_t counts[128];
} SliderBuild;

typedef struct SliderRecords {
    SliderRecord records[128];
} SliderRecords;

/* where a block lies in a PEXT table */
typedef struct SliderPlace {
    uint64_t number;
    uint64_t offset;
    uint64_t size;
} SliderPlace;

/* a letter a to h and a digit 1 to 8, as ASCII */
typedef struct SliderName {
    uint64_t number;
    uint8_t letter;
    uint8_t digit;
} SliderName;

/* off is 1 where the step leads off the board */
typedef struct SliderStep {
    uint64_t number;
    uint64_t off;
    uint64_t square;
} SliderStep;

/* ---- the board */

/* The squares that a piece sees from sq on the empty board. Refusals: 1, 2. */
SliderAnswer slider_rays(uint8_t kind, uint8_t sq);

/* The rays without the edge squares whose blockers change nothing. Refusals: 1, 2. */
SliderAnswer slider_mask(uint8_t kind, uint8_t sq);

/* 2 to the number of the mask's squares. Refusals: 1, 2. */
SliderAnswer slider_size(uint8_t kind, uint8_t sq);

/* 64 less the number of the mask's squares. Refusals: 1, 2. */
SliderAnswer slider_shift(uint8_t kind, uint8_t sq);

/* Subset i of the mask: it has the j-th smallest square where bit j of i is set. Refusals: 1, 2. */
SliderAnswer slider_subset(uint8_t kind, uint8_t sq, uint64_t i);

/* The attack set: in each direction up to and including the first blocker. Refusals: 1, 2. */
SliderAnswer slider_walk(uint8_t kind, uint8_t sq, uint64_t blockers);

/* The square of a name: a letter a to h, a digit 1 to 8; what follows is ignored. Refusal: 2. */
SliderAnswer slider_square(const uint8_t *name, size_t name_len);

/* A square's name. Refusal: 2. */
SliderName slider_name(uint8_t sq);

/* The square one rank up or down, one file left (towards a) or right. Refusal: 2. */
SliderStep slider_up(uint8_t sq);
SliderStep slider_down(uint8_t sq);
SliderStep slider_left(uint8_t sq);
SliderStep slider_right(uint8_t sq);

/* ---- PEXT tables */

/* Fills 107,648 entries; the value is how many. Refusal: 9, nothing is written. */
SliderAnswer slider_pext_fill(uint16_t *table, size_t table_len);

/* The attack set by a filled table; of any other 107,648 entries what the formula gives. Refusals: 1, 2, 9. */
SliderAnswer slider_pext_moves(uint8_t kind, uint8_t sq, uint64_t blockers, const uint16_t *table, size_t table_len);

/* Where a square's block lies. Refusals: 1, 2, 9. */
SliderPlace slider_pext_place(uint8_t kind, uint8_t sq, const uint16_t *table, size_t table_len);

/* ---- magic tables */

/* The first candidate from a seed that passes for one block. Refusals: 1, 2, 10, 5. */
SliderFound slider_search(uint8_t kind, uint8_t sq, uint64_t seed, uint64_t budget);

/* Builds all blocks from a seed, whatever the memory held. Refusals: 10, 3 (nothing is written); 4, 5 (all is set to 0). */
SliderBuild slider_build(uint64_t seed, uint64_t budget, uint64_t *table, size_t table_len, uint64_t *marks, size_t marks_len);

/* The same from 128 multipliers in block order. Refusals: 9, 3 (nothing is written); 4, 6 (all is set to 0). */
SliderBuild slider_build_lent(const uint64_t *multipliers, size_t multipliers_len, uint64_t *table, size_t table_len,
    uint64_t *marks, size_t marks_len);

/* One look-up, for any record and any table: the attack set if they are built. Refusals: 1, 2, 8, 7. */
SliderAnswer slider_moves(uint8_t kind, uint8_t sq, uint64_t blockers, SliderRecord magic,
    const uint64_t *table, size_t table_len);

/* Is every look-up the walk? Refusals: 8, 7, 11. */
SliderVerdict slider_audit(SliderRecords set, const uint64_t *table, size_t table_len);

/* ---- batches
 *
 * Query i is kinds[i], squares[i], blockers[i]. As many are answered as each of the five slices has, and that number is returned:
 * numbers[i] is 0 or the refusal's, moves[i] the set or 0. What the slices have past that stays as it is. */

/* Look-ups, with the records of all blocks. A call copies them, 3 KiB, and lists all rays before it answers: 235 ns, measured with an
 * older kit (docs/SPEED.md). So it pays from some 80 queries on. Refusals of a query: 1, 2, 8, 7. */
uint64_t slider_moves_batch(SliderRecords set, const uint64_t *table, size_t table_len, const uint8_t *kinds, size_t kinds_len,
    const uint8_t *squares, size_t squares_len, const uint64_t *blockers, size_t blockers_len,
    uint64_t *numbers, size_t numbers_len, uint64_t *moves, size_t moves_len);

/* Look-ups in a PEXT table. Refusals of a query: 1, 2, 9. */
uint64_t slider_pext_moves_batch(const uint16_t *table, size_t table_len, const uint8_t *kinds, size_t kinds_len,
    const uint8_t *squares, size_t squares_len, const uint64_t *blockers, size_t blockers_len,
    uint64_t *numbers, size_t numbers_len, uint64_t *moves, size_t moves_len);

/* Walks. Refusals of a query: 1, 2. */
uint64_t slider_walk_batch(const uint8_t *kinds, size_t kinds_len, const uint8_t *squares, size_t squares_len,
    const uint64_t *blockers, size_t blockers_len, uint64_t *numbers, size_t numbers_len, uint64_t *moves, size_t moves_len);

#ifdef __cplusplus
}
#endif

#endif
