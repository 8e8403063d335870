/* Calls every export from C: layouts, the rulebook's examples, refusals, a build. Writes "N checks, M failed". */
#include "slider.h"

#include <stdio.h>
#include <stdlib.h>
#include <string.h>

_Static_assert(sizeof(SliderAnswer) == 16, "SliderAnswer");
_Static_assert(sizeof(SliderVerdict) == 32, "SliderVerdict");
_Static_assert(sizeof(SliderFound) == 32, "SliderFound");
_Static_assert(sizeof(SliderRecord) == 24 && offsetof(SliderRecord, shift) == 20, "SliderRecord");
_Static_assert(sizeof(SliderRecords) == 128 * 24, "SliderRecords");
_Static_assert(sizeof(SliderBuild) == 24 + 128 * 24 + 128 * 8, "SliderBuild");
_Static_assert(sizeof(SliderPlace) == 24 && sizeof(SliderStep) == 24 && sizeof(SliderName) == 16, "the rest");

static int checks, failed;

static void check(int holds, const char *text, int line) {
    checks++;
    if (!holds) {
        failed++;
        printf("line %d: %s\n", line, text);
    }
}
#define CHECK(holds) check((holds), #holds, __LINE__)
#define GIVES(answer, x) do { SliderAnswer a = (answer); check(a.number == 0 && a.value == (x), #answer, __LINE__); } while (0)
#define REFUSES(answer, n) do { SliderAnswer a = (answer); check(a.number == (n) && a.value == 0, #answer, __LINE__); } while (0)

static uint64_t fnv(const uint64_t *slots, size_t len) {
    uint64_t hash = 0xCBF29CE484222325u;
    for (size_t i = 0; i < len; i++)
        for (int shift = 0; shift < 64; shift += 8)
            hash = (hash ^ (slots[i] >> shift & 255)) * 0x100000001B3u;
    return hash;
}

static int same(SliderRecord a, SliderRecord b) {
    return a.multiplier == b.multiplier && a.mask == b.mask && a.offset == b.offset && a.shift == b.shift;
}

static void board(void) {
    GIVES(slider_rays(SLIDER_ROOK, 0), 0x01010101010101FEu);
    GIVES(slider_rays(SLIDER_BISHOP, 0), 0x8040201008040200u);
    GIVES(slider_mask(SLIDER_ROOK, 0), 0x000101010101017Eu);
    GIVES(slider_mask(SLIDER_BISHOP, 0), 0x0040201008040200u);
    GIVES(slider_mask(SLIDER_ROOK, 27), 0x0008080876080800u);
    GIVES(slider_size(SLIDER_ROOK, 0), 4096);
    GIVES(slider_shift(SLIDER_ROOK, 0), 52);
    GIVES(slider_subset(SLIDER_ROOK, 0, 65), 0x102);
    GIVES(slider_walk(SLIDER_ROOK, 0, UINT64_MAX), 0x102);
    GIVES(slider_walk(SLIDER_ROOK, 63, 0), 0x7F80808080808080u);
    GIVES(slider_square((const uint8_t *)"d4", 2), 27);
    REFUSES(slider_square((const uint8_t *)"d9", 2), 2);
    REFUSES(slider_square(NULL, 0), 2);
    REFUSES(slider_rays(2, 64), 1);
    REFUSES(slider_mask(1, 64), 2);
    REFUSES(slider_size(255, 255), 1);
    REFUSES(slider_shift(0, 255), 2);
    REFUSES(slider_subset(2, 0, 0), 1);
    REFUSES(slider_walk(0, 64, 0), 2);
    SliderName name = slider_name(27);
    CHECK(name.number == 0 && name.letter == 'd' && name.digit == '4');
    name = slider_name(64);
    CHECK(name.number == 2 && name.letter == 0 && name.digit == 0);
    SliderStep step = slider_up(0);
    CHECK(step.number == 0 && step.off == 0 && step.square == 8);
    step = slider_down(0);
    CHECK(step.number == 0 && step.off == 1 && step.square == 0);
    step = slider_left(7);
    CHECK(step.number == 0 && step.off == 0 && step.square == 6);
    step = slider_right(64);
    CHECK(step.number == 2 && step.off == 0 && step.square == 0);
}

static uint16_t *pext(void) {
    uint16_t *table = malloc(SLIDER_SLOTS * sizeof *table);
    memset(table, 0xA5, SLIDER_SLOTS * sizeof *table);
    REFUSES(slider_pext_fill(table, SLIDER_SLOTS - 1), 9);
    CHECK(table[0] == 0xA5A5);
    GIVES(slider_pext_fill(table, SLIDER_SLOTS), SLIDER_SLOTS);
    CHECK(table[65] == 129);
    GIVES(slider_pext_moves(SLIDER_ROOK, 27, 0x000008000A000000u, table, SLIDER_SLOTS), 0x00000808F6080808u);
    REFUSES(slider_pext_moves(SLIDER_ROOK, 27, 0, table, 0), 9);
    SliderPlace place = slider_pext_place(SLIDER_BISHOP, 63, table, SLIDER_SLOTS);
    CHECK(place.number == 0 && place.offset == 107584 && place.size == 64);
    return table;
}

static void magic(const uint16_t *pext_table) {
    uint64_t *table = malloc(SLIDER_SLOTS * sizeof *table), *marks = malloc(SLIDER_SLOTS * sizeof *marks);
    memset(table, 0xA5, SLIDER_SLOTS * sizeof *table);
    memset(marks, 0x5A, SLIDER_SLOTS * sizeof *marks);
    SliderBuild built = slider_build(1, SLIDER_MAX_BUDGET + 1, table, SLIDER_SLOTS, marks, SLIDER_SLOTS);
    CHECK(built.number == 10 && built.used == 0 && table[0] == 0xA5A5A5A5A5A5A5A5u);
    built = slider_build(1, 0, table, SLIDER_SLOTS, marks, SLIDER_SLOTS - 1);
    CHECK(built.number == 3 && marks[0] == 0x5A5A5A5A5A5A5A5Au);
    built = slider_build(1, 0, table, 64, marks, 64);
    CHECK(built.number == 5 && built.block == 0 && table[0] == 0 && table[64] == 0xA5A5A5A5A5A5A5A5u);
    built = slider_build(1, SLIDER_MAX_BUDGET, table, SLIDER_SLOTS, marks, SLIDER_SLOTS);
    CHECK(built.number == 0 && built.used == 104960 && built.counts[71] == 171853 && built.records[127].shift == 52);
    CHECK(fnv(table, SLIDER_SLOTS) == 0xFD018B2303A5733Bu && fnv(marks, SLIDER_SLOTS) == 0x1665126B5C4CB9A5u);

    SliderFound found = slider_search(SLIDER_ROOK, 7, 1, SLIDER_MAX_BUDGET);
    CHECK(found.number == 0 && found.multiplier == built.records[71].multiplier && found.count == 171853);
    found = slider_search(SLIDER_ROOK, 7, 1, 171852);
    CHECK(found.number == 5 && found.block == 71 && found.multiplier == 0 && found.count == 0);

    GIVES(slider_moves(SLIDER_ROOK, 27, 0x000008000A000000u, built.records[64 + 27], table, SLIDER_SLOTS), 0x00000808F6080808u);
    REFUSES(slider_moves(SLIDER_ROOK, 27, 0, built.records[64 + 27], table, 0), 7);
    SliderRecord wrong = built.records[64 + 27];
    wrong.shift = 60;
    REFUSES(slider_moves(SLIDER_ROOK, 27, 0, wrong, table, 0), 8);

    SliderRecords set;
    memcpy(set.records, built.records, sizeof set.records);
    SliderVerdict verdict = slider_audit(set, table, SLIDER_SLOTS);
    CHECK(verdict.number == 0 && verdict.reach == 104960);
    verdict = slider_audit(set, table, 1000);
    CHECK(verdict.number == 7 && verdict.reach == 0);
    set.records[100].mask ^= 1;
    verdict = slider_audit(set, table, SLIDER_SLOTS);
    CHECK(verdict.number == 8 && verdict.block == 100 && verdict.subset == 0);
    set.records[100].mask ^= 1;
    table[set.records[0].offset] ^= 0x200;
    verdict = slider_audit(set, table, SLIDER_SLOTS);
    CHECK(verdict.number == 11 && verdict.block == 0 && verdict.subset == 0);

    uint64_t lent[SLIDER_BLOCKS];
    for (int block = 0; block < SLIDER_BLOCKS; block++)
        lent[block] = built.records[block].multiplier;
    SliderBuild again = slider_build_lent(lent, SLIDER_BLOCKS, table, SLIDER_SLOTS, marks, SLIDER_SLOTS);
    CHECK(again.number == 0 && again.used == built.used);
    for (int block = 0; block < SLIDER_BLOCKS; block++)
        CHECK(same(again.records[block], built.records[block]) && again.counts[block] == 0);
    CHECK(fnv(table, SLIDER_SLOTS) == 0xFD018B2303A5733Bu);

    const uint8_t kinds[] = {0, 1, 2, 0}, squares[] = {27, 0, 0, 64};
    const uint64_t blockers[] = {0x000008000A000000u, 0x200, 0, 0};
    const uint64_t want_numbers[] = {0, 0, 1, 2}, want_moves[] = {0x00000808F6080808u, 0x200, 0, 0};
    for (int engine = 0; engine < 3; engine++) {
        uint64_t numbers[5] = {9, 9, 9, 9, 9}, moves[5] = {9, 9, 9, 9, 9}, count;
        if (engine == 0)
            count = slider_moves_batch(set, table, SLIDER_SLOTS, kinds, 4, squares, 4, blockers, 4, numbers, 5, moves, 5);
        else if (engine == 1)
            count = slider_pext_moves_batch(pext_table, SLIDER_SLOTS, kinds, 4, squares, 4, blockers, 4, numbers, 5, moves, 5);
        else
            count = slider_walk_batch(kinds, 4, squares, 4, blockers, 4, numbers, 5, moves, 5);
        CHECK(count == 4 && memcmp(numbers, want_numbers, 32) == 0 && memcmp(moves, want_moves, 32) == 0);
        CHECK(numbers[4] == 9 && moves[4] == 9);
    }
    free(table);
    free(marks);
}

int main(void) {
    board();
    uint16_t *pext_table = pext();
    magic(pext_table);
    free(pext_table);
    printf("%d checks, %d failed\n", checks, failed);
    return failed != 0;
}
