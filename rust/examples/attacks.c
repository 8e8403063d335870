/* Builds tables from seed 42, audits them, and asks which squares a rook on d4 attacks.
 *
 *     cc -O2 -Irust/include rust/examples/attacks.c target/staticlib/libslider.a -o attacks
 */
#include "slider.h"

#include <inttypes.h>
#include <stdio.h>
#include <string.h>

static uint64_t table[SLIDER_SLOTS], marks[SLIDER_SLOTS];

int main(void) {
    SliderBuild built = slider_build(42, SLIDER_MAX_BUDGET, table, SLIDER_SLOTS, marks, SLIDER_SLOTS);
    if (built.number != SLIDER_OK) {
        fprintf(stderr, "refusal %" PRIu64 " at block %" PRIu64 "\n", built.number, built.block);
        return 1;
    }
    SliderRecords set;
    memcpy(set.records, built.records, sizeof set.records);
    SliderVerdict verdict = slider_audit(set, table, SLIDER_SLOTS);
    if (verdict.number != SLIDER_OK) {
        fprintf(stderr, "the audit refuses: %" PRIu64 "\n", verdict.number);
        return 1;
    }
    const uint8_t d4 = 27;
    SliderAnswer answer = slider_moves(SLIDER_ROOK, d4, 0x000008000A000000u, built.records[64 + d4], table, SLIDER_SLOTS);
    printf("used %" PRIu64 ", reach %" PRIu64 ", rook d4 attacks %016" PRIX64 "\n", built.used, verdict.reach, answer.value);
    return answer.number != SLIDER_OK;
}
