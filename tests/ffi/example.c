/* From two instructions to a verdict; the second is held and confirmed. In the repository: tools/build u32_table, then
 *     cc -Iinclude tests/ffi/example.c target/staticlib/libu32_table.a -o example && ./example */
#include <inttypes.h>
#include <stdio.h>

#include "u32_table.h"

enum { PLACES = 16, ROWS = 256 };
static uint64_t keys[3 * PLACES], counts[PLACES], holds[PLACES], table[10 * ROWS], aux[3 * ROWS], answers[7], challenges[15] = {1};
/* there is one recorder; the arrays of the second are lent all the same */
static uint64_t other_counts[PLACES], other_holds[PLACES];
#define OTHER other_counts, PLACES, other_holds, PLACES

int main(void) {
    u32_table_record(PLACES, 0, keys, 3 * PLACES, counts, PLACES, holds, PLACES, OTHER, U32_TABLE_AND, 3, 1, answers, 7);
    u32_table_hold(PLACES, answers[1], keys, 3 * PLACES, counts, PLACES, holds, PLACES, OTHER, U32_TABLE_LT, 2, 3, answers, 7);
    size_t position = answers[0], used = answers[1];
    uint64_t refused = u32_table_confirm(PLACES, used, keys, 3 * PLACES, counts, PLACES, holds, PLACES, position);
    if (!refused) refused = u32_table_fill(PLACES, used, keys, 3 * PLACES, counts, PLACES, holds, PLACES, table, 10 * ROWS, answers, 7);
    if (!refused) refused = u32_table_pad(table, 10 * ROWS, answers[0]);
    if (!refused) refused = u32_table_extend(table, 10 * ROWS, aux, 3 * ROWS, challenges, 15, answers, 7);
    if (!refused) printf("sum %" PRIu64 " %" PRIu64 " %" PRIu64 "\n", answers[0], answers[1], answers[2]);
    if (!refused) refused = u32_table_check(table, 10 * ROWS, aux, 3 * ROWS, challenges, 15, answers, 7);
    if (refused) return printf("refused %" PRIu64 "\n", refused), 1;
    puts(answers[0] ? "nonzero" : "zero");
    return 0;
}
