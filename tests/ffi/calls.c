/* Calls every function of include/u32_table.h: honest input, every refusal in its order, `answers` too short, and that nothing else is touched.
 * Built and run by tests/ffi/run. */
#include <inttypes.h>
#include <stdio.h>
#include <string.h>

#include "u32_table.h"

enum { PLACES = 4, ROWS = 128, MARK = 77, WORDS = 8 };

static unsigned tried, failed;

static void expect(const char *what, uint64_t got, uint64_t wanted) {
    tried++;
    if (got == wanted) return;
    failed++;
    printf("%s: %" PRIu64 ", wanted %" PRIu64 "\n", what, got, wanted);
}

/* ---- arrays with a copy, so that it can be seen what a call touched */
static uint64_t keys[3 * PLACES], multiplicities[PLACES], holds[PLACES], other_multiplicities[PLACES], other_holds[PLACES];
static uint64_t table[10 * ROWS], aux[3 * ROWS], challenges[15], answers[WORDS];
static uint8_t bytes[256];
static struct {
    uint64_t keys[3 * PLACES], multiplicities[PLACES], holds[PLACES], other_multiplicities[PLACES], other_holds[PLACES];
    uint64_t table[10 * ROWS], aux[3 * ROWS], challenges[15];
    uint8_t bytes[256];
} copy;

static void keep(void) {
    memcpy(copy.keys, keys, sizeof keys);
    memcpy(copy.multiplicities, multiplicities, sizeof multiplicities);
    memcpy(copy.holds, holds, sizeof holds);
    memcpy(copy.other_multiplicities, other_multiplicities, sizeof other_multiplicities);
    memcpy(copy.other_holds, other_holds, sizeof other_holds);
    memcpy(copy.table, table, sizeof table);
    memcpy(copy.aux, aux, sizeof aux);
    memcpy(copy.challenges, challenges, sizeof challenges);
    memcpy(copy.bytes, bytes, sizeof bytes);
    for (int i = 0; i < WORDS; i++) answers[i] = MARK;
}

static void lists_kept(const char *what) {
    expect(what, (uint64_t)(memcmp(copy.keys, keys, sizeof keys) | memcmp(copy.multiplicities, multiplicities, sizeof multiplicities)), 0);
    expect(what, (uint64_t)memcmp(copy.holds, holds, sizeof holds), 0);
    expect(what, (uint64_t)memcmp(copy.other_multiplicities, other_multiplicities, sizeof other_multiplicities), 0);
    expect(what, (uint64_t)memcmp(copy.other_holds, other_holds, sizeof other_holds), 0);
}

static void tables_kept(const char *what) {
    expect(what, (uint64_t)(memcmp(copy.table, table, sizeof table) | memcmp(copy.aux, aux, sizeof aux)), 0);
    expect(what, (uint64_t)(memcmp(copy.challenges, challenges, sizeof challenges) | memcmp(copy.bytes, bytes, sizeof bytes)), 0);
}

/* the first n answers are those wanted, and the others are untouched */
static void answered(const char *what, int n, const uint64_t *wanted) {
    for (int i = 0; i < n; i++) expect(what, answers[i], wanted[i]);
    for (int i = n; i < WORDS; i++) expect(what, answers[i], MARK);
}

static void refused(const char *what, uint64_t got, uint64_t wanted) {
    expect(what, got, wanted);
    answered(what, 0, NULL);
    lists_kept(what);
    tables_kept(what);
}

#define REFUSED(call, wanted) (keep(), refused(#call, call, wanted))
/* a refusal that says how many steps were done, and leaves the list as it was where there are none */
#define STOPPED(call, wanted, ...) (keep(), expect(#call, call, wanted), answered(#call, 2, (uint64_t[]){__VA_ARGS__}))
#define DONE(call, n, ...) (keep(), expect(#call, call, 0), answered(#call, n, (uint64_t[]){__VA_ARGS__}))

/* the arrays of the recorder that these make calls for, and of the other */
#define OWN multiplicities, PLACES, holds, PLACES
#define OTHER other_multiplicities, PLACES, other_holds, PLACES

static uint64_t record(size_t used, uint64_t opcode, uint64_t lhs, uint64_t rhs) {
    return u32_table_record(PLACES, used, keys, 3 * PLACES, OWN, OTHER, opcode, lhs, rhs, answers, WORDS);
}
static uint64_t hold(size_t used, uint64_t opcode, uint64_t lhs, uint64_t rhs) {
    return u32_table_hold(PLACES, used, keys, 3 * PLACES, OWN, OTHER, opcode, lhs, rhs, answers, WORDS);
}
static uint64_t confirm(size_t used, size_t position) {
    return u32_table_confirm(PLACES, used, keys, 3 * PLACES, OWN, position);
}
static uint64_t drop(size_t used, size_t position) {
    return u32_table_drop(PLACES, used, keys, 3 * PLACES, OWN, position);
}
static uint64_t replay(size_t used, const uint64_t *trace, size_t words) {
    return u32_table_replay(PLACES, used, keys, 3 * PLACES, OWN, OTHER, trace, words, answers, WORDS);
}
static uint64_t plan(size_t used) {
    return u32_table_plan(PLACES, used, keys, 3 * PLACES, OWN, answers, WORDS);
}
static uint64_t read(size_t n) {
    return u32_table_read(bytes, n, PLACES, 0, keys, 3 * PLACES, OWN, OTHER, answers, WORDS);
}
static uint64_t write(size_t used, size_t room) {
    return u32_table_write(PLACES, used, keys, 3 * PLACES, OWN, bytes, room, answers, WORDS);
}
static uint64_t fill(size_t used, size_t rows) {
    return u32_table_fill(PLACES, used, keys, 3 * PLACES, OWN, table, 10 * rows, answers, WORDS);
}
static uint64_t extend(size_t rows) { return u32_table_extend(table, 10 * rows, aux, 3 * rows, challenges, 15, answers, WORDS); }
static uint64_t check(size_t rows) { return u32_table_check(table, 10 * rows, aux, 3 * rows, challenges, 15, answers, WORDS); }

static uint64_t client(const uint64_t *requests, size_t words, const uint64_t *weights) {
    return u32_table_client_sum(requests, words, weights, 15, answers, WORDS);
}

static void put(int place, uint64_t opcode, uint64_t lhs, uint64_t rhs, uint64_t multiplicity) {
    keys[3 * place] = opcode, keys[3 * place + 1] = lhs, keys[3 * place + 2] = rhs, multiplicities[place] = multiplicity;
}

/* place 0 has this count and these holds, and the other places are as they were */
static void counted(const char *what, uint64_t count, uint64_t open) {
    expect(what, multiplicities[0], count);
    expect(what, holds[0], open);
    expect(what, (uint64_t)(memcmp(copy.multiplicities + 1, multiplicities + 1, 8 * (PLACES - 1)) | memcmp(copy.holds + 1, holds + 1, 8 * (PLACES - 1))), 0);
}
#define COUNTED(call, count, open) (keep(), expect(#call, call, 0), answered(#call, 0, NULL), counted(#call, count, open))

/* recordings in two parts */
static void held(void) {
    const uint64_t most = U32_TABLE_P - 1, pow2_32 = UINT64_C(1) << 32;
    /* unused places have any words, and an append sets those of its own */
    for (int i = 0; i < 3 * PLACES; i++) keys[i] = MARK;
    for (int i = 0; i < PLACES; i++) multiplicities[i] = 9, holds[i] = 5;
    REFUSED(confirm(0, 0), U32_TABLE_NO_HOLD);
    REFUSED(drop(0, 0), U32_TABLE_NO_HOLD);
    DONE(plan(0), 2, 0, 256);
    DONE(hold(0, U32_TABLE_AND, 3, 1), 2, 0, 1);
    counted("a new key", 0, 1);
    expect("the key", keys[0] == 14 && keys[1] == 3 && keys[2] == 1 && keys[3] == MARK, 1);
    DONE(hold(1, U32_TABLE_AND, 3, 1), 2, 0, 1);
    counted("a known key", 0, 2);
    DONE(record(1, U32_TABLE_AND, 3, 1), 2, 0, 1);
    counted("a recording between", 1, 2);

    /* while a hold is open: 15 directly after 1; confirm and drop one each; then 16, at any other position too */
    REFUSED(plan(1), U32_TABLE_OPEN_HOLD);
    REFUSED(write(1, 0), U32_TABLE_OPEN_HOLD);
    REFUSED(fill(1, 0), U32_TABLE_OPEN_HOLD);
    REFUSED(u32_table_fill(PLACES, 1, keys, 12, OWN, table, 7, answers, WORDS), U32_TABLE_SHAPE);
    COUNTED(confirm(1, 0), 2, 1);
    COUNTED(drop(1, 0), 2, 0);
    REFUSED(confirm(1, 0), U32_TABLE_NO_HOLD);
    REFUSED(drop(1, 0), U32_TABLE_NO_HOLD);
    REFUSED(confirm(1, 1), U32_TABLE_NO_HOLD);
    REFUSED(drop(1, PLACES), U32_TABLE_NO_HOLD);
    REFUSED(confirm(1, SIZE_MAX), U32_TABLE_NO_HOLD);
    REFUSED(drop(1, SIZE_MAX), U32_TABLE_NO_HOLD);
    DONE(plan(1), 2, 3, 256);
    keys[0] = 5, holds[0] = 1;
    REFUSED(plan(1), U32_TABLE_OPEN_HOLD);
    COUNTED(drop(1, 0), 2, 0);
    REFUSED(plan(1), U32_TABLE_STRANGER);
    keys[0] = 14;

    /* 1, by every length and size, before all else; also for confirm and drop, which look at no key */
    REFUSED(hold(5, 5, 0, 0), U32_TABLE_SHAPE);
    REFUSED(confirm(5, SIZE_MAX), U32_TABLE_SHAPE);
    REFUSED(drop(5, SIZE_MAX), U32_TABLE_SHAPE);
    REFUSED(u32_table_hold(PLACES, 1, keys, 12, OWN, OTHER, 14, 3, 1, answers, 1), U32_TABLE_SHAPE);
    REFUSED(u32_table_hold(PLACES, 1, keys, 12, multiplicities, PLACES, holds, PLACES - 1, OTHER, 5, 0, 0, answers, WORDS), U32_TABLE_SHAPE);
    REFUSED(u32_table_record(PLACES, 1, keys, 12, multiplicities, PLACES, holds, PLACES - 1, OTHER, 5, 0, 0, answers, WORDS), U32_TABLE_SHAPE);
    STOPPED(u32_table_replay(PLACES, 1, keys, 12, multiplicities, PLACES, holds, PLACES - 1, OTHER, NULL, 0, answers, WORDS), U32_TABLE_SHAPE, 0, 1);
    REFUSED(u32_table_plan(PLACES, 1, keys, 12, multiplicities, PLACES, holds, PLACES - 1, answers, WORDS), U32_TABLE_SHAPE);
    REFUSED(u32_table_read(NULL, 0, PLACES, 1, keys, 12, multiplicities, PLACES, holds, PLACES - 1, OTHER, answers, WORDS), U32_TABLE_SHAPE);
    REFUSED(u32_table_write(PLACES, 1, keys, 12, multiplicities, PLACES, holds, PLACES - 1, bytes, 256, answers, WORDS), U32_TABLE_SHAPE);
    REFUSED(u32_table_fill(PLACES, 1, keys, 12, multiplicities, PLACES, holds, PLACES - 1, table, 160, answers, WORDS), U32_TABLE_SHAPE);
    REFUSED(u32_table_confirm(PLACES, 1, keys, 12, multiplicities, PLACES, holds, PLACES - 1, 0), U32_TABLE_SHAPE);
    REFUSED(u32_table_confirm(PLACES, 1, keys, 11, OWN, 0), U32_TABLE_SHAPE);
    REFUSED(u32_table_drop(PLACES, 1, keys, 12, multiplicities, PLACES - 1, holds, PLACES, 0), U32_TABLE_SHAPE);
    REFUSED(u32_table_drop(PLACES, 1, keys, 12, multiplicities, PLACES, holds, PLACES - 1, 0), U32_TABLE_SHAPE);

    /* hold's 2, 3, 4, 6 */
    REFUSED(hold(1, 5, pow2_32, 0), U32_TABLE_STRANGER);
    REFUSED(hold(1, U32_TABLE_LOG_2_FLOOR, 0, pow2_32), U32_TABLE_WIDE);
    REFUSED(hold(1, U32_TABLE_LOG_2_FLOOR, 0, 0), U32_TABLE_BARE_LOG);
    REFUSED(u32_table_hold(1, 1, keys, 3, multiplicities, 1, holds, 1, other_multiplicities, 1, other_holds, 1, U32_TABLE_LT, 2, 3, answers, WORDS), U32_TABLE_LIST_FULL);

    /* 5 by count plus holds, also where their sum passes 2^64; confirm's 5 after 16, on words that no hold made */
    multiplicities[0] = most - 1;
    DONE(hold(1, U32_TABLE_AND, 3, 1), 2, 0, 1);
    REFUSED(hold(1, U32_TABLE_AND, 3, 1), U32_TABLE_COUNT_FULL);
    REFUSED(record(1, U32_TABLE_AND, 3, 1), U32_TABLE_COUNT_FULL);
    STOPPED(replay(1, (uint64_t[]){22, 3, 1}, 3), U32_TABLE_COUNT_FULL, 0, 1);
    COUNTED(confirm(1, 0), most, 0);
    REFUSED(hold(1, U32_TABLE_AND, 3, 1), U32_TABLE_COUNT_FULL);
    REFUSED(confirm(1, 0), U32_TABLE_NO_HOLD);
    holds[0] = 3;
    REFUSED(confirm(1, 0), U32_TABLE_COUNT_FULL);
    COUNTED(drop(1, 0), most, 2);
    multiplicities[0] = pow2_32, holds[0] = UINT64_MAX - pow2_32 + 1;
    REFUSED(record(1, U32_TABLE_AND, 3, 1), U32_TABLE_COUNT_FULL);
    REFUSED(hold(1, U32_TABLE_AND, 3, 1), U32_TABLE_COUNT_FULL);
    multiplicities[0] = holds[0] = UINT64_MAX;
    REFUSED(record(1, U32_TABLE_AND, 3, 1), U32_TABLE_COUNT_FULL);
    REFUSED(hold(1, U32_TABLE_AND, 3, 1), U32_TABLE_COUNT_FULL);
    REFUSED(confirm(1, 0), U32_TABLE_COUNT_FULL);
    COUNTED(drop(1, 0), UINT64_MAX, UINT64_MAX - 1);

    /* pow: held raw and recorded reduced are one key */
    DONE(hold(0, U32_TABLE_POW, U32_TABLE_P + 5, 3), 2, 0, 1);
    DONE(record(1, U32_TABLE_POW, 5, 3), 2, 0, 1);
    COUNTED(confirm(1, 0), 2, 0);
    expect("reduced", keys[0] == 30 && keys[1] == 5 && keys[2] == 3, 1);

    /* a key dropped back to 0 keeps its place and has no section: no rows, padded height 256, nothing stored; recorded again it has one */
    DONE(hold(0, U32_TABLE_AND, 3, 1), 2, 0, 1);
    COUNTED(drop(1, 0), 0, 0);
    DONE(plan(1), 2, 0, 256);
    for (int i = 0; i < 80; i++) table[i] = MARK;
    DONE(fill(1, 8), 1, 0);
    tables_kept("no section");
    expect("pad", u32_table_pad(table, 80, 0), 0);
    for (int i = 0; i < 15; i++) challenges[i] = (uint64_t)(1000 + 77 * i);
    DONE(extend(8), 3, 0, 0, 0);
    DONE(check(8), 1, 0);
    DONE(write(1, sizeof bytes), 1, U32_TABLE_STORED_BYTES(0));
    expect("no entries, no rows", (uint64_t)(bytes[0] | bytes[4]), 0);
    DONE(record(1, U32_TABLE_AND, 3, 1), 2, 0, 1);
    DONE(plan(1), 2, 3, 256);
    DONE(fill(1, 8), 1, 3);
    expect("its multiplicity", table[0] == 1 && table[U32_TABLE_LOOKUP_MULTIPLICITY] == 1, 1);

    /* reading clears the holds of its N places and no others, and is not refused by a hold of an unused place */
    DONE(write(1, sizeof bytes), 1, U32_TABLE_STORED_BYTES(1));
    for (int i = 0; i < PLACES; i++) holds[i] = 4;
    DONE(read(U32_TABLE_STORED_BYTES(1)), 1, 1);
    expect("cleared", holds[0] == 0 && holds[1] == 4 && holds[2] == 4 && holds[3] == 4, 1);
    bytes[0] = 9, holds[0] = 1;
    REFUSED(read(U32_TABLE_STORED_BYTES(1)), U32_TABLE_TORN);
    memset(holds, 0, sizeof holds), memset(keys, 0, sizeof keys), memset(multiplicities, 0, sizeof multiplicities), memset(bytes, 0, sizeof bytes);
}

/* ---- two recorders: the calls of the second, whose own arrays are the first one's other */
static uint64_t second_record(size_t used, uint64_t opcode, uint64_t lhs, uint64_t rhs) {
    return u32_table_record(PLACES, used, keys, 3 * PLACES, OTHER, OWN, opcode, lhs, rhs, answers, WORDS);
}
static uint64_t second_hold(size_t used, uint64_t opcode, uint64_t lhs, uint64_t rhs) {
    return u32_table_hold(PLACES, used, keys, 3 * PLACES, OTHER, OWN, opcode, lhs, rhs, answers, WORDS);
}
static uint64_t second_confirm(size_t used, size_t position) { return u32_table_confirm(PLACES, used, keys, 3 * PLACES, OTHER, position); }
static uint64_t second_replay(size_t used, const uint64_t *trace, size_t words) {
    return u32_table_replay(PLACES, used, keys, 3 * PLACES, OTHER, OWN, trace, words, answers, WORDS);
}
static uint64_t second_plan(size_t used) { return u32_table_plan(PLACES, used, keys, 3 * PLACES, OTHER, answers, WORDS); }
static uint64_t second_read(size_t used, size_t n) {
    return u32_table_read(bytes, n, PLACES, used, keys, 3 * PLACES, OTHER, OWN, answers, WORDS);
}
static uint64_t second_write(size_t used, size_t room) {
    return u32_table_write(PLACES, used, keys, 3 * PLACES, OTHER, bytes, room, answers, WORDS);
}
static uint64_t second_fill(size_t used, size_t rows) {
    return u32_table_fill(PLACES, used, keys, 3 * PLACES, OTHER, table, 10 * rows, answers, WORDS);
}

/* words that tell the four arrays apart, and no key */
static void fresh(void) {
    for (int i = 0; i < 3 * PLACES; i++) keys[i] = MARK;
    for (int i = 0; i < PLACES; i++) multiplicities[i] = 7, holds[i] = 8, other_multiplicities[i] = 5, other_holds[i] = 6;
}

/* all words of an array, one by one */
static void four(const char *what, const uint64_t *array, const uint64_t *wanted) {
    for (int i = 0; i < PLACES; i++) expect(what, array[i], wanted[i]);
}
#define FOUR(array, ...) four(#array, array, (const uint64_t[PLACES]){__VA_ARGS__})

static void two_recorders(void) {
    /* a place that comes into use: own count 1 and no hold, and the other has neither; unused places keep their words */
    fresh();
    DONE(record(0, U32_TABLE_AND, 3, 1), 2, 0, 1);
    FOUR(multiplicities, 1, 7, 7, 7), FOUR(holds, 0, 8, 8, 8), FOUR(other_multiplicities, 0, 5, 5, 5), FOUR(other_holds, 0, 6, 6, 6);
    /* a known key: the own count alone */
    DONE(second_record(1, U32_TABLE_AND, 3, 1), 2, 0, 1);
    DONE(second_record(1, U32_TABLE_AND, 3, 1), 2, 0, 1);
    FOUR(multiplicities, 1, 7, 7, 7), FOUR(holds, 0, 8, 8, 8), FOUR(other_multiplicities, 2, 5, 5, 5), FOUR(other_holds, 0, 6, 6, 6);
    DONE(second_hold(1, U32_TABLE_LT, 2, 3), 2, 1, 2);
    FOUR(multiplicities, 1, 0, 7, 7), FOUR(holds, 0, 0, 8, 8), FOUR(other_multiplicities, 2, 0, 5, 5), FOUR(other_holds, 0, 1, 6, 6);

    /* a hold opens the list of its own recorder alone, and no other can end it */
    DONE(plan(2), 2, 3, 256);
    REFUSED(second_plan(2), U32_TABLE_OPEN_HOLD);
    REFUSED(second_write(2, sizeof bytes), U32_TABLE_OPEN_HOLD);
    REFUSED(second_fill(2, 8), U32_TABLE_OPEN_HOLD);
    REFUSED(confirm(2, 1), U32_TABLE_NO_HOLD);
    REFUSED(drop(2, 1), U32_TABLE_NO_HOLD);
    DONE(second_confirm(2, 1), 0, 0);
    FOUR(multiplicities, 1, 0, 7, 7), FOUR(holds, 0, 0, 8, 8), FOUR(other_multiplicities, 2, 1, 5, 5), FOUR(other_holds, 0, 0, 6, 6);

    /* plan, stored list and table of each */
    DONE(plan(2), 2, 3, 256);
    DONE(second_plan(2), 2, 6, 256);
    DONE(write(2, sizeof bytes), 1, U32_TABLE_STORED_BYTES(1));
    expect("the first's", bytes[0] == 1 && bytes[4] == 3 && bytes[8] == 14 && bytes[8 + 17] == 1, 1);
    DONE(second_write(2, sizeof bytes), 1, U32_TABLE_STORED_BYTES(2));
    expect("the second's", bytes[0] == 2 && bytes[4] == 6 && bytes[8] == 14 && bytes[8 + 17] == 6 && bytes[8 + 34] == 2 && bytes[8 + 42] == 1, 1);
    for (int i = 0; i < 80; i++) table[i] = MARK;
    DONE(fill(2, 8), 1, 3);
    expect("the first's row", table[U32_TABLE_LOOKUP_MULTIPLICITY] == 1 && table[30] == MARK, 1);
    DONE(second_fill(2, 8), 1, 6);
    expect("the second's rows", table[U32_TABLE_LOOKUP_MULTIPLICITY] == 2 && table[30 + U32_TABLE_CI] == 6 && table[60] == MARK, 1);

    /* a replay that stops has brought places into use: cleared by the places, and not by the answer */
    fresh();
    STOPPED(replay(0, (uint64_t[]){6, 1, 2, 20, 7, 2, 12, 0, 9}, 9), U32_TABLE_BARE_LOG, 2, 2);
    FOUR(multiplicities, 2, 1, 7, 7), FOUR(holds, 0, 0, 8, 8), FOUR(other_multiplicities, 0, 0, 5, 5), FOUR(other_holds, 0, 0, 6, 6);
    STOPPED(replay(2, (uint64_t[]){12, 0, 9}, 3), U32_TABLE_BARE_LOG, 0, 2);
    lists_kept("a first step that is refused");
    DONE(second_replay(2, (uint64_t[]){20, 9, 2, 14, 3, 1}, 6), 2, 2, 4);
    FOUR(multiplicities, 2, 1, 0, 0), FOUR(holds, 0, 0, 0, 0), FOUR(other_multiplicities, 1, 0, 1, 1), FOUR(other_holds, 0, 0, 0, 0);

    /* reading: and 1, 1 with multiplicity 0, and 3, 1 with 2; both are examined and take a place, and one is counted */
    put(0, U32_TABLE_AND, 1, 1, 1), put(1, U32_TABLE_AND, 3, 1, 2);
    DONE(write(2, sizeof bytes), 1, 58);
    bytes[8 + 34] = 0;
    fresh();
    DONE(second_read(0, 58), 1, 2);
    FOUR(multiplicities, 0, 0, 7, 7), FOUR(holds, 0, 0, 8, 8), FOUR(other_multiplicities, 0, 2, 5, 5), FOUR(other_holds, 0, 0, 6, 6);
    expect("keys", keys[1] == 1 && keys[4] == 3 && keys[6] == MARK, 1);
    DONE(plan(2), 2, 0, 256);
    DONE(second_plan(2), 2, 3, 256);
    bytes[4] = 3;
    REFUSED(second_read(0, 58), U32_TABLE_TALLY);
    bytes[4] = 5, bytes[8] = 5;
    REFUSED(second_read(0, 58), U32_TABLE_STRANGER);
    /* onto a list that has a key: 6 after 10, before 2, also for no entries */
    REFUSED(second_read(2, 58), U32_TABLE_LIST_FULL);
    REFUSED(second_read(1, 58), U32_TABLE_LIST_FULL);
    REFUSED(second_read(1, 57), U32_TABLE_TORN);
    memset(bytes, 0, sizeof bytes);
    REFUSED(second_read(1, 8), U32_TABLE_LIST_FULL);
    REFUSED(second_read(1, 7), U32_TABLE_TORN);
    DONE(second_read(0, 8), 1, 0);
    lists_kept("no entries");
    DONE(second_write(2, sizeof bytes), 1, 33);
    expect("the counted key", bytes[0] == 1 && bytes[4] == 3 && bytes[9] == 3 && bytes[25] == 2, 1);

    /* left-out keys are not examined: a stranger, an equal key; their own holds are looked at, and never the other's */
    fresh();
    put(0, 5, UINT64_MAX, 0, 0), put(1, U32_TABLE_AND, 1, 1, 2), put(2, U32_TABLE_AND, 1, 1, 0);
    for (int i = 0; i < 3; i++) holds[i] = other_holds[i] = other_multiplicities[i] = 0;
    other_holds[0] = 1;
    DONE(plan(3), 2, 2, 256);
    DONE(fill(3, 8), 1, 2);
    expect("its row", table[U32_TABLE_LHS] == 1 && table[U32_TABLE_LOOKUP_MULTIPLICITY] == 2, 1);
    DONE(write(3, sizeof bytes), 1, 33);
    expect("the counted key", bytes[0] == 1 && bytes[4] == 2 && bytes[8] == 14 && bytes[9] == 1 && bytes[17] == 1 && bytes[25] == 2, 1);
    REFUSED(write(3, 32), U32_TABLE_SHORT);
    REFUSED(second_plan(3), U32_TABLE_OPEN_HOLD);
    other_holds[0] = 0;
    DONE(second_plan(3), 2, 0, 256);
    DONE(second_write(3, sizeof bytes), 1, 8);
    holds[0] = 1;
    REFUSED(plan(3), U32_TABLE_OPEN_HOLD);
    REFUSED(write(3, sizeof bytes), U32_TABLE_OPEN_HOLD);
    REFUSED(fill(3, 8), U32_TABLE_OPEN_HOLD);
    holds[0] = 0, multiplicities[1] = U32_TABLE_P;
    REFUSED(plan(3), U32_TABLE_COUNT_FULL);
    multiplicities[1] = 2, multiplicities[2] = 1;
    REFUSED(write(3, sizeof bytes), U32_TABLE_REPEAT);
    multiplicities[0] = 1;
    REFUSED(plan(3), U32_TABLE_STRANGER);

    /* one place for both: 6 for the second's new key, and none for the known one */
    fresh();
    DONE(u32_table_record(1, 0, keys, 3, multiplicities, 1, holds, 1, other_multiplicities, 1, other_holds, 1, 14, 3, 1, answers, WORDS), 2, 0, 1);
    REFUSED(u32_table_record(1, 1, keys, 3, other_multiplicities, 1, other_holds, 1, multiplicities, 1, holds, 1, 6, 2, 3, answers, WORDS), U32_TABLE_LIST_FULL);
    DONE(u32_table_record(1, 1, keys, 3, other_multiplicities, 1, other_holds, 1, multiplicities, 1, holds, 1, 14, 3, 1, answers, WORDS), 2, 0, 1);
    FOUR(multiplicities, 1, 7, 7, 7), FOUR(holds, 0, 8, 8, 8), FOUR(other_multiplicities, 1, 5, 5, 5), FOUR(other_holds, 0, 6, 6, 6);

    /* the other's arrays of another length, each by itself: 1, also where the call would have nothing to do there, and nothing is changed */
    for (size_t n = 0; n < 3; n++) {
        const size_t m = n == 1 ? 2 : 3, h = n == 2 ? 2 : 3, places = n == 0 ? 2 : 3; /* too long, both; too short, one of them */
        REFUSED(u32_table_record(places, 0, keys, 3 * places, multiplicities, places, holds, places, other_multiplicities, m, other_holds, h, 14, 3, 1, answers, WORDS), U32_TABLE_SHAPE);
        REFUSED(u32_table_record(places, 0, keys, 3 * places, multiplicities, places, holds, places, other_multiplicities, m, other_holds, h, 5, 3, 1, answers, WORDS), U32_TABLE_SHAPE);
        REFUSED(u32_table_record(places, 1, keys, 3 * places, multiplicities, places, holds, places, other_multiplicities, m, other_holds, h, 14, 3, 1, answers, WORDS), U32_TABLE_SHAPE);
        REFUSED(u32_table_hold(places, 0, keys, 3 * places, multiplicities, places, holds, places, other_multiplicities, m, other_holds, h, 14, 3, 1, answers, WORDS), U32_TABLE_SHAPE);
        REFUSED(u32_table_hold(places, 1, keys, 3 * places, multiplicities, places, holds, places, other_multiplicities, m, other_holds, h, 5, 3, 1, answers, WORDS), U32_TABLE_SHAPE);
        STOPPED(u32_table_replay(places, 0, keys, 3 * places, multiplicities, places, holds, places, other_multiplicities, m, other_holds, h, (uint64_t[]){14, 3, 1}, 3, answers, WORDS),
                U32_TABLE_SHAPE, 0, 0);
        lists_kept("a replay with the other's arrays of another length");
        REFUSED(u32_table_read(bytes, 8, places, 0, keys, 3 * places, multiplicities, places, holds, places, other_multiplicities, m, other_holds, h, answers, WORDS), U32_TABLE_SHAPE);
        REFUSED(u32_table_read(bytes, 7, places, 1, keys, 3 * places, multiplicities, places, holds, places, other_multiplicities, m, other_holds, h, answers, WORDS), U32_TABLE_SHAPE);
    }
    /* and where `answers` is too short */
    REFUSED(u32_table_record(PLACES, 0, keys, 12, OWN, OTHER, 14, 3, 1, answers, 1), U32_TABLE_SHAPE);
    REFUSED(u32_table_hold(PLACES, 0, keys, 12, OWN, OTHER, 14, 3, 1, answers, 1), U32_TABLE_SHAPE);
    REFUSED(u32_table_replay(PLACES, 0, keys, 12, OWN, OTHER, (uint64_t[]){14, 3, 1}, 3, answers, 1), U32_TABLE_SHAPE);
    REFUSED(u32_table_read(bytes, 8, PLACES, 0, keys, 12, OWN, OTHER, answers, 0), U32_TABLE_SHAPE);
    memset(holds, 0, sizeof holds), memset(keys, 0, sizeof keys), memset(multiplicities, 0, sizeof multiplicities), memset(bytes, 0, sizeof bytes);
}

static void lists(void) {
    const uint64_t pow2_32 = UINT64_C(1) << 32;
    /* recording: a new key, a known one, places, limits */
    DONE(record(0, U32_TABLE_AND, 3, 1), 2, 0, 1);
    DONE(record(1, U32_TABLE_LT, 2, 3), 2, 1, 2);
    DONE(record(2, U32_TABLE_AND, 3, 1), 2, 0, 2);
    expect("keys", keys[0] == 14 && keys[1] == 3 && keys[2] == 1 && keys[3] == 6 && keys[4] == 2 && keys[5] == 3, 1);
    expect("multiplicities", multiplicities[0] == 2 && multiplicities[1] == 1, 1);
    REFUSED(record(5, 5, 0, 0), U32_TABLE_SHAPE);
    REFUSED(u32_table_record(PLACES, 2, keys, 3 * PLACES - 1, OWN, OTHER, 4, 0, 0, answers, WORDS), U32_TABLE_SHAPE);
    REFUSED(u32_table_record(PLACES, 2, keys, 3 * PLACES, multiplicities, PLACES - 1, holds, PLACES, OTHER, 4, 0, 0, answers, WORDS), U32_TABLE_SHAPE);
    REFUSED(u32_table_record(2049, 2, keys, 3 * PLACES, OWN, OTHER, 4, 0, 0, answers, WORDS), U32_TABLE_SHAPE);
    REFUSED(u32_table_record(PLACES, 2, keys, 3 * PLACES, OWN, OTHER, 4, 0, 0, answers, 1), U32_TABLE_SHAPE);
    REFUSED(record(2, 5, pow2_32, 0), U32_TABLE_STRANGER);
    REFUSED(record(2, U32_TABLE_LOG_2_FLOOR, 0, pow2_32), U32_TABLE_WIDE);
    REFUSED(record(2, U32_TABLE_POW, U32_TABLE_P, pow2_32), U32_TABLE_WIDE);
    REFUSED(record(2, U32_TABLE_LT, 0, U32_TABLE_P), U32_TABLE_WIDE);
    REFUSED(record(2, U32_TABLE_LOG_2_FLOOR, 0, 0), U32_TABLE_BARE_LOG);
    multiplicities[1] = U32_TABLE_P - 1;
    REFUSED(record(2, U32_TABLE_LT, 2, 3), U32_TABLE_COUNT_FULL);
    multiplicities[1] = pow2_32 - 1;
    DONE(record(2, U32_TABLE_LT, 2, 3), 2, 1, 2);
    expect("past 32 bits", multiplicities[1], pow2_32);
    multiplicities[1] = 1;
    /* pow with any base: the key is the reduced one, both words are one key, and a raw key keeps its words */
    DONE(record(2, U32_TABLE_POW, UINT64_MAX, 5), 2, 2, 3);
    expect("reduced", keys[7], pow2_32 - 2);
    DONE(record(3, U32_TABLE_POW, pow2_32 - 2, 5), 2, 2, 3);
    expect("one key", multiplicities[2], 2);
    keys[7] = UINT64_MAX;
    DONE(record(3, U32_TABLE_POW, pow2_32 - 2, 5), 2, 2, 3);
    expect("a raw key stays", keys[7] == UINT64_MAX && multiplicities[2] == 3, 1);
    DONE(plan(3), 2, 10, 256);
    put(3, U32_TABLE_POW, pow2_32 - 2, 5, 1);
    REFUSED(write(4, 0), U32_TABLE_REPEAT);
    DONE(write(3, sizeof bytes), 1, U32_TABLE_STORED_BYTES(3));
    DONE(read(U32_TABLE_STORED_BYTES(3)), 1, 3);
    expect("reads back reduced", keys[7] == pow2_32 - 2 && multiplicities[2] == 3, 1);
    DONE(record(2, U32_TABLE_POW, U32_TABLE_P - 1, 5), 2, 2, 3);
    DONE(record(3, U32_TABLE_POP_COUNT, pow2_32 - 1, 0), 2, 3, 4);
    REFUSED(record(4, U32_TABLE_SPLIT, 0, 0), U32_TABLE_LIST_FULL);

    /* replaying: ten opcodes; the first refused step ends it, and the list is as the steps before it made it */
    memset(keys, 0, sizeof keys), memset(multiplicities, 0, sizeof multiplicities);
    const uint64_t trace[] = {20, 7, 2, 22, 3, 1, 4, UINT64_C(21474836487), UINT64_MAX, 36, 7, 0, 44, 7, 5, 12, 0, 9, 20, 7, 0};
    DONE(replay(0, trace, 0), 2, 0, 0);
    DONE(replay(0, trace, 3), 2, 1, 2);
    STOPPED(replay(2, trace, 21), U32_TABLE_BARE_LOG, 5, 4);
    expect("replayed keys", keys[0] == 6 && keys[1] == 1 && keys[2] == 2 && keys[3] == 4 && keys[4] == 7 && keys[5] == 3, 1);
    expect("replayed keys", keys[6] == 14 && keys[7] == 3 && keys[8] == 1 && keys[9] == 4 && keys[10] == 7 && keys[11] == 5, 1);
    expect("replayed counts", multiplicities[0] == 2 && multiplicities[1] == 4 && multiplicities[2] == 1 && multiplicities[3] == 1, 1);
    STOPPED(replay(4, trace + 18, 3), U32_TABLE_ZERO_DIVISOR, 0, 4);
    lists_kept("13 keeps the list");
    STOPPED(replay(3, (uint64_t[]){6, 9, 9, 20, 11, 4}, 6), U32_TABLE_LIST_FULL, 1, 4);
    expect("6 in div_mod after one step", keys[9] == 6 && keys[10] == 9 && keys[11] == 9 && multiplicities[3] == 1, 1);
    multiplicities[0] = U32_TABLE_P - 1;
    STOPPED(replay(4, (uint64_t[]){20, 9, 2}, 3), U32_TABLE_COUNT_FULL, 0, 4);
    lists_kept("lt's 5 before split's 6");
    STOPPED(replay(4, (uint64_t[]){4, U32_TABLE_P, 0}, 3), U32_TABLE_WIDE, 0, 4);
    STOPPED(replay(4, (uint64_t[]){20, pow2_32, 0}, 3), U32_TABLE_WIDE, 0, 4);
    STOPPED(replay(4, (uint64_t[]){4 + pow2_32, 0, 0}, 3), U32_TABLE_STRANGER, 0, 4);
    STOPPED(replay(4, trace, 2), U32_TABLE_SHAPE, 0, 4);
    STOPPED(replay(5, trace, 0), U32_TABLE_SHAPE, 0, 5);
    lists_kept("refused steps keep the list");
    REFUSED(u32_table_replay(PLACES, 0, keys, 3 * PLACES, OWN, OTHER, trace, 3, answers, 1), U32_TABLE_SHAPE);
    put(0, U32_TABLE_AND, 3, 1, 2), put(1, U32_TABLE_LT, 2, 3, 1);
    put(2, U32_TABLE_POW, U32_TABLE_P - 1, 5, 1), put(3, U32_TABLE_POP_COUNT, pow2_32 - 1, 0, 1);

    /* comparison, on any words */
    DONE(u32_table_compare(4, 9, 9, 6, 0, 0, answers, WORDS), 1, U32_TABLE_LESS);
    DONE(u32_table_compare(99, 1, 7, 99, 1, 7, answers, WORDS), 1, U32_TABLE_EQUAL);
    DONE(u32_table_compare(4, 2, 0, 4, 1, UINT64_MAX, answers, WORDS), 1, U32_TABLE_GREATER);
    REFUSED(u32_table_compare(4, 2, 0, 4, 1, 0, answers, 0), U32_TABLE_SHAPE);

    /* the plan: and 3, 1 takes 3 rows, lt 2, 3 takes 3, pow to the 5 takes 4, pop_count of 2^32 - 1 takes 33 */
    DONE(plan(4), 2, 43, 256);
    DONE(plan(0), 2, 0, 256);
    REFUSED(plan(5), U32_TABLE_SHAPE);
    REFUSED(u32_table_plan(PLACES, 4, keys, 3 * PLACES, OWN, answers, 1), U32_TABLE_SHAPE);
    keys[3] = 7;
    REFUSED(plan(2), U32_TABLE_STRANGER);
    keys[3] = 6, keys[4] = pow2_32;
    REFUSED(plan(2), U32_TABLE_WIDE);
    keys[3] = 12, keys[4] = 0;
    REFUSED(plan(2), U32_TABLE_BARE_LOG);
    keys[3] = 6, keys[4] = 2, multiplicities[1] = U32_TABLE_P;
    REFUSED(plan(2), U32_TABLE_COUNT_FULL);
    multiplicities[1] = 1;

    /* writing: 8 + 25 N bytes, and the rest is untouched */
    memset(bytes, MARK, sizeof bytes);
    DONE(write(4, sizeof bytes), 1, U32_TABLE_STORED_BYTES(4));
    expect("entries and height", bytes[0] == 4 && bytes[4] == 43 && (bytes[1] | bytes[2] | bytes[3] | bytes[5]) == 0, 1);
    expect("first key", bytes[8] == 14 && bytes[9] == 3 && bytes[17] == 1, 1);
    expect("first multiplicity", bytes[8 + 17 * 4], 2);
    expect("bytes past the end", bytes[8 + 25 * 4], MARK);
    REFUSED(write(5, sizeof bytes), U32_TABLE_SHAPE);
    REFUSED(u32_table_write(PLACES, 4, keys, 3 * PLACES, OWN, bytes, sizeof bytes, answers, 0), U32_TABLE_SHAPE);
    REFUSED(write(4, U32_TABLE_STORED_BYTES(4) - 1), U32_TABLE_SHORT);
    multiplicities[0] = U32_TABLE_P;
    REFUSED(write(4, sizeof bytes), U32_TABLE_COUNT_FULL);
    multiplicities[0] = 2;
    put(3, 14, 3, 1, 1);
    REFUSED(write(4, 0), U32_TABLE_REPEAT);
    put(3, 28, pow2_32 - 1, 0, 1);

    /* reading: what was written comes back; places past N are untouched */
    DONE(write(3, sizeof bytes), 1, U32_TABLE_STORED_BYTES(3));
    put(0, MARK, MARK, MARK, MARK), put(1, 0, 0, 0, 0), put(2, 0, 0, 0, 0), put(3, MARK, MARK, MARK, MARK);
    DONE(read(U32_TABLE_STORED_BYTES(3)), 1, 3);
    expect("read", keys[0] == 14 && keys[1] == 3 && keys[6] == 30 && keys[7] == U32_TABLE_P - 1 && multiplicities[0] == 2, 1);
    expect("places past N", keys[9] == MARK && multiplicities[3] == MARK, 1);
    const size_t full = U32_TABLE_STORED_BYTES(3), old = 8 + 21 * 3;
    REFUSED(u32_table_read(bytes, full, PLACES, 5, keys, 3 * PLACES, OWN, OTHER, answers, WORDS), U32_TABLE_SHAPE);
    REFUSED(u32_table_read(bytes, full, PLACES, 0, keys, 3 * PLACES, OWN, OTHER, answers, 0), U32_TABLE_SHAPE);
    REFUSED(read(full - 1), U32_TABLE_TORN);
    REFUSED(u32_table_read(bytes, full, 2, 0, keys, 6, multiplicities, 2, holds, 2, other_multiplicities, 2, other_holds, 2, answers, WORDS), U32_TABLE_LIST_FULL);
    bytes[8] = 5;
    REFUSED(read(full), U32_TABLE_STRANGER);
    bytes[8] = 14, bytes[9 + 7] = 1;
    REFUSED(read(full), U32_TABLE_WIDE);
    bytes[9 + 7] = 0, bytes[9 + 17 * 2] = 1;
    REFUSED(read(full), U32_TABLE_WIDE); /* p as the base of pow */
    bytes[9 + 17 * 2] = 0, bytes[8] = 12, bytes[9] = 0;
    REFUSED(read(full), U32_TABLE_BARE_LOG);
    bytes[8] = 6, bytes[9] = 2, bytes[17] = 3;
    REFUSED(read(full), U32_TABLE_REPEAT);
    bytes[8] = 14, bytes[9] = 3, bytes[17] = 1, bytes[4] ^= 1;
    REFUSED(read(full), U32_TABLE_TALLY);

    /* a multiplicity of p: after BARE_LOG, before the next entry, REPEAT and TALLY */
    uint8_t *count = bytes + 8 + 17 * 3;
    count[0] = 1, memset(count + 4, 255, 4), bytes[8 + 17] = 5;
    REFUSED(read(full), U32_TABLE_COUNT_FULL);
    bytes[8 + 17] = 6, count[0] = 0, bytes[4] ^= 1;
    DONE(read(full), 1, 3);
    expect("a multiplicity of p - 1", multiplicities[0], U32_TABLE_P - 1);

    /* the old length: multiplicities of 4 bytes; a list of the new length that was cut to it is read so too */
    REFUSED(read(old - 1), U32_TABLE_TORN);
    REFUSED(read(old + 1), U32_TABLE_TORN);
    DONE(read(old), 1, 3);
    expect("halves", multiplicities[0] == 0 && multiplicities[1] == pow2_32 - 1 && multiplicities[2] == 1, 1);
    DONE(write(3, sizeof bytes), 1, U32_TABLE_STORED_BYTES(2));
    expect("without the first", bytes[0] == 2 && bytes[8] == 6 && bytes[8 + 17] == 30, 1);
}

static void tables(void) {
    static const uint64_t last[10] = {0, 0, UINT64_C(15651782846776010939), 6, 0, 0, 0, 0, 2, 0};
    put(0, 14, 3, 1, 2), put(1, 6, 2, 3, 1), put(2, 30, U32_TABLE_P - 1, 5, 1), put(3, 6, 0, 0, 1);
    for (int i = 0; i < 10 * ROWS; i++) table[i] = MARK;
    for (int i = 0; i < 3 * ROWS; i++) aux[i] = MARK;
    for (int i = 0; i < 15; i++) challenges[i] = (uint64_t)(1000 + 77 * i);

    /* filling: 3 + 3 + 4 + 1 rows */
    REFUSED(fill(5, 16), U32_TABLE_SHAPE);
    REFUSED(u32_table_fill(PLACES, 4, keys, 12, OWN, table, 159, answers, WORDS), U32_TABLE_SHAPE);
    REFUSED(u32_table_fill(PLACES, 4, keys, 12, OWN, table, 160, answers, 0), U32_TABLE_SHAPE);
    keys[3] = 7;
    REFUSED(fill(4, 16), U32_TABLE_STRANGER);
    keys[3] = 6, keys[5] = UINT64_C(1) << 32;
    REFUSED(fill(4, 16), U32_TABLE_WIDE);
    keys[5] = 3, keys[9] = 12;
    REFUSED(fill(4, 16), U32_TABLE_BARE_LOG);
    keys[9] = 6, multiplicities[3] = U32_TABLE_P;
    REFUSED(fill(4, 16), U32_TABLE_COUNT_FULL);
    multiplicities[3] = 1;
    REFUSED(fill(4, 10), U32_TABLE_SHORT);
    DONE(fill(4, 16), 1, 11);
    expect("first row", table[0] == 1 && table[3] == 14 && table[4] == 3 && table[6] == 1 && table[8] == 1 && table[9] == 2, 1);
    expect("lt 2, 3", table[30 + U32_TABLE_RESULT], 1);
    expect("rows past the height", table[110], MARK);

    /* padding: Result 2 after lt 0, 0 */
    keep();
    expect("pad shape", u32_table_pad(table, 159, 11), U32_TABLE_SHAPE);
    expect("pad short", u32_table_pad(table, 160, 17), U32_TABLE_SHORT);
    table[105] = U32_TABLE_P, keep();
    expect("pad unreduced", u32_table_pad(table, 160, 11), U32_TABLE_UNREDUCED);
    tables_kept("pad");
    table[105] = 0;
    expect("pad", u32_table_pad(table, 160, 11), 0);
    expect("padding", (uint64_t)memcmp(table + 150, last, sizeof last), 0);
    expect("rows past the table", table[160], MARK);

    /* extension */
    REFUSED(u32_table_extend(table, 160, aux, 47, challenges, 15, answers, WORDS), U32_TABLE_SHAPE);
    REFUSED(u32_table_extend(table, 160, aux, 48, challenges, 14, answers, WORDS), U32_TABLE_SHAPE);
    REFUSED(u32_table_extend(table, 160, aux, 48, challenges, 15, answers, 2), U32_TABLE_SHAPE);
    challenges[3] = U32_TABLE_P;
    REFUSED(extend(16), U32_TABLE_UNREDUCED);
    challenges[3] = 1000 + 77 * 3;
    uint64_t zeros[15] = {0};
    REFUSED(u32_table_extend(table, 160, aux, 48, zeros, 15, answers, WORDS), U32_TABLE_FLAT);
    keep();
    expect("extend", extend(16), 0);
    answered("the last sum", 3, aux + 45);
    expect("aux past the rows", aux[48], MARK);
    DONE(extend(0), 3, 0, 0, 0);

    /* the check: zero and nothing more; what it refuses; a forged comparison */
    DONE(check(16), 1, 0);
    REFUSED(u32_table_check(table, 160, aux, 48, challenges, 15, answers, 6), U32_TABLE_SHAPE);
    REFUSED(u32_table_check(table, 160, aux, 45, challenges, 15, answers, WORDS), U32_TABLE_SHAPE);
    REFUSED(check(0), U32_TABLE_SHORT);
    uint64_t sum = aux[0];
    aux[0] = U32_TABLE_P;
    REFUSED(check(16), U32_TABLE_UNREDUCED);
    aux[0] = sum;
    table[30 + U32_TABLE_RESULT] = 0;
    expect("extend", extend(16), 0);
    keep();
    expect("forged", check(16), 0);
    expect("not zero", answers[0], 1);
    expect("group", answers[1], 2);
    expect("row", answers[2], 3);
    expect("value", answers[4] != 0 || answers[5] != 0 || answers[6] != 0, 1);
    expect("past the answers", answers[7], MARK);
    printf("lt 2, 3 with Result 0: nonzero, group %" PRIu64 " row %" PRIu64 " index %" PRIu64 "\n", answers[1], answers[2], answers[3]);
}

/* the client's sum: known values, refusals request by request, and that it is the last sum of the table that is filled with the recordings */
static void client_sums(void) {
    const uint64_t pow2_32 = UINT64_C(1) << 32;
    const uint64_t zeros[15] = {0}, one[15] = {1}, w[15] = {7, 0, 0, 1, 0, 0, 2, 0, 0, 3, 0, 0, 5}, f[15] = {52, 0, 0, 1, 0, 0, 2, 0, 0, 3, 0, 0, 5};
    const uint64_t five[15] = {5, 0, 0, 1}, two[15] = {2, 0, 0, 1};
    uint64_t high[15] = {0};
    high[14] = U32_TABLE_P;
    DONE(client(NULL, 0, zeros), 3, 0, 0, 0);
    DONE(client((uint64_t[]){14, 3, 1, 14, 3, 1}, 6, one), 3, 2, 0, 0);
    DONE(client((uint64_t[]){14, 3, 1}, 3, w), 3, UINT64_C(6558842335791852203), 0, 0);
    DONE(client((uint64_t[]){4, 7, 5}, 3, w), 3, UINT64_C(14254302235456724248), 0, 0);
    DONE(client((uint64_t[]){30, 0, 0}, 3, w), 3, UINT64_C(3563575558864181062), 0, 0);
    DONE(client((uint64_t[]){30, U32_TABLE_P, 0}, 3, w), 3, UINT64_C(3563575558864181062), 0, 0);
    DONE(client((uint64_t[]){30, U32_TABLE_P + 2, 3}, 3, five), 3, UINT64_C(12297829379609722881), 0, 0);
    REFUSED(client((uint64_t[]){30, U32_TABLE_P + 2, 3}, 3, two), U32_TABLE_FLAT);
    REFUSED(u32_table_client_sum((uint64_t[]){5, 0, 0}, 3, high, 14, answers, WORDS), U32_TABLE_SHAPE);
    REFUSED(u32_table_client_sum((uint64_t[]){5, 0, 0}, 3, high, 15, answers, 2), U32_TABLE_SHAPE);
    REFUSED(client((uint64_t[]){5, 0}, 2, high), U32_TABLE_SHAPE);
    REFUSED(client((uint64_t[]){5, 0, 0}, 3, high), U32_TABLE_UNREDUCED);
    REFUSED(client(NULL, 0, high), U32_TABLE_UNREDUCED);
    REFUSED(client((uint64_t[]){5, pow2_32, 0}, 3, zeros), U32_TABLE_STRANGER);
    REFUSED(client((uint64_t[]){14, U32_TABLE_P, 0}, 3, zeros), U32_TABLE_WIDE);
    REFUSED(client((uint64_t[]){12, 0, pow2_32}, 3, zeros), U32_TABLE_WIDE);
    REFUSED(client((uint64_t[]){12, 0, 0}, 3, zeros), U32_TABLE_BARE_LOG);
    REFUSED(client((uint64_t[]){14, 3, 1, 5, 0, 0}, 6, f), U32_TABLE_FLAT);
    REFUSED(client((uint64_t[]){5, 0, 0, 14, 3, 1}, 6, f), U32_TABLE_STRANGER);

    /* and 3, 1 twice and lt 2, 3 once */
    const uint64_t requests[] = {14, 3, 1, 6, 2, 3, 14, 3, 1};
    put(0, 14, 3, 1, 2), put(1, 6, 2, 3, 1);
    expect("fill", fill(2, 8), 0);
    expect("pad", u32_table_pad(table, 80, 6), 0);
    expect("extend", extend(8), 0);
    const uint64_t last[3] = {answers[0], answers[1], answers[2]};
    DONE(client(requests, 9, challenges), 3, last[0], last[1], last[2]);
}

/* ---- the lookup tables */
static uint16_t values[3];
static uint64_t counts[3], byte_counts[256], sums[768], weights[9];
static struct {
    uint16_t values[3];
    uint64_t counts[3], byte_counts[256], sums[768], weights[9];
} lookup_copy;

static void keep_lookups(void) {
    keep();
    memcpy(lookup_copy.values, values, sizeof values);
    memcpy(lookup_copy.counts, counts, sizeof counts);
    memcpy(lookup_copy.byte_counts, byte_counts, sizeof byte_counts);
    memcpy(lookup_copy.sums, sums, sizeof sums);
    memcpy(lookup_copy.weights, weights, sizeof weights);
}

static void lookups_refused(const char *what, uint64_t got, uint64_t wanted) {
    expect(what, got, wanted);
    answered(what, 0, NULL);
    expect(what, (uint64_t)(memcmp(lookup_copy.values, values, sizeof values) | memcmp(lookup_copy.counts, counts, sizeof counts)), 0);
    expect(what, (uint64_t)(memcmp(lookup_copy.byte_counts, byte_counts, sizeof byte_counts) | memcmp(lookup_copy.sums, sums, sizeof sums)), 0);
    expect(what, (uint64_t)memcmp(lookup_copy.weights, weights, sizeof weights), 0);
}
#define NOT_LOOKED_UP(call, wanted) (keep_lookups(), lookups_refused(#call, call, wanted))

static uint64_t look_up(size_t used, uint16_t value) {
    return u32_table_look_up(3, used, values, 3, counts, 3, byte_counts, 256, value, answers, WORDS);
}
static uint64_t byte_sum(void) { return u32_table_byte_sum(byte_counts, 256, weights, 9, sums, 768, answers, WORDS); }
static uint64_t cascade_sum(size_t used) {
    return u32_table_cascade_sum(3, used, values, 3, counts, 3, weights, 9, sums, 9, answers, WORDS);
}

static void lookups(void) {
    static const struct {
        uint8_t byte;
        uint64_t output;
    } outputs[] = {{0, 0}, {1, 7}, {2, 26}, {3, 63}, {4, 124}, {127, 31}, {128, 224}, {253, 229}, {254, 248}, {255, 255}};
    for (size_t i = 0; i < sizeof outputs / sizeof *outputs; i++) DONE(u32_table_byte_lookup(outputs[i].byte, answers, WORDS), 1, outputs[i].output);
    DONE(u32_table_cascade_lookup(258, answers, WORDS), 1, 1818);
    DONE(u32_table_cascade_lookup(32767, answers, WORDS), 1, 8191);
    DONE(u32_table_cascade_lookup(65279, answers, WORDS), 1, 63743);
    REFUSED(u32_table_byte_lookup(1, answers, 0), U32_TABLE_SHAPE);
    REFUSED(u32_table_cascade_lookup(1, answers, 0), U32_TABLE_SHAPE);

    /* recording: a new value, a known one, equal bytes; unused places hold anything */
    for (int i = 0; i < 3; i++) values[i] = 9, counts[i] = 5;
    DONE(look_up(0, 258), 1, 1);
    DONE(look_up(1, 258), 1, 1);
    DONE(look_up(1, 257), 1, 2);
    DONE(look_up(2, 0), 1, 3);
    NOT_LOOKED_UP(look_up(3, 511), U32_TABLE_CASCADE_FULL);
    expect("values", values[0] == 258 && values[1] == 257 && values[2] == 0 && counts[0] == 2 && counts[1] == 1 && counts[2] == 1, 1);
    expect("bytes", byte_counts[0] == 2 && byte_counts[1] == 3 && byte_counts[2] == 1 && byte_counts[3] == 0, 1);
    NOT_LOOKED_UP(u32_table_look_up(3, 4, values, 3, counts, 3, byte_counts, 256, 0, answers, WORDS), U32_TABLE_SHAPE);
    NOT_LOOKED_UP(u32_table_look_up(3, 2, values, 2, counts, 3, byte_counts, 256, 0, answers, WORDS), U32_TABLE_SHAPE);
    NOT_LOOKED_UP(u32_table_look_up(3, 2, values, 3, counts, 2, byte_counts, 256, 0, answers, WORDS), U32_TABLE_SHAPE);
    NOT_LOOKED_UP(u32_table_look_up(3, 2, values, 3, counts, 3, byte_counts, 255, 0, answers, WORDS), U32_TABLE_SHAPE);
    NOT_LOOKED_UP(u32_table_look_up(65537, 2, values, 65537, counts, 65537, byte_counts, 256, 0, answers, WORDS), U32_TABLE_SHAPE);
    NOT_LOOKED_UP(u32_table_look_up(3, 2, values, 3, counts, 3, byte_counts, 256, 0, answers, 0), U32_TABLE_SHAPE);
    /* the limit: 5 before 14; equal bytes gain two; a known value does not look at its bytes */
    byte_counts[7] = U32_TABLE_P - 2;
    NOT_LOOKED_UP(look_up(3, 1799), U32_TABLE_COUNT_FULL);
    NOT_LOOKED_UP(look_up(3, 1800), U32_TABLE_CASCADE_FULL);
    DONE(look_up(2, 1800), 1, 3);
    expect("at the limit", byte_counts[7] == U32_TABLE_P - 1 && byte_counts[8] == 1, 1);
    DONE(look_up(3, 1800), 1, 3);
    NOT_LOOKED_UP(look_up(2, 7), U32_TABLE_COUNT_FULL);
    byte_counts[7] = UINT64_MAX;
    NOT_LOOKED_UP(look_up(2, 1799), U32_TABLE_COUNT_FULL);
    counts[0] = U32_TABLE_P - 1;
    NOT_LOOKED_UP(look_up(3, 258), U32_TABLE_COUNT_FULL);

    /* the sums: weights 0 and indeterminate 1 count; the order of the challenges; a denominator of zero whatever its multiplicity */
    memset(byte_counts, 0, sizeof byte_counts), byte_counts[1] = 2, byte_counts[255] = 3;
    for (int i = 0; i < 768; i++) sums[i] = MARK;
    NOT_LOOKED_UP(byte_sum(), U32_TABLE_FLAT);
    weights[6] = 1;
    DONE(byte_sum(), 3, 5, 0, 0);
    expect("sums so far", sums[0] == 0 && sums[3] == 2 && sums[762] == 2 && sums[765] == 5, 1);
    weights[0] = 1, weights[6] = 300;
    DONE(byte_sum(), 3, UINT64_C(6173592608292372590), 0, 0);
    weights[6] = 200;
    NOT_LOOKED_UP(byte_sum(), U32_TABLE_FLAT);
    weights[8] = U32_TABLE_P;
    NOT_LOOKED_UP(byte_sum(), U32_TABLE_UNREDUCED);
    weights[8] = 0, byte_counts[255] = U32_TABLE_P;
    NOT_LOOKED_UP(byte_sum(), U32_TABLE_UNREDUCED);
    NOT_LOOKED_UP(u32_table_byte_sum(byte_counts, 255, weights, 9, sums, 768, answers, WORDS), U32_TABLE_SHAPE);
    NOT_LOOKED_UP(u32_table_byte_sum(byte_counts, 256, weights, 8, sums, 768, answers, WORDS), U32_TABLE_SHAPE);
    NOT_LOOKED_UP(u32_table_byte_sum(byte_counts, 256, weights, 9, sums, 767, answers, WORDS), U32_TABLE_SHAPE);
    NOT_LOOKED_UP(u32_table_byte_sum(byte_counts, 256, weights, 9, sums, 768, answers, 2), U32_TABLE_SHAPE);
    values[0] = 258, values[1] = 0, values[2] = 258, counts[0] = 2, counts[1] = 1, counts[2] = UINT64_MAX;
    for (int i = 0; i < 9; i++) weights[i] = (uint64_t)i + 1, sums[i] = MARK;
    DONE(cascade_sum(2), 3, UINT64_C(15290194053451644138), UINT64_C(12875512383110712106), UINT64_C(6833187814339853869));
    expect("the first sum", sums[0] == UINT64_C(12112456093630427113) && sums[6] == MARK && sums[8] == MARK, 1);
    NOT_LOOKED_UP(cascade_sum(3), U32_TABLE_UNREDUCED);
    counts[2] = 0, memset(weights, 0, sizeof weights), weights[0] = 1, weights[6] = 258;
    NOT_LOOKED_UP(cascade_sum(3), U32_TABLE_FLAT);
    DONE(cascade_sum(0), 3, 0, 0, 0);
    NOT_LOOKED_UP(u32_table_cascade_sum(3, 2, values, 3, counts, 3, weights, 9, sums, 6, answers, WORDS), U32_TABLE_SHAPE);
    NOT_LOOKED_UP(u32_table_cascade_sum(3, 4, values, 3, counts, 3, weights, 9, sums, 9, answers, WORDS), U32_TABLE_SHAPE);
    NOT_LOOKED_UP(u32_table_cascade_sum(3, 2, values, 3, counts, 3, weights, 9, sums, 9, answers, 2), U32_TABLE_SHAPE);
}

/* ---- archives */
static uint64_t rows_in[20], sums_in[6], rows_back[30], sums_back[9];
static uint8_t archived[U32_TABLE_ARCHIVE_BYTES(2) + 2];

static uint64_t archive(size_t words, size_t aux_words, size_t n) {
    memset(archived, 0xee, sizeof archived);
    return u32_table_archive(rows_in, words, sums_in, aux_words, archived, n);
}
static uint64_t restore(size_t n, size_t rows) {
    for (int i = 0; i < 30; i++) rows_back[i] = 9;
    for (int i = 0; i < 9; i++) sums_back[i] = 8;
    return u32_table_restore(archived, n, rows_back, 10 * rows, sums_back, 3 * rows);
}
static uint64_t word(size_t k) {
    uint64_t value = 0;
    for (size_t i = 8; i-- > 0;) value = value << 8 | archived[8 * k + i];
    return value;
}
static void put_word(size_t k, uint64_t value) {
    for (size_t i = 0; i < 8; i++) archived[8 * k + i] = (uint8_t)(value >> 8 * i);
}
/* from byte n on nothing is written */
static void bytes_kept(const char *what, size_t n) {
    for (; n < sizeof archived; n++) expect(what, archived[n], 0xee);
}
/* from row n on nothing is written */
static void rows_kept(const char *what, int n) {
    for (int i = 10 * n; i < 30; i++) expect(what, rows_back[i], 9);
    for (int i = 3 * n; i < 9; i++) expect(what, sums_back[i], 8);
}
#define NOT_ARCHIVED(call, wanted) (expect(#call, call, wanted), bytes_kept(#call, 0))
#define NOT_RESTORED(call, wanted) (expect(#call, call, wanted), rows_kept(#call, 0))

static void archives(void) {
    for (uint64_t i = 0; i < 20; i++) rows_in[i] = i + 1;
    for (uint64_t i = 0; i < 6; i++) sums_in[i] = i + 1000;
    expect("archive", archive(20, 6, 218), 0);
    expect("row count", word(0), 2);
    for (uint64_t c = 0; c < 10; c++) expect("column", word(1 + 2 * c) == c + 1 && word(2 + 2 * c) == c + 11, 1);
    for (uint64_t c = 0; c < 3; c++) expect("sum column", word(21 + 2 * c) == c + 1000 && word(22 + 2 * c) == c + 1003, 1);
    bytes_kept("past the archive", 216);

    /* back, onto more rows, as many, and fewer */
    expect("restore", restore(216, 3), 0);
    expect("rows", (uint64_t)(memcmp(rows_back, rows_in, sizeof rows_in) | memcmp(sums_back, sums_in, sizeof sums_in)), 0);
    rows_kept("past the rows", 2);
    expect("restore", restore(216, 2), 0);
    NOT_RESTORED(restore(216, 1), U32_TABLE_SHORT);
    NOT_RESTORED(restore(215, 3), U32_TABLE_TORN);
    NOT_RESTORED(restore(217, 3), U32_TABLE_TORN);
    NOT_RESTORED(u32_table_restore(archived, 0, rows_back, 29, sums_back, 9), U32_TABLE_SHAPE);
    NOT_RESTORED(u32_table_restore(archived, 0, rows_back, 30, sums_back, 8), U32_TABLE_SHAPE);
    /* 8 in each column, and 10 and 7 before it */
    for (size_t k = 1; k < 27; k++) {
        uint64_t old = word(k);
        put_word(k, U32_TABLE_P);
        NOT_RESTORED(restore(216, 3), U32_TABLE_UNREDUCED);
        NOT_RESTORED(restore(216, 1), U32_TABLE_SHORT);
        NOT_RESTORED(restore(208, 1), U32_TABLE_TORN);
        put_word(k, U32_TABLE_P - 1);
        expect("p - 1", restore(216, 3), 0);
        put_word(k, old);
    }

    /* archiving refuses: 1, then 7, then 8 */
    rows_in[19] = U32_TABLE_P;
    NOT_ARCHIVED(archive(19, 6, 218), U32_TABLE_SHAPE);
    NOT_ARCHIVED(archive(20, 5, 218), U32_TABLE_SHAPE);
    NOT_ARCHIVED(archive(20, 6, 215), U32_TABLE_SHORT);
    NOT_ARCHIVED(archive(20, 6, 216), U32_TABLE_UNREDUCED);
    rows_in[19] = 20, sums_in[5] = U32_TABLE_P;
    NOT_ARCHIVED(archive(20, 6, 216), U32_TABLE_UNREDUCED);
    sums_in[5] = 1005;

    /* no rows, and row counts that the bytes do not have: 2^61 + 1 would wrap to the length of one row */
    expect("no rows", archive(0, 0, 9), 0);
    expect("its row count", word(0), 0);
    bytes_kept("past no rows", 8);
    NOT_ARCHIVED(archive(0, 0, 7), U32_TABLE_SHORT);
    memset(archived, 0, sizeof archived);
    for (size_t n = 0; n < 10; n++) {
        expect("eight bytes of no rows", restore(n, 1), n == 8 ? 0 : U32_TABLE_TORN);
        rows_kept("no rows", 0);
    }
    put_word(0, 1);
    expect("a row of zeros", restore(112, 1), 0);
    expect("its words", rows_back[0] == 0 && rows_back[9] == 0 && rows_back[10] == 9 && sums_back[2] == 0 && sums_back[3] == 8, 1);
    NOT_RESTORED(restore(8, 1), U32_TABLE_TORN);
    put_word(0, (UINT64_C(1) << 61) + 1);
    NOT_RESTORED(restore(112, 1), U32_TABLE_TORN);
    put_word(0, U32_TABLE_MAX_ROWS + 1);
    NOT_RESTORED(restore(112, 1), U32_TABLE_TORN);
    memset(archived, 0xff, sizeof archived);
    NOT_RESTORED(restore(8, 1), U32_TABLE_TORN);
    put_word(0, 1);
    NOT_RESTORED(restore(112, 0), U32_TABLE_SHORT);
    NOT_RESTORED(restore(112, 1), U32_TABLE_UNREDUCED);

    /* the most rows, and one more */
    enum { MOST = U32_TABLE_MAX_ROWS };
    static uint64_t table_in[10 * (MOST + 1)], aux_in[3 * (MOST + 1)], table_back[10 * (MOST + 1)], aux_back[3 * (MOST + 1)];
    static uint8_t large[U32_TABLE_ARCHIVE_BYTES(MOST + 1)];
    for (uint64_t i = 0; i < 10 * MOST; i++) table_in[i] = (i + 1) * UINT64_C(0x9e3779b97f4a7c15) >> 1;
    for (uint64_t i = 0; i < 3 * MOST; i++) aux_in[i] = (i + 7) * UINT64_C(0xc2b2ae3d27d4eb4f) >> 1;
    memset(table_back, 0xee, sizeof table_back), memset(aux_back, 0xee, sizeof aux_back);
    expect("131,073 rows", u32_table_archive(table_in, 10 * (MOST + 1), aux_in, 3 * (MOST + 1), large, sizeof large), U32_TABLE_SHAPE);
    expect("131,072 rows", u32_table_archive(table_in, 10 * MOST, aux_in, 3 * MOST, large, sizeof large), 0);
    expect("back onto 131,073 rows", u32_table_restore(large, U32_TABLE_ARCHIVE_BYTES(MOST), table_back, 10 * (MOST + 1), aux_back, 3 * (MOST + 1)), U32_TABLE_SHAPE);
    expect("untouched", table_back[0] == aux_back[0] && table_back[0] == UINT64_C(0xeeeeeeeeeeeeeeee), 1);
    expect("back", u32_table_restore(large, U32_TABLE_ARCHIVE_BYTES(MOST), table_back, 10 * MOST, aux_back, 3 * MOST), 0);
    expect("word for word", (uint64_t)(memcmp(table_in, table_back, 80 * MOST) | memcmp(aux_in, aux_back, 24 * MOST)), 0);
    expect("the last word", large[U32_TABLE_ARCHIVE_BYTES(MOST) - 1], aux_in[3 * MOST - 1] >> 56);
}

/* ---- batches */
static uint64_t results[9];
static uint64_t batches(const uint64_t *jobs, size_t n, uint64_t setting, size_t words) {
    for (int i = 0; i < 9; i++) results[i] = MARK;
    return u32_table_batches(jobs, n, setting, results, words, answers, WORDS);
}
static void listed(const char *what, const uint64_t *wanted) { expect(what, (uint64_t)memcmp(results, wanted, sizeof results), 0); }
#define LISTED(...) listed("results", (uint64_t[9]){__VA_ARGS__})
#define KEPT() LISTED(MARK, MARK, MARK, MARK, MARK, MARK, MARK, MARK, MARK)

static void batch_sizes(void) {
    const uint64_t threes[] = {3, 3, 3}, full[] = {5, 0, 0, 5}, large[] = {U32_TABLE_MAX_ROWS, 1}, most[] = {UINT64_MAX, UINT64_MAX};
    DONE(batches(threes, 3, 6, 9), 2, 2, 503);
    LISTED(2, 6, 256, 1, 3, 256, MARK, MARK, MARK);
    DONE(batches(threes, 3, 9, 3), 2, 1, 247);
    LISTED(3, 9, 256, MARK, MARK, MARK, MARK, MARK, MARK);
    DONE(batches(full, 4, 5, 9), 2, 2, 502);
    LISTED(3, 5, 256, 1, 5, 256, MARK, MARK, MARK);
    DONE(batches(large, 2, U32_TABLE_MAX_ROWS, 9), 2, 2, 255);
    LISTED(1, U32_TABLE_MAX_ROWS, U32_TABLE_MAX_ROWS, 1, 1, 256, MARK, MARK, MARK);
    DONE(batches(threes, 0, 1, 0), 2, 0, 0);
    KEPT();
    REFUSED(batches(threes, 3, 0, 9), U32_TABLE_SHAPE);
    REFUSED(batches(threes, 3, U32_TABLE_MAX_ROWS + 1, 9), U32_TABLE_SHAPE);
    REFUSED(batches(most, 2, UINT64_MAX, 9), U32_TABLE_SHAPE);
    REFUSED(batches(most, 2, 6, 8), U32_TABLE_SHAPE);
    REFUSED(batches(most, 2, 6, 0), U32_TABLE_JOB_ABOVE);
    REFUSED(batches(threes, 3, 2, 9), U32_TABLE_JOB_ABOVE);
    REFUSED(batches(threes, 3, 6, 3), U32_TABLE_SHORT);
    REFUSED(u32_table_batches(most, 2, 6, results, 0, answers, 1), U32_TABLE_SHAPE);
    KEPT();
}

/* ---- the most places that a list may have, and one more */
enum { MOST_PLACES = 2048 };
static struct {
    uint64_t keys[3 * (MOST_PLACES + 1)], multiplicities[MOST_PLACES + 1], holds[MOST_PLACES + 1], other_multiplicities[MOST_PLACES + 1], other_holds[MOST_PLACES + 1];
} many, many_due;

static uint64_t record_among_many(size_t places, size_t used, uint64_t lhs, uint64_t rhs) {
    return u32_table_record(places, used, many.keys, 3 * places, many.multiplicities, places, many.holds, places, many.other_multiplicities, places, many.other_holds, places,
                            U32_TABLE_LT, lhs, rhs, answers, WORDS);
}

#define MANY_DUE() expect("the arrays of many places", (uint64_t)memcmp(&many, &many_due, sizeof many), 0)

/* a key for each place; then a key more, and the first key again; then a place more */
static void many_places(void) {
    memset(&many, MARK, sizeof many);
    many_due = many;
    for (size_t i = 0; i < MOST_PLACES; i++) {
        DONE(record_among_many(MOST_PLACES, i, i, 1), 2, i, i + 1);
        many_due.keys[3 * i] = U32_TABLE_LT, many_due.keys[3 * i + 1] = i, many_due.keys[3 * i + 2] = 1;
        many_due.multiplicities[i] = 1, many_due.holds[i] = many_due.other_multiplicities[i] = many_due.other_holds[i] = 0;
    }
    MANY_DUE();
    REFUSED(record_among_many(MOST_PLACES, MOST_PLACES, 0, 0), U32_TABLE_LIST_FULL);
    MANY_DUE();
    DONE(record_among_many(MOST_PLACES, MOST_PLACES, 0, 1), 2, 0, MOST_PLACES);
    many_due.multiplicities[0] = 2;
    MANY_DUE();
    REFUSED(record_among_many(MOST_PLACES + 1, 0, 1, 1), U32_TABLE_SHAPE);
    REFUSED(record_among_many(MOST_PLACES + 1, MOST_PLACES, 0, 1), U32_TABLE_SHAPE);
    MANY_DUE();
}

/* a pointer to no elements may be NULL */
static void no_arrays(void) {
    expect("archive of no rows", u32_table_archive(NULL, 0, NULL, 0, bytes, 8), 0);
    expect("back", u32_table_restore(bytes, 8, NULL, 0, NULL, 0), 0);
    expect("archive to no bytes", u32_table_archive(NULL, 0, NULL, 0, NULL, 0), U32_TABLE_SHORT);
    expect("restore of no bytes", u32_table_restore(NULL, 0, NULL, 0, NULL, 0), U32_TABLE_TORN);
    REFUSED(u32_table_client_sum(NULL, 0, NULL, 0, answers, WORDS), U32_TABLE_SHAPE);
    REFUSED(u32_table_client_sum(NULL, 0, NULL, 0, NULL, 0), U32_TABLE_SHAPE);
    DONE(u32_table_batches(NULL, 0, 1, NULL, 0, answers, WORDS), 2, 0, 0);
    DONE(u32_table_plan(0, 0, NULL, 0, NULL, 0, NULL, 0, answers, WORDS), 2, 0, 256);
    REFUSED(u32_table_record(0, 0, NULL, 0, NULL, 0, NULL, 0, NULL, 0, NULL, 0, U32_TABLE_AND, 3, 1, answers, WORDS), U32_TABLE_LIST_FULL);
    REFUSED(u32_table_read(NULL, 0, 0, 0, NULL, 0, NULL, 0, NULL, 0, NULL, 0, NULL, 0, answers, WORDS), U32_TABLE_TORN);
    REFUSED(u32_table_write(0, 0, NULL, 0, NULL, 0, NULL, 0, NULL, 0, answers, WORDS), U32_TABLE_SHORT);
    DONE(u32_table_write(0, 0, NULL, 0, NULL, 0, NULL, 0, bytes, sizeof bytes, answers, WORDS), 1, 8);
    DONE(u32_table_read(bytes, 8, 0, 0, NULL, 0, NULL, 0, NULL, 0, NULL, 0, NULL, 0, answers, WORDS), 1, 0);
    DONE(u32_table_fill(0, 0, NULL, 0, NULL, 0, NULL, 0, NULL, 0, answers, WORDS), 1, 0);
    REFUSED(u32_table_hold(0, 0, NULL, 0, NULL, 0, NULL, 0, NULL, 0, NULL, 0, U32_TABLE_AND, 3, 1, answers, WORDS), U32_TABLE_LIST_FULL);
    REFUSED(u32_table_confirm(0, 0, NULL, 0, NULL, 0, NULL, 0, 0), U32_TABLE_NO_HOLD);
    REFUSED(u32_table_drop(0, 0, NULL, 0, NULL, 0, NULL, 0, 0), U32_TABLE_NO_HOLD);
    expect("pad of no rows", u32_table_pad(NULL, 0, 0), 0);
    REFUSED(u32_table_pad(NULL, 0, 1), U32_TABLE_SHORT);
    DONE(u32_table_extend(NULL, 0, NULL, 0, challenges, 15, answers, WORDS), 3, 0, 0, 0);
    REFUSED(u32_table_extend(NULL, 0, NULL, 0, NULL, 0, answers, WORDS), U32_TABLE_SHAPE);
    REFUSED(u32_table_check(NULL, 0, NULL, 0, challenges, 15, answers, WORDS), U32_TABLE_SHORT);
    REFUSED(u32_table_check(NULL, 0, NULL, 0, NULL, 0, answers, WORDS), U32_TABLE_SHAPE);
    /* and so for `answers`, which is too short then */
    REFUSED(u32_table_record(0, 0, NULL, 0, NULL, 0, NULL, 0, NULL, 0, NULL, 0, 4, 0, 0, NULL, 0), U32_TABLE_SHAPE);
    REFUSED(u32_table_hold(0, 0, NULL, 0, NULL, 0, NULL, 0, NULL, 0, NULL, 0, 4, 0, 0, NULL, 0), U32_TABLE_SHAPE);
    REFUSED(u32_table_compare(4, 0, 0, 4, 0, 0, NULL, 0), U32_TABLE_SHAPE);
    REFUSED(u32_table_plan(0, 0, NULL, 0, NULL, 0, NULL, 0, NULL, 0), U32_TABLE_SHAPE);
    REFUSED(u32_table_read(NULL, 0, 0, 0, NULL, 0, NULL, 0, NULL, 0, NULL, 0, NULL, 0, NULL, 0), U32_TABLE_SHAPE);
    REFUSED(u32_table_write(0, 0, NULL, 0, NULL, 0, NULL, 0, NULL, 0, NULL, 0), U32_TABLE_SHAPE);
    REFUSED(u32_table_fill(0, 0, NULL, 0, NULL, 0, NULL, 0, NULL, 0, NULL, 0), U32_TABLE_SHAPE);
    REFUSED(u32_table_extend(NULL, 0, NULL, 0, NULL, 0, NULL, 0), U32_TABLE_SHAPE);
    REFUSED(u32_table_check(NULL, 0, NULL, 0, NULL, 0, NULL, 0), U32_TABLE_SHAPE);
}

int main(void) {
    expect("the number of the signatures", u32_table_abi_3(), 3);
    held();
    two_recorders();
    lists();
    tables();
    client_sums();
    lookups();
    archives();
    batch_sizes();
    many_places();
    no_arrays();
    printf("%u comparisons, %u failed\n", tried, failed);
    return failed != 0;
}
