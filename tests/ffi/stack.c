/* How much stack each function of include/u32_table.h takes: each runs on a thread of its own whose stack was painted before, with a full list of
 * 2,048 entries and its table of 131,072 rows. Fails where one takes more than the header says. Built and run by tests/ffi/run. */
#define _GNU_SOURCE
#include <inttypes.h>
#include <pthread.h>
#include <stdio.h>
#include <stdlib.h>
#include <string.h>

#include "u32_table.h"

enum { PLACES = U32_TABLE_MAX_PLACES, ROWS = U32_TABLE_MAX_ROWS, STACK = 1 << 20, PAINT = 0xa5 };

static uint64_t keys[3 * PLACES], multiplicities[PLACES], holds[PLACES], other_counts[PLACES], other_holds[PLACES], table[10 * ROWS], aux[3 * ROWS], challenges[15], answers[8];
static uint8_t bytes[U32_TABLE_STORED_BYTES(PLACES)], old[8 + 21 * PLACES];
static uint64_t number;

/* the other recorder's arrays */
#define OTHER other_counts, PLACES, other_holds, PLACES

static void nothing(void) { number = 0; }
static void record(void) {
    for (uint64_t i = 0; i < PLACES; i++) {
        uint64_t got = u32_table_record(PLACES, i, keys, 3 * PLACES, multiplicities, PLACES, holds, PLACES, OTHER, U32_TABLE_POP_COUNT, UINT32_MAX - i, i, answers, 8);
        number = number ? number : got;
    }
}
/* a hold of each key, confirmed and dropped in turn */
static void hold(void) {
    for (uint64_t i = 0; i < PLACES; i++) {
        uint64_t got = u32_table_hold(PLACES, PLACES, keys, 3 * PLACES, multiplicities, PLACES, holds, PLACES, OTHER, U32_TABLE_POP_COUNT, UINT32_MAX - i, i, answers, 8);
        number = number ? number : got;
    }
}
static void confirm(void) {
    for (size_t i = 0; i < PLACES; i += 2) {
        uint64_t got = u32_table_confirm(PLACES, PLACES, keys, 3 * PLACES, multiplicities, PLACES, holds, PLACES, i);
        number = number ? number : got;
    }
}
static void drop(void) {
    for (size_t i = 1; i < PLACES; i += 2) {
        uint64_t got = u32_table_drop(PLACES, PLACES, keys, 3 * PLACES, multiplicities, PLACES, holds, PLACES, i);
        number = number ? number : got;
    }
}
/* half as many steps of div_mod, each with two new keys, on a list of its own */
static uint64_t trace[3 * PLACES / 2], replayed[3 * PLACES], counts[PLACES];
static void replay(void) {
    for (uint64_t i = 0; i < PLACES / 2; i++) trace[3 * i] = U32_TABLE_DIV_MOD, trace[3 * i + 1] = UINT32_MAX - i, trace[3 * i + 2] = i + 7;
    number = u32_table_replay(PLACES, 0, replayed, 3 * PLACES, counts, PLACES, holds, PLACES, OTHER, trace, 3 * PLACES / 2, answers, 8);
    if (answers[0] != PLACES / 2 || answers[1] != PLACES) number = 99;
}
static void compare(void) { number = u32_table_compare(4, 5, 6, 4, 5, 7, answers, 8); }
static void plan(void) { number = u32_table_plan(PLACES, PLACES, keys, 3 * PLACES, multiplicities, PLACES, holds, PLACES, answers, 8); }
static void write(void) {
    number = u32_table_write(PLACES, PLACES, keys, 3 * PLACES, multiplicities, PLACES, holds, PLACES, bytes, sizeof bytes, answers, 8);
}
static void read(void) {
    number = u32_table_read(bytes, sizeof bytes, PLACES, 0, keys, 3 * PLACES, multiplicities, PLACES, holds, PLACES, OTHER, answers, 8);
}
static void read_old(void) {
    number = u32_table_read(old, sizeof old, PLACES, 0, keys, 3 * PLACES, multiplicities, PLACES, holds, PLACES, OTHER, answers, 8);
}
static void fill(void) {
    number = u32_table_fill(PLACES, PLACES, keys, 3 * PLACES, multiplicities, PLACES, holds, PLACES, table, 10 * ROWS, answers, 8);
}
static void pad(void) { number = u32_table_pad(table, 10 * ROWS, answers[0]); }
static void extend(void) { number = u32_table_extend(table, 10 * ROWS, aux, 3 * ROWS, challenges, 15, answers, 8); }
/* a request for each place of the list, in its keys */
static void client_sum(void) { number = u32_table_client_sum(keys, 3 * PLACES, challenges, 15, answers, 8); }
static void check(void) { number = u32_table_check(table, 10 * ROWS, aux, 3 * ROWS, challenges, 15, answers, 8); }

/* a full cascade, and both sums */
enum { CASCADE = U32_TABLE_MAX_CASCADE_PLACES };
static uint16_t values[CASCADE];
static uint64_t value_counts[CASCADE], byte_counts[256], value_sums[3 * CASCADE], byte_sums[768], lookup_challenges[9] = {1, 2, 3, 4, 5, 6, 7, 8, 9};
static void look_up(void) {
    for (uint64_t i = 0; i < CASCADE; i++) {
        uint64_t got = u32_table_look_up(CASCADE, i, values, CASCADE, value_counts, CASCADE, byte_counts, 256, (uint16_t)(40503 * i), answers, 8);
        number = number ? number : got;
    }
}
static void byte_lookup(void) { number = u32_table_byte_lookup(255, answers, 8); }
static void cascade_lookup(void) { number = u32_table_cascade_lookup(65535, answers, 8); }
static void byte_sum(void) { number = u32_table_byte_sum(byte_counts, 256, lookup_challenges, 9, byte_sums, 768, answers, 8); }
static void cascade_sum(void) {
    number = u32_table_cascade_sum(CASCADE, CASCADE, values, CASCADE, value_counts, CASCADE, lookup_challenges, 9, value_sums, 3 * CASCADE, answers, 8);
}

/* the table and its sums as bytes, and back */
static uint8_t archived[U32_TABLE_ARCHIVE_BYTES(ROWS)];
static void archive(void) { number = u32_table_archive(table, 10 * ROWS, aux, 3 * ROWS, archived, sizeof archived); }
static void restore(void) { number = u32_table_restore(archived, sizeof archived, table, 10 * ROWS, aux, 3 * ROWS); }

static void *run(void *call) {
    (*(void (**)(void))call)();
    return NULL;
}

/* the bytes of a fresh stack that a call has changed */
static size_t taken(void (*call)(void)) {
    uint8_t *stack = aligned_alloc(4096, STACK);
    pthread_attr_t attributes;
    pthread_t thread;
    if (!stack) exit(2);
    memset(stack, PAINT, STACK);
    if (pthread_attr_init(&attributes) || pthread_attr_setstack(&attributes, stack, STACK)) exit(2);
    if (pthread_create(&thread, &attributes, run, &call) || pthread_join(thread, NULL)) exit(2);
    size_t untouched = 0;
    while (untouched < STACK && stack[untouched] == PAINT) untouched++;
    free(stack);
    return STACK - untouched;
}

/* jobs of every height from 0 on, gathered into batches of a table's most rows */
static void batches(void) {
    for (uint64_t i = 0; i < 3 * PLACES / 2; i++) trace[i] = i;
    number = u32_table_batches(trace, 3 * PLACES / 2, U32_TABLE_MAX_ROWS, replayed, 3 * PLACES, answers, 8);
    if (replayed[2] != U32_TABLE_MAX_ROWS) number = 99;
}

int main(void) {
    /* at most so many bytes, as the header says */
    static const struct {
        const char *name;
        void (*call)(void);
        size_t most;
    } calls[] = {{"record", record, 2000}, {"hold", hold, 2000}, {"confirm", confirm, 2000}, {"drop", drop, 2000}, {"replay", replay, 2000}, {"compare", compare, 2000}, {"plan", plan, 70000}, {"write", write, 100000}, {"read", read, 100000},
                 {"read, old length", read_old, 100000}, {"fill", fill, 80000}, {"pad", pad, 2000}, {"extend", extend, 2000}, {"check", check, 2000}, {"client_sum", client_sum, 2000}, {"batches", batches, 2000},
                 {"look_up", look_up, 2000}, {"byte_lookup", byte_lookup, 2000}, {"cascade_lookup", cascade_lookup, 2000},
                 {"byte_sum", byte_sum, 2000}, {"cascade_sum", cascade_sum, 2000}, {"archive", archive, 2000}, {"restore", restore, 2000}};
    int failed = 0;
    for (int i = 0; i < 15; i++) challenges[i] = (uint64_t)(1000 + 77 * i);
    size_t thread = taken(nothing);
    printf("stack in bytes:");
    for (size_t i = 0; i < sizeof calls / sizeof *calls; i++) {
        size_t took = taken(calls[i].call) - thread;
        int fine = number == 0 && took <= calls[i].most;
        if (calls[i].call == write) {
            memcpy(old, bytes, 8 + 17 * PLACES);
            for (size_t k = 0; k < PLACES; k++) old[8 + 17 * PLACES + 4 * k] = 1;
        }
        printf(" %s %zu%s", calls[i].name, took, fine ? "" : " (TOO MUCH, or refused)");
        failed |= !fine;
    }
    printf("\n");
    return failed;
}
