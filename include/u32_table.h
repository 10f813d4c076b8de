/* The U32 table of Triton VM, proved: record, hold, confirm, drop, replay, compare, plan, read, write, fill, pad, extend, check, client_sum; and of
 * the lookup tables beside it: look_up, byte_lookup, cascade_lookup, byte_sum, cascade_sum; and archive and restore, which keep a table as bytes.
 *
 * The functions stand in crates/u32_table. `tools/build u32_table` proves them and writes target/staticlib/libu32_table.a for x86-64 Linux:
 *
 *     cc -Iinclude program.c target/staticlib/libu32_table.a
 *
 * (tests/ffi/example.c is such a program.) A program that includes this header needs a library of these signatures, or it does not link.
 *
 * They allocate nothing, keep nothing between calls, use of the C library only memcpy and memset, and may run on many threads at once; calls that share
 * an array which one of them may write are made one after the other.
 *
 * Stack. Four functions copy the entries of a list: u32_table_write and u32_table_read take up to 100 KB of stack each (a KB is 1,000
 * bytes), u32_table_fill 80 KB, u32_table_plan 70 KB. Each of the others takes up to 2 KB.
 *
 * Arrays. Each is a pointer and the number of its elements (words of 64 bits, keys of 16 bits, or bytes). The caller sees to what the proof takes for
 * granted: a pointer is aligned, that many elements are there, and no array that a call may write overlaps another array of the same call: a
 * recorder's own arrays and the other recorder's neither. A pointer to 0 elements may be NULL: nothing is read or written there. Nothing else is
 * asked of any argument: every number and every content is answered.
 *
 * Numbers. Each function returns 0 where the work is done, and else the number of the first reason to decline, in the order that its comment
 * gives. After a refusal every array is as it was. `answers` receives what a call answers besides its number. Where it has fewer words
 * than U32_TABLE_.._ANSWERS says, the call returns U32_TABLE_SHAPE before anything else is looked at. Words past those stated are not
 * touched.
 *
 * u32_table_replay alone is otherwise: it makes many steps and ends at the first that is refused. The list, and the other recorder's arrays, are
 * then as the steps before it made them, and `answers` says on a refusal too how many these are.
 *
 * Later libraries may have more numbers than those named here.
 *
 * Elements are words below U32_TABLE_P, the canonical value of an element and not its Montgomery form; an element of the extension is three words
 * a, b, c for a + b X + c X^2 with X^3 = X - 1. */
#ifndef U32_TABLE_H
#define U32_TABLE_H

#include <stddef.h>
#include <stdint.h>

#ifdef __cplusplus
extern "C" {
#endif

/* The number of the signatures below, as a symbol of the library: each program names it here, so one that was compiled for other signatures than
 * the library has does not link. The number is raised whenever a signature changes: here, in crates/u32_table and in the Rust crate. A function that
 * is added changes no signature: a program that calls it does not link with a library that lacks it. */
uint64_t u32_table_abi_3(void);
#ifdef __has_attribute
#if __has_attribute(retain)
__attribute__((retain))
#endif
#endif
__attribute__((used)) static uint64_t (*const u32_table_abi)(void) = u32_table_abi_3;

/* Reasons to decline. */
enum {
    U32_TABLE_DONE = 0,
    U32_TABLE_SHAPE = 1,      /* an array has the wrong length, or sizes are out of range; in u32_table_batches, also the setting */
    U32_TABLE_STRANGER = 2,   /* an opcode that is none of the six; in u32_table_replay, none of the ten */
    U32_TABLE_WIDE = 3,       /* an operand outside its range; the left one of pow has none but in stored bytes */
    U32_TABLE_BARE_LOG = 4,   /* log_2_floor of 0 */
    U32_TABLE_COUNT_FULL = 5, /* a multiplicity above U32_TABLE_P - 1; in recording and holding, if own count plus own holds and one more would pass that */
    U32_TABLE_LIST_FULL = 6,  /* a new key and no unused place; in reading, more entries than places, or a list that has a key */
    U32_TABLE_SHORT = 7,      /* too few rows, output bytes or result places; a filled count above the rows; a check of no rows */
    U32_TABLE_UNREDUCED = 8,  /* a word that is U32_TABLE_P or more */
    U32_TABLE_FLAT = 9,       /* a denominator of (0, 0, 0), of a row with CopyFlag 1 or of a request; see u32_table_extend */
    U32_TABLE_TORN = 10,      /* stored bytes of neither of the two lengths, or more than 2,048 entries in them; an archive of a wrong length, or of more
                               * than 131,072 rows */
    U32_TABLE_REPEAT = 11,    /* equal keys in stored bytes, or among the counted keys of a list to be written */
    U32_TABLE_TALLY = 12,     /* the stored height is not the sum of the stored entries' heights */
    U32_TABLE_ZERO_DIVISOR = 13, /* div_mod by 0, in u32_table_replay */
    U32_TABLE_CASCADE_FULL = 14, /* a new value and no unused cascade place, in u32_table_look_up */
    U32_TABLE_OPEN_HOLD = 15, /* an own hold at a used place, in u32_table_plan, u32_table_write and u32_table_fill */
    U32_TABLE_NO_HOLD = 16,   /* a position that is not used, or has no own hold, in u32_table_confirm and u32_table_drop */
    U32_TABLE_JOB_ABOVE = 17  /* a job of more rows than the setting, in u32_table_batches */
};

/* The six opcodes. */
enum {
    U32_TABLE_SPLIT = 4,
    U32_TABLE_LT = 6,
    U32_TABLE_LOG_2_FLOOR = 12,
    U32_TABLE_AND = 14,
    U32_TABLE_POP_COUNT = 28,
    U32_TABLE_POW = 30
};

/* Four more that a trace may have; see u32_table_replay. No entry has one of them. */
enum { U32_TABLE_DIV_MOD = 20, U32_TABLE_XOR = 22, U32_TABLE_MERKLE_STEP = 36, U32_TABLE_MERKLE_STEP_MEM = 44 };

/* What u32_table_compare answers. */
enum { U32_TABLE_LESS = 0, U32_TABLE_EQUAL = 1, U32_TABLE_GREATER = 2 };

/* The columns of a row, in the order of its words. */
enum {
    U32_TABLE_COPY_FLAG = 0,
    U32_TABLE_BITS = 1,
    U32_TABLE_BITS_MINUS_33_INV = 2,
    U32_TABLE_CI = 3,
    U32_TABLE_LHS = 4,
    U32_TABLE_LHS_INV = 5,
    U32_TABLE_RHS = 6,
    U32_TABLE_RHS_INV = 7,
    U32_TABLE_RESULT = 8,
    U32_TABLE_LOOKUP_MULTIPLICITY = 9
};

enum {
    U32_TABLE_MAX_PLACES = 2048,   /* places of a list, at most */
    U32_TABLE_MAX_ROWS = 131072,   /* rows of a table, at most */
    U32_TABLE_MAX_JOBS = 1048576,  /* jobs of u32_table_batches, at most */
    U32_TABLE_KEY_WORDS = 3,       /* words of a key: opcode, left operand, right operand */
    U32_TABLE_STEP_WORDS = 3,      /* words of a step of a trace: opcode, first value, second value */
    U32_TABLE_BATCH_WORDS = 3,     /* words of a batch: its jobs, its rows, its padded height */
    U32_TABLE_COLUMNS = 10,        /* words of a row */
    U32_TABLE_AUX_COLUMNS = 3,     /* aux words of a row: the sum so far */
    U32_TABLE_CHALLENGE_WORDS = 15, /* Indeterminate, LhsWeight, RhsWeight, CiWeight, ResultWeight, three words each */
    U32_TABLE_MAX_CASCADE_PLACES = 65536, /* places of a cascade, at most */
    U32_TABLE_BYTE_ROWS = 256,     /* byte multiplicities: one a byte */
    U32_TABLE_LOOKUP_CHALLENGE_WORDS = 9 /* InputWeight, OutputWeight, Indeterminate, three words each */
};

/* The number of elements of the base field, 2^64 - 2^32 + 1. */
#define U32_TABLE_P UINT64_C(18446744069414584321)

/* Bytes that a stored list of n entries takes, n at most U32_TABLE_MAX_PLACES. Lists of the old length, 8 + 21 n, are still read; see
 * u32_table_read. */
#define U32_TABLE_STORED_BYTES(n) (8 + 25 * (size_t)(n))

/* Bytes that an archive of so many rows takes, at most U32_TABLE_MAX_ROWS. */
#define U32_TABLE_ARCHIVE_BYTES(rows) (8 + 104 * (size_t)(rows))

/* How many words of `answers` each call states; u32_table_confirm, u32_table_drop, u32_table_pad,
 * u32_table_archive and u32_table_restore have none. */
enum {
    U32_TABLE_RECORD_ANSWERS = 2,
    U32_TABLE_HOLD_ANSWERS = 2,
    U32_TABLE_REPLAY_ANSWERS = 2,
    U32_TABLE_COMPARE_ANSWERS = 1,
    U32_TABLE_PLAN_ANSWERS = 2,
    U32_TABLE_READ_ANSWERS = 1,
    U32_TABLE_WRITE_ANSWERS = 1,
    U32_TABLE_FILL_ANSWERS = 1,
    U32_TABLE_EXTEND_ANSWERS = 3,
    U32_TABLE_CHECK_ANSWERS = 7,
    U32_TABLE_CLIENT_ANSWERS = 3,
    U32_TABLE_BATCHES_ANSWERS = 2,
    U32_TABLE_LOOK_UP_ANSWERS = 1,
    U32_TABLE_BYTE_LOOKUP_ANSWERS = 1,
    U32_TABLE_CASCADE_LOOKUP_ANSWERS = 1,
    U32_TABLE_BYTE_SUM_ANSWERS = 3,
    U32_TABLE_CASCADE_SUM_ANSWERS = 3
};

/* A list is `capacity` places, of which the first `used` have a key each: three key words a place. Two recorders share the places, the keys and `used`;
 * what a call of one of them answers as `used` is what both pass from then on. Each recorder has two arrays of its own: one multiplicity and one number
 * of holds a place. `multiplicities` and `holds` are those of the recorder that makes the call, its own. u32_table_record, u32_table_hold,
 * u32_table_replay and u32_table_read, which may bring places into use, are lent the other recorder's two arrays as well: at exactly the places that
 * come into use they set them to 0, and nothing else there is read or written. The other calls need the own arrays alone.
 *
 * key_words has to be 3 * capacity; `places`, hold_places, other_places and other_hold_places have to be `capacity`; used is at most capacity, and
 * capacity at most 2,048. Anything else is U32_TABLE_SHAPE. A fresh list has `used` 0, and any words in its five arrays.
 *
 * A caller with one recorder lends a second pair of arrays all the same. It may be any pair of the right length that does not overlap the other arrays,
 * with any words in it, and need not be the same pair in each call; what a call leaves in it may then be ignored.
 *
 * A key is counted for a recorder if its multiplicity is not 0 there. u32_table_plan, u32_table_write and u32_table_fill take the counted keys of the
 * used places, in list order. They leave out the others, which are not examined and have no rows and no bytes; of these only the holds are looked
 * at: an own hold at any used place is U32_TABLE_OPEN_HOLD, and one of the other recorder never is.
 *
 * So neither recorder notices the other, but by U32_TABLE_LIST_FULL. From a fresh list on, let both record, replay, hold, confirm and drop, each confirm
 * and drop at a position that an earlier call of its own recorder answered, and let no call of one recorder return U32_TABLE_LIST_FULL. Then what its
 * calls return, its plan, its count of each key, and in as many rows and under the same challenges what u32_table_fill, u32_table_pad, u32_table_extend
 * and u32_table_check answer, are those of its own calls alone on a fresh list of the same capacity. Positions and `used` may differ.
 *
 * Holds are recordings that are not confirmed yet: see u32_table_hold. A recorder that makes none has holds of 0 at the used places, since every append
 * sets those of its place. They are not in stored lists, and a list with an open hold cannot be written: what is held and not confirmed is lost with
 * the memory.
 *
 * An entry is admitted if its opcode is one of the six, both operands are below 2^32 (but the left one of pow), and the left one of log_2_floor is
 * not 0. The left operand of pow is any word and is taken modulo U32_TABLE_P; in stored bytes it is below it. So a key of pow is taken as its
 * reduced form wherever keys are equal or not, are filled, planned or written, also where the caller put a word of U32_TABLE_P or more among the
 * keys. */

/* Records an entry: the first equal key's multiplicity gains one, and its words stay as they are; else the key is appended, reduced, with
 * multiplicity 1 and no hold, and the other recorder has multiplicity 0 and no hold there.
 * Answers: the key's position, from 0; the places used afterwards, which is what to pass as `used` from then on.
 * Refusals, in this order: SHAPE (of the list, or of the other's arrays); STRANGER; WIDE; BARE_LOG; then COUNT_FULL or LIST_FULL. COUNT_FULL looks at the
 * first equal key's own count plus own holds. */
uint64_t u32_table_record(size_t capacity, size_t used, uint64_t *keys, size_t key_words, uint64_t *multiplicities, size_t places,
                          uint64_t *holds, size_t hold_places, uint64_t *other_multiplicities, size_t other_places, uint64_t *other_holds,
                          size_t other_hold_places, uint64_t opcode, uint64_t left_operand, uint64_t right_operand, uint64_t *answers,
                          size_t answer_words);

/* A recording in two parts: a hold, then u32_table_confirm or u32_table_drop at the position that it answers. Holds an entry: the first equal key
 * gains one hold, and its words and its multiplicity stay as they are; else the key is appended, reduced, with multiplicity 0 and one hold, and the
 * other recorder has multiplicity 0 and no hold there.
 * From a fresh list on, the multiplicity of a key is the number of accepted confirms and recordings of it by the same recorder, those of replays among
 * them.
 * Answers: the key's position, from 0; the places used afterwards, which is what to pass as `used` from then on.
 * Refusals, in this order: SHAPE (of the list, or of the other's arrays); STRANGER; WIDE; BARE_LOG; then COUNT_FULL (own count plus own holds) or
 * LIST_FULL. */
uint64_t u32_table_hold(size_t capacity, size_t used, uint64_t *keys, size_t key_words, uint64_t *multiplicities, size_t places, uint64_t *holds,
                        size_t hold_places, uint64_t *other_multiplicities, size_t other_places, uint64_t *other_holds, size_t other_hold_places,
                        uint64_t opcode, uint64_t left_operand, uint64_t right_operand, uint64_t *answers, size_t answer_words);

/* One hold at `position` becomes one count: the multiplicity there gains one, the holds lose one. `used` stays.
 * It has no answers besides the number.
 * Refusals, in this order: SHAPE; NO_HOLD (`position` is any number); COUNT_FULL, which no list meets whose holds u32_table_hold made. */
uint64_t u32_table_confirm(size_t capacity, size_t used, const uint64_t *keys, size_t key_words, uint64_t *multiplicities, size_t places,
                           uint64_t *holds, size_t hold_places, size_t position);

/* One hold at `position` is no more: the holds there lose one. The key keeps its place, also with multiplicity 0: it is then left out where the list is
 * filled, planned and written, and can be recorded and held again.
 * It has no answers besides the number.
 * Refusals, in this order: SHAPE; NO_HOLD (`position` is any number). */
uint64_t u32_table_drop(size_t capacity, size_t used, const uint64_t *keys, size_t key_words, const uint64_t *multiplicities, size_t places,
                        uint64_t *holds, size_t hold_places, size_t position);

/* Replays a trace onto a list: its steps, three words each (opcode, first value, second value), are recorded in order. Of a step is recorded
 *
 *     lt, and, pow            the entry as it is
 *     log_2_floor, pop_count  the entry with right operand 0
 *     split of v              split(v mod 2^32, v div 2^32), for v below U32_TABLE_P
 *     xor of a, b             and(a, b)
 *     div_mod of n by d       lt(n mod d, d) and split(n, n div d), both or neither, for n and d below 2^32
 *     merkle_step(_mem) of i  split(i, i div 2), for i below 2^32
 *
 * The second value of log_2_floor, pop_count, split and the Merkle steps may be any word. The first refused step ends the replay. It changes nothing:
 * the list is as the steps before it made it. Whether it ends so or not, the other recorder has multiplicity 0 and no hold at the places that came into
 * use.
 * Answers, on a refusal too: the steps done; the places used afterwards, which is what to pass as `used` from then on.
 * Refusals, in this order: SHAPE (of the list, of the other's arrays, or trace_words is not whole steps), before all steps and with none done; then step by
 * step STRANGER; WIDE; ZERO_DIVISOR or BARE_LOG; then COUNT_FULL (own count plus own holds) or LIST_FULL. For div_mod a refusal of lt comes before one
 * of split. */
uint64_t u32_table_replay(size_t capacity, size_t used, uint64_t *keys, size_t key_words, uint64_t *multiplicities, size_t places,
                          uint64_t *holds, size_t hold_places, uint64_t *other_multiplicities, size_t other_places, uint64_t *other_holds,
                          size_t other_hold_places, const uint64_t *trace, size_t trace_words, uint64_t *answers, size_t answer_words);

/* Compares two entries by opcode, then left operand, then right operand, whatever words they are, and as they are: two words of one base of pow
 * are not equal here.
 * Answers: U32_TABLE_LESS, U32_TABLE_EQUAL or U32_TABLE_GREATER.
 * Refusals: SHAPE, for `answers` alone. */
uint64_t u32_table_compare(uint64_t opcode, uint64_t left_operand, uint64_t right_operand, uint64_t other_opcode,
                           uint64_t other_left_operand, uint64_t other_right_operand, uint64_t *answers, size_t answer_words);

/* The rows that a recorder's counted keys need.
 * Answers: the height, which is the sum of their heights; the padded height, the smallest power of two that is at least the height and at least
 * 256: all tables of one proof share it, and the byte lookup always has 256 rows. No counted key: 0 and 256.
 * Refusals, in this order: SHAPE; OPEN_HOLD; then counted key by counted key STRANGER, WIDE, BARE_LOG, COUNT_FULL. */
uint64_t u32_table_plan(size_t capacity, size_t used, const uint64_t *keys, size_t key_words, const uint64_t *multiplicities,
                        size_t places, const uint64_t *holds, size_t hold_places, uint64_t *answers, size_t answer_words);

/* Reads a stored list onto a list that has no key: `used` above 0 is LIST_FULL, also where the stored list has no entries. Its N entries go to the first N
 * places, with their multiplicities as the own ones; the own holds, and the other recorder's multiplicities and holds, become 0 there, and later places
 * keep their words. Afterwards `used` is N. A stored multiplicity may be 0: such an entry is examined as the others, is in the stored height and takes a
 * place, where it is not counted.
 *
 * byte_count tells the form: U32_TABLE_STORED_BYTES(N), as u32_table_write writes it, or the old length 8 + 21 N, with multiplicities of 4
 * bytes. Any other length is TORN. A list that was read from the old form is written in the new one. One of the new form
 * that has no multiplicity 0 is written again as the same bytes.
 *
 * Whoever stores lists must keep their length too. A list of the new length that is cut by exactly 4 N bytes has the old length and is accepted:
 * its multiplicities are then the first N halves, of 4 bytes, of those that were stored. No refusal tells: TALLY looks at the keys alone. For
 * example `and 3, 1` with multiplicity 2^32 + 2, 33 bytes, cut to 29 is read with multiplicity 2. Software that knows the old form alone refuses
 * lists of the new length with TORN.
 *
 * Each operand is taken as it stands: a left operand of pow that is U32_TABLE_P or more is WIDE, so a list has one stored form.
 *
 * Answers: N.
 * Refusals, in this order: SHAPE (of the list, or of the other's arrays); TORN; LIST_FULL; then entry by entry STRANGER, WIDE, BARE_LOG, COUNT_FULL; REPEAT;
 * TALLY. */
uint64_t u32_table_read(const uint8_t *bytes, size_t byte_count, size_t capacity, size_t used, uint64_t *keys, size_t key_words,
                        uint64_t *multiplicities, size_t places, uint64_t *holds, size_t hold_places, uint64_t *other_multiplicities,
                        size_t other_places, uint64_t *other_holds, size_t other_hold_places, uint64_t *answers, size_t answer_words);

/* Writes a recorder's counted keys, N of them, as bytes from the start of `out`: 4 bytes N, 4 bytes height, then for each counted key opcode (1 byte), left
 * operand (8), reduced for pow, and right operand (8), then their multiplicities (8 each), all little-endian. Bytes of `out` past the end keep
 * their values. Read again, the keys are the reduced ones, at the first N places.
 * Answers: the number of bytes written, U32_TABLE_STORED_BYTES(N).
 * Refusals, in this order: SHAPE; OPEN_HOLD; then counted key by counted key STRANGER, WIDE, BARE_LOG, COUNT_FULL; REPEAT (among counted keys); SHORT. */
uint64_t u32_table_write(size_t capacity, size_t used, const uint64_t *keys, size_t key_words, const uint64_t *multiplicities,
                         size_t places, const uint64_t *holds, size_t hold_places, uint8_t *out, size_t byte_count, uint64_t *answers,
                         size_t answer_words);

/* Fills a table with the sections of a recorder's counted keys, in list order. `table` has ten words a row; rows past the height keep their words.
 * Answers: the height, which is that of u32_table_plan.
 * Refusals, in this order: SHAPE (of the list, or table_words is not whole rows or over 131,072 rows); OPEN_HOLD; then counted key by counted key
 * STRANGER, WIDE, BARE_LOG, COUNT_FULL; SHORT (fewer rows than the height). */
uint64_t u32_table_fill(size_t capacity, size_t used, const uint64_t *keys, size_t key_words, const uint64_t *multiplicities,
                        size_t places, const uint64_t *holds, size_t hold_places, uint64_t *table, size_t table_words, uint64_t *answers,
                        size_t answer_words);

/* Pads a table: every row from row `filled` on becomes the padding row that belongs to the last filled row.
 * It has no answers besides the number.
 * Refusals, in this order: SHAPE; SHORT (`filled` is above the number of rows); UNREDUCED (in the last filled row). */
uint64_t u32_table_pad(uint64_t *table, size_t table_words, size_t filled);

/* Extends a table: each row's three aux words become the sum so far, over the rows with CopyFlag 1, of multiplicity divided by denominator.
 * The denominator is Indeterminate minus the compressed row, which is LhsWeight LHS + RhsWeight RHS + CiWeight CI + ResultWeight Result.
 * The old content of `aux` does not matter.
 * Answers: the three words of the last sum, zero for no rows.
 * Refusals, in this order: SHAPE (of the table, aux_words is not three a row, or challenge_words is not 15); UNREDUCED (table or
 * challenges); FLAT: Indeterminate equals the compressed row of some row with CopyFlag 1, whatever its multiplicity. Nothing else causes it:
 * every element but (0, 0, 0) has an inverse. The smallest input: the row of `and 0, 0` and fifteen challenge words 0. */
uint64_t u32_table_extend(const uint64_t *table, size_t table_words, uint64_t *aux, size_t aux_words, const uint64_t *challenges,
                          size_t challenge_words, uint64_t *answers, size_t answer_words);

/* Checks a table: initial constraints on row 0, consistency constraints row by row, transition constraints pair by pair, terminal constraints
 * on the last row, to the first value that is not zero.
 * Answers: one word, 0, where every value is zero, and the other words of `answers` keep theirs; else 1, then group (0 initial,
 * 1 consistency, 2 transition, 3 terminal), row (the upper one of a pair), index in the group from 0, and the three words of the value.
 * Note that a table which fails the check is no refusal: the number is 0 and the first answer is 1.
 * Where the first answer is 0, each row with CopyFlag 1 is in range and tells the truth, whoever made the table; and the last sum is the sum over
 * these rows, if none of their denominators is (0, 0, 0).
 * Refusals, in this order: SHAPE (as for u32_table_extend); SHORT (no rows); UNREDUCED (table, challenges or aux). */
uint64_t u32_table_check(const uint64_t *table, size_t table_words, const uint64_t *aux, size_t aux_words, const uint64_t *challenges,
                         size_t challenge_words, uint64_t *answers, size_t answer_words);

/* The client's sum, the processor's end of the lookup: from (0, 0, 0), each request adds the inverse of its denominator. Requests are entries, three
 * words each (opcode, left operand, right operand), as many as there are; the left operand of pow is taken modulo U32_TABLE_P. The denominator is that of
 * u32_table_extend, of the row with the request's operands, its opcode as CI and the plain function as Result:
 *
 *     lt                      1 if the left operand is less than the right one, else 0
 *     and                     the bitwise and
 *     log_2_floor             the logarithm to base 2 of the left operand, rounded down
 *     pow                     the left operand to the power of the right one, modulo U32_TABLE_P, with 0^0 = 1
 *     pop_count               the one-bits of the left operand
 *     split                   0
 *
 * Where a recorder records all requests onto a list that was fresh, at once or by hold and confirm, and nothing else is accepted of it but holds that it drops,
 * if no hold of it is open at the end and no denominator of a request is (0, 0, 0), this is the last sum that u32_table_fill, u32_table_pad and
 * u32_table_extend then make of its own arrays under the same challenges, with rows enough; and none of them refuses. What the other recorder does in
 * between, and the keys of dropped holds, do not matter.
 * Answers: the three words of the sum, zero for no requests.
 * Refusals, in this order: SHAPE (request_words is not whole requests, or challenge_words is not 15); UNREDUCED (challenges); then request by request
 * STRANGER, WIDE, BARE_LOG, FLAT. */
uint64_t u32_table_client_sum(const uint64_t *requests, size_t request_words, const uint64_t *challenges, size_t challenge_words,
                              uint64_t *answers, size_t answer_words);

/* The lookup tables. The byte lookup takes byte i to (i + 1)^3 - 1 modulo 257; the cascade takes 256 h + l to 256 S(h) + S(l), S being the byte
 * lookup. A cascade is `capacity` places, of which the first `used` hold a 16-bit value each: one key and one multiplicity a place. So key_count and
 * `places` have to be `capacity`; used is at most capacity, and capacity at most 65,536. Beside it stand the 256 multiplicities of the bytes. Anything
 * else is U32_TABLE_SHAPE. Fresh tables have `used` 0 and byte multiplicities 0. */

/* Records a 16-bit value: the first equal key's multiplicity gains one; else the value is appended with multiplicity 1, and the multiplicities of its
 * two bytes gain one each, which is two where the bytes are equal.
 * Answers: the places used afterwards, which is what to pass as `used` from then on.
 * Refusals, in this order: SHAPE; COUNT_FULL, for any multiplicity that would be raised past U32_TABLE_P - 1, which of a known value is its own alone;
 * CASCADE_FULL. */
uint64_t u32_table_look_up(size_t capacity, size_t used, uint16_t *keys, size_t key_count, uint64_t *multiplicities, size_t places,
                           uint64_t *byte_multiplicities, size_t byte_count, uint16_t value, uint64_t *answers, size_t answer_words);

/* The output of a byte.
 * Answers: the output.
 * Refusals: SHAPE, for `answers` alone. */
uint64_t u32_table_byte_lookup(uint8_t byte, uint64_t *answers, size_t answer_words);

/* The output of a 16-bit value.
 * Answers: the output.
 * Refusals: SHAPE, for `answers` alone. */
uint64_t u32_table_cascade_lookup(uint16_t value, uint64_t *answers, size_t answer_words);

/* The running sum of the byte lookup: the three aux words of each byte, from 0 up, become the sum so far of multiplicity divided by denominator, also
 * where the multiplicity is 0. The denominator is Indeterminate minus InputWeight input + OutputWeight output; the challenges are InputWeight,
 * OutputWeight and Indeterminate, in this order: the indeterminate comes last.
 * Answers: the three words of the last sum.
 * Refusals, in this order: SHAPE (byte_count is not 256, challenge_words not 9, or aux_words not 768); UNREDUCED (challenges or multiplicities); FLAT: a
 * denominator is (0, 0, 0), and nothing else. */
uint64_t u32_table_byte_sum(const uint64_t *byte_multiplicities, size_t byte_count, const uint64_t *challenges, size_t challenge_words, uint64_t *aux,
                            size_t aux_words, uint64_t *answers, size_t answer_words);

/* The running sum of a cascade: the same over its used places, in order. `aux` has three words a place, used or not; unused places are not looked at,
 * and their aux words stay.
 * Answers: the three words of the last sum, zero for no used place.
 * Refusals, in this order: SHAPE (of the cascade, challenge_words is not 9, or aux_words not 3 * capacity); UNREDUCED (challenges, or multiplicities of
 * used places); FLAT, as for u32_table_byte_sum. */
uint64_t u32_table_cascade_sum(size_t capacity, size_t used, const uint16_t *keys, size_t key_count, const uint64_t *multiplicities, size_t places,
                               const uint64_t *challenges, size_t challenge_words, uint64_t *aux, size_t aux_words, uint64_t *answers,
                               size_t answer_words);

/* Tries a batch size. `jobs` are the heights of jobs, in the order in which they come, and `setting` is the largest batch in rows. A job joins the open
 * batch where the sum of their rows stays within the setting, and else opens the next; the first job opens the first. From the start of `results` each
 * batch gets three words: its number of jobs, its rows, and its padded height, by the rule of u32_table_plan. Words past the last batch keep their
 * values. A job of 0 rows is a job as any other. No jobs: no batches.
 * Answers: the number of batches; the padding, which is all padded heights minus all rows.
 * Refusals, in this order: SHAPE (the setting is 0 or above 131,072, there are more than 1,048,576 jobs, or result_words is not whole batches);
 * JOB_ABOVE; SHORT (fewer places in `results` than batches). */
uint64_t u32_table_batches(const uint64_t *jobs, size_t job_count, uint64_t setting, uint64_t *results, size_t result_words,
                           uint64_t *answers, size_t answer_words);

/* Archives a table and its sums, with columns side by side: from the start of `out` the row count, then the ten main columns, then the three columns of
 * aux, each top to bottom, all in little-endian words of 8 bytes: U32_TABLE_ARCHIVE_BYTES of the rows. Bytes of `out` past the end keep their values.
 * It has no answers besides the number.
 * Refusals, in this order: SHAPE (table_words is not whole rows or over 131,072 rows, or aux_words is not three a row); SHORT (byte_count is less than the
 * archive takes); UNREDUCED (table or aux). */
uint64_t u32_table_archive(const uint64_t *table, size_t table_words, const uint64_t *aux, size_t aux_words, uint8_t *out, size_t byte_count);

/* Restores an archive: its rows replace the first rows of table and aux, and later rows keep their words. The row count is the first word of `bytes`.
 * What was archived comes back word for word, and an archive that is accepted is archived again to the same bytes.
 * It has no answers besides the number.
 * Refusals, in this order: SHAPE (of table and aux, as for u32_table_archive); TORN (byte_count is not U32_TABLE_ARCHIVE_BYTES of the row count, or that is
 * above 131,072); SHORT (the table has fewer rows than the archive); UNREDUCED (a word of the archive's columns). */
uint64_t u32_table_restore(const uint8_t *bytes, size_t byte_count, uint64_t *table, size_t table_words, uint64_t *aux, size_t aux_words);

#ifdef __cplusplus
}
#endif

#endif
