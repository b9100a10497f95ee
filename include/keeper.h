/*
 * The keeper: 64 named arrays of arrays in one list of 64-bit words that the caller lends.
 *
 * The rules are in docs/RULES.md, what each function promises in docs/C-INTERFACE.md. The functions are proved; that a caller keeps what
 * is said here is not checked by anything.
 *
 * What every call wants
 *   - A list is a pointer and the number of its elements after it. The pointer is never null, also for a list of no elements, and is aligned
 *     for its element.
 *   - Everything that a call is lent by a pointer that is not const is lent to that call alone: no two of them overlap, none overlaps what
 *     is lent by a const pointer, and no other thread touches any of it meanwhile.
 *   - Everything that is pointed to has a value, also what a call only writes.
 * What every call leaves
 *   - Memory that it was not lent is not touched. Nothing is allocated, nothing is kept, and every call ends.
 *   - Words past the first KEEPER_MOST of the lent list stay as they were, and so do bytes left over behind the last whole word.
 *   - Refused, a call changes nothing but the step, where the words hold together; keeper_make, keeper_save and keeper_load over any words.
 *   - Words that keeper_make or keeper_load granted, and that only calls of the keeper changed since, hold together. Over other words the
 *     other calls may answer anything and leave any words; they still touch nothing else, and end.
 *
 * A place is a name, 1 to 64, and up to three subscripts, first to last. A call that names one is refused by KEEPER_UNKNOWN_NAME or by
 * KEEPER_TOO_DEEP where no place can be made of what it is given, the name being looked at first.
 *
 * A call answers 0 where it is granted, else the number of the refusal. It writes the step of the refusal through `step`: the subscript at
 * which the walk ended, from 1 on, or one more than there are subscripts for the block at the place; 0 where there is no step.
 */
#ifndef KEEPER_H
#define KEEPER_H

#include <stdbool.h>
#include <stddef.h>
#include <stdint.h>

#ifdef __cplusplus
extern "C" {
#endif

/* The fewest words that a keeper can be made over, and the most that are counted of a list. */
#define KEEPER_LEAST 67
#define KEEPER_MOST 262144

/* The names are 1 to KEEPER_NAMES. */
#define KEEPER_NAMES 64

/* What a call answers. Number 1, an address outside the store, is answered by no call. */
enum keeper_answer {
    KEEPER_GRANTED = 0,
    KEEPER_WRONG_COUNT = 2,   /* too few words for a keeper, or a saved list that is not as long as the store */
    KEEPER_UNKNOWN_NAME = 3,  /* the name is not 1 to 64 */
    KEEPER_TOO_DEEP = 4,      /* more than three subscripts */
    KEEPER_UNLABELLED = 5,    /* nothing is booked there; with a step */
    KEEPER_WRONG_SORT = 6,    /* a row where a table is wanted, or the other way round; with a step */
    KEEPER_OUT_OF_BOUNDS = 7, /* there is no such element; with a step */
    KEEPER_WRONG_TYPE = 8,    /* the row holds items of another type */
    KEEPER_BAD_FIELD = 9,     /* a base, type or depth that no block can have */
    KEEPER_BAD_LENGTH = 10,   /* a length of 0, or one that runs past the end */
    KEEPER_NO_ROOM = 11,      /* too few free words */
    KEEPER_INCONSISTENT = 12  /* the saved list does not hold together */
};

/* The types of the words in a row. Any other number matches no row. */
enum keeper_type {
    KEEPER_WORDS = 0,   /* plain words */
    KEEPER_AMOUNTS = 1, /* amounts in minor units, signed, in two's complement */
    KEEPER_VOUCHERS = 2 /* days since 1 January 1900 in the upper 32 bits, the voucher's number in the lower */
};

/* What the block at a place is. All is 0 where nothing is booked there; what is booked has a length of at least 1. */
struct keeper_extent {
    int64_t base;    /* the subscript of the first element */
    uint64_t length; /* how many elements there are */
    uint64_t codes;  /* 1 for a table, whose elements are arrays; 0 for a row of words */
    uint64_t kind;   /* the type of a row's words; 0 for a table */
};

/* ---- The whole keeper ---- */

/* Makes a keeper over the words, whatever they hold: every name is empty. Refused: KEEPER_WRONG_COUNT. */
uint32_t keeper_make(uint64_t *words, size_t count);

/* The free words. */
uint64_t keeper_total(uint64_t *words, size_t count);

/* Closes all blocks up, with one gap behind them. No array changes. */
void keeper_tidy(uint64_t *words, size_t count);

/* Copies the words into a list of just as many. Refused: KEEPER_WRONG_COUNT. */
uint32_t keeper_save(uint64_t *words, size_t count, uint64_t *list, size_t list_count);

/* Takes the list as the words, whatever they hold. Refused: KEEPER_WRONG_COUNT, KEEPER_INCONSISTENT. */
uint32_t keeper_load(uint64_t *words, size_t count, const uint64_t *list, size_t list_count);

/* ---- Arrays ---- */

/* Takes a row of n zeros of a type (codes false), or a table of n empty places (codes true, type 0), from the subscript `base` on. What
   stood at the place is freed first. */
uint32_t keeper_take(uint64_t *words, size_t count, uint64_t name, const int32_t *subscripts, size_t depth,
                     uint64_t n, int64_t base, bool codes, uint64_t kind, uint32_t *step);

/* Frees the array at a place, with all arrays below it. */
uint32_t keeper_free(uint64_t *words, size_t count, uint64_t name, const int32_t *subscripts, size_t depth, uint32_t *step);

/* Brings n elements, zeros or empty places, in before the one that the subscript selects, or after the last. */
uint32_t keeper_insert(uint64_t *words, size_t count, uint64_t name, const int32_t *subscripts, size_t depth,
                       int32_t subscript, uint64_t n, uint32_t *step);

/* Takes n elements out, from the one that the subscript selects on, with the arrays below them. Not all may leave. */
uint32_t keeper_delete(uint64_t *words, size_t count, uint64_t name, const int32_t *subscripts, size_t depth,
                       int32_t subscript, uint64_t n, uint32_t *step);

/* Gives the array at a place another base. */
uint32_t keeper_rebase(uint64_t *words, size_t count, uint64_t name, const int32_t *subscripts, size_t depth,
                       int64_t base, uint32_t *step);

/* Two elements of a table change places, with all that is below them. */
uint32_t keeper_exchange(uint64_t *words, size_t count, uint64_t name, const int32_t *subscripts, size_t depth,
                         int32_t one, int32_t other, uint32_t *step);

/* ---- What stands there ---- */

/* What the array at a place is, written into the extent. */
uint32_t keeper_span(uint64_t *words, size_t count, uint64_t name, const int32_t *subscripts, size_t depth,
                     struct keeper_extent *extent, uint32_t *step);

/* One word of a row of the type `kind`, written into the word. */
uint32_t keeper_read(uint64_t *words, size_t count, uint64_t name, const int32_t *subscripts, size_t depth,
                     uint64_t kind, int32_t subscript, uint64_t *word, uint32_t *step);

/* Writes one word of a row of the type `kind`. */
uint32_t keeper_write(uint64_t *words, size_t count, uint64_t name, const int32_t *subscripts, size_t depth,
                      uint64_t kind, int32_t subscript, uint64_t word, uint32_t *step);

/* As many words of a row of the type `kind` as the list `row` has, from the subscript on, written into the list. */
uint32_t keeper_read_row(uint64_t *words, size_t count, uint64_t name, const int32_t *subscripts, size_t depth,
                         uint64_t kind, int32_t subscript, uint64_t *row, size_t row_count, uint32_t *step);

/* Writes as many words of a row of the type `kind` as the list `row` has, from the subscript on. */
uint32_t keeper_write_row(uint64_t *words, size_t count, uint64_t name, const int32_t *subscripts, size_t depth,
                          uint64_t kind, int32_t subscript, const uint64_t *row, size_t row_count, uint32_t *step);

/* ---- The same over bytes: eight to a word, highest byte first. Saved lists and rows are of words here too. ---- */

uint32_t keeper_bytes_make(uint8_t *bytes, size_t count);
uint64_t keeper_bytes_total(uint8_t *bytes, size_t count);
void keeper_bytes_tidy(uint8_t *bytes, size_t count);
uint32_t keeper_bytes_save(uint8_t *bytes, size_t count, uint64_t *list, size_t list_count);
uint32_t keeper_bytes_load(uint8_t *bytes, size_t count, const uint64_t *list, size_t list_count);
uint32_t keeper_bytes_take(uint8_t *bytes, size_t count, uint64_t name, const int32_t *subscripts, size_t depth,
                           uint64_t n, int64_t base, bool codes, uint64_t kind, uint32_t *step);
uint32_t keeper_bytes_free(uint8_t *bytes, size_t count, uint64_t name, const int32_t *subscripts, size_t depth,
                           uint32_t *step);
uint32_t keeper_bytes_insert(uint8_t *bytes, size_t count, uint64_t name, const int32_t *subscripts, size_t depth,
                             int32_t subscript, uint64_t n, uint32_t *step);
uint32_t keeper_bytes_delete(uint8_t *bytes, size_t count, uint64_t name, const int32_t *subscripts, size_t depth,
                             int32_t subscript, uint64_t n, uint32_t *step);
uint32_t keeper_bytes_rebase(uint8_t *bytes, size_t count, uint64_t name, const int32_t *subscripts, size_t depth,
                             int64_t base, uint32_t *step);
uint32_t keeper_bytes_exchange(uint8_t *bytes, size_t count, uint64_t name, const int32_t *subscripts, size_t depth,
                               int32_t one, int32_t other, uint32_t *step);
uint32_t keeper_bytes_span(uint8_t *bytes, size_t count, uint64_t name, const int32_t *subscripts, size_t depth,
                           struct keeper_extent *extent, uint32_t *step);
uint32_t keeper_bytes_read(uint8_t *bytes, size_t count, uint64_t name, const int32_t *subscripts, size_t depth,
                           uint64_t kind, int32_t subscript, uint64_t *word, uint32_t *step);
uint32_t keeper_bytes_write(uint8_t *bytes, size_t count, uint64_t name, const int32_t *subscripts, size_t depth,
                            uint64_t kind, int32_t subscript, uint64_t word, uint32_t *step);
uint32_t keeper_bytes_read_row(uint8_t *bytes, size_t count, uint64_t name, const int32_t *subscripts, size_t depth,
                               uint64_t kind, int32_t subscript, uint64_t *row, size_t row_count, uint32_t *step);
uint32_t keeper_bytes_write_row(uint8_t *bytes, size_t count, uint64_t name, const int32_t *subscripts, size_t depth,
                                uint64_t kind, int32_t subscript, const uint64_t *row, size_t row_count, uint32_t *step);

#ifdef __cplusplus
}
#endif

#endif
