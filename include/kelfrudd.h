/* Kelfrudd: binary32 steps, written with their hints and checked.
 *
 * Link target/staticlib/libkelfrudd.a, which `tools/staticlib` makes; of the C library it needs memcpy and memset alone. docs/RULES.md has the rules and
 * every number. No function allocates, keeps anything between calls, or fails in any other way than by the number that it returns.
 *
 * A slice is a pointer and then a length in places of 64 bits. The pointer must not be NULL, not even with length 0, must be aligned as a
 * uint64_t, and must point to at least so many places; a slice that is written must overlap no other argument, and nobody else may write
 * a slice meanwhile.
 *
 * Operations have the codes 1 add, 2 subtract, 3 multiply, 4 divide, 5 square root (of the first word alone), 6 equal, 7 less,
 * 8 less or equal. Words are the bits of a binary32 datum. */
#ifndef KELFRUDD_H
#define KELFRUDD_H

#include <stddef.h>
#include <stdint.h>

#ifdef __cplusplus
extern "C" {
#endif

/* The number systems that equations are reckoned in. Both find the same. */
enum {
    KELFRUDD_WRAPPING = 1, /* modulo 2^64 */
    KELFRUDD_PAIR = 2      /* modulo 2147483647 and modulo 2013265921 */
};

/* What a function returns. */
enum {
    KELFRUDD_PASSED = 0,
    KELFRUDD_FULL = 1,             /* every cell of the sheet is taken */
    KELFRUDD_UNKNOWN_CODE = 2,     /* no operation has the code */
    KELFRUDD_NOT_TAKEN = 3,        /* the cell of an operand is not taken */
    KELFRUDD_NOT_ACCEPTED = 4,     /* the cell of an operand is pending or struck */
    KELFRUDD_BAD_TICKET = 5,       /* a ticket of no pending cell */
    KELFRUDD_WIDTH = 6,            /* a hint is outside its width */
    KELFRUDD_FIRST_EQUATION = 7,   /* the first equation fails */
    KELFRUDD_SECOND_EQUATION = 8,  /* the second equation fails */
    KELFRUDD_UP = 9,               /* up is not what its rule says */
    KELFRUDD_WORD = 10,            /* the claimed word is not the step's */
    KELFRUDD_TOO_SHORT = 101,      /* a slice has too few places; nothing was written */
    KELFRUDD_NO_WHOLE_ROWS = 102,  /* the numbers of a list are no multiple of ten; nothing was written */
    KELFRUDD_UNKNOWN_SYSTEM = 103, /* no system has the number; nothing was written */
    KELFRUDD_WIDE_WORD = 104       /* the word of a row is above 32 bits */
};

/* Writes the step of an operation on two words. Returns 0, with the word and its hints main, rest, lift, keep, drop and up in the
 * first seven places of out (six zeros where the step is direct); KELFRUDD_UNKNOWN_CODE; or KELFRUDD_TOO_SHORT where out has fewer than
 * seven places. Where it returns anything but 0, out is as it was. */
uint32_t kelfrudd_write_step(uint32_t code, uint32_t first, uint32_t second, uint64_t *out, size_t out_places);

/* Checks a claimed word and its six hints for an operation on two words, in a system. Returns 0 exactly where they are what
 * kelfrudd_write_step gives, else the number of the first check that fails: KELFRUDD_UNKNOWN_CODE, or 6 to 10. The first place of named
 * then has the number, 1 to 6, of the hint that is outside its width, and 0 for any answer but 6. KELFRUDD_TOO_SHORT where there are
 * fewer than six hints or named has no place, then KELFRUDD_UNKNOWN_SYSTEM: nothing is written. */
uint32_t kelfrudd_check_step(uint32_t system, uint32_t code, uint32_t first, uint32_t second, uint32_t claimed, const uint64_t *hints,
                             size_t hints_given, uint64_t *named, size_t named_places);

/* Puts a list of rows on a new sheet, in their order, and stops at the first that does not pass. A row is ten numbers:
 *
 *     code, first cell, second cell, word, main, rest, lift, keep, drop, up
 *
 * A row with code 0 is an input: its word takes the next cell, and its other numbers are not looked at. Any other row is a claim that the
 * operation with this code, on the words of two earlier cells, has this word; it is entered and settled with its hints. Row n takes cell n,
 * and there are 256 cells. A code above 32 bits is none of an operation; a word above 32 bits stops the list with KELFRUDD_WIDE_WORD.
 *
 * Returns 0 where every row passed; the sheet is then closed. Else returns the number of what stopped the list: 1 to 10 or
 * KELFRUDD_WIDE_WORD. The first five places of told have
 *
 *     the number returned
 *     how many rows passed, which is the index of the row that stopped the list
 *     the operand, 1 or 2, of number 3; the cell of numbers 6 to 10; else 0
 *     the hint, 1 to 6, of number 6; else 0
 *     the closing number where every row passed, else 0
 *
 * Numbers 4 and 5 do not come: a list stops at its first refusal, and its tickets are the sheet's own. The serial alters nothing that is told.
 * An empty list passes, with the closing number 0. KELFRUDD_TOO_SHORT where told has fewer than five places, then
 * KELFRUDD_NO_WHOLE_ROWS, then KELFRUDD_UNKNOWN_SYSTEM: nothing is written. */
uint32_t kelfrudd_check_sheet(uint32_t system, uint32_t serial, uint64_t weight, const uint64_t *numbers, size_t numbers_given,
                              uint64_t *told, size_t told_places);

#ifdef __cplusplus
}
#endif

#endif
