/* The length of the hypotenuse of a right triangle, as a sheet: 3 and 4 are put in, squared, added, and the root is taken. Each claim is
 * written with its hints, the sheet is checked in both systems, and then once more with a hint forged. */
#include "kelfrudd.h"

#include <inttypes.h>
#include <stdio.h>

enum { ROW = 10, ROWS = 6 };

static uint64_t rows[ROWS * ROW];

/* The word of a cell is in its row. */
static uint32_t word_of(uint64_t cell) {
    return (uint32_t)rows[cell * ROW + 3];
}

static void put_input(uint64_t cell, uint32_t word) {
    rows[cell * ROW + 3] = word;
}

static int put_claim(uint64_t cell, uint32_t code, uint64_t first, uint64_t second) {
    uint64_t *row = rows + cell * ROW;
    row[0] = code;
    row[1] = first;
    row[2] = second;
    return kelfrudd_write_step(code, word_of(first), word_of(second), row + 3, 7) == KELFRUDD_PASSED;
}

static uint32_t check(const char *name, uint32_t system) {
    uint64_t told[5];
    uint32_t number = kelfrudd_check_sheet(system, 7, 4294967296, rows, ROWS * ROW, told, 5);
    printf("%s: number %" PRIu64 ", rows passed %" PRIu64 ", cell %" PRIu64 ", hint %" PRIu64 ", closing number %016" PRIX64 "\n", name, told[0],
           told[1], told[2], told[3], told[4]);
    return number;
}

int main(void) {
    put_input(0, 0x40400000);
    put_input(1, 0x40800000);
    if (!put_claim(2, 3, 0, 0) || !put_claim(3, 3, 1, 1) || !put_claim(4, 1, 2, 3) || !put_claim(5, 5, 4, 0))
        return 1;
    printf("the root of 3 * 3 + 4 * 4 is %08" PRIX32 "\n", word_of(5));
    if (check("modulo 2^64", KELFRUDD_WRAPPING) != KELFRUDD_PASSED || check("in the pair", KELFRUDD_PAIR) != KELFRUDD_PASSED)
        return 1;

    rows[4 * ROW + 7] += 1;
    if (check("keep forged", KELFRUDD_PAIR) != KELFRUDD_SECOND_EQUATION)
        return 1;

    uint64_t *claim = rows + 5 * ROW + 3;
    uint64_t named[1];
    claim[3] += 1;
    uint32_t number = kelfrudd_check_step(KELFRUDD_PAIR, 5, word_of(4), 0, (uint32_t)claim[0], claim + 1, 6, named, 1);
    printf("lift of the root forged: number %" PRIu32 ", hint %" PRIu64 "\n", number, named[0]);
    return number == KELFRUDD_WIDTH && named[0] == 3 ? 0 : 1;
}
