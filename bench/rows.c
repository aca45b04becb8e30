/* Times all rows in one call against a call for each row, in one run.
 *
 *     cc -O2 bench/rows.c -Iinclude target/lib/libyavdocsil.a -o target/rows && target/rows
 *
 * README.md says what is measured. It ends with 1 where a call is refused or an answer differs. */
#include <stdio.h>
#include "drawn.h"

enum { ROWS = 1 << INPUTS, TURNS = 200 };

static uint16_t rows[ROWS], together[ROWS], alone[ROWS];

/* All rows, in sequence. */
static void list_rows(void)
{
    for (int row = 0; row < ROWS; row++)
        rows[row] = (uint16_t)row;
}

/* Each of the two answers a success where all its calls do. */
static uint64_t in_one_call(void)
{
    return yav_evaluate_rows(state, YAV_STATE_WORDS, rows, ROWS, together, ROWS,
                             roots, YAV_ROOTS, cells, 3 * YAV_MOST_CELLS);
}

static uint64_t row_by_row(void)
{
    uint64_t refusal = 0;
    for (int i = 0; i < ROWS; i++) {
        uint64_t answer = yav_evaluate(state, YAV_STATE_WORDS, rows[i], roots, YAV_ROOTS, cells, 3 * YAV_MOST_CELLS);
        if (yav_number(answer))
            refusal = answer;
        alone[i] = (uint16_t)yav_value(answer);
    }
    return refusal;
}

/* Row i of output j is bit 1,024 j + i of the values. */
static int as_drawn(int row, uint16_t answer)
{
    for (int j = 0; j < OUTPUTS; j++) {
        int bit = ROWS * j + row;
        if ((answer >> j & 1) != (values[bit / 8] >> bit % 8 & 1))
            return 0;
    }
    return 1;
}

static int all_right(void)
{
    for (int i = 0; i < ROWS; i++)
        if (together[i] != alone[i] || !as_drawn(rows[i], alone[i]))
            return 0;
    return 1;
}

int main(void)
{
    draw();
    list_rows();
    uint64_t answer = built();
    double one = 1e12, each = 1e12;
    /* In turn, so that what slows the machine slows both; the best is the one least disturbed. */
    for (int turn = 0; turn < TURNS; turn++) {
        one = less(one, microseconds(in_one_call, YAV_DONE));
        each = less(each, microseconds(row_by_row, YAV_DONE));
    }
    if (yav_number(answer) || one < 0 || each < 0 || !all_right()) {
        fprintf(stderr, "a call is refused, or an answer differs\n");
        return 1;
    }
    printf("cells %u\n", yav_value(answer));
    printf("%d rows in one call: %.0f microseconds\n", ROWS, one);
    printf("%d calls, a row each: %.0f microseconds\n", ROWS, each);
    printf("ratio %.1f\n", each / one);
    return 0;
}
