/* Times the test of number 32 beside a build of the same network, in one run.
 *
 *     cc -O2 bench/canonical.c -Iinclude target/lib/libyavdocsil.a -o target/canonical && target/canonical
 *
 * README.md says what is measured. It ends with 1 where a call answers something else than it should. */
#include <stdio.h>
#include "drawn.h"

enum { TURNS = 400 };

static uint64_t longer[YAV_STATE_WORDS];
static uint8_t file[YAV_FILE_BYTES];
static uint16_t other_roots[YAV_ROOTS], other_cells[3 * YAV_MOST_CELLS];

static int has_cell(uint64_t count, uint16_t place, uint16_t low, uint16_t high)
{
    for (uint64_t i = 0; i < count; i++)
        if (cells[3 * i] == place && cells[3 * i + 1] == low && cells[3 * i + 2] == high)
            return 1;
    return 0;
}

/* The network with a cell behind it that nothing reaches and that is like no other: the test goes through all of it, and refuses at the
 * very end. So its time is what such a refused call takes. */
static void lengthen(uint64_t count)
{
    uint16_t top = (uint16_t)(2 * count), low = 0;
    while (has_cell(count, 6, low, top))
        low = (uint16_t)(low + 2);
    for (int i = 0; i < YAV_STATE_WORDS; i++)
        longer[i] = state[i];
    longer[YAV_COUNT] = count + 1;
    cells[3 * count] = 6;
    cells[3 * count + 1] = low;
    cells[3 * count + 2] = top;
}

static uint64_t test(void)
{
    return yav_write_cells(longer, YAV_STATE_WORDS, roots, YAV_ROOTS, cells, 3 * YAV_MOST_CELLS, work, YAV_WORK_BYTES,
                           file, YAV_FILE_BYTES);
}

static uint64_t write(void)
{
    return yav_write_cells(state, YAV_STATE_WORDS, roots, YAV_ROOTS, cells, 3 * YAV_MOST_CELLS, work, YAV_WORK_BYTES,
                           file, YAV_FILE_BYTES);
}

static uint64_t read(void)
{
    size_t blocks = 1 + (size_t)(state[YAV_COUNT] + 83) / 84;
    return yav_read_cells(state, YAV_STATE_WORDS, file, 512 * blocks, values, YAV_TABLE_BYTES, care, YAV_TABLE_BYTES,
                          work, YAV_WORK_BYTES, other_roots, YAV_ROOTS, other_cells, 3 * YAV_MOST_CELLS);
}

static int same_cells(uint64_t count)
{
    for (uint64_t i = 0; i < 3 * count; i++)
        if (cells[i] != other_cells[i])
            return 0;
    return 1;
}

int main(void)
{
    draw();
    uint64_t count = yav_value(built());
    double building = 1e12, tested = 1e12, written = 1e12, again = 1e12;
    /* In turn, so that what slows the machine slows all; the best is the one least disturbed. */
    for (int turn = 0; turn < TURNS; turn++) {
        building = less(building, microseconds(built, YAV_DONE));
        lengthen(count);
        tested = less(tested, microseconds(test, YAV_NOT_CANONICAL));
        written = less(written, microseconds(write, YAV_DONE));
        again = less(again, microseconds(read, YAV_DONE));
    }
    if (count == 0 || building < 0 || tested < 0 || written < 0 || again < 0 || !same_cells(count)) {
        fprintf(stderr, "a call answers something else than it should\n");
        return 1;
    }
    printf("cells %llu\n", (unsigned long long)count);
    printf("build: %.0f microseconds\n", building);
    printf("test of number 32: %.0f microseconds, ratio %.2f\n", tested, tested / building);
    printf("write, test included: %.0f microseconds, ratio %.2f\n", written, written / building);
    printf("read, test included: %.0f microseconds, ratio %.2f\n", again, again / building);
    return 0;
}
