/* Times evaluating and counting with two builds of the library, in one run: one before a change and one after it.
 *
 *     cc -O2 bench/builds.c -Iinclude target/lib/libyavdocsil.a -ldl -o target/builds && target/builds BEFORE.so AFTER.so
 *
 * README.md says what is measured. The network is built by the library that this is linked with. It ends with 1 where a library or a call
 * is missing, a call is refused, or the rows' answers or the tables read differ. Counts may: what a table with free rows takes is the filling's. */
#include <dlfcn.h>
#include <stdio.h>
#include <string.h>
#include "drawn.h"

enum { ROWS = 1 << INPUTS, TURNS = 400 };

/* What is timed: all rows in sequence, as many at random, a read, which follows every row of every output, and counts of the table with
 * less and less of its rows cared. */
enum work { SEQUENCE, RANDOM, READ, COUNT, WORKS = COUNT + 4 };

static const int percents[WORKS - COUNT] = {100, 90, 50, 20};

/* One build: its calls, what they gave, and the best time of each work. */
struct build {
    uint64_t (*rows)(const uint64_t *, size_t, const uint16_t *, size_t, uint16_t *, size_t, const uint16_t *, size_t,
                     const uint16_t *, size_t);
    uint64_t (*read)(uint64_t *, size_t, const uint8_t *, size_t, uint8_t *, size_t, uint8_t *, size_t, uint8_t *, size_t,
                     uint16_t *, size_t, uint16_t *, size_t);
    uint64_t (*count)(const uint64_t *, size_t, const uint8_t *, size_t, const uint8_t *, size_t, uint8_t *, size_t);
    uint16_t answers[ROWS];
    uint8_t values[YAV_TABLE_BYTES];
    uint32_t cells[WORKS];
    double best[WORKS];
};

static struct build before, after, *timed;
static enum work at;
static uint16_t rows[ROWS], other_roots[YAV_ROOTS], other_cells[3 * YAV_MOST_CELLS];
static uint8_t file[YAV_FILE_BYTES], cares[WORKS][YAV_TABLE_BYTES];

/* The calls of the library at a path. */
static int open_build(struct build *build, const char *path)
{
    void *library = dlopen(path, RTLD_NOW | RTLD_LOCAL);
    if (!library)
        return 0;
    *(void **)&build->rows = dlsym(library, "yav_evaluate_rows");
    *(void **)&build->read = dlsym(library, "yav_read_cells");
    *(void **)&build->count = dlsym(library, "yav_count");
    for (int work = 0; work < WORKS; work++)
        build->best[work] = 1e12;
    return build->rows && build->read && build->count;
}

static uint64_t evaluate_rows(void)
{
    return timed->rows(state, YAV_STATE_WORDS, rows, ROWS, timed->answers, ROWS, roots, YAV_ROOTS, cells, 3 * YAV_MOST_CELLS);
}

static uint64_t read_network(void)
{
    size_t blocks = 1 + (size_t)(state[YAV_COUNT] + 83) / 84;
    return timed->read(state, YAV_STATE_WORDS, file, 512 * blocks, timed->values, YAV_TABLE_BYTES, care, YAV_TABLE_BYTES,
                       work, YAV_WORK_BYTES, other_roots, YAV_ROOTS, other_cells, 3 * YAV_MOST_CELLS);
}

static uint64_t count_cells(void)
{
    uint64_t answer = timed->count(state, YAV_STATE_WORDS, values, YAV_TABLE_BYTES, cares[at], YAV_TABLE_BYTES, work, YAV_WORK_BYTES);
    timed->cells[at] = yav_value(answer);
    return answer;
}

/* Free rows are free in all outputs. */
static void draw_cares(void)
{
    for (int i = COUNT; i < WORKS; i++)
        for (int row = 0; row < ROWS; row++)
            if (100 * drawn() < 256 * percents[i - COUNT])
                for (int bit = row; bit < ROWS * OUTPUTS; bit += ROWS)
                    cares[i][bit / 8] |= (uint8_t)(1 << bit % 8);
}

/* The rows of a turn are the same for both builds. */
static void list_rows(enum work work)
{
    for (int i = 0; i < ROWS; i++)
        rows[i] = (uint16_t)(work == RANDOM ? (256 * drawn() + drawn()) % ROWS : i);
}

static void time_work(struct build *build, enum work work)
{
    timed = build;
    at = work;
    uint64_t (*calls)(void) = work < READ ? evaluate_rows : work == READ ? read_network : count_cells;
    build->best[work] = less(build->best[work], microseconds(calls, YAV_DONE));
}

/* One turn of a work; the answers of both builds must be the same, and the table read the one drawn. */
static int turn(enum work work)
{
    list_rows(work);
    time_work(&before, work);
    time_work(&after, work);
    if (work < READ)
        return !memcmp(before.answers, after.answers, sizeof before.answers);
    if (work == READ)
        return !memcmp(before.values, values, sizeof values) && !memcmp(after.values, values, sizeof values);
    return 1;
}

/* In turn, so that what slows the machine slows both; the best is the one least disturbed. A refused call has a time below 0. */
static int timed_all(void)
{
    for (int i = 0; i < TURNS * WORKS; i++)
        if (!turn((enum work)(i % WORKS)))
            return 0;
    for (int work = 0; work < WORKS; work++)
        if (before.best[work] < 0 || after.best[work] < 0)
            return 0;
    return 1;
}

static void say(void)
{
    static const char *const names[COUNT] = {"1024 rows in sequence", "1024 rows at random", "a read"};
    for (int work = 0; work < WORKS; work++) {
        if (work < COUNT)
            printf("%s", names[work]);
        else
            printf("a count, %d %% cared, %u and %u cells", percents[work - COUNT], before.cells[work], after.cells[work]);
        printf(": %.0f microseconds before, %.0f after, ratio %.2f\n", before.best[work], after.best[work],
               after.best[work] / before.best[work]);
    }
}

int main(int count, char **words)
{
    if (count != 3 || !open_build(&before, words[1]) || !open_build(&after, words[2])) {
        fprintf(stderr, "usage: target/builds BEFORE.so AFTER.so\n");
        return 1;
    }
    draw();
    draw_cares();
    uint64_t answer = built();
    uint64_t written = yav_write_cells(state, YAV_STATE_WORDS, roots, YAV_ROOTS, cells, 3 * YAV_MOST_CELLS, work, YAV_WORK_BYTES,
                                       file, YAV_FILE_BYTES);
    if (yav_number(answer) || yav_number(written) || !timed_all()) {
        fprintf(stderr, "a call is refused, or the answers differ\n");
        return 1;
    }
    say();
    return 0;
}
