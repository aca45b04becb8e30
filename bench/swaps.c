/* Times a swap of two neighbouring places in the held cells beside a swap of the order and a build, at every place, in one run; and with
 * -DBUDDY beside BuDDy's swap of two levels of the same functions.
 *
 *     cc -O2 -DBUDDY bench/swaps.c -Iinclude target/lib/libyavdocsil.a -lbdd -lm -o target/swaps && target/swaps
 *
 * README.md says what is measured. It ends with 1 where a call answers something else than it should, or where the two ways differ. */
#include <stdio.h>
#include <string.h>
#include "drawn.h"
#ifdef BUDDY
#include <bdd.h>
#endif

enum { TURNS = 200, PLACES = INPUTS - 1 };

static int place;
static uint64_t held[YAV_STATE_WORDS];
static uint16_t held_roots[YAV_ROOTS], held_cells[3 * YAV_MOST_CELLS];

static uint64_t in_cells(void)
{
    return yav_swap_cells(held, YAV_STATE_WORDS, (uint64_t)place, work, YAV_WORK_BYTES, held_roots, YAV_ROOTS,
                          held_cells, 3 * YAV_MOST_CELLS);
}

static uint64_t and_build(void)
{
    uint64_t answer = yav_swap(state, YAV_STATE_WORDS, (uint64_t)place);
    return yav_number(answer) == YAV_DONE && yav_number(built()) == YAV_DONE ? answer : ~(uint64_t)0;
}

/* Bit for bit: the state, the roots, and as many cells as are counted. */
static int same(void)
{
    return memcmp(state, held, sizeof state) == 0 && memcmp(roots, held_roots, sizeof roots) == 0
        && memcmp(cells, held_cells, 6 * (size_t)state[YAV_COUNT]) == 0;
}

#ifdef BUDDY
static BDD function_of(int output, int input, int row)
{
    if (input == INPUTS) {
        int bit = output * (1 << INPUTS) + row;
        return values[bit / 8] >> (bit % 8) & 1 ? bdd_true() : bdd_false();
    }
    BDD low = bdd_addref(function_of(output, input + 1, 2 * row));
    BDD high = bdd_addref(function_of(output, input + 1, 2 * row + 1));
    BDD whole = bdd_addref(bdd_ite(bdd_ithvar(input), high, low));
    bdd_delref(low);
    bdd_delref(high);
    return bdd_delref(whole), whole;
}

static void theirs_made(void)
{
    bdd_init(8192, 1024);
    bdd_gbc_hook(NULL);
    bdd_setmaxincrease(0);
    bdd_setvarnum(INPUTS);
    for (int output = 0; output < OUTPUTS; output++)
        bdd_addref(function_of(output, 0, 0));
    bdd_gbc();
}

static uint64_t theirs(void)
{
    bdd_swapvar(bdd_level2var(place), bdd_level2var(place + 1));
    return 0;
}
#endif

/* Both ways take turns there and back, so that what slows the machine slows all; the best is the one least disturbed. */
static int timed(double *cell, double *build, double *their)
{
    *cell = *build = *their = 1e12;
    for (int turn = 0; turn < 2 * TURNS; turn++) {
        *cell = less(*cell, microseconds(in_cells, YAV_DONE));
        *build = less(*build, microseconds(and_build, YAV_DONE));
        if (*cell < 0 || *build < 0 || !same())
            return 0;
#ifdef BUDDY
        *their = less(*their, microseconds(theirs, YAV_DONE));
#endif
    }
    return 1;
}

int main(void)
{
    draw();
    uint64_t count = yav_value(built());
    memcpy(held, state, sizeof state);
    memcpy(held_roots, roots, sizeof roots);
    memcpy(held_cells, cells, sizeof cells);
    printf("cells %llu\n", (unsigned long long)count);
#ifdef BUDDY
    theirs_made();
    printf("BuDDy's nodes %d\n", bdd_getnodenum());
#endif
    for (place = 0; place < PLACES; place++) {
        double cell, build, their;
        if (!timed(&cell, &build, &their)) {
            fprintf(stderr, "a call answers something else than it should\n");
            return 1;
        }
        printf("place %d: in the cells %.0f microseconds; swap and build %.0f, ratio %.1f", place, cell, build, build / cell);
#ifdef BUDDY
        printf("; BuDDy %.0f, ratio %.2f", their, cell / their);
#endif
        printf("\n");
    }
    return 0;
}
