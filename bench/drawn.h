/* What the timed programs share: a table of 10 inputs and 16 outputs from a small generator, with every row cared, and times. */
#ifndef DRAWN_H
#define DRAWN_H

#include <time.h>
#include <yavdocsil.h>

enum { INPUTS = 10, OUTPUTS = 16 };

static uint64_t state[YAV_STATE_WORDS];
static uint8_t values[YAV_TABLE_BYTES], care[YAV_TABLE_BYTES], work[YAV_WORK_BYTES];
static uint16_t roots[YAV_ROOTS], cells[3 * YAV_MOST_CELLS];

/* The same bytes on every machine: the multiplier and addend of Knuth's MMIX, the upper bits. */
static uint8_t drawn(void)
{
    static uint64_t seed = 1;
    seed = seed * 6364136223846793005u + 1442695040888963407u;
    return (uint8_t)(seed >> 56);
}

/* A random table in the natural order. */
static void draw(void)
{
    state[YAV_INPUTS] = INPUTS;
    state[YAV_OUTPUTS] = OUTPUTS;
    state[YAV_STAGE] = 1;
    for (int place = 0; place < INPUTS; place++)
        state[YAV_ORDER + place] = (uint64_t)place;
    for (int i = 0; i < YAV_TABLE_BYTES; i++) {
        values[i] = drawn();
        care[i] = 0xFF;
    }
}

static uint64_t built(void)
{
    return yav_build(state, YAV_STATE_WORDS, values, YAV_TABLE_BYTES, care, YAV_TABLE_BYTES, work, YAV_WORK_BYTES,
                     roots, YAV_ROOTS, cells, 3 * YAV_MOST_CELLS);
}

/* Processor time of calls in microseconds, or a negative number where they answer another number than they should. */
static double microseconds(uint64_t (*calls)(void), uint32_t wanted)
{
    clock_t before = clock();
    uint64_t answer = calls();
    clock_t after = clock();
    return yav_number(answer) != wanted ? -1 : 1e6 * (double)(after - before) / CLOCKS_PER_SEC;
}

static double less(double best, double now)
{
    return now < best ? now : best;
}

#endif
