/* Times count, build and pass of the table in a file, many of them in one process, so that nothing but the calls is in the figure.
 *
 *     passes TABLE count TIMES | passes TABLE build TIMES | passes TABLE pass TIMES ORDERS | passes TABLE cells
 *
 * run.py builds and calls it; README.md says what is measured. It prints the nanoseconds of processor time that so many calls took together,
 * or with `cells` how many a pass from the file's order comes to. ORDERS has the orders that the passes begin with, in turn, a byte for the
 * input at each place. It ends with 1 where a word or a file is wrong, or where a call is refused. */
#include <stdio.h>
#include <stdlib.h>
#include <string.h>
#include "drawn.h"

static uint8_t file[65536], orders[65536];
static size_t file_bytes, orders_bytes;

static size_t read_file(const char *path, uint8_t *bytes, size_t most)
{
    FILE *opened = fopen(path, "rb");
    if (!opened)
        return 0;
    size_t length = fread(bytes, 1, most, opened);
    fclose(opened);
    return length;
}

static uint64_t load(void)
{
    return yav_load(state, YAV_STATE_WORDS, file, file_bytes, values, YAV_TABLE_BYTES, care, YAV_TABLE_BYTES);
}

static uint64_t count(void)
{
    return yav_count(state, YAV_STATE_WORDS, values, YAV_TABLE_BYTES, care, YAV_TABLE_BYTES, work, YAV_WORK_BYTES);
}

static uint64_t pass(void)
{
    return yav_pass(state, YAV_STATE_WORDS, UINT32_MAX, values, YAV_TABLE_BYTES, care, YAV_TABLE_BYTES, work, YAV_WORK_BYTES);
}

/* A pass from the next of the orders. */
static uint64_t next_pass(void)
{
    static size_t at = 0;
    if (at + state[YAV_INPUTS] > orders_bytes)
        at = 0;
    for (uint64_t place = 0; place < state[YAV_INPUTS]; place++)
        state[YAV_ORDER + place] = orders[at++];
    return pass();
}

static uint64_t cells_after_pass(void)
{
    uint64_t passed = pass();
    return yav_number(passed) == YAV_DONE ? count() : passed;
}

/* The processor time of so many calls in nanoseconds, or -1 where one of them is refused. */
static long long timed(uint64_t (*call)(void), long times)
{
    struct timespec before, after;
    uint32_t refused = 0;
    clock_gettime(CLOCK_PROCESS_CPUTIME_ID, &before);
    for (long turn = 0; turn < times; turn++)
        refused |= yav_number(call());
    clock_gettime(CLOCK_PROCESS_CPUTIME_ID, &after);
    return refused ? -1 : 1000000000LL * (after.tv_sec - before.tv_sec) + after.tv_nsec - before.tv_nsec;
}

/* What the words ask for, or -1. */
static long long answered(int words, char **word)
{
    file_bytes = words > 2 ? read_file(word[1], file, sizeof file) : 0;
    if (yav_number(load()) != YAV_DONE)
        return -1;
    if (words == 3 && !strcmp(word[2], "cells")) {
        uint64_t answer = cells_after_pass();
        return yav_number(answer) == YAV_DONE ? (long long)yav_value(answer) : -1;
    }
    if (words == 4 && !strcmp(word[2], "count"))
        return timed(count, atol(word[3]));
    if (words == 4 && !strcmp(word[2], "build"))
        return timed(built, atol(word[3]));
    orders_bytes = words == 5 && !strcmp(word[2], "pass") ? read_file(word[4], orders, sizeof orders) : 0;
    return orders_bytes ? timed(next_pass, atol(word[3])) : -1;
}

int main(int words, char **word)
{
    long long answer = answered(words, word);
    if (answer < 0) {
        fprintf(stderr, "a word or a file is wrong, or a call is refused\n");
        return 1;
    }
    printf("%lld\n", answer);
    return 0;
}
