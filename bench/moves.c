/* Times the report of all moves beside what a caller would do without it, in one run: a count of each of the n × n moved orders, or a
 * sift of each input from the same order, which tells only the best of each.
 *
 *     cc -O2 bench/moves.c -Iinclude target/lib/libyavdocsil.a -o target/moves && target/moves
 *
 * README.md says what is measured. It ends with 1 where a call answers something else than it should, or where the ways differ. */
#include <stdio.h>
#include <string.h>
#include "drawn.h"

enum { TURNS = 30, ENTRIES = INPUTS * INPUTS };

static int32_t gains[ENTRIES], counted[ENTRIES], sifted[INPUTS];

static uint64_t report(void)
{
    return yav_moves(state, YAV_STATE_WORDS, gains, ENTRIES, values, YAV_TABLE_BYTES, care, YAV_TABLE_BYTES, work, YAV_WORK_BYTES);
}

static uint64_t cells_of(const uint64_t *held)
{
    return yav_count(held, YAV_STATE_WORDS, values, YAV_TABLE_BYTES, care, YAV_TABLE_BYTES, work, YAV_WORK_BYTES);
}

/* The state with an input moved to a place, the others in sequence. */
static void moved(uint64_t *held, uint64_t input, int to)
{
    memcpy(held, state, sizeof state);
    int next = 0;
    for (int place = 0; place < INPUTS; place++) {
        next += state[YAV_ORDER + next] == input;
        held[YAV_ORDER + place] = place == to ? input : state[YAV_ORDER + next++];
    }
}

static uint64_t by_counts(void)
{
    uint64_t held[YAV_STATE_WORDS], now = cells_of(state), answer = now;
    for (uint64_t input = 0; input < INPUTS; input++)
        for (int place = 0; place < INPUTS && yav_number(answer) == YAV_DONE; place++) {
            moved(held, input, place);
            answer = cells_of(held);
            counted[INPUTS * input + (uint64_t)place] = (int32_t)yav_value(answer) - (int32_t)yav_value(now);
        }
    return answer;
}

static uint64_t by_sifts(void)
{
    uint64_t held[YAV_STATE_WORDS], now = cells_of(state), answer = now;
    for (uint64_t input = 0; input < INPUTS && yav_number(answer) == YAV_DONE; input++) {
        memcpy(held, state, sizeof state);
        answer = yav_sift(held, YAV_STATE_WORDS, input, values, YAV_TABLE_BYTES, care, YAV_TABLE_BYTES, work, YAV_WORK_BYTES);
        sifted[input] = (int32_t)yav_value(answer) - (int32_t)yav_value(now);
    }
    return answer;
}

/* Each entry as counted, and the smallest of an input as sifted. */
static int same(void)
{
    for (int input = 0; input < INPUTS; input++) {
        int32_t smallest = gains[INPUTS * input];
        for (int place = 1; place < INPUTS; place++)
            if (gains[INPUTS * input + place] < smallest)
                smallest = gains[INPUTS * input + place];
        if (smallest != sifted[input])
            return 0;
    }
    return memcmp(gains, counted, sizeof gains) == 0;
}

/* The ways take turns, so that what slows the machine slows all; the best is the one least disturbed. */
static int timed(int percent)
{
    double reported = 1e12, counts = 1e12, sifts = 1e12, count = 1e12;
    for (int turn = 0; turn < TURNS; turn++) {
        reported = less(reported, microseconds(report, YAV_DONE));
        counts = less(counts, microseconds(by_counts, YAV_DONE));
        sifts = less(sifts, microseconds(by_sifts, YAV_DONE));
        clock_t before = clock();
        cells_of(state);
        count = less(count, 1e6 * (double)(clock() - before) / CLOCKS_PER_SEC);
        if (reported < 0 || counts < 0 || sifts < 0 || !same())
            return 0;
    }
    printf("%3d %% cared: report %.0f microseconds; %d counts %.0f, ratio %.2f; %d sifts %.0f, ratio %.2f; a count %.0f\n", percent,
           reported, ENTRIES + 1, counts, reported / counts, INPUTS, sifts, reported / sifts, count);
    return 1;
}

int main(void)
{
    static const int percents[] = {100, 90, 50, 20};
    draw();
    for (int i = 0; i < 4; i++) {
        for (int byte = 0; byte < YAV_TABLE_BYTES; byte++)
            for (int bit = care[byte] = 0; bit < 8; bit++)
                care[byte] |= (uint8_t)((drawn() * 100 < percents[i] * 256) << bit);
        if (!timed(percents[i])) {
            fprintf(stderr, "a call answers something else than it should\n");
            return 1;
        }
    }
    return 0;
}
