/* Yavdocsil for C: a truth table with don't-cares becomes the smallest network of two-way selectors.
 *
 * A slice passes as a pointer and a length in elements. Lent slices don't overlap, and all of a slice is memory of the caller's.
 * What is too short, wrong or out of place is answered with a number, and nothing but what is said here is written:
 * a refusal leaves the state and every buffer as they were, except that YAV_TOO_SMALL and YAV_NOT_CANONICAL leave the work buffer zero.
 *
 * No call keeps anything between calls: a table is its state and its buffers, and each thread can have its own. None allocates memory; on
 * the stack yav_swap_cells takes up to 128 KiB, yav_read_cells and yav_write_cells up to 96, all others up to 16 (measured on x86-64). */
#ifndef YAVDOCSIL_H
#define YAVDOCSIL_H

#include <stddef.h>
#include <stdint.h>

#ifdef __cplusplus
extern "C" {
#endif

/* How many elements a call needs of each buffer. More is fine: the rest is neither used nor changed. */
enum {
    YAV_STATE_WORDS = 40,
    YAV_TABLE_BYTES = 2048, /* values, and care: the drawn bits, and which of them are cared */
    YAV_WORK_BYTES = 32768, /* zero after each success */
    YAV_ROOTS = 16,
    YAV_MOST_CELLS = 2159, /* no table needs more; a cell takes three elements: place, 0-arrow, 1-arrow */
    YAV_FILE_BYTES = 13824 /* a network file to be written: 27 blocks of 512 bytes, which so many cells take */
};

/* Where the state's words stand. Words not named are never read or changed. Start with all words zero. */
enum {
    YAV_INPUTS = 0,
    YAV_OUTPUTS = 1,
    YAV_COUNT = 2, /* the cells of the network held */
    YAV_STAGE = 3, /* 0 nothing, 1 table, 2 network; any other counts as 0 */
    YAV_ORDER = 8  /* the input at each place, the top place first: ten words */
};

/* The number of an answer. */
enum {
    YAV_DONE = 0,
    YAV_BAD_LENGTH = 1,
    YAV_BAD_CHECK = 2,
    YAV_BAD_KIND = 3,
    YAV_BAD_INPUTS = 4,
    YAV_BAD_OUTPUTS = 5,
    YAV_BAD_ORDER = 6,
    YAV_BAD_CONTENT = 7,
    YAV_NO_ROW = 8,
    YAV_NO_SUCH = 9,        /* no such input, or no two places to swap there */
    YAV_SHORT_BUFFER = 10,  /* a state of fewer than 40 words too, before all else */
    YAV_NO_TABLE = 21,
    YAV_NO_NETWORK = 22,
    YAV_TOO_SMALL = 23,     /* the value is the cells wanted */
    YAV_BAD_CELLS = 24,
    YAV_SHORT_ANSWERS = 31, /* fewer answers lent than rows */
    YAV_NOT_CANONICAL = 32, /* no build leaves such cells and roots, whatever the table */
    YAV_TOO_MANY_RECORDS = 33,
    YAV_SHORT_GAINS = 34    /* fewer entries lent than inputs × inputs */
};

/* An answer is its number × 2³² + its value. */
static inline uint32_t yav_number(uint64_t answer) { return (uint32_t)(answer >> 32); }
static inline uint32_t yav_value(uint64_t answer) { return (uint32_t)answer; }

/* A number's words, in English, without a full stop; those of a number that isn't above are 'for a reason unknown here'.
 *
 *     if (yav_number(answer) != YAV_DONE)
 *         fprintf(stderr, "refused %u: %s\n", (unsigned)yav_number(answer), yav_message(yav_number(answer)));
 */
static inline const char *yav_message(uint32_t number)
{
    static const struct { uint32_t number; const char *words; } messages[] = {
        { YAV_DONE, "done" },
        { YAV_BAD_LENGTH, "the file is empty, not of whole blocks, or not of as many as its heading asks for" },
        { YAV_BAD_CHECK, "a block's check differs" },
        { YAV_BAD_KIND, "a block's kind, its second byte or its number is wrong" },
        { YAV_BAD_INPUTS, "there are more than 10 inputs" },
        { YAV_BAD_OUTPUTS, "there is no output, or more than 16" },
        { YAV_BAD_ORDER, "the order doesn't have each input once" },
        { YAV_BAD_CONTENT, "unused content is not zero" },
        { YAV_NO_ROW, "there is no such row" },
        { YAV_NO_SUCH, "there is no such input, or no two places to swap there" },
        { YAV_SHORT_BUFFER, "a buffer is too short" },
        { YAV_NO_TABLE, "no table is held" },
        { YAV_NO_NETWORK, "no network is held" },
        { YAV_TOO_SMALL, "the board has too few cells" },
        { YAV_BAD_CELLS, "the cells and roots are no diagram" },
        { YAV_SHORT_ANSWERS, "there are fewer answers than rows" },
        { YAV_NOT_CANONICAL, "the cells and roots are not what a build leaves" },
        { YAV_TOO_MANY_RECORDS, "there are more records than 32 bits count" },
        { YAV_SHORT_GAINS, "the report needs more entries" }
    };
    for (size_t i = 0; i < sizeof messages / sizeof messages[0]; i++)
        if (messages[i].number == number)
            return messages[i].words;
    return "for a reason unknown here";
}

/* Reads a table file into values and care. Numbers 10, and 1 to 7. */
uint64_t yav_load(uint64_t *state, size_t state_words, const uint8_t *file, size_t file_bytes,
                  uint8_t *values, size_t values_bytes, uint8_t *care, size_t care_bytes);

/* The number of cared bits in the table. Numbers 10, 21. */
uint64_t yav_cared(const uint64_t *state, size_t state_words, const uint8_t *care, size_t care_bytes);

/* The cells that the table's network takes, whatever the board. Numbers 10, 21. */
uint64_t yav_count(const uint64_t *state, size_t state_words, const uint8_t *values, size_t values_bytes,
                   const uint8_t *care, size_t care_bytes, uint8_t *work, size_t work_bytes);

/* Builds the table's network, the smallest there is, in roots and cells, and answers its cells. Two builds with the same inputs, outputs
 * and order leave the same count, counted cells and roots if and only if the networks do the same at every row. Numbers 10, 21, 23. */
uint64_t yav_build(uint64_t *state, size_t state_words, const uint8_t *values, size_t values_bytes,
                   const uint8_t *care, size_t care_bytes, uint8_t *work, size_t work_bytes,
                   uint16_t *roots, size_t roots_elements, uint16_t *cells, size_t cells_elements);

/* What the network gives at a row: bit j is output j. It tests the cells first. Numbers 10, 22, 8, 24. */
uint64_t yav_evaluate(const uint64_t *state, size_t state_words, uint64_t row,
                      const uint16_t *roots, size_t roots_elements, const uint16_t *cells, size_t cells_elements);

/* The same for each row of a list: answer i is what row i alone gives, and answers past the last row stay. The cells are tested once.
 * A row out of range, wherever it stands, writes nothing. Numbers 10, 31, 22, 8, 24. */
uint64_t yav_evaluate_rows(const uint64_t *state, size_t state_words, const uint16_t *rows, size_t rows_elements,
                           uint16_t *answers, size_t answers_elements, const uint16_t *roots, size_t roots_elements,
                           const uint16_t *cells, size_t cells_elements);

/* Writes the network file of the network held: a block with its order, count and roots, then a block for every 84 cells, 512 bytes each.
 * Bytes past the last block stay. Numbers 10, 22, 24, 32. */
uint64_t yav_write_cells(const uint64_t *state, size_t state_words, const uint16_t *roots, size_t roots_elements,
                         const uint16_t *cells, size_t cells_elements, uint8_t *work, size_t work_bytes,
                         uint8_t *file, size_t file_bytes);

/* Reads a network file into roots and cells, and the table that the cells give into values, with every row cared. It takes just the files
 * that the call above writes, without a byte more. Numbers 10, 1 to 7, 23 by the file's count, 24, 32. */
uint64_t yav_read_cells(uint64_t *state, size_t state_words, const uint8_t *file, size_t file_bytes,
                        uint8_t *values, size_t values_bytes, uint8_t *care, size_t care_bytes, uint8_t *work, size_t work_bytes,
                        uint16_t *roots, size_t roots_elements, uint16_t *cells, size_t cells_elements);

/* Logs the rows that a head saw. Each of the 2^n counts rises by the times its row is in the list; then a row is cared in every output if
 * its count is at least `least`, and else free. The caller zeroes the counts before the first log, and may log as often as it likes: with
 * an empty list only the care is made anew. A row out of range, or more than 4,294,967,295 records in all, counts nothing.
 * Numbers 10, 21, 10 for fewer than 2^n counts, 8, 33. */
uint64_t yav_log_rows(uint64_t *state, size_t state_words, const uint16_t *rows, size_t rows_elements, uint32_t least,
                      uint32_t *counts, size_t counts_elements, uint8_t *care, size_t care_bytes);

/* Exchanges the inputs at `place` and the place below it. Numbers 10, 21, 9. */
uint64_t yav_swap(uint64_t *state, size_t state_words, uint64_t place);

/* The same in the cells and roots of the network held, without the table: every row gives what it gave, and no network under the new order
 * that gives so has fewer cells. The state keeps its network and has the new count; cells past it stay, and the answer's value is 0. Where
 * every row is cared, a build leaves the same cells; with free rows it may leave others. Numbers 10, 22, 9, 24, 32, 23. */
uint64_t yav_swap_cells(uint64_t *state, size_t state_words, uint64_t place, uint8_t *work, size_t work_bytes,
                        uint16_t *roots, size_t roots_elements, uint16_t *cells, size_t cells_elements);

/* Moves one input to the place where the network takes the fewest cells, and answers those. It stays where it is if no other place
 * takes fewer; of several that do, the smallest is taken. So there are never more cells than before. Numbers 10, 21, 9. */
uint64_t yav_sift(uint64_t *state, size_t state_words, uint64_t input, const uint8_t *values, size_t values_bytes,
                  const uint8_t *care, size_t care_bytes, uint8_t *work, size_t work_bytes);

/* Sifts each input once, as far as a limit of orders allows, and answers the orders tried. There are never more cells than before, nor
 * with a larger limit more than with a smaller one. Numbers 10, 21. */
uint64_t yav_pass(uint64_t *state, size_t state_words, uint32_t limit, const uint8_t *values, size_t values_bytes,
                  const uint8_t *care, size_t care_bytes, uint8_t *work, size_t work_bytes);

/* What each move would bring, with nothing moved: entry inputs × input + place has the cells with that input at that place, the others in
 * sequence, minus the cells now. Below 0 the move saves cells; where the input stands it is 0; the smallest of an input is what a sift of it
 * would answer, minus the cells now. Entries past inputs × inputs stay, and so does the state. Numbers 10, 21, 34. */
uint64_t yav_moves(const uint64_t *state, size_t state_words, int32_t *gains, size_t gains_elements,
                   const uint8_t *values, size_t values_bytes, const uint8_t *care, size_t care_bytes,
                   uint8_t *work, size_t work_bytes);

#ifdef __cplusplus
}
#endif

#endif
