/* Loads a table file, sifts every input once, and prints the network before and after.
 *
 *     cc examples/sift.c -Iinclude target/lib/libyavdocsil.a -o target/sift && target/sift examples/and-or-crossed.table
 */
#include <stdio.h>
#include <stdlib.h>
#include <yavdocsil.h>

static uint64_t state[YAV_STATE_WORDS];
static uint8_t values[YAV_TABLE_BYTES], care[YAV_TABLE_BYTES], work[YAV_WORK_BYTES];
static uint16_t roots[YAV_ROOTS], cells[3 * YAV_MOST_CELLS];

/* The value of a success; a refusal ends the program. */
static uint32_t value_of(const char *call, uint64_t answer)
{
    if (yav_number(answer) != YAV_DONE) {
        fprintf(stderr, "%s refused %u: %s\n", call, (unsigned)yav_number(answer), yav_message(yav_number(answer)));
        exit(1);
    }
    return yav_value(answer);
}

static void print_network(void)
{
    value_of("build", yav_build(state, YAV_STATE_WORDS, values, sizeof values, care, sizeof care, work, sizeof work,
                                roots, YAV_ROOTS, cells, 3 * YAV_MOST_CELLS));
    printf("order");
    for (uint64_t place = 0; place < state[YAV_INPUTS]; place++)
        printf(" %u", (unsigned)state[YAV_ORDER + place]);
    printf("\ncells %u\n", (unsigned)state[YAV_COUNT]);
    for (uint64_t i = 0; i < state[YAV_COUNT]; i++)
        printf("cell %u %u %u %u\n", (unsigned)i + 1, cells[3 * i], cells[3 * i + 1], cells[3 * i + 2]);
    for (uint64_t j = 0; j < state[YAV_OUTPUTS]; j++)
        printf("root %u %u\n", (unsigned)j, roots[j]);
}

int main(int count, char **arguments)
{
    static uint8_t file[65536];
    FILE *table = count == 2 ? fopen(arguments[1], "rb") : NULL;
    if (table == NULL) {
        fprintf(stderr, "usage: sift FILE, where FILE is a table file\n");
        return 2;
    }
    size_t length = fread(file, 1, sizeof file, table);
    fclose(table);

    value_of("load", yav_load(state, YAV_STATE_WORDS, file, length, values, sizeof values, care, sizeof care));
    print_network();
    uint32_t tried = value_of("pass", yav_pass(state, YAV_STATE_WORDS, UINT32_MAX, values, sizeof values,
                                               care, sizeof care, work, sizeof work));
    printf("tried %u\n", tried);
    print_network();
    return 0;
}
