/* Which lists of at most K cuts a plan survives, at any slots: `verdict [PLAN [K]]`, plan.bin and 1 if not given. A cut takes a cable, both ways. It
   prints a line for each l, as the verdict program does, and the figure: how many messages arrive at least. */
#include "../../include/nuthatchet.h"

#include <stdio.h>
#include <stdlib.h>

int main(int argc, char **argv) {
    static uint8_t file[NUTHATCHET_FILE + 1]; /* a byte more than the longest plan, so that a longer file is seen to be too long */
    static uint16_t row[NUTHATCHET_ROW];
    uint16_t list[NUTHATCHET_LIST];
    uint8_t text[98]; /* room for the line of every refusal */
    size_t place, at, step, numbers, pairs, figure, bytes_said;

    FILE *plan = fopen(argc > 1 ? argv[1] : "plan.bin", "rb");
    size_t bytes = plan ? fread(file, 1, sizeof file, plan) : 0;
    size_t k = argc > 2 ? strtoul(argv[2], NULL, 10) : 1;

    size_t refused = nuthatchet_read_file(file, bytes, row, NUTHATCHET_ROW, &place, &at, &step, &numbers);
    for (size_t l = 0; refused == 0 && l <= (size_t)row[3] + 1; l++) { /* row[3] is one less than the number of messages */
        refused = nuthatchet_verdict(row, numbers, k, l, list, NUTHATCHET_LIST, &place, &at, &step, &pairs);
        if (refused != 0) break;
        printf("%zu %zu", k, l);
        if (pairs == 0) printf(" resistant");
        for (size_t i = 0; i < 2 * pairs; i++) printf(" %u", (unsigned)list[i]);
        printf("\n");
    }
    if (refused == 0) refused = nuthatchet_figure(row, numbers, k, &place, &at, &step, &figure);
    if (refused == 0) printf("figure %zu %zu\n", k, figure);
    if (refused != 0) {
        nuthatchet_refusal_text(refused, place, at, step, text, sizeof text, &place, &at, &step, &bytes_said);
        fwrite(text, 1, bytes_said, stdout);
    }
    return 0;
}
