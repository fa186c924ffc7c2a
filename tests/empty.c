/* Every function of the header with NULL and length 0 where a slice may be empty, and a cut list whose length is (size_t)-1; each number is document
   01's for the empty row or for plan B. */
#include "../include/nuthatchet.h"

#include <stdio.h>

static int passed, failed;
static size_t place, at, step, result;

/* no row here breaks a rule of paths, so at and step are 0 */
static void is(const char *what, size_t number, size_t wanted, size_t wanted_place, size_t wanted_result) {
    if (number == wanted && place == wanted_place && at == 0 && step == 0 && result == wanted_result) passed++;
    else {
        failed++;
        printf("FAILED: %s: %zu, place %zu, at %zu, step %zu, result %zu\n", what, number, place, at, step, result);
    }
    place = at = step = result = 99;
}

int main(void) {
    const uint16_t b[] = {1, 2, 2, 1, 3, 0, 1, 0, 2, 2, 1, 0, 0, 0, 1, 1, 1, 2, 0, 0, 1, 1, 1, 1, 2};
    const uint8_t file[] = {0x10, 0x82, 0x08, 0x60, 0x02, 0x00, 0x41, 0x02, 0x00, 0x01, 0x10, 0x42, 0x00, 0x01, 0x88, 0x21, 0x00};
    const uint16_t zeros[4] = {0};
    uint16_t events[16];
    uint8_t text[18];
    int32_t slots = 99;
    size_t number;

    is("judge", nuthatchet_judge(NULL, 0, &place, &at, &step, &result), 2, 0, 0);
    is("read_file", nuthatchet_read_file(NULL, 0, NULL, 0, &place, &at, &step, &result), 2, 0, 0);
    is("write_file", nuthatchet_write_file(NULL, 0, NULL, 0, &place, &at, &step, &result), 2, 0, 0);
    is("write_file of B", nuthatchet_write_file(b, 25, NULL, 0, &place, &at, &step, &result), 13, 17, 0);
    number = nuthatchet_second_path(NULL, 0, 0, 0, &place);
    at = step = result = 0;
    is("second_path", number, 0, 0, 0);
    is("replay", nuthatchet_replay(NULL, 0, NULL, 0, NULL, 0, &place, &at, &step, &result), 2, 0, 0);
    is("replay of B without cuts", nuthatchet_replay(b, 25, NULL, 0, events, 16, &place, &at, &step, &result), 0, 0, 2);
    is("replay of B with a length that a failed read gives", nuthatchet_replay(b, 25, zeros, (size_t)-1, events, 16, &place, &at, &step, &result), 12, 1, 0);
    is("replay of B without room", nuthatchet_replay(b, 25, NULL, 0, NULL, 0, &place, &at, &step, &result), 13, 16, 0);
    is("verdict for k 0", nuthatchet_verdict(b, 25, 0, 2, NULL, 0, &place, &at, &step, &result), 0, 0, 0);
    is("verdict for k 1", nuthatchet_verdict(b, 25, 1, 2, NULL, 0, &place, &at, &step, &result), 13, 2, 0);
    is("all_answers", nuthatchet_all_answers(b, 25, 1, NULL, 0, &place, &at, &step, &result), 13, 21, 0);
    number = nuthatchet_slack(NULL, 0, 0, 0, &place, &at, &step, &slots);
    result = (size_t)slots;
    is("slack", number, 2, 0, 0);
    is("replay_text", nuthatchet_replay_text(NULL, 0, NULL, 0, NULL, 0, &place, &at, &step, &result), 2, 0, 0);
    is("replay_text of B without room", nuthatchet_replay_text(file, 17, NULL, 0, NULL, 0, &place, &at, &step, &result), 13, 104, 0);
    is("row_text", nuthatchet_row_text(NULL, 0, NULL, 0, &place, &at, &step, &result), 2, 0, 0);
    is("row_text of B without room", nuthatchet_row_text(file, 17, NULL, 0, &place, &at, &step, &result), 13, 50, 0);
    is("refusal_text", nuthatchet_refusal_text(2, 0, 0, 0, text, 18, &place, &at, &step, &result), 0, 0, 18);
    is("refusal_text without room", nuthatchet_refusal_text(2, 0, 0, 0, NULL, 0, &place, &at, &step, &result), 13, 18, 0);
    is("pack_text", nuthatchet_pack_text(NULL, 0, NULL, 0, &place, &at, &step, &result), 2, 0, 0);
    printf("%d passed, %d failed\n", passed, failed);
    return failed != 0;
}
