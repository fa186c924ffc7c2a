/* Faults of a library, for tests/face to find: with -DFAULT=n the n-th stands between tests/face.c and the library. */

/* what is told of a path's step */
static size_t faulty_step(int which, size_t before, size_t number, const size_t *at, size_t *step) {
    if (FAULT == which) *step = before; /* it is not written */
    if (FAULT == which + 1) *step = *at; /* the place on the path in its stead */
    return number;
}

static size_t faulty_all_answers(const uint16_t *row, size_t row_len, size_t k, uint16_t *out, size_t out_len, size_t *place, size_t *at, size_t *step, size_t *result) {
    size_t before = *step, number = nuthatchet_all_answers(row, row_len, k, out, out_len, place, at, step, result);
    if (FAULT == 1 && number == 0 && k == 2) for (size_t i = 0; i < *result; i += 7) if (out[i] > 2) out[i + 4] ^= 1; /* another link, for k 2 */
    if (FAULT == 2 && number == 0 && k == 3) for (size_t i = 0; i < *result; i += 7) if (out[i] > 0) out[i] = 0; /* always resistant, for k 3 */
    if (FAULT == 3 && number == 0) ++*result; /* a count one too high */
    if (FAULT == 4 && number == 0 && *result < out_len) out[*result] = 0; /* a number behind the last */
    if (FAULT == 5 && number != 0 && out_len > 0) out[0] = 0; /* a buffer changed on a refusal */
    if (FAULT == 6 && number == 13) --*place; /* a room that is one too small is told */
    if (FAULT == 7 && number == 0) out[*result - 7] = 1; /* a form of answer that there is not */
    return faulty_step(26, before, number, at, step);
}

static size_t faulty_second_path(const uint16_t *row, size_t row_len, size_t m, size_t p, size_t *index) {
    size_t links = nuthatchet_second_path(row, row_len, m, p, index);
    if (FAULT == 8 && links == 0) *index = 5; /* an index beside 0 links */
    if (FAULT == 9 && links > 0) --*index; /* the index of the count */
    return links;
}

/* what a text entry leaves */
static size_t faulty_text(int which, size_t number, uint8_t *out, size_t out_len, size_t *place, size_t *result) {
    if (FAULT == which && number == 0 && *result < out_len) out[*result] = 0; /* a byte behind the text */
    if (FAULT == which + 1 && number != 0 && out_len > 0) out[out_len - 1] = 0; /* the buffer changed on a refusal */
    if (FAULT == which + 2 && number == 0) ++*result; /* a count one too high */
    if (FAULT == which + 3 && number == 13) --*place; /* a room that is one too small is told */
    return number;
}

static size_t faulty_replay_text(const uint8_t *file, size_t file_len, const uint8_t *input, size_t input_len, uint8_t *out, size_t out_len, size_t *place, size_t *at, size_t *step, size_t *result) {
    size_t before = *step, number = nuthatchet_replay_text(file, file_len, input, input_len, out, out_len, place, at, step, result);
    return faulty_step(28, before, faulty_text(10, number, out, out_len, place, result), at, step);
}

static size_t faulty_row_text(const uint8_t *file, size_t file_len, uint8_t *out, size_t out_len, size_t *place, size_t *at, size_t *step, size_t *result) {
    size_t before = *step, number = nuthatchet_row_text(file, file_len, out, out_len, place, at, step, result);
    return faulty_step(30, before, faulty_text(14, number, out, out_len, place, result), at, step);
}

static size_t faulty_pack_text(const uint8_t *text, size_t text_len, uint8_t *file, size_t file_len, size_t *place, size_t *at, size_t *step, size_t *result) {
    size_t before = *step, number = nuthatchet_pack_text(text, text_len, file, file_len, place, at, step, result);
    return faulty_step(32, before, faulty_text(18, number, file, file_len, place, result), at, step);
}

static size_t faulty_judge(const uint16_t *row, size_t row_len, size_t *place, size_t *at, size_t *step, size_t *result) {
    size_t before = *step, number = nuthatchet_judge(row, row_len, place, at, step, result);
    if (FAULT == 22 && number == 0) ++*result; /* a count one too high */
    return faulty_step(34, before, number, at, step);
}

static size_t faulty_slack(const uint16_t *row, size_t row_len, size_t m, size_t p, size_t *place, size_t *at, size_t *step, int32_t *slots) {
    size_t before = *step, number = nuthatchet_slack(row, row_len, m, p, place, at, step, slots);
    if (FAULT == 23 && number != 0) *slots = -1; /* a result beside a refusal */
    return faulty_step(36, before, number, at, step);
}

static size_t faulty_explain(const uint16_t *row, size_t row_len, size_t k, const uint16_t *capture, size_t capture_len, uint16_t *list, size_t list_len, size_t *place, size_t *at, size_t *step, size_t *result) {
    size_t before = *step, number = nuthatchet_explain(row, row_len, k, capture, capture_len, list, list_len, place, at, step, result);
    if (FAULT == 24 && number == 0 && *result == 1) *result = 0; /* the empty list told as unexplained */
    if (FAULT == 25 && number == 0 && *result == 0 && list_len > 0) list[0] = 0; /* the list changed where nothing explains */
    return faulty_step(38, before, number, at, step);
}

static size_t faulty_read_file(const uint8_t *file, size_t file_len, uint16_t *row, size_t row_len, size_t *place, size_t *at, size_t *step, size_t *result) {
    size_t before = *step, number = nuthatchet_read_file(file, file_len, row, row_len, place, at, step, result);
    return faulty_step(40, before, number, at, step);
}

static size_t faulty_write_file(const uint16_t *row, size_t row_len, uint8_t *file, size_t file_len, size_t *place, size_t *at, size_t *step, size_t *result) {
    size_t before = *step, number = nuthatchet_write_file(row, row_len, file, file_len, place, at, step, result);
    return faulty_step(42, before, number, at, step);
}

static size_t faulty_replay(const uint16_t *row, size_t row_len, const uint16_t *cuts, size_t cuts_len, uint16_t *events, size_t events_len, size_t *place, size_t *at, size_t *step, size_t *result) {
    size_t before = *step, number = nuthatchet_replay(row, row_len, cuts, cuts_len, events, events_len, place, at, step, result);
    return faulty_step(44, before, number, at, step);
}

static size_t faulty_verdict(const uint16_t *row, size_t row_len, size_t k, size_t l, uint16_t *list, size_t list_len, size_t *place, size_t *at, size_t *step, size_t *pairs) {
    size_t before = *step, number = nuthatchet_verdict(row, row_len, k, l, list, list_len, place, at, step, pairs);
    return faulty_step(46, before, number, at, step);
}

/* it refuses no path, so that a place on one is always 0: of fault 49 the text says the place for the step */
static size_t faulty_refusal_text(size_t n, size_t p, size_t q, size_t s, uint8_t *out, size_t out_len, size_t *place, size_t *at, size_t *step, size_t *result) {
    size_t before = *step, number = nuthatchet_refusal_text(n, p, q, FAULT == 49 ? q : s, out, out_len, place, at, step, result);
    return faulty_step(48, before, number, at, step);
}

static size_t faulty_figure(const uint16_t *row, size_t row_len, size_t k, size_t *place, size_t *at, size_t *step, size_t *result) {
    size_t before = *step, number = nuthatchet_figure(row, row_len, k, place, at, step, result);
    if ((FAULT == 50 || FAULT == 51) && number == 0 && k == 1 && *result > 0) --*result; /* one too low, in fault 51 among all figures too */
    if (FAULT == 52 && number != 0) *result = 1; /* a result beside a refusal */
    return faulty_step(57, before, number, at, step);
}

static size_t faulty_figures(const uint16_t *row, size_t row_len, size_t k, uint16_t *out, size_t out_len, size_t *place, size_t *at, size_t *step, size_t *result) {
    size_t before = *step, number = nuthatchet_figures(row, row_len, k, out, out_len, place, at, step, result);
    if (FAULT == 51 && number == 0 && k >= 1 && out[1] > 0) --out[1];
    if (FAULT == 53 && number == 0) ++*result; /* a count one too high */
    if (FAULT == 54 && number == 0 && *result < out_len) out[*result] = 0; /* a number behind the last */
    if (FAULT == 55 && number != 0 && out_len > 0) out[0] = 0; /* a buffer changed on a refusal */
    if (FAULT == 56 && number == 13) --*place; /* a room that is one too small is told */
    return faulty_step(59, before, number, at, step);
}

#define nuthatchet_read_file faulty_read_file
#define nuthatchet_write_file faulty_write_file
#define nuthatchet_replay faulty_replay
#define nuthatchet_verdict faulty_verdict
#define nuthatchet_refusal_text faulty_refusal_text
#define nuthatchet_all_answers faulty_all_answers
#define nuthatchet_figure faulty_figure
#define nuthatchet_figures faulty_figures
#define nuthatchet_second_path faulty_second_path
#define nuthatchet_replay_text faulty_replay_text
#define nuthatchet_row_text faulty_row_text
#define nuthatchet_pack_text faulty_pack_text
#define nuthatchet_judge faulty_judge
#define nuthatchet_slack faulty_slack
#define nuthatchet_explain faulty_explain
enum { FAULTS = 60 };
