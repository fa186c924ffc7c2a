/* The probe of docs/TESTING.md once more, through include/nuthatchet.h: a question a line, an answer a line. `judge` and `all_answers`, which the
   probe does not ask, are asked beside `write` and `verdict`, the figures beside `verdict` too, and an answer that does not fit says so. With words it
   lays out a text: `face replay PLAN` and `face pack` take standard input, `face row PLAN` does not; `face paths` asks of a small plan with a fault at a time (tests/face_paths.h).
   Compiled with -DFAULT=n, it asks a library with a fault (tests/face_faults.h). */
#include "../include/nuthatchet.h"

#include <stdio.h>
#include <stdlib.h>
#include <string.h>

#ifdef FAULT
#include "face_faults.h"
#endif

enum { MOST = 70000 };
static char line[8 * MOST];
static uint16_t numbers[MOST], row16[MOST];
static uint8_t bytes[MOST], row8[MOST];
static size_t count, place, at, step, result;

/* what no call may leave there */
static void forget(void) { place = at = step = result = 77777; }

/* the decimals of a line, each 16 bits and without needless zeros: how many, or -1 */
static int read_numbers(char *at) {
    count = 0;
    while (*at == ' ') {
        char *end = at + 1;
        unsigned long n = 0;
        while (*end >= '0' && *end <= '9' && n < 65536) n = 10 * n + (unsigned long)(*end++ - '0');
        if (end == at + 1 || n > 65535 || (at[1] == '0' && end > at + 2)) return -1;
        numbers[count++] = (uint16_t)n;
        at = end;
    }
    return *at == '\0' ? (int)count : -1;
}

static int digit(char c) { return c >= '0' && c <= '9' ? c - '0' : c >= 'a' && c <= 'f' ? c - 'a' + 10 : -1; }

static int read_bytes(char *at) {
    count = 0;
    if (strcmp(at, "-") == 0) return 0;
    while (at[0] != '\0') {
        if (digit(at[0]) < 0 || digit(at[1]) < 0) return -1;
        bytes[count++] = (uint8_t)(16 * digit(at[0]) + digit(at[1]));
        at += 2;
    }
    return count == 0 ? -1 : (int)count;
}

static void put_numbers(const uint16_t *n, size_t many) { for (size_t i = 0; i < many; i++) printf(" %u", (unsigned)n[i]); }

/* what stands outside the written part is as it was */
static void put_end(size_t written, size_t room, int wide) {
    int spoilt = 0;
    for (size_t i = written; i < room + 8; i++) spoilt |= wide ? row16[i] != 0xA5A5 : row8[i] != 0xA5;
    puts(spoilt ? " spoilt" : "");
}

static void lend(size_t room) { /* eight more than is lent, to see that none of them is touched */
    for (size_t i = 0; i < room + 8; i++) row16[i] = 0xA5A5, row8[i] = 0xA5;
}

/* these come with a place on a path and a step; every other refusal, and every success, comes with zeros */
static int of_path(size_t number) { return number == 7 || number == 10 || (number >= 14 && number <= 19); }

static int refused(size_t number) {
    if (number != 0) printf("refused %zu place %zu", number, place);
    else if (place != 0) printf("a place and no refusal ");
    if (of_path(number)) printf(" %zu %zu", at, step);
    else if (at != 0 || step != 0) printf(" at %zu and step %zu beside ", at, step);
    if (number != 0 && result != 0) printf(" with a result");
    return number != 0;
}

/* all answers for k, in a room of so many numbers: the refusal fits the verdict's for l or is 13; else the count is right, the seven numbers for l
   say that verdict, those for each l are of the form that the header says, and nothing stands behind them */
static int fits_in(size_t lent, const uint16_t *row, size_t many, size_t k, size_t l, size_t number, size_t pairs) {
    uint16_t out[NUTHATCHET_ANSWERS + 8];
    for (size_t i = 0; i < NUTHATCHET_ANSWERS + 8; i++) out[i] = 0xA5A5;
    size_t p = 1, q = 1, s = 1, n = 1, written = 0, said = nuthatchet_all_answers(row, many, k, out, lent, &p, &q, &s, &n);
    int asks_l = number != 13 && !(number == 11 && k <= 3), fit;
    if (asks_l && number != 0) fit = said == number && p == place && q == at && s == step && n == 0;
    else if (lent < (written = 7 * ((size_t)row[3] + 2))) fit = said == 13 && p == written && q == 0 && s == 0 && n == 0, written = 0;
    else fit = said == 0 && p == 0 && q == 0 && s == 0 && n == written;
    for (size_t i = written; i < NUTHATCHET_ANSWERS + 8; i++) fit &= out[i] == 0xA5A5;
    for (size_t i = 0; fit && i < written; i += 7) {
        fit &= out[i] == 0 || (out[i] > 1 && out[i] <= k + 1);
        for (size_t j = 1; j < 7; j++) fit &= out[i] > 0 && j <= 2 * ((size_t)out[i] - 1) ? out[i + j] < 64 : out[i + j] == 0;
    }
    if (!fit || !asks_l || written == 0) return fit;
    if (out[7 * l] != (pairs == 0 ? 0 : pairs + 1)) return 0;
    for (size_t i = 0; i < 2 * pairs; i++) fit &= out[7 * l + 1 + i] == row16[i];
    return fit;
}

/* the figures for 0 to k likewise: their refusal fits the verdict's for l or is 13; else the count is right, each is the figure that is told alone, and
   nothing stands behind them. The figure for k is refused as the verdict for l is, or at least l exactly if that says resistant */
static int figures_fit_in(size_t lent, const uint16_t *row, size_t many, size_t k, size_t l, size_t number, size_t pairs) {
    uint16_t out[NUTHATCHET_FIGURES + 8];
    for (size_t i = 0; i < NUTHATCHET_FIGURES + 8; i++) out[i] = 0xA5A5;
    size_t p = 1, q = 1, s = 1, n = 1, written = 0, said = nuthatchet_figures(row, many, k, out, lent, &p, &q, &s, &n);
    int asks_l = number != 13 && !(number == 11 && k <= 3), bad = asks_l && number != 0, fit;
    if (bad) fit = said == number && p == place && q == at && s == step && n == 0;
    else if (lent < k + 1) fit = said == 13 && p == k + 1 && q == 0 && s == 0 && n == 0;
    else fit = said == 0 && p == 0 && q == 0 && s == 0 && n == (written = k + 1);
    for (size_t i = written; i < NUTHATCHET_FIGURES + 8; i++) fit &= out[i] == 0xA5A5;
    for (size_t i = 0; i < written; i++) fit &= nuthatchet_figure(row, many, i, &p, &q, &s, &n) == 0 && n == out[i];
    p = q = s = n = 1;
    said = nuthatchet_figure(row, many, k, &p, &q, &s, &n);
    if (bad) return fit && said == number && p == place && q == at && s == step && n == 0;
    return fit && said == 0 && p == 0 && q == 0 && s == 0 && (!asks_l || (n >= l) == (pairs == 0));
}

/* with room for the most, and with one number too few for this plan and this k */
static int fits(const uint16_t *row, size_t many, size_t k, size_t l, size_t number, size_t pairs) {
    size_t few = many > 3 && row[3] < 32 ? 7 * ((size_t)row[3] + 2) - 1 : 0;
    return fits_in(NUTHATCHET_ANSWERS, row, many, k, l, number, pairs) && fits_in(few, row, many, k, l, number, pairs)
        && figures_fit_in(NUTHATCHET_FIGURES, row, many, k, l, number, pairs) && figures_fit_in(k <= 3 ? k : 0, row, many, k, l, number, pairs);
}

static void answer(void) {
    size_t room = 0, number, n = 1;
    forget();
    char *hex = strchr(line, ' ');
    hex = hex ? strchr(hex + 1, ' ') : NULL;
    if (strncmp(line, "read ", 5) == 0 && hex && (*hex = '\0', read_numbers(line + 4) == 1) && (room = numbers[0], read_bytes(hex + 1) >= 0)) {
        lend(room);
        if (refused(nuthatchet_read_file(bytes, count, row16, room, &place, &at, &step, &result))) { put_end(0, room, 1); return; }
        printf("ok %zu", result);
        put_numbers(row16, result);
        put_end(result, room, 1);
    } else if (strncmp(line, "write ", 6) == 0 && read_numbers(line + 5) >= 1) {
        lend(room = numbers[0]);
        size_t p = 1, q = 1, s = 1, judged = nuthatchet_judge(numbers + 1, count - 1, &p, &q, &s, &n);
        number = nuthatchet_write_file(numbers + 1, count - 1, row8, room, &place, &at, &step, &result);
        int good = number == 0 || number == 13;
        if (judged != (good ? 0 : number) || p != (good ? 0 : place) || q != at || s != step || n != (good ? count - 1 : 0)) printf("judge differs ");
        if (refused(number)) { put_end(0, room, 0); return; }
        printf("ok %zu ", result);
        for (size_t i = 0; i < result; i++) printf("%02x", row8[i]);
        put_end(result, room, 0);
    } else if (strncmp(line, "replay ", 7) == 0 && read_numbers(line + 6) >= 2 && numbers[1] <= count - 2) {
        lend(room = numbers[0]);
        uint16_t *row = numbers + 2 + numbers[1];
        if (refused(nuthatchet_replay(row, count - 2 - numbers[1], numbers + 2, numbers[1], row16, room, &place, &at, &step, &result))) { put_end(0, room, 1); return; }
        n = 2 * ((size_t)row[3] + 1) * ((size_t)row[4] + 1);
        printf("ok %zu", result);
        put_numbers(row16, n);
        put_end(n, room, 1);
    } else if (strncmp(line, "verdict ", 8) == 0 && read_numbers(line + 7) >= 3) {
        lend(room = numbers[2]);
        number = nuthatchet_verdict(numbers + 3, count - 3, numbers[0], numbers[1], row16, room, &place, &at, &step, &result);
        if (!fits(numbers + 3, count - 3, numbers[0], numbers[1], number, result)) printf("all answers or figures differ ");
        if (refused(number)) { put_end(0, room, 1); return; }
        if (result == 0) printf("ok resistant");
        else printf("ok failing %zu", result), put_numbers(row16, 2 * result);
        put_end(2 * result, room, 1);
    } else if (strncmp(line, "figure ", 7) == 0 && read_numbers(line + 6) >= 1) {
        if (!refused(nuthatchet_figure(numbers + 1, count - 1, numbers[0], &place, &at, &step, &result))) printf("ok %zu", result);
        puts("");
    } else if (strncmp(line, "figures ", 8) == 0 && read_numbers(line + 7) >= 2) {
        lend(room = numbers[1]);
        if (refused(nuthatchet_figures(numbers + 2, count - 2, numbers[0], row16, room, &place, &at, &step, &result))) { put_end(0, room, 1); return; }
        printf("ok %zu", result);
        put_numbers(row16, result);
        put_end(result, room, 1);
    } else if (strncmp(line, "explain ", 8) == 0 && read_numbers(line + 7) >= 3 && numbers[2] <= count - 3) {
        lend(room = numbers[1]);
        uint16_t *row = numbers + 3 + numbers[2];
        if (refused(nuthatchet_explain(row, count - 3 - numbers[2], numbers[0], numbers + 3, numbers[2], row16, room, &place, &at, &step, &result))) { put_end(0, room, 1); return; }
        n = result == 0 ? 0 : 2 * (result - 1);
        if (result == 0) printf("ok unexplained");
        else printf("ok list %zu", result - 1), put_numbers(row16, n);
        put_end(n, room, 1);
    } else if (strncmp(line, "slack ", 6) == 0 && read_numbers(line + 5) >= 2) {
        int32_t slots = 77777;
        number = nuthatchet_slack(numbers + 2, count - 2, numbers[0], numbers[1], &place, &at, &step, &slots);
        result = slots != 0 && number != 0;
        if (!refused(number)) printf("ok %d", (int)slots);
        puts("");
    } else if (strncmp(line, "second ", 7) == 0 && read_numbers(line + 6) >= 2) {
        size_t index = 1, links = nuthatchet_second_path(numbers + 2, count - 2, numbers[0], numbers[1], &index);
        if (links == 0 ? index != 0 : index + links > count - 2) printf("index %zu beside ", index), links = 0;
        printf("part %zu", links);
        put_numbers(numbers + 2 + index, links);
        puts("");
    } else if (strncmp(line, "where ", 6) == 0 && read_numbers(line + 5) >= 2) {
        size_t index = 1, links = nuthatchet_second_path(numbers + 2, count - 2, numbers[0], numbers[1], &index);
        printf("at %zu %zu\n", index, links);
    } else puts("?");
}

static uint8_t plan[MOST], input[MOST], text[MOST + 8];
static size_t long_plan, long_input;

/* says what a text entry said, and complains if anything outside the written part has changed */
static size_t kept(size_t number) {
    for (size_t i = number == 0 ? result : 0; i < sizeof text; i++)
        if (text[i] != 0xA5) { printf("spoilt at %zu ", i); break; }
    return number;
}

/* the text in a room of so many bytes */
static size_t lay(const char *which, size_t room) {
    size_t number;
    memset(text, 0xA5, sizeof text);
    forget();
    if (strcmp(which, "replay") == 0) number = nuthatchet_replay_text(plan, long_plan, input, long_input, text, room, &place, &at, &step, &result);
    else if (strcmp(which, "row") == 0) number = nuthatchet_row_text(plan, long_plan, text, room, &place, &at, &step, &result);
    else number = nuthatchet_pack_text(input, long_input, text, room, &place, &at, &step, &result);
    return kept(number);
}

/* the line of a refusal, by its four numbers, in such a room */
static size_t lay_refusal(const size_t *said, size_t room) {
    memset(text, 0xA5, sizeof text);
    forget();
    return kept(nuthatchet_refusal_text(said[0], said[1], said[2], said[3], text, room, &place, &at, &step, &result));
}

/* nothing of a path is told, and these two numbers are */
static int told(size_t wanted_place, size_t wanted_result) { return place == wanted_place && at == 0 && step == 0 && result == wanted_result; }

/* the line of a refusal, with room for more than it, with one byte too few and with exactly its room: how many bytes it has */
static size_t line_of(const size_t *said) {
    if (lay_refusal(said, MOST) != 0) printf("no line for a refusal ");
    size_t line = result;
    if (lay_refusal(said, line - 1) != 13 || !told(line, 0)) printf("one byte too few is enough ");
    if (lay_refusal(said, line) != 0 || !told(0, line)) printf("its own room is not enough ");
    return line;
}

/* The text, with room for more than it, with exactly its room, and with one byte too few; or its refusal. */
static int lay_text(const char *which, const char *path) {
    FILE *file = path ? fopen(path, "rb") : NULL;
    long_plan = file ? fread(plan, 1, MOST, file) : 0;
    if (strcmp(which, "row") != 0) long_input = fread(input, 1, MOST, stdin);
    size_t number = lay(which, MOST);
    if (number != 0) {
        const size_t said[] = {number, place, at, step};
        fwrite(text, 1, line_of(said), stdout);
        return 0;
    }
    size_t needed = result;
    if (!told(0, needed)) printf("more than the text is told ");
    if (lay(which, needed - 1) != 13 || !told(needed, 0)) printf("one byte too few is enough ");
    if (lay(which, needed) != 0 || !told(0, needed)) printf("its own room is not enough ");
    fwrite(text, 1, needed, stdout);
    return 0;
}

#include "face_paths.h"

int main(int argc, char **argv) {
    if (argc > 1 && strcmp(argv[1], "paths") == 0) return ask_paths();
    if (argc > 1) return lay_text(argv[1], argc > 2 ? argv[2] : NULL);
    setvbuf(stdout, NULL, _IOLBF, 1 << 16);
    while (fgets(line, sizeof line, stdin)) {
        line[strcspn(line, "\n")] = '\0';
        answer();
    }
    return 0;
}
