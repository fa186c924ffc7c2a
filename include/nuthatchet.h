/* Nuthatchet for C: every public question. Link target/staticlib/libnuthatchet.a (`./nuthatchet library`), on x86-64 Linux.

   Each function takes any numbers, and asks nothing but that its pointers tell the truth:
     - a buffer has as many elements as the length behind it says, and is aligned; where the length is 0 it may be NULL;
     - what is written (no const) is not also lent to the same call under another name.
   It returns the number of the refusal, 0 where nothing is refused (README.md has the list), and writes
     - place, at and step, each 0 where nothing is refused. Of a rule of paths (7, 10 and 14 to 19) the place is the message, `at` the place on
       its first path, and `step` which link there is at fault; beside every other refusal `at` and `step` are 0;
     - the result, 0 beside a refusal.
   A refusal changes no buffer; a success changes only the part that it writes. Nothing is kept between calls, and no memory is asked for; a
   call takes less than 100 kB of stack, one that asks for figures less than 200 kB.

   A pair slot, link of a cut list cuts a cable: that link and the link with the same ends reversed, if the plan has one. It is one cut, and k counts
   pairs. It names the lower of the two links; one that names the higher is a bad pair, refusal 12. Lists that are handed over name cables in the same way.

   Rows, cut lists, captures and events are as in README.md. Everything counts from 0. */
#ifndef NUTHATCHET_H
#define NUTHATCHET_H

#include <stddef.h>
#include <stdint.h>

#ifdef __cplusplus
extern "C" {
#endif

/* What is always enough room: a plan file, a row, the events of a replay, a list of cuts that is handed over, all answers for one k, all figures. */
#define NUTHATCHET_FILE 7348
#define NUTHATCHET_ROW 10405
#define NUTHATCHET_EVENTS 4096
#define NUTHATCHET_LIST 6
#define NUTHATCHET_ANSWERS 231
#define NUTHATCHET_FIGURES 4

/* Refusals 1 to 10 and 14 to 19 of a row. Result: how many numbers it has. */
size_t nuthatchet_judge(const uint16_t *row, size_t row_len, size_t *place, size_t *at, size_t *step, size_t *result);

/* A plan file into a row: its numbers at the front, refusals 1, 2, 4 to 10, 14 to 19, 13. Result: how many numbers. */
size_t nuthatchet_read_file(const uint8_t *file, size_t file_len, uint16_t *row, size_t row_len, size_t *place, size_t *at, size_t *step, size_t *result);

/* A row into a plan file: its bytes at the front, refusals 1 to 10, 14 to 19, 13. Result: how many bytes. */
size_t nuthatchet_write_file(const uint16_t *row, size_t row_len, uint8_t *file, size_t file_len, size_t *place, size_t *at, size_t *step, size_t *result);

/* The second path of message m from place p, as a part of the row. Returns how many links it has, and writes the index in the row where
   they begin; 0 and 0 where there is none or the row is bad. This one has no refusals. */
size_t nuthatchet_second_path(const uint16_t *row, size_t row_len, size_t m, size_t p, size_t *index);

/* One cycle under a cut list (slot, link, slot, link, ..; of a cable that goes both ways the lower link): the events at the front (slot by slot,
   message by message, kind then number), refusals 1 to 10, 14 to 19, 12, 13. Result: how many messages arrive. */
size_t nuthatchet_replay(const uint16_t *row, size_t row_len, const uint16_t *cuts, size_t cuts_len, uint16_t *events, size_t events_len, size_t *place, size_t *at, size_t *step, size_t *result);

/* Whether every list of at most k cuts leaves at least l arrivals; refusals 1 to 10, 14 to 19, 11, 13. Pairs: 0 if so, and the list is as it was; or else
   how many pairs the first failing list has, and it stands at the front. */
size_t nuthatchet_verdict(const uint16_t *row, size_t row_len, size_t k, size_t l, uint16_t *list, size_t list_len, size_t *place, size_t *at, size_t *step, size_t *pairs);

/* Which cuts explain a capture (slot, link, message, slot, ..: every crossing of one cycle, rising): the first list of at most k pairs whose replay has
   exactly these crossings; refusals 1 to 10, 14 to 19, 11, 23, 13. Result: 0 if no list does, and the list is as it was; or else one more than the pairs of
   that list, which stands at the front: 1 is the empty list, no cut at all. */
size_t nuthatchet_explain(const uint16_t *row, size_t row_len, size_t k, const uint16_t *capture, size_t capture_len, uint16_t *list, size_t list_len, size_t *place, size_t *at, size_t *step, size_t *result);

/* All answers for k at once, seven numbers for each l from 0 to M: 0 where the plan is resistant, else one more than the pairs of the first
   failing list, then its numbers, and zeros; refusals 1 to 10, 14 to 19, 11, 13. Result: how many numbers. */
size_t nuthatchet_all_answers(const uint16_t *row, size_t row_len, size_t k, uint16_t *out, size_t out_len, size_t *place, size_t *at, size_t *step, size_t *result);

/* The figure for k: the least number of messages that arrive, over every list of at most k cuts; refusals 1 to 10, 14 to 19, 11. Result: the figure. */
size_t nuthatchet_figure(const uint16_t *row, size_t row_len, size_t k, size_t *place, size_t *at, size_t *step, size_t *result);

/* The figures for 0 to k at once, one behind another at the front; refusals 1 to 10, 14 to 19, 11, 13. Result: how many there are, k + 1. */
size_t nuthatchet_figures(const uint16_t *row, size_t row_len, size_t k, uint16_t *out, size_t out_len, size_t *place, size_t *at, size_t *step, size_t *result);

/* The slack of the second path of message m from place p, -1,535 to 63; refusals 1 to 10, 14 to 19, 11. */
size_t nuthatchet_slack(const uint16_t *row, size_t row_len, size_t m, size_t p, size_t *place, size_t *at, size_t *step, int32_t *slots);

/* The listing of a replay for the bytes of plan.bin and of the cuts' lines, as the replay program prints it: the text at the front, refusals 1, 2,
   4 to 10, 14 to 19, 12, 13. Result: how many bytes; 36,942 are room for each. */
size_t nuthatchet_replay_text(const uint8_t *file, size_t file_len, const uint8_t *input, size_t input_len, uint8_t *out, size_t out_len, size_t *place, size_t *at, size_t *step, size_t *result);

/* A plan file's row as a line of decimals: the text at the front, refusals 1, 2, 4 to 10, 14 to 19, 13. Result: how many bytes; 62,430 are room for each. */
size_t nuthatchet_row_text(const uint8_t *file, size_t file_len, uint8_t *out, size_t out_len, size_t *place, size_t *at, size_t *step, size_t *result);

/* The line that the programs print for a refusal, by what is told of one: its number n, place p, at q and step s. The text at the front, refusal 13.
   Result: how many bytes; 98 are room for each. */
size_t nuthatchet_refusal_text(size_t n, size_t p, size_t q, size_t s, uint8_t *out, size_t out_len, size_t *place, size_t *at, size_t *step, size_t *result);

/* The plan file of a row in decimals, parted by single spaces or line feeds: its bytes at the front, refusals 1 to 10, 14 to 19, 13. NUTHATCHET_FILE bytes are
   room for every file. Result: how many bytes. */
size_t nuthatchet_pack_text(const uint8_t *text, size_t text_len, uint8_t *file, size_t file_len, size_t *place, size_t *at, size_t *step, size_t *result);

#ifdef __cplusplus
}
#endif

#endif
