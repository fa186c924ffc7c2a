/* What is told of a path that breaks a rule: a good plan of four vertices, one thing changed in it at a time or two, and what every question on a row, a
   file or a text must then tell. The numbers are taken by hand from request [1] of document 02 and from document 01. */

/* links 0 to 6 are 0→1, 1→2, 2→3, 0→2, 1→3, 3→1 and 2→0; message 0 goes by link 0, message 1 by links 0, 1 and 2, with a second path from each place */
static const uint16_t small[] = {1, 3, 6, 1, 3,                         /* edition, and one less than V, E, M and t */
                                 0, 1, 1, 2, 2, 3, 0, 2, 1, 3, 3, 1, 2, 0, /* 5: the links */
                                 0, 0, 0, 0,                            /* 19: message 0 */
                                 2, 0, 1, 1, 1, 3, 2,                   /* 23: message 1; 24: its place 0, second path from 28 on */
                                 1, 2, 1, 0, 4,                         /* 30: place 1, second path at 34 */
                                 2, 3, 1, 2, 6, 0, 4};                  /* 35: place 2, second path from 39 on */
enum { SMALL = sizeof small / sizeof *small };

static const struct {
    uint16_t change[2][2]; /* index and number; 0 and 1 change nothing */
    size_t said[4];
} paths[] = {
    {{{0, 1}, {0, 1}}, {0, 0, 0, 0}},
    {{{6, 0}, {0, 1}}, {5, 0, 0, 0}},     /* a link whose ends are equal */
    {{{7, 0}, {8, 1}}, {6, 1, 0, 0}},     /* a link twice */
    {{{20, 63}, {0, 1}}, {7, 0, 0, 0}},   /* a link not below E */
    {{{35, 7}, {0, 1}}, {7, 1, 2, 2}},
    {{{35, 7}, {30, 2}}, {7, 1, 2, 2}},   /* before links that do not join, though these come first */
    {{{30, 2}, {0, 1}}, {14, 1, 1, 1}},   /* links that do not join, and a vertex twice after that */
    {{{35, 6}, {0, 1}}, {15, 1, 2, 2}},   /* a vertex twice */
    {{{35, 6}, {21, 4}}, {15, 1, 2, 2}},  /* before the slots of a lower message */
    {{{21, 4}, {0, 1}}, {8, 0, 0, 0}},    /* a slot not below t */
    {{{21, 4}, {40, 63}}, {8, 0, 0, 0}},  /* before the second paths */
    {{{25, 0}, {0, 1}}, {9, 1, 0, 0}},    /* a link held twice in a slot */
    {{{40, 63}, {0, 1}}, {10, 1, 2, 1}},  /* a second path's link not below E */
    {{{40, 63}, {34, 3}}, {10, 1, 2, 1}}, /* before a wrong beginning at a lower place */
    {{{34, 3}, {0, 1}}, {16, 1, 1, 0}},   /* a wrong beginning, and a wrong end */
    {{{40, 4}, {0, 1}}, {16, 1, 2, 1}},   /* a wrong join */
    {{{40, 4}, {29, 6}}, {16, 1, 2, 1}},  /* before a wrong end at a lower place */
    {{{41, 1}, {0, 1}}, {17, 1, 2, 2}},   /* a wrong end: the last link, and a vertex twice there */
    {{{29, 6}, {0, 1}}, {17, 1, 0, 1}},
    {{{39, 2}, {40, 5}}, {18, 1, 2, 2}},  /* a vertex twice, and a start with the replaced link */
    {{{28, 0}, {29, 4}}, {19, 1, 0, 0}},  /* a start with the replaced link */
};

/* the file of a row, good or not, field by field */
static void put_field(uint16_t n, int width) {
    for (; width > 0; long_plan++) {
        if (long_plan % 8 == 0) plan[long_plan / 8] = 0;
        plan[long_plan / 8] |= (uint8_t)((n >> --width & 1) << (7 - long_plan % 8));
    }
}

static void put_file(const uint16_t *row) {
    long_plan = 0;
    put_field(*row++, 4);
    for (int i = 1; i < 19; i++) put_field(*row++, i == 3 ? 5 : 6);
    for (int m = 0; m < 2; m++) {
        int places = *row + 1;
        put_field(*row++, 4);
        for (; places > 0; places--) {
            put_field(*row++, 6);
            put_field(*row++, 6);
            put_field(*row++, 1);
            if (row[-1] == 0) continue;
            int links = *row + 1;
            put_field(*row++, 4);
            for (; links > 0; links--) put_field(*row++, 6);
        }
    }
    long_plan = (long_plan + 7) / 8;
}

enum { QUESTIONS = 13 };

static size_t ask(size_t which, const uint16_t *row) {
    uint16_t list[2 * NUTHATCHET_LIST];
    int32_t slots;
    size_t number;
    forget();
    switch (which) {
    case 0: return nuthatchet_judge(row, SMALL, &place, &at, &step, &result);
    case 1: return nuthatchet_write_file(row, SMALL, row8, MOST, &place, &at, &step, &result);
    case 2: return nuthatchet_replay(row, SMALL, NULL, 0, row16, MOST, &place, &at, &step, &result);
    case 3: return nuthatchet_verdict(row, SMALL, 1, 1, list, NUTHATCHET_LIST, &place, &at, &step, &result);
    case 4: return nuthatchet_explain(row, SMALL, 1, NULL, 0, list, NUTHATCHET_LIST, &place, &at, &step, &result);
    case 5: return nuthatchet_all_answers(row, SMALL, 1, row16, MOST, &place, &at, &step, &result);
    case 6: return nuthatchet_figure(row, SMALL, 1, &place, &at, &step, &result);
    case 7: return nuthatchet_figures(row, SMALL, 1, row16, MOST, &place, &at, &step, &result);
    case 8:
        number = nuthatchet_slack(row, SMALL, 1, 0, &place, &at, &step, &slots);
        result = number != 0 && slots != 0;
        return number;
    case 9: return nuthatchet_read_file(plan, long_plan, row16, MOST, &place, &at, &step, &result);
    case 10: return nuthatchet_replay_text(plan, long_plan, NULL, 0, text, MOST, &place, &at, &step, &result);
    case 11: return nuthatchet_row_text(plan, long_plan, text, MOST, &place, &at, &step, &result);
    default: return nuthatchet_pack_text(input, long_input, row8, MOST, &place, &at, &step, &result);
    }
}

/* says what is told of a case and should not be */
static int ask_paths(void) {
    for (size_t i = 0; i < sizeof paths / sizeof *paths; i++) {
        const size_t *said = paths[i].said;
        uint16_t row[SMALL];
        memcpy(row, small, sizeof small);
        for (size_t j = 0; j < 2; j++) row[paths[i].change[j][0]] = paths[i].change[j][1];
        put_file(row);
        long_input = 0;
        for (size_t j = 0; j < SMALL; j++) long_input += (size_t)sprintf((char *)input + long_input, j == 0 ? "%u" : " %u", (unsigned)row[j]);
        for (size_t which = 0; which < QUESTIONS; which++) {
            size_t number = ask(which, row);
            if (number != said[0] || place != said[1] || at != said[2] || step != said[3] || (number != 0 && result != 0))
                printf("question %zu of case %zu of tests/face_paths.h: %zu, place %zu, at %zu, step %zu\n", which, i, number, place, at, step);
        }
        char wanted[99];
        size_t line = (size_t)(of_path(said[0]) ? sprintf(wanted, "refused %zu place %zu %zu %zu\n", said[0], said[1], said[2], said[3])
                                                : sprintf(wanted, "refused %zu place %zu\n", said[0], said[1]));
        if (line_of(said) != line || memcmp(text, wanted, line) != 0) printf("the line of case %zu of tests/face_paths.h\n", i);
    }
    return 0;
}
