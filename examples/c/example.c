/* Analyses charts A and B of document 01 and two with many families, rewrites B for 16 timers and plays it, does the same with a chart of version 2
 * that has a long dwell time, plays B on the counter board, analyses, rewrites and plays a chart with twins, reads B into lists and writes it again,
 * and prints the answers. It is called with the folder of the chart files. */
#include <inttypes.h>
#include <stdio.h>
#include <string.h>

#include "chart.h"
#include "chart_file.h"

/* Charts A and B of document 01, read from charts/a.chart and charts/b.chart; charts/a.txt and charts/b.txt draw them. */
static uint8_t A[103], B[53];

/* B as version 2, with constants of four bytes, and with a long dwell time: 1→2 tests 0 at least 65537, starts 1. */
static const uint8_t DWELL[] = {
    2, 0, 0, 0, 52,                                  /* version, length of the rest */
    0, 4, 0, 0, 2, 0, 1, 0, 3, 0, 3,                 /* locations, initial, timers, accepting: 3; transitions */
    0, 8, 0, 0, 0, 1, 0, 1, 0, 0,                    /* 0→1 */
    0, 14, 0, 1, 0, 2, 0, 1, 1, 1, 0, 2, 0, 1, 0, 1, /* 1→2 */
    0, 13, 0, 2, 0, 3, 0, 0, 1, 1, 2, 0, 0, 0, 1,    /* 2→3 */
};

/* Two timers that are always started together, 4 locations: 0→1 starts 0 and 1; 1→2 tests 0 at least 2; 2→3 tests 1 at most 9. */
static const uint8_t TWINS[] = {
    1, 0, 0, 0, 48,                                  /* version, length of the rest */
    0, 4, 0, 0, 2, 0, 1, 0, 3, 0, 3,                 /* locations, initial, timers, accepting: 3; transitions */
    0, 9, 0, 0, 0, 1, 0, 2, 0, 1, 0,                 /* 0→1 */
    0, 11, 0, 1, 0, 2, 0, 0, 1, 0, 2, 0, 2,          /* 1→2 */
    0, 11, 0, 2, 0, 3, 0, 0, 1, 1, 0, 0, 9,          /* 2→3 */
};

#define LENGTH(list) (sizeof(list) / sizeof(list)[0])

/* What memory is filled with before it is lent. */
enum { UNTOUCHED = 170 };

/* The most families of a chart that `chain` makes, and how many live sets are printed. */
enum { CHAIN = 21, SHOWN = 8 };

/* Makes a chart of one timer with so many families, none of which meets another, and returns the length of its file: 0→1 starts 0; then each
 * transition of a row tests 0 at least 0 and starts it anew. */
static size_t chain(uint8_t *file, uint8_t families) {
    uint8_t *end = file;
    const uint8_t head[] = {1, 0, 0, 0, 0, 0, families + 2, 0, 0, 1, 0, 1, 0, families + 1, 0, families + 1};
    const uint8_t first[] = {0, 8, 0, 0, 0, 1, 0, 1, 0, 0};
    for (size_t i = 0; i < LENGTH(head); i++)
        *end++ = head[i];
    for (size_t i = 0; i < LENGTH(first); i++)
        *end++ = first[i];
    for (uint8_t q = 1; q <= families; q++) {
        const uint8_t next[] = {0, 12, 0, q, 0, q + 1, 0, 1, 0, 1, 0, 2, 0, 0};
        for (size_t i = 0; i < LENGTH(next); i++)
            *end++ = next[i];
    }
    size_t length = (size_t)(end - file);
    file[3] = (uint8_t)((length - 5) >> 8);
    file[4] = (uint8_t)(length - 5);
    return length;
}

static void analyse(const uint8_t *file, size_t length, size_t room) {
    uint64_t live[CHAIN + 2];
    for (size_t q = 0; q < LENGTH(live); q++)
        live[q] = UNTOUCHED;
    chart_analysis a = chart_analyse(file, length, live, room);
    if (a.number != CHART_NO_REFUSAL)
        printf("refused %" PRIu64 " %" PRIu64 "\n", a.number, a.place);
    else
        printf("used %" PRIu64 " %s %" PRIu64 " rounds %" PRIu64 "\n", a.used, a.searched ? "floor" : "seen", a.floor, a.rounds);
    printf("live");
    for (size_t q = 0; q < SHOWN; q++)
        printf(" %" PRIu64, live[q]);
    printf("\n");
}

/* Leaves the rewritten file in out and returns its length, 0 if there is none. */
static size_t rewrite(const uint8_t *file, size_t length, uint32_t k, uint8_t *out, size_t room) {
    for (size_t i = 0; i < room; i++)
        out[i] = UNTOUCHED;
    chart_rewriting r = chart_rewrite(file, length, k, out, room);
    if (r.number != CHART_NO_REFUSAL) {
        printf("refused %" PRIu64 " %" PRIu64 "\n", r.number, r.place);
        return 0;
    }
    printf("used %" PRIu64 " length %" PRIu64 "\nfile", r.used, r.length);
    for (size_t i = 0; i < r.length; i++)
        printf(" %02x", out[i]);
    printf("\n");
    return (size_t)r.length;
}

static void play(const uint8_t *file, size_t length, const uint32_t *counts, size_t timers,
                 const uint32_t *transitions, const uint64_t *times, size_t steps) {
    chart_playing p = chart_play(file, length, counts, timers, transitions, steps, times, steps);
    if (p.number != CHART_NO_REFUSAL)
        printf("refused %" PRIu64 " %" PRIu64 "\n", p.number, p.place);
    else
        printf("location %" PRIu64 " time %" PRIu64 " accepting %" PRIu64 "\n", p.location, p.time, p.accepting);
}

static void play_counter(const uint8_t *file, size_t length, const uint32_t *counts, size_t timers,
                         const uint32_t *transitions, uint16_t first, const uint16_t *readings, size_t steps) {
    chart_counter_playing p = chart_play_counter(file, length, counts, timers, transitions, steps, first, readings, steps);
    if (p.number != CHART_NO_REFUSAL)
        printf("refused %" PRIu64 " %" PRIu64 "\n", p.number, p.place);
    else
        printf("location %" PRIu64 " accepting %" PRIu64 "\n", p.location, p.accepting);
}

/* The most tests of a chart that `lists` reads. */
enum { TESTS = 4 };

/* Reads a chart file into lists, of which the constants have this room, and writes the chart of these lists again, in that version. */
static void lists(const uint8_t *file, size_t length, size_t room, uint8_t version) {
    uint16_t accepting[2], sources[4], targets[4];
    uint8_t events[4], test_counts[4], timers[TESTS], codes[TESTS], out[64];
    uint64_t starts[4];
    uint32_t constants[TESTS] = {UNTOUCHED, UNTOUCHED, UNTOUCHED, UNTOUCHED};
    chart_reading r = chart_read(file, length, accepting, LENGTH(accepting), sources, LENGTH(sources), targets, LENGTH(targets), events,
                                 LENGTH(events), starts, LENGTH(starts), test_counts, LENGTH(test_counts), timers, TESTS, codes, TESTS, constants,
                                 room);
    if (r.number != CHART_NO_REFUSAL)
        printf("refused %" PRIu64 " %" PRIu64 "\n", r.number, r.place);
    else
        printf("version %" PRIu64 " locations %" PRIu64 " initial %" PRIu64 " timers %" PRIu64 " accepting %" PRIu64 " transitions %" PRIu64 "\n",
               r.version, r.locations, r.initial, r.timers, r.accepting, r.transitions);
    printf("constants");
    for (size_t i = 0; i < TESTS; i++)
        printf(" %" PRIu32, constants[i]);
    printf("\n");
    if (r.number != CHART_NO_REFUSAL)
        return;
    chart_writing w = chart_write(version, (uint16_t)r.locations, (uint16_t)r.initial, (uint8_t)r.timers, (uint16_t)r.accepting,
                                  (uint16_t)r.transitions, accepting, LENGTH(accepting), sources, LENGTH(sources), targets, LENGTH(targets), events,
                                  LENGTH(events), starts, LENGTH(starts), test_counts, LENGTH(test_counts), timers, TESTS, codes, TESTS, constants,
                                  TESTS, out, sizeof out);
    if (w.number != CHART_NO_REFUSAL)
        printf("refused %" PRIu64 " %" PRIu64 "\n", w.number, w.place);
    else
        printf("length %" PRIu64 " %s\n", w.length, w.length == length && memcmp(out, file, length) == 0 ? "the same file" : "another file");
}

int main(int argc, char **argv) {
    const char *folder = folder_of_charts(argc, argv);
    read_chart(folder, "a.chart", A, sizeof A);
    read_chart(folder, "b.chart", B, sizeof B);

    analyse(A, sizeof A, 8);
    analyse(B, sizeof B, 8);
    analyse(B, sizeof B, 3);
    uint8_t many[26 + 14 * CHAIN];
    analyse(many, chain(many, CHART_MOST_SEARCHED), CHAIN + 2);
    analyse(many, chain(many, CHAIN), CHAIN + 2);

    uint8_t board[64];
    rewrite(B, sizeof B, 0, board, sizeof board);
    rewrite(B, sizeof B, CHART_MOST_TIMERS + 1, board, sizeof board);
    /* 16 in their low bytes: K is judged whole */
    rewrite(B, sizeof B, 256 + 16, board, sizeof board);
    rewrite(B, sizeof B, 65536 + 16, board, sizeof board);
    rewrite(B, sizeof B, 16, board, 1);
    size_t length = rewrite(B, sizeof B, 16, board, sizeof board);

    const uint32_t transitions[] = {0, 1, 2};
    const uint64_t in_time[] = {5, 7, 8}, late[] = {5, 8}, back[] = {5, 4}, early[] = {5, 7, 7};
    const uint32_t counts[] = {CHART_MOST_TICKS, 0}, over[] = {CHART_MOST_TICKS + 1, 0};

    /* B as drawn, and as rewritten */
    for (int rewritten = 0; rewritten < 2; rewritten++) {
        const uint8_t *file = rewritten ? board : B;
        size_t bytes = rewritten ? length : sizeof B;
        size_t timers = rewritten ? 1 : 2;
        printf("%s\n", rewritten ? "rewritten" : "drawn");
        play(file, bytes, counts, timers, transitions, in_time, LENGTH(in_time));
        play(file, bytes, counts, timers, transitions, late, LENGTH(late));
        play(file, bytes, counts, timers, transitions, back, LENGTH(back));
        play(file, bytes, counts, timers, transitions, early, LENGTH(early));
        play(file, bytes, over, timers, transitions, in_time, LENGTH(in_time));
        play(file, bytes, counts, timers, NULL, NULL, 0);
    }
    play(NULL, 0, NULL, 0, NULL, NULL, 0);

    /* a dwell of one tick too few and of just enough, as drawn and as rewritten */
    const uint64_t short_dwell[] = {10, 65546}, full_dwell[] = {10, 65547, 65548};
    printf("version 2\n");
    length = rewrite(DWELL, sizeof DWELL, 16, board, sizeof board);
    play(DWELL, sizeof DWELL, counts, 2, transitions, short_dwell, LENGTH(short_dwell));
    play(DWELL, sizeof DWELL, counts, 2, transitions, full_dwell, LENGTH(full_dwell));
    play(board, length, counts, 1, transitions, short_dwell, LENGTH(short_dwell));
    play(board, length, counts, 1, transitions, full_dwell, LENGTH(full_dwell));

    /* B across the wrap of the counter, in time, one tick late, and one tick back, which is 65535 ticks later; then a constant too large */
    const uint16_t first = 65530, across[] = {65535, 1, 2}, one_late[] = {65535, 2}, one_back[] = {65535, 65534};
    printf("counter\n");
    play_counter(B, sizeof B, counts, 2, transitions, first, across, LENGTH(across));
    play_counter(B, sizeof B, counts, 2, transitions, first, one_late, LENGTH(one_late));
    play_counter(B, sizeof B, counts, 2, transitions, first, one_back, LENGTH(one_back));
    play_counter(DWELL, sizeof DWELL, counts, 2, transitions, first, across, LENGTH(across));

    /* twins are live each for itself and share one board timer; in time and one tick late, as drawn and as rewritten */
    const uint64_t both[] = {3, 5, 12}, second_late[] = {3, 5, 13};
    printf("twins\n");
    analyse(TWINS, sizeof TWINS, 8);
    length = rewrite(TWINS, sizeof TWINS, 1, board, sizeof board);
    play(TWINS, sizeof TWINS, counts, 2, transitions, both, LENGTH(both));
    play(TWINS, sizeof TWINS, counts, 2, transitions, second_late, LENGTH(second_late));
    play(board, length, counts, 1, transitions, both, LENGTH(both));
    play(board, length, counts, 1, transitions, second_late, LENGTH(second_late));

    /* B with too little room, B as it is, B as version 2, the long dwell as it is, and as version 1, which has no such constant */
    printf("lists\n");
    lists(B, sizeof B, 1, 1);
    lists(B, sizeof B, TESTS, 1);
    lists(B, sizeof B, TESTS, 2);
    lists(DWELL, sizeof DWELL, TESTS, 2);
    lists(DWELL, sizeof DWELL, TESTS, 1);
    return 0;
}
