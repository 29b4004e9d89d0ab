/* Drives two heads with chart B of document 01 on a board of four timers, two for each, and prints each answer and, where the call is not refused,
 * the state that it leaves. It is called with the folder of the chart files. A program in C and in C++ alike. */
#include <inttypes.h>
#include <stdio.h>
#include <string.h>

#include "chart.h"
#include "chart_file.h"

/* Chart B of document 01, whose transitions are all at event 0, once for each head; read from charts/b.chart, which charts/b.txt draws. */
enum { LENGTH = 53 };
static uint8_t FILES[2 * LENGTH];

/* The starting counts of head 0 and of head 1. */
static const uint32_t COUNTS[] = {7, 7, 0, 0};

/* The board, the heads on it with their blocks, and how many starting counts each has. */
enum { K = 4 };
static const chart_heads HEADS = {2, {LENGTH, LENGTH}, {2, 2}};
static const chart_parts PARTS = {{2, 2}};

static void show(const chart_controller *state) {
    printf("  turn %" PRIu64, state->turn);
    for (size_t h = 0; h < 2; h++) {
        const chart_head *head = &state->heads[h];
        printf("; location %" PRIu64 " time %" PRIu64 " counts %" PRIu32 " %" PRIu32, head->location, head->time, state->counts[2 * h],
               state->counts[2 * h + 1]);
        if (head->waiting)
            printf(" waiting %" PRIu64 " at %" PRIu64, head->event, head->waiting_time);
    }
    printf("\n");
}

/* Prints a refusal, and whether the state is as it was. */
static void refused(uint64_t number, uint64_t place, const chart_controller *before, const chart_controller *after) {
    const char *left = memcmp(before, after, sizeof *after) == 0 ? "as it was" : "changed";
    printf("refused %" PRIu64 " %" PRIu64 ", state %s\n", number, place, left);
}

static void set_up(chart_controller *state, size_t files_length, chart_heads heads, uint32_t k, size_t counts_length, chart_parts parts) {
    const chart_controller before = *state;
    chart_called answer = chart_controller_set_up(state, FILES, files_length, heads, k, COUNTS, counts_length, parts);
    printf("set-up: ");
    if (answer.number != CHART_NO_REFUSAL) {
        refused(answer.number, answer.place, &before, state);
        return;
    }
    printf("done\n");
    show(state);
}

static void event(chart_controller *state, uint32_t head, uint8_t event, uint64_t time) {
    const chart_controller before = *state;
    chart_called answer = chart_controller_event(state, FILES, sizeof FILES, HEADS, K, head, event, time);
    printf("event %d at %" PRIu64 " for head %" PRIu32 ": ", event, time, head);
    if (answer.number != CHART_NO_REFUSAL) {
        refused(answer.number, answer.place, &before, state);
        return;
    }
    printf("waits\n");
    show(state);
}

static void turn(chart_controller *state, chart_heads heads) {
    const chart_controller before = *state;
    chart_turned answer = chart_controller_turn(state, FILES, sizeof FILES, heads, K);
    printf("turn: ");
    if (answer.number != CHART_NO_REFUSAL) {
        refused(answer.number, answer.place, &before, state);
        return;
    }
    printf("head %" PRIu64 " ", answer.head);
    if (answer.taken)
        printf("takes %" PRIu64 "\n", answer.transition);
    else
        printf("%s\n", answer.served ? "takes none" : "has nothing waiting");
    show(state);
}

int main(int argc, char **argv) {
    const char *folder = folder_of_charts(argc, argv);
    read_chart(folder, "b.chart", FILES, LENGTH);
    memcpy(FILES + LENGTH, FILES, LENGTH);

    chart_controller state;
    memset(&state, 170, sizeof state);

    /* what set-up refuses, in its order: nine heads and K too large; an empty second file and K too large; K too large and a count missing; a count
     * missing and short blocks; short blocks; blocks longer than the board */
    const chart_heads nine = {9, {LENGTH, LENGTH}, {2, 2}}, short_blocks = {2, {LENGTH, LENGTH}, {1, 1}};
    const chart_parts one_missing = {{1, 2}};
    set_up(&state, sizeof FILES, nine, CHART_MOST_TIMERS + 1, 4, PARTS);
    set_up(&state, LENGTH, HEADS, CHART_MOST_TIMERS + 1, 4, PARTS);
    set_up(&state, sizeof FILES, HEADS, CHART_MOST_TIMERS + 1, 4, one_missing);
    set_up(&state, sizeof FILES, short_blocks, K, 4, one_missing);
    set_up(&state, sizeof FILES, short_blocks, K, 4, PARTS);
    set_up(&state, sizeof FILES, HEADS, K - 1, 4, PARTS);
    set_up(&state, sizeof FILES, HEADS, K, 4, PARTS);

    /* head 0 takes a transition, and head 1 has nothing waiting */
    event(&state, 0, 0, 5);
    event(&state, 0, 0, 6);
    turn(&state, HEADS);
    turn(&state, HEADS);

    /* before the head's time; no such head; too late; and then in time, but the count is 3 */
    event(&state, 0, 0, 4);
    event(&state, 2, 0, CHART_MOST_TICKS + 1);
    event(&state, 0, 0, CHART_MOST_TICKS + 1);
    event(&state, 0, 0, 8);
    turn(&state, HEADS);

    /* head 1 has a time of its own, and goes on to the last location */
    event(&state, 1, 0, 1);
    event(&state, 0, 0, 8);
    turn(&state, HEADS);
    turn(&state, HEADS);
    event(&state, 1, 0, 3);
    turn(&state, HEADS);
    turn(&state, HEADS);
    event(&state, 1, 0, 4);
    turn(&state, HEADS);

    /* the player takes the steps of head 1 to the same location */
    const uint32_t transitions[] = {0, 1, 2};
    const uint64_t times[] = {1, 3, 4};
    chart_playing played = chart_play(FILES + LENGTH, LENGTH, COUNTS + 2, 2, transitions, 3, times, 3);
    if (played.number != CHART_NO_REFUSAL)
        printf("player: refused %" PRIu64 " %" PRIu64 "\n", played.number, played.place);
    else
        printf("player: location %" PRIu64 " time %" PRIu64 "\n", played.location, played.time);

    /* a turn that is no head's: judged after the blocks, and before the head of an event */
    const chart_heads one_short = {2, {LENGTH, LENGTH}, {1, 2}};
    state.turn = 9;
    turn(&state, one_short);
    state.turn = 2;
    turn(&state, HEADS);
    event(&state, 2, 0, 9);
    return 0;
}
