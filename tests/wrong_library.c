/* A library that answers wrongly: the proved one, whose functions are named true_chart_.. here, with one thing changed in one function's answers.
 * Which one the environment variable CHART_WRONG says, by the function and the field, list or change: `analyse.used`, `play.refuses`,
 * `rewrite.bytes 17`. Without it every answer is the proved one's.
 * Each number is off by one, each flag the other, each list wrong in one entry. `refuses` turns a result into the refusal 8 at 0, `accepts` a refusal
 * into a result of zeros; `number` and `place` change a refusal alone. */
#include <stdlib.h>
#include <string.h>

#include "chart.h"

/* Whether this is to be wrong. */
static int is_wrong(const char *name) {
    const char *wrong = getenv("CHART_WRONG");
    return wrong != NULL && strcmp(wrong, name) == 0;
}

/* Where one of many entries is to be wrong, `NAME INDEX`, the index; none is SIZE_MAX. */
static size_t wrong_at(const char *name) {
    const char *wrong = getenv("CHART_WRONG");
    size_t length = strlen(name);
    return wrong != NULL && strncmp(wrong, name, length) == 0 && wrong[length] == ' ' ? (size_t)strtoul(wrong + length + 1, NULL, 10) : SIZE_MAX;
}

#define NUMBER(call, field) do { if (is_wrong(#call "." #field)) answer.field += 1; } while (0)
#define FLAG(call, field) do { if (is_wrong(#call "." #field)) answer.field ^= 1; } while (0)
/* The entry of a list or of a state that is named, off by one. */
#define ENTRY(call, name, entry) do { if (is_wrong(#call "." #name)) (entry) ^= 1; } while (0)
#define REFUSAL(call) \
    do { \
        if (answer.number == 0 && is_wrong(#call ".refuses")) { \
            memset(&answer, 0, sizeof answer); \
            answer.number = 8; \
        } else if (answer.number != 0 && is_wrong(#call ".accepts")) { \
            memset(&answer, 0, sizeof answer); \
        } else if (answer.number != 0) { \
            NUMBER(call, number); \
            NUMBER(call, place); \
        } \
    } while (0)

extern __typeof__(chart_analyse) true_chart_analyse;
extern __typeof__(chart_rewrite) true_chart_rewrite;
extern __typeof__(chart_play) true_chart_play;
extern __typeof__(chart_play_counter) true_chart_play_counter;
extern __typeof__(chart_read) true_chart_read;
extern __typeof__(chart_write) true_chart_write;
extern __typeof__(chart_controller_set_up) true_chart_controller_set_up;
extern __typeof__(chart_controller_event) true_chart_controller_event;
extern __typeof__(chart_controller_turn) true_chart_controller_turn;

chart_analysis chart_analyse(const uint8_t *file, size_t file_length, uint64_t *live, size_t live_length) {
    chart_analysis answer = true_chart_analyse(file, file_length, live, live_length);
    NUMBER(analyse, used);
    NUMBER(analyse, floor);
    FLAG(analyse, searched);
    NUMBER(analyse, rounds);
    if (wrong_at("analyse.live") < live_length)
        live[wrong_at("analyse.live")] ^= 1;
    REFUSAL(analyse);
    return answer;
}

chart_rewriting chart_rewrite(const uint8_t *file, size_t file_length, uint32_t k, uint8_t *out, size_t out_length) {
    chart_rewriting answer = true_chart_rewrite(file, file_length, k, out, out_length);
    NUMBER(rewrite, used);
    NUMBER(rewrite, length);
    if (wrong_at("rewrite.bytes") < answer.length)
        out[wrong_at("rewrite.bytes")] ^= 1;
    REFUSAL(rewrite);
    return answer;
}

chart_playing chart_play(const uint8_t *file, size_t file_length, const uint32_t *counts, size_t counts_length, const uint32_t *transitions,
                         size_t transitions_length, const uint64_t *times, size_t times_length) {
    chart_playing answer =
        true_chart_play(file, file_length, counts, counts_length, transitions, transitions_length, times, times_length);
    NUMBER(play, location);
    NUMBER(play, time);
    FLAG(play, accepting);
    /* the lists that are this long alone */
    if (wrong_at("play.length") == times_length)
        answer.location += 1;
    REFUSAL(play);
    return answer;
}

chart_counter_playing chart_play_counter(const uint8_t *file, size_t file_length, const uint32_t *counts, size_t counts_length,
                                         const uint32_t *transitions, size_t transitions_length, uint16_t first, const uint16_t *readings,
                                         size_t readings_length) {
    chart_counter_playing answer = true_chart_play_counter(file, file_length, counts, counts_length, transitions, transitions_length, first,
                                                           readings, readings_length);
    NUMBER(counter, location);
    FLAG(counter, accepting);
    if (wrong_at("counter.length") == readings_length)
        answer.location += 1;
    REFUSAL(counter);
    return answer;
}

chart_reading chart_read(const uint8_t *file, size_t file_length, uint16_t *accepting, size_t accepting_length, uint16_t *sources,
                         size_t sources_length, uint16_t *targets, size_t targets_length, uint8_t *events, size_t events_length,
                         uint64_t *starts, size_t starts_length, uint8_t *test_counts, size_t test_counts_length, uint8_t *timers,
                         size_t timers_length, uint8_t *codes, size_t codes_length, uint32_t *constants, size_t constants_length) {
    chart_reading answer = true_chart_read(file, file_length, accepting, accepting_length, sources, sources_length, targets, targets_length,
                                           events, events_length, starts, starts_length, test_counts, test_counts_length, timers, timers_length,
                                           codes, codes_length, constants, constants_length);
    NUMBER(read, version);
    NUMBER(read, locations);
    NUMBER(read, initial);
    FLAG(read, timers);
    FLAG(read, accepting);
    FLAG(read, transitions);
    ENTRY(read, list of accepting, accepting[0]);
    ENTRY(read, sources, sources[1]);
    ENTRY(read, targets, targets[1]);
    ENTRY(read, events, events[1]);
    ENTRY(read, starts, starts[1]);
    ENTRY(read, test counts, test_counts[1]);
    ENTRY(read, tested timers, timers[0]);
    ENTRY(read, codes, codes[0]);
    ENTRY(read, constants, constants[0]);
    REFUSAL(read);
    return answer;
}

chart_writing chart_write(uint8_t version, uint16_t locations, uint16_t initial, uint8_t timer_count, uint16_t accepting_count,
                          uint16_t transition_count, const uint16_t *accepting, size_t accepting_length, const uint16_t *sources,
                          size_t sources_length, const uint16_t *targets, size_t targets_length, const uint8_t *events, size_t events_length,
                          const uint64_t *starts, size_t starts_length, const uint8_t *test_counts, size_t test_counts_length,
                          const uint8_t *timers, size_t timers_length, const uint8_t *codes, size_t codes_length, const uint32_t *constants,
                          size_t constants_length, uint8_t *out, size_t out_length) {
    chart_writing answer = true_chart_write(version, locations, initial, timer_count, accepting_count, transition_count, accepting,
                                            accepting_length, sources, sources_length, targets, targets_length, events, events_length, starts,
                                            starts_length, test_counts, test_counts_length, timers, timers_length, codes, codes_length,
                                            constants, constants_length, out, out_length);
    NUMBER(write, length);
    if (wrong_at("write.bytes") < answer.length)
        out[wrong_at("write.bytes")] ^= 1;
    REFUSAL(write);
    return answer;
}

/* The state of a controller with one thing changed. */
#define STATE(call) \
    do { \
        ENTRY(call, turn, state->turn); \
        ENTRY(call, location, state->heads[0].location); \
        ENTRY(call, time, state->heads[0].time); \
        ENTRY(call, waiting, state->heads[0].waiting); \
        ENTRY(call, event, state->heads[0].event); \
        ENTRY(call, waiting time, state->heads[0].waiting_time); \
        ENTRY(call, count, state->counts[0]); \
        ENTRY(call, other location, state->heads[1].location); \
        ENTRY(call, other time, state->heads[1].time); \
        ENTRY(call, other count, state->counts[2]); \
        ENTRY(call, unused count, state->counts[CHART_MOST_TIMERS - 1]); \
        ENTRY(call, unused head, state->heads[CHART_MOST_HEADS - 1].time); \
    } while (0)

chart_called chart_controller_set_up(chart_controller *state, const uint8_t *files, size_t files_length, chart_heads heads, uint32_t k,
                                     const uint32_t *counts, size_t counts_length, chart_parts parts) {
    chart_called answer = true_chart_controller_set_up(state, files, files_length, heads, k, counts, counts_length, parts);
    STATE(set_up);
    REFUSAL(set_up);
    return answer;
}

chart_called chart_controller_event(chart_controller *state, const uint8_t *files, size_t files_length, chart_heads heads, uint32_t k,
                                    uint32_t head, uint8_t event, uint64_t time) {
    chart_called answer = true_chart_controller_event(state, files, files_length, heads, k, head, event, time);
    STATE(event);
    REFUSAL(event);
    return answer;
}

chart_turned chart_controller_turn(chart_controller *state, const uint8_t *files, size_t files_length, chart_heads heads, uint32_t k) {
    chart_turned answer = true_chart_controller_turn(state, files, files_length, heads, k);
    NUMBER(turn, head);
    FLAG(turn, served);
    FLAG(turn, taken);
    NUMBER(turn, transition);
    STATE(turn);
    REFUSAL(turn);
    return answer;
}
