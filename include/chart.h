/* Timing charts: analysis, rewriting for a board of K timers, player, controller of several heads, player for a board with a counter and no timers,
 * reading of a file into lists and writing from them.
 * Link libexports.a (`rt staticlib exports`).
 *
 * A slice is a pointer and the number of its entries. Slices of one call must not overlap one that the call writes to, and nothing else may read or
 * write that one during the call; this holds for a controller's state too. An empty slice is allowed; its pointer may then be null.
 *
 * Every answer has a number: CHART_NO_REFUSAL where there is a result, else that of a refusal (chart_refusal), in the order of the reading and then
 * the lowest that applies; a function that judges in another order says so. place is 0 with a result, else the refusal's place: a location, timer,
 * transition or step from 0, or CHART_NOWHERE where there is no other. With a refusal the result's fields are 0 and lent memory holds what it held
 * before.
 *
 * A chart file is of version 1, 2 or 3, by its first byte: a test's constant has two bytes in version 1, four in versions 2 and 3. Every call takes
 * all of them. A chart of version 3 may have spare locations, which no path from the initial one reaches; one of version 1 or 2 is refused then.
 * Spare locations have no live timers, and transitions that leave them count for nothing: not for what is live or unstarted, nor for twins, families
 * and rounds. No run comes to them.
 */
#ifndef CHART_H
#define CHART_H

#include <stddef.h>
#include <stdint.h>

/* The limits of a chart. A transition starts at most CHART_MOST_TIMERS timers, and a board has at most as many. */
#define CHART_MOST_LOCATIONS 256
#define CHART_MOST_TIMERS 64
#define CHART_MOST_TRANSITIONS 512
#define CHART_MOST_TESTS 8 /* of one transition */

/* The bytes of the largest chart file: one of version 2 or 3. */
#define CHART_LARGEST_FILE 62478

/* The most families for which the floor is found by search; twins form families together. */
#define CHART_MOST_SEARCHED 20

/* The most heads that a controller drives. */
#define CHART_MOST_HEADS 8

/* The largest time of a step or an event, and the largest starting count of a timer. */
#define CHART_MOST_TICKS 16777215

/* Of the counter board: the largest constant that it takes, and the count at which counts stop rising. */
#define CHART_COUNTER_LARGEST_CONSTANT 65535
#define CHART_COUNTER_LARGEST_COUNT 65536

/* The place of a refusal that has no other. Step 65535 has the same number; a refusal of a step always has a place. */
#define CHART_NOWHERE 65535

#ifdef __cplusplus
extern "C" {
#endif

/* The numbers of an answer. */
typedef enum chart_refusal {
    CHART_NO_REFUSAL = 0, /* there is a result */

    /* turned down because of the input */
    CHART_REFUSED_WRONG_LENGTH = 1,        /* fewer than 5 bytes, or a wrong length in the file's head */
    CHART_REFUSED_WRONG_VERSION = 2,       /* a version other than 1, 2 and 3 */
    CHART_REFUSED_CUT_OFF = 3,             /* a field cut off, bytes left over, or a wrong record length */
    CHART_REFUSED_TOO_MANY = 4,            /* no location, or more of something than its limit above */
    CHART_REFUSED_NO_SUCH_LOCATION = 5,    /* a location number not below the number of locations */
    CHART_REFUSED_NO_SUCH_TIMER = 6,       /* a timer number not below the number of timers */
    CHART_REFUSED_NOT_RISING = 7,          /* accepting locations or starts not strictly rising */
    CHART_REFUSED_NO_SUCH_COMPARISON = 8,  /* a comparison code over 4 */
    CHART_REFUSED_UNREACHED = 9,           /* a location that no path from the initial one reaches, in versions 1 and 2 alone */
    CHART_REFUSED_UNSTARTED = 10,          /* a test of a timer that some path from the initial location to it has not started */
    CHART_REFUSED_LIMIT_TOO_LARGE = 11,    /* K over CHART_MOST_TIMERS */
    CHART_REFUSED_WRONG_COUNTS = 12,       /* starting counts not one for each timer, or one over CHART_MOST_TICKS */
    CHART_REFUSED_UNEQUAL_LISTS = 13,      /* the lists of transitions and of times or readings differ in length */
    CHART_REFUSED_NO_SUCH_TRANSITION = 14, /* a step names no transition */
    CHART_REFUSED_TIME_TOO_LARGE = 15,     /* a step's or an event's time is over CHART_MOST_TICKS */
    CHART_REFUSED_INPUT_TOO_LONG = 16,     /* by the program `allocate` alone: its input is over 65536 bytes */
    CHART_REFUSED_CONSTANT_TOO_LARGE = 17, /* by chart_write alone: a constant over 65535 that is to be written as version 1 */
    CHART_REFUSED_NOT_FOR_COUNTER = 18,    /* a constant over CHART_COUNTER_LARGEST_CONSTANT, by the counter board alone */

    /* turned down because of the state */
    CHART_REFUSED_BOARD_TOO_SMALL = 20,    /* K timers do not suffice */
    CHART_REFUSED_NO_ROOM = 21,            /* a lent slice is too short for the result */
    CHART_REFUSED_WRONG_SOURCE = 22,       /* the step's transition does not leave the present location */
    CHART_REFUSED_TIME_BEFORE = 23,        /* a step's time is before the present one, or an event's before its head's */
    CHART_REFUSED_TEST_NOT_MET = 24,       /* a test of the step is not met */
    CHART_REFUSED_WRONG_HEADS = 25,        /* no head or over CHART_MOST_HEADS, blocks together over K, or a block shorter than its chart's timers */
    CHART_REFUSED_NO_FREE_HEAD = 26,       /* an event names no head, or one at which an event waits already */
    CHART_REFUSED_WRONG_STATE = 32         /* a controller's state has a turn, location, time or count that it cannot have */
} chart_refusal;

/* used: the board timers that the chart takes; it may exceed CHART_MOST_TIMERS.
 * searched: 1 for a chart of at most CHART_MOST_SEARCHED families, else 0; 0 with a refusal too.
 * floor: if searched is 1, the smallest number of timers in any plan that gives meeting families different numbers; else the timers live at once
 * where most are, twins counted once: no plan has fewer, and even the smallest may have more. In that case the program prints `seen` in place of
 * `floor`. What families and plans are: docs/SPECIFICATION.md, sections 4 and 5.
 * Two timers are twins when every transition that leaves a reached location starts both or neither. In these three figures twins count as one timer,
 * the lowest of them, live wherever any of them is; the live sets and the rounds are those of the drawn timers.
 * rounds: how many rounds the live sets take (docs/SPECIFICATION.md, section 3). A round makes the set of every location from the sets of the round
 * before, the first round from empty sets; those of spare locations stay empty. The first round that changes no set is the last, and counts. At least
 * 1 and at most the number of the chart's locations, so up to CHART_MOST_LOCATIONS; 0 with a refusal.
 * Header and library belong together: an answer is written in its whole length. */
typedef struct chart_analysis {
    uint64_t number;
    uint64_t place;
    uint64_t used;
    uint64_t floor;
    uint64_t searched;
    uint64_t rounds;
} chart_analysis;

/* used: the timers of the rewritten chart, at most K. length: the bytes of its file. */
typedef struct chart_rewriting {
    uint64_t number;
    uint64_t place;
    uint64_t used;
    uint64_t length;
} chart_rewriting;

/* Where and when the steps end; accepting is 1 or 0. With no steps, the initial location and 0. */
typedef struct chart_playing {
    uint64_t number;
    uint64_t place;
    uint64_t location;
    uint64_t time;
    uint64_t accepting;
} chart_playing;

/* Where the steps end on the counter board, which knows no time; accepting is 1 or 0. With no steps, the initial location. */
typedef struct chart_counter_playing {
    uint64_t number;
    uint64_t place;
    uint64_t location;
    uint64_t accepting;
} chart_counter_playing;

/* The header of a chart: the version of its file, how many locations it has, its initial location, and how many timers, accepting locations and
 * transitions it has. */
typedef struct chart_reading {
    uint64_t number;
    uint64_t place;
    uint64_t version;
    uint64_t locations;
    uint64_t initial;
    uint64_t timers;
    uint64_t accepting;
    uint64_t transitions;
} chart_reading;

/* length: the bytes of the file. */
typedef struct chart_writing {
    uint64_t number;
    uint64_t place;
    uint64_t length;
} chart_writing;

/* Where a head stands and at what time. waiting is 0 where no event waits at it, and event and waiting_time then say nothing; else the event of that
 * time waits. A received event is written with waiting 1, and once it is served all three are 0. An event over 255 is no transition's. */
typedef struct chart_head {
    uint64_t location;
    uint64_t time;
    uint64_t waiting;
    uint64_t event;
    uint64_t waiting_time;
} chart_head;

/* The state of a controller: whose turn it is, the heads, and the counts of the board's timers. The blocks of the heads lie end to end on the board,
 * and a head's timers stand from the beginning of its block on; the block of head h begins at counts[blocks[0] + .. + blocks[h - 1]].
 *
 * The state is the caller's: the caller has the memory for it, set-up writes it whole, and event and turn step it in place. It must not be null nor
 * overlap files or counts. Before set-up it may hold anything, but must be initialised: set-up reads it, to leave it as it was where it refuses. The
 * library keeps nothing between calls, so one program may have many controllers, and each call is handed the files, the heads and K again. What is
 * promised from set-up on (docs/SPECIFICATION.md) holds while nothing but these calls changes the state, and files, heads and K stay as they were; if
 * they do not, each call still judges what it is handed and answers for that; a head may then stand at a spare location, whose transitions are taken
 * as any others. No call after set-up judges heads beyond the number, unused timers of a block or timers beyond the blocks, and each leaves them as
 * they are. */
typedef struct chart_controller {
    uint64_t turn;
    chart_head heads[CHART_MOST_HEADS];
    uint32_t counts[CHART_MOST_TIMERS];
} chart_controller;

/* How many heads there are, and of each the bytes of its chart file and the timers of its block. Entries from number on are not looked at. */
typedef struct chart_heads {
    uint64_t number;
    uint64_t lengths[CHART_MOST_HEADS];
    uint64_t blocks[CHART_MOST_HEADS];
} chart_heads;

/* Of a list that holds a part for each head, one after another: how many entries each part has. Entries from the number of heads on are not looked
 * at. */
typedef struct chart_parts {
    uint64_t lengths[CHART_MOST_HEADS];
} chart_parts;

/* The answer of set-up and of an event. */
typedef struct chart_called {
    uint64_t number;
    uint64_t place;
} chart_called;

/* The answer of a turn. head: whose turn it was. served: 1 where an event waited at it, else 0. taken: 1 where a transition was taken, else 0.
 * transition: its number; 0 where none was taken. */
typedef struct chart_turned {
    uint64_t number;
    uint64_t place;
    uint64_t head;
    uint64_t served;
    uint64_t taken;
    uint64_t transition;
} chart_turned;

/* The structs as the library lays them out: one field after the other, fields of 8 bytes and lists. */
#ifdef __cplusplus
#define CHART_ASSERT static_assert
#else
#define CHART_ASSERT _Static_assert
#endif
#define CHART_LIST(type, field, offset, size) \
    CHART_ASSERT(offsetof(type, field) == (offset) && sizeof(((type *)0)->field) == (size), #type "." #field)
#define CHART_FIELD(type, field, offset) CHART_LIST(type, field, offset, 8)
CHART_FIELD(chart_analysis, number, 0);
CHART_FIELD(chart_analysis, place, 8);
CHART_FIELD(chart_analysis, used, 16);
CHART_FIELD(chart_analysis, floor, 24);
CHART_FIELD(chart_analysis, searched, 32);
CHART_FIELD(chart_analysis, rounds, 40);
CHART_ASSERT(sizeof(chart_analysis) == 48, "chart_analysis");
CHART_FIELD(chart_rewriting, number, 0);
CHART_FIELD(chart_rewriting, place, 8);
CHART_FIELD(chart_rewriting, used, 16);
CHART_FIELD(chart_rewriting, length, 24);
CHART_ASSERT(sizeof(chart_rewriting) == 32, "chart_rewriting");
CHART_FIELD(chart_playing, number, 0);
CHART_FIELD(chart_playing, place, 8);
CHART_FIELD(chart_playing, location, 16);
CHART_FIELD(chart_playing, time, 24);
CHART_FIELD(chart_playing, accepting, 32);
CHART_ASSERT(sizeof(chart_playing) == 40, "chart_playing");
CHART_FIELD(chart_counter_playing, number, 0);
CHART_FIELD(chart_counter_playing, place, 8);
CHART_FIELD(chart_counter_playing, location, 16);
CHART_FIELD(chart_counter_playing, accepting, 24);
CHART_ASSERT(sizeof(chart_counter_playing) == 32, "chart_counter_playing");
CHART_FIELD(chart_reading, number, 0);
CHART_FIELD(chart_reading, place, 8);
CHART_FIELD(chart_reading, version, 16);
CHART_FIELD(chart_reading, locations, 24);
CHART_FIELD(chart_reading, initial, 32);
CHART_FIELD(chart_reading, timers, 40);
CHART_FIELD(chart_reading, accepting, 48);
CHART_FIELD(chart_reading, transitions, 56);
CHART_ASSERT(sizeof(chart_reading) == 64, "chart_reading");
CHART_FIELD(chart_writing, number, 0);
CHART_FIELD(chart_writing, place, 8);
CHART_FIELD(chart_writing, length, 16);
CHART_ASSERT(sizeof(chart_writing) == 24, "chart_writing");
CHART_FIELD(chart_head, location, 0);
CHART_FIELD(chart_head, time, 8);
CHART_FIELD(chart_head, waiting, 16);
CHART_FIELD(chart_head, event, 24);
CHART_FIELD(chart_head, waiting_time, 32);
CHART_ASSERT(sizeof(chart_head) == 40, "chart_head");
CHART_FIELD(chart_controller, turn, 0);
CHART_LIST(chart_controller, heads, 8, 320);
CHART_LIST(chart_controller, counts, 328, 256);
CHART_ASSERT(sizeof(chart_controller) == 584, "chart_controller");
CHART_FIELD(chart_heads, number, 0);
CHART_LIST(chart_heads, lengths, 8, 64);
CHART_LIST(chart_heads, blocks, 72, 64);
CHART_ASSERT(sizeof(chart_heads) == 136, "chart_heads");
CHART_LIST(chart_parts, lengths, 0, 64);
CHART_ASSERT(sizeof(chart_parts) == 64, "chart_parts");
CHART_FIELD(chart_called, number, 0);
CHART_FIELD(chart_called, place, 8);
CHART_ASSERT(sizeof(chart_called) == 16, "chart_called");
CHART_FIELD(chart_turned, number, 0);
CHART_FIELD(chart_turned, place, 8);
CHART_FIELD(chart_turned, head, 16);
CHART_FIELD(chart_turned, served, 24);
CHART_FIELD(chart_turned, taken, 32);
CHART_FIELD(chart_turned, transition, 40);
CHART_ASSERT(sizeof(chart_turned) == 48, "chart_turned");
#undef CHART_FIELD
#undef CHART_LIST
#undef CHART_ASSERT

/* Analyses a chart file. Writes the live set of each location into live, location 0 first, timer j at bit j, each of twins at its own.
 * live needs one entry for each location, spare ones too, whose sets are empty; CHART_MOST_LOCATIONS are always enough; entries beyond the locations
 * are untouched.
 * Refusals: 1 to 10, 21. */
chart_analysis chart_analyse(const uint8_t *file, size_t file_length, uint64_t *live, size_t live_length);

/* Rewrites a chart file for a board of k timers. Writes the new file, which has the version of the file read, into out. Where twins are live they
 * share a board timer, which a transition starts once. A transition that leaves a spare location stays, without tests and starts.
 * out needs the new file's length, CHART_LARGEST_FILE bytes are always enough; bytes beyond it are untouched.
 * Refusals: 1 to 11, 20, 21. */
chart_rewriting chart_rewrite(const uint8_t *file, size_t file_length, uint32_t k, uint8_t *out, size_t out_length);

/* Plays a list of steps on a chart file, from a starting count for each timer: step i takes transitions[i] at tick times[i].
 * counts has one entry for each timer, at most CHART_MOST_TICKS; transitions and times have the same length, which has no limit.
 * Nothing is written. Refusals: 1 to 10, 12, 13 before the steps; then step by step 14, 15, 22, 23, 24, place is the step. */
chart_playing chart_play(
    const uint8_t *file, size_t file_length,
    const uint32_t *counts, size_t counts_length,
    const uint32_t *transitions, size_t transitions_length,
    const uint64_t *times, size_t times_length);

/* Plays a list of steps on a chart file for the counter board, which has no timers but one free-running counter of sixteen bits, from a starting
 * count for each timer: step i takes transitions[i] when the counter reads readings[i]. The ticks passed at a step are its reading less that of the
 * step before, modulo 65536; at the first step less first, the reading at tick 0. Counts stop rising at CHART_COUNTER_LARGEST_COUNT.
 * counts is as for chart_play; transitions and readings have the same length, which has no limit and in which first does not count.
 * On the readings (first + times[i]) modulo 65536 the answer is that of chart_play, location and accepting or the refusal, if no constant is over
 * CHART_COUNTER_LARGEST_CONSTANT, the times never fall, none is over CHART_MOST_TICKS, and fewer than 65536 ticks pass at each step, at the first
 * from tick 0; where readings come otherwise, they are still taken as said above, and none is refused: one lower than the last is 65535 ticks later.
 * Nothing is written. Refusals: 1 to 10, 12, 13, 18 before the steps; then step by step 14, 22, 24, place is the step. */
chart_counter_playing chart_play_counter(
    const uint8_t *file, size_t file_length,
    const uint32_t *counts, size_t counts_length,
    const uint32_t *transitions, size_t transitions_length,
    uint16_t first,
    const uint16_t *readings, size_t readings_length);

/* Reads a chart file into nine lists (docs/LISTS.md): the accepting locations, rising; of each transition its source, its target, its event, the set
 * of the timers that it starts, timer j at bit j, and the number of its tests; of each test its timer, its comparison code and its constant, the
 * tests of transition 0 first, then those of transition 1, and so on. The answer has the chart's header. Whether locations are reached and timers
 * are started before they are tested is not judged.
 * accepting needs one entry for each accepting location, CHART_MOST_LOCATIONS are always enough; sources, targets, events, starts and test_counts
 * need one for each transition, CHART_MOST_TRANSITIONS are always enough; timers, codes and constants need one for each test of all transitions,
 * CHART_MOST_TRANSITIONS * CHART_MOST_TESTS are always enough. Entries beyond these are untouched.
 * Refusals: 1 to 8, 21. */
chart_reading chart_read(
    const uint8_t *file, size_t file_length,
    uint16_t *accepting, size_t accepting_length,
    uint16_t *sources, size_t sources_length,
    uint16_t *targets, size_t targets_length,
    uint8_t *events, size_t events_length,
    uint64_t *starts, size_t starts_length,
    uint8_t *test_counts, size_t test_counts_length,
    uint8_t *timers, size_t timers_length,
    uint8_t *codes, size_t codes_length,
    uint32_t *constants, size_t constants_length);

/* Writes the chart file of the header and the nine lists that chart_read gives: the header's numbers are version, locations, initial and how many
 * timers, accepting locations and transitions the chart has. Entries beyond those that accepting_count, transition_count and the test counts call
 * for are not looked at; a list that ends before an entry that is due is refused with 3. Whether locations are reached and timers are started before
 * they are tested is not judged.
 * out needs the file's length, CHART_LARGEST_FILE bytes are always enough; bytes beyond it are untouched.
 * Refusals, in this order: 2; 3 to 8 in the order of the file's fields, place is the transition where a transition's 4 to 8 is refused; 17; 21. */
chart_writing chart_write(
    uint8_t version, uint16_t locations, uint16_t initial,
    uint8_t timer_count, uint16_t accepting_count, uint16_t transition_count,
    const uint16_t *accepting, size_t accepting_length,
    const uint16_t *sources, size_t sources_length,
    const uint16_t *targets, size_t targets_length,
    const uint8_t *events, size_t events_length,
    const uint64_t *starts, size_t starts_length,
    const uint8_t *test_counts, size_t test_counts_length,
    const uint8_t *timers, size_t timers_length,
    const uint8_t *codes, size_t codes_length,
    const uint32_t *constants, size_t constants_length,
    uint8_t *out, size_t out_length);

/* Sets a controller up on a board of k timers: it is head 0's turn, and each head stands at its chart's initial location at tick 0, nothing waiting,
 * its timers at its starting counts; all else in the state is 0.
 * files has the heads' chart files one after another, of the lengths that heads gives; a file that reaches beyond its end is cut there, and bytes
 * beyond the last file are not looked at. counts has the heads' starting counts in the same way, of the lengths that parts gives: of each head one
 * for each timer of its chart (not of its block), at most CHART_MOST_TICKS.
 * Refusals, in this order: 25 for the number of heads; of each chart in turn 1 to 10, place is the chart's own; 11; of each head's counts in turn 12,
 * place is its timer or, for a wrong number of counts, CHART_NOWHERE; 25 for the blocks. 11 and 25 are at CHART_NOWHERE. */
chart_called chart_controller_set_up(
    chart_controller *state,
    const uint8_t *files, size_t files_length,
    chart_heads heads, uint32_t k,
    const uint32_t *counts, size_t counts_length,
    chart_parts parts);

/* Receives an event for a head; from then on it waits there until the head's turn.
 * Refusals, in this order: as set-up, without 12; then 32, 26, 15, and 23 against that head's time, all four at CHART_NOWHERE. */
chart_called chart_controller_event(
    chart_controller *state,
    const uint8_t *files, size_t files_length,
    chart_heads heads, uint32_t k,
    uint32_t head, uint8_t event, uint64_t time);

/* Takes a turn. If an event waits at the head whose turn it is, the head's counts and time move on to the event's time, and the lowest transition is
 * taken that has this event, leaves the head's location and whose tests are then met, if there is one; the event is gone either way. If none waits,
 * only whose turn it is changes. In both cases it is then the next head's turn, after the last one head 0's; so a waiting event is served within as
 * many turns as there are heads.
 * Refusals, in this order: as set-up, without 12; then 32, at CHART_NOWHERE. */
chart_turned chart_controller_turn(
    chart_controller *state,
    const uint8_t *files, size_t files_length,
    chart_heads heads, uint32_t k);

#ifdef __cplusplus
}
#endif

#endif
