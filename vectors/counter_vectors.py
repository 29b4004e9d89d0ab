"""Vectors for the player of the counter board. The expected lines are written from document 02, P5, not taken from a run.

`vectors/make` turns them into input and expected output of crates/vectors. What the program prints:
  location L accepting B        (B is 1 or 0)
  refused N P changed 0         (nothing is lent)
Steps are pairs of a transition and the counter's reading.
"""
from call_vectors import ABOVE, AT_LEAST, AT_MOST, EQUAL, A, B, B_2_BOARD, B_BOARD, B_RELABELLED, C, C_BOARD, MOST, NEVER_STARTED, SELF_LOOP
from call_vectors import S, S_2, S_BOARD, S_LARGE, SPARE_TEST, chart, dwell, spare

COUNTER = []


# counts, the reading at tick 0, then steps; or a list of transitions and one of readings of its own; `repeat` steps of transition 0 at the reading
# at tick 0 come before these
def play(comment, file, counts, first, steps, line, transitions=None, readings=None, repeat=0):
    COUNTER.append((comment, file, counts, first, [s[0] for s in steps] if transitions is None else transitions,
                    [s[1] for s in steps] if readings is None else readings, repeat, [line]))


# ---- drawn and rewritten, from any counts
for name, file, counts in ('drawn', B, [0, 0]), ('rewritten', B_BOARD, [MOST]), ('rewritten, version 2', B_2_BOARD, [65536]):
    play('B %s: ticks 5, 2, 1, the second across the wrap' % name, file, counts, 65530, [(0, 65535), (1, 1), (2, 2)], 'location 3 accepting 1')
    play('B %s: 3 ticks are not at most 2' % name, file, counts, 0, [(0, 5), (1, 8)], 'refused 24 1 changed 0')
    play('B %s: a reading one lower is 65,535 ticks later, no 23' % name, file, counts, 0, [(0, 5), (1, 4)], 'refused 24 1 changed 0')
play('B: the same reading again, no tick is not at least 1', B, [0, 0], 0, [(0, 5), (1, 7), (2, 7)], 'refused 24 2 changed 0')
for name, file, counts in ('drawn', C, [0, 0]), ('rewritten', C_BOARD, [MOST, 7]):
    play('C %s: ticks 2, 3, 1, 5, 2' % name, file, counts, 65530, [(0, 65532), (1, 65535), (2, 0), (3, 5), (4, 7)], 'location 5 accepting 1')
    play('C %s: 10 ticks are not at most 9' % name, file, counts, 65530, [(0, 65532), (1, 65535), (2, 0), (3, 6)], 'refused 24 3 changed 0')
play('A by 2→3, times 1, 2, 4, 5, 7', A, [9, 9, 9], 65533, [(0, 65534), (1, 65535), (2, 1), (4, 2), (6, 4)], 'location 6 accepting 1')
play('A by 2→4, times 1, 2, 3, 5, 6', A, [0, 0, 0], 65531, [(0, 65532), (1, 65533), (3, 65534), (5, 0), (6, 1)], 'location 6 accepting 1')
play('the same reading three times', A, [0, 0, 0], 3, [(0, 3), (1, 3)], 'location 2 accepting 0')
play('no steps', B, [0, 0], 17, [], 'location 0 accepting 0')
play('no steps, the initial location accepts', SELF_LOOP, [0], 65535, [], 'location 0 accepting 1')

# ---- the ceiling
def g(constant, version):
    """0→1 starts the timer, 1→2 lets ticks pass, then three transitions 2→3 test it: above, equal and at most the constant."""
    return chart(4, 1, [(0, 1, [0], []), (1, 2, [], [])] + [(2, 3, [], [(0, code, constant)]) for code in (ABOVE, EQUAL, AT_MOST)], version=version)


G, G_LARGE = g(65535, 1), g(65536, 2)
for readings, ticks, taken in ((0, 40000, 14464), 80000, (2,)), ((0, 65535, 65535), 65535, (3, 4)), ((0, 65535, 0), 65536, (2,)):
    for r in 2, 3, 4:
        play('G: transition %d after %d ticks' % (r, ticks), G, [0], 0, list(zip((0, 1, r), readings)),
             'location 3 accepting 1' if r in taken else 'refused 24 2 changed 0')
play('G: the largest starting count, and 65,486 ticks to the first step', G, [MOST], 100, [(0, 50)], 'location 1 accepting 0')
play('G: a starting count too large', G, [MOST + 1], 100, [(0, 50)], 'refused 12 0 changed 0')

# Transition 0 starts the timer, 1 lets ticks pass, 2 starts it anew, 3 tests above 65,535 and starts it anew; the others are the five comparisons
# with 65,534 (4 to 8) and with 65,535 (9 to 13).
TESTS = [(code, constant) for constant in (65534, 65535) for code in range(5)]
CEILING = chart(2, 1, [(0, 1, [0], []), (1, 1, [], []), (1, 1, [0], []), (1, 1, [0], [(0, ABOVE, 65535)])]
                + [(1, 1, [], [(0, code, constant)]) for code, constant in TESTS])


def is_met(code, ticks, constant):
    return (ticks <= constant, ticks < constant, ticks >= constant, ticks > constant, ticks == constant)[code]


def steps_after(waits, transitions):
    """Transition 0 at tick 100, 1 after each wait but the last one, and then, after that one, the transitions, all at one reading."""
    times = [100 + sum(waits[:n]) for n in range(len(waits) + 1)]
    return [(r, t % 65536) for r, t in zip([0] + [1] * len(waits), times[:-1])] + [(r, times[-1] % 65536) for r in transitions]


# As on the player, which has no ceiling: the tests that are met at so many ticks are taken one after the other, and then one that is not is refused.
# The ways to wait so long take turns.
for ticks, ways in [(65534, [[65534], [30000, 35534]]), (65535, [[65535], [65534, 1]]), (65536, [[65535, 1], [32768, 32768], [1, 65535]]),
                    (65537, [[65535, 2], [20000, 20000, 25537]]), (131000, [[65500, 65500], [65535, 65465], [50000, 50000, 31000]])]:
    met = [4 + n for n, (code, constant) in enumerate(TESTS) if is_met(code, ticks, constant)]
    unmet = [r for r in range(4, 14) if r not in met]
    for n, r in enumerate(unmet):
        waits = ways[n % len(ways)]
        assert sum(waits) == ticks
        play('%d ticks in %d steps: those of ten tests that are met, then transition %d' % (ticks, len(waits), r), CEILING, [0], 65000,
             steps_after(waits, met + [r]), 'refused 24 %d changed 0' % (len(waits) + len(met)))

play('a reading one lower is 65,535 ticks later', CEILING, [MOST], 5, [(0, 5), (13, 4)], 'location 1 accepting 1')
play('the same reading is no tick later', dwell((EQUAL, 0)), [0], 65535, [(0, 65535), (1, 65535)], 'location 2 accepting 1')
# After 131,070 ticks the count has stopped. Started anew, it is below 65,534 at once, equal 65,535 after so many ticks, above after one more.
play('a count that stopped is started anew', CEILING, [0], 0, [(0, 0), (1, 65535), (2, 65534), (5, 65534), (13, 65533), (12, 65534)],
     'location 1 accepting 1')
play('a count that stopped is started anew: at least 65,534 is not met after 65,533 ticks', CEILING, [0], 0,
     [(0, 0), (1, 65535), (2, 65534), (6, 65531)], 'refused 24 3 changed 0')
play('a count that stopped is tested and started anew by one transition: above 65,535 is not met again', CEILING, [0], 0,
     [(0, 0), (1, 65535), (3, 0), (3, 0)], 'refused 24 3 changed 0')
play('one count has stopped, the other, started a tick later, has not',
     chart(4, 2, [(0, 1, [0], []), (1, 2, [1], []), (2, 3, [], [(0, ABOVE, 65535), (1, EQUAL, 65535)])]), [0, 0], 9, [(0, 10), (1, 11), (2, 10)],
     'location 3 accepting 1')

# ---- the reading at tick 0: no entry of the list, and what it is changes no answer, since a timer that is tested was started
play('B from the reading 6: 65,535 ticks to the first step', B, [0, 0], 6, [(0, 5), (1, 7), (2, 8)], 'location 3 accepting 1')
play('a reading more than transitions', B, [0, 0], 0, [], 'refused 13 65535 changed 0', transitions=[0, 1, 2], readings=[0, 5, 7, 8])

# ---- refusals in their order
play('1 comes before 12 and 13', B[:-1], [], 0, [], 'refused 1 65535 changed 0', transitions=[0], readings=[])
play('2 comes before 12', b'\x04' + B[1:], [], 0, [(0, 5)], 'refused 2 65535 changed 0')
play('3 comes before 12: B, first byte 3', b'\x03' + B[1:], [], 0, [(0, 5)], 'refused 3 65535 changed 0')
play('3 comes before 12: B, first byte 2', B_RELABELLED, [], 0, [(0, 5)], 'refused 3 65535 changed 0')
play('9 comes before 10, 12 and 18', chart(3, 1, [(0, 1, [], [(0, AT_MOST, 65536)])], version=2), [], 0, [(0, 5)], 'refused 9 2 changed 0')
play('10 comes before 12', NEVER_STARTED, [], 0, [(0, 5)], 'refused 10 1 changed 0')
play('10 comes before 18', chart(2, 1, [(0, 0, [0], []), (0, 1, [], [(0, AT_LEAST, 65536)])], version=2), [0], 0, [(0, 5)], 'refused 10 1 changed 0')
play('timer 1 too large', B, [MOST, MOST + 1], 0, [(0, 5)], 'refused 12 1 changed 0')
play('both timers too large', B, [MOST + 1, 4294967295], 0, [(0, 5)], 'refused 12 0 changed 0')
play('a count too many, and one too large', B, [MOST + 1, 0, 0], 0, [(0, 5)], 'refused 12 65535 changed 0')
play('12 comes before 13', B, [0], 0, [], 'refused 12 65535 changed 0', transitions=[0], readings=[])
play('12 comes before 18: no counts', G_LARGE, [], 0, [(0, 5)], 'refused 12 65535 changed 0')
play('13 comes before 18: a reading too few', G_LARGE, [0], 0, [], 'refused 13 65535 changed 0', transitions=[0, 1], readings=[5])
play('65,536, on a transition that a step names', G_LARGE, [0], 0, [(0, 0), (1, 40000), (2, 14464)], 'refused 18 65535 changed 0')
play('65,536, on transitions that no step names', G_LARGE, [0], 0, [(0, 0), (1, 40000)], 'refused 18 65535 changed 0')
play('4,294,967,295, and no steps', dwell((AT_MOST, 4294967295)), [0], 0, [], 'refused 18 65535 changed 0')
play('18 comes before 14', G_LARGE, [0], 0, [(9, 5)], 'refused 18 65535 changed 0')
for last, line in (65535, 'location 2 accepting 1'), (65536, 'refused 18 65535 changed 0'):
    play('version 2, seven constants 65,535 and then %d' % last,
         chart(3, 1, [(0, 1, [0], []), (1, 2, [], [(0, AT_MOST, 65535)] * 7 + [(0, AT_MOST, last)])], version=2), [0], 0, [(0, 5), (1, 9)], line)
play('no such transition', B, [0, 0], 0, [(0, 5), (3, 5)], 'refused 14 1 changed 0')
play('no such transition, however large', B, [0, 0], 0, [(4294967295, 5)], 'refused 14 0 changed 0')
play('a wrong location comes before a test', B, [0, 0], 5, [(0, 5), (2, 5)], 'refused 22 1 changed 0')
play('later steps are not looked at', B, [0, 0], 0, [(0, 5), (1, 8), (9, 8), (0, 8)], 'refused 24 1 changed 0')
play('no 15: 257 steps, 16,842,495 ticks in all', SELF_LOOP, [MOST], 0, [(0, 65535 - n) for n in range(257)], 'location 0 accepting 1')
play('70,000 steps, then one that names no transition', SELF_LOOP, [0], 7, [(1, 7)], 'refused 14 70000 changed 0', repeat=70000)

# ---- spare locations (document 02, P7): 18 looks at every constant of the file
for name, file, counts in ('drawn', S, [MOST, 0]), ('rewritten', S_BOARD, [65536]):
    play('S %s: ticks 5, 2, 7, the second across the wrap' % name, file, counts, 65530, [(0, 65535), (1, 1), (2, 8)], 'location 3 accepting 1')
play('S: the spare transition', S, [0, 0], 65530, [(0, 65535), (3, 0)], 'refused 22 1 changed 0')
play('S as version 2: 9 comes before 12', S_2, [], 0, [(0, 5)], 'refused 9 4 changed 0')
play('S, 65,536 on the spare transition', S_LARGE, [0, 0], 0, [(0, 5)], 'refused 18 65535 changed 0')
play('a test of a spare transition alone', SPARE_TEST, [0], 0, [(0, 5)], 'location 1 accepting 0')
play('a spare location, and 10 before 12 and 18', spare(3, 1, [(0, 0, [0], []), (0, 1, [], [(0, AT_LEAST, 65536)])]), [], 0, [(0, 5)],
     'refused 10 1 changed 0')
