"""Vectors for the analysis, the rewriting and the player. The expected lines are written from documents 01 and 02 and from paper 003, not taken from
a run.

`vectors/make` turns them into input and expected output of crates/vectors. What the program prints:
  analysis    used U floor F searched S rounds R beyond C, then: live W W ..    (S is 1 or 0; words of locations 0 to 7 and of the last one)
  rewriting   used U length N HEX next HH                    (the bytes of the new file, the last 8 if over 64, and the byte after them)
  player      location L time T accepting B                  (B is 1 or 0)
  a refusal   refused N P changed C                          (C: lent entries or bytes that are not as they were; 0 where nothing is lent)
Lent memory is filled with bytes 170 (hex aa) before each call.
"""
from encoder import ABOVE, AT_LEAST, AT_MOST, BELOW, EQUAL, arrows_of, chart, drawn, file_of

ANALYSE, REWRITE, PLAY = [], [], []

# ---- the charts of document 01
ARROWS_OF_A, ARROWS_OF_B, ARROWS_OF_C = (arrows_of(drawn(name)) for name in 'abc')
A, B, C, SELF_LOOP, NEVER_STARTED, SMALL = (file_of(drawn(name)) for name in ('a', 'b', 'c', 'self_loop', 'never_started', 'one_location'))
B_2, SMALL_2 = file_of(drawn('b'), 2), file_of(drawn('one_location'), 2)
B_BOARD = chart(4, 1, [(0, 1, [0], []), (1, 2, [0], [(0, AT_MOST, 2)]), (2, 3, [], [(0, AT_LEAST, 1)])])
B_2_BOARD = bytes.fromhex('02 00000034 0004 0000 01 0001 0003 0003 0008 0000 0001 00 01 00 00'
                          '000e 0001 0002 00 01 00 01 00 00 00000002 000d 0002 0003 00 00 01 00 02 00000001')
B_3, B_3_BOARD = b'\x03' + B_2[1:], b'\x03' + B_2_BOARD[1:]
# B as version 1 but for the version byte
B_RELABELLED = b'\x02' + B[1:]
ARROWS_OF_C_BOARD = [(0, 1, [0], []), (1, 2, [1], []), (2, 3, [], [(1, AT_LEAST, 1)]), (3, 4, [0], [(0, AT_MOST, 9)]),
                     (4, 5, [], [(0, AT_LEAST, 2)])]
C_BOARD = chart(6, 2, ARROWS_OF_C_BOARD)
SELF_LOOP_BOARD = chart(1, 0, [(0, 0, [], [])])
# Fig. 1 of paper 003 as its text determines it: r1 to r7 are transitions 0 to 6, l0 to l6 locations 0 to 6
FIG_1 = chart(7, 3, [(0, 1, [0], []), (1, 2, [1], [(0, AT_LEAST, 1)]), (2, 3, [2], []), (2, 4, [2], []),
                     (3, 5, [], [(1, AT_MOST, 9)]), (4, 5, [], [(0, AT_MOST, 9)]), (5, 6, [], [(2, AT_MOST, 9)])])
RESTART = chart(4, 1, [(0, 1, [0], []), (1, 2, [0], [(0, AT_MOST, 1)]), (2, 3, [], [(0, AT_MOST, 1)])])
PARALLEL = chart(4, 1, [(0, 1, [0], []), (1, 2, [0], []), (1, 2, [], []), (2, 3, [], [(0, AT_MOST, 1)])])
# Families of timers 0 to 63 hold 0 to 63 at location 1; timer 1, started anew, holds 0 at 2 and 4; timer 0, started anew, lives at 3 beside 1 to
# 63 and at 4 beside that 0: it gets 64. No two timers are twins: transition b of the six at location 5, where nothing is live, starts those whose
# binary digit b is 1.
EVERY = list(range(64))
ARROWS_OF_MANY = ([(0, 1, EVERY, []), (1, 2, [1], []), (1, 3, [0], [(0, AT_MOST, 1)]), (2, 4, [0], []), (3, 4, [1], [])]
                  + [(3, 5, [], [(j, AT_MOST, 1) for j in range(k, min(k + 8, 64))]) for k in range(1, 64, 8)]
                  + [(4, 5, [], [(0, AT_MOST, 1), (1, AT_MOST, 1)])])
OVER_64 = chart(6, 64, ARROWS_OF_MANY + [(5, 5, [j for j in EVERY if j >> b & 1], []) for b in range(6)])
ALL = 2 ** 64 - 1


# ---- long dwell times (document 02, P2)
def dwell(*tests):
    """A version 2 file: 0→1 starts 0; then for each test of timer 0, a code and a constant, a transition 1→2."""
    return chart(3, 1, [(0, 1, [0], [])] + [(1, 2, [], [(0, code, k)]) for code, k in tests], version=2)


# ---- rounds (document 02, P3)
def chain(n, last):
    """0→1 starts timer 0, each location leads to the next up to location `last`, and from there a transition to location n - 1 tests it."""
    return [(0, 1, [0], [])] + [(q, q + 1, [], []) for q in range(1, last)] + [(last, n - 1, [], [(0, EQUAL, 5)])]


def open_chain(n):
    """A chain of n locations that tests the timer on its last transition."""
    return chain(n, n - 2)


def looped_chain(n):
    """A chain of n locations that tests the timer on a loop at its end."""
    return chain(n, n - 1)


# ---- floors (document 02, P1)
# Families 128, 130, 192 and 193 get 0, 1, 0 and 2. The third meets the fourth, the fourth the second, the second the first: two timers would do.
D = chart(5, 3, [(0, 3, [0, 1], []), (3, 1, [], [(0, AT_MOST, 3)]), (3, 4, [2], []), (4, 2, [0], [(1, AT_MOST, 5)]),
                 (2, 1, [], [(0, AT_MOST, 3), (2, AT_MOST, 9)])])
D_BOARD = chart(5, 3, [(0, 3, [0, 2], []), (3, 1, [], [(0, AT_MOST, 3)]), (3, 4, [1], []), (4, 2, [0], [(2, AT_MOST, 5)]),
                       (2, 1, [], [(0, AT_MOST, 3), (1, AT_MOST, 9)])])


def lone(q, n):
    """A row of n transitions from location q, where timer 0 was started, each with a family of its own that meets none: it tests the one of timers 0
    and 1 that was started last and starts the other."""
    return [(q + i, q + i + 1, [(i + 1) % 2], [(i % 2, AT_LEAST, 0)]) for i in range(n)]


def a_and_lone(n, third=(2,)):
    """A, whose last transition starts timer 0, then so many families more. The timers of `third` stand in the place of timer 2."""
    in_place = lambda timers: [j for timer in timers for j in (third if timer == 2 else [timer])]
    arrows = [(source, target, in_place(starts), [(j, code, k) for timer, code, k in tests for j in in_place([timer])])
              for source, target, starts, tests, _ in ARROWS_OF_A]
    source, target, _, tests = arrows.pop()
    return chart(7 + n, 2 + len(third), arrows + [(source, target, [0], tests)] + lone(6, n))


# 15 families of timer 5 that meet none, each at a location of its own; then timers 0 to 4, one family each: alone at a location, and with each other
# one at a further one. The locations of a family lie on a cycle that tests its timer and starts all others.
PLACES = [[5]] * 15 + [[j] for j in range(5)] + [[i, j] for j in range(5) for i in range(j)]
CYCLES = [(5, [q]) for q in range(15)] + [(j, [q for q, live in enumerate(PLACES) if j in live]) for j in range(5)]
LONE_THEN_FIVE = chart(31, 6, [(0, q + 1, range(6), []) for q in range(20)]
                       + [(q + 1, cycle[(i + 1) % len(cycle)] + 1, [k for k in range(6) if k != j], [(j, AT_LEAST, 0)])
                          for j, cycle in CYCLES for i, q in enumerate(cycle)])

# ---- twins (document 02, P6): a family is numbered by the lowest twin, live lists and rounds go by drawn timer
# Timers 0 and 1 are twins; both are live at location 1, timer 1 alone at location 2: family 64
TWINS = chart(4, 2, [(0, 1, [0, 1], []), (1, 2, [], [(0, AT_LEAST, 2)]), (2, 3, [], [(1, AT_MOST, 9)])])
TWINS_BOARD = bytes.fromhex('01 0000002f 0004 0000 01 0001 0003 0003 0008 0000 0001 00 01 00 00'
                            '000b 0001 0002 00 00 01 00 02 0002 000b 0002 0003 00 00 01 00 00 0009')
# Timers 0 and 2 are twins; both are live at location 1, timer 2 alone at location 2, beside timer 1: families 64 and 129
TWINS_AROUND = chart(4, 3, [(0, 1, [0, 2], []), (1, 2, [1], [(0, AT_LEAST, 1)]), (2, 3, [], [(2, AT_MOST, 4), (1, AT_MOST, 4)])])
TWINS_AROUND_BOARD = chart(4, 2, [(0, 1, [0], []), (1, 2, [1], [(0, AT_LEAST, 1)]), (2, 3, [], [(0, AT_MOST, 4), (1, AT_MOST, 4)])])
# Timers 0 and 2 are twins. Nothing tests timer 0, yet their family, at locations 1 and 2, is 64, before 65 of timer 1: timer 2 has 0, timer 1 has 1.
UNTESTED_TWIN = chart(4, 3, [(0, 2, [0, 2], []), (2, 1, [1], []), (1, 3, [], [(1, AT_MOST, 4), (2, AT_MOST, 4)])])
UNTESTED_TWIN_BOARD = chart(4, 2, [(0, 2, [0], []), (2, 1, [1], []), (1, 3, [], [(1, AT_MOST, 4), (0, AT_MOST, 4)])])
# Timers 0 and 1 are twins; both are live at location 1, timer 1 alone at location 3, none at location 2: family 64
TWINS_APART = chart(5, 2, [(0, 1, [0, 1], []), (1, 2, [], [(0, AT_LEAST, 1)]), (1, 3, [], []), (3, 4, [], [(1, AT_MOST, 3)])])
TWINS_APART_BOARD = chart(5, 1, [(0, 1, [0], []), (1, 2, [], [(0, AT_LEAST, 1)]), (1, 3, [], []), (3, 4, [], [(0, AT_MOST, 3)])])
# Timers 62 and 63 are twins, and so are all of 0 to 60, which nothing starts: families 64 + 62 at locations 1 and 2, 128 + 61 at location 2
LAST_TWINS = chart(4, 64, [(0, 1, [62, 63], []), (1, 2, [61], [(63, AT_LEAST, 1)]), (2, 3, [], [(62, AT_MOST, 4), (61, AT_MOST, 9)])])
LAST_TWINS_BOARD = chart(4, 2, [(0, 1, [0], []), (1, 2, [1], [(0, AT_LEAST, 1)]), (2, 3, [], [(0, AT_MOST, 4), (1, AT_MOST, 9)])])
# Timers 1, 3 and 4 are twins, and timers 2 and 5; nothing starts timer 0 and nothing tests timer 1. Family 65, at locations 1, 2 and 3, has 0; family
# 66, at locations 1 and 3, has 1. By the lowest twin that is tested the first would be 67 and come second. Of what 1→1 starts, timers 2 to 5 are live
# at location 1 and have 1, 0, 0 and 1: it starts 0 and 1.
THREE_TWINS = chart(5, 6, [(0, 2, [1, 3, 4], []), (2, 1, [2, 5], [(4, AT_LEAST, 2)]), (1, 1, [1, 2, 3, 4, 5], [(3, ABOVE, 1)]),
                           (1, 3, [], [(5, AT_MOST, 5), (3, AT_MOST, 9)]), (3, 4, [], [(2, AT_MOST, 8), (4, EQUAL, 7)])])
THREE_TWINS_BOARD = chart(5, 2, [(0, 2, [0], []), (2, 1, [1], [(0, AT_LEAST, 2)]), (1, 1, [0, 1], [(0, ABOVE, 1)]),
                                 (1, 3, [], [(1, AT_MOST, 5), (0, AT_MOST, 9)]), (3, 4, [], [(1, AT_MOST, 8), (0, EQUAL, 7)])])
# Timers 0 and 1 are live at the same location, and every transition but one starts both or neither: no twins. That one starts what is not live at its
# target.
FIRST_DIFFERS = chart(3, 2, [(0, 0, [0], []), (0, 1, [0, 1], []), (1, 2, [], [(0, AT_LEAST, 1), (1, AT_MOST, 9)])])
FIRST_DIFFERS_BOARD = chart(3, 2, [(0, 0, [], []), (0, 1, [0, 1], []), (1, 2, [], [(0, AT_LEAST, 1), (1, AT_MOST, 9)])])
LAST_DIFFERS = chart(3, 2, [(0, 1, [0, 1], []), (1, 2, [], [(0, AT_LEAST, 1), (1, AT_MOST, 9)]), (2, 2, [1], [])])
# Timers 0 and 1 are twins. Live are at location 1 both, at 2 timers 0 and 3, at 3 timers 1 and 2, at 4 timers 2 and 3. The twins' family 64, at
# locations 1, 2 and 3, meets 131 and 194, which meet at 4: three numbers. Each counting for itself, as 64 at 1 and 2 and 65 at 1 and 3,
# they would leave it at two.
TWINS_NEED_THREE = chart(6, 4, [(0, 1, [0, 1], []), (1, 2, [3], []), (1, 3, [2], []), (2, 5, [], [(0, AT_MOST, 4)]), (2, 4, [2], []),
                                (3, 5, [], [(1, AT_MOST, 4)]), (3, 4, [3], []), (4, 5, [], [(2, AT_MOST, 9), (3, AT_LEAST, 1)])])
TWINS_NEED_THREE_BOARD = chart(6, 3, [(0, 1, [0], []), (1, 2, [1], []), (1, 3, [2], []), (2, 5, [], [(0, AT_MOST, 4)]), (2, 4, [2], []),
                                      (3, 5, [], [(0, AT_MOST, 4)]), (3, 4, [1], []), (4, 5, [], [(2, AT_MOST, 9), (1, AT_LEAST, 1)])])
# OVER_64 without the transitions at location 5: timers 2 to 63 are twins. Families 64 at location 1, 65 and 66 at 1 and 3, 129 at 2 and 4, 192 at 3
# and 4 get 0, 1, 2, 0, 3. With 1 for 129 and 0 for 192 three timers would do.
MANY_TWINS = chart(6, 64, ARROWS_OF_MANY)
MANY_TWINS_BOARD = chart(6, 4, [(0, 1, [0, 1, 2], []), (1, 2, [0], []), (1, 3, [3], [(0, AT_MOST, 1)]), (2, 4, [3], []), (3, 4, [0], []),
                                (3, 5, [], [(1, AT_MOST, 1)] + [(2, AT_MOST, 1)] * 7)] + [(3, 5, [], [(2, AT_MOST, 1)] * 8)] * 6
                         + [(3, 5, [], [(2, AT_MOST, 1)] * 7), (4, 5, [], [(3, AT_MOST, 1), (0, AT_MOST, 1)])])


# ---- spare locations (document 02, P7): what follows leaves out every transition from a location that no path from the initial one reaches
def spare(locations, timers, arrows, version=3, **more):
    return chart(locations, timers, arrows, version=version, **more)


# Nothing reaches location 4. Timers 0 and 1 are twins, although 4→1 starts timer 0 alone: family 64 at locations 1 and 2.
ARROWS_OF_S = [(0, 1, [0, 1], []), (1, 2, [], [(0, AT_LEAST, 2)]), (2, 3, [], [(1, AT_MOST, 9)]), (4, 1, [0], [(1, AT_MOST, 5)])]
S, S_2, S_1 = (spare(5, 2, ARROWS_OF_S, accepting=[3], version=version) for version in (3, 2, 1))
S_BOARD = bytes.fromhex('03 0000003c 0005 0000 01 0001 0003 0004 0008 0000 0001 00 01 00 00 000d 0001 0002 00 00 01 00 02 00000002'
                        '000d 0002 0003 00 00 01 00 00 00000009 0007 0004 0001 00 00 00')
# The same with a constant over 65,535 on 4→1
S_LARGE = spare(5, 2, ARROWS_OF_S[:3] + [(4, 1, [0], [(1, AT_MOST, 65536)])], accepting=[3])
# Nothing starts timer 0; only 2→1, which nothing reaches, tests it. Location 2 accepts.
SPARE_TEST = spare(3, 1, [(0, 1, [], []), (2, 1, [], [(0, AT_LEAST, 0)])])
SPARE_TEST_BOARD = bytes.fromhex('03 0000001d 0003 0000 00 0001 0002 0002 0007 0000 0001 00 00 00 0007 0002 0001 00 00 00')
# Locations 4 and 5 lead to each other; 5 accepts
SPARE_CYCLE = spare(6, 1, [(0, 1, [0], []), (1, 2, [], [(0, AT_MOST, 5)]), (4, 5, [], []), (5, 4, [], [(0, AT_MOST, 5)]), (2, 3, [], [])])
# In version 3 unstarted at transition 3; transition 0, of location 4, is passed over. In version 2 location 4 is refused.
UNSTARTED = [(4, 1, [], [(1, AT_MOST, 1)]), (0, 1, [0], []), (1, 2, [], [(0, AT_MOST, 1)]), (1, 3, [], [(1, AT_MOST, 1)])]

# Timers 1 and 3 are live at location 1, told apart by 1→0: families 65 and 67 get 0 and 1. The transition 2→1 stands at each of four places.
REACHED = [(0, 1, [1, 3], [], 1), (1, 1, [], [(3, BELOW, 70000)], 2), (1, 0, [3], [(1, ABOVE, 258)], 3)]
REACHED_BOARD = ['000900000001 01 02 00 01 00', '000d00010001 02 00 01 01 01 00011170', '000d00010000 03 00 01 00 03 00000102']


def between(n):
    """A chart whose transition n leaves a spare location, and what the rewriting makes of it, 64 bytes."""
    left_out = (2, 1, [0, 2], [(2, EQUAL, 3), (0, AT_LEAST, 4), (3, AT_MOST, 5)], 9)
    records = REACHED_BOARD[:n] + ['000700020001 09 00 00'] + REACHED_BOARD[n:]
    return spare(3, 4, REACHED[:n] + [left_out] + REACHED[n:], accepting=[]), bytes.fromhex('03 0000003b 0003 0000 02 0000 0004' + ''.join(records))


# Timers 1, 2 and 4 are live at locations 1 and 2, no two of them twins: families 65, 66 and 68 get 0, 1 and 2. Nothing reaches locations 4 and 5,
# whose transitions, 0, 2, 4 and 6, have eight tests, none, two and one.
PACKED = [(4, 1, [0, 3], [(3, AT_MOST, 31), (0, BELOW, 32), (1, AT_LEAST, 33), (2, ABOVE, 34), (4, EQUAL, 35), (3, AT_MOST, 36), (0, BELOW, 37),
                          (1, AT_LEAST, 4294967295)], 201),
          (1, 2, [2], [(1, AT_LEAST, 11), (2, AT_MOST, 70012), (4, BELOW, 13)], 2),
          (5, 4, [], [], 202),
          (0, 1, [1, 2, 4], [], 1),
          (4, 5, [4], [(0, ABOVE, 41), (4, EQUAL, 42)], 203),
          (2, 1, [4], [(2, ABOVE, 10), (1, EQUAL, 22)], 3),
          (5, 2, [1], [(3, AT_LEAST, 51)], 204),
          (2, 3, [], [(1, AT_MOST, 100000), (2, BELOW, 3), (4, AT_LEAST, 5), (1, ABOVE, 26), (2, EQUAL, 2), (4, AT_MOST, 6), (1, BELOW, 28),
                      (2, AT_MOST, 4294967294)], 4)]
PACKED_BOARD = [(4, 1, [], [], 201),
                (1, 2, [1], [(0, AT_LEAST, 11), (1, AT_MOST, 70012), (2, BELOW, 13)], 2),
                (5, 4, [], [], 202),
                (0, 1, [0, 1, 2], [], 1),
                (4, 5, [], [], 203),
                (2, 1, [2], [(1, ABOVE, 10), (0, EQUAL, 22)], 3),
                (5, 2, [], [], 204),
                (2, 3, [], [(0, AT_MOST, 100000), (1, BELOW, 3), (2, AT_LEAST, 5), (0, ABOVE, 26), (1, EQUAL, 2), (2, AT_MOST, 6), (0, BELOW, 28),
                            (1, AT_MOST, 4294967294)], 4)]


def packed(n):
    """The chart and its board with the first n transitions after the others, so that each of them is the last one, whose bytes are shown."""
    return spare(6, 5, PACKED[n:] + PACKED[:n], accepting=[3]), spare(6, 3, PACKED_BOARD[n:] + PACKED_BOARD[:n], accepting=[3])


# 256 locations and 512 transitions, the last of which alone leaves a location that is reached, the initial one, 255. Of the others every 32nd has a
# start and a test.
LARGEST = spare(256, 64, [(i % 255, 255 if i % 2 else (i + 1) % 255, [i % 64], [(63 - i % 64, i % 5, i)]) if i % 32 == 1
                          else (i % 255, 255 if i % 2 else (i + 1) % 255, [], []) for i in range(511)] + [(255, 255, [63], [])],
                initial=255, accepting=[0, 255])

# A comment, the calls asked ('9' is the analysis of the chart as version 2), locations, timers, transitions, those of the rewritten chart, what else
# the chart has, the lowest spare location, the number used (as many as the floor), the number of rounds, the live sets
SPARE = [
    ('a spare cycle', 'a9', 6, 1, [(0, 1, [0], []), (1, 2, [], [(0, AT_MOST, 5)]), (4, 5, [], []), (5, 4, [], [(0, AT_MOST, 5)]), (2, 3, [], [])],
     [(0, 1, [0], []), (1, 2, [], [(0, AT_MOST, 5)]), (4, 5, [], []), (5, 4, [], []), (2, 3, [], [])], {}, 4, 1, 2, '0 1 0 0 0 0'),
    ('a spare chain, which would need three rounds more', 'a', 6, 1,
     [(0, 1, [0], []), (1, 1, [], [(0, AT_MOST, 4)]), (2, 3, [], []), (3, 4, [], []), (4, 5, [], []), (5, 5, [], [(0, AT_MOST, 6)])],
     [(0, 1, [0], []), (1, 1, [], [(0, AT_MOST, 4)]), (2, 3, [], []), (3, 4, [], []), (4, 5, [], []), (5, 5, [], [])], {}, 2, 1, 2, '0 1 0 0 0 0'),
    ('initial location 1 of three, 1→2', 'ak9', 3, 0, [(1, 2, [], [])], [(1, 2, [], [])], {'initial': 1}, 0, 0, 1, '0 0 0'),
    ('two locations, no transition', 'a9', 2, 0, [], [], {}, 1, 0, 1, '0 0'),
    ('spare location 0 leads to the initial one', 'ak', 3, 1, [(0, 1, [], [(0, AT_LEAST, 0)]), (1, 2, [0], []), (2, 2, [], [(0, AT_MOST, 3)])],
     [(0, 1, [], []), (1, 2, [0], []), (2, 2, [], [(0, AT_MOST, 3)])], {'initial': 1}, 0, 1, 2, '0 0 1'),
    ('all but the initial location spare', 'k9', 4, 2,
     [(1, 0, [0], [(0, AT_MOST, 1), (1, BELOW, 2)]), (2, 3, [1], [(1, ABOVE, 3)]), (0, 0, [1], []), (3, 2, [], [(0, EQUAL, 4)])],
     [(1, 0, [], []), (2, 3, [], []), (0, 0, [], []), (3, 2, [], [])], {}, 1, 0, 1, '0 0 0 0'),
    # Timer 0 lives at location 2 with 1 and at location 4 with 0. If it lived at 6, that would link the two.
    ('C and a spare location that would link two families', 'k', 7, 2, [(6, 2, [], []), (6, 4, [], [])] + ARROWS_OF_C,
     [(6, 2, [], []), (6, 4, [], [])] + ARROWS_OF_C_BOARD, {}, 6, 2, 4, '0 2 3 2 1 0 0'),
    # Timer 0 lives at location 1, timer 1 at location 2, and both would at location 4
    ('B and a spare location where two families would meet', 'k', 5, 2,
     [(4, 1, [], []), (4, 2, [], [])] + ARROWS_OF_B,
     [(4, 1, [], []), (4, 2, [], []), (0, 1, [0], []), (1, 2, [0], [(0, AT_MOST, 2)]), (2, 3, [], [(0, AT_LEAST, 1)])],
     {'accepting': [3, 4]}, 4, 1, 2, '0 1 2 0 0'),
    # Timers 0 and 2 are twins, so that timer 2 has 0; for itself it would have 1
    ('a spare transition starts one of two twins', 'k', 5, 3,
     [(0, 2, [0, 2], []), (4, 1, [0], []), (2, 1, [1], []), (1, 3, [], [(1, AT_MOST, 4), (2, AT_MOST, 4)])],
     [(0, 2, [0], []), (4, 1, [], []), (2, 1, [1], []), (1, 3, [], [(1, AT_MOST, 4), (0, AT_MOST, 4)])], {}, 4, 2, 3, '0 6 4 0 0'),
    ('a spare way to location 1 starts nothing', 'a', 4, 1, [(0, 1, [0], []), (3, 1, [], []), (1, 2, [], [(0, AT_MOST, 1)])],
     [(0, 1, [0], []), (3, 1, [], []), (1, 2, [], [(0, AT_MOST, 1)])], {}, 3, 1, 2, '0 1 0 0'),
    ('only a spare transition tests timer 1, which reached ones start', 'k', 4, 2,
     [(0, 1, [0], []), (1, 1, [1], []), (1, 2, [], [(0, EQUAL, 6)]), (3, 1, [], [(1, EQUAL, 7)])],
     [(0, 1, [0], []), (1, 1, [], []), (1, 2, [], [(0, EQUAL, 6)]), (3, 1, [], [])], {}, 3, 1, 2, '0 1 0 0'),
    # Location 2 is reached by a path, though by no run
    ('a test that is never met leads to location 2, and it is reached', 'k', 4, 1,
     [(0, 1, [0], []), (1, 2, [], [(0, BELOW, 0)]), (2, 3, [], [(0, AT_MOST, 7)])],
     [(0, 1, [0], []), (1, 2, [], [(0, BELOW, 0)]), (2, 3, [], [(0, AT_MOST, 7)])], {}, None, 1, 2, '0 1 1 0'),
    ('a chain, its transitions last to first, and a spare location', 'a', 13, 1, open_chain(12)[::-1] + [(12, 5, [], [(0, EQUAL, 5)])],
     open_chain(12)[::-1] + [(12, 5, [], [])], {}, 12, 1, 11, '0 1 1 1 1 1 1 1 0'),
    # No timer is unstarted at location 1, and yet it is reached; all timers are twins
    ('63 timers, all of them started on the way to location 1', 'k', 4, 63,
     [(0, 1, range(63), []), (1, 2, [], [(62, AT_LEAST, 1)]), (3, 2, [0], [(1, AT_LEAST, 1)])],
     [(0, 1, [0], []), (1, 2, [], [(0, AT_LEAST, 1)]), (3, 2, [], [])], {}, 3, 1, 2, '0 %d 0 0' % 2 ** 62),
    ('64 timers, all of them started on the way to location 1', 'ak9', 4, 64,
     [(0, 1, EVERY, []), (1, 2, [], [(63, AT_LEAST, 1)]), (3, 2, [0], [(1, AT_LEAST, 1)])],
     [(0, 1, [0], []), (1, 2, [], [(0, AT_LEAST, 1)]), (3, 2, [], [])], {}, 3, 1, 2, '0 %d 0 0' % 2 ** 63),
    ('a spare transition with 64 starts and 8 tests', 'k', 3, 64,
     [(0, 1, [63], []), (2, 1, EVERY, [(j, AT_MOST, j) for j in range(56, 64)]), (1, 1, [], [(63, EQUAL, 9)])],
     [(0, 1, [0], []), (2, 1, [], []), (1, 1, [], [(0, EQUAL, 9)])], {'accepting': []}, 2, 1, 2, '0 %d 0' % 2 ** 63)]


def analyse(comment, file, room, lines):
    ANALYSE.append((comment, file, room, lines if isinstance(lines, list) else [lines]))


analyse('A', A, 7, ['used 3 floor 3 searched 1 rounds 3 beyond 0', 'live 0 1 3 6 5 4 0'])
analyse('A, a longer list', A, 256, ['used 3 floor 3 searched 1 rounds 3 beyond 0', 'live 0 1 3 6 5 4 0'])
analyse('A, a list one word too short', A, 6, 'refused 21 65535 changed 0')
analyse('B', B, 4, ['used 1 floor 1 searched 1 rounds 2 beyond 0', 'live 0 1 2 0'])
analyse('C', C, 6, ['used 2 floor 2 searched 1 rounds 4 beyond 0', 'live 0 2 3 2 1 0'])
analyse('one location, 0→0 starting timer 0', SELF_LOOP, 1, ['used 0 floor 0 searched 1 rounds 1 beyond 0', 'live 0'])
analyse('a test that no path starts', NEVER_STARTED, 2, 'refused 10 1 changed 0')
analyse('10 comes before 21', NEVER_STARTED, 0, 'refused 10 1 changed 0')
analyse('the chart of one location', SMALL, 1, ['used 0 floor 0 searched 1 rounds 1 beyond 0', 'live 0'])
analyse('the chart of one location as version 2', SMALL_2, 1, ['used 0 floor 0 searched 1 rounds 1 beyond 0', 'live 0'])
analyse('version 4', b'\x04' + SMALL[1:], 1, 'refused 2 65535 changed 0')
analyse('the chart of one location as version 3', b'\x03' + SMALL[1:], 1, ['used 0 floor 0 searched 1 rounds 1 beyond 0', 'live 0'])
analyse('B as version 2', B_2, 4, ['used 1 floor 1 searched 1 rounds 2 beyond 0', 'live 0 1 2 0'])
analyse('B, first byte 2', B_RELABELLED, 4, 'refused 3 65535 changed 0')
analyse('the largest constant', dwell((AT_MOST, 4294967295)), 3, ['used 1 floor 1 searched 1 rounds 2 beyond 0', 'live 0 1 0'])
analyse('one byte fewer', SMALL[:-1], 1, 'refused 1 65535 changed 0')
analyse('Fig. 1 of paper 003: active(r2) = {0,1}, active(r3) = {1,2}, active(r4) = {0,2}, active(r5) = active(r6) = {2}', FIG_1, 7,
        ['used 3 floor 3 searched 1 rounds 3 beyond 0', 'live 0 1 3 6 5 4 0'])
analyse('a restart keeps two families apart', RESTART, 4, ['used 1 floor 1 searched 1 rounds 2 beyond 0', 'live 0 1 1 0'])
analyse('two parallel transitions, one of which starts the timer', PARALLEL, 4, ['used 1 floor 1 searched 1 rounds 3 beyond 0', 'live 0 1 1 0'])
analyse('a chain of 256 locations', chart(256, 1, open_chain(256)), 256, ['used 1 floor 1 searched 1 rounds 255 beyond 0', 'live 0 1 1 1 1 1 1 1 0'])
analyse('a chain of 256 locations, its transitions last to first', chart(256, 1, open_chain(256)[::-1]), 256,
        ['used 1 floor 1 searched 1 rounds 255 beyond 0', 'live 0 1 1 1 1 1 1 1 0'])
analyse('256 rounds: a chain with a loop at its end', chart(256, 1, looped_chain(256)), 256,
        ['used 1 floor 1 searched 1 rounds 256 beyond 0', 'live 0 1 1 1 1 1 1 1 1'])
analyse('256 rounds, the transitions last to first', chart(256, 1, looped_chain(256)[::-1]), 256,
        ['used 1 floor 1 searched 1 rounds 256 beyond 0', 'live 0 1 1 1 1 1 1 1 1'])
analyse('as many rounds as locations', chart(2, 1, looped_chain(2)), 2, ['used 1 floor 1 searched 1 rounds 2 beyond 0', 'live 0 1'])
analyse('a chain of three locations', chart(3, 1, open_chain(3)), 3, ['used 1 floor 1 searched 1 rounds 2 beyond 0', 'live 0 1 0'])
analyse('a chain of four locations', chart(4, 1, open_chain(4)), 4, ['used 1 floor 1 searched 1 rounds 3 beyond 0', 'live 0 1 1 0'])
analyse('A, its transitions last to first: sweeps in place in the order of the file would be 2', chart(7, 3, ARROWS_OF_A[::-1]), 7,
        ['used 3 floor 3 searched 1 rounds 3 beyond 0', 'live 0 1 3 6 5 4 0'])
# The timers are twins, one family. Rounds go by drawn timer; counted by twins there would be three.
analyse('two locations change in one round, and one of them feeds the other: read in place, location 3 would have both timers a round too early',
        chart(5, 2, [(0, 3, [0, 1], []), (3, 2, [], []), (2, 1, [], []), (1, 4, [], [(0, AT_LEAST, 0)]), (2, 4, [], [(1, AT_LEAST, 0)])]), 5,
        ['used 1 floor 1 searched 1 rounds 4 beyond 0', 'live 0 1 3 3 0'])
analyse('used over 64', OVER_64, 6, ['used 65 floor 64 searched 0 rounds 3 beyond 0', 'live 0 %d 2 %d 3 0' % (ALL, ALL)])
analyse('floor below used', D, 5, ['used 3 floor 2 searched 1 rounds 3 beyond 0', 'live 0 0 5 3 6'])
analyse('A and 17 families more, 20 in all', a_and_lone(17), 24, ['used 3 floor 3 searched 1 rounds 3 beyond 0', 'live 0 1 3 6 5 4 1 2 0'])
analyse('A and 18 families more: not searched', a_and_lone(18), 25, ['used 3 floor 2 searched 0 rounds 3 beyond 0', 'live 0 1 3 6 5 4 1 2 0'])
for n, searched in (20, 1), (21, 0):
    analyse('%d families that meet none' % n, chart(n + 2, 2, [(0, 1, [0], [])] + lone(1, n)), n + 2,
            ['used 1 floor 1 searched %d rounds 2 beyond 0' % searched, 'live 0 1 2 1 2 1 2 1 0'])
analyse('15 families that meet none, then five that meet pairwise', LONE_THEN_FIVE, 31,
        ['used 5 floor 5 searched 1 rounds 2 beyond 0', 'live 0 32 32 32 32 32 32 32 24'])
analyse('twins', TWINS, 4, ['used 1 floor 1 searched 1 rounds 3 beyond 0', 'live 0 3 2 0'])
analyse('twins with a timer between them', TWINS_AROUND, 4, ['used 2 floor 2 searched 1 rounds 3 beyond 0', 'live 0 5 6 0'])
analyse('a lowest twin that nothing tests', UNTESTED_TWIN, 4, ['used 2 floor 2 searched 1 rounds 3 beyond 0', 'live 0 6 4 0'])
analyse('twins live at different locations', TWINS_APART, 5, ['used 1 floor 1 searched 1 rounds 3 beyond 0', 'live 0 3 0 2 0'])
analyse('twins 62 and 63', LAST_TWINS, 4,
        ['used 2 floor 2 searched 1 rounds 3 beyond 0', 'live 0 %d %d 0' % (2 ** 62 + 2 ** 63, 2 ** 61 + 2 ** 62)])
analyse('three twins and two', THREE_TWINS, 5, ['used 2 floor 2 searched 1 rounds 3 beyond 0', 'live 0 60 24 20 0'])
analyse('the first transition starts one of two', FIRST_DIFFERS, 3, ['used 2 floor 2 searched 1 rounds 2 beyond 0', 'live 0 3 0'])
analyse('the last transition starts one of two', LAST_DIFFERS, 3, ['used 2 floor 2 searched 1 rounds 2 beyond 0', 'live 0 3 0'])
analyse('64 timers and no transition', chart(1, 64, []), 1, ['used 0 floor 0 searched 1 rounds 1 beyond 0', 'live 0'])
analyse('twins that need three numbers, though each for itself they would need two', TWINS_NEED_THREE, 6,
        ['used 3 floor 3 searched 1 rounds 3 beyond 0', 'live 0 3 9 6 12 0'])
analyse('62 twins', MANY_TWINS, 6, ['used 4 floor 3 searched 1 rounds 3 beyond 0', 'live 0 %d 2 %d 3 0' % (ALL, ALL)])
# By drawn timer there is a family more, and three timers are live at 3 and at 4
analyse('A with a twin of timer 2 and 17 families more, 20 in all', a_and_lone(17, (2, 3)), 24,
        ['used 3 floor 3 searched 1 rounds 3 beyond 0', 'live 0 1 3 14 13 12 1 2 0'])
analyse('A with a twin of timer 2 and 18 families more: not searched', a_and_lone(18, (2, 3)), 25,
        ['used 3 floor 2 searched 0 rounds 3 beyond 0', 'live 0 1 3 14 13 12 1 2 0'])
analyse('location 2 is not reached', chart(4, 0, [(0, 1, [], []), (1, 3, [], []), (2, 3, [], [])]), 4, 'refused 9 2 changed 0')
analyse('location 0 is not reached from 2', chart(3, 0, [(2, 1, [], []), (0, 1, [], [])], initial=2), 3, 'refused 9 0 changed 0')
analyse('9 comes before 10', chart(3, 1, [(0, 1, [], [(0, AT_MOST, 1)])]), 3, 'refused 9 2 changed 0')
analyse('10 at transition 2', chart(3, 2, [(0, 1, [0], []), (1, 2, [], [(0, AT_MOST, 1)]), (1, 2, [], [(1, AT_MOST, 1)])]), 3, 'refused 10 2 changed 0')
analyse('one of two paths starts the timer', chart(3, 1, [(0, 1, [0], []), (0, 1, [], []), (1, 2, [], [(0, AT_MOST, 1)])]), 3, 'refused 10 2 changed 0')
analyse('a start on the same transition does not help', chart(2, 1, [(0, 1, [0], [(0, AT_MOST, 1)])]), 2, 'refused 10 0 changed 0')
analyse('a loop that starts the timer need not be taken', chart(3, 1, [(0, 1, [], []), (1, 1, [0], []), (1, 2, [], [(0, AT_MOST, 1)])]), 3,
        'refused 10 2 changed 0')

# Spare locations
analyse('S', S, 5, ['used 1 floor 1 searched 1 rounds 3 beyond 0', 'live 0 3 2 0 0'])
analyse('S, a list for the locations that are reached alone', S, 4, 'refused 21 65535 changed 0')
analyse('S as version 2', S_2, 5, 'refused 9 4 changed 0')
analyse('S as version 1', S_1, 5, 'refused 9 4 changed 0')
analyse('a test of a spare transition alone', SPARE_TEST, 3, ['used 0 floor 0 searched 1 rounds 1 beyond 0', 'live 0 0 0'])
for comment, calls, locations, timers, arrows, _, more, lowest, used, rounds, live in SPARE:
    if 'a' in calls:
        analyse(comment, spare(locations, timers, arrows, **more), locations,
                ['used %d floor %d searched 1 rounds %d beyond 0' % (used, used, rounds), 'live ' + live])
    if '9' in calls:
        analyse(comment + ', version 2', spare(locations, timers, arrows, version=2, **more), locations, 'refused 9 %d changed 0' % lowest)
analyse('8, 0, 2 and 1 tests of spare transitions', packed(0)[0], 6, ['used 3 floor 3 searched 1 rounds 2 beyond 0', 'live 0 22 22 0 0 0'])
# Two timers would be live at the spare location, two families more
analyse('20 families that meet none, and a spare location',
        spare(23, 2, [(0, 1, [0], [])] + lone(1, 20) + [(22, 22, [], [(0, AT_LEAST, 0), (1, AT_LEAST, 0)])]), 23,
        ['used 1 floor 1 searched 1 rounds 2 beyond 0', 'live 0 1 2 1 2 1 2 1 0'])
analyse('B as version 3', B_3, 4, ['used 1 floor 1 searched 1 rounds 2 beyond 0', 'live 0 1 2 0'])
for version, refusal in (2, '9 4'), (3, '10 3'):
    analyse('10 at the lowest transition that is reached, version %d' % version, spare(5, 2, UNSTARTED, version=version), 5,
            'refused %s changed 0' % refusal)
analyse('10 in version 3 where 9 comes before it in version 1', spare(3, 1, [(0, 1, [], [(0, AT_MOST, 1)])]), 3, 'refused 10 0 changed 0')
analyse('a start on a spare way does not help', spare(4, 1, [(0, 1, [], []), (3, 1, [0], []), (1, 2, [], [(0, AT_MOST, 1)])]), 4,
        'refused 10 2 changed 0')


def rewrite(comment, file, k, room, lines):
    REWRITE.append((comment, file, k, room, lines if isinstance(lines, list) else [lines]))


def rewritten(used, file, room):
    tail = file.hex() if len(file) <= 64 else file[-8:].hex()
    return 'used %d length %d %s next %s' % (used, len(file), tail, 'aa' if len(file) < room else '--')


rewrite('A with K = 3', A, 3, 65536, rewritten(3, A, 65536))
rewrite('A with K = 2', A, 2, 65536, 'refused 20 65535 changed 0')
rewrite('20 comes before 21', A, 2, 0, 'refused 20 65535 changed 0')
rewrite('B with K = 16', B, 16, 65536, rewritten(1, B_BOARD, 65536))
rewrite('B with K = 1, room for exactly the file', B, 1, len(B_BOARD), rewritten(1, B_BOARD, len(B_BOARD)))
rewrite('B, one byte too short', B, 1, len(B_BOARD) - 1, 'refused 21 65535 changed 0')
rewrite('B with K = 0', B, 0, 65536, 'refused 20 65535 changed 0')
rewrite('B as version 2 with K = 16', B_2, 16, 65536, rewritten(1, B_2_BOARD, 65536))
rewrite('B as version 2, room for exactly the file', B_2, 16, 57, rewritten(1, B_2_BOARD, 57))
for room in (56, 53):
    rewrite('B as version 2, room for %d bytes' % room, B_2, 16, room, 'refused 21 65535 changed 0')
rewrite('B as version 2 with K = 0', B_2, 0, 65536, 'refused 20 65535 changed 0')
rewrite('B, first byte 2', B_RELABELLED, 16, 65536, 'refused 3 65535 changed 0')
rewrite('B, first byte 3', b'\x03' + B[1:], 16, 65536, 'refused 3 65535 changed 0')
rewrite('B, first byte 4', b'\x04' + B[1:], 16, 65536, 'refused 2 65535 changed 0')
rewrite('C with K = 2', C, 2, 65536, rewritten(2, C_BOARD, 65536))
rewrite('C with K = 1', C, 1, 65536, 'refused 20 65535 changed 0')
rewrite('the start is gone, K = 0 suffices', SELF_LOOP, 0, 65536, rewritten(0, SELF_LOOP_BOARD, 65536))
rewrite('K = 64 is judged', A, 64, 65536, rewritten(3, A, 65536))
rewrite('K = 65', A, 65, 65536, 'refused 11 65535 changed 0')
rewrite('the largest K', A, 4294967295, 65536, 'refused 11 65535 changed 0')
rewrite('10 comes before 11', NEVER_STARTED, 65, 65536, 'refused 10 1 changed 0')
rewrite('11 comes before 21', A, 65, 0, 'refused 11 65535 changed 0')
rewrite('used 65 does not fit 64', OVER_64, 64, 65536, 'refused 20 65535 changed 0')
rewrite('2 timers would do, but not for first fit', D, 2, 65536, 'refused 20 65535 changed 0')
rewrite('first fit for 3 timers', D, 3, 65536, rewritten(3, D_BOARD, 65536))
rewrite('the chart of one location', SMALL, 0, 14, rewritten(0, SMALL, 14))
rewrite('the chart of one location as version 2', SMALL_2, 0, 14, rewritten(0, SMALL_2, 14))
rewrite('a file cut', B[:-1], 16, 65536, 'refused 1 65535 changed 0')

# Events are kept. Timer 0 is live nowhere; timer 2 is live at location 1 and has number 0 there; timer 1 is started where it is not live.
rewrite('events 7, 255 and 1, starts left out, timers changed',
        chart(3, 3, [(0, 1, [0, 2], [], 7), (1, 1, [2], [(2, AT_LEAST, 3)], 255), (1, 2, [1], [(2, BELOW, 300)], 1)]), 1, 65536,
        rewritten(1, bytes.fromhex('01 00000030 0003 0000 01 0001 0002 0003 0008 0000 0001 07 01 00 00'
                                   '000c 0001 0001 ff 01 00 01 00 02 0003 000b 0001 0002 01 00 01 00 01 012c'), 65536))
# Timer 1 is live from location 1 on and has number 0, timer 0 from location 2 on and has 1; the last transition's starts still rise.
rewrite('events 200, 0 and 128, two timers with one another\'s numbers',
        chart(3, 2, [(0, 1, [1], [], 200), (1, 2, [0], []), (2, 2, [0, 1], [(0, AT_MOST, 5), (1, EQUAL, 6)], 128)]), 2, 65536,
        rewritten(2, bytes.fromhex('01 00000032 0003 0000 02 0001 0002 0003 0008 0000 0001 c8 01 00 00 0008 0001 0002 00 01 01 00'
                                   '0011 0002 0002 80 02 00 01 02 01 00 0005 00 04 0006'), 65536))
rewrite('event 255 of a transition that loses its start', chart(1, 1, [(0, 0, [0], [], 255)]), 0, 65536,
        rewritten(0, bytes.fromhex('01 00000014 0001 0000 00 0001 0000 0001 0007 0000 0000 ff 00 00'), 65536))
# Timer 0 is live nowhere; timer 1 is live at location 1 and has number 0 there; the constants stay.
rewrite('constants 65,537 and 4,294,967,295',
        chart(3, 2, [(0, 1, [0, 1], []), (1, 2, [0], [(1, AT_LEAST, 65537), (1, EQUAL, 4294967295)], 7)], version=2), 1, 65536,
        rewritten(1, bytes.fromhex('02 0000002a 0003 0000 01 0001 0002 0002 0008 0000 0001 00 01 00 00'
                                   '0013 0001 0002 07 00 02 00 02 00010001 00 04 ffffffff'), 65536))

# Twins share a number, which a transition starts once.
rewrite('twins with K = 1, room for exactly the file', TWINS, 1, 52, rewritten(1, TWINS_BOARD, 52))
rewrite('twins, one byte too short', TWINS, 1, 51, 'refused 21 65535 changed 0')
rewrite('twins with K = 0', TWINS, 0, 65536, 'refused 20 65535 changed 0')
for name, file, used, board in [
        ('twins with a timer between them', TWINS_AROUND, 2, TWINS_AROUND_BOARD),
        ('a lowest twin that nothing tests', UNTESTED_TWIN, 2, UNTESTED_TWIN_BOARD),
        ('twins live at different locations', TWINS_APART, 1, TWINS_APART_BOARD), ('three twins and two', THREE_TWINS, 2, THREE_TWINS_BOARD),
        ('the first transition starts one of two', FIRST_DIFFERS, 2, FIRST_DIFFERS_BOARD),
        ('twins that need three numbers', TWINS_NEED_THREE, 3, TWINS_NEED_THREE_BOARD), ('62 twins', MANY_TWINS, 4, MANY_TWINS_BOARD)]:
    rewrite('%s, with K = %d' % (name, used), file, used, 65536, rewritten(used, board, 65536))
    rewrite('%s, with K = %d' % (name, used - 1), file, used - 1, 65536, 'refused 20 65535 changed 0')
rewrite('the last transition starts one of two, with K = 1', LAST_DIFFERS, 1, 65536, 'refused 20 65535 changed 0')
rewrite('twins 62 and 63', LAST_TWINS, 64, 65536, rewritten(2, LAST_TWINS_BOARD, 65536))
rewrite('64 timers and no transition', chart(1, 64, []), 0, 65536, rewritten(0, chart(1, 0, []), 65536))

# Transitions of spare locations stay, without tests and starts.
rewrite('S with K = 1, room for exactly the file', S, 1, 65, rewritten(1, S_BOARD, 65))
rewrite('S, one byte too short', S, 1, 64, 'refused 21 65535 changed 0')
rewrite('S with K = 0, and no room: 20 comes before 21', S, 0, 0, 'refused 20 65535 changed 0')
rewrite('S as version 2: 9 comes before 11', S_2, 65, 65536, 'refused 9 4 changed 0')
rewrite('S, rewritten, stays as it is', S_BOARD, 1, 65536, rewritten(1, S_BOARD, 65536))
rewrite('S, a constant of 65,536 on the spare transition', S_LARGE, 1, 65536, rewritten(1, S_BOARD, 65536))
rewrite('a test of a spare transition alone, K = 0, room for exactly the file', SPARE_TEST, 0, 34, rewritten(0, SPARE_TEST_BOARD, 34))
rewrite('a test of a spare transition alone, one byte too short', SPARE_TEST, 0, 33, 'refused 21 65535 changed 0')
for comment, calls, locations, timers, arrows, board, more, _, used, _, _ in SPARE:
    if 'k' in calls:
        file = spare(locations, used, board, **more)
        rewrite(comment, spare(locations, timers, arrows, **more), used, 65536, rewritten(used, file, 65536))
for n in range(4):
    rewrite('three tests of a spare transition, which is transition %d' % n, between(n)[0], 2, 64, rewritten(2, between(n)[1], 64))
rewrite('three tests of a spare transition, one byte too short', between(1)[0], 2, 63, 'refused 21 65535 changed 0')
for n in (2, 4, 6):
    rewrite('8, 0, 2 and 1 tests of spare transitions, the first %d transitions last' % n, packed(n)[0], 3, 65536, rewritten(3, packed(n)[1], 65536))
rewrite('8, 0, 2 and 1 tests of spare transitions, room for exactly the file', packed(0)[0], 3, 171, rewritten(3, packed(0)[1], 171))
rewrite('256 locations, 255 of them spare, K = 0', LARGEST, 0, 65536, 'used 0 length 4626 0700ff00ff000000 next aa')
rewrite('B as version 3, room for exactly the file', B_3, 1, 57, rewritten(1, B_3_BOARD, 57))
rewrite('a spare location, and a test that no path starts: 10 comes before 11', spare(5, 2, UNSTARTED), 65, 0, 'refused 10 3 changed 0')


# counts, then steps (transition, time); or a list of transitions and one of times of its own; `repeat` steps of transition 0 at time 0 come first
def play(comment, file, counts, steps, line, transitions=None, times=None, repeat=0):
    PLAY.append((comment, file, counts, [s[0] for s in steps] if transitions is None else transitions,
                 [s[1] for s in steps] if times is None else times, repeat, [line]))


MOST = 16777215
for name, file, zero, full in [('drawn', B, [0, 0], [MOST, MOST]), ('rewritten', B_BOARD, [0], [MOST]),
                               ('drawn, version 2', B_2, [0, 0], [MOST, MOST]), ('rewritten, version 2', B_2_BOARD, [0], [MOST])]:
    for counts in (zero, full):
        play('B %s: 0, 1, 2 at 5, 7, 8' % name, file, counts, [(0, 5), (1, 7), (2, 8)], 'location 3 time 8 accepting 1')
        play('B %s: 0, 1 at 5, 8' % name, file, counts, [(0, 5), (1, 8)], 'refused 24 1 changed 0')
        play('B %s: 0, 1 at 5, 4' % name, file, counts, [(0, 5), (1, 4)], 'refused 23 1 changed 0')
        play('B %s: 0, 1, 2 at 5, 7, 7' % name, file, counts, [(0, 5), (1, 7), (2, 7)], 'refused 24 2 changed 0')
play('no steps', B, [0, 0], [], 'location 0 time 0 accepting 0')
play('no steps, the initial location accepts', SELF_LOOP, [0], [], 'location 0 time 0 accepting 1')
play('timer 0 too large', B, [MOST + 1, 0], [], 'refused 12 0 changed 0')
play('timer 1 too large', B, [0, MOST + 1], [], 'refused 12 1 changed 0')
play('a count too few', B, [0], [], 'refused 12 65535 changed 0')
play('a count too many, and one too large', B, [MOST + 1, 0, 0], [], 'refused 12 65535 changed 0')
play('lists of unequal length', B, [0, 0], [], 'refused 13 65535 changed 0', transitions=[0, 1], times=[5])
play('12 comes before 13', B, [0], [], 'refused 12 65535 changed 0', transitions=[0], times=[])
play('10 comes before 12', NEVER_STARTED, [], [], 'refused 10 1 changed 0')
play('no such transition', B, [0, 0], [(3, 5)], 'refused 14 0 changed 0')
play('no such transition, however large, and a late time', B, [0, 0], [(4294967295, MOST + 1)], 'refused 14 0 changed 0')
play('too late', B, [0, 0], [(0, MOST + 1)], 'refused 15 0 changed 0')
play('too late comes before a wrong location', B, [0, 0], [(1, MOST + 1)], 'refused 15 0 changed 0')
play('as late as may be', B, [0, 0], [(0, MOST)], 'location 1 time 16777215 accepting 0')
play('a wrong location', B, [0, 0], [(1, 5)], 'refused 22 0 changed 0')
play('a wrong location comes before an early time', B, [0, 0], [(0, 5), (0, 4)], 'refused 22 1 changed 0')
play('an early time comes before a test', B, [0, 0], [(0, 5), (1, 7), (2, 6)], 'refused 23 2 changed 0')
play('later steps are not looked at', B, [0, 0], [(1, 5), (9, 0), (0, MOST + 1)], 'refused 22 0 changed 0')
play('the same time twice', A, [0, 0, 0], [(0, 0), (1, 0)], 'location 2 time 0 accepting 0')
play('A by 2→3: 0 at least 3, 1 below 9, 2 above 2', A, [9, 9, 9], [(0, 1), (1, 2), (2, 4), (4, 5), (6, 7)], 'location 6 time 7 accepting 1')
play('A by 2→4: 1 at most 7, 0 equal 4, 2 above 2', A, [0, 0, 0], [(0, 1), (1, 2), (3, 3), (5, 5), (6, 6)], 'location 6 time 6 accepting 1')
play('A: 0 equal 4 is not met at 5', A, [0, 0, 0], [(0, 1), (1, 2), (3, 3), (5, 6)], 'refused 24 3 changed 0')
play('70,000 steps, then one that names no transition', SELF_LOOP, [0], [(0, 0), (1, 0)], 'refused 14 70000 changed 0', repeat=70000)

# Constants over 65,535 are compared as they are
play('B, first byte 2', B_RELABELLED, [0, 0], [(0, 5), (1, 7), (2, 8)], 'refused 3 65535 changed 0')
play('at least 65,537, after 65,536 ticks', dwell((AT_LEAST, 65537)), [0], [(0, 10), (1, 65546)], 'refused 24 1 changed 0')
play('at least 65,537, after 65,537 ticks', dwell((AT_LEAST, 65537)), [0], [(0, 10), (1, 65547)], 'location 2 time 65547 accepting 1')
for constant in (33554431, 2147483648, 4294967295):
    play('at least %d is never met' % constant, dwell((AT_LEAST, constant)), [MOST], [(0, 0), (1, MOST)], 'refused 24 1 changed 0')
    play('at most %d is always met' % constant, dwell((AT_MOST, constant)), [MOST], [(0, 0), (1, MOST)], 'location 2 time 16777215 accepting 1')
play('equal 0, after 65,536 ticks', dwell((EQUAL, 0)), [0], [(0, 0), (1, 65536)], 'refused 24 1 changed 0')
play('equal 0, after none', dwell((EQUAL, 0)), [0], [(0, 0), (1, 0)], 'location 2 time 0 accepting 1')
AROUND_65536 = dwell((AT_MOST, 65536), (BELOW, 65536), (AT_LEAST, 65536), (ABOVE, 65536), (EQUAL, 65536))
for ticks, met in (0, (1, 2)), (65535, (1, 2)), (65536, (1, 3, 5)), (65537, (3, 4)):
    for r in range(1, 6):
        play('transition %d of five around 65,536, after %d ticks' % (r, ticks), AROUND_65536, [0], [(0, 0), (r, ticks)],
             'location 2 time %d accepting 1' % ticks if r in met else 'refused 24 1 changed 0')

# Twins read through their number. Timers 1, 3 and 4 start at 1, 2 and 5 at 4, all at 6; the last tests: 2 at most 8, 4 equal 7.
for name, file, counts in ('drawn', TWINS, [MOST, 0]), ('rewritten', TWINS_BOARD, [MOST]):
    play('twins %s: 1 at most 9, after 9 ticks' % name, file, counts, [(0, 5), (1, 7), (2, 14)], 'location 3 time 14 accepting 1')
    play('twins %s: 1 at most 9, after 10 ticks' % name, file, counts, [(0, 5), (1, 7), (2, 15)], 'refused 24 2 changed 0')
for name, file, counts in ('drawn', THREE_TWINS, [0] * 6), ('rewritten', THREE_TWINS_BOARD, [MOST, MOST]):
    play('three twins and two %s: 4 equal 7, after 7 ticks' % name, file, counts, [(0, 1), (1, 4), (2, 6), (3, 8), (4, 13)],
         'location 4 time 13 accepting 1')
    play('three twins and two %s: 4 equal 7, after 8 ticks' % name, file, counts, [(0, 1), (1, 4), (2, 6), (3, 8), (4, 14)], 'refused 24 4 changed 0')

# Spare locations: no step leaves them
for name, file, counts in ('drawn', S, [MOST, 0]), ('rewritten', S_BOARD, [MOST]):
    play('S %s: 1 at most 9, after 9 ticks' % name, file, counts, [(0, 5), (1, 7), (2, 14)], 'location 3 time 14 accepting 1')
    play('S %s: the spare transition first' % name, file, counts, [(3, 0)], 'refused 22 0 changed 0')
    play('S %s: the spare transition at its target, and an early time: 22 comes before 23' % name, file, counts, [(0, 5), (3, 4)],
         'refused 22 1 changed 0')
play('S: the spare transition at the end', S, [0, 0], [(0, 5), (1, 7), (2, 8), (3, 8), (9, 8)], 'refused 22 3 changed 0')
play('S as version 2: 9 comes before 12', S_2, [], [(0, 5)], 'refused 9 4 changed 0')
for name, file, counts in ('drawn', SPARE_TEST, [0]), ('rewritten', SPARE_TEST_BOARD, []):
    play('a test of a spare transition alone, %s: the spare transition' % name, file, counts, [(0, 3), (1, 3)], 'refused 22 1 changed 0')
play('only a spare location accepts', SPARE_CYCLE, [0], [(0, 0), (1, 5), (4, 6)], 'location 3 time 6 accepting 0')
for name, file, counts in ('drawn', packed(0)[0], [MOST] * 5), ('rewritten', packed(0)[1], [0] * 3):
    play('8, 0, 2 and 1 tests of spare transitions, %s: tests at 11, 22, 25 and 27' % name, file, counts,
         [(3, 0), (1, 11), (5, 22), (1, 25), (7, 27)], 'location 3 time 27 accepting 1')
