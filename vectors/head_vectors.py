"""Vectors for the controller of several heads. The expected lines are written from document 02, P4, not taken from a run.

`vectors/make` turns them into input and expected output of crates/vectors. Each vector is a list of calls, each on the state that the one before left,
with a line for each:
  set-up      set up STATE
  an event    received STATE
  a turn      head H nothing STATE, head H none STATE or head H transition I STATE
  a refusal   refused N P changed C                          (C: numbers of the state that are not as they were)
STATE is: turn T heads, the location, time, waiting, event and waiting time of each head, counts, those of the board's K timers, beyond C (numbers of
other heads and counts that are not as they were).
Unless a state is given, every number of it holds bytes 170 before the first call.
"""
from call_vectors import ARROWS_OF_S, AT_LEAST, BELOW, B, B_2, B_BOARD, MOST, NEVER_STARTED, S, S_2, S_BOARD, SELF_LOOP, chart, spare

HEADS = []
SET_UP, TURN = (0, 0, 0, 0), (2, 0, 0, 0)
LARGEST = 2 ** 64 - 1
FILLED = int.from_bytes(bytes([170] * 8), 'big')
FILLED_COUNT = int.from_bytes(bytes([170] * 4), 'big')


def event(head, byte, time):
    return 1, head, byte, time


def drive(comment, heads, k, calls, lines, state=None, number=None, lengths=None, parts=None):
    """A head: file, block, starting counts. `number`, `lengths` (of the files) and `parts` (of the counts) in place of the heads' own."""
    assert len(calls) == len(lines)
    eight = lambda values: (values + [0] * 8)[:8]
    files = b''.join(file for file, _, _ in heads)
    counts = [v for _, _, own in heads for v in own]
    values = [k, len(heads) if number is None else number] + eight([len(file) for file, _, _ in heads] if lengths is None else lengths)
    values += eight([block for _, block, _ in heads]) + eight([len(own) for _, _, own in heads] if parts is None else parts)
    HEADS.append((comment, values, files, counts, calls, [FILLED] * 41 + [FILLED_COUNT] * 64 if state is None else state, lines))


def state(turn, heads, counts, spare=0):
    """The numbers of a state; heads as for `on`; every number that is not given is `spare`."""
    own = [number for head in heads for number in (list(head) + [0, 0, 0])[:5]]
    return [turn] + own + [spare] * (40 - len(own)) + counts + [spare] * (64 - len(counts))


def on(answer, turn, heads, counts, beyond=0):
    """A line. A head: location and time, and if an event waits (or those numbers are not 0) the other three numbers."""
    words = [answer, 'turn', turn, 'heads'] + [number for head in heads for number in (list(head) + [0, 0, 0])[:5]]
    return ' '.join(str(word) for word in words + ['counts'] + counts + ['beyond', beyond])


def refused(number, place=65535):
    return 'refused %d %d changed 0' % (number, place)


TWO_B = [(B, 2, [7, 7]), (B, 2, [0, 0])]
# Set-up writes every number of a state: 6 heads of 5 numbers and 60 counts beyond those that are shown
BEYOND = 6 * 5 + 60
drive('B twice: an event takes transition 0, which starts timer 0; the other head stays; a second event is refused while one waits',
      TWO_B, 4, [SET_UP, event(0, 0, 5), event(0, 0, 6), TURN, TURN],
      [on('set up', 0, [(0, 0), (0, 0)], [7, 7, 0, 0], BEYOND),
       on('received', 0, [(0, 0, 1, 0, 5), (0, 0)], [7, 7, 0, 0]),
       refused(26),
       on('head 0 transition 0', 1, [(1, 5), (0, 0)], [0, 12, 0, 0]),
       on('head 1 nothing', 0, [(1, 5), (0, 0)], [0, 12, 0, 0])])
drive('26 before 15; 23; none taken at 8, and at 8 again: time and counts move on, the location stays',
      TWO_B, 4, [SET_UP, event(0, 0, 5), TURN, TURN, event(0, 0, 4), event(2, 0, MOST + 1), event(0, 0, MOST + 1), event(0, 0, 8), TURN,
                 event(0, 0, 8), TURN, TURN],
      [on('set up', 0, [(0, 0), (0, 0)], [7, 7, 0, 0], BEYOND),
       on('received', 0, [(0, 0, 1, 0, 5), (0, 0)], [7, 7, 0, 0]),
       on('head 0 transition 0', 1, [(1, 5), (0, 0)], [0, 12, 0, 0]),
       on('head 1 nothing', 0, [(1, 5), (0, 0)], [0, 12, 0, 0]),
       refused(23), refused(26), refused(15),
       on('received', 0, [(1, 5, 1, 0, 8), (0, 0)], [0, 12, 0, 0]),
       on('head 0 none', 1, [(1, 8), (0, 0)], [3, 15, 0, 0]),
       on('received', 1, [(1, 8, 1, 0, 8), (0, 0)], [3, 15, 0, 0]),
       on('head 1 nothing', 0, [(1, 8, 1, 0, 8), (0, 0)], [3, 15, 0, 0]),
       on('head 0 none', 1, [(1, 8), (0, 0)], [3, 15, 0, 0])])
drive('B, B as version 2 and B rewritten for a board run apart: each has its own time; spare timers stay 0',
      [(B, 3, [1, 2]), (B_2, 2, [3, 4]), (B_BOARD, 2, [5])], 8,
      [SET_UP, event(2, 0, MOST), event(0, 0, 5), event(1, 0, 0), TURN, event(0, 0, 7), TURN, TURN, TURN],
      [on('set up', 0, [(0, 0)] * 3, [1, 2, 0, 3, 4, 5, 0, 0], 5 * 5 + 56),
       on('received', 0, [(0, 0), (0, 0), (0, 0, 1, 0, MOST)], [1, 2, 0, 3, 4, 5, 0, 0]),
       on('received', 0, [(0, 0, 1, 0, 5), (0, 0), (0, 0, 1, 0, MOST)], [1, 2, 0, 3, 4, 5, 0, 0]),
       on('received', 0, [(0, 0, 1, 0, 5), (0, 0, 1, 0, 0), (0, 0, 1, 0, MOST)], [1, 2, 0, 3, 4, 5, 0, 0]),
       on('head 0 transition 0', 1, [(1, 5), (0, 0, 1, 0, 0), (0, 0, 1, 0, MOST)], [0, 7, 0, 3, 4, 5, 0, 0]),
       on('received', 1, [(1, 5, 1, 0, 7), (0, 0, 1, 0, 0), (0, 0, 1, 0, MOST)], [0, 7, 0, 3, 4, 5, 0, 0]),
       on('head 1 transition 0', 2, [(1, 5, 1, 0, 7), (1, 0), (0, 0, 1, 0, MOST)], [0, 7, 0, 0, 4, 5, 0, 0]),
       on('head 2 transition 0', 0, [(1, 5, 1, 0, 7), (1, 0), (1, MOST)], [0, 7, 0, 0, 4, 0, 0, 0]),
       on('head 0 transition 1', 1, [(2, 7), (1, 0), (1, MOST)], [2, 0, 0, 0, 4, 0, 0, 0])])

# At location 1 three transitions leave at event 0: timer 0 below 3, at least 2, and one without a test; one leaves at event 255
CHOICE = chart(3, 1, [(0, 1, [0], []), (1, 2, [], [(0, BELOW, 3)]), (1, 0, [], [(0, AT_LEAST, 2)]), (1, 1, [0], []), (1, 0, [], [], 255)])
for time, byte, taken, left, count in (12, 0, 1, 2, 2), (13, 0, 2, 0, 3), (12, 255, 4, 0, 2):
    drive('the lowest of those that can be taken, event %d at %d' % (byte, time), [(CHOICE, 1, [0])], 1,
          [SET_UP, event(0, 0, 10), TURN, event(0, byte, time), TURN],
          [on('set up', 0, [(0, 0)], [0], 7 * 5 + 63), on('received', 0, [(0, 0, 1, 0, 10)], [0]), on('head 0 transition 0', 0, [(1, 10)], [0]),
           on('received', 0, [(1, 10, 1, byte, time)], [0]), on('head 0 transition %d' % taken, 0, [(left, time)], [count])])
drive('an event that no transition has', [(CHOICE, 1, [4])], 1, [SET_UP, event(0, 1, 6), TURN],
      [on('set up', 0, [(0, 0)], [4], 7 * 5 + 63), on('received', 0, [(0, 0, 1, 1, 6)], [4]), on('head 0 none', 0, [(0, 6)], [10])])
for n in 1, 3, 8:
    after = [on('head %d nothing' % (i % n), (i + 1) % n, [(0, 0)] * n, [0] * n) for i in range(9)]
    drive('turns go round %d heads' % n, [(SELF_LOOP, 1, [0])] * n, n, [SET_UP] + [TURN] * 9,
          [on('set up', 0, [(0, 0)] * n, [0] * n, (8 - n) * 5 + 64 - n)] + after)
drive('eight heads wait, each is served at its turn',
      [(SELF_LOOP, 1, [h]) for h in range(8)], 8, [SET_UP] + [event(h, 0, 1) for h in range(8)] + [TURN] * 8,
      [on('set up', 0, [(0, 0)] * 8, list(range(8)), 56)]
      + [on('received', 0, [(0, 0, 1, 0, 1)] * (h + 1) + [(0, 0)] * (7 - h), list(range(8))) for h in range(8)]
      + [on('head %d transition 0' % h, (h + 1) % 8, [(0, 1)] * (h + 1) + [(0, 0, 1, 0, 1)] * (7 - h), [0] * (h + 1) + list(range(h + 1, 8)))
         for h in range(8)])

# ---- set-up's refusals, in their order
for comment, heads, k, line, more in [
        ('no head, and K too large', [], 65, refused(25), {}),
        ('nine heads', TWO_B, 65, refused(25), {'number': 9}),
        ('as many heads as a number can say', TWO_B, 65, refused(25), {'number': LARGEST}),
        ('2 to the 32nd heads and one', TWO_B, 4, refused(25), {'number': 2 ** 32 + 1}),
        ('the second file is empty, and K too large', [(B, 2, [7, 7]), (b'', 2, [])], 65, refused(1), {}),
        ('the second file is cut at the end of all', [(B, 2, [7, 7]), (B[:-1], 2, [0, 0])], 65, refused(1), {'lengths': [len(B), len(B)]}),
        ('a first length beyond the end takes all files', TWO_B, 65, refused(1), {'lengths': [LARGEST, len(B)]}),
        ('the first chart that is refused counts', [(NEVER_STARTED, 2, []), (b'', 2, [])], 65, refused(10, 1), {}),
        ('K too large, and too few counts', [(B, 2, [7])], 65, refused(11), {}),
        ('too few counts, and blocks too short', [(B, 1, [7]), (B, 1, [0, 0])], 4, refused(12), {}),
        ('a count too large of the second head, and blocks too long', [(B, 2, [0, 0]), (B, 2, [0, MOST + 1])], 3, refused(12, 1), {}),
        ('blocks too long together', TWO_B, 3, refused(25), {}),
        ('a first part beyond the end takes all counts', TWO_B, 4, refused(12), {'parts': [LARGEST, 2]}),
        ('a block too short', [(B, 1, [0, 0]), (B, 2, [0, 0])], 4, refused(25), {}),
        ('a block of 2 to the 32nd and two', [(B, 2 ** 32 + 2, [0, 0])], 4, refused(25), {}),
        ('blocks whose sum goes round', [(B, LARGEST, [0, 0]), (B, 5, [0, 0])], 4, refused(25), {})]:
    drive('set-up: ' + comment, heads, k, [SET_UP], [line], **more)
drive('set-up: counts and blocks as large as may be', [(B, 2, [MOST, MOST]), (SELF_LOOP, 62, [MOST])], 64, [SET_UP],
      [on('set up', 0, [(0, 0), (0, 0)], [MOST] * 3 + [0] * 61, 6 * 5)])
drive('set-up: a length beyond the end of all files means the rest of them', TWO_B, 4, [SET_UP],
      [on('set up', 0, [(0, 0), (0, 0)], [7, 7, 0, 0], BEYOND)], lengths=[len(B), LARGEST])
drive('set-up: a part beyond the end of all counts means the rest of them, and counts behind the last part are not looked at',
      [(B, 2, [7, 7]), (B, 2, [0, 0, MOST + 1])], 4, [SET_UP], [on('set up', 0, [(0, 0), (0, 0)], [7, 7, 0, 0], BEYOND)], parts=[2, 2])
drive('set-up: a last part as long as a number can say', TWO_B, 4, [SET_UP],
      [on('set up', 0, [(0, 0), (0, 0)], [7, 7, 0, 0], BEYOND)], parts=[2, LARGEST])
drive('set-up: a board without timers', [(chart(1, 0, []), 0, [])], 0, [SET_UP, TURN],
      [on('set up', 0, [(0, 0)], [], 7 * 5 + 64), on('head 0 nothing', 0, [(0, 0)], [])])
drive('set-up of a controller in use', TWO_B, 4, [SET_UP, event(0, 0, 5), TURN, event(1, 0, 3), SET_UP],
      [on('set up', 0, [(0, 0), (0, 0)], [7, 7, 0, 0], BEYOND), on('received', 0, [(0, 0, 1, 0, 5), (0, 0)], [7, 7, 0, 0]),
       on('head 0 transition 0', 1, [(1, 5), (0, 0)], [0, 12, 0, 0]), on('received', 1, [(1, 5), (0, 0, 1, 0, 3)], [0, 12, 0, 0]),
       on('set up', 0, [(0, 0), (0, 0)], [7, 7, 0, 0])])
drive('set-up: a chart without timers needs no block, and bytes behind the last file are not looked at',
      [(chart(1, 0, []), 0, []), (B + b'rest', 2, [1, 2])], 2, [SET_UP], [on('set up', 0, [(0, 0), (0, 0)], [1, 2], 6 * 5 + 62)],
      lengths=[len(chart(1, 0, [])), len(B)])

# ---- states that nobody set up: numbers that no head has may hold anything, and stay
SOUND = [(3, 5), (0, MOST, 0, 9, 4)]


def handed_in(comment, turn, heads, counts, call, line, given=TWO_B, k=4, number=None):
    drive('state: ' + comment, given, k, [call], [line], state=state(turn, heads, counts, spare=4000000000), number=number)


handed_in('the number of heads before all else', 9, SOUND, [0] * 4, TURN, refused(25), [(b'', 1, [])], k=65, number=9)
handed_in('no head at all', 9, SOUND, [0] * 4, event(0, 0, 0), refused(25), number=0)
handed_in('K before the blocks', 9, SOUND, [0] * 4, event(0, 0, 0), refused(11), [(B, 1, []), (B, 2, [])], k=65)
handed_in('a refused set-up leaves it', 9, SOUND, [1, 2, 3, 4], SET_UP, refused(12), [(B, 2, [7, 7]), (B, 2, [0])])
handed_in('blocks before the state', 9, SOUND, [0] * 4, TURN, refused(25), [(B, 1, []), (B, 2, [])])
handed_in('a chart before the state', 9, SOUND, [0] * 4, TURN, refused(10, 1), [(B, 2, []), (NEVER_STARTED, 2, [])])
handed_in('no such turn', 2, SOUND, [0] * 4, TURN, refused(32))
handed_in('no such turn, before 26', 2, SOUND, [0] * 4, event(2, 0, 0), refused(32))
handed_in('no such turn, however large', LARGEST, SOUND, [0] * 4, TURN, refused(32))
handed_in('no such location, of a head whose turn it is not', 0, [(3, 5), (4, 5)], [0] * 4, TURN, refused(32))
handed_in('no such location, however large', 0, [(2 ** 32, 5), (0, 5)], [0] * 4, TURN, refused(32))
handed_in('a time too large', 0, [(3, 5), (0, MOST + 1)], [0] * 4, TURN, refused(32))
handed_in('a waiting time too large', 0, [(3, 5), (0, MOST, 1, 0, MOST + 1)], [0] * 4, TURN, refused(32))
handed_in('a waiting time before the head\'s', 0, [(3, 5), (0, 6, LARGEST, 0, 5)], [0] * 4, event(0, 0, 5), refused(32))
handed_in('a count too large', 0, [(3, 5), (0, 6)], [0, 0, 0, MOST + 7], TURN, refused(32))
handed_in('a count too large, the largest', 0, [(3, 5), (0, 6)], [0, 2 ** 32 - 1, 0, 0], TURN, refused(32))
handed_in('counts as large as may be; a time that no event waits for is not looked at', 0, SOUND, [0, MOST + 5, 0, 2 * MOST], TURN,
          on('head 0 nothing', 1, SOUND, [0, MOST + 5, 0, 2 * MOST]))
handed_in('the largest counts grow no further', 1, [(3, 5), (0, 0, 7, 0, MOST)], [0, 0, MOST, MOST], TURN,
          on('head 1 transition 0', 0, [(3, 5), (1, MOST)], [0, 0, 0, 2 * MOST]))
handed_in('any number but 0 waits', 1, [(3, 5), (0, 6, LARGEST, 0, 6)], [1, 2, 3, 4], TURN,
          on('head 1 transition 0', 0, [(3, 5), (1, 6)], [1, 2, 0, 4]))
handed_in('an event over 255 is no transition\'s', 1, [(3, 5), (0, 6, 1, 256, 8)], [1, 2, 3, 4], TURN,
          on('head 1 none', 0, [(3, 5), (0, 8)], [1, 2, 5, 6]))
handed_in('an event at the head\'s time', 1, [(3, 5), (0, 6)], [1, 2, 3, 4], event(0, 255, 5),
          on('received', 1, [(3, 5, 1, 255, 5), (0, 6)], [1, 2, 3, 4]))
handed_in('an event for a head that waits', 1, [(3, 5), (0, 6, 9, 0, 6)], [1, 2, 3, 4], event(1, 0, MOST + 1), refused(26))
handed_in('no such head, however large', 1, [(3, 5), (0, 6)], [1, 2, 3, 4], event(2 ** 32 - 1, 0, 0), refused(26))
handed_in('the latest time of all', 1, [(3, 5), (0, 6)], [1, 2, 3, 4], event(1, 0, LARGEST), refused(15))
handed_in('an event before its head\'s time', 1, [(3, 5), (0, 6)], [1, 2, 3, 4], event(1, 0, 5), refused(23))

# ---- spare locations (document 02, P7)
S_LAST_FIRST = spare(5, 2, [ARROWS_OF_S[3]] + ARROWS_OF_S[:3], accepting=[3])
drive('S with the transition of location 4 first, and S rewritten: that one, with the same event, is never taken',
      [(S_LAST_FIRST, 2, [7, 7]), (S_BOARD, 2, [9])], 4, [SET_UP, event(0, 0, 5), TURN, event(1, 0, 3), TURN, event(0, 0, 7), TURN],
      [on('set up', 0, [(0, 0), (0, 0)], [7, 7, 9, 0], BEYOND),
       on('received', 0, [(0, 0, 1, 0, 5), (0, 0)], [7, 7, 9, 0]),
       on('head 0 transition 1', 1, [(1, 5), (0, 0)], [0, 0, 9, 0]),
       on('received', 1, [(1, 5), (0, 0, 1, 0, 3)], [0, 0, 9, 0]),
       on('head 1 transition 0', 0, [(1, 5), (1, 3)], [0, 0, 0, 0]),
       on('received', 0, [(1, 5, 1, 0, 7), (1, 3)], [0, 0, 0, 0]),
       on('head 0 transition 2', 1, [(2, 7), (1, 3)], [2, 2, 0, 0])])
drive('set-up: S as version 2, and K too large', [(S, 2, [0, 0]), (S_2, 2, [])], 65, [SET_UP], [refused(9, 4)])
# A spare location is a location of the chart: no 32. Its transition is taken as any other, here by S, with 1 at most 5, and by S rewritten, which has
# no test and no start there.
drive('state: a spare location', [(S, 2, []), (S_BOARD, 2, [])], 4, [TURN, TURN],
      [on('head 0 transition 3', 1, [(1, 8), (4, 5, 1, 0, 9)], [0, 5, 50, 0]), on('head 1 transition 3', 0, [(1, 8), (1, 9)], [0, 5, 54, 0])],
      state=state(0, [(4, 6, 1, 0, 8), (4, 5, 1, 0, 9)], [1, 3, 50, 0], spare=4000000000))
