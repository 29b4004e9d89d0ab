"""Chart files for the tests of bin/chart: a small encoder of its own, put down from document 01 and from document 02, P2 and P7, and the charts that
the cases of tests/expected name."""
AT_MOST, BELOW, AT_LEAST, ABOVE, EQUAL = range(5)


def two(number):
    return number.to_bytes(2, 'big')


def enclosed(version, body):
    """The file of that version with this body."""
    return bytes([version]) + len(body).to_bytes(4, 'big') + body


def transition(width, source, target, starts=(), tests=(), event=0):
    record = two(source) + two(target) + bytes([event, len(starts), *starts, len(tests)])
    record += b''.join(bytes([timer, code]) + constant.to_bytes(width, 'big') for timer, code, constant in tests)
    return two(len(record)) + record


def chart(locations, timers, *transitions, version=1, initial=0, accepting=None):
    """A chart file. Each transition is source, target, starts, tests, event, of which the last three may be left out; a test is timer, code and
    constant. The last location accepts, unless others are named."""
    accepting = [locations - 1] if accepting is None else accepting
    width = 2 if version == 1 else 4
    body = two(locations) + two(initial) + bytes([timers]) + two(len(accepting)) + b''.join(map(two, accepting))
    return enclosed(version, body + two(len(transitions)) + b''.join(transition(width, *given) for given in transitions))


def alternating(count):
    """So many transitions one after the other from location 1 on, where timer 0 is started: each tests the one of timers 0 and 1 that the one before
    it has started, and starts the other. That is a family each, and none meets another."""
    return [(1 + i, 2 + i, [(i + 1) % 2], [(i % 2, AT_LEAST, 0)]) for i in range(count)]


TWINS = ((0, 1, [0, 1]), (1, 2, [], [(0, AT_LEAST, 2)]), (2, 3, [], [(1, AT_MOST, 9)]))

CHARTS = {
    # twins 0 and 1, which 0→1 starts together
    'twins': chart(4, 2, *TWINS),
    # the same beside location 4, which nothing reaches
    'spare': chart(5, 2, *TWINS, (4, 1, [0], [(1, AT_MOST, 5)]), version=3, accepting=[3]),
    # 21 families
    'seen': chart(23, 2, (0, 1, [0]), *alternating(21)),
    # first fit takes 3 timers where 2 would do
    'over_floor': chart(5, 3, (0, 3, [0, 1]), (3, 1, [], [(0, AT_MOST, 3)]), (3, 4, [2]), (4, 2, [0], [(1, AT_MOST, 5)]),
                        (2, 1, [], [(0, AT_MOST, 3), (2, AT_MOST, 9)])),
    # timers of two digits, all of which are live at location 12
    'wide': chart(15, 12, *[(j, j + 1, [j]) for j in range(12)], (12, 13, [], [(j, AT_LEAST, 1) for j in range(8)]),
                  (13, 14, [], [(j, AT_LEAST, 1) for j in range(8, 12)])),
    # twins 0 and 2, of which 0 is tested nowhere, and yet names their family
    'lowest_untested': chart(4, 3, (0, 2, [0, 2]), (2, 1, [1]), (1, 3, [], [(1, AT_MOST, 4), (2, AT_MOST, 4)])),
    # events, large constants, equal tests and equal transitions
    'events': chart(4, 3, (2, 0, [0, 2], [], 7), (0, 1, [], [(0, AT_LEAST, 3), (2, BELOW, 4294967295)], 255),
                    (0, 3, [0, 1, 2], [(2, EQUAL, 70000), (2, EQUAL, 70000), (0, ABOVE, 0)], 7), (1, 1, [], [], 1), (1, 1, [], [], 1),
                    (3, 2, [], [(0, AT_MOST, 0)]), version=2, initial=2, accepting=[1, 3]),
    # transitions from a location to itself, and locations 0 and 2 that nothing reaches and that lead to each other
    'loops': chart(4, 2, (1, 3, [0], [], 9), (3, 3, [], [(0, AT_LEAST, 1)]), (3, 3, [0], [(0, ABOVE, 4)], 9), (2, 0, [], [(1, EQUAL, 5)]),
                   (0, 2, [0, 1]), version=3, initial=1, accepting=[0, 3]),
    # 0→1→2 starts timer 1 nowhere, 0→2 does
    'unstarted': chart(4, 2, (0, 1, [0]), (0, 2, [1]), (1, 2), (2, 3, [], [(1, AT_LEAST, 1)])),
    # nothing leads to location 1
    'unreached': chart(2, 0),
    # several tests on one transition, of which one is met
    'several': chart(3, 3, (0, 1, [0, 1, 2]), (1, 2, [], [(0, AT_MOST, 2), (1, EQUAL, 9), (2, BELOW, 0), (1, AT_LEAST, 5), (0, ABOVE, 5)])),
    # a constant that the counter board does not hold
    'dwell': chart(3, 1, (0, 1, [0]), (1, 2, [], [(0, AT_MOST, 65536)]), version=2),
    # one byte fewer than the length in it
    'cut': bytes.fromhex('01 00000009 0001 0000 00 0000 00'),
}

# the largest file that there is: all transitions leave a location that nothing reaches
LARGEST = chart(256, 64, *[(255, 254, range(64), [(63, EQUAL, 4294967295)] * 8, 255)] * 512, version=3, accepting=range(256))

# the rewritten files of B for 16 timers, of C for 2 and of the chart with twins for 1; that of A for 3 is A
REWRITTEN = {
    'b': bytes.fromhex('01 00000030 0004 0000 01 0001 0003 0003 0008 0000 0001 00 01 00 00 000c 0001 0002 00 01 00 01 00 00 0002'
                       '000b 0002 0003 00 00 01 00 02 0001'),
    'c': bytes.fromhex('01 00000047 0006 0000 02 0001 0005 0005 0008 0000 0001 00 01 00 00 0008 0001 0002 00 01 01 00'
                       '000b 0002 0003 00 00 01 01 02 0001 000c 0003 0004 00 01 00 01 00 00 0009 000b 0004 0005 00 00 01 00 02 0002'),
    'twins': chart(4, 1, (0, 1, [0]), (1, 2, [], [(0, AT_LEAST, 2)]), (2, 3, [], [(0, AT_MOST, 9)])),
}
