"""Vectors for the reader and the writer of chart files. The expected lines are written from documents 01 and 02, not taken from a run.

Each read vector: a comment, the nine lists' lengths (or LARGEST), the file's bytes, the expected lines. Each write vector: a comment, the header,
the nine lists, the room, the expected lines. Each count vector: a comment, three positions, what stands at the front of the nine lists, the expected
lines. `vectors/make` turns them into input and expected output of crates/vectors.

What the program prints:
  a refusal:  refused N P changed C        C: entries of lent lists, or bytes of the lent buffer, that are not as they were
  a count:    changed C                    the same count of given lists: of accepting locations, of transitions, of tests, each from its position on
  a chart:    version V locations L initial Q timers T accepting N E E .. transitions M beyond C
              S>T event E starts W tests G J:C:K ..     for transitions 0 to 3 and the last one (of accepting locations likewise 0 to 3 and the last)
              written LEN HEX next HH                   the same chart written again: the bytes (the last 8 if over 64), and the byte after them
Lent lists and buffers are filled with bytes 170 (hex aa) before each call.
"""
from call_vectors import B, B_2


def h(text):
    return bytes.fromhex(text.replace(' ', ''))


def framed(body, version=1, length=None):
    n = len(body) if length is None else length
    return bytes([version]) + n.to_bytes(4, 'big') + body


LARGEST = [256, 512, 512, 512, 512, 512, 4096, 4096, 4096]
READ = []
WRITE = []
COUNT = []


def read(comment, data, lines, room=LARGEST):
    READ.append((comment, room, data, lines if isinstance(lines, list) else [lines]))


def written(data):
    tail = data.hex() if len(data) <= 64 else data[-8:].hex()
    return 'written %d %s next aa' % (len(data), tail)


# ---- 1 and 2: the frame
SMALL = h('01 00000009 0001 0000 00 0000 0000')
read('a chart of one location, nothing else', SMALL,
     ['version 1 locations 1 initial 0 timers 0 accepting 0 transitions 0 beyond 0', 'written 14 0100000009000100000000000000 next aa'])
read('one byte fewer', SMALL[:-1], 'refused 1 65535 changed 0')
read('one byte more, the length as it was', SMALL + h('00'), 'refused 1 65535 changed 0')
read('no byte at all', b'', 'refused 1 65535 changed 0')
read('four bytes', h('01 000000'), 'refused 1 65535 changed 0')
read('five bytes: the locations are cut', h('01 00000000'), 'refused 3 65535 changed 0')
read('the same as version 2', h('02 00000009 0001 0000 00 0000 0000'),
     ['version 2 locations 1 initial 0 timers 0 accepting 0 transitions 0 beyond 0', 'written 14 0200000009000100000000000000 next aa'])
read('the same as version 3', h('03 00000009 0001 0000 00 0000 0000'),
     ['version 3 locations 1 initial 0 timers 0 accepting 0 transitions 0 beyond 0', 'written 14 0300000009000100000000000000 next aa'])
for version in (0, 4, 255):
    read('version %d' % version, framed(SMALL[5:], version), 'refused 2 65535 changed 0')
read('version 4 with a wrong length: the length is judged first', h('04 00000008 0001 0000 00 0000 0000'), 'refused 1 65535 changed 0')
read('version 4, four bytes', h('04 000000'), 'refused 1 65535 changed 0')
read('version 4, five bytes: the version comes before the locations', h('04 00000000'), 'refused 2 65535 changed 0')
for version in (2, 3):
    read('version %d with a wrong length' % version, framed(SMALL[5:], version, 8), 'refused 1 65535 changed 0')
    read('version %d, five bytes' % version, framed(b'', version), 'refused 3 65535 changed 0')
read('the length is right in its low bytes only', h('01 01000009 0001 0000 00 0000 0000'), 'refused 1 65535 changed 0')
read('the length counts the frame too', h('01 0000000e 0001 0000 00 0000 0000'), 'refused 1 65535 changed 0')

# ---- 3: cut in each field. Two locations, one timer, location 1 accepts, 0→1 starts 0 and tests 0 at least 3
HEAD = h('0002 0000 01 0001 0001 0001')
RECORD = h('000c 0000 0001 00 01 00 01 00 02 0003')
FULL = HEAD + RECORD
read('the whole', framed(FULL),
     ['version 1 locations 2 initial 0 timers 1 accepting 1 1 transitions 1 beyond 0',
      '0>1 event 0 starts 1 tests 1 0:2:3',
      'written 30 010000001900020000010001000100' + '01000c0000000100010001000200' + '03 next aa'])
for cut in range(len(FULL)):
    read('cut after %d bytes of the body' % cut, framed(FULL[:cut]), 'refused 3 65535 changed 0')
read('a byte remains', framed(FULL + h('00')), 'refused 3 65535 changed 0')
read('a record length one too large', framed(HEAD + h('000d') + RECORD[2:]), 'refused 3 65535 changed 0')
read('a record length one too small', framed(HEAD + h('000b') + RECORD[2:]), 'refused 3 65535 changed 0')
read('a record length right in its low byte only', framed(HEAD + h('010c') + RECORD[2:]), 'refused 3 65535 changed 0')
read('a code over 4 before a byte that remains', framed(HEAD + h('000c 0000 0001 00 01 00 01 00 05 0003') + h('00')), 'refused 8 0 changed 0')

# ---- 4: limits
read('no location', framed(h('0000 0000 00 0000 0000')), 'refused 4 65535 changed 0')
read('256 locations', framed(h('0100 00ff 00 0000 0000')),
     ['version 1 locations 256 initial 255 timers 0 accepting 0 transitions 0 beyond 0', 'written 14 0100000009010000ff0000000000 next aa'])
read('257 locations', framed(h('0101 0000 00 0000 0000')), 'refused 4 65535 changed 0')
read('64 timers', framed(h('0001 0000 40 0000 0000')),
     ['version 1 locations 1 initial 0 timers 64 accepting 0 transitions 0 beyond 0', 'written 14 0100000009000100004000000000 next aa'])
read('65 timers', framed(h('0001 0000 41 0000 0000')), 'refused 4 65535 changed 0')
EMPTY_RECORD = h('0007 0000 0000 00 00 00')
read('512 transitions', framed(h('0001 0000 00 0000 0200') + EMPTY_RECORD * 512),
     ['version 1 locations 1 initial 0 timers 0 accepting 0 transitions 512 beyond 0'] + ['0>0 event 0 starts 0 tests 0'] * 5
     + ['written 4622 0700000000000000 next aa'])
read('513 transitions, refused at their count', framed(h('0001 0000 00 0000 0201') + EMPTY_RECORD * 513), 'refused 4 65535 changed 0')
read('513 transitions, none of them there', framed(h('0001 0000 00 0000 0201')), 'refused 4 65535 changed 0')
ALL_STARTS = bytes(range(64))
read('64 starts', framed(h('0001 0000 40 0000 0001 0047 0000 0000 00 40') + ALL_STARTS + h('00')),
     ['version 1 locations 1 initial 0 timers 64 accepting 0 transitions 1 beyond 0', '0>0 event 0 starts 18446744073709551615 tests 0',
      'written 87 393a3b3c3d3e3f00 next aa'])
read('65 starts, at transition 1', framed(h('0001 0000 40 0000 0002') + EMPTY_RECORD + h('0048 0000 0000 00 41') + ALL_STARTS + h('40 00')),
     'refused 4 1 changed 0')
TEST = h('00 00 0001')
read('8 tests', framed(h('0001 0000 01 0000 0001 0027 0000 0000 00 00 08') + TEST * 8),
     ['version 1 locations 1 initial 0 timers 1 accepting 0 transitions 1 beyond 0',
      '0>0 event 0 starts 0 tests 8 0:0:1 0:0:1 0:0:1 0:0:1 0:0:1 0:0:1 0:0:1 0:0:1',
      'written 55 01000000320001000001000000010027000000000000080000000100000001000000010000000100000001000000010000000100000001 next aa'])
read('9 tests and the right length', framed(h('0001 0000 01 0000 0001 002b 0000 0000 00 00 09') + TEST * 9), 'refused 4 0 changed 0')
read('9 tests and a wrong length: the lower number counts', framed(h('0001 0000 01 0000 0001 0027 0000 0000 00 00 09') + TEST * 9), 'refused 3 65535 changed 0')
read('9 tests in the last byte, the right length', framed(h('0001 0000 01 0000 0001 002b 0000 0000 00 00 09')), 'refused 4 0 changed 0')
read('9 tests in the last byte, a wrong length', framed(h('0001 0000 01 0000 0001 0007 0000 0000 00 00 09')), 'refused 3 65535 changed 0')
read('no location comes before a bad initial one', framed(h('0000 0005 00 0000 0000')), 'refused 4 65535 changed 0')

# ---- 5: location numbers
read('initial location', framed(h('0002 0002 00 0000 0000')), 'refused 5 65535 changed 0')
read('initial location comes before 65 timers', framed(h('0002 0002 41 0000 0000')), 'refused 5 65535 changed 0')
read('accepting location', framed(h('0002 0000 00 0001 0002 0000')), 'refused 5 65535 changed 0')
read('accepting location after a good one', framed(h('0002 0000 00 0002 0000 0002 0000')), 'refused 5 65535 changed 0')
read('source of transition 0', framed(h('0002 0000 00 0000 0001 0007 0002 0000 00 00 00')), 'refused 5 0 changed 0')
read('target of transition 1', framed(h('0002 0000 00 0000 0002 0007 0000 0000 00 00 00 0007 0000 0002 00 00 00')), 'refused 5 1 changed 0')
read('a bad source in a record with a wrong length', framed(h('0002 0000 00 0000 0001 0099 0002 0000 00 00 00')), 'refused 5 0 changed 0')
read('a bad target in a record with a wrong length', framed(h('0002 0000 00 0000 0001 0000 0000 0100 00 00 00')), 'refused 5 0 changed 0')

# ---- 6: timer numbers
read('a started timer', framed(h('0001 0000 02 0000 0001 0008 0000 0000 00 01 02 00')), 'refused 6 0 changed 0')
read('a tested timer', framed(h('0001 0000 02 0000 0001 000b 0000 0000 00 00 01 02 00 0000')), 'refused 6 0 changed 0')
read('a tested timer where there are none', framed(h('0001 0000 00 0000 0001 000b 0000 0000 00 00 01 00 00 0000')), 'refused 6 0 changed 0')
read('a tested timer before its code', framed(h('0001 0000 02 0000 0001 000b 0000 0000 00 00 01 02 09 0000')), 'refused 6 0 changed 0')
read('the second test of transition 1', framed(h('0001 0000 02 0000 0002') + EMPTY_RECORD + h('000f 0000 0000 00 00 02 01 00 0000 40 00 0000')), 'refused 6 1 changed 0')

# ---- 7: rising lists
read('accepting locations equal', framed(h('0003 0000 00 0002 0001 0001 0000')), 'refused 7 65535 changed 0')
read('accepting locations falling', framed(h('0003 0000 00 0002 0002 0001 0000')), 'refused 7 65535 changed 0')
read('more accepting locations than locations fail at an entry', framed(h('0002 0000 00 0003 0000 0001 0001 0000')), 'refused 7 65535 changed 0')
read('starts equal', framed(h('0001 0000 02 0000 0001 0009 0000 0000 00 02 01 01 00')), 'refused 7 0 changed 0')
read('starts falling, at transition 1', framed(h('0001 0000 02 0000 0002') + EMPTY_RECORD + h('0009 0000 0000 00 02 01 00 00')), 'refused 7 1 changed 0')

# ---- 8: comparison codes
read('codes 0 to 4', framed(h('0001 0000 01 0000 0001 001b 0000 0000 ff 00 05 00 00 0000 00 01 0001 00 02 00ff 00 03 0100 00 04 ffff')),
     ['version 1 locations 1 initial 0 timers 1 accepting 0 transitions 1 beyond 0',
      '0>0 event 255 starts 0 tests 5 0:0:0 0:1:1 0:2:255 0:3:256 0:4:65535',
      'written 43 010000002600010000010000' + '0001001b00000000ff00050000000000010001000200ff000301000004ffff next aa'])
read('code 5', framed(h('0001 0000 01 0000 0001 000b 0000 0000 00 00 01 00 05 0000')), 'refused 8 0 changed 0')
read('code 255', framed(h('0001 0000 01 0000 0001 000b 0000 0000 00 00 01 00 ff 0000')), 'refused 8 0 changed 0')
read('an early 8 before a late 6', framed(h('0001 0000 01 0000 0002 000b 0000 0000 00 00 01 00 05 0000 0008 0000 0000 00 01 01 00')), 'refused 8 0 changed 0')
read('an early 6 before a late 8', framed(h('0001 0000 01 0000 0002 0008 0000 0000 00 01 01 00 000b 0000 0000 00 00 01 00 05 0000')), 'refused 6 0 changed 0')
read('an early 8 before a cut', framed(h('0001 0000 01 0000 0002 000b 0000 0000 00 00 01 00 05 0000 0008')), 'refused 8 0 changed 0')

# ---- the largest files
BIG_HEAD = h('0100 00ff 40 0100') + b''.join(i.to_bytes(2, 'big') for i in range(256)) + h('0200')
BIG_1 = framed(BIG_HEAD + (h('0067 00ff 00fe 07 40') + ALL_STARTS + h('08') + h('3f 04 ffff') * 8) * 512)
BIG_2 = framed(BIG_HEAD + (h('0077 00ff 00fe 07 40') + ALL_STARTS + h('08') + h('3f 04 ffffffff') * 8) * 512, 2)
assert (len(BIG_1), len(BIG_2)) == (54286, 62478)
for version, file, constant, end in (1, BIG_1, 65535, '54286 3f04ffff3f04ffff'), (2, BIG_2, 4294967295, '62478 ffff3f04ffffffff'):
    read('the largest file of version %d' % version, file,
         ['version %d locations 256 initial 255 timers 64 accepting 256 0 1 2 3 255 transitions 512 beyond 0' % version]
         + ['255>254 event 7 starts 18446744073709551615 tests 8' + (' 63:4:%d' % constant) * 8] * 5 + ['written %s next aa' % end])
read('the largest file and one byte', framed(BIG_2[5:] + h('00'), 2), 'refused 3 65535 changed 0')

# ---- events: any byte, kept
EVENTS = framed(h('0002 0000 00 0001 0001 0004 0007 0000 0001 07 00 00 0007 0001 0000 ff 00 00 0007 0001 0001 01 00 00 0007 0000 0000 80 00 00'))
EVENT_LINES = ['0>1 event 7 starts 0 tests 0', '1>0 event 255 starts 0 tests 0', '1>1 event 1 starts 0 tests 0', '0>0 event 128 starts 0 tests 0']
read('events 7, 255, 1 and 128', EVENTS,
     ['version 1 locations 2 initial 0 timers 0 accepting 1 1 transitions 4 beyond 0'] + EVENT_LINES + [written(EVENTS)])

# ---- 21: lists of exactly the needed length, then each one entry too short
EXACT = [2, 2, 2, 2, 2, 2, 3, 3, 3]
TWO_HEAD = '0003 0001 02 0002 0000 0002 0002 '
TWO_RECORDS = {1: '000c 0000 0001 05 01 01 01 01 03 %04x 000f 0001 0002 06 00 02 00 02 %04x 01 04 %04x',
               2: '000e 0000 0001 05 01 01 01 01 03 %08x 0013 0001 0002 06 00 02 00 02 %08x 01 04 %08x'}
TWO_RECORDS[3] = TWO_RECORDS[2]


def two(version, *constants):
    """The file of two transitions with these three constants."""
    return framed(h(TWO_HEAD + TWO_RECORDS[version] % constants), version)


TWO = two(1, 258, 3, 4)
TWO_LINES = ['version 1 locations 3 initial 1 timers 2 accepting 2 0 2 transitions 2 beyond 0', '0>1 event 5 starts 2 tests 1 1:3:258',
             '1>2 event 6 starts 0 tests 2 0:2:3 1:4:4', written(TWO)]
read('lists of exactly the needed length', TWO, TWO_LINES, EXACT)
for k in range(9):
    read('list %d one entry too short' % k, TWO, 'refused 21 65535 changed 0', [n - (i == k) for i, n in enumerate(EXACT)])
read('no list at all, and a code over 4: 8 comes before 21', framed(h('0001 0000 01 0000 0001 000b 0000 0000 00 00 01 00 05 0000')),
     'refused 8 0 changed 0', [0] * 9)
read('no list is needed', SMALL,
     ['version 1 locations 1 initial 0 timers 0 accepting 0 transitions 0 beyond 0', 'written 14 0100000009000100000000000000 next aa'], [0] * 9)

# ---- version 2: constants of four bytes, records of 7 + s + 6g bytes
read('chart B as version 2', B_2,
     ['version 2 locations 4 initial 0 timers 2 accepting 1 3 transitions 3 beyond 0', '0>1 event 0 starts 1 tests 0',
      '1>2 event 0 starts 2 tests 1 0:0:2', '2>3 event 0 starts 0 tests 1 1:2:1', written(B_2)])
read('chart B as version 2, first byte 1', framed(B_2[5:], 1), 'refused 3 65535 changed 0')
read('chart B as version 1, first byte 2', framed(B[5:], 2), 'refused 3 65535 changed 0')
EVENTS_2 = framed(EVENTS[5:], 2)
read('a version 1 file without tests, first byte 2', EVENTS_2,
     ['version 2 locations 2 initial 0 timers 0 accepting 1 1 transitions 4 beyond 0'] + EVENT_LINES + [written(EVENTS_2)])
RECORD_2 = h('000e 0000 0001 00 01 00 01 00 02 00000003')
read('version 2: the whole', framed(HEAD + RECORD_2, 2),
     ['version 2 locations 2 initial 0 timers 1 accepting 1 1 transitions 1 beyond 0', '0>1 event 0 starts 1 tests 1 0:2:3',
      'written 32 020000001b000200000100010001' + '0001000e0000000100010001000200' + '000003 next aa'])
for cut, where in [(10, 'the number of tests'), (11, 'the timer'), (12, 'the code'), (13, 'one byte of the constant'),
                   (14, 'two bytes of the constant'), (15, 'three bytes of the constant')]:
    read('version 2: cut after ' + where, framed(HEAD + RECORD_2[:cut], 2), 'refused 3 65535 changed 0')
read('version 2: a byte remains', framed(HEAD + RECORD_2 + h('00'), 2), 'refused 3 65535 changed 0')
for length, comment in ('000f', 'one too large'), ('000d', 'one too small'), ('000c', 'as in version 1'), ('010e', 'right in its low byte only'):
    read('version 2: a record length ' + comment, framed(HEAD + h(length) + RECORD_2[2:], 2), 'refused 3 65535 changed 0')
read('version 2: a started timer before a record length as in version 1', framed(HEAD + h('000c 0000 0001 00 01 01 01 00 02 00000003'), 2),
     'refused 6 0 changed 0')
ONE = h('0001 0000 01 0000 0001')
TEST_2 = h('00 00 00000001')
read('version 2: 8 tests', framed(ONE + h('0037 0000 0000 00 00 08') + TEST_2 * 8, 2),
     ['version 2 locations 1 initial 0 timers 1 accepting 0 transitions 1 beyond 0', '0>0 event 0 starts 0 tests 8' + ' 0:0:1' * 8,
      'written 71 0001000000000001 next aa'])
read('version 2: 9 tests and the right length', framed(ONE + h('003d 0000 0000 00 00 09') + TEST_2 * 9, 2), 'refused 4 0 changed 0')
read('version 2: 9 tests and the length of version 1', framed(ONE + h('002b 0000 0000 00 00 09') + TEST_2 * 9, 2), 'refused 3 65535 changed 0')
read('version 2: 9 tests in the last byte, the right length', framed(ONE + h('003d 0000 0000 00 00 09'), 2), 'refused 4 0 changed 0')
read('version 2: 255 tests in the last byte, the right length', framed(ONE + h('0601 0000 0000 00 00 ff'), 2), 'refused 4 0 changed 0')
FIVE_2 = framed(ONE + h('0025 0000 0000 ff 00 05 00 00 00000000 00 01 0000ffff 00 02 00010000 00 03 01000000 00 04 ffffffff'), 2)
read('version 2: constants 0, 65,535, 65,536, 16,777,216 and 4,294,967,295', FIVE_2,
     ['version 2 locations 1 initial 0 timers 1 accepting 0 transitions 1 beyond 0',
      '0>0 event 255 starts 0 tests 5 0:0:0 0:1:65535 0:2:65536 0:3:16777216 0:4:4294967295', written(FIVE_2)])
read('version 2: the timer of a second test', framed(ONE + h('0013 0000 0000 00 00 02 00 00 00000000 01 00 00000000'), 2), 'refused 6 0 changed 0')
read('version 2: code 5 before a cut', framed(ONE + h('000d 0000 0000 00 00 01 00 05'), 2), 'refused 8 0 changed 0')
TWO_2 = two(2, 65536, 3, 4294967295)
read('version 2: lists of exactly the needed length', TWO_2,
     ['version 2 locations 3 initial 1 timers 2 accepting 2 0 2 transitions 2 beyond 0', '0>1 event 5 starts 2 tests 1 1:3:65536',
      '1>2 event 6 starts 0 tests 2 0:2:3 1:4:4294967295', written(TWO_2)], EXACT)
read('version 2: list 8 one entry too short', TWO_2, 'refused 21 65535 changed 0', EXACT[:8] + [2])

# ---- version 3: otherwise like version 2. The reader does not ask what is reached, in any version
B_3 = framed(B_2[5:], 3)
read('chart B as version 3', B_3,
     ['version 3 locations 4 initial 0 timers 2 accepting 1 3 transitions 3 beyond 0', '0>1 event 0 starts 1 tests 0',
      '1>2 event 0 starts 2 tests 1 0:0:2', '2>3 event 0 starts 0 tests 1 1:2:1', written(B_3)])
read('chart B as version 1, first byte 3', framed(B[5:], 3), 'refused 3 65535 changed 0')
read('chart B as version 2, first byte 4', framed(B_2[5:], 4), 'refused 2 65535 changed 0')
read('version 3: cut after three bytes of the constant', framed(HEAD + RECORD_2[:15], 3), 'refused 3 65535 changed 0')
read('version 3: a byte remains', framed(HEAD + RECORD_2 + h('00'), 3), 'refused 3 65535 changed 0')
FIVE_3 = framed(FIVE_2[5:], 3)
read('version 3: constants 0, 65,535, 65,536, 16,777,216 and 4,294,967,295', FIVE_3,
     ['version 3 locations 1 initial 0 timers 1 accepting 0 transitions 1 beyond 0',
      '0>0 event 255 starts 0 tests 5 0:0:0 0:1:65535 0:2:65536 0:3:16777216 0:4:4294967295', written(FIVE_3)])
TWO_3 = two(3, 65536, 3, 4294967295)
read('version 3: lists of exactly the needed length', TWO_3,
     ['version 3 locations 3 initial 1 timers 2 accepting 2 0 2 transitions 2 beyond 0', '0>1 event 5 starts 2 tests 1 1:3:65536',
      '1>2 event 6 starts 0 tests 2 0:2:3 1:4:4294967295', written(TWO_3)], EXACT)
read('version 3: list 8 one entry too short', TWO_3, 'refused 21 65535 changed 0', EXACT[:8] + [2])
# Nothing reaches location 4; its transition, 4→1, keeps its test and its start
S = h('03 00000044 0005 0000 02 0001 0003 0004 0009 0000 0001 00 02 00 01 00 000d 0001 0002 00 00 01 00 02 00000002'
      '000d 0002 0003 00 00 01 01 00 00000009 000e 0004 0001 00 01 00 01 01 00 00000005')
S_HEADER = 'version %d locations 5 initial 0 timers 2 accepting 1 3 transitions 4 beyond 0'
S_LINES = ['0>1 event 0 starts 3 tests 0', '1>2 event 0 starts 0 tests 1 0:2:2', '2>3 event 0 starts 0 tests 1 1:0:9',
           '4>1 event 0 starts 1 tests 1 1:0:5', 'written 73 0001010000000005 next aa']
for version in (2, 3):
    read('a spare location, version %d' % version, framed(S[5:], version), [S_HEADER % version] + S_LINES)
read('a transition of a spare location tests a timer that the chart lacks', S[:-6] + h('02 00 00000005'), 'refused 6 3 changed 0')
read('a transition of a spare location has code 5', S[:-6] + h('01 05 00000005'), 'refused 8 3 changed 0')
read('256 locations, none but the last reached', framed(h('0100 00ff 00 0000 0000'), 3),
     ['version 3 locations 256 initial 255 timers 0 accepting 0 transitions 0 beyond 0', 'written 14 0300000009010000ff0000000000 next aa'])


# ---- the writer: header (version, locations, initial, timers, accepting, transitions), the nine lists, the room
def write(comment, header, lists, room, lines):
    WRITE.append((comment, header, lists, room, lines if isinstance(lines, list) else [lines]))


GOOD = (1, 3, 1, 2, 2, 2)
LISTS = [[0, 2], [0, 1], [1, 2], [5, 6], [2, 0], [1, 2], [1, 0, 1], [3, 2, 4], [258, 3, 4]]


def only(k, entries):
    """Nine lists that are empty but for list k."""
    return [entries if i == k else [] for i in range(9)]


def but(*others):
    """LISTS with other entries in list k, and in further lists: k, entries, .."""
    changes = dict(zip(others[::2], others[1::2]))
    return [changes.get(k, entries) for k, entries in enumerate(LISTS)]


write('the chart of two transitions', GOOD, LISTS, 65536, written(TWO))
write('room for exactly the file', GOOD, LISTS, len(TWO), 'written %d %s next --' % (len(TWO), TWO.hex()))
write('room for one byte fewer', GOOD, LISTS, len(TWO) - 1, 'refused 21 65535 changed 0')
write('longer lists: the rest is ignored', GOOD, [x + [1, 1, 1] for x in LISTS], 65536, written(TWO))
for k in range(9):
    write('list %d ends one entry early' % k, GOOD, but(k, LISTS[k][:-1]), 65536, 'refused 3 65535 changed 0')
write('no location', (1, 0, 1, 2, 2, 2), LISTS, 65536, 'refused 4 65535 changed 0')
write('257 locations', (1, 257, 1, 2, 2, 2), LISTS, 65536, 'refused 4 65535 changed 0')
write('65 timers', (1, 3, 1, 65, 2, 2), LISTS, 65536, 'refused 4 65535 changed 0')
write('513 transitions', (1, 3, 1, 2, 2, 513), LISTS, 65536, 'refused 4 65535 changed 0')
write('9 tests at transition 1', GOOD, but(5, [1, 9]), 65536, 'refused 4 1 changed 0')
write('initial location', (1, 3, 3, 2, 2, 2), LISTS, 65536, 'refused 5 65535 changed 0')
write('initial location before 65 timers', (1, 3, 3, 65, 2, 2), LISTS, 65536, 'refused 5 65535 changed 0')
write('accepting location', GOOD, but(0, [0, 3]), 65536, 'refused 5 65535 changed 0')
write('source of transition 1', GOOD, but(1, [0, 3]), 65536, 'refused 5 1 changed 0')
write('target of transition 0', GOOD, but(2, [3, 2]), 65536, 'refused 5 0 changed 0')
write('a started timer at the number of timers, in a word', GOOD, but(4, [2, 4]), 65536, 'refused 6 1 changed 0')
write('started timer 63 of two timers', GOOD, but(4, [2 ** 63, 0]), 65536, 'refused 6 0 changed 0')
write('a tested timer', GOOD, but(6, [1, 0, 2]), 65536, 'refused 6 1 changed 0')
write('accepting locations equal', GOOD, but(0, [1, 1]), 65536, 'refused 7 65535 changed 0')
write('more accepting locations than locations', (1, 3, 1, 2, 4, 2), but(0, [0, 1, 2, 2]), 65536, 'refused 7 65535 changed 0')
write('code 5', GOOD, but(7, [3, 2, 5]), 65536, 'refused 8 1 changed 0')
write('a bad source before a list that ends', GOOD, [[0, 2], [3, 1], [], [], [], [], [], [], []], 65536, 'refused 5 0 changed 0')
write('a list that ends before a bad code', GOOD, but(3, [], 7, [5, 5, 5]), 65536, 'refused 3 65535 changed 0')
write('an early 8 before a late 6', GOOD, but(4, [2, 4], 7, [5, 2, 4]), 65536, 'refused 8 0 changed 0')
write('no location, so that no initial one is below', (1, 0, 0, 2, 2, 2), LISTS, 65536, 'refused 4 65535 changed 0')
write('257 locations before a bad initial one', (1, 257, 257, 2, 2, 2), LISTS, 65536, 'refused 4 65535 changed 0')
write('65 timers before a bad accepting location', (1, 3, 1, 65, 2, 2), but(0, [0, 3]), 65536, 'refused 4 65535 changed 0')
write('a bad accepting location before 513 transitions', (1, 3, 1, 2, 2, 513), but(0, [0, 3]), 65536, 'refused 5 65535 changed 0')
write('accepting locations equal before 513 transitions', (1, 3, 1, 2, 2, 513), but(0, [1, 1]), 65536, 'refused 7 65535 changed 0')
write('a list of accepting locations that ends before 513 transitions', (1, 3, 1, 2, 2, 513), but(0, [0]), 65536, 'refused 3 65535 changed 0')
write('513 transitions before a bad source', (1, 3, 1, 2, 2, 513), but(1, [3, 1]), 65536, 'refused 4 65535 changed 0')
write('a bad source before a list of targets that ends', GOOD, but(1, [0, 3], 2, [1]), 65536, 'refused 5 1 changed 0')
write('a list of sources that ends before a bad target', GOOD, but(1, [0], 2, [1, 3]), 65536, 'refused 3 65535 changed 0')
write('a bad target before a list of events that ends', GOOD, but(2, [1, 3], 3, [5]), 65536, 'refused 5 1 changed 0')
write('a list of events that ends before a bad start', GOOD, but(3, [5], 4, [2, 4]), 65536, 'refused 3 65535 changed 0')
write('a bad target before a bad start', GOOD, but(2, [3, 2], 4, [4, 0]), 65536, 'refused 5 0 changed 0')
write('a bad start before a list of test counts that ends', GOOD, but(4, [2, 4], 5, [1]), 65536, 'refused 6 1 changed 0')
write('a list of test counts that ends before the next bad start', GOOD, but(4, [2, 4], 5, []), 65536, 'refused 3 65535 changed 0')
write('a bad start before 9 tests', GOOD, but(4, [4, 0], 5, [9, 2]), 65536, 'refused 6 0 changed 0')
write('9 tests before the next bad start', GOOD, but(4, [2, 4], 5, [9, 2]), 65536, 'refused 4 0 changed 0')
write('9 tests before a list of timers that ends', GOOD, but(5, [9, 2], 6, []), 65536, 'refused 4 0 changed 0')
write('a list of timers that ends before a bad code', GOOD, but(6, [1, 0], 7, [3, 2, 5]), 65536, 'refused 3 65535 changed 0')
write('6 and 8 in one test: the timer comes first', GOOD, but(6, [1, 0, 2], 7, [3, 2, 5]), 65536, 'refused 6 1 changed 0')
write('a bad code before the next test of a bad timer', GOOD, but(6, [1, 0, 2], 7, [3, 5, 4]), 65536, 'refused 8 1 changed 0')
write('a bad timer before a list of codes that ends', GOOD, but(6, [1, 0, 2], 7, [3, 2]), 65536, 'refused 6 1 changed 0')
write('a bad code before a list of constants that ends', GOOD, but(7, [3, 2, 5], 8, [258, 3]), 65536, 'refused 8 1 changed 0')
write('a list of constants that ends before the next bad code', GOOD, but(7, [3, 2, 5], 8, [258]), 65536, 'refused 3 65535 changed 0')
for comment, header, lists, refusal in [
        ('3', GOOD, but(8, [258, 3]), '3 65535'), ('4', (1, 3, 1, 65, 2, 2), LISTS, '4 65535'), ('4, at a transition', GOOD, but(5, [1, 9]), '4 1'),
        ('5', (1, 3, 3, 2, 2, 2), LISTS, '5 65535'), ('5, at a transition', GOOD, but(2, [1, 3]), '5 1'), ('6', GOOD, but(6, [1, 0, 2]), '6 1'),
        ('7', GOOD, but(0, [2, 0]), '7 65535'), ('8', GOOD, but(7, [3, 2, 5]), '8 1')]:
    write(comment + ' comes before 21', header, lists, 20, 'refused %s changed 0' % refusal)
    write(comment + ' comes before 17', header, lists[:8] + [[65536] + lists[8][1:]], 20, 'refused %s changed 0' % refusal)
write('events 7, 255, 1 and 128', (1, 2, 0, 0, 1, 4), [[1], [0, 1, 1, 0], [1, 0, 1, 0], [7, 255, 1, 128], [0] * 4, [0] * 4, [], [], []], 65536,
      written(EVENTS))
write('all 64 timers started', (1, 1, 0, 64, 0, 1), [[], [0], [0], [0], [2 ** 64 - 1], [0], [], [], []], 65536,
      'written 87 393a3b3c3d3e3f00 next aa')
write('no room at all', (1, 1, 0, 0, 0, 0), [[]] * 9, 0, 'refused 21 65535 changed 0')
write('a chart of one location', (1, 1, 0, 0, 0, 0), [[]] * 9, 14, 'written 14 0100000009000100000000000000 next --')

# ---- the writer: versions and constants
GOOD_2 = (2, 3, 1, 2, 2, 2)
for version in (0, 4, 255):
    write('version %d' % version, (version, 3, 1, 2, 2, 2), LISTS, 65536, 'refused 2 65535 changed 0')
    write('version %d and no location' % version, (version, 0, 1, 2, 2, 2), LISTS, 65536, 'refused 2 65535 changed 0')
write('2 comes before 3 and 21', (4, 3, 1, 2, 2, 2), [[]] * 9, 0, 'refused 2 65535 changed 0')
write('2 comes before 17', (0, 3, 1, 2, 2, 2), but(8, [65536, 3, 4]), 65536, 'refused 2 65535 changed 0')
write('a chart of one location, version 2', (2, 1, 0, 0, 0, 0), [[]] * 9, 14, 'written 14 0200000009000100000000000000 next --')
write('version 2: room for exactly the file', GOOD_2, LISTS, 55, 'written 55 %s next --' % two(2, 258, 3, 4).hex())
for room in (54, 49):
    write('version 2: room for %d bytes' % room, GOOD_2, LISTS, room, 'refused 21 65535 changed 0')
write('version 2: the list of constants ends one entry early', GOOD_2, but(8, [258, 3]), 65536, 'refused 3 65535 changed 0')
GOOD_3 = (3, 3, 1, 2, 2, 2)
write('a chart of one location, version 3', (3, 1, 0, 0, 0, 0), [[]] * 9, 14, 'written 14 0300000009000100000000000000 next --')
write('version 3: room for exactly the file', GOOD_3, LISTS, 55, 'written 55 %s next --' % two(3, 258, 3, 4).hex())
write('version 3: room for 54 bytes', GOOD_3, LISTS, 54, 'refused 21 65535 changed 0')
S_LISTS = [[3], [0, 1, 2, 4], [1, 2, 3, 1], [0, 0, 0, 0], [3, 0, 0, 1], [0, 1, 1, 1], [0, 1, 1], [2, 0, 0], [2, 9, 5]]
write('a spare location', (3, 5, 0, 2, 1, 4), S_LISTS, 73, 'written 73 0001010000000005 next --')
write('a spare location that accepts and has no transition', (3, 2, 1, 0, 1, 0), only(0, [0]), 65536,
      'written 16 030000000b0002000100000100000000 next aa')
write('version 1: constants 65,535 and 0', GOOD, but(8, [65535, 0, 65535]), 65536, written(two(1, 65535, 0, 65535)))
write('version 2: constants 65,535 and 0', GOOD_2, but(8, [65535, 0, 65535]), 65536, written(two(2, 65535, 0, 65535)))
for constants in [65536, 3, 4], [258, 131071, 4], [258, 3, 4294967295]:
    write('version 1: constants %d, %d, %d' % tuple(constants), GOOD, but(8, constants), 65536, 'refused 17 65535 changed 0')
    write('version 2: constants %d, %d, %d' % tuple(constants), GOOD_2, but(8, constants), 65536, written(two(2, *constants)))
write('version 3: constants 65,536, 131,071 and 4,294,967,295', GOOD_3, but(8, [65536, 131071, 4294967295]), 65536,
      written(two(3, 65536, 131071, 4294967295)))
write('version 3: no 17 before 21', GOOD_3, but(8, [258, 3, 65536]), 54, 'refused 21 65535 changed 0')
write('17 comes before 21', GOOD, but(8, [258, 3, 65536]), 0, 'refused 17 65535 changed 0')
write('large constants after those that are due', GOOD, but(8, [258, 3, 4, 65536, 4294967295]), 65536, written(TWO))
write('a large constant where no test is due', (1, 1, 0, 0, 0, 0), only(8, [65536]), 65536, 'written 14 0100000009000100000000000000 next aa')
write('a list of events that ends after a large constant', GOOD, but(3, [5], 8, [65536, 3, 4]), 65536, 'refused 3 65535 changed 0')

# 0→1 starts 0; 1→1 tests 0 at most 65,536; then the same and a third transition, whose test has code 5
LARGE = [[1], [0, 1], [1, 1], [0, 0], [1, 0], [0, 1], [0], [0], [65536]]
LARGE_8 = [[1], [0, 1, 1], [1, 1, 1], [0, 0, 0], [1, 0, 0], [0, 1, 1], [0, 0], [0, 5], [65536, 1]]
for room in (65536, 0):
    write('at most 65,536 in version 1, room for %d bytes' % room, (1, 2, 0, 1, 1, 2), LARGE, room, 'refused 17 65535 changed 0')
write('at most 65,536 in version 2', (2, 2, 0, 1, 1, 2), LARGE, 65536,
      written(h('02 00000024 0002 0000 01 0001 0001 0002 0008 0000 0001 00 01 00 00 000d 0001 0001 00 00 01 00 00 00010000')))
for version in (1, 2):
    write('at most 65,536 in version %d, then code 5' % version, (version, 2, 0, 1, 1, 3), LARGE_8, 65536, 'refused 8 2 changed 0')


# ---- the count of changed entries itself: positions in the list of accepting locations, in those of the transitions, in those of the tests
def count(comment, positions, lists, changed):
    COUNT.append((comment, positions, lists, ['changed %d' % changed]))


WIDTHS = [2, 2, 2, 1, 8, 1, 1, 1, 4]
AS_FILLED = [int.from_bytes(bytes([170]) * width, 'big') for width in WIDTHS]


count('all as filled', (0, 0, 0), [[]] * 9, 0)
count('entries as filled', (0, 0, 0), [[value] * 3 for value in AS_FILLED], 0)
for k, (width, filled) in enumerate(zip(WIDTHS, AS_FILLED)):
    count('list %d, an entry other in its lowest bit' % k, (0, 0, 0), only(k, [filled ^ 1]), 1)
    count('list %d, an entry other in its highest bit' % k, (0, 0, 0), only(k, [filled, filled ^ 1 << 8 * width - 1]), 1)
    count('list %d, entries before the position, at it and after it' % k, (2, 2, 2), only(k, [0, 0, 0, 0, filled, 0]), 3)
for k in (0, 3, 4):
    count('list %d, all of it' % k, (0, 0, 0), only(k, [0] * LARGEST[k]), LARGEST[k])
count('1 to 9 entries of the nine lists', (0, 0, 0), [[0] * n for n in range(1, 10)], 45)
count('the same from 1, 2 and 3 on: 0, then 0 1 2 3 4, then 4 5 6', (1, 2, 3), [[0] * n for n in range(1, 10)], 25)
