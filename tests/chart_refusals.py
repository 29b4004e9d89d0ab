"""Files that are refused: version and body in hex, number, place, sentence. A file of which the length too is put down has None as its version."""

# one location, no timer, nothing accepts; then so many transitions
ONE = '0001 0000 00 0000'
# seven locations and three timers, nothing accepts
SEVEN = '0007 0000 03 0000'
# a transition 0→0 with nothing on it
PLAIN = '0007 0000 0000 00 00 00'

REFUSED_FILES = (
    (None, '01 000000', 1, 65535, 'the file has 4 bytes; a chart file has at least 5'),
    (None, '01', 1, 65535, 'the file has 1 byte; a chart file has at least 5'),
    (None, '01 00000000 00', 1, 65535, 'the length in the file is 0; 1 byte follows it'),
    (None, '09 00', 1, 65535, 'the file has 2 bytes; a chart file has at least 5'),
    (None, '01 00000009 0001 0000 00 0000 00', 1, 65535, 'the length in the file is 9; 8 bytes follow it'),
    (None, '09 00000000 0001', 1, 65535, 'the length in the file is 0; 2 bytes follow it'),
    (None, '01 ffffffff 0001 0000 00 0000 0000', 1, 65535, 'the length in the file is 4294967295; 9 bytes follow it'),
    (4, ONE + '0000', 2, 65535, 'the version byte is 4; there are versions 1 to 3'),
    (0, '', 2, 65535, 'the version byte is 0; there are versions 1 to 3'),
    (255, 'ff', 2, 65535, 'the version byte is 255; there are versions 1 to 3'),

    (1, '', 3, 65535, 'the file ends inside the number of locations'),
    (3, '00', 3, 65535, 'the file ends inside the number of locations'),
    (1, '0001', 3, 65535, 'the file ends inside the initial location'),
    (1, '0001 00', 3, 65535, 'the file ends inside the initial location'),
    (1, '0001 0000', 3, 65535, 'the file ends inside the number of timers'),
    (2, '0001 0000 00', 3, 65535, 'the file ends inside the count of accepting locations'),
    (1, '0001 0000 00 0001', 3, 65535, 'the file ends inside the list of accepting locations'),
    (1, '0003 0000 00 0002 0001 00', 3, 65535, 'the file ends inside the list of accepting locations'),
    (1, ONE, 3, 65535, 'the file ends inside the count of transitions'),
    (1, ONE + '02', 3, 65535, 'the file ends inside the count of transitions'),
    (1, ONE + '0001', 3, 65535, 'the file ends inside the length of transition 0'),
    (1, ONE + '0002' + PLAIN + '00', 3, 65535, 'the file ends inside the length of transition 1'),
    (1, ONE + '0001 0007', 3, 65535, 'the file ends inside the source of transition 0'),
    (1, ONE + '0002' + PLAIN + '0007 00', 3, 65535, 'the file ends inside the source of transition 1'),
    (1, ONE + '0001 0007 0000', 3, 65535, 'the file ends inside the target of transition 0'),
    (1, ONE + '0001 0007 0000 0000', 3, 65535, 'the file ends inside the event of transition 0'),
    (1, ONE + '0001 0007 0000 0000 00', 3, 65535, 'the file ends inside the count of starts of transition 0'),
    (1, SEVEN + '0001 0009 0000 0000 00 02', 3, 65535, 'the file ends inside the starts of transition 0'),
    (1, SEVEN + '0001 0009 0000 0000 00 02 01', 3, 65535, 'the file ends inside the starts of transition 0'),
    (1, SEVEN + '0001 0007 0000 0000 00 00', 3, 65535, 'the file ends inside the count of tests of transition 0'),
    (1, SEVEN + '0001 000b 0000 0000 00 00 01', 3, 65535, 'the file ends inside the tests of transition 0'),
    (1, SEVEN + '0001 000b 0000 0000 00 00 01 02', 3, 65535, 'the file ends inside the tests of transition 0'),
    (1, SEVEN + '0001 000b 0000 0000 00 00 01 02 00 00', 3, 65535, 'the file ends inside the tests of transition 0'),
    (2, SEVEN + '0001 000d 0000 0000 00 00 01 02 00 000000', 3, 65535, 'the file ends inside the tests of transition 0'),
    (1, ONE + '0000 ff', 3, 65535, '1 byte remains after the last transition'),
    (1, ONE + '0001' + PLAIN + '010203', 3, 65535, '3 bytes remain after the last transition'),
    (1, ONE + '0001 0008 0000 0000 00 00 00', 3, 65535, 'the length of transition 0 is 8; with 0 starts and 0 tests it is 7'),
    (1, SEVEN + '0002' + PLAIN + '0007 0000 0000 00 02 00 01 02', 3, 65535,
     'the length of transition 1 is 7; with 2 starts and 2 tests it is 17'),
    (2, SEVEN + '0001 000f 0000 0000 00 00 02', 3, 65535, 'the length of transition 0 is 15; with 0 starts and 2 tests it is 19'),
    (1, SEVEN + '0001 0007 0000 0000 00 00 09', 3, 65535, 'the length of transition 0 is 7; with 0 starts and 9 tests it is 43'),

    (1, '0000 0000 00 0000 0000', 4, 65535, 'the number of locations is 0; 1 to 256 are allowed'),
    (1, '0101 0000 00 0000 0000', 4, 65535, 'the number of locations is 257; 1 to 256 are allowed'),
    (2, 'ffff 0000 00 0000 0000', 4, 65535, 'the number of locations is 65535; 1 to 256 are allowed'),
    (1, '0001 0000 41 0000 0000', 4, 65535, 'the number of timers is 65; at most 64 are allowed'),
    (1, ONE + '0201', 4, 65535, 'the count of transitions is 513; at most 512 are allowed'),
    (1, SEVEN + '0002' + PLAIN + '0048 0000 0000 00 41', 4, 1, 'transition 1 has 65 starts; at most 64 are allowed'),
    (1, SEVEN + '0001 002b 0000 0000 00 00 09', 4, 0, 'transition 0 has 9 tests; at most 8 are allowed'),

    (1, '0007 0009 00 0000 0000', 5, 65535, 'the initial location is 9; there are locations 0 to 6'),
    (1, '0001 0001 00 0000 0000', 5, 65535, 'the initial location is 1; there is location 0'),
    (1, '0007 0000 00 0002 0003 0009 0000', 5, 65535, 'an accepting location is 9; there are locations 0 to 6'),
    (1, '0100 0000 00 0001 0100 0000', 5, 65535, 'an accepting location is 256; there are locations 0 to 255'),
    (1, SEVEN + '0002' + PLAIN + '0007 0009', 5, 1, 'the source of transition 1 is 9; there are locations 0 to 6'),
    (1, ONE + '0001 0007 0000 ffff', 5, 0, 'the target of transition 0 is 65535; there is location 0'),

    (1, SEVEN + '0001 0009 0000 0000 00 02 01 05', 6, 0, 'transition 0 starts timer 5; there are timers 0 to 2'),
    (1, SEVEN + '0002' + PLAIN + '000b 0000 0000 00 00 01 05 02 0001', 6, 1, 'transition 1 tests timer 5; there are timers 0 to 2'),
    (1, '0001 0000 01 0000 0001 0008 0000 0000 00 01 01 00', 6, 0, 'transition 0 starts timer 1; there is timer 0'),
    (1, ONE + '0001 000b 0000 0000 00 00 01 00 02 0001', 6, 0, 'transition 0 tests timer 0; there are no timers'),

    (1, '0007 0000 00 0002 0005 0003 0000', 7, 65535, 'accepting location 3 comes after 5; they must rise'),
    (1, '0007 0000 00 0003 0001 0003 0003 0000', 7, 65535, 'accepting location 3 comes after 3; they must rise'),
    (1, SEVEN + '0001 0009 0000 0000 00 02 02 01', 7, 0, 'transition 0 starts timer 1 after timer 2; they must rise'),
    (1, SEVEN + '0002' + PLAIN + '0009 0000 0000 00 02 02 02', 7, 1, 'transition 1 starts timer 2 after timer 2; they must rise'),

    (1, SEVEN + '0001 000b 0000 0000 00 00 01 00 07 0000', 8, 0, 'transition 0 has a test with comparison code 7; there are codes 0 to 4'),
    (3, SEVEN + '0002' + PLAIN + '000d 0000 0000 00 00 01 00 05 00000000', 8, 1,
     'transition 1 has a test with comparison code 5; there are codes 0 to 4'),

    (1, '0005 0000 00 0000 0004 0007 0000 0001 00 00 00 0007 0001 0002 00 00 00 0007 0004 0003 00 00 00 0007 0002 0003 00 00 00', 9, 4,
     'no path from the initial location 0 reaches location 4'),
    (2, '0003 0001 00 0000 0001 0007 0000 0001 00 00 00', 9, 0, 'no path from the initial location 1 reaches location 0'),

    # 0→1; 1→2 tests timer 2 at least 1, 1 at least 1, 2 at least 0
    (1, '0003 0000 03 0000 0002 0007 0000 0001 00 00 00 0013 0001 0002 00 00 03 02 02 0001 01 02 0001 02 02 0000', 10, 1,
     'transition 1 tests timer 1; the path 0 reaches it and starts timer 1 nowhere'),
    # 0→1 starts 0; 1→1; 0→1; 1→1 tests 0 equal 4: the shortest path without a start is 2
    (1, '0002 0000 01 0000 0004 0008 0000 0001 00 01 00 00 0007 0001 0001 00 00 00 0007 0000 0001 00 00 00 000b 0001 0001 00 00 01 00 04 0004',
     10, 3, 'transition 3 tests timer 0; the path 2 reaches it and starts timer 0 nowhere'),
)
