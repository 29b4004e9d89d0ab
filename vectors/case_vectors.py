"""Write vectors from the calls of the writer in tests/cases, whose answers were computed outside this repository, from the documents alone.

A case has its lists field by field, the starts as timers; the writer has a word of starts for each transition. Each vector is as in file_vectors.py:
the expected line is the case's refusal, or states the case's file.
"""
import json
import pathlib

from file_vectors import WIDTHS, written

CASES = pathlib.Path(__file__).resolve().parent.parent / 'tests/cases'
HEADER = ['version', 'locations', 'initial', 'timers', 'accepting_count', 'transition_count']
HEADER_WIDTHS = [1, 2, 2, 1, 2, 2]
LISTS = ['accepting', 'source', 'target', 'event', 'starts', 'test_count', 'test_timer', 'test_code', 'test_constant']
# The room where a case says that there is enough
ENOUGH = 65536
# Lines that say that version 3 is refused, which a later request (document 02, P7) allows: their answers now, written from the documents
SUPERSEDED = {
    ('p02.jsonl', 92): {'answer': '03 0000002e 0002 0000 03 0002 0000 0001 0003 0007 0001 0001 3a 00 00'
                                  '000a 0000 0000 53 03 000102 00 000a 0000 0001 86 03 000102 00'},
    ('p02.jsonl', 119): {'answer': '03 0000005e 0004 0000 03 0002 0000 0003 0006 0010 0003 0003 b8 03 000102 01 01 04 00000003'
                                   '000f 0003 0000 fa 02 0002 01 00 03 00000001 000a 0000 0001 68 03 000102 00 0008 0003 0002 6b 01 00 00'
                                   '000a 0000 0003 ab 03 000102 00 000a 0000 0002 29 03 000102 00'},
    ('p02.jsonl', 121): {'refused': [21, 65535]},
    ('p02.jsonl', 124): {'answer': '03 00000023 0003 0001 02 0003 0000 0001 0002 0002 0007 0000 0002 dc 00 00 0009 0001 0000 56 02 0001 00'}}


def words(counts, timers):
    """The starts of each transition as a word. A word has no order: only starts that rise strictly can be handed over in one."""
    result = []
    for count in counts:
        own, timers = timers[:count], timers[count:]
        assert len(own) == count and own == sorted(set(own))
        result.append(sum(1 << timer for timer in own))
    assert timers == []
    return result


def vector(comment, case):
    header = [case[name] for name in HEADER]
    lists = [words(case['start_count'], case['starts']) if name == 'starts' else case[name] for name in LISTS]
    # The program takes numbers that are as wide as the writer's types, and no stay limits.
    assert all(number < 256 ** width for number, width in zip(header, HEADER_WIDTHS))
    assert all(entry < 256 ** width for entries, width in zip(lists, WIDTHS) for entry in entries)
    assert not any(case['limit_byte'] + case['limit_timer'] + case['limit_constant'])
    room = ENOUGH if case['room'] is None else case['room']
    if 'refused' in case:
        line = 'refused %d %d changed 0' % tuple(case['refused'])
    else:
        file = bytes.fromhex(case['answer'])
        assert len(file) < room
        line = written(file)
    return comment, header, lists, room, [line]


def vectors():
    for path in sorted(CASES.glob('*.jsonl')):
        for number, text in enumerate(path.read_text().splitlines(), 1):
            case = json.loads(text)
            if (path.name, number) in SUPERSEDED:
                assert case['call'] == 'write' and case['version'] == 3 and case.pop('refused') == [2, 65535]
                case.update(SUPERSEDED[path.name, number])
            if case['call'] == 'write':
                yield vector('%s, line %d' % (path.name, number), case)


WRITE = list(vectors())
assert WRITE
