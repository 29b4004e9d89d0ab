"""Chart files for the vectors: an encoder of its own, which judges nothing, and the charts of charts/ from their texts."""
import pathlib
import sys

ROOT = pathlib.Path(__file__).resolve().parent.parent
sys.path.append(str(ROOT / 'command'))
from notation import COMPARISONS, parse

AT_MOST, BELOW, AT_LEAST, ABOVE, EQUAL = range(5)
WIDTH_OF_CONSTANTS = {1: 2, 2: 4, 3: 4}


def chart(locations, timers, arrows, initial=0, accepting=None, version=1):
    """A file. An arrow: source, target, started timers, tests (timer, code, constant), event if not 0. The last location accepts unless said."""
    accepting = [locations - 1] if accepting is None else accepting
    n = lambda v, w: v.to_bytes(w, 'big')
    body = n(locations, 2) + n(initial, 2) + n(timers, 1) + n(len(accepting), 2) + b''.join(n(q, 2) for q in accepting) + n(len(arrows), 2)
    for source, target, starts, tests, *event in arrows:
        record = n(source, 2) + n(target, 2) + n(sum(event), 1) + n(len(starts), 1) + bytes(starts) + n(len(tests), 1)
        record += b''.join(n(j, 1) + n(code, 1) + n(k, WIDTH_OF_CONSTANTS[version]) for j, code, k in tests)
        body += n(len(record), 2) + record
    return n(version, 1) + n(len(body), 4) + body


def arrows_of(drawing):
    """The transitions of a chart of the notation, as `chart` takes them."""
    return [(arrow['source'], arrow['target'], arrow['starts'],
             [(test['timer'], COMPARISONS.index(test['comparison']), test['constant']) for test in arrow['tests']], arrow['event'])
            for arrow in drawing['transitions']]


def file_of(drawing, version=None):
    """The file of a chart of the notation, as another version if one is named."""
    return chart(drawing['locations'], drawing['timers'], arrows_of(drawing), drawing['initial'], drawing['accepting'], version or drawing['version'])


def drawn(name):
    """A chart of charts/, from its text."""
    path = ROOT / 'charts' / (name + '.txt')
    return parse(path.read_text(encoding='utf-8'), str(path))
