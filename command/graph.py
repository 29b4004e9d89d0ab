"""The drawing of a chart in Graphviz's language dot, and as SVG by the program `dot`.

Locations are circles with their live timers below the number, accepting ones double, and an arrow from a point leads to the initial one; a board's
timer stands behind the live timer, `0>1`. Transitions are arrows with their number, event, tests and starts. Spare locations stand apart in a dashed
frame. In a chart that is refused with 9 or 10 the location or transition is red and the sentence stands below."""
import collections
import math
import os
import re
import subprocess

from failures import NoAnswer, WrongCall
from words import numbers

INK, QUIET, TIMERS, RED = '#1a1a1a', '#6b6b6b', '#0b5394', '#c00000'
FONT = 'Helvetica,Arial,sans-serif'
SETTINGS = (
    'graph [rankdir=TB, nodesep=0.55, ranksep=0.42, margin=0, fontname="%s", fontsize=12, bgcolor="transparent"]' % FONT,
    'node [shape=circle, width=0.62, margin=0.02, fontname="%s", fontsize=14, color="%s", fontcolor="%s"]' % (FONT, INK, INK),
    'node [style=filled, fillcolor=white]',
    'edge [fontname="%s", fontsize=11, color="%s", fontcolor="%s", arrowsize=0.7]' % (FONT, INK, INK),
)
# a blank that is kept wherever it stands
SPACE = '&#160;'
# Above so many transitions Graphviz is asked for less care, or it would take minutes.
MANY = 100
IN_HASTE = 'graph [splines=line, nslimit=0.5, nslimit1=0.5, mclimit=0.1]'
ENDINGS = {'.svg': 'svg', '.dot': 'dot', '.gv': 'dot'}
MISSING = "Graphviz is not installed: the program 'dot' is needed for SVG; -o NAME.dot writes the drawing without it"


def kind_of(output):
    """What an output is to hold, by its name's ending."""
    ending = os.path.splitext(output)[1].lower()
    if output != '-' and ending not in ENDINGS:
        raise WrongCall('a drawing is written as NAME.svg, NAME.dot or NAME.gv, not %r' % output)
    return ENDINGS.get(ending, 'dot')


def html(text):
    """A text inside a label in dot's HTML."""
    return text.replace('&', '&amp;').replace('<', '&lt;').replace('>', '&gt;')


def quoted(text):
    """A text as a string of dot, in which a backslash begins an escape."""
    return '"%s"' % text.replace('\\', '\\\\').replace('"', '\\"').replace('\n', '\\n')


def wrapped(text, width):
    """A text in lines of about that many characters."""
    lines = ['']
    for word in text.split(' '):
        if lines[-1] and len(lines[-1]) + 1 + len(word) > width:
            lines.append(word)
        else:
            lines[-1] = (lines[-1] + ' ' + word).strip()
    return lines


def live_texts(answer):
    """Of each location its live timers, with their board timers where the answer has them."""
    if 'numbers' in answer:
        return [['%d>%d' % tuple(entry) for entry in held] for held in answer['numbers']]
    texts = [[] for _ in range(answer['chart']['locations'])]
    for entry in answer.get('live', []) if 'refused' not in answer else []:
        texts[entry['location']].append(str(entry['timer']))
    return texts


def node(location, live, accepting, red):
    """A location with its live timers, as many in a row as keep the circle round."""
    row = max(3, math.isqrt(2 * len(live)))
    rows = [(2 * SPACE).join(map(html, live[i:i + row])) for i in range(0, len(live), row)]
    label = '<b>%d</b>' % location
    if rows:
        label += '<font point-size="10" color="%s">%s</font>' % (TIMERS, ''.join('<br/>' + text for text in rows))
    settings = ['label=<%s>' % label]
    settings += ['shape=doublecircle'] if accepting else []
    settings += ['color="%s"' % RED, 'fontcolor="%s"' % RED, 'penwidth=2'] if red else []
    return '%d [%s]' % (location, ', '.join(settings))


def sides_of_loops(transitions):
    """Where a location has several transitions to itself, they stand by turns to its right and its left, or one would cross the next one's label."""
    loops = collections.defaultdict(list)
    for index, transition in enumerate(transitions):
        if transition['source'] == transition['target']:
            loops[transition['source']].append(index)
    return {index: 'ew'[i % 2] for several in loops.values() if len(several) > 1 for i, index in enumerate(several)}


def edge(index, transition, spare, red, side):
    """A transition with its number, event, tests and starts, each test on a line of its own."""
    lines = ['<b>%d</b>%s' % (index, ', event %d' % transition['event'] if transition['event'] else '')]
    lines += ['tests %d %s %d' % (test['timer'], test['comparison'], test['constant']) for test in transition['tests']]
    lines += wrapped('starts ' + numbers(transition['starts']), 32) if transition['starts'] else []
    settings = ['label=<%s>' % ''.join('%s%s%s<br align="left"/>' % (SPACE, line, SPACE) for line in lines)]
    colour = RED if red else QUIET if spare else None
    settings += ['color="%s"' % colour, 'fontcolor="%s"' % colour] if colour else []
    settings += ['penwidth=2'] if red else []
    settings += ['style=dashed'] if spare else []
    settings += ['tailport=%s, headport=%s' % (side, side)] if side else []
    return '%d -> %d [%s]' % (transition['source'], transition['target'], ', '.join(settings))


def dot_text(answer):
    """The drawing of a derivation, or of a chart that is refused with 9 or 10, in dot."""
    chart, spare, live = answer['chart'], set(answer.get('spare', [])), live_texts(answer)
    number, place = answer.get('refused', (0, 0))
    nodes = {q: node(q, live[q], q in chart['accepting'], (number, place) == (9, q)) for q in range(chart['locations'])}
    lines = [*SETTINGS, *([IN_HASTE] if len(chart['transitions']) > MANY else [])]
    lines += [nodes[q] for q in nodes if q not in spare]
    lines += ['start [shape=point, width=0.1, style=filled, fillcolor="%s", label=""]' % INK, 'start -> %d' % chart['initial']]
    if spare:
        lines += ['subgraph cluster_spare {', 'label="spare"; style="dashed,rounded"; color="%s"; fontcolor="%s"; margin=12' % (QUIET, QUIET)]
        lines += [nodes[q] for q in sorted(spare)] + ['}']
    sides = sides_of_loops(chart['transitions'])
    for r, transition in enumerate(chart['transitions']):
        lines.append(edge(r, transition, transition['source'] in spare, (number, place) == (10, r), sides.get(r)))
    if 'refused' in answer:
        caption = '\n'.join(wrapped(answer['reason'], 60))
        lines += ['graph [label=%s, labelloc=b, labeljust=l, fontcolor="%s"]' % (quoted(caption), RED)]
    return 'digraph chart {\n%s}\n' % ''.join('    %s\n' % line for line in lines)


def svg_file(dot, missing=MISSING):
    """The drawing as an SVG file that names nothing outside itself: Graphviz adds a document type, which a reader might fetch, and comments with its
    version."""
    try:
        ran = subprocess.run(['dot', '-Tsvg'], input=dot.encode('utf-8'), stdout=subprocess.PIPE, stderr=subprocess.PIPE)
    except OSError:
        raise NoAnswer(missing)
    if ran.returncode != 0:
        raise NoAnswer('Graphviz broke off with status %d: %s' % (ran.returncode, ' '.join(ran.stderr.decode('utf-8', 'replace').split())))
    return re.sub(r'<!--.*?-->\s*|<!DOCTYPE[^>]*>\s*', '', ran.stdout.decode('utf-8', 'replace'), flags=re.DOTALL)


def svg_element(dot, missing):
    """The same as a part of a page, without the XML declaration."""
    return re.sub(r'^\s*<\?xml.*?\?>', '', svg_file(dot, missing)).strip() + '\n'
