"""The derivation of a chart's board numbers as one HTML page, for an auditor to read and to print. It needs nothing but itself: style and drawing
stand in it, there is no script, and each step has the rule in the documents' words above what it comes to for this chart."""
import collections
import html
import pathlib

import graph
import words
from notation import transition_text
from rules import RULES
from words import counted, numbers

STYLE = pathlib.Path(__file__).resolve().parent / 'page.css'
MISSING = "Graphviz is not installed: the program 'dot' is needed for the drawing on the page; without --html the derivation is printed as text"


def derive(answer, name):
    """The page of a derivation."""
    title = 'Board timers of %s' % name
    parts = [opening(answer, name), drawn_chart(answer), live_timers(answer), spare_locations(answer), twins(answer), families(answer),
             board_numbers(answer)]
    if 'refused' not in answer:
        parts += [board_timers(answer), rewritten(answer)]
    parts = [part if index == 0 else section(index, *part) for index, part in enumerate(parts)]
    return PAGE % {'title': html.escape(title), 'style': STYLE.read_text(encoding='utf-8'), 'parts': ''.join(parts)}


INTRODUCTION = (
    'How the timers that the chart draws become the timers of a board of %d, step by step; all is numbered from 0. The proved library gives the live '
    'timers, the figures and the rewritten chart; paths, families and reasons come from an independent implementation, and the two were compared.')
PAGE = '''\
<!DOCTYPE html>
<html lang="en">
<head>
<meta charset="utf-8">
<meta name="viewport" content="width=device-width, initial-scale=1">
<title>%(title)s</title>
<style>
%(style)s</style>
</head>
<body>
<main>
%(parts)s</main>
</body>
</html>
'''


def section(number, title, *parts):
    return '<section>\n<h2><span class="step">%d</span> %s</h2>\n%s</section>\n' % (number, title, ''.join(parts))


def rule(name):
    """A rule in the words of the documents, and where it stands."""
    source, text = RULES[name]
    return '<blockquote>\n<p>%s</p>\n<footer>%s</footer>\n</blockquote>\n' % (text, source[0].upper() + source[1:])


def paragraph(text):
    return '<p>%s</p>\n' % text


def cell(content, kind=None, tag='td', **more):
    """A cell of a table; its content is HTML already."""
    attributes = dict(more, **({'class': kind} if kind else {}))
    return '<%s%s>%s</%s>' % (tag, ''.join(' %s="%s"' % entry for entry in attributes.items()), content, tag)


def head(content, kind=None, **more):
    """The cell that names a row."""
    return cell(content, kind, 'th', scope='row', **more)


def table(caption, headings, rows, kind=None):
    """A table; a heading is a text or a text and the class of its column. A row is its cells, or its class and its cells."""
    tops = [cell(*(heading if isinstance(heading, tuple) else (heading, None)), 'th', scope='col') for heading in headings]
    lines = ['<div class="wide">', '<table class="%s">' % kind if kind else '<table>', '<caption>%s</caption>' % caption]
    lines += ['<thead><tr>%s</tr></thead>' % ''.join(tops), '<tbody>']
    for row in rows:
        style, cells = (' class="%s"' % row[0], row[1]) if isinstance(row, tuple) else ('', row)
        lines.append('<tr%s>%s</tr>' % (style, ''.join(cells)))
    return '\n'.join([*lines, '</tbody>', '</table>', '</div>', ''])


def are(count, thing):
    return '%s %s' % (counted(count, thing), 'is' if count == 1 else 'are')


def plain_list(items):
    return '<ul class="plain">%s</ul>' % ''.join('<li>%s</li>' % item for item in items)


def items_text(transition):
    """Event, tests and starts of a transition."""
    return transition_text(transition).partition(' ')[2]


def ends_text(transition):
    return '%d→%d' % (transition['source'], transition['target'])


def family_link(number):
    return '<a href="#family-%d">family %d</a>' % (number, number)


def opening(answer, name):
    """The title, the chart's figures and, for a board that is too small, the refusal."""
    chart = answer['chart']
    of_chart = [('file version', chart['version']), ('locations', chart['locations']), ('timers drawn', chart['timers'])]
    of_chart += [('transitions', len(chart['transitions'])), ('initial', chart['initial']), ('accepting', numbers(chart['accepting']) or 'none')]
    of_board = [('timers used', answer['used']), ('floor' if answer['searched'] else 'seen', answer['floor']), ('board timers', answer['k'])]
    figures = ['<div><dt>%s</dt><dd>%s</dd></div>' % figure for figure in of_chart + of_board]
    figures[len(of_chart)] = figures[len(of_chart)].replace('<div>', '<div class="of-board">', 1)
    refused = ''
    if 'refused' in answer:
        refused = '<div class="refused" role="note">\n<p><b>refused %d %d</b></p>\n<p>%s</p>\n</div>\n' % (
            *answer['refused'], html.escape(answer['reason']))
    return '<header>\n<h1>Board timers of %s</h1>\n<p>%s</p>\n<dl class="figures">%s</dl>\n%s</header>\n' % (
        html.escape(name), INTRODUCTION % answer['k'], ''.join(figures), refused)


def drawn_chart(answer):
    """The drawing and the transitions."""
    accepted = {name: entry for name, entry in answer.items() if name not in ('refused', 'reason')}
    svg = graph.svg_element(graph.dot_text(accepted), MISSING)
    live = 'the live timers, each with its board timer behind >' if 'numbers' in answer else 'the live timers'
    caption = 'The point marks the initial location, double circles accept. In a location, below its number: %s.' % live
    caption += ' The dashed frame has the spare locations.' if answer['spare'] else ''
    figure = '<figure>\n%s<figcaption>%s</figcaption>\n</figure>\n' % (svg, html.escape(caption))
    rows = [[head(r, 'number'), cell(ends_text(transition)), cell(items_text(transition) or 'nothing', None if items_text(transition) else 'none')]
            for r, transition in enumerate(answer['chart']['transitions'])]
    headings = (('no.', 'number'), 'from, to', 'event, tests and starts')
    transitions = table('The transitions', headings, rows) if rows else paragraph('There are no transitions.')
    return 'The chart', '<div class="chart">\n%s%s</div>\n' % (figure, transitions)


def live_timers(answer):
    """Each live timer with a path that shows it."""
    chart, rows, before = answer['chart'], [], None
    live_at = collections.Counter(entry['location'] for entry in answer['live'])
    for entry in answer['live']:
        location, path = entry['location'], entry['path']
        row = [head(location, 'number', rowspan=live_at[location])] if location != before else []
        test = chart['transitions'][path[-1]]
        rows.append(row + [cell(entry['timer'], 'number'), cell(numbers(path)), cell(words.route(chart, path)),
                           cell('%d: %s' % (path[-1], transition_text(test)))])
        before = location
    rounds = 'The live timers were found in %s; the last round changed nothing.' % counted(answer['rounds'], 'round')
    rest = [q for q in range(chart['locations']) if not live_at[q]]
    nothing = ' Nothing is live at %s.' % numbers(rest) if rest and rows else '' if rows else ' Nothing is live anywhere.'
    headings = (('location', 'number'), ('timer', 'number'), 'path, by transitions', 'through', 'which ends in the test on')
    caption = 'A shortest path for each: it ends in a test of the timer, and no earlier transition of it starts the timer'
    return ('Live timers', rule('live'), paragraph(rounds + nothing), table(caption, headings, rows) if rows else '')


def spare_locations(answer):
    """The locations that nothing reaches."""
    if not answer['spare']:
        return 'Spare locations', rule('spare'), paragraph('None: a path from the initial location reaches every location.')
    return 'Spare locations', rule('spare'), paragraph('No path from the initial location reaches %s.' % numbers(answer['spare']))


def twins(answer):
    """The timers that are started together."""
    if not answer['twins']:
        return 'Twins', rule('twins'), paragraph('There are none.')
    groups = [paragraph('Timers %s are twins; timer %d stands for them.' % (numbers(group), group[0])) for group in answer['twins']]
    return ('Twins', rule('twins'), *groups)


def families(answer):
    """Each family with the transitions that link it."""
    rows = []
    for family in answer['families']:
        timer = words.family_timer(family).removeprefix('timer ')
        links = plain_list('transition %d, %s' % (link['transition'], ends_text(link)) for link in family['links']) if family['links'] else 'none'
        number = '64 × %d + %d' % (family['locations'][0], family['timer'])
        rows.append([head(family['number'], 'number', id='family-%d' % family['number']), cell(number), cell(timer),
                     cell(numbers(family['locations'])), cell(links, None if family['links'] else 'none')])
    headings = (('family', 'number'), 'its number', 'timer', 'locations', 'linked by')
    return 'Families', rule('families'), table('The families by rising number', headings, rows) if rows else paragraph('There are none.')


def why(family):
    """Why a family takes its number."""
    held = [str(board) for board in sorted({met['board'] for met in family['meets']})]
    if not held:
        return 'no number is held'
    taken = '%s %s held' % (' and '.join([', '.join(held[:-1]), held[-1]] if len(held) > 1 else held), 'is' if len(held) == 1 else 'are')
    return taken + (', and the board has no other' if family['board'] is None else '')


def board_numbers(answer):
    """The families in turn, each with the earlier ones that it meets and the number that it takes."""
    rows = []
    for family in words.numbered_families(answer):
        meets = plain_list('%s at %s, which holds %d' % (family_link(met['family']), numbers(met['at']), met['board']) for met in family['meets'])
        stuck = family['board'] is None
        cells = [head('<a href="#family-%d">%d</a>' % (family['number'], family['number']), 'number'), cell(family['timer'], 'number'),
                 cell(meets if family['meets'] else 'none', None if family['meets'] else 'none'), cell(why(family)),
                 cell('none' if stuck else family['board'], 'taken')]
        rows.append(('stuck', cells) if stuck else cells)
    headings = (('family', 'number'), ('timer', 'number'), 'earlier families that it meets, at locations', 'so', ('takes', 'number'))
    numbered = table('Each family takes the smallest number that is not held', headings, rows) if rows else paragraph('There is no family.')
    floor = words.floor_line(answer)
    used = paragraph('%s used; the board has %d.' % (are(answer['used'], 'timer'), answer['k'])) if 'refused' not in answer else ''
    return 'Board numbers', rule('numbers'), numbered, used, rule('floor'), paragraph(floor[0].upper() + floor[1:])


def board_timers(answer):
    """The board timer of each drawn timer at each location."""
    if not answer['chart']['timers']:
        return 'The board timers at each location', paragraph('The chart draws no timers.')
    rows = [[head(location), *(cell('–', 'none') if number is None else cell(number, 'held') for number in held)]
            for location, held in enumerate(words.board_rows(answer))]
    headings = ('location', *('timer %d' % timer for timer in range(answer['chart']['timers'])))
    caption = 'Of each drawn timer the board timer; – where it is not live'
    note = paragraph('At each of its locations a family’s timer, and each live twin of it, has the family’s number.')
    return 'The board timers at each location', note, table(caption, headings, rows, 'board-timers')


def rewritten(answer):
    """The transitions as drawn and for the board."""
    rows = []
    for r, (drawn, board) in enumerate(zip(answer['chart']['transitions'], answer['rewritten']['transitions'])):
        before, after = items_text(drawn), items_text(board)
        rows.append([head(r, 'number'), cell(ends_text(drawn)), cell(before or 'nothing', None if before else 'none'),
                     cell(after or 'nothing', 'changed' if after != before else None if after else 'none')])
    note = paragraph('The rewritten chart has %s.' % counted(answer['rewritten']['timers'], 'timer'))
    headings = (('no.', 'number'), 'from, to', 'as drawn', 'for the board')
    caption = 'The transitions, with drawn timers and with board timers; what differs is coloured'
    return 'The chart for the board', rule('rewritten'), note, table(caption, headings, rows) if rows else ''
