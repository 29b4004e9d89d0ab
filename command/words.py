"""Answers in words, as bin/chart prints them. Nothing is computed here but how wide a column is: every number is one of the answer's, and numbers are
printed as document 01 prints them. Each text has a line feed after each line."""
from notation import transition_text

LIVE = 'A timer is live where a path begins that ends in a test of it and starts it nowhere before.'
SPARE = 'Spare locations, which no path from the initial location reaches; nothing is live there and their transitions do not count:'
TWINS = 'Twins, which every transition starts together or not at all; the lowest of them stands for all:'
FAMILIES = ('Families: a live timer at the locations that transitions link which do not start it. '
            'The number is 64 times the lowest location plus the timer.')
NUMBERS = 'Board numbers: families by rising number, each the smallest number that no earlier family which it meets holds.'


def numbers(values):
    """Numbers with commas between."""
    return ', '.join(map(str, values))


def counted(count, thing):
    """A number of things."""
    return '%d %s%s' % (count, thing, '' if count == 1 else 's')


def text_of(lines):
    return ''.join(line + '\n' for line in lines)


def refusal_lines(answer):
    """The two lines of a refusal; none for a result."""
    return ['refused %d %d' % tuple(answer['refused']), answer['reason']] if 'refused' in answer else []


def check(answer):
    """Accepted, or the refusal."""
    return text_of(refusal_lines(answer) or ['accepted'])


def figures(answer):
    """The program's first line: the timers used, the floor or what was seen, the board's timers."""
    return 'used %d %s %d limit %d' % (answer['used'], 'floor' if answer['searched'] else 'seen', answer['floor'], answer['k'])


def board_rows(answer):
    """Of each location the board timer of each drawn timer, None where it is not live."""
    for held in answer['numbers']:
        number_of = dict(held)
        yield [number_of.get(timer) for timer in range(answer['chart']['timers'])]


def board(answer):
    """The figures, and a row for each location with a column for each drawn timer."""
    timers = answer['chart']['timers']
    if not timers:
        return text_of([figures(answer)])
    rows = [['at', *map(str, range(timers))]]
    for location, held in enumerate(board_rows(answer)):
        rows.append([str(location), *('-' if number is None else str(number) for number in held)])
    widths = [max(map(len, column)) for column in zip(*rows)]
    return text_of([figures(answer), *('  '.join(map(str.rjust, row, widths)) for row in rows)])


def play(answer):
    """A row for each step with the counts after it, and what it came to."""
    if 'steps' not in answer:
        return text_of(refusal_lines(answer))
    chart = answer['chart']
    rows = [('start', '-', 0, chart['initial'], answer['counts'])]
    rows += [(i, step['transition'], step['time'], step['location'], step['counts']) for i, step in enumerate(answer['steps'])]
    end = '' if 'refused' in answer else 'location %d time %d %s' % (answer['location'], answer['time'], accepting(answer))
    return text_of([*step_rows(('step', 'transition', 'time', 'location', 'counts'), rows), *(refusal_lines(answer) or [end])])


def play_counter(answer, first):
    """The same on the counter board, which has readings in place of times."""
    if 'steps' not in answer:
        return text_of(refusal_lines(answer))
    names = ('transition', 'reading', 'passed', 'location', 'counts')
    rows = [('start', '-', first, 0, answer['chart']['initial'], answer['counts'])]
    rows += [(i, *(step[name] for name in names)) for i, step in enumerate(answer['steps'])]
    end = '' if 'refused' in answer else 'location %d %s' % (answer['location'], accepting(answer))
    return text_of([*step_rows(('step', *names), rows), *(refusal_lines(answer) or [end])])


def accepting(answer):
    return 'accepting' if answer['accepting'] else 'not accepting'


def step_rows(heading, rows):
    """The step to the left, its numbers below their names to the right, the counts as they come. The word `start` reaches into the gap behind its
    column."""
    columns = [[str(row[i]) for row in rows] for i in range(1, len(heading) - 1)]
    widths = [max(len(name), *map(len, column)) for name, column in zip(heading[1:], columns)]
    first = max(len(heading[0]), len(str(rows[-1][0])) if len(rows) > 1 else 0) + 2
    yield heading[0].ljust(first) + '  '.join([*map(str.rjust, heading[1:], widths), heading[-1]])
    for row in rows:
        middle = [str(value).rjust(width) for value, width in zip(row[1:], widths)]
        yield str(row[0]).ljust(first) + '  '.join([*middle, ' '.join(map(str, row[-1])) or '-'])


def counts_text(counts):
    return 'counts ' + ' '.join(map(str, counts)) if counts else 'no counts'


def drive(answer):
    """The heads as set up, a line for each call, the refusal if there is one, and the heads at the end."""
    if 'calls' not in answer:
        return text_of(refusal_lines(answer))
    lines, begin = [], 0
    for head, entry in enumerate(answer['heads']):
        block = 'block %d to %d' % (begin, begin + entry['block'] - 1) if entry['block'] else 'no block'
        lines.append('head %d: %s, location %d, %s' % (head, block, entry['chart']['initial'], counts_text(entry['counts'])))
        begin += entry['block']
    lines += [*map(call_line, answer['calls']), *refusal_lines(answer)]
    for head, state in enumerate(answer['state']['heads']):
        waiting = state['waiting']
        waits = ', event %d at %d waits' % (waiting['event'], waiting['time']) if waiting else ''
        lines.append('head %d at location %d, time %d%s' % (head, state['location'], state['time'], waits))
    return text_of(lines)


def call_line(call):
    """What a call of the controller did."""
    if call['call'] == 'event':
        return 'head %d receives event %d at %d' % (call['head'], call['event'], call['time'])
    turn = 'turn of head %d: ' % call['head']
    if call['report'] == 'nothing':
        return turn + 'nothing waits'
    taken = 'none'
    if call['report'] == 'taken':
        taken = 'transition %d, %d→%d' % (call['transition'], call['source'], call['location'])
    return turn + 'serves event %d at %d, takes %s, %s' % (call['event'], call['time'], taken, counts_text(call['counts']))


def heading(chart):
    """A chart's figures in one line."""
    parts = [counted(chart['locations'], 'location'), counted(chart['timers'], 'timer'), counted(len(chart['transitions']), 'transition')]
    parts += ['initial %d' % chart['initial'], 'accepting %s' % (numbers(chart['accepting']) or 'none')]
    return 'chart of version %d: %s' % (chart['version'], ', '.join(parts))


def section(title, lines):
    """An empty line, a title and its lines below it, set in; `none` if there are none."""
    return ['', title, *('  ' + line for line in list(lines) or ['none'])]


def transition_lines(chart):
    return ['%d: %s' % entry for entry in enumerate(map(transition_text, chart['transitions']))]


def route(chart, path):
    """The locations along a path: `1→2→3`."""
    ends = [chart['transitions'][r] for r in path]
    return '→'.join(map(str, [ends[0]['source'], *(end['target'] for end in ends)]))


def live_line(chart, entry):
    """A live timer with the path that shows it."""
    path = entry['path']
    shown = '%s (%s)' % (numbers(path), route(chart, path))
    return 'at %d timer %d: path %s, transition %d tests it' % (entry['location'], entry['timer'], shown, path[-1])


def link_text(link):
    ends = '%d to itself' % link['source'] if link['source'] == link['target'] else '%d and %d' % (link['source'], link['target'])
    return 'transition %d links %s' % (link['transition'], ends)


def family_timer(family):
    """The timer of a family, and the twins that are live in it where they are others than it alone."""
    live = family['timers']
    twins = '' if live == [family['timer']] else ' for %s %s' % ('twin' if len(live) == 1 else 'twins', numbers(live))
    return 'timer %d%s' % (family['timer'], twins)


def family_line(family):
    """A family with its locations and what links them."""
    links = ', '.join(map(link_text, family['links'])) or 'no links'
    return 'family %d, %s, at %s: %s' % (family['number'], family_timer(family), numbers(family['locations']), links)


def meets_text(family):
    """Which earlier families a family meets, where, and what they hold."""
    meets = ['family %d at %s, which holds %d' % (met['family'], numbers(met['at']), met['board']) for met in family['meets']]
    if not meets:
        return 'meets no earlier family'
    return 'meets ' + ', and '.join([', '.join(meets[:-1]), meets[-1]] if len(meets) > 1 else meets)


def taken_text(family, k):
    """The number that a family takes."""
    return 'finds no number below %d' % k if family['board'] is None else 'takes %d' % family['board']


def numbered_families(answer):
    """The families up to the one that finds no number, if there is one."""
    for family in answer['families']:
        yield family
        if family['board'] is None:
            return


def number_line(family, k):
    """Why a family has its number."""
    return 'family %d %s: %s' % (family['number'], meets_text(family), taken_text(family, k))


def floor_line(answer):
    """What the floor is."""
    if answer['searched']:
        return 'floor %d is the fewest timers of any plan, found by search.' % answer['floor']
    return 'seen %d is the fullest live set, twins counted once; over 20 families are not searched.' % answer['floor']


def derive(answer):
    """The derivation from the transitions to the rewritten chart, or to the family that finds no number."""
    chart, spare, twins = answer['chart'], answer['spare'], answer['twins']
    lines = [heading(chart), *section('Transitions', transition_lines(chart))]
    rounds = 'Live timers, found in %s. ' % counted(answer['rounds'], 'round')
    lines += section(rounds + LIVE, (live_line(chart, entry) for entry in answer['live']))
    lines += section(SPARE, [numbers(spare)]) if spare else ['', 'Spare locations: none']
    lines += section(TWINS, map(numbers, twins)) if twins else ['', 'Twins: none']
    lines += section(FAMILIES, map(family_line, answer['families']))
    lines += section(NUMBERS, (number_line(family, answer['k']) for family in numbered_families(answer)))
    if 'refused' not in answer:
        lines += ['', figures(answer), floor_line(answer), *section('Rewritten for the board', transition_lines(answer['rewritten']))]
    return text_of(lines)
