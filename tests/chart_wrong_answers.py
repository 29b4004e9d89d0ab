"""Which wrong answers of tests/wrong_library.c must be noticed in which requests to the program `answers` and in which calls of bin/chart."""

REFUSED = ('accepts', 'number', 'place')
READ = ('version', 'locations', 'initial', 'timers', 'accepting', 'transitions', 'list of accepting', 'sources', 'targets', 'events', 'starts',
        'test counts', 'tested timers', 'codes', 'constants', 'refuses')
ANALYSE = ('used', 'floor', 'searched', 'rounds', 'refuses', 'live 0', 'live 1', 'live 2', 'live 3')
STATE = ('turn', 'location', 'time', 'waiting', 'event', 'waiting time', 'count', 'other location', 'other time', 'other count', 'unused count',
         'unused head')
TURN = ('head', 'served', 'taken', 'transition', *STATE, 'refuses')
# chart B's file and its rewritten file have so many bytes
BYTES = tuple('bytes %d' % index for index in range(53))

CHART_B = {
    'version': 1, 'locations': 4, 'initial': 0, 'timers': 2, 'accepting': [3],
    'transitions': [
        {'source': 0, 'target': 1, 'event': 0, 'starts': [0], 'tests': []},
        {'source': 1, 'target': 2, 'event': 0, 'starts': [1], 'tests': [{'timer': 0, 'comparison': 'at most', 'constant': 2}]},
        {'source': 2, 'target': 3, 'event': 0, 'starts': [], 'tests': [{'timer': 1, 'comparison': 'at least', 'constant': 1}]},
    ],
}
TOO_LARGE = dict(CHART_B, transitions=[*CHART_B['transitions'], {
    'source': 0, 'target': 0, 'event': 0, 'starts': [], 'tests': [{'timer': 0, 'comparison': 'equal', 'constant': 65536}]}])


def of(function, *fields):
    return ['%s.%s' % (function, field) for field in fields]


def REQUESTS(charts):
    """Requests, each with the wrong answers that must be noticed in it. The charts are given in hex, by name."""
    a, b, cut, unstarted = (charts[name] for name in ('a', 'b', 'cut', 'never_started'))
    read, analyse = of('read', *READ), of('analyse', *ANALYSE)
    yield {'call': 'read', 'file': b}, read
    yield {'call': 'read', 'file': cut}, of('read', *REFUSED)
    yield {'call': 'write', 'chart': CHART_B}, of('write', 'length', 'refuses', *BYTES)
    yield {'call': 'write', 'chart': TOO_LARGE}, of('write', *REFUSED)
    yield {'call': 'check', 'file': b}, [*read, *analyse]
    yield {'call': 'check', 'file': cut}, of('read', *REFUSED)
    yield {'call': 'check', 'file': unstarted}, of('analyse', *REFUSED)
    yield {'call': 'derive', 'file': b, 'k': 16}, [*analyse, *of('rewrite', 'used', 'length', 'refuses', *BYTES)]
    yield {'call': 'derive', 'file': b, 'k': None}, analyse
    yield {'call': 'derive', 'file': a, 'k': 2}, [*of('analyse', *ANALYSE[:5], 'live 1', 'live 6'), *of('rewrite', *REFUSED)]
    yield {'call': 'derive', 'file': a, 'k': 65}, of('rewrite', *REFUSED)
    yield {'call': 'derive', 'file': cut, 'k': 3}, of('analyse', *REFUSED)
    yield {'call': 'derive', 'file': unstarted, 'k': 3}, of('analyse', *REFUSED)
    yield from plays(b, cut)
    yield from drives(b, cut)


def plays(b, cut):
    """Step lists, refused and not, with wrong answers to all of their steps and to the first ones."""
    for call, first, times in (('play', {}, (5, 7, 8, 4)), ('counter', {'first': 65530}, (65535, 1, 2, 65534))):
        figures = ('location', 'time', 'accepting') if call == 'play' else ('location', 'accepting')
        steps = [[0, times[0]], [1, times[1]], [2, times[2]]]
        request = dict(call=call, file=b, counts=None, **first)
        yield dict(request, steps=steps), of(call, *figures, 'refuses', 'length 1', 'length 2', 'length 3')
        yield dict(request, steps=[]), of(call, *figures, 'refuses')
        yield dict(request, steps=[*steps[:1], steps[2]]), of(call, *REFUSED, 'length 1')
        yield dict(request, steps=steps, counts=[1]), of(call, *REFUSED)
        yield dict(request, steps=steps, file=cut), of('read', *REFUSED)


def drives(b, cut):
    """Two heads: events at both, served and not; refused in set-up, and at an event."""
    heads = [{'file': b, 'block': None, 'counts': None}, {'file': b, 'block': 2, 'counts': [3, 4]}]
    calls = [{'event': [0, 0, 5]}, {'event': [1, 7, 6]}, {'turn': True}, {'turn': True}, {'turn': True}]
    request = {'call': 'drive', 'k': 4, 'heads': heads, 'calls': calls}
    yield request, [*of('set_up', *STATE, 'refuses'), *of('event', *STATE, 'refuses'), *of('turn', *TURN)]
    yield dict(request, calls=[]), of('set_up', *STATE, 'refuses')
    yield dict(request, k=3), of('set_up', *REFUSED, *STATE)
    yield dict(request, heads=[{'file': cut, 'block': None, 'counts': None}]), of('set_up', *REFUSED)
    yield dict(request, calls=[{'event': [2, 0, 5]}]), of('event', *REFUSED, *STATE)


TEXTS = {
    'b.txt': 'locations 4\naccepting 3\ntimers 2\n0→1 starts 0\n1→2 tests 0 at most 2, starts 1\n2→3 tests 1 at least 1\n',
    'steps': '0 5\n1 7\n2 8\n', 'late': '0 5\n1 8\n', 'setup': 'head b.chart\nhead b.chart\n',
    'events': 'head 0 event 0 at 5\nhead 1 event 7 at 6\nturns 3\n', 'wrong_head': 'turn\nhead 2 event 0 at 5\n',
}

# calls of the command, each with wrong answers of each function that it calls
CALLS = (
    ('make b.txt -o out.chart', of('write', 'length', 'refuses', 'bytes 0', 'bytes 20', 'bytes 52')),
    ('make b.txt -o -', of('write', 'length', 'bytes 30')),
    ('show b.chart', of('read', 'locations', 'sources', 'constants', 'refuses')),
    ('show b.chart --json', of('read', 'targets')),
    ('show cut.chart', of('read', *REFUSED)),
    ('check b.chart', [*of('read', 'targets'), *of('analyse', 'used', 'floor', 'searched', 'rounds', 'live 1', 'refuses')]),
    ('check b.chart --json', of('analyse', 'live 2')),
    ('check cut.chart', of('read', *REFUSED)),
    ('check never_started.chart', of('analyse', *REFUSED)),
    ('board -k 16 b.chart', [*of('analyse', 'used', 'floor', 'live 2'), *of('rewrite', 'used', 'length', 'bytes 9', 'bytes 40', 'refuses')]),
    ('board -k 16 b.chart -o out.chart', [*of('analyse', 'searched'), *of('rewrite', 'used', 'bytes 30', 'refuses')]),
    ('board -k 16 b.chart -o -', of('rewrite', 'bytes 52')),
    ('board -k 2 a.chart -o out.chart', of('rewrite', *REFUSED)),
    ('derive -k 16 b.chart', [*of('analyse', 'used', 'rounds', 'live 1'), *of('rewrite', 'used', 'bytes 9', 'refuses')]),
    ('derive -k 16 b.chart -o out.dot', [*of('analyse', 'floor'), *of('rewrite', 'bytes 9')]),
    ('derive -k 16 b.chart --json', of('analyse', 'rounds')),
    ('derive -k 2 a.chart', [*of('analyse', 'used'), *of('rewrite', *REFUSED)]),
    ('draw b.chart', of('analyse', 'live 1', 'refuses')),
    ('draw -k 16 b.chart -o out.dot', [*of('analyse', 'live 1'), *of('rewrite', 'bytes 40', 'refuses')]),
    ('play b.chart steps', [*of('read', 'targets'), *of('play', 'location', 'time', 'accepting', 'length 1', 'length 3', 'refuses')]),
    ('play b.chart late', of('play', *REFUSED, 'length 1')),
    ('play b.chart steps --json', of('play', 'location')),
    ('play --counter b.chart steps', of('counter', 'location', 'accepting', 'length 2', 'refuses')),
    ('play --counter b.chart late', of('counter', *REFUSED, 'length 1')),
    ('drive -k 4 setup events', [*of('set_up', 'location', 'count', 'other count', 'refuses'), *of('event', 'event', 'waiting', 'waiting time'),
                                 *of('turn', 'head', 'served', 'taken', 'transition', 'location', 'count', 'other count', 'turn')]),
    ('drive -k 3 setup events', of('set_up', *REFUSED)),
    ('drive -k 4 setup wrong_head', of('event', *REFUSED)),
    ('drive -k 4 setup events --json', of('turn', 'time')),
)

# programs that break off, print nothing, half a line, two lines, no JSON, no object, an object that is no answer, a fault, or are killed
BROKEN_PROGRAMS = (
    'exit 0\n', 'echo "{}"\n', 'echo \'{"refused":[1,65535]}\'\n',
    'exit 1\n', 'echo "{}"\nexit 1\n', "printf '{\"chart\":'\n", 'echo "{}"\necho "{}"\n', 'echo accepted\n', 'echo "[1]"\n', 'echo\n',
    'echo \'{"fault":"two answers"}\'\n', 'kill -9 $$\n', "printf '\\377\\n'\n",
)
