"""What each subcommand of bin/chart does: read what it is given, ask, and print or write the answer. Each returns the exit status, 0 for a result and
1 for a refusal. A refusal stands on standard output where the call asks what a file or a list comes to (check, play, drive) or for JSON, else on
standard error."""
import json
import os

import files
import graph
import page
import words
from answers import ask
from failures import WrongCall
from notation import parse, print_chart
from scripts import parse_events, parse_heads, parse_steps
from tokens import TextError, decoded

# how many readings the counter has; after the last it begins anew
READINGS = 65536


def status(answer):
    return 1 if 'refused' in answer else 0


def read_text(name, begins_with=None):
    """A text, and the name by which its mistakes are told. An empty file was hardly meant as a text; a comment alone is one, of no entries."""
    text, shown = decoded(files.read(name), files.shown(name)), files.shown(name)
    if begins_with and not text.strip():
        raise TextError(shown, 1, 1, '%s or a comment' % begins_with, 'an empty text')
    return text, shown


def read_chart(name):
    """The bytes of a chart file, in hex. An empty one was hardly meant as one, and is not asked about."""
    content = files.read(name)
    if not content:
        raise WrongCall('%s is empty' % files.shown(name))
    return content.hex()


def chart_call(call, name, **more):
    """A request on a chart file."""
    return dict(call=call, file=read_chart(name), **more)


def one_standard_input(*names):
    if names.count('-') > 1:
        raise WrongCall('standard input can be read only once')


def tell(answer, options, text):
    """Prints JSON where it is asked for, else the text, refusal or not."""
    files.put_text(json.dumps(answer) + '\n' if options.json else text(answer))
    return status(answer)


def refuse(answer):
    """A refusal on standard error."""
    files.say('\n'.join(words.refusal_lines(answer)))
    return 1


def only(answer, *names):
    """Those entries of an answer."""
    return {name: answer[name] for name in names if name in answer}


def make(options):
    """A chart file from text."""
    answer = ask({'call': 'write', 'chart': parse(*read_text(options.text))})
    if 'refused' in answer:
        return refuse(answer)
    files.write(options.output, bytes.fromhex(answer['file']))
    return 0


def show(options):
    """The text of a chart file."""
    answer = ask(chart_call('read', options.file))
    if 'refused' in answer and not options.json:
        return refuse(answer)
    return tell(answer, options, lambda answer: print_chart(answer['chart']))


def check(options):
    """Accepted, or the refusal."""
    return tell(ask(chart_call('check', options.file)), options, words.check)


def board(options):
    """The rewritten file and the table of board timers."""
    if options.json and options.output == '-':
        raise WrongCall('--json and -o - both print to standard output')
    answer = ask(chart_call('derive', options.file, k=options.k))
    if 'refused' not in answer and options.output is not None:
        files.write(options.output, bytes.fromhex(answer['file']))
        if options.output == '-':
            return 0
    if options.json:
        return tell(only(answer, 'refused', 'reason', 'used', 'floor', 'searched', 'k', 'numbers', 'file'), options, None)
    return refuse(answer) if 'refused' in answer else tell(answer, options, words.board)


def derive(options):
    """How the board numbers come about, as text, page or JSON. With too small a board it is shown up to the family that finds no number."""
    if options.json and options.html:
        raise WrongCall('--json and --html exclude each other')
    request = chart_call('derive', options.file, k=options.k)
    answer = ask(request)
    output = options.output or '-'
    if options.json:
        files.write(output, (json.dumps(answer) + '\n').encode('utf-8'))
        return status(answer)
    if 'families' in answer:
        text = page.derive(answer, files.shown(options.file)) if options.html else words.derive(answer)
        files.write(output, text.encode('utf-8'))
    return refuse(answer) if 'refused' in answer else 0


def draw(options):
    """The drawing, of a chart refused with 9 or 10 too."""
    output = options.output or '-'
    kind = graph.kind_of(output)
    request = chart_call('derive', options.file, k=options.k)
    answer = ask(request)
    unreached_or_unstarted = 'refused' in answer and answer['refused'][0] in (9, 10)
    if 'refused' not in answer or unreached_or_unstarted:
        dot = graph.dot_text(ask(dict(call='check', file=request['file'])) if unreached_or_unstarted else answer)
        files.write(output, (dot if kind == 'dot' else graph.svg_file(dot)).encode('utf-8'))
    return refuse(answer) if 'refused' in answer else 0


def play(options):
    """A step list, by times or by readings of a counter."""
    one_standard_input(options.file, options.steps)
    if options.first is not None and not options.counter:
        raise WrongCall('--first goes with --counter')
    request = chart_call('read', options.file)
    steps = read_text(options.steps, 'a step')
    answer = ask(request)
    if 'refused' in answer:
        return tell(answer, options, words.check)
    steps = parse_steps(*steps, answer['chart'])
    request.update(counts=options.counts)
    if not options.counter:
        return tell(ask(dict(request, call='play', steps=steps)), options, words.play)
    first = options.first or 0
    readings = [[transition, (first + time) % READINGS] for transition, time in steps]
    return tell(ask(dict(request, call='counter', first=first, steps=readings)), options, lambda answer: words.play_counter(answer, first))


def drive(options):
    """Several heads, driven by events and turns."""
    one_standard_input(options.setup, options.events)
    setup, events = read_text(options.setup, 'head'), read_text(options.events, 'head, turn, turns')
    heads, calls = parse_heads(*setup), parse_events(*events)
    folder = os.path.dirname(options.setup) or os.curdir
    for head in heads:
        head['file'] = read_chart(os.path.join(folder, head['file']))
    return tell(ask({'call': 'drive', 'k': options.k, 'heads': heads, 'calls': calls}), options, words.drive)
