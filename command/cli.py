"""The arguments of bin/chart, by argparse, and how the command ends: 0 a result, 1 a refusal, 2 a wrong call, 3 no answer. A wrong call and no answer
are one line on standard error."""
import argparse

import files
import subcommands
from failures import Failure, WrongCall
from scripts import parse_counts
from tokens import DIGITS, TextError, shown, value_of

LARGEST_K = 4294967295
LARGEST_READING = 65535


class Layout(argparse.RawDescriptionHelpFormatter):
    """Help of one width, whatever the window's; descriptions and examples stand as they are written."""

    def __init__(self, prog):
        super().__init__(prog, max_help_position=20, width=100)


class Parser(argparse.ArgumentParser):
    """A parser whose errors are one line, and whose help is UTF-8."""

    def __init__(self, **words):
        super().__init__(formatter_class=Layout, allow_abbrev=False, **words)

    def error(self, message):
        raise WrongCall('%s; see %s --help' % (' '.join(message.split()), self.prog))

    def print_help(self, file=None):
        files.put_text(self.format_help())


def board_timers(text):
    """K; which numbers are too large for a board the library says."""
    k = value_of(text, 0, LARGEST_K)
    if k is None:
        raise WrongCall('K is a number, not %s' % shown(text) if not DIGITS.fullmatch(text) else 'K is at most %d, not %s' % (LARGEST_K, text))
    return k


def starting_counts(text):
    """A list of numbers with commas between."""
    return parse_counts(text, '--counts')


def reading(text):
    """A reading of the counter."""
    value = value_of(text, 0, LARGEST_READING)
    if value is None:
        raise WrongCall('a reading of the counter is a number from 0 to %d, not %s' % (LARGEST_READING, shown(text)))
    return value


DESCRIPTION = '''\
Timing charts: written as text, checked, given the timers of a board, derived step by step, drawn,
played and driven. The proved library gives every answer. A FILE of - is standard input.'''

EPILOG = '''\
exit status:
  0  a result
  1  a refusal: its number and place, and a sentence that says why
  2  a wrong call: an argument, a file or a text is wrong, or an output cannot be written
  3  no answer: a fault, a program that cannot be built, or Graphviz is missing

examples:
  chart make charts/a.txt -o a.chart
  chart check a.chart
  chart board -k 3 a.chart -o board.chart
  chart derive -k 3 a.chart --html -o a.html
  chart board --help'''


def add(subparsers, name, does, example):
    """A subcommand with its one line, its example and the function that it calls."""
    words = dict(help=does, description=does[0].upper() + does[1:] + '.', epilog='example:\n' + example)
    parser = subparsers.add_parser(name, prog='chart ' + name, **words)
    parser.set_defaults(run=getattr(subcommands, name), parser=parser)
    return parser


def add_file(parser):
    parser.add_argument('file', metavar='FILE', help='a chart file, or - for standard input')


def add_k(parser, required=True):
    parser.add_argument('-k', metavar='K', type=board_timers, required=required, help='the number of board timers')


def add_json(parser):
    parser.add_argument('--json', action='store_true', help='print one JSON object, also for a refusal')


def add_output(parser, what, required=False):
    parser.add_argument('-o', metavar='OUT', dest='output', required=required, help=what)


def add_texts(subparsers):
    """The subcommands for text, and the judgement."""
    parser = add(subparsers, 'make', 'writes a chart file from text', '''\
  printf 'locations 2\\naccepting 1\\ntimers 1\\n0→1 starts 0\\n1→1 tests 0 at least 3\\n' |
    chart make - -o two.chart''')
    parser.add_argument('text', metavar='TEXT', help='a text in the notation of charts, or - for standard input')
    add_output(parser, 'the chart file; - for standard output', required=True)
    parser = add(subparsers, 'show', 'prints the text of a chart file; make gives the file back', '  chart show charts/b.chart')
    add_file(parser)
    add_json(parser)
    parser = add(subparsers, 'check', 'prints `accepted`, or the refusal with its reason', '  chart check charts/b.chart')
    add_file(parser)
    add_json(parser)


def add_boards(subparsers):
    """The subcommands for the timers of a board."""
    parser = add(subparsers, 'board', 'prints the board timer of each drawn timer at each location, and writes the rewritten chart file',
                 '  chart board -k 3 charts/a.chart -o board.chart')
    add_k(parser)
    add_file(parser)
    add_output(parser, 'the rewritten chart file; - prints it alone on standard output')
    add_json(parser)
    parser = add(subparsers, 'derive', 'prints how the board numbers of a chart come about, step by step',
                 '  chart derive -k 3 charts/a.chart\n  chart derive -k 3 charts/a.chart --html -o a.html')
    add_k(parser)
    add_file(parser)
    parser.add_argument('--html', action='store_true', help='as one HTML page with the drawing, by Graphviz')
    add_output(parser, 'write to OUT in place of standard output')
    add_json(parser)
    parser = add(subparsers, 'draw', 'draws a chart with its live timers, as dot or, by Graphviz, as SVG',
                 '  chart draw -k 3 charts/a.chart -o a.svg')
    add_k(parser, required=False)
    add_file(parser)
    add_output(parser, 'NAME.svg, or NAME.dot or NAME.gv; without it dot is printed')


def add_runs(subparsers):
    """The subcommands that run charts."""
    parser = add(subparsers, 'play', 'plays a list of steps and prints the counts after each', '''\
  printf '0 5\\n1→2 at 7\\n2 8\\n' | chart play charts/b.chart -
  (a step a line: a transition, or source→target, and a time)''')
    add_file(parser)
    parser.add_argument('steps', metavar='STEPS', help='a text of steps, or - for standard input')
    parser.add_argument('--counts', metavar='LIST', type=starting_counts, help='starting counts, one for each timer, such as 0,5; 0 each if left out')
    parser.add_argument('--counter', action='store_true', help='on the board that has a counter of 16 bits and no timers')
    parser.add_argument('--first', metavar='READING', type=reading, help='with --counter: the reading at tick 0; 0 if left out')
    add_json(parser)
    parser = add(subparsers, 'drive', 'drives several heads, each with its chart, by events and turns', '''\
  printf 'head charts/b.chart block 2\\nhead charts/a.chart\\n' >two.setup
  printf 'head 0 event 0 at 12\\nturns 2\\n' | chart drive -k 5 two.setup -''')
    add_k(parser)
    parser.add_argument('setup', metavar='SETUP', help='a text, a line a head: head FILE block N counts a, b, c')
    parser.add_argument('events', metavar='EVENTS', help='a text of calls: head 0 event 7 at 12, turn, turns 8')
    add_json(parser)


def arguments(words):
    """The arguments as argparse reads them; words that no subcommand takes are its error."""
    parser = Parser(prog='chart', description=DESCRIPTION, epilog=EPILOG)
    subparsers = parser.add_subparsers(title='subcommands', metavar='SUBCOMMAND', required=True)
    add_texts(subparsers)
    add_boards(subparsers)
    add_runs(subparsers)
    options, unknown = parser.parse_known_args(words)
    if unknown:
        options.parser.error('not expected: %s' % ' '.join(files.shown(word) for word in unknown))
    return options


def main(words):
    """Runs a call; the exit status."""
    files.hold_standard_files()
    try:
        options = arguments(words)
        return options.run(options)
    except Failure as failure:
        files.say('chart: %s' % failure)
        return failure.status
    except TextError as error:
        files.say('chart: %s' % error)
        return WrongCall.status
    except KeyboardInterrupt:
        return 130
