"""The texts beside the chart's: steps for the player, heads and events for the controller. Lines and `#` comments are as in the chart text
(notation.py), and mistakes are shown in the same way.

A number is refused here only if it does not fit the call that it is meant for; whether a chart has the transition, or a controller the head, is
answered by the call.
"""
from tokens import ARROW, Tokens, listed

# What the calls take: 32 bits for a transition, a head and a starting count, 64 for a time and a block, 8 for an event
LARGEST_32, LARGEST_64, LARGEST_EVENT = 2 ** 32 - 1, 2 ** 64 - 1, 255
# `turns N` is N calls, each with a line of the answer
MOST_TURNS = 65536

TRANSITION = 'a transition from 0 to %d' % LARGEST_32
TIME = 'a time from 0 to %d' % LARGEST_64
COUNT = 'a count from 0 to %d' % LARGEST_32


def parse_steps(text, name, chart):
    """The steps of a text, each `[transition, time]`. The chart tells which transition `source→target` is."""
    tokens, steps = Tokens(text, name), []
    while tokens.next_statement():
        transition = step_transition(tokens, chart['transitions'])
        if tokens.next_is('at'):
            tokens.take()
        steps.append([transition, tokens.take_number(TIME, 0, LARGEST_64)])
        tokens.take_end()
    return steps


def step_transition(tokens, transitions):
    """The transition of a step, by its number or by its source and target."""
    first = tokens.peek()
    number = tokens.take_number(TRANSITION, 0, LARGEST_32)
    if tokens.peek().kind != ARROW:
        return number
    tokens.take()
    target = tokens.take_number('a location', 0, LARGEST_32)
    fitting = [r for r, transition in enumerate(transitions) if (transition['source'], transition['target']) == (number, target)]
    if len(fitting) != 1:
        which = 'none is' if not fitting else 'transitions %s are' % listed([str(r) for r in fitting], 'and')
        tokens.fail(first, 'a transition', '%d→%d, which %s' % (number, target, which))
    return fitting[0]


def parse_counts(text, name):
    """Starting counts with commas between them: `0, 5, 16777215`. There may be none."""
    tokens = Tokens(text, name)
    counts = take_counts(tokens) if tokens.next_statement() else []
    if tokens.next_statement():
        tokens.fail(tokens.peek(), 'a comma or the end of the counts')
    return counts


def take_counts(tokens):
    counts = [tokens.take_number(COUNT, 0, LARGEST_32)]
    while tokens.take_comma():
        counts.append(tokens.take_number(COUNT, 0, LARGEST_32))
    return counts


def parse_heads(text, name):
    """The heads of a text, each `{'file': path, 'block': n, 'counts': [..]}`; None where block or counts are left out."""
    tokens, heads = Tokens(text, name), []
    while tokens.next_statement():
        tokens.take_word('head', 'head')
        head = {'file': tokens.path('a file'), 'block': None, 'counts': None}
        instead = ['block', 'counts']
        if tokens.next_is('block'):
            tokens.take()
            head['block'] = tokens.take_number('a block from 0 to %d' % LARGEST_64, 0, LARGEST_64)
            instead = ['counts']
        if tokens.next_is('counts'):
            tokens.take()
            head['counts'] = take_counts(tokens)
            instead = ['a comma']
        tokens.take_end(*instead)
        heads.append(head)
    return heads


def parse_events(text, name):
    """The calls of a text, each `{'event': [head, event, time]}` or `{'turn': True}`."""
    tokens, calls = Tokens(text, name), []
    while tokens.next_statement():
        word = tokens.take_word('head, turn or turns', 'head', 'turn', 'turns')
        if word == 'head':
            calls.append({'event': take_event(tokens)})
        else:
            turns = 1 if word == 'turn' else tokens.take_number('a number of turns from 0 to %d' % MOST_TURNS, 0, MOST_TURNS)
            calls += [{'turn': True} for _ in range(turns)]
        tokens.take_end()
    return calls


def take_event(tokens):
    """The rest of `head 0 event 7 at 12`."""
    head = tokens.take_number('a head from 0 to %d' % LARGEST_32, 0, LARGEST_32)
    tokens.take_word('event', 'event')
    event = tokens.take_number('an event from 0 to %d' % LARGEST_EVENT, 0, LARGEST_EVENT)
    tokens.take_word('at', 'at')
    return [head, event, tokens.take_number(TIME, 0, LARGEST_64)]
