"""The chart text, in which people draw charts: `parse` reads it, `print_chart` prints a chart in it. docs/NOTATION.md tells it to those who draw.

A chart is a dict, as the command hands it on: version, locations, initial, timers, accepting, transitions; a transition: source, target, event,
starts, tests; a test: timer, comparison, constant. Every number is judged where it stands in the text, so that a chart that was parsed keeps all
limits of the chart file, and a mistake is shown by its line and column.
"""
import unicodedata

from tokens import ARROW, ENDS, LINE_END, WORD, Tokens, listed, value_of

VERSIONS, MOST_LOCATIONS, MOST_TIMERS, MOST_TRANSITIONS, MOST_TESTS, LARGEST_EVENT = 3, 256, 64, 512, 8, 255
LARGEST_CONSTANT = {1: 65535, 2: 4294967295, 3: 4294967295}
# By their codes in the chart file
COMPARISONS = ('at most', 'below', 'at least', 'above', 'equal')

STATEMENTS = ('locations', 'timers', 'location', 'timer', 'initial', 'accepting')
ITEMS = ('event', 'tests', 'starts')
# What names locations or timers stands behind the statement that says how many there are.
COUNTED_BY = {'location': 'locations', 'initial': 'locations', 'accepting': 'locations', 'timer': 'timers'}
WORDS = {'version', *STATEMENTS, *ITEMS, *(word for comparison in COMPARISONS for word in comparison.split())}


def parse(text, name):
    """The chart of a text. `name` is what a mistake's line calls the text."""
    return Reading(text, name).read()


def transition_text(transition):
    """One transition: `2→3 event 7, tests 0 at least 3, 1 below 9, starts 0, 1`."""
    items = ['event %d' % transition['event']] if transition['event'] else []
    tests = ['%d %s %d' % (test['timer'], test['comparison'], test['constant']) for test in transition['tests']]
    items += ['tests ' + ', '.join(tests)] if tests else []
    items += ['starts ' + numbers_text(transition['starts'])] if transition['starts'] else []
    return ' '.join(['%d→%d' % (transition['source'], transition['target']), ', '.join(items)]).rstrip()


def print_chart(chart):
    """The text of a chart, a line feed after each line. `parse` gives the same chart back."""
    lines = ['version %d' % chart['version']] if chart['version'] != 1 else []
    lines += ['locations %d' % chart['locations'], 'initial %d' % chart['initial']]
    lines += ['accepting ' + numbers_text(chart['accepting'])] if chart['accepting'] else []
    lines += ['timers %d' % chart['timers']]
    lines += ['', *map(transition_text, chart['transitions'])] if chart['transitions'] else []
    return ''.join(line + '\n' for line in lines)


def numbers_text(numbers):
    return ', '.join(map(str, numbers))


def one_of(kind, count):
    """How an error says which locations or timers there are."""
    if count == 0:
        return 'no %s, since there are 0 %ss' % (kind, kind)
    return '%s 0' % kind if count == 1 else 'a %s from 0 to %d' % (kind, count - 1)


def composed(text):
    """A word with its letters and their accents put together, so that one name written in two ways is one."""
    return unicodedata.normalize('NFC', text)


def is_name(text):
    """A letter or _, then letters, digits and _. Digits are ASCII digits, as in numbers."""
    return text[0] not in '0123456789' and all(c == '_' or c in '0123456789' or c.isalpha() for c in text)


class Reading:
    """A text on the way from front to back, and its chart as far as it was read."""

    def __init__(self, text, name):
        self.tokens = Tokens(text, name)
        self.chart = {'version': 1, 'locations': 0, 'initial': 0, 'timers': 0, 'accepting': [], 'transitions': []}
        # the statements so far, by their first words, without the transitions
        self.given = []
        # of each name its number
        self.names = {'location': {}, 'timer': {}}

    def read(self):
        while self.tokens.next_statement():
            token = self.tokens.take()
            if token.kind == WORD and token.text in ('version', *STATEMENTS):
                self.judge_order(token)
                self.statement(token.text)
                self.given.append(token.text)
            elif self.begins_transition(token):
                self.transition(token)
            else:
                self.tokens.fail(token, self.statements_here())
        if 'locations' not in self.given:
            self.tokens.fail(self.tokens.peek(), 'locations')
        return self.chart

    def statements_here(self):
        """The statements among which one with an unknown first word may have been meant."""
        if self.chart['transitions']:
            return 'a transition'
        return listed([*([] if self.given else ['version']), *STATEMENTS, 'a transition'], 'or')

    def begins_transition(self, token):
        """Whether a statement that begins so is meant as a transition: by a number, by a location's name, or since an arrow follows."""
        if token.kind != WORD:
            return False
        number = token.text.isascii() and token.text.isdigit()
        return number or composed(token.text) in self.names['location'] or self.tokens.peek().kind == ARROW

    def judge_order(self, token):
        """Whether a statement may stand here."""
        word, fail = token.text, self.tokens.fail
        if word in self.given and word not in ('location', 'timer'):
            fail(token, '%s only once' % word)
        if word == 'version' and self.given:
            fail(token, 'version before all other statements')
        if self.chart['transitions']:
            fail(token, '%s before the first transition' % word)
        if word in COUNTED_BY and COUNTED_BY[word] not in self.given:
            fail(token, '%s before %s' % (COUNTED_BY[word], word))

    def statement(self, word):
        """The rest of a statement that is no transition."""
        chart, take_number = self.chart, self.tokens.take_number
        instead = []
        if word == 'version':
            chart[word] = take_number('a version from 1 to %d' % VERSIONS, 1, VERSIONS)
        elif word == 'locations':
            chart[word] = take_number('a number of locations from 1 to %d' % MOST_LOCATIONS, 1, MOST_LOCATIONS)
        elif word == 'timers':
            chart[word] = take_number('a number of timers from 0 to %d' % MOST_TIMERS, 0, MOST_TIMERS)
        elif word == 'initial':
            chart[word] = self.numbered('location')
        elif word == 'accepting':
            instead = ['a comma']
            self.add_once(chart[word], 'location', 'each accepting location')
            while self.tokens.take_comma():
                self.add_once(chart[word], 'location', 'each accepting location')
        else:
            self.name(word)
        self.tokens.take_end(*instead)

    def name(self, kind):
        """A number and the name that it is given."""
        tokens, names, count = self.tokens, self.names[kind], self.chart[kind + 's']
        token = tokens.peek()
        number = tokens.take_number(one_of(kind, count), 0, count - 1)
        if number in names.values():
            tokens.fail(token, 'a %s that has no name yet' % kind)
        token = tokens.peek()
        name = composed(token.text)
        if token.kind != WORD or not is_name(name):
            tokens.fail(token, 'a name (a letter or _, then letters, digits or _)')
        if name in WORDS:
            tokens.fail(token, 'a name that is no word of the notation')
        if name in names:
            tokens.fail(token, 'another name than that of %s %d' % (kind, names[name]))
        tokens.take()
        names[name] = number

    def number_of(self, token, kind, before=()):
        """The location or timer that a token names, by its number or its name. `before` names what could stand here too."""
        count = self.chart[kind + 's']
        expected = [*before, one_of(kind, count)]
        if token.kind == WORD:
            name = composed(token.text)
            number = self.names[kind].get(name, value_of(token.text, 0, count - 1))
            if number is not None:
                return number
            # a word that is meant as a name, which nothing has
            expected += ['its name' if count == 1 else 'the name of one'] if count and is_name(name) and name not in WORDS else []
        self.tokens.fail(token, listed(expected, 'or'))

    def numbered(self, kind, before=()):
        """The same of the next token."""
        number = self.number_of(self.tokens.peek(), kind, before)
        self.tokens.take()
        return number

    def add_once(self, numbers, kind, what, before=()):
        """Adds the next token's number to a list that rises, whatever the order in the text."""
        token = self.tokens.peek()
        number = self.numbered(kind, before)
        if number in numbers:
            self.tokens.fail(token, '%s only once' % what)
        numbers.append(number)
        numbers.sort()

    def transition(self, first):
        """A transition; `first` is its first token, which is taken already."""
        tokens, transitions = self.tokens, self.chart['transitions']
        if 'locations' not in self.given:
            tokens.fail(first, 'locations before the first transition')
        source = self.number_of(first, 'location')
        if len(transitions) == MOST_TRANSITIONS:
            tokens.fail(first, 'no more than %d transitions' % MOST_TRANSITIONS)
        if tokens.peek().kind != ARROW:
            tokens.fail(tokens.peek(), 'an arrow, → or ->')
        tokens.take()
        transition = {'source': source, 'target': self.numbered('location'), 'event': 0, 'starts': [], 'tests': []}
        if tokens.peek().kind not in ENDS:
            self.items(transition)
        tokens.take_end('a comma')
        transitions.append(transition)

    def items(self, transition):
        """Event, tests and starts. After a comma stands another of them, or another entry of the list at hand."""
        tokens, item, given = self.tokens, None, []
        while True:
            allowed = [word for word in ITEMS if word == 'tests' or word not in given]
            token = tokens.peek()
            if tokens.next_is(*ITEMS):
                item = tokens.take().text
                if item not in allowed:
                    tokens.fail(token, '%s only once' % item)
                given.append(item)
                allowed = []
            elif item in (None, 'event'):
                tokens.fail(token, listed(allowed if item else [*allowed, LINE_END], 'or'))
            self.entry(item, transition, allowed)
            if not tokens.take_comma():
                return

    def entry(self, item, transition, before):
        """An event, a test or a started timer."""
        if item == 'event':
            transition['event'] = self.tokens.take_number('an event from 0 to %d' % LARGEST_EVENT, 0, LARGEST_EVENT)
        elif item == 'starts':
            self.add_once(transition['starts'], 'timer', 'each started timer', before)
        else:
            self.test(transition['tests'], before)

    def test(self, tests, before):
        """A timer, a comparison and a constant."""
        tokens = self.tokens
        token = tokens.peek()
        timer = self.numbered('timer', before)
        if len(tests) == MOST_TESTS:
            tokens.fail(token, 'no more than %d tests' % MOST_TESTS)
        comparison = tokens.take_word(listed(COMPARISONS, 'or'), *(word.split()[0] for word in COMPARISONS))
        if comparison == 'at':
            comparison += ' ' + tokens.take_word('most or least', 'most', 'least')
        largest = LARGEST_CONSTANT[self.chart['version']]
        constant = tokens.take_number('a constant from 0 to %d' % largest, 0, largest)
        tests.append({'timer': timer, 'comparison': comparison, 'constant': constant})
