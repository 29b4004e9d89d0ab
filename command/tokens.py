"""The tokens of the texts that people write: charts (notation.py), steps, heads and events (scripts.py). Each has its line and its column, so that
a mistake is shown where it stands.

A token is a word, an arrow (`→` or `->`), a comma, the end of a statement (`;`, the line's end) or the text's end. A word is all that stands between
these and blanks. So `3a`, `-3` or a number with a character that cannot be seen is shown whole, and never taken for the number that is a part of it.
"""
import collections
import re

Token = collections.namedtuple('Token', 'kind text line column')

WORD, ARROW, COMMA, SEMICOLON, LINE_END, TEXT_END = 'word', 'arrow', 'comma', 'semicolon', 'the end of the line', 'the end of the text'
ENDS = (SEMICOLON, LINE_END, TEXT_END)
KINDS = {'→': ARROW, '->': ARROW, ',': COMMA, ';': SEMICOLON, '\n': LINE_END, '\r\n': LINE_END, '': TEXT_END}

BYTE_ORDER_MARK = '\ufeff'
BETWEEN_TOKENS = re.compile(r'[ \t]*(?:#(?:(?!\r\n)[^\n])*)?')
# Nothing is matched at the text's end alone: every other character is one of a token, or stands between tokens.
TOKEN = re.compile(r'\r\n|\n|,|;|→|->|(?:(?!\r\n|->)[^ \t\n,;#→])+|')
PATH = re.compile(r'"((?:(?!\r\n)[^"\n])*)("?)|(?:(?!\r\n)[^ \t\n])+')
CONTROL_CHARACTER = re.compile('[\x00-\x1f\x7f-\x9f]')
DIGITS = re.compile('[0-9]+')
# A longer word is told by its length, since the line that shows a mistake is to be read at a glance.
LONGEST_SHOWN = 60


class TextError(Exception):
    """What was expected at a place of a text, and what was found there. Its text is the line that people read."""

    def __init__(self, name, line, column, expected, found):
        super().__init__('%s:%d:%d: expected %s, found %s' % (name, line, column, expected, found))
        self.name, self.line, self.column, self.expected, self.found = name, line, column, expected, found


def decoded(data, name):
    """The text of a file's bytes, which are UTF-8."""
    try:
        return data.decode('utf-8')
    except UnicodeDecodeError as error:
        lines = data[:error.start].decode('utf-8').removeprefix(BYTE_ORDER_MARK).split('\n')
        raise TextError(name, len(lines), len(lines[-1]) + 1, 'a text in UTF-8', 'the byte %02x' % data[error.start]) from None


def shown(text):
    """A word as an error shows it: in quotes, with the code of each character that cannot be seen."""
    if len(text) > LONGEST_SHOWN:
        return 'a number of %d digits' % len(text) if DIGITS.fullmatch(text) else 'a word of %d characters' % len(text)
    return "'%s'" % ''.join(c if c.isprintable() else '<U+%04X>' % ord(c) for c in text)


def value_of(text, least, most):
    """The number from `least` to `most` that a word is, or None. A number is ASCII digits; however many there are, none is cut."""
    digits = text.lstrip('0') or '0'
    if not DIGITS.fullmatch(text) or len(digits) > len(str(most)):
        return None
    value = int(digits)
    return value if least <= value <= most else None


def listed(words, last):
    """`a, b or c`, where the last word is `or`."""
    return words[0] if len(words) == 1 else '%s %s %s' % (', '.join(words[:-1]), last, words[-1])


class Tokens:
    """The tokens of a text one after the other. Only the next one is looked at ahead, since a path is read otherwise (`path`)."""

    def __init__(self, text, name):
        self.text, self.name = text, name
        self.at = 1 if text.startswith(BYTE_ORDER_MARK) else 0
        self.line, self.line_begin = 1, self.at
        self.ahead = None

    def token(self, kind, text):
        return Token(kind, text, self.line, self.at - self.line_begin + 1)

    def peek(self):
        """The next token, which stays the next one."""
        if self.ahead is None:
            self.at = BETWEEN_TOKENS.match(self.text, self.at).end()
            text = TOKEN.match(self.text, self.at).group()
            self.ahead = self.token(KINDS.get(text, WORD), text)
        return self.ahead

    def take(self):
        """The next token, behind which the one after it is the next."""
        token = self.peek()
        self.ahead = None
        self.at += len(token.text)
        if token.kind == LINE_END:
            self.line, self.line_begin = self.line + 1, self.at
        return token

    def fail(self, token, expected, found=None):
        """Ends the reading at a token. `found` is in place of the token as it stands."""
        kind = token.kind if token.kind in (LINE_END, TEXT_END) else shown(token.text)
        raise TextError(self.name, token.line, token.column, expected, kind if found is None else found)

    def next_is(self, *words):
        """Whether the next token is one of these words."""
        token = self.peek()
        return token.kind == WORD and token.text in words

    def take_word(self, expected, *words):
        """One of these words."""
        if not self.next_is(*words):
            self.fail(self.peek(), expected)
        return self.take().text

    def take_number(self, expected, least, most):
        """A number from `least` to `most`."""
        token = self.peek()
        value = value_of(token.text, least, most) if token.kind == WORD else None
        if value is None:
            self.fail(token, expected)
        self.take()
        return value

    def take_comma(self):
        """Whether a comma comes next; it is taken."""
        comma = self.peek().kind == COMMA
        if comma:
            self.take()
        return comma

    def take_end(self, *instead):
        """The end of a statement. `instead` names what could stand in its place."""
        if self.peek().kind not in ENDS:
            self.fail(self.peek(), listed([*instead, LINE_END], 'or'))
        self.take()

    def next_statement(self):
        """Whether another statement begins; empty ones are passed over."""
        while self.peek().kind in (SEMICOLON, LINE_END):
            self.take()
        return self.peek().kind != TEXT_END

    def path(self, expected):
        """The path of a file: all up to the next blank, or what stands in double quotes."""
        begin = self.peek()
        if begin.kind in (LINE_END, TEXT_END):
            self.fail(begin, expected)
        self.ahead = None
        match = PATH.match(self.text, self.at)
        quoted, closed = match.group(1), match.group(2)
        control = CONTROL_CHARACTER.search(match.group())
        if control or quoted == '' and closed:
            self.fail(begin, expected, shown(match.group()))
        self.at = match.end()
        if quoted is not None and not closed:
            self.fail(self.peek(), 'a double quote at the end of the file\'s name')
        return match.group() if quoted is None else quoted
