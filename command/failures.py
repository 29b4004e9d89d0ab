"""What ends the command before it has an answer: a sentence for standard error, and the exit status."""


class Failure(Exception):
    """Ends the command with one line, `chart: SENTENCE`, and the status of its kind."""


class WrongCall(Failure):
    """The arguments, a file or a text are wrong, or an output cannot be written."""
    status = 2


class NoAnswer(Failure):
    """There is no answer: a fault, or a program that cannot be built or is missing."""
    status = 3
