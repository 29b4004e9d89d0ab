"""Asks the program `answers`, which stands between the command and the proved library: it calls the library and the independent implementation,
compares them and adds what the library does not tell. What is no answer of it is a fault and ends the command."""
import json
import os
import pathlib
import subprocess

from failures import NoAnswer

ROOT = pathlib.Path(__file__).resolve().parent.parent
BUILDER = ROOT / 'command' / 'build'
PROGRAM = ROOT / 'rust' / 'target' / 'release' / 'answers'
MOST_SAID = 300

# what a result must have, by the call
RESULTS = {
    'read': ('chart',),
    'write': ('file',),
    'check': ('chart', 'used', 'floor', 'searched', 'rounds', 'live'),
    'derive': ('chart', 'used', 'floor', 'searched', 'rounds', 'k', 'spare', 'live', 'twins', 'families'),
    'play': ('chart', 'counts', 'steps', 'location', 'time', 'accepting'),
    'counter': ('chart', 'counts', 'steps', 'location', 'accepting'),
    'drive': ('heads', 'calls', 'state'),
}
WITH_BOARD = ('numbers', 'file', 'rewritten')


def ask(request):
    """The answer to a request, a result or a refusal."""
    build()
    line = json.dumps(request, separators=(',', ':'))
    try:
        ran = subprocess.run([PROGRAM], input=line.encode('ascii') + b'\n', stdout=subprocess.PIPE, stderr=subprocess.PIPE)
    except OSError as error:
        raise NoAnswer('fault: the program answers cannot be run: %s' % error.strerror)
    if ran.returncode != 0:
        said = ' '.join(ran.stderr.decode('utf-8', 'replace').split())[:MOST_SAID]
        raise NoAnswer('fault: the program answers broke off with status %d%s' % (ran.returncode, ': ' + said if said else ''))
    answer = read_answer(ran.stdout)
    missing = sorted(due(request, answer) - set(answer))
    if missing:
        raise NoAnswer('fault: the answer to %s has no %s' % (request['call'], ', '.join(missing)))
    return answer


def build():
    """Brings the library and the program up to date; what there is to say the builder says itself. It is a shell, which would complain of a locale
    that the machine lacks."""
    quiet = dict(stdin=subprocess.DEVNULL, stdout=subprocess.DEVNULL, env=dict(os.environ, LC_ALL='C'))
    try:
        status = subprocess.run([BUILDER, 'answers'], **quiet).returncode
    except OSError as error:
        raise NoAnswer('the program answers cannot be built: %s' % error.strerror)
    if status != 0:
        raise NoAnswer('the program answers cannot be built')


def due(request, answer):
    """The entries that an answer must have."""
    if 'refused' in answer:
        return {'reason'}
    return {*RESULTS[request['call']], *(WITH_BOARD if request.get('k') is not None and request['call'] == 'derive' else ())}


def read_answer(output):
    """The one line that was printed, as an answer."""
    lines = output.split(b'\n')
    if len(lines) != 2 or lines[1] or not lines[0]:
        raise NoAnswer('fault: the program answers did not print one line for one request')
    try:
        answer = json.loads(lines[0].decode('utf-8'))
    except ValueError:
        answer = None
    if not isinstance(answer, dict):
        raise NoAnswer('fault: the program answers printed a line that is no JSON object')
    if 'fault' in answer:
        raise NoAnswer('fault: %s' % ' '.join(str(answer['fault']).split()))
    return answer
