"""Calls of bin/chart in a folder, and how what they come to is compared."""
import difflib
import os
import pathlib
import subprocess
import sys
import tempfile
import traceback

from chart_files import CHARTS

ROOT = pathlib.Path(__file__).resolve().parent.parent
COMMAND = ROOT / 'bin' / 'chart'
NO_LINE_FEED = '(no line feed at the end)'


class Difference(Exception):
    """What a call came to is not what was expected."""


def call(arguments, folder, command=COMMAND, **options):
    """Runs the command in a folder; its input is empty unless options say otherwise. The answer has bytes."""
    usual = dict(cwd=folder, stdin=subprocess.DEVNULL, stdout=subprocess.PIPE, stderr=subprocess.PIPE)
    if 'input' in options:
        del usual['stdin']
    return subprocess.run([command, *arguments], **{**usual, **options})


def call_inside(arguments, folder):
    """The same without starting Python anew, for tables of many calls: a child of this process runs what bin/chart runs, on standard files of its
    own, of which the first is empty."""
    sys.path.insert(0, str(ROOT / 'command'))
    import cli
    sys.path.pop(0)
    with tempfile.TemporaryFile() as output, tempfile.TemporaryFile() as error:
        child = os.fork()
        if child == 0:
            status = 1
            try:
                os.chdir(folder)
                for number, file in ((0, os.open(os.devnull, os.O_RDONLY)), (1, output.fileno()), (2, error.fileno())):
                    os.dup2(file, number)
                status = cli.main(list(arguments))
            except SystemExit as end:
                status = end.code
            except BaseException:
                os.write(2, traceback.format_exc().encode())
            finally:
                os._exit(status)
        status = os.waitstatus_to_exitcode(os.waitpid(child, 0)[1])
        output.seek(0)
        error.seek(0)
        return subprocess.CompletedProcess(arguments, status, output.read(), error.read())


def lines_of(output, mark=''):
    lines = (output or b'').decode('utf-8', 'backslashreplace').split('\n')
    if lines[-1]:
        lines.append(NO_LINE_FEED)
    else:
        lines.pop()
    return [mark + line for line in lines]


def transcript(ran):
    """What a call came to: the lines of standard output, those of standard error with a mark, the status."""
    return [*lines_of(ran.stdout), *lines_of(ran.stderr, '! '), '= %d' % ran.returncode]


def compare(name, expected, got):
    if got != expected:
        difference = difflib.unified_diff(expected, got, 'expected', 'got', lineterm='', n=99)
        raise Difference('%s\n%s' % (name, '\n'.join(difference)))


def require(holds, name, ran):
    if not holds:
        raise Difference('%s\ngot:\n%s' % (name, '\n'.join(transcript(ran))))


def fill(folder):
    """Puts the charts by name into a folder, and a folder to stumble over."""
    folder = pathlib.Path(folder)
    for path in (ROOT / 'charts').glob('*.chart'):
        (folder / path.name).write_bytes(path.read_bytes())
    for name, file in CHARTS.items():
        (folder / (name + '.chart')).write_bytes(file)
    (folder / 'folder').mkdir()
    return folder


def put(folder, texts):
    for name, text in texts.items():
        (folder / name).write_text(text, encoding='utf-8')


def kept(folder):
    """What stands in a folder."""
    return {str(path.relative_to(folder)): path.read_bytes() for path in folder.rglob('*') if path.is_file()}


def require_one_line(status, words, folder, by=call, **options):
    """A call without a result: that status, one line on standard error, and nothing is written."""
    before = kept(folder)
    ran = by(words, folder, **options)
    error = ran.stderr.decode('utf-8', 'backslashreplace')
    holds = ran.returncode == status and not ran.stdout and error.startswith('chart: ') and error.count('\n') == 1 and error.endswith('\n')
    require(holds and len(error) > len('chart: ..\n'), '%s: status %d and one line are expected' % (words, status), ran)
    require(kept(folder) == before, '%s: nothing is to be written' % words, ran)
    return error
