"""Files, standard input and standard output. What is read is read whole; what is written stands under its name whole or not at all. Texts are UTF-8,
whatever the environment says."""
import os
import stat
import sys
import tempfile

from failures import WrongCall

# The largest chart file has 62,478 bytes; what is far larger is not read to its end.
MOST_BYTES = 1 << 24


def shown(name):
    """The name of a file as messages have it: in one line, whatever characters it has."""
    if name == '-':
        return 'standard input'
    return name if name.isprintable() and name else repr(name)


def why(error, missing='file'):
    """Why a file cannot be read or written, in words."""
    if isinstance(error, FileNotFoundError):
        return 'there is no such %s' % missing
    if isinstance(error, IsADirectoryError):
        return 'it is a folder'
    if isinstance(error, PermissionError):
        return 'that is not permitted'
    return getattr(error, 'strerror', None) or str(error)


def read(name):
    """The bytes of a file, or of standard input for `-`."""
    try:
        with open(0 if name == '-' else name, 'rb', closefd=name != '-') as file:
            content = file.read(MOST_BYTES + 1)
    except (OSError, ValueError) as error:
        raise WrongCall('%s cannot be read: %s' % (shown(name), why(error)))
    if len(content) > MOST_BYTES:
        raise WrongCall('%s cannot be read: it has over %d bytes' % (shown(name), MOST_BYTES))
    return content


def write(name, content):
    """Bytes into a file, or to standard output for `-`. A file is written beside and then renamed, so that no half of it is ever seen; what is no
    file, such as a device or a pipe, cannot be renamed and is written to as it is."""
    if name == '-':
        put(content)
        return
    try:
        if name.endswith(os.sep):
            raise IsADirectoryError
        path = os.path.realpath(name)
        there = os.path.lexists(path)
        if there and not stat.S_ISREG(os.stat(path).st_mode):
            with open(path, 'wb') as file:
                file.write(content)
        elif there and not os.access(path, os.W_OK):
            raise PermissionError
        else:
            write_beside(path, content, stat.S_IMODE(os.stat(path).st_mode) if there else mode_of_new_files())
    except (OSError, ValueError) as error:
        raise WrongCall('%s cannot be written: %s' % (shown(name), why(error, 'folder')))


def write_beside(path, content, mode):
    """Writes a file under another name in the same folder and renames it; if that fails, nothing is left."""
    handle, beside = tempfile.mkstemp(prefix='.chart-', dir=os.path.dirname(path))
    try:
        with open(handle, 'wb') as file:
            file.write(content)
            file.flush()
            os.fchmod(handle, mode)
            os.fsync(handle)
        os.replace(beside, path)
    except BaseException:
        os.unlink(beside)
        raise


def mode_of_new_files():
    """The permissions that the environment gives a new file."""
    mask = os.umask(0o077)
    os.umask(mask)
    return 0o666 & ~mask


def put(content):
    """Bytes to standard output, past Python's buffer, which would be written once more at the end. A reader that has left
    is told nothing."""
    try:
        with open(1, 'wb', buffering=0, closefd=False) as output:
            rest = memoryview(content)
            while rest:
                rest = rest[output.write(rest):]
    except BrokenPipeError:
        sys.exit(WrongCall.status)
    except OSError as error:
        raise WrongCall('standard output cannot be written: %s' % why(error))


def put_text(text):
    """A text to standard output."""
    put(text.encode('utf-8', 'backslashreplace'))


def say(text):
    """A text to standard error, with a line end."""
    try:
        os.write(2, (text + '\n').encode('utf-8', 'backslashreplace'))
    except OSError:
        pass


def hold_standard_files():
    """Where a standard file is closed, its number would go to the next file that is opened. Something else is put there, on which reading and writing
    fail as on a closed one."""
    for number, other_way in ((0, os.O_WRONLY), (1, os.O_RDONLY), (2, os.O_RDONLY)):
        try:
            os.fstat(number)
        except OSError:
            os.open(os.devnull, other_way)
