"""Files: which is a text and which a stored plan, and writing one whole or not at all."""
import os
import re
import stat
from contextlib import contextmanager

from .fields import is_second
from .text import Problem, TextError

MOST_BYTES = 1 << 24        # of a text; a stored plan is far shorter


@contextmanager
def named(path):
    """What fails here names this file, as the user did."""
    try:
        yield
    except OSError as error:
        raise OSError(error.errno, error.strerror, path) from None


def content(path, most=MOST_BYTES):
    """The bytes of a file, one more than are taken at most."""
    with named(path), open(path, 'rb') as file:
        return file.read(most + 1)


def are_one(path, other):
    """Are these two names of one file?"""
    return os.path.realpath(path) == os.path.realpath(other) or (
        os.path.exists(path) and os.path.exists(other) and os.path.samefile(path, other))


def is_text(data, path=''):
    """Is this a text, and not a stored plan? A stored plan begins with at most 16 queues, or with the byte of the second
    form, and has a zero byte, in its count of buffers. What begins with the word plan is a text, so that what damages
    it is shown in its line."""
    if (data[:1] <= b'\x10' or is_second(data)) and b'\0' in data:
        return False
    if not data:
        return path.endswith('.txt')
    if re.match(rb'(\xef\xbb\xbf)?(\s|#[^\n]*\n)*plan\b', data) or data[:2] in (b'\xff\xfe', b'\xfe\xff'):
        return True
    try:
        return not re.search(r'[\0-\x08\x0b\x0c\x0e-\x1f\x7f]', data.decode())
    except UnicodeError:
        return False


def decoded(data, path):
    """The text of such bytes. Raises TextError."""
    data = data[3:] if data[:3] == b'\xef\xbb\xbf' else data

    def wrong(line, column, message):
        return TextError([Problem(line, column, 1, message)], path, data.decode(errors='replace').split('\n'))
    if data[:2] in (b'\xff\xfe', b'\xfe\xff'):
        raise wrong(1, 1, 'the text is UTF-16; right: UTF-8')
    if len(data) > MOST_BYTES:
        raise wrong(1, 1, f'the text is too long; right: at most {MOST_BYTES} bytes')
    try:
        return data.decode()
    except UnicodeDecodeError as error:
        before = data[:error.start].decode()
        raise wrong(before.count('\n') + 1, len(before) - before.rfind('\n'),
                    f'byte {data[error.start]:#04x} is no UTF-8; right: a text in UTF-8') from None


def write_whole(path, content):
    """Writes bytes into a file whole or not at all; what is no regular file, as a pipe, is written to."""
    with named(path):
        _write_whole(os.path.realpath(path), content)


def _write_whole(path, content):
    mode = os.stat(path).st_mode if os.path.exists(path) else None
    if mode is not None and not stat.S_ISREG(mode):
        with open(path, 'wb') as file:
            file.write(content)
        return
    new = os.path.join(os.path.dirname(path), f'.{os.path.basename(path)}.{os.getpid()}.new')
    try:
        with open(os.open(new, os.O_WRONLY | os.O_CREAT | os.O_EXCL, 0o666), 'wb') as file:
            file.write(content)
            file.flush()
            if mode is not None:
                os.fchmod(file.fileno(), stat.S_IMODE(mode))
            os.fsync(file.fileno())
        os.replace(new, path)
    except BaseException:
        if os.path.exists(new):
            os.unlink(new)
        raise
