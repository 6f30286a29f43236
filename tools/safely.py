"""How the tools read files that strangers may have made, how they show texts that strangers wrote, and how they end."""
import os
import re
import signal
import stat
import sys

FILE_MAX = 1 << 30
LINE_MAX = 1 << 23
# What a terminal or a reader of XML takes for more than a letter: C0 but the line feed, DEL, C1, the separators and turns of Unicode, what is no
# character, and the halves of pairs, which stand for bytes that aren't UTF-8.
_UNSHOWN = re.compile("[\x00-\x09\x0b-\x1f\x7f-\x9f\u2028\u2029\u202a-\u202e\u2066-\u2069\ud800-\udfff\ufffe\uffff]")
_SHORT = 1000


class Unreadable(Exception):
    """Why a file isn't read."""


def escaped(text):
    """The text with an escape in place of each letter that might do more than be shown."""
    return _UNSHOWN.sub(lambda found: f"\\x{ord(found[0]):02x}" if found[0] < "\u0100" else f"\\u{ord(found[0]):04x}", text)


def shown(text):
    """A part of a stranger's text in a line of one's own."""
    return escaped(text if len(text) <= _SHORT else text[:_SHORT] + "..").replace("\n", "\\x0a")


def regular(path, **how):
    """Opens a regular file; one that is none, such as a FIFO or a device, may have no end."""
    file = open(path, opener=lambda name, flags: os.open(name, flags | os.O_NONBLOCK | os.O_CLOEXEC), **how)
    found = os.fstat(file.fileno())
    if not stat.S_ISREG(found.st_mode) or found.st_size > FILE_MAX:
        file.close()
        raise Unreadable(f"{shown(path)}: " + ("it is no regular file" if not stat.S_ISREG(found.st_mode) else f"it has more than {FILE_MAX} bytes"))
    return file


def text_of(path, most):
    """The text of a regular file, which has to be UTF-8 and may have so many bytes."""
    with regular(path, mode="rb") as file:
        data = file.read(most + 1)
    if len(data) > most:
        raise Unreadable(f"{shown(path)}: it has more than {most} bytes")
    try:
        return data.decode()
    except UnicodeDecodeError as error:
        line = data.count(b"\n", 0, error.start) + 1
        raise Unreadable(f"{shown(path)}:{line}: the line isn't UTF-8") from None


def all_of(stream, most):
    """What comes from a stream of bytes, which may have so many."""
    data = stream.read(most + 1)
    if len(data) > most:
        raise Unreadable(f"the input has more than {most} bytes")
    return data


def given(most):
    """What comes from the standard input, which may have so many bytes."""
    if sys.stdin is None:
        raise Unreadable("the standard input is closed")
    return all_of(sys.stdin.buffer, most)


def put(text):
    """Writes a text to the standard output, all of it."""
    if sys.stdout is None:
        raise Unreadable("the standard output is closed")
    sys.stdout.buffer.write(text.encode())
    sys.stdout.flush()


def ended(name, work, *refusals):
    """The status with which a tool's work ends: 1, with a line that says why, where it refuses its input, or a file, a stream or memory fails it."""
    try:
        return work() or 0
    except (Unreadable, OSError, *refusals) as why:
        told = str(why)
    except MemoryError:
        told = "out of memory"
    except KeyboardInterrupt:
        signal.signal(signal.SIGINT, signal.SIG_DFL)
        os.kill(os.getpid(), signal.SIGINT)
    print(escaped(f"{name}: {told}" if name else told), file=sys.stderr)
    return 1
