"""What the tool says: on every terminal, with nothing raw in it, and with a word where it cannot be written."""
import errno
import os
import sys
import unicodedata

from .disk import FileError, plain, told

OUTPUT = "the output"


def visible(text):
    """The text with control characters as escapes, so that none of them reaches a terminal; line ends stay."""
    return "".join(c if c.isprintable() or c == "\n" or unicodedata.category(c) == "Zs" else escaped(c) for c in text)


def escaped(char):
    return char.encode("unicode_escape", "backslashreplace").decode("ascii")


def prepare():
    """What a terminal cannot show is put as an escape; files are UTF-8 whatever the terminal is."""
    for stream in (sys.stdout, sys.stderr):
        if hasattr(stream, "reconfigure"):
            stream.reconfigure(errors="backslashreplace")


def say(lines):
    """Prints lines; FileError if they cannot be written."""
    if sys.stdout is None:
        raise FileError(f"{OUTPUT} cannot be written: it is closed")
    try:
        print(visible("\n".join(lines)))
    except OSError as fault:
        discard(sys.stdout)
        raise FileError(plain(fault, "write", OUTPUT)) from None


def pass_on(text, name=OUTPUT):
    """All bytes of a program's text, past Python's buffer, so that every failure shows here; FileError tells it."""
    with told("write", name):
        if sys.stdout is None:
            raise OSError(errno.EBADF, "it is closed")
        while text:
            text = text[os.write(sys.stdout.fileno(), text):]


def complain(text, tool="plan"):
    """Prints complaints, each line with the tool's name. Where even they cannot be written, the status must do."""
    lines = [f"{tool}: {visible(line)}\n" for line in str(text).splitlines()]
    try:
        if sys.stderr is not None:
            sys.stderr.write("".join(lines))
            sys.stderr.flush()
    except OSError:
        discard(sys.stderr)


def finish():
    """All that was said is written now and not when Python ends, which has a status of its own for a failure."""
    for stream in (sys.stderr, sys.stdout):
        try:
            if stream is not None:
                stream.flush()
        except OSError as fault:
            discard(stream)
            if stream is sys.stdout:
                raise FileError(plain(fault, "write", OUTPUT)) from None


def discard(stream):
    """What is still to be written there goes nowhere."""
    nowhere = os.open(os.devnull, os.O_WRONLY)
    os.dup2(nowhere, stream.fileno())
    os.close(nowhere)
