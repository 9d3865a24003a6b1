"""Files read and written: a failure is told in plain words, and no end in between leaves half of a file."""
import errno
import os
from contextlib import contextmanager
from pathlib import Path

FRESH = ".new"
NO_PERMISSION = "there is no permission to {doing} {name}"
NO_SPACE = "{name} cannot be {done}: no space is left"
PLAIN = {
    errno.EACCES: NO_PERMISSION,
    errno.EPERM: NO_PERMISSION,
    errno.ENOENT: "{name} is not there",
    errno.EISDIR: "{name} is a folder, and a file is needed",
    errno.ENOTDIR: "{name} is not in a folder: a part of its path is a file",
    errno.EEXIST: "{name} is there already, and is not a folder",
    errno.ENOSPC: NO_SPACE,
    errno.EDQUOT: NO_SPACE,
    errno.EROFS: "{name} cannot be {done}: the disk can only be read",
    errno.EFBIG: "{name} cannot be {done}: it would be too large",
    errno.EIO: "{name} cannot be {done}: the disk or the network fails",
    errno.EPIPE: "{name} cannot be {done}: nobody reads it any more",
    errno.ENAMETOOLONG: "{name} cannot be {done}: the name is too long",
    errno.ELOOP: "{name} cannot be {done}: it is a link that leads to itself",
    errno.ENOEXEC: "{name} is not a program of this machine",
}
DONE = {"read": "read", "write": "written", "run": "run"}


class FileError(Exception):
    """A file that cannot be read or written; the text says why."""


def plain(fault, doing, name=None):
    """An OSError in words, without numbers and names of the system."""
    words = PLAIN.get(fault.errno, "{name} cannot be {done}: " + (fault.strerror or str(fault)).lower())
    return words.format(name=name or fault.filename or "a file", doing=doing, done=DONE[doing])


@contextmanager
def told(doing, name=None):
    """Whatever the system refuses inside becomes a FileError; without a name it is about the file that failed."""
    try:
        yield
    except OSError as fault:
        raise FileError(plain(fault, doing, name)) from None


def read(path):
    with told("read", path):
        return Path(path).read_bytes()


def put(folder, made):
    """Puts files down, by name: written whole under other names first, and only then given their own."""
    folder = Path(folder)
    try:
        for name, data in made.items():
            with told("write", folder / name), open(folder / (name + FRESH), "wb") as out:
                out.write(data)
                out.flush()
                os.fsync(out.fileno())
        for name in made:
            with told("write", folder / name):
                os.replace(folder / (name + FRESH), folder / name)
    finally:
        for name in made:
            with told("write", folder / name):
                (folder / (name + FRESH)).unlink(missing_ok=True)
