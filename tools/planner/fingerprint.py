"""The fingerprint of a judged plan: SHA-256 of line.bin and session.bin, as `sha256sum` prints it of the two files."""
import hashlib

from .office import LINE, SESSION


def digests(line, session):
    """The two digests in hex, by the files' names."""
    return {LINE: hashlib.sha256(line).hexdigest(), SESSION: hashlib.sha256(session).hexdigest()}


def fingerprint(line, session):
    """Both in one row: whose page, sheet or answers have it were made from these very files."""
    return ", ".join(f"{name} {digest}" for name, digest in digests(line, session).items())
