"""Parts of a manual that a command makes. Each is the lines between one that says

    begin NAME: made by COMMAND

and one that says `end NAME`, in comments that a reader of the page does not see.
"""
import pathlib
import re

ROOT = pathlib.Path(__file__).resolve().parent.parent


class Fault(Exception):
    """What is wrong, in words for whoever typed the command."""


def found(page, name):
    """The page's text, and where the lines of its one part of that name stand in it."""
    text = (ROOT / page).read_text(encoding="utf-8")
    pattern = rf"^<!-- begin {name}: made by [^\n]* -->\n(?P<made>.*?)^<!-- end {name} -->$"
    parts = list(re.finditer(pattern, text, re.DOTALL | re.MULTILINE))
    if len(parts) != 1:
        raise Fault(f"{page} has {len(parts)} parts '{name}', and not one")
    return text, parts[0].span("made")


def stored(page, name):
    """The lines of a part as the page has them."""
    text, (start, end) = found(page, name)
    return text[start:end].splitlines()


def write(page, name, lines):
    """Puts a part's lines into its page; says whether that changed it."""
    text, (start, end) = found(page, name)
    made = text[:start] + "".join(f"{line}\n" for line in lines) + text[end:]
    if made == text:
        return False
    (ROOT / page).write_text(made, encoding="utf-8")
    return True
