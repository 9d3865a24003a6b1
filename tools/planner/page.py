"""A plan as one page that stands alone: its parts, the moves in words, and the data for its script."""
import base64
import hashlib
import re
from html import escape
from pathlib import Path

from .causes import origins
from .fingerprint import digests
from .page_data import as_json, page_data
from .page_moves import element, moves_html, summary_html, timeline_html

PARTS = Path(__file__).resolve().parent / "page"
SCRIPTS = ("state.js", "picture.js", "chain.js", "walk.js")
SLOT = re.compile(r"@@(\w+)@@")


def part(name):
    return (PARTS / name).read_text(encoding="utf-8")


def hashed(script):
    """What the page's policy says of its script: this one runs, and no other."""
    return base64.b64encode(hashlib.sha256(script.encode()).digest()).decode()


def page_html(plan, title, watched=False):
    """The whole page. A watched one is made anew by and by: it loads itself again when the planner comes back to it."""
    found = origins(plan)
    script = '"use strict";\n(() => {\n' + "".join(part(name) for name in SCRIPTS) + "})();\n"
    slots = {
        "title": escape(title),
        "watched": " data-watched" if watched else "",
        "style": part("page.css"),
        "policy": f"default-src 'none'; style-src 'unsafe-inline'; script-src 'sha256-{hashed(script)}'",
        "summary": summary_html(plan, found),
        "fingerprint": ", ".join(f"{name} {element('code', digest)}"
                                 for name, digest in digests(plan.line, plan.session).items()),
        "moves": moves_html(plan, found),
        "timeline": timeline_html(plan),
        "data": as_json(page_data(plan)),
        "script": script,
    }
    return SLOT.sub(lambda slot: slots[slot[1]], part("page.html"))
