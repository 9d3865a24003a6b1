"""The few shapes a picture needs, written as SVG text; widths of letters are estimated, since no font is at hand."""
import re
from xml.sax.saxutils import escape, quoteattr

FONT = "Helvetica, Arial, 'Liberation Sans', 'DejaVu Sans', sans-serif"
NO_BREAK = "\u00a0"
NARROW, WIDE = set("iljtfrI.,;:'|!()[]/- "), set("mwMW@%&")


def attributes(values):
    return "".join(f" {name.replace('_', '-')}={quoteattr(str(value))}" for name, value in values.items())


def tag(name, **values):
    return f"<{name}{attributes(values)}/>"


def text_width(text, size):
    """About how wide a text is; wide letters of the widest usual font are assumed."""
    return size * sum(0.36 if c in NARROW else 0.92 if c in WIDE else 0.7 if c.isupper() else 0.6 for c in text)


def fit(text, width, size):
    """The text, shortened with dots if it is too wide."""
    if text_width(text, size) <= width:
        return text
    while text and text_width(text + "…", size) > width:
        text = text[:-1]
    return text.rstrip() + "…"


def kept(text):
    """The text with blanks side by side made such that a viewer does not run them together."""
    return re.sub(" {2,}", lambda run: NO_BREAK * len(run[0]), text)


def label(x, y, text, size=12, width=None, **values):
    """A text; one that is shortened to a width can be read whole by pointing at it."""
    text = kept(text)
    shown = fit(text, width, size) if width else text
    title = f"<title>{escape(text)}</title>" if shown != text else ""
    place = attributes(dict(x=round(x, 1), y=round(y, 1), font_size=size, **values))
    return f"<text{place}>{escape(shown)}{title}</text>"


def lines_of(text, width, size):
    """A text broken into lines of at most a width."""
    lines, line = [], ""
    for word in kept(text).split(" "):
        longer = f"{line} {word}".strip()
        if line and text_width(longer, size) > width:
            lines.append(line)
            longer = word
        line = longer
    return lines + [line]


def box(x, y, width, height, **values):
    return tag("rect", x=round(x, 1), y=round(y, 1), width=round(width, 1), height=round(height, 1), **values)


def padlock(x, y, colour):
    """A padlock, 12 wide and 15 high: a bow over a box with a keyhole."""
    return [tag("path", d=f"M{x + 2.5:.1f},{y + 7:.1f}v-2.5a3.5,3.5 0 0 1 7,0v2.5", fill="none", stroke=colour,
                stroke_width=2), box(x, y + 6.5, 12, 8.5, rx=1.5, fill=colour),
            tag("path", d=f"M{x + 6:.1f},{y + 9:.1f}v3.5", stroke="#ffffff", stroke_width=2)]


def rounded(points, radius=8):
    """The path through points with right angles rounded off."""
    parts = [f"M{points[0][0]:.1f},{points[0][1]:.1f}"]
    for (ax, ay), (bx, by), (cx, cy) in zip(points, points[1:], points[2:]):
        before, after = abs(bx - ax) + abs(by - ay), abs(cx - bx) + abs(cy - by)
        r = min(radius, before / 2, after / 2)
        if not before or not after:
            continue
        sx, sy = bx - (bx - ax) / before * r, by - (by - ay) / before * r
        ex, ey = bx + (cx - bx) / after * r, by + (cy - by) / after * r
        parts.append(f"L{sx:.1f},{sy:.1f}Q{bx:.1f},{by:.1f} {ex:.1f},{ey:.1f}")
    return "".join(parts) + f"L{points[-1][0]:.1f},{points[-1][1]:.1f}"


def document(width, height, body, style=""):
    """A whole file on white, with the arrow heads that the picture uses, and with a style sheet if need be."""
    head = '<marker id="head" viewBox="0 0 10 10" refX="9" refY="5" markerWidth="9" markerHeight="9" ' \
           'markerUnits="userSpaceOnUse" orient="auto"><path d="M0,0L10,5L0,10z" fill="#c8102e"/></marker>'
    frame = attributes(dict(xmlns="http://www.w3.org/2000/svg", width=round(width), height=round(height),
                            viewBox=f"0 0 {round(width)} {round(height)}", font_family=FONT))
    paper = box(0, 0, width, height, fill="#ffffff")
    sheet = [f"<style>{style}</style>"] if style else []
    return "\n".join([f"<svg{frame}>", f"<defs>{head}</defs>"] + sheet + [paper] + body + ["</svg>", ""])
