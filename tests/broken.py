"""Office programs that fail. Of each, `./judge` and the planner's tool must say that nothing is judged.

Each is a shell script around the real program, $OFFICE, which prints two rows or more and no `cut`. The rows before a
fault are as they should be, and accepted, so that a reader who looks at them alone would be content.
"""
import signal

# The kind of a part of an ELF file that is loaded.
LOAD = 1

SCRIPTS = {
    "a crash": "kill -SEGV $$",
    "a crash after the whole text": '"$OFFICE"; kill -SEGV $$',
    "killed after the first row": '"$OFFICE" | head -n 1; kill -KILL $$',
    "ended after the first row": '"$OFFICE" | head -n 1',
    "status 1 after the whole text": '"$OFFICE"; exit 1',
    "status 255 and nothing": "exit 255",
    "nothing": "true",
    "half of a row": '"$OFFICE" | head -c -2',
    "half of a row and status 1": '"$OFFICE" | head -c -2; exit 1',
    "the last row without its newline": '"$OFFICE" | head -c -1',
    "a row too few": '"$OFFICE" | head -n -1',
    "the first row missing": '"$OFFICE" | tail -n +2',
    "a row too many": '"$OFFICE"; echo "$(($("$OFFICE" | wc -l) + 1)) 0"',
    "a row twice": '"$OFFICE"; "$OFFICE" | tail -n 1',
    "a wrong place": '"$OFFICE" | sed "2s/^2/3/"',
    "a place with a zero before it": '"$OFFICE" | sed "2s/^/0/"',
    "an answer with a zero before it": '"$OFFICE" | sed "2s/ / 0/"',
    "an answer of 24": '"$OFFICE" | sed "2s/ .*/ 24/"',
    "an answer of 100": '"$OFFICE" | sed "2s/ .*/ 100/"',
    "an answer below 0": '"$OFFICE" | sed "2s/ / -/"',
    "no answer": '"$OFFICE" | sed "2s/ .*/ /"',
    "a blank too many": '"$OFFICE" | sed "2s/ /  /"',
    "a blank row": '"$OFFICE"; echo',
    "a byte of 0": '"$OFFICE"; printf "\\0"',
    "line ends of another system": '"$OFFICE" | sed "s/$/\\r/"',
    "cut where nothing is": '"$OFFICE"; echo cut',
    "cut in place of a row": '"$OFFICE" | head -n -1; echo cut',
    "line and no number": "echo line",
    "line 0": "echo line 0",
    "line 7": "echo line 7",
    "line without its newline": "printf 'line 3'",
    "line and rows": 'echo line 3; "$OFFICE"',
    "long without its newline": "printf long",
    "long and rows": 'echo long; "$OFFICE"',
    "a message": "echo cannot open session.bin",
}


def programs(folder, office):
    """Writes each program into the folder; yields its name, its path and a part of what must be said of it."""
    for name, script in SCRIPTS.items():
        path = folder / name.replace(" ", "-")
        path.write_text(f"#!/bin/sh\nOFFICE='{office}'\n{script}\n", encoding="utf-8")
        path.chmod(0o755)
        yield name, path, expected(script)
    whole = office.read_bytes()
    needed = loaded(whole)
    for length in (0, 1, needed // 2, needed - needed // 8):
        path = folder / f"cut-at-{length}"
        path.write_bytes(whole[:length])
        path.chmod(0o755)
        yield f"the program cut at byte {length}", path, str(path)


def loaded(whole):
    """How many bytes of a program are loaded to run it. What stands behind, as names of sections, may be cut."""
    start, size, count = (int.from_bytes(whole[at:at + n], "little") for at, n in ((32, 8), (54, 2), (56, 2)))
    heads = (whole[start + size * i:start + size * (i + 1)] for i in range(count))
    return max(int.from_bytes(head[8:16], "little") + int.from_bytes(head[32:40], "little") for head in heads
               if int.from_bytes(head[:4], "little") == LOAD)


def expected(script):
    """What the message says: how the program ended, or else that its text is not whole."""
    for end, words in (("kill -SEGV $$", f"signal {signal.SIGSEGV:d}"), ("kill -KILL $$", f"signal {signal.SIGKILL:d}"),
                       ("exit 255", "status 255"), ("exit 1", "status 1")):
        if script.endswith(end):
            return words
    return "is not whole"
