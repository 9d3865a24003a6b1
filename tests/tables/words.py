"""Texts of tables/questions.ini that stand in the wrong section. A short text shares words with the others of its
section; exchanged with that of another section, the two share fewer. So an exchange, which would go into header,
binding and manuals alike, does not pass."""
import itertools
import math
import re
from collections import Counter

from data import Fault, examples, questions

SHORT = ("asks", "header", "rust", "plan", "machine")
REST = ("means", "remedy", "asked", "definition", "constant", "example")


def words(text):
    """The words of a text; `wellFormed` and `NUMBER_CUT` are two each."""
    return set(re.findall(r"[a-z]+|\d+", re.sub(r"([A-Z][a-z]+)", r" \1", text).lower()))


def sections():
    """For each question the words of each of its texts."""
    shown, made = examples(), {}
    for number, row in questions().items():
        texts = {**row, "plan": " ".join(row["plan"].values()), "example": shown[number][0]}
        made[number] = {key: words(texts[key]) for key in SHORT + REST}
    return made


def check_words():
    rows = sections()
    seen = Counter(word for row in rows.values() for word in set().union(*row.values()))

    def shared(text, others):
        """How much two sets have in common: a word that few sections have counts for more."""
        return sum(math.log((len(rows) + 1) / seen[word]) for word in text & others)

    for key in SHORT:
        others = {number: set().union(*(row[other] for other in SHORT + REST if other != key))
                  for number, row in rows.items()}
        for a, b in itertools.combinations(rows, 2):
            kept = shared(rows[a][key], others[a]) + shared(rows[b][key], others[b])
            exchanged = shared(rows[a][key], others[b]) + shared(rows[b][key], others[a])
            if kept <= exchanged:
                raise Fault(f"tables/questions.ini: '{key}' of {a} and of {b} share as many words with the other "
                            "section as with their own: are they exchanged?")
