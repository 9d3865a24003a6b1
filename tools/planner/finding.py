"""A finding: a clause that says on what a move failed, the things it is about, for 19 to 21 the chain, and ways out."""
from dataclasses import dataclass, field


@dataclass(frozen=True)
class Finding:
    """`things`, to be marked in a picture, are pairs of "object", "partition" or an owner class, and a number.

    `ways` are sentences that say what would help; those of a chain are made from its links.
    """
    text: str
    things: list = field(default_factory=list)
    chain: tuple = ()
    ways: tuple = ()


def place(config, partition):
    """Where something is, in words."""
    return f"in {config.partition(partition)}" if partition else "in no partition"
