"""Stored cases of operation records, question 10, for tests/vectors.py. Answers are stated from the papers."""
from layout import CONTENT, MOST_ITEMS, row

RAW = bytes(range(1, CONTENT + 1))


def named():
    """Label, record, answer."""
    yield "10: an empty record", b"", 10
    for code in (0, 13, 128):
        yield f"10: code {code}, or bytes left over", row([code, 1, 1, 1, 0, 0]), 10
    yield "10: code 1 in two bytes", bytes([0x81, 0, 1, 1, 1, 0, 0]), 10
    full = row([1, 1, MOST_ITEMS]) + b"".join(row([n, 1]) + RAW for n in range(1, 9))
    yield "10: eight raw items", full, 0
    yield "10: eight items by value number", row([2, 3, MOST_ITEMS] + [300, 0, 5] * 8), 0
    yield "10: nine items", row([1, 1, 9] + [2, 0, 3] * 9), 10
    yield "10: no item", row([1, 1, 0]), 10
    yield "10: eight pairs", row([3, 1, 8] + [5, 0] * 8), 0
    yield "10: nine pairs", row([3, 1, 9] + [5, 0] * 9), 10
    yield "10: eight objects", row([9, 1, 8, 1, 2, 3, 4, 5, 6, 7, 8]), 0
    yield "10: nine objects", row([12, 1, 9, 1, 2, 3, 4, 5, 6, 7, 8, 9]), 10
    yield "10: form 2", row([1, 1, 1, 2, 2, 3]), 10
    yield "10: form 3 with sixteen bytes", row([1, 1, 1, 2, 3]) + RAW, 10
    yield "10: fifteen raw bytes", row([1, 1, 1, 6, 1]) + RAW[:15], 10
    yield "10: seventeen raw bytes", row([1, 1, 1, 6, 1]) + RAW + b"\0", 10
    yield "10: a byte left over", row([5, 1]) + b"\0", 10
    yield "10: a number of 65,535", row([5, 65535]), 0
    yield "10: a number of 65,536", row([5, 65536]), 0
    for code, record in [(c, r) for c, r in SHORT.items()]:
        yield f"10: code {code}, whole", row(record), 0
        yield f"10: code {code}, a byte left over", row(record) + b"\0", 10
    mixed = row([2, 1, 3, 4, 0, 300]) + row([6, 1]) + RAW + row([200, 0, 1])
    for end in range(len(mixed)):
        yield f"10: three items, cut after {end} bytes", mixed[:end], 10
    yield "10: three items, whole", mixed, 0
    for code, record in SHORT.items():
        for end in range(1, len(row(record))):
            yield f"10: code {code}, cut after {end} bytes", row(record)[:end], 10


# A short record for each code.
SHORT = {1: [1, 1, 1, 2, 0, 3], 2: [2, 1, 1, 2, 0, 3], 3: [3, 1, 1, 5, 0], 4: [4, 1, 1, 2, 4], 5: [5, 1], 6: [6, 2],
         7: [7, 1, 1], 8: [8, 2, 2], 9: [9, 1, 1, 5], 10: [10, 1], 11: [11, 2], 12: [12, 1, 2, 5, 6]}
