#!/usr/bin/env python3
"""Makes the oracle's gain table from its rule, in whole numbers.

Entry k, from -960 to 384, is the whole part of 2^40 * 10^(k/320): the largest
r with r^320 * 10^max(-k, 0) <= 2^12800 * 10^max(k, 0).

    gain_table.py          writes the table
    gain_table.py --check  fails where the stored table is another
"""
import pathlib
import sys

FIRST, LAST, ROOT, UNIT_BITS = -960, 384, 320, 40
TABLE = pathlib.Path(__file__).parent.parent / "absent" / "gain_table_entries.in"


def fits(r, k):
    return r**ROOT * 10 ** max(-k, 0) <= 2 ** (UNIT_BITS * ROOT) * 10 ** max(k, 0)


def entry(k, low):
    """The largest r that fits. `low` fits; the entry is less than 2^45."""
    high = 2**45
    while high - low > 1:
        middle = (low + high) // 2
        if fits(middle, k):
            low = middle
        else:
            high = middle
    return low


def table():
    entries, low = [], 0
    for k in range(FIRST, LAST + 1):
        low = entry(k, low)
        assert fits(low, k) and not fits(low + 1, k)
        entries.append(low)
    return entries


def text(entries):
    rows = [entries[i : i + 6] for i in range(0, len(entries), 6)]
    lines = ["\t" + " ".join(f"{r}," for r in row) for row in rows]
    return "\n".join(["[", *lines, "]"]) + "\n"


if __name__ == "__main__":
    made = text(table())
    if sys.argv[1:] == ["--check"]:
        sys.exit(0 if TABLE.read_text() == made else "the stored table is another")
    TABLE.write_text(made)
