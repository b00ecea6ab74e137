#!/usr/bin/env python3
"""Prints the gain table's entries by its rule, with whole numbers alone.

Entry n is the whole part of 2^40 * 10^((n - 960) / 320), for n from 0 to 1344.
    tools/gain_table.py          one entry a line
    tools/gain_table.py rattle   the constant of crates/gain_table/src/lib.rt
"""
import sys

ENTRIES = 1345


def entry(n):
    """The largest r with r^320 * 10^(960 - n) <= 2^12800 * 10^(n - 960), found digit by digit."""
    left, right = 10 ** max(960 - n, 0), 2 ** 12800 * 10 ** max(n - 960, 0)
    r = 0
    for digit in reversed(range(44)):
        if (r + 2 ** digit) ** 320 * left <= right:
            r += 2 ** digit
    return r


def main():
    entries = [entry(n) for n in range(ENTRIES)]
    if sys.argv[1:] == ["rattle"]:
        print(f"const GAIN_TABLE: [u64; {ENTRIES}] = [")
        print("\n".join(f"    {e}," for e in entries))
        print("];")
    else:
        print("\n".join(map(str, entries)))


if __name__ == "__main__":
    main()
