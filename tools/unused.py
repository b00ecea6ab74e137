#!/usr/bin/env python3
"""Names that nothing uses: definitions and laws that no contract, function's proof or listed theorem rests on, and imports that a file does not
use.

    tools/unused.py        lists them; fails where there are any
"""
import sys

from antt import OF_FUNCTIONS, Graph, attributed, contract, functions
from definitions import ROOT, THEOREMS

# controls and examples: each is a computed test of definitions, which nothing cites
TESTS = [
    ("rounding", "narrowings"),
    ("rounding", "nanos"),
    ("rounding", "seconds"),
    ("root", "roots"),
    ("pcm", "minus_zero_lost"),
    ("pcm", "one_lost"),
    ("order_lines", "cases"),
    ("noninterference", "example"),
    ("noninterference", "same_mix"),
    ("noninterference", "alike_example"),
    ("noninterference", "accepted_example"),
    ("noninterference", "left_example"),
    ("pause_end", "once"),
    ("pause_end", "uneven_late"),
    # laws that docs/DECISIONS.md names and no proof needs any more
    ("pause_end", "parameter_by"),
    ("pause_end", "state_by"),
]


def main():
    graph = Graph(ROOT)
    roots = {key for function in functions(ROOT) for key in contract(graph, function)}
    roots |= attributed(ROOT)
    for crate, name in THEOREMS:
        key, statement = graph.theorem(crate, name)
        roots |= {key} | statement
    for key in graph.blocks:
        if OF_FUNCTIONS & set(key[2]) or (key[0], key[3]) in TESTS:
            roots.add(key)
    live = graph.closure(roots, strict=False)
    rows = [f"{graph.blocks[key].file.path.relative_to(ROOT)}: {key[3]}" for key in sorted(graph.blocks) if key not in live]
    for file in graph.files.values():
        found = set().union(*(block.words for block in file.blocks)) if file.blocks else set()
        used = graph.used(file.means, found)
        rows += [f"{file.path.relative_to(ROOT)}: use of {name}" for name in file.uses if name not in used]
        rows += [f"{file.path.relative_to(ROOT)}: use of {name}" for name in file.modules if name not in found]
    print("\n".join(rows + [f"{len(rows)} unused"]))
    return 1 if rows else 0


if __name__ == "__main__":
    sys.exit(main())
