#!/usr/bin/env python3
"""What moved between two commits, for a landing's note: definitions, contracts and proofs, crate by crate.

    tools/moved.py BEFORE AFTER [SECONDS_BEFORE SECONDS_AFTER]

A thing is told by its name and its text without comments. It stayed where both are the same; it stands elsewhere where only its crate or file is
another; it changed where a thing of its name has another text; else it is new or gone. SECONDS are the gate's times.
"""
import collections
import pathlib
import subprocess
import sys
import tarfile
import tempfile
import io

from antt import OF_FUNCTIONS, Graph, functions

KINDS = ["definitions", "contracts", "laws", "proofs of functions"]


def things(root):
    """Of each kind: name -> list of (crate, place, text)."""
    out = {kind: collections.defaultdict(list) for kind in KINDS}
    graph = Graph(root)
    for (crate, kind, module, name), block in graph.blocks.items():
        text = "\n".join(block.text())
        if kind == "specs":
            out["definitions"][name].append((crate, "/".join(module), text))
        elif not OF_FUNCTIONS & set(module):
            out["laws"][name].append((crate, "/".join(module), text))
    for file in graph.files.values():
        crate, kind, module = file.place
        if kind == "proofs" and OF_FUNCTIONS & set(module):
            text = "\n".join(line for block in file.blocks for line in block.text())
            out["proofs of functions"]["::".join(module[:-1])].append((crate, "/".join(module), text))
    for function in functions(root):
        text = "\n".join(" ".join(clause.split()) for clause in function.clauses)
        place = str(function.path.relative_to(pathlib.Path(root) / "crates"))
        out["contracts"][function.name].append((function.crate, place, text))
    return out


def compare(before, after):
    """What became of each thing: (fate, name, crate before, crate after)."""
    for name in sorted(set(before) | set(after)):
        old, new = list(before.get(name, [])), list(after.get(name, []))
        for test, fate in (
            (lambda a, b: a == b, "stayed"),
            (lambda a, b: a[2] == b[2], "stands elsewhere"),
            (lambda a, b: a[0] == b[0] and a[1] == b[1], "changed"),
            (lambda a, b: True, "changed"),
        ):
            for a in list(old):
                b = next((x for x in new if test(a, x)), None)
                if b:
                    old.remove(a)
                    new.remove(b)
                    yield fate, name, a[0], b[0]
        for a in old:
            yield "gone", name, a[0], None
        for b in new:
            yield "new", name, None, b[0]


def tree(commit, folder):
    data = subprocess.run(["git", "archive", commit, "crates"], check=True, capture_output=True).stdout
    tarfile.open(fileobj=io.BytesIO(data)).extractall(folder)
    return things(folder)


def main():
    if len(sys.argv) not in (3, 5):
        sys.exit(__doc__)
    with tempfile.TemporaryDirectory() as one, tempfile.TemporaryDirectory() as two:
        before, after = tree(sys.argv[1], one), tree(sys.argv[2], two)
    # what stood among the definitions and is a law now moved as a law
    for name in list(before["definitions"]):
        if name not in after["definitions"] and name in after["laws"]:
            before["laws"][name] += before["definitions"].pop(name)
    if len(sys.argv) == 5:
        print(f"The gate took {sys.argv[3]} s before and {sys.argv[4]} s after.\n")
    for kind in KINDS:
        fates = collections.defaultdict(lambda: collections.defaultdict(list))
        for fate, name, was, now in compare(before[kind], after[kind]):
            fates[fate][now or was].append(name if fate != "stands elsewhere" or was == now else f"{name} (from {was})")
        counts = ", ".join(f"{sum(map(len, fates[f].values()))} {f}" for f in ("stayed", "stands elsewhere", "changed", "new", "gone"))
        print(f"## {kind[0].upper()}{kind[1:]}: {counts}\n")
        for fate in ("changed", "new", "gone", "stands elsewhere"):
            for crate in sorted(fates[fate]):
                names = fates[fate][crate]
                shown = ", ".join(f"`{n}`" for n in names[:40]) + (f" and {len(names) - 40} more" if len(names) > 40 else "")
                print(f"- {fate}, {crate}: {shown}" if fate != "stands elsewhere" else f"- {fate}, {crate}: {len(names)}")
        stayed = ", ".join(f"{crate} {len(names)}" for crate, names in sorted(fates["stayed"].items()))
        print(f"- stayed: {stayed or 'none'}\n")


if __name__ == "__main__":
    main()
