#!/usr/bin/env python3
"""Checks docs/MAP.md: every definition, function and proof that it names is there. Exit status 1 where one is not."""
import pathlib
import re
import sys

ROOT = pathlib.Path(__file__).resolve().parent.parent
missing = []
for line in (ROOT / "docs/MAP.md").read_text().split("\n"):
    cells = [cell.strip() for cell in line.strip("|").split(" | ")]
    if len(cells) != 4 or ".rt: " not in cells[2]:
        continue
    for cell, form in ((cells[1], r"^(?:unfoldable |abbrev )?pub (?:record )?{}\b"), (cells[2], r"\b(?:fn|const) {}\b")):
        if cell.startswith("the field `"):
            continue
        path, name = re.match(r"(\S+): `(\w+)`", cell).groups()
        file = ROOT / "crates" / path
        if not file.exists() or not re.search(form.format(re.escape(name)), file.read_text(), re.M):
            missing.append(cell)
    proof = ROOT / "crates" / cells[3]
    found = any((proof / name).exists() for name in ("Invariants.antt", "Answers.antt")) or proof.is_file()
    if cells[3] != "–" and not found:
        missing.append(cells[3])
for item in missing:
    print("not there:", item)
sys.exit(1 if missing else 0)
