#!/usr/bin/env python3
"""What a reader must believe, and that specs/ holds nothing else.

    tools/definitions.py            counts the lines of definitions that the contracts of the routines for users speak of, directly or through
                                    other definitions, by file
    tools/definitions.py --list     the same with the definitions' names, the code's structs and enums, and the toolchain's names
    tools/definitions.py --check    fails where specs/ has a name that neither a contract of any function nor a listed theorem speaks of

A definition is what stands between its signature and the next empty line, comments left out.
"""
import collections
import sys

from antt import Graph, contract, functions
import pathlib

ROOT = pathlib.Path(__file__).resolve().parent.parent
# the routines for users
ROUTINES = {
    "decibels": ["Decibels::as_amplitude"],
    "room_desk": ["render"],
    "c_interface": [
        "room_desk_render",
        "room_desk_silent",
        "room_desk_amplitude",
        *(f"room_desk_{form}_{does}" for form in ("wave", "aiff") for does in ("info", "read", "write", "length")),
        "room_desk_wave_to_aiff",
        "room_desk_aiff_to_wave",
    ],
    "render_files": ["render_text"],
    "month_files": ["month_text"],
}
# the theorems that stand beside the contracts
THEOREMS = [
    ("rounding", "narrowed_nearest"),
    ("rounding", "narrowed_infinite"),
    ("rounding", "last_bit_even"),
    ("rounding", "narrows_unique"),
    ("root", "root_nearest"),
    ("root", "nearest_root_unique"),
    ("root", "root_zero"),
    ("frame", "same_step"),
    ("frame", "interleaved_apart"),
    ("frame", "planar_apart"),
    ("frame", "scratch_apart"),
    ("room_desk", "never_eleven"),
    ("pause_end", "pause_over"),
    ("pause_end", "pause_state"),
    ("pause_end", "pause_advances"),
    ("pause_end", "pause_ends"),
    ("pause_end", "c_too_early"),
    ("silent_tracks", "all_may_be_chosen"),
    ("silent_tracks", "silent_or_removed"),
    ("render_files", "first_bytes"),
    ("pcm", "plus_multiple"),
    ("pcm", "minus_multiple"),
    ("pcm", "whole_passes"),
    ("pcm", "passes_whole"),
    ("wave", "minus_zero_lost"),
    ("wave", "one_lost"),
    ("month", "totals_add"),
    ("month", "totals_fit"),
    ("month_reader", "broken_stays"),
    ("month_files", "first_lines"),
    ("month_files", "lines_refused"),
    ("month_files", "month_printed"),
    ("month_files", "cut_anywhere"),
    ("aiff_rate", "shift_scales"),
    ("sound_converter", "there_and_back"),
    ("test_examples", "examples_agree"),
    ("test_alike_pairs", "all_alike"),
    ("test_alike_pairs", "no_control"),
]


def spoken_of(graph):
    """The definitions that every contract and listed theorem speaks of."""
    roots = set()
    for function in functions(ROOT):
        roots |= contract(graph, function)
    for crate, name in THEOREMS:
        roots |= graph.theorem(crate, name)[1]
    return graph.closure(roots)


def check(graph):
    reached = spoken_of(graph)
    extra = sorted(key for key in graph.blocks if key[1] == "specs" and key not in reached)
    for crate, kind, module, name in extra:
        print(f"crates/{crate}/specs/{'/'.join(module)}.antt: no contract and no listed theorem speaks of {name}")
    names = sum(1 for key in graph.blocks if key[1] == "specs")
    print(f"{names} names in specs/, {len(extra)} that nothing speaks of")
    return 1 if extra else 0


def count(graph, listed):
    roots = set()
    for function in functions(ROOT):
        if function.name in ROUTINES.get(function.crate, []):
            roots |= contract(graph, function)
    needed = graph.closure(roots)
    files, outside = collections.defaultdict(dict), set()
    for key in needed:
        block = graph.blocks[key]
        files[block.file.path.relative_to(ROOT)][id(block)] = block
        outside |= {other for other in graph.references(key, True) if len(other) == 2}
    outside |= {other for other in roots if len(other) == 2}
    declared = {other for other in outside if isinstance(other[0], tuple) and other[0][2][:1] == ("declared",)}
    types = {(place[0], place[2][1:3]) for place, _ in declared}
    total = 0
    for path in sorted(files):
        lines = sum(len(block.text()) for block in files[path].values())
        total += lines
        names = ": " + ", ".join(name for block in files[path].values() for name in block.names) if listed else ""
        print(f"{lines:5} {path}{names}")
    definitions = sum(len(blocks) for blocks in files.values())
    print(f"{total:5} lines of {definitions} definitions in {len(files)} files; {len(types)} structs and enums of the code")
    if listed:
        for crate, module in sorted(types):
            print(f"  {crate}: {'::'.join(module)}")
        for path, name in sorted(other for other in outside if isinstance(other[0], str)):
            print(f"  {path}: {name}")
    return 0


if __name__ == "__main__":
    whole = Graph(ROOT)
    sys.exit(check(whole) if "--check" in sys.argv else count(whole, "--list" in sys.argv))
