"""Input that is refused, of every kind that the questions name.

Each kind of damage is a function on an `Input`, with the number that it
alone is answered with. Several kinds together are answered with the number
of the question that is asked first.
"""
import scenes
from tables import MOST_LINES, NAMES, PROGRAM_LIMIT, Random, bits

LONGEST_FILE = 16384
RANGES = {
    "rate": (8000, 192000), "channels": (1, 8), "buffer": (1, 256), "block": (1, 512),
    "blocks": (1, 1024), "volume": (-96000, 18000), "unit": (0, 2), "speed": (1, 60_000_000),
    "ticking": (0, 1), "first": (0, None), "count": (0, None), "kind": (0, 5),
    "when": (0, 3_600_000), "part": (0, 999), "millis": (0, 3_600_000), "easing": (0, 3),
    "power": (0, 8), "from": (0, 1), "x": (-1_000_000, 1_000_000), "y": (-1_000_000, 1_000_000),
    "z": (-1_000_000, 1_000_000), "near": (0, 1_000_000), "far": (0, 1_000_000),
}  # fmt: skip
DAMAGES = []


class Input:
    """A scene with the harm done to it so far."""

    def __init__(self, scene, library):
        self.scene, self.library = scene, library
        self.length = scene.output_length() if library else None
        self.text_edits, self.tails = [], [b"", b""]
        self.missing_scene, self.missing = False, [False, False]

    def case(self):
        text = self.scene.text()
        for edit in self.text_edits:
            text = edit(text)
        sample_bytes = [
            None if missing else content + tail
            for content, tail, missing in zip(self.scene.sample_bytes(), self.tails, self.missing)
        ]
        return None if self.missing_scene else text, sample_bytes, self.length


def damage(number, rank=None, library=None):
    """`rank`: where the question stands among the others. `library`: whether
    it is asked by the library's routine or by the program alone."""

    def listed(function):
        DAMAGES.append((number if rank is None else rank, number, library, function))
        return function

    return listed


def base(rng):
    """An accepted scene with a line in every table and every kind of order."""
    limits = scenes.Limits(share=4, longest=2048, frames=256)
    made = scenes.scene(rng, limits)
    made.clocks.append(scenes.clock(rng))
    made.tracks.append([0, 0])
    made.sends.append([0])
    made.routes.append([len(made.tracks), len(made.sends), -6000])
    for origin, samples in enumerate(made.recordings()):
        samples += scenes.samples(rng, 4)
        made.sounds.append([len(made.tracks), 0, len(samples) // 2, origin])
    if not made.listener:
        made.listener.append(scenes.listener(rng))
    made.placings.append([len(made.tracks), *scenes.pose(rng, made.listener[0])])
    for kind, index in scenes.targets(made)[-6:] + [(0, 0)]:
        made.orders.append(scenes.order(rng, made, limits, 0, kind, index))
    return made


def from_seed(seed, n):
    """Text, samples, output length and the expected number, if it is known."""
    rng = Random(seed, n)
    damaged = Input(base(rng), library=rng.chance(1, 2))
    if rng.chance(1, 10):
        damaged.text_edits.append(lambda text: flipped(rng, text))
        return *damaged.case(), None
    fitting = [d for d in DAMAGES if d[2] in (None, damaged.library)]
    ranks = sorted({d[0] for d in fitting})
    chosen = {}
    for rank in rng.subset(ranks, rng.pick([1, 1, 1, 2, 3])):
        chosen[rank] = rng.pick([(d[1], d[3]) for d in fitting if d[0] == rank])
    # The question asked first is broken last, so that nothing mends it.
    for rank in sorted(chosen, reverse=True):
        number, function = chosen[rank]
        function(rng, damaged)
    return *damaged.case(), number


def flipped(rng, text):
    """Bytes changed anywhere; the answer is the oracle's to find."""
    text = bytearray(text)
    for _ in range(rng.between(1, 3)):
        text[rng.below(len(text))] = rng.pick(list(b"0123456789- \n") + [rng.below(256)])
    return bytes(text)


def some_line(rng, scene, table):
    return rng.between(1, len(scene.tables[table]))


# Question 1.


@damage(1)
def missing_scene(rng, damaged):
    damaged.missing_scene = True


@damage(1)
def empty_file(rng, damaged):
    damaged.text_edits.append(lambda text: b"")


@damage(1)
def no_last_line_feed(rng, damaged):
    damaged.text_edits.append(lambda text: text.rstrip(b"\n"))


@damage(1)
def too_long(rng, damaged):
    size = LONGEST_FILE + rng.pick([1, 2, 100])
    damaged.text_edits.append(lambda text: text + b"\n" * (size - len(text)))


# Question 2.


def text_damage(edit):
    """An edit of the file's lines."""

    def function(rng, damaged):
        def on_text(text):
            return b"\n".join(edit(rng, text[:-1].split(b"\n"))) + b"\n"

        damaged.text_edits.append(on_text)

    DAMAGES.append((2, 2, None, function))
    return edit


def value_lines(lines):
    return [i for i, line in enumerate(lines) if line[:1] in b"-0123456789" and line]


def names_lines(lines):
    names = [text.encode() for text in NAMES.values()]
    return [i for i, line in enumerate(lines) if line in names]


def with_line(lines, i, line):
    return lines[:i] + [line] + lines[i + 1 :]


def with_word(rng, lines, change):
    i = rng.pick(value_lines(lines))
    words = lines[i].split(b" ")
    j = rng.below(len(words))
    words[j] = change(words[j])
    return with_line(lines, i, b" ".join(words))


@text_damage
def longest_of_one_kind(rng, lines):
    """As long as question 1 allows."""
    size = LONGEST_FILE - sum(len(line) + 1 for line in lines)
    return lines + [b"x" * (size - 1)]


@text_damage
def misspelled_name(rng, lines):
    i = rng.pick(names_lines(lines))
    j = rng.below(len(lines[i]))
    return with_line(lines, i, lines[i][:j] + b"X" + lines[i][j + 1 :])


@text_damage
def capital_name(rng, lines):
    i = rng.pick(names_lines(lines))
    return with_line(lines, i, lines[i].capitalize())


@text_damage
def names_line_missing(rng, lines):
    i = rng.pick(names_lines(lines))
    return lines[:i] + lines[i + 1 :]


@text_damage
def names_lines_swapped(rng, lines):
    i, j = rng.subset(names_lines(lines), 2)
    return with_line(with_line(lines, i, lines[j]), j, lines[i])


@text_damage
def table_missing(rng, lines):
    starts = names_lines(lines)
    i = rng.below(len(starts) - 1)
    return lines[: starts[i]] + lines[starts[i + 1] :]


@text_damage
def tables_of_the_room_missing(rng, lines):
    """As files were before there were spatial tracks."""
    starts = [lines.index(NAMES[name].encode()) for name in ("listener", "orders")]
    return lines[: starts[0]] + lines[starts[1] :]


@text_damage
def odd_number(rng, lines):
    forms = [b"00", b"-0", b"+1", b"01", b"-01", b"", b"-", b"--1", b"1.0", b"1e3", b"0x1", b"x", b"1-"]
    form = rng.pick(forms)
    return with_word(rng, lines, lambda word: form)


@text_damage
def wide_number(rng, lines):
    forms = [b"2147483648", b"-2147483649", b"4294967296", b"18446744073709551616", b"9" * 40, b"-" + b"9" * 300]
    form = rng.pick(forms)
    return with_word(rng, lines, lambda word: form)


@text_damage
def leading_zero(rng, lines):
    return with_word(rng, lines, lambda word: b"0" + word)


@text_damage
def stray_byte(rng, lines):
    byte = rng.pick([b" ", b"\t", b"\r", b"\0", b"\xff", b"\xc2\xa0", b","])
    i = rng.below(len(lines))
    j = rng.below(len(lines[i]) + 1)
    return with_line(lines, i, lines[i][:j] + byte + lines[i][j:])


@text_damage
def carriage_returns(rng, lines):
    return [line + b"\r" for line in lines]


@text_damage
def field_missing(rng, lines):
    i = rng.pick([i for i in value_lines(lines) if b" " in lines[i]])
    return with_line(lines, i, lines[i].rsplit(b" ", 1)[0])


@text_damage
def field_extra(rng, lines):
    i = rng.pick(value_lines(lines))
    return with_line(lines, i, lines[i] + b" 0")


@text_damage
def empty_line_extra(rng, lines):
    i = rng.below(len(lines) + 1)
    return lines[:i] + [b""] + lines[i:]


@text_damage
def empty_line_missing(rng, lines):
    i = rng.pick([i for i, line in enumerate(lines) if not line])
    return lines[:i] + lines[i + 1 :]


@text_damage
def cut_short(rng, lines):
    return lines[: rng.between(1, names_lines(lines)[-1])]


@text_damage
def table_after_the_last(rng, lines):
    return lines + [b"", rng.pick([NAMES["clocks"], "x y z"]).encode()]


# Question 3.


@damage(3)
def line_count(rng, damaged):
    table = rng.pick(list(NAMES))
    rows = damaged.scene.tables[table]
    most = MOST_LINES[table]
    if table == "head" and rng.chance(1, 2):
        rows.clear()
    else:
        rows += [list(rng.pick(rows)) for _ in range(most + 1 - len(rows))]


# Question 4.


@damage(4)
def field_out_of_range(rng, damaged):
    scene = damaged.scene
    table = rng.pick(list(NAMES))
    name = rng.pick([name for name in NAMES[table].split() if name in RANGES])
    low, high = RANGES[name]
    if (table, name) == ("orders", "block"):
        low, high = 0, rng.pick([1023, scene.head[0][4] - 1])
    outside = [low - 1, -(2**31)] + ([high + 1, 2**31 - 1] if high is not None else [])
    scene.set(table, some_line(rng, scene, table), name, rng.pick(outside))


@damage(4)
def too_fast(rng, damaged):
    line = some_line(rng, damaged.scene, "clocks")
    damaged.scene.set("clocks", line, "unit", 1)
    damaged.scene.set("clocks", line, "speed", rng.pick([1_000_001, 60_000_000]))


@damage(4)
def distances(rng, damaged):
    """Near and far the same, or the wrong way round."""
    line = some_line(rng, damaged.scene, "placings")
    far = rng.pick([0, 1, 1000, 999_999])
    damaged.scene.set("placings", line, "near", rng.pick([far, far + 1, 1_000_000]))
    damaged.scene.set("placings", line, "far", far)


@damage(4)
def order_rule(rng, damaged):
    """A rule between two fields of an order."""
    broken = {
        "kind volume": [(4, 1), (5, -60000), (4, -1)],
        "clock part": [(0, 1), (0, 999)],
        "kind clock millis": [(k, 1, 0) for k in range(5)],
        "kind clock when millis": [(k, 0, 1, 0) for k in range(5)],
        "easing power": [(0, 1), (0, 8), (1, 0), (2, 0), (3, 0)],
    }
    names = rng.pick(list(broken))
    line = some_line(rng, damaged.scene, "orders")
    for name, value in zip(names.split(), rng.pick(broken[names])):
        damaged.scene.set("orders", line, name, value)


# Question 5.


@damage(5)
def reference(rng, damaged):
    scene = damaged.scene
    table, name, target, zero = rng.pick([
        ("routes", "track", "tracks", False), ("routes", "send", "sends", False),
        ("sounds", "track", "tracks", True), ("orders", "clock", "clocks", True),
        ("placings", "track", "tracks", False),
    ])  # fmt: skip
    outside = [-1, -(2**31), len(scene.tables[target]) + 1, 2**31 - 1] + ([] if zero else [0])
    line = some_line(rng, scene, table)
    scene.set(table, line, name, rng.pick(outside))
    if name == "clock":
        scene.set(table, line, "millis", 1)


@damage(5)
def parent(rng, damaged):
    line = some_line(rng, damaged.scene, "tracks")
    damaged.scene.set("tracks", line, "parent", rng.pick([-1, line, line + 1, 2**31 - 1]))


@damage(5)
def order_index(rng, damaged):
    scene = damaged.scene
    line = some_line(rng, scene, "orders")
    table = {0: None, 2: "sends", 3: "routes"}.get(scene.get("orders", line, "kind"), "tracks")
    outside = [-1, 1, 2**31 - 1] if table is None else [-1, 0, len(scene.tables[table]) + 1]
    scene.set("orders", line, "index", rng.pick(outside))


# Questions 6 and 7.


@damage(6)
def too_deep(rng, damaged):
    tracks = damaged.scene.tracks
    tracks.append([0, 0])
    for _ in range(rng.between(4, 6)):
        tracks.append([len(tracks), rng.pick(scenes.VOLUMES)])


@damage(7)
def routed_twice(rng, damaged):
    track, send, _ = rng.pick(damaged.scene.routes)
    damaged.scene.routes.append([track, send, rng.pick(scenes.VOLUMES)])


@damage(7)
def placed_twice(rng, damaged):
    track, *pose = rng.pick(damaged.scene.placings)
    again = rng.pick([pose, scenes.pose(rng, None)])
    damaged.scene.placings.insert(rng.below(len(damaged.scene.placings) + 1), [track, *again])


# Questions 8 and 9, each of the house's samples and of the visitor's.


def damage_of_both(number, library=None):
    """A damage of one buffer; the visitor's is asked after the house's."""

    def listed(function):
        for origin in range(2):
            def on_one(rng, damaged, origin=origin):
                function(rng, damaged, origin)

            DAMAGES.append((number + origin / 10, number, library, on_one))
        return function

    return listed


@damage_of_both(8)
def odd_samples(rng, damaged, origin):
    damaged.scene.recordings()[origin].append(bits(0.5))


@damage_of_both(8)
def sound_past_the_end(rng, damaged, origin):
    frames = len(damaged.scene.recordings()[origin]) // 2
    first, count = rng.pick([
        (frames + 1, 0), (0, frames + 1), (frames, 1), (2**31 - 1, 2**31 - 1), (2**31 - 1, 0),
    ])  # fmt: skip
    line = some_line(rng, damaged.scene, "sounds")
    for name, value in (("first", first), ("count", count), ("from", origin)):
        damaged.scene.set("sounds", line, name, value)


@damage_of_both(8, library=False)
def broken_last_number(rng, damaged, origin):
    damaged.tails[origin] = b"\0" * rng.between(1, 3)


@damage_of_both(8)
def missing_samples(rng, damaged, origin):
    damaged.missing[origin] = True


@damage_of_both(9)
def bad_sample(rng, damaged, origin):
    bad = [0x3F800001, 0xBF800001, 0x7F800000, 0xFF800000, 0x7FC00000, 0xFFC00000, 0x7F800001, 0x7F7FFFFF]
    samples = damaged.scene.recordings()[origin]
    samples[rng.below(len(samples) // 2 * 2)] = rng.pick(bad)


# Question 10, and the program's question 12 in its two places.


@damage(10, library=True)
def output_length(rng, damaged):
    right = damaged.scene.output_length() if damaged.scene.head else damaged.length
    damaged.length = rng.pick([n for n in (0, right - 1, right + 1, 2 * right) if n != right])


@damage(12, rank=0, library=False)
def too_many_samples(rng, damaged):
    origin = rng.below(2)
    damaged.missing[origin] = False
    samples = damaged.scene.recordings()[origin]
    samples += [0] * (PROGRAM_LIMIT + rng.pick([1, 2, 64]) - len(samples))


@damage(12, rank=9.5, library=False)
def long_output(rng, damaged):
    channels, block, blocks = rng.pick([(2, 241, 17), (1, 512, 17), (8, 512, 1024), (8, 2, 513)])
    for name, value in (("channels", channels), ("block", block), ("blocks", blocks)):
        damaged.scene.set("head", 1, name, value)
    # Orders stay within the blocks, which may have become fewer.
    for row in damaged.scene.orders:
        row[0] = min(row[0], blocks - 1)
