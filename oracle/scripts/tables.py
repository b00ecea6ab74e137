"""Scene files as tables of whole numbers, samples as bits, and random numbers."""
import struct

NAMES = {
    "head": "rate channels buffer block blocks volume",
    "clocks": "unit speed ticking",
    "tracks": "parent volume",
    "sends": "volume",
    "routes": "track send volume",
    "sounds": "track first count from",
    "listener": "x y z",
    "placings": "track x y z near far",
    "orders": "block kind index volume clock when part millis easing power",
}
MOST_LINES = {
    "head": 1, "clocks": 8, "tracks": 32, "sends": 8,
    "routes": 64, "sounds": 64, "listener": 1, "placings": 32, "orders": 128,
}  # fmt: skip
PROGRAM_LIMIT = 8192


def field(table, name):
    """A field's place in its line."""
    return NAMES[table].split().index(name)


class Scene:
    """Tables of lines, and the samples as the bits of f32 numbers: the
    house's, and the visitor's."""

    def __init__(self, **tables):
        self.samples = tables.pop("samples", [])
        self.visitor = tables.pop("visitor", [])
        self.tables = {name: tables.get(name, []) for name in NAMES}

    def __getattr__(self, name):
        if name in NAMES:
            return self.tables[name]
        raise AttributeError(name)

    def get(self, table, line, name):
        return self.tables[table][line - 1][field(table, name)]

    def set(self, table, line, name, value):
        self.tables[table][line - 1][field(table, name)] = value

    def copy(self):
        tables = {name: [list(row) for row in rows] for name, rows in self.tables.items()}
        return Scene(samples=list(self.samples), visitor=list(self.visitor), **tables)

    def text(self):
        parts = []
        for name, names_line in NAMES.items():
            rows = [" ".join(map(str, row)) for row in self.tables[name]]
            parts.append("\n".join([names_line, *rows]) + "\n")
        return "\n".join(parts).encode()

    def recordings(self):
        """Both buffers, by a sound's `from`."""
        return [self.samples, self.visitor]

    def sample_bytes(self):
        """Those of samples.raw and of visitor.raw."""
        return [struct.pack(f"<{len(samples)}I", *samples) for samples in self.recordings()]

    def output_length(self):
        _, channels, _, block, blocks, _ = self.head[0]
        return channels * block * blocks


def bits(x):
    """The bits of the f32 nearest to x."""
    return struct.unpack("<I", struct.pack("<f", x))[0]


def all_bits(numbers):
    """Of a list, at once."""
    return list(struct.unpack(f"<{len(numbers)}I", struct.pack(f"<{len(numbers)}f", *numbers)))


def number(f32_bits):
    return struct.unpack("<f", struct.pack("<I", f32_bits))[0]


def double_bits(x):
    return struct.unpack("<Q", struct.pack("<d", x))[0]


def double(f64_bits):
    return struct.unpack("<d", struct.pack("<Q", f64_bits))[0]


class Random:
    """SplitMix64: the same numbers from a seed in every Python."""

    MASK = 2**64 - 1

    def __init__(self, *seeds):
        self.state = 0
        for seed in seeds:
            self.state = (self.word() ^ seed) & self.MASK

    def word(self):
        self.state = (self.state + 0x9E3779B97F4A7C15) & self.MASK
        z = self.state
        z = ((z ^ (z >> 30)) * 0xBF58476D1CE4E5B9) & self.MASK
        z = ((z ^ (z >> 27)) * 0x94D049BB133111EB) & self.MASK
        return z ^ (z >> 31)

    def words(self, count):
        """As many words, in one loop: samples need many."""
        state, mask, made = self.state, self.MASK, []
        for _ in range(count):
            state = (state + 0x9E3779B97F4A7C15) & mask
            z = ((state ^ (state >> 30)) * 0xBF58476D1CE4E5B9) & mask
            z = ((z ^ (z >> 27)) * 0x94D049BB133111EB) & mask
            made.append(z ^ (z >> 31))
        self.state = state
        return made

    def below(self, n):
        return self.word() % n

    def between(self, low, high):
        return low + self.below(high - low + 1)

    def chance(self, part, whole):
        return self.below(whole) < part

    def pick(self, items):
        return items[self.below(len(items))]

    def subset(self, items, count):
        """`count` of the items, in their order."""
        left, kept = list(range(len(items))), []
        for _ in range(min(count, len(items))):
            kept.append(left.pop(self.below(len(left))))
        return [items[i] for i in sorted(kept)]
