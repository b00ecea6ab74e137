"""Accepted scenes from a seed."""
from tables import MOST_LINES, PROGRAM_LIMIT, Random, Scene, all_bits, bits

DEEPEST = 4
RATES = [8000, 8192, 11025, 16000, 22050, 32000, 44100, 48000, 96000, 192000]
BUFFERS = [1, 2, 3, 5, 7, 8, 16, 24, 32, 64, 72, 100, 128, 255, 256]
COMMON_VOLUMES = [0, 0, 0, 1, -1, -3000, -6000, -6021, 4004, -20000]
EDGE_VOLUMES = [-96000, -63996, -60001, -60000, -60000, -59999, -59950, 17999, 18000]
VOLUMES = COMMON_VOLUMES + EDGE_VOLUMES
# Steps whose length is whole: 3 4 0 has 5.
STEPS = [([1, 0, 0], 1), ([3, 4, 0], 5), ([1, 2, 2], 3), ([2, 3, 6], 7), ([4, 4, 7], 9), ([2, 10, 11], 15)]
FARTHEST = 1_000_000
SPECIAL_SAMPLES = [bits(x) for x in (0.0, -0.0, 1.0, -1.0, 0.5, -0.25, 1e-45, -1e-45, 2e-39)]


class Limits:
    """How much a scene may hold; a pair's outside leaves room for its inside."""

    def __init__(self, share=1, audible=False, longest=PROGRAM_LIMIT, frames=PROGRAM_LIMIT // 2):
        self.frames = frames
        self.lines = {name: max(1, most // share) for name, most in MOST_LINES.items()}
        self.audible = audible
        self.longest = longest
        self.deepest = DEEPEST - 1 if share > 1 else DEEPEST


def volume(rng, limits):
    if limits.audible:
        return rng.between(-6000, 3000)
    # Silence is common enough down a chain of tracks.
    kind = rng.below(6)
    if kind < 4:
        return rng.pick(COMMON_VOLUMES)
    return rng.pick(EDGE_VOLUMES) if kind == 4 else rng.between(-96000, 18000)


def count(rng, most):
    """Often few, sometimes as many as there may be."""
    if rng.chance(1, 12):
        return most
    return rng.below(min(most, rng.pick([1, 3, 8, most])) + 1)


def head(rng, limits):
    channels = rng.pick([1, 2, 2, 2, 3, 4, 5, 6, 7, 8])
    frames = rng.between(1, min(rng.pick([8, 64, 512, 8192]), limits.longest // channels))
    block = rng.between(1, min(512, frames))
    blocks = min(1024, max(1, frames // block))
    rate = rng.pick(RATES) if rng.chance(3, 4) else rng.between(8000, 192000)
    buffer = rng.pick(BUFFERS) if rng.chance(3, 4) else rng.between(1, 256)
    return [rate, channels, buffer, block, blocks, volume(rng, limits)]


def short_head(rng, limits):
    """Blocks of few frames, so that what a block costs beside them counts."""
    channels, block = rng.pick([1, 2, 2, 3, 8]), rng.pick([1, 1, 1, 2, 3, 4, 8, 16])
    blocks = min(rng.pick([16, 64, 128, 200, 400, 1024]), limits.longest // (channels * block))
    return [rng.pick(RATES), channels, rng.pick(BUFFERS), block, blocks, volume(rng, limits)]


def fading_head(rng, limits):
    """Chunks of few frames, so that what a chunk costs beside them counts."""
    channels, block = rng.pick([1, 2, 2, 3, 7, 8]), rng.pick([8, 64, 128, 256, 512])
    blocks = max(1, min(rng.pick([2, 4, 8, 16]), limits.longest // (channels * block)))
    return [rng.pick(RATES), channels, rng.pick([1, 1, 1, 2, 3, 4]), block, blocks, 0]


def clock(rng):
    unit = rng.below(3)
    fastest, slowest = [(1, 60000), (1_000_000, 1), (60_000_000, 1)][unit]
    low, high = min(fastest, slowest), max(fastest, slowest)
    speed = fastest if rng.chance(1, 8) else rng.between(low, rng.pick([high, low + 200, high]))
    if unit == 1 and rng.chance(1, 2):
        speed = rng.pick([1000, 2000, 100_000, 500_000, 999_999])
    return [unit, speed, 0 if rng.chance(1, 6) else 1]


def depth(tracks, line):
    return 0 if line == 0 else 1 + depth(tracks, tracks[line - 1][0])


def tracks(rng, limits):
    made = []
    for line in range(1, count(rng, limits.lines["tracks"]) + 1):
        shallow = [t for t in range(line) if depth(made, t) < limits.deepest]
        parent = rng.pick(shallow) if rng.chance(3, 4) else shallow[-1]
        made.append([parent, volume(rng, limits)])
    return made


def routes(rng, limits, tracks, sends):
    pairs = [(t, s) for t in range(1, tracks + 1) for s in range(1, sends + 1)]
    chosen = [rng.pick(pairs) for _ in range(count(rng, limits.lines["routes"]))] if pairs else []
    return [[t, s, volume(rng, limits)] for t, s in dict.fromkeys(chosen)]


def samples(rng, frames):
    """A word gives both samples of a frame: of 32 bits 25 are the value, and
    the others tell which samples are special, about one in twelve."""
    # Loud sums clamp, and then hide what differs: most buffers are quiet.
    scale = rng.pick([1.0, 0.25, 2**-5, 2**-8])
    halves = [half for word in rng.words(frames) for half in (word & 0xFFFFFFFF, word >> 32)]
    made = all_bits([((half & 0x1FFFFFF) / 2**24 - 1) * scale for half in halves])
    for place, half in enumerate(halves):
        if half >> 25 < 11:
            made[place] = SPECIAL_SAMPLES[half % len(SPECIAL_SAMPLES)]
    return made


def sound(rng, tracks, both):
    """`both`: how many frames the house's buffer has, and the visitor's."""
    origin = rng.below(2)
    frames = both[origin]
    first = rng.below(rng.pick([0, frames // 2, frames]) + 1)
    rest = frames - first
    length = rng.pick([0, 1, rng.below(rest + 1), rest, rest, rest])
    return [rng.below(tracks + 1), first, min(length, frames - first), origin]


def listener(rng):
    # Eighths are exact in f32.
    return [125 * rng.between(-1600, 1600) for _ in range(3)] if rng.chance(3, 4) else any_place(rng)


def any_place(rng):
    edges = [-FARTHEST, 1 - FARTHEST, -1, 0, 1, 1001, FARTHEST - 1, FARTHEST]
    return [rng.pick(edges) if rng.chance(1, 2) else rng.between(-FARTHEST, FARTHEST) for _ in range(3)]


def any_distances(rng):
    near = rng.pick([0, 1, FARTHEST - 1, rng.below(FARTHEST)])
    return [near, rng.pick([near + 1, FARTHEST, rng.between(near + 1, FARTHEST)])]


def distances(rng, distance):
    """Near and far, by where a track at that distance shall stand."""
    if distance < 2:
        return any_distances(rng)
    way = rng.pick(["between"] * 4 + ["inside", "near", "far", "beyond"])
    if way == "inside" and distance < FARTHEST - 1:
        near = rng.between(distance + 1, FARTHEST - 1)
    elif way in ("far", "beyond"):
        near = rng.below(distance - 1)
    else:
        near = distance if way == "near" else rng.below(distance)
    if way == "far":
        return [near, distance]
    if way == "beyond":
        return [near, rng.between(near + 1, distance - 1)]
    return [near, min(FARTHEST, max(near, distance) + rng.between(1, 3 * distance))]


def pose(rng, heard_from):
    """Fields x, y, z, near and far: somewhere, or a step of whole length from
    the listener, so that edges are met exactly."""
    if heard_from is None or rng.chance(1, 4):
        return any_place(rng) + any_distances(rng)
    step, length = rng.pick(STEPS)
    size = 125 * rng.below(rng.pick([1, 8, 200, 400]))
    place = [at + rng.pick([-1, 1]) * size * part for at, part in zip(heard_from, step[::rng.pick([-1, 1])])]
    if not all(-FARTHEST <= at <= FARTHEST for at in place) or size * length >= FARTHEST:
        return any_place(rng) + any_distances(rng)
    return place + distances(rng, size * length)


def placings(rng, scene):
    """Of some tracks, each once, in any order of lines."""
    heard_from = scene.listener[0] if scene.listener else None
    lines = list(range(1, len(scene.tracks) + 1))
    chosen = rng.subset(lines, rng.pick([1, len(lines) // 2 + 1, len(lines)]))
    made = []
    for line in chosen:
        made.insert(rng.below(len(made) + 1), [line, *pose(rng, heard_from)])
    return made


def room(rng, scene, limits):
    """A third of the scenes have spatial tracks; most of them a listener."""
    spatial = rng.chance(2, 5) and scene.tracks and not limits.audible
    if rng.chance(5, 6) if spatial else rng.chance(1, 12):
        scene.tables["listener"] = [listener(rng)]
    if spatial:
        scene.tables["placings"] = placings(rng, scene)[: limits.lines["placings"]]


def shows_millis(head):
    rate, _, _, block, blocks, _ = head
    return block * blocks * 1000 // rate


def length_millis(rng, head):
    """Lengths that matter: a few chunks, about the show, or for ever."""
    chunk = max(1, head[2] * 1000 // head[0])
    show = max(1, shows_millis(head))
    few = chunk * rng.between(1, 8)
    return rng.pick([1, 2, few, few, rng.between(1, show), rng.between(1, 3 * show), 3_600_000])


def start(rng, scene):
    """Fields clock, when, part."""
    head = scene.head[0]
    if scene.clocks and rng.chance(1, 3):
        line = rng.between(1, len(scene.clocks))
        unit, speed, _ = scene.clocks[line - 1]
        ticks_per_second = [1000 / speed, speed / 1000, speed / 60000][unit]
        last = int(ticks_per_second * shows_millis(head) / 1000) + 1
        return [line, rng.below(min(last, 3_600_000) + 1), rng.pick([0, 0, 1, 500, 999, rng.below(1000)])]
    if rng.chance(1, 3):
        return [0, min(length_millis(rng, head), 3_600_000), 0]
    return [0, 0, 0]


def targets(scene):
    """Each kind and index that an order can name."""
    lines = {1: "tracks", 2: "sends", 3: "routes", 4: "tracks", 5: "tracks"}
    named = [(kind, i) for kind, table in lines.items() for i in range(1, len(scene.tables[table]) + 1)]
    return [(0, 0)] + named


def order(rng, scene, limits, block, kind, index):
    clock, when, part = start(rng, scene)
    waits = clock != 0 or when > 0
    millis = 0 if rng.chance(1, 4) else min(length_millis(rng, scene.head[0]), 3_600_000)
    if waits and kind != 5:
        millis = max(1, millis)
    easing = rng.below(4)
    power = 0 if easing == 0 else rng.between(1, 8)
    level = 0 if kind > 3 else volume(rng, limits)
    return [block, kind, index, level, clock, when, part, millis, easing, power]


def orders(rng, scene, limits):
    made, blocks = [], scene.head[0][4]
    every = targets(scene)
    for _ in range(count(rng, limits.lines["orders"])):
        block = 0 if rng.chance(1, 3) else rng.below(blocks)
        kind, index = rng.pick(every)
        if made and rng.chance(1, 3):
            # Alike with an earlier order, or a pause and a resume in one block, in either order of lines.
            block, kind, index = made[rng.below(len(made))][:3]
            if kind in (4, 5) and rng.chance(1, 2):
                kind = 9 - kind
        made.append(order(rng, scene, limits, block, kind, index))
    return made


def short_orders(rng, scene, limits):
    """Often as many as there may be: in one block after the other, in any
    blocks, or in one; of all kinds, or of one."""
    blocks, every = scene.head[0][4], targets(scene)
    lines = rng.pick([0, 1, 8, 32, 128, 128, 128])
    kind = rng.pick(every)[0]
    named = every if rng.chance(1, 2) else [target for target in every if target[0] == kind]
    spread = rng.pick(["each", "any", "one"])
    made = []
    for line in range(lines):
        places = {"each": line * max(1, blocks // lines) % blocks, "any": rng.below(blocks), "one": blocks // 2}
        made.append(order(rng, scene, limits, places[spread], *rng.pick(named)))
    return made


def fading_orders(rng, scene, limits):
    """Changes that take long, from the first block on: no chunk stands still."""
    every, made = targets(scene), []
    for _ in range(rng.pick([1, 1, 2, 4, 8])):
        kind, index = rng.pick(every)
        level = 0 if kind > 3 else rng.pick([-20000, -3000, 3000])
        made.append([0, kind, index, level, 0, 0, 0, rng.pick([10, 1000, 3_600_000]), *rng.pick([(0, 0), (1, 2), (3, 3)])])
    return made


def waiting_orders(rng, scene, limits):
    """One change of the main volume for the whole show, and tracks that wait
    to resume, or changes that wait, by a delay or a clock, for longer than it."""
    tracks, made = len(scene.tracks), [[0, 0, 0, -20000, 0, 0, 0, 3_600_000, 0, 0]]
    last = min(1, scene.head[0][4] - 1)
    for index in range(1, tracks + 1):
        by_clock = scene.clocks and rng.chance(1, 2)
        wait = [rng.between(1, len(scene.clocks)), 3_600_000, 0] if by_clock else [0, 3_600_000, 0]
        if rng.chance(1, 2):
            made.append([0, 4, index, 0, 0, 0, 0, 0, 0, 0])
            made.append([last, 5, index, 0, *wait, 10, 0, 0])
        else:
            made.append([last, 1, index, -3000, *wait, 10, 0, 0])
    return made


def scene(rng, limits=Limits(), head=head, orders=orders):
    made = Scene(head=[head(rng, limits)])
    tables = made.tables
    tables["clocks"] = [clock(rng) for _ in range(count(rng, limits.lines["clocks"]))]
    tables["tracks"] = tracks(rng, limits)
    tables["sends"] = [[volume(rng, limits)] for _ in range(count(rng, limits.lines["sends"]))]
    tables["routes"] = routes(rng, limits, len(made.tracks), len(made.sends))
    both = [rng.below(min(rng.pick([4, 256, 1024, 4096]), limits.frames) + 1) for _ in range(2)]
    made.samples, made.visitor = (samples(rng, frames) for frames in both)
    sounds = rng.pick([0, 1, 1, 2]) + count(rng, limits.lines["sounds"] - 2)
    tables["sounds"] = [sound(rng, len(made.tracks), both) for _ in range(sounds)]
    tables["orders"] = orders(rng, made, limits)
    room(rng, made, limits)
    return made


def from_seed(seed, n):
    return scene(Random(seed, n))
