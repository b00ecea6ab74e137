"""Pairs of scenes that are alike but for what lies inside silenced tracks,
and control pairs that break one rule each.

The words are those of docs/SILENCE.md: a chosen track is muted or held (paused
at the start), and the lines inside it are what may differ.
"""
import scenes
from tables import MOST_LINES, NAMES, PROGRAM_LIMIT, Random, Scene, bits, field

SILENCE = -60000
MOST_FRAMES = PROGRAM_LIMIT // 2
TRACK_KINDS, ROUTE_KIND, PAUSE, RESUME = (1, 4, 5), 3, 4, 5
INDEX = field("orders", "index")
PAUSE_AT_START = dict(block=0, clock=0, when=0, part=0, millis=0)


class Pair:
    def __init__(self, scenes, chosen):
        self.scenes, self.chosen = scenes, chosen


# The words, by the input alone.


def below(scene, line):
    """The tracks below a track."""
    found = set()
    for other, (parent, _) in enumerate(scene.tracks, 1):
        if parent == line or parent in found:
            found.add(other)
    return found


def is_muted(scene, line):
    orders = [row[3] for row in scene.orders if row[1:3] == [1, line]]
    inner = below(scene, line)
    volumes = [scene.tracks[line - 1][1], *orders]
    return all(v <= SILENCE for v in volumes) and all(row[0] not in inner for row in scene.routes)


def is_paused_at_start(scene, line):
    orders = [row for row in scene.orders if row[1] in (PAUSE, RESUME) and row[2] == line]
    if len(orders) != 1:
        return False
    block, kind, _, _, clock, when, _, millis, _, _ = orders[0]
    return kind == PAUSE and block == clock == when == millis == 0


def erased(scene, chosen):
    """The lines left, their references counted among those lines alone, a
    sound with the frames that it plays; and which of them are chosen."""
    inner = set().union(*(below(scene, line) for line in chosen))
    tracks = ranks(t for t in range(1, len(scene.tracks) + 1) if t not in inner)
    routes = ranks(r for r, row in enumerate(scene.routes, 1) if row[0] in tracks)
    return (
        scene.head, scene.clocks, scene.sends, scene.listener,
        [[tracks[parent], volume] for line, (parent, volume) in enumerate(scene.tracks, 1) if line in tracks],
        [[tracks[track], send, volume] for track, send, volume in scene.routes if track in tracks],
        [kept_sound(scene, row, tracks) for row in scene.sounds if row[0] in tracks and row[0] not in chosen],
        [[tracks[track], *pose] for track, *pose in scene.placings if track in tracks and track not in chosen],
        [row for row in (kept_order(row, tracks, routes) for row in scene.orders) if row],
        [tracks[line] for line in chosen],
    )  # fmt: skip


def ranks(lines):
    """Each line's place among those left; 0 stays 0."""
    return {0: 0} | {line: rank for rank, line in enumerate(lines, 1)}


def kept_sound(scene, row, tracks):
    track, first, count, origin = row
    return [tracks[track], count, scene.recordings()[origin][2 * first : 2 * (first + count)]]


def kept_order(row, tracks, routes):
    kind, index = row[1:3]
    places = tracks if kind in TRACK_KINDS else routes if kind == ROUTE_KIND else None
    if places is not None and index not in places:
        return None
    return row[:INDEX] + [places[index] if places else index] + row[INDEX + 1 :]


def alike(pair):
    """Whether the pair is alike but for what lies inside its chosen tracks."""
    sides = list(zip(pair.scenes, pair.chosen))
    silenced = all(is_muted(s, t) or is_paused_at_start(s, t) for s, chosen in sides for t in chosen)
    one, other = (erased(scene, chosen) for scene, chosen in sides)
    return silenced and one == other


def origins(scene):
    return [row[3] for row in scene.sounds]


def poses(pair, n, chosen_too):
    """The placings inside the chosen tracks of one side, the tracks' own or those below."""
    scene, chosen = pair.scenes[n], pair.chosen[n]
    lines = chosen if chosen_too else set().union(*(below(scene, line) for line in chosen))
    return sorted(pose for line, *pose in scene.placings if line in lines)


def kinds(pair):
    """What a pair is an example of."""
    (one, other), (chosen, _) = pair.scenes, pair.chosen
    inner = set().union(*(below(one, line) for line in chosen))
    muted = any(is_muted(one, t) for t in chosen)
    paused = any(not is_muted(one, t) for t in chosen)
    found = {
        "nothing chosen": not chosen,
        "both kinds": muted and paused,
        "other line counts": any(len(one.tables[t]) != len(other.tables[t]) for t in one.tables),
        "other chosen lines": pair.chosen[0] != pair.chosen[1],
        "other sample lengths": len(one.samples) != len(other.samples),
        "other visitor lengths": len(one.visitor) != len(other.visitor),
        "other origins inside": origins(one) != origins(other),
        "spatial outside": any(row[0] not in inner and row[0] not in chosen for row in one.placings),
        "other poses of chosen tracks": poses(pair, 0, True) != poses(pair, 1, True),
        "other poses below": poses(pair, 0, False) != poses(pair, 1, False),
        "other poses, and a listener": bool(one.listener) and poses(pair, 0, True) != poses(pair, 1, True),
        "send below a paused track": any(r[0] in below(one, t) for r in one.routes for t in chosen),
    }
    return [name for name, holds in found.items() if holds]


# Making pairs. While lines come and go, tracks and routes have names.


class Track:
    def __init__(self, parent, volume):
        self.parent, self.volume = parent, volume

    def depth(self):
        return 1 + (self.parent.depth() if self.parent else 0)

    def above(self):
        """This track and those above it."""
        return [self] + (self.parent.above() if self.parent else [])


class Route:
    def __init__(self, track, send, volume):
        self.track, self.send, self.volume = track, send, volume


class Draft:
    """A scene whose tracks and routes are objects; an order is its target and
    its line."""

    def __init__(self, scene):
        self.scene, self.tracks, self.routes, self.sounds, self.placings, self.orders = scene, [], [], [], [], []
        for parent, volume in scene.tracks:
            self.tracks.append(Track(self.tracks[parent - 1] if parent else None, volume))
        for track, send, volume in scene.routes:
            self.routes.append(Route(self.tracks[track - 1], send, volume))
        for track, *place in scene.sounds:
            self.sounds.append((self.tracks[track - 1] if track else None, *place))
        for track, *pose in scene.placings:
            self.placings.append((self.tracks[track - 1], *pose))
        for row in scene.orders:
            self.orders.append((self.target(row[1], row[2]), row))

    def target(self, kind, index):
        if kind in TRACK_KINDS:
            return self.tracks[index - 1]
        return self.routes[index - 1] if kind == ROUTE_KIND else index

    def copy(self):
        made = Draft(Scene())
        made.scene = self.scene
        for name in ("tracks", "routes", "sounds", "placings", "orders"):
            setattr(made, name, list(getattr(self, name)))
        return made

    def remove_inside(self, chosen):
        """Takes out what lies inside the chosen tracks."""
        inner = [t for t in self.tracks if any(a in chosen for a in t.above()[1:])]
        routes = [r for r in self.routes if r.track in inner]
        self.tracks = [t for t in self.tracks if t not in inner]
        self.routes = [r for r in self.routes if r not in routes]
        self.sounds = [s for s in self.sounds if s[0] not in inner and s[0] not in chosen]
        self.placings = [p for p in self.placings if p[0] not in inner and p[0] not in chosen]
        self.orders = [o for o in self.orders if o[0] not in inner and o[0] not in routes]

    def room(self, table):
        return MOST_LINES[table] - len(getattr(self, table))

    def numbered(self, samples, visitor):
        tracks = {track: n for n, track in enumerate(self.tracks, 1)} | {None: 0}
        routes = {route: n for n, route in enumerate(self.routes, 1)}
        index = lambda target: tracks.get(target) or routes.get(target) or target
        return Scene(
            head=self.scene.head, clocks=self.scene.clocks, sends=self.scene.sends, samples=samples, visitor=visitor,
            listener=self.scene.listener,
            tracks=[[tracks[t.parent], t.volume] for t in self.tracks],
            routes=[[tracks[r.track], r.send, r.volume] for r in self.routes],
            sounds=[[tracks[track], *place] for track, *place in self.sounds],
            placings=[[tracks[track], *pose] for track, *pose in self.placings],
            orders=[row[:INDEX] + [index(target)] + row[INDEX + 1 :] for target, row in self.orders],
        )  # fmt: skip

    def lines(self, chosen):
        return [self.tracks.index(track) + 1 for track in chosen]


def inserted(rng, items, item, after=0):
    items.insert(rng.between(after, len(items)), item)


def choose(rng, draft, most):
    """Tracks, none below another, in line order."""
    chosen = []
    for track in rng.subset(draft.tracks, rng.below(most) + 1):
        if not any(a in chosen for a in track.above()):
            chosen.append(track)
    return chosen


def order_line(rng, draft, kind, limits, **fields):
    row = scenes.order(rng, draft.scene, limits, rng.below(draft.scene.head[0][4]), kind, 0)
    for name, value in fields.items():
        row[field("orders", name)] = value
    return row


def mute(rng, draft, track, limits):
    quiet = lambda: rng.pick([SILENCE, SILENCE - 1, -96000, rng.between(-96000, SILENCE)])
    track.volume = quiet()
    for target, row in draft.orders:
        if target is track and row[1] == 1:
            row[field("orders", "volume")] = quiet()


def pause(rng, draft, track, limits, **fields):
    draft.orders = [o for o in draft.orders if not (o[0] is track and o[1][1] in (PAUSE, RESUME))]
    row = order_line(rng, draft, PAUSE, limits, **(PAUSE_AT_START | fields))
    inserted(rng, draft.orders, (track, row))


class Inside:
    """Puts lines inside the chosen tracks of a draft."""

    def __init__(self, rng, draft, chosen, muted, limits):
        self.rng, self.draft, self.limits = rng, draft, limits
        self.muted, self.holders, self.added = muted, list(chosen), []

    def fill(self):
        rng, draft = self.rng, self.draft
        if self.holders:
            for _ in range(scenes.count(rng, min(10, draft.room("tracks")))):
                self.add_track()
            for _ in range(scenes.count(rng, min(20, draft.room("routes")))):
                self.add_route()
            for _ in range(scenes.count(rng, min(40, draft.room("orders")))):
                self.add_order()
            self.add_placings()

    def add_track(self):
        parents = [t for t in self.holders if t.depth() < scenes.DEEPEST]
        if not parents:
            return None
        parent = self.rng.pick(parents)
        track = Track(parent, scenes.volume(self.rng, self.limits))
        inserted(self.rng, self.draft.tracks, track, self.draft.tracks.index(parent) + 1)
        self.holders.append(track)
        self.added.append(track)
        return track

    def add_route(self):
        """Below a muted track nothing may be routed."""
        routable = [t for t in self.added if not any(a in self.muted for a in t.above())]
        if routable and self.draft.scene.sends:
            self.route(self.rng.pick(routable))

    def route(self, track):
        send = self.rng.between(1, len(self.draft.scene.sends))
        if not any(r.track is track and r.send == send for r in self.draft.routes):
            route = Route(track, send, scenes.volume(self.rng, self.limits))
            inserted(self.rng, self.draft.routes, route)

    def add_order(self):
        inner = [(kind, track) for track in self.added for kind in TRACK_KINDS]
        inner += [(ROUTE_KIND, r) for r in self.draft.routes if r.track in self.added]
        if inner:
            kind, target = self.rng.pick(inner)
            row = order_line(self.rng, self.draft, kind, self.limits)
            inserted(self.rng, self.draft.orders, (target, row))

    def add_placings(self):
        """Poses of the chosen tracks themselves, and of those below them."""
        rng, listener = self.rng, self.draft.scene.listener
        # A control pair's inside shall be heard.
        holders = [] if self.limits.audible else rng.subset(self.holders, rng.pick([0, 1, len(self.holders)]))
        for track in holders[: self.draft.room("placings")]:
            pose = scenes.pose(rng, listener[0] if listener else None)
            inserted(rng, self.draft.placings, (track, *pose))

    def add_sounds(self, both, least=0):
        """Sounds inside, of buffers of so many frames; at least some of them
        play from the start."""
        rng, draft = self.rng, self.draft
        if not self.holders:
            return
        for _ in range(max(least, scenes.count(rng, min(30, draft.room("sounds"))))):
            _, first, count, origin = scenes.sound(rng, 0, both)
            holder = self.holders[-1] if least else rng.pick(self.holders)
            count = max(count, min(least, both[origin] - first))
            inserted(rng, draft.sounds, (holder, first, count, origin))


def buffer(rng, draft, origin, least=0):
    """One of the two buffers: samples with the draft's bits where a sound
    outside plays, and others elsewhere, in a length of its own."""
    base = draft.scene.recordings()[origin]
    outside = [(first, count) for _, first, count, other in draft.sounds if other == origin]
    needed = max([first + count for first, count in outside], default=0)
    frames = min(MOST_FRAMES, max(needed, least) + rng.pick([0, 1, rng.below(200)]))
    samples = scenes.samples(rng, frames)
    for first, count in outside:
        samples[2 * first : 2 * (first + count)] = base[2 * first : 2 * (first + count)]
    return samples


def from_seed(seed, n, kind=None):
    rng = Random(seed, n)
    return control(rng, kind) if kind else pair(rng)


def pair(rng):
    limits = scenes.Limits(share=2)
    draft = drafted(rng, limits)
    chosen = [] if rng.chance(1, 40) else choose(rng, draft, 3)
    draft.remove_inside(chosen)
    muted = [track for track in chosen if rng.chance(1, 2)]
    for track in chosen:
        (mute if track in muted else pause)(rng, draft, track, limits)
    return Pair(*zip(*(side(rng, draft, chosen, muted, limits) for _ in range(2))))


def drafted(rng, limits):
    scene = scenes.scene(rng, limits)
    while len(scene.tracks) < 1:
        scene = scenes.scene(rng, limits)
    return Draft(scene)


def side(rng, outside, chosen, muted, limits, least=0, routed=False):
    draft = outside.copy()
    inside = Inside(rng, draft, chosen, muted, limits)
    inside.fill()
    if routed:
        # A send from below, which a muted track may not have.
        inside.holders = [chosen[0]]
        inside.route(inside.add_track())
    both = [buffer(rng, outside, origin, least) for origin in range(2)]
    inside.add_sounds([len(samples) // 2 for samples in both], least)
    return draft.numbered(*both), draft.lines(chosen)


# Control pairs: audible outside, one chosen track, one rule broken.

CONTROLS = {}


def breaks(**options):
    """`routed`: the inside needs a send to be heard."""

    def listed(function):
        CONTROLS[function.__name__.replace("_", "-")] = function, options
        return function

    return listed


def control(rng, kind):
    breaking, options = CONTROLS[kind]
    limits = scenes.Limits(share=4, audible=True, frames=MOST_FRAMES // 2)
    draft = audible_draft(rng, limits)
    chosen = [rng.pick(draft.tracks)]
    draft.remove_inside(chosen)
    muted = breaking(rng, draft, chosen[0], limits) == "muted"
    one, other = (side(rng, draft, chosen, chosen if muted else [], limits, 8, **options) for _ in range(2))
    if kind in CHANGES:
        CHANGES[kind](rng, one[0], other[0])
    return Pair(*zip(one, other))


def audible_draft(rng, limits):
    """Short chunks, several blocks, a send, nothing paused or waiting long."""
    scene = drafted(rng, limits).scene
    scene.tables["head"] = [[rng.between(16000, 96000), rng.between(1, 3), rng.between(1, 15), 32, 12, 0]]
    scene.sends.append([0])
    scene.tables["orders"] = []
    scene.samples += scenes.samples(rng, 32)
    # The main track's sound: something outside to be heard.
    scene.sounds.append([0, len(scene.samples) // 2 - 32, 32, 0])
    return Draft(scene)


def add_order(rng, draft, track, limits, kind, **fields):
    inserted(rng, draft.orders, (track, order_line(rng, draft, kind, limits, **fields)))


@breaks()
def muted_above_silence(rng, draft, track, limits):
    track.volume = SILENCE + 1
    return "muted"


@breaks()
def loud_volume_order(rng, draft, track, limits):
    mute(rng, draft, track, limits)
    loud = rng.between(SILENCE + 1, 18000)
    add_order(rng, draft, track, limits, 1, block=0, volume=loud, clock=0, when=0, part=0, millis=rng.below(5))
    return "muted"


@breaks(routed=True)
def send_from_below(rng, draft, track, limits):
    mute(rng, draft, track, limits)
    return "muted"


@breaks()
def pause_with_millis(rng, draft, track, limits):
    pause(rng, draft, track, limits, millis=1)


@breaks()
def pause_with_when(rng, draft, track, limits):
    # A pause that waits has a length: question 4.
    pause(rng, draft, track, limits, when=1, millis=1)


@breaks()
def pause_in_block_1(rng, draft, track, limits):
    pause(rng, draft, track, limits, block=1)


@breaks(routed=True)
def second_pause(rng, draft, track, limits):
    pause(rng, draft, track, limits)
    later = rng.between(0, 3)
    add_order(rng, draft, track, limits, PAUSE, block=later, clock=0, when=0, part=0, millis=rng.between(1, 20))


@breaks()
def resume(rng, draft, track, limits):
    """In the pause's own block its line stands after the pause: else it would be dropped."""
    pause(rng, draft, track, limits)
    later = rng.between(0, 3)
    row = order_line(rng, draft, RESUME, limits, block=later, clock=0, when=0, part=0, millis=rng.below(5))
    paused = next(n for n, (target, other) in enumerate(draft.orders) if target is track and other[1] == PAUSE)
    inserted(rng, draft.orders, (track, row), 0 if later else paused + 1)


# Controls that keep the rules for chosen tracks, and change one thing outside in
# the second scene.

CHANGES = {}


def changes_outside(draft_with):
    """A function of both scenes, over drafts that another has made ready."""

    def listed(change):
        kind = change.__name__.replace("_", "-")
        CHANGES[kind], CONTROLS[kind] = change, (draft_with, {})
        return change

    return listed


def silenced(rng, draft, track, limits):
    (mute if rng.chance(1, 2) else pause)(rng, draft, track, limits)
    # No lines inside a muted track are routed, so the kind makes no difference.
    return "muted"


def silenced_and_placed(rng, draft, track, limits):
    """And one spatial track outside, between near and far, with a sound."""
    listener = [125 * rng.between(-800, 800) for _ in range(3)]
    step, length = rng.pick(scenes.STEPS)
    place = [at + 1000 * part for at, part in zip(listener, step)]
    outside = Track(None, 0)
    draft.tracks.append(outside)
    draft.sounds.append((outside, len(draft.scene.samples) // 2 - 32, 32, 0))
    draft.placings.append((outside, *place, rng.below(500), 1000 * length + rng.between(2000, 90_000)))
    draft.scene.tables["listener"] = [listener]
    return silenced(rng, draft, track, limits)


def main_sound(scene):
    """The line of the sound on the main track that was added last."""
    return max(line for line, row in enumerate(scene.sounds, 1) if row[0] == 0)


def other_bits(sample):
    half, quarter = bits(0.5), bits(0.25)
    return quarter if sample == half else half


@changes_outside(silenced)
def outside_frame(rng, one, other):
    """Another first frame of that sound."""
    first = one.get("sounds", main_sound(one), "first")
    other.samples[2 * first] = other_bits(one.samples[2 * first])


@changes_outside(silenced)
def outside_origin(rng, one, other):
    """That sound from the visitor, whose first frame there is another."""
    line = main_sound(other)
    first, count = (other.get("sounds", line, name) for name in ("first", "count"))
    played = other.samples[2 * first : 2 * (first + count)]
    other.set("sounds", line, "first", len(other.visitor) // 2)
    other.set("sounds", line, "from", 1)
    other.visitor += [other_bits(played[0]), *played[1:]]


@changes_outside(silenced_and_placed)
def outside_pose(rng, one, other):
    """That track nearer to the listener or farther away, or with other distances."""
    name = rng.pick(["x", "y", "z", "far"])
    other.set("placings", 1, name, other.get("placings", 1, name) + rng.pick([1, 100, 1500]))


@changes_outside(silenced_and_placed)
def outside_placing(rng, one, other):
    """That track plain."""
    other.tables["placings"] = []


@changes_outside(silenced_and_placed)
def outside_listener(rng, one, other):
    """The listener gone, or a step away."""
    (x, y, z), = other.listener
    other.tables["listener"] = [] if rng.chance(1, 2) else [[x + rng.pick([1, 100, -1500]), y, z]]
