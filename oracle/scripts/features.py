"""What the generated scenes must have examples of."""
import scenes

VOLUMES = (-96000, -60001, -60000, -59999, 0, 18000)
EASINGS = [(0, 0)] + [(easing, power) for easing in (1, 2, 3) for power in range(1, 9)]
KINDS = range(6)
PAUSE, RESUME = 4, 5
# The pauses and resumes of a block and track, in file order: the last lines decide.
BOTH_KINDS = ("PR", "RP", "PRP", "RPR", "PPR", "RRP", "RPP", "PRR")
ALL = (
    [f"depth {n}" for n in range(1, scenes.DEEPEST + 1)]
    + [f"channels {n}" for n in range(1, 9)]
    + [f"volume {n}" for n in VOLUMES]
    + [f"easing {easing} power {power}" for easing, power in EASINGS]
    + [f"order kind {kind}, {start}" for kind in KINDS for start in ("at once", "delayed", "by a clock")]
    + ["order of 0 ms", "alike orders in one block"]
    + [f"lines {lines}" for lines in BOTH_KINDS]
    + [f"dropped resume that {when} the pause" for when in ("starts with", "starts otherwise than")]
    + ["buffer does not divide block", "route", "clock that does not tick", "sound on the main track"]
    + ["sound without frames", "sound that ends inside a chunk", "32 tracks", "128 orders", "64 sounds"]
    + ["spatial track", "spatial track without a listener", "listener without a spatial track", "32 placings"]
    + [f"spatial track {where}" for where in ("at the listener", "inside near", "at near", "between", "at far", "beyond far")]
    + ["spatial track below a spatial track", "spatial track with a route", "spatial track that an order names", "coordinate at an end"]
)


def of(scene):
    """Each feature once, so that a count of them is one of scenes."""
    return {*of_head(scene), *of_tables(scene), *of_room(scene), *of_orders(scene)}


def of_head(scene):
    _, channels, buffer, block, _, _ = scene.head[0]
    yield f"channels {channels}"
    if block % buffer:
        yield "buffer does not divide block"


def of_tables(scene):
    for line in range(1, len(scene.tracks) + 1):
        yield f"depth {scenes.depth(scene.tracks, line)}"
    volumes = {row[-1] for name in ("head", "tracks", "sends", "routes") for row in scene.tables[name]}
    yield from (f"volume {volume}" for volume in volumes if volume in VOLUMES)
    found = {
        "route": scene.routes,
        "clock that does not tick": any(not ticking for _, _, ticking in scene.clocks),
        "sound on the main track": any(row[0] == 0 for row in scene.sounds),
        "sound without frames": any(row[2] == 0 for row in scene.sounds),
        "sound that ends inside a chunk": any(row[2] % scene.head[0][2] for row in scene.sounds),
        "32 tracks": len(scene.tracks) == 32,
        "128 orders": len(scene.orders) == 128,
        "64 sounds": len(scene.sounds) == 64,
    }
    yield from (name for name, holds in found.items() if holds)


def of_room(scene):
    placed = {row[0] for row in scene.placings}
    coordinates = [at for row in scene.listener + [row[1:4] for row in scene.placings] for at in row]
    found = {
        "spatial track": placed,
        "spatial track without a listener": placed and not scene.listener,
        "listener without a spatial track": scene.listener and not placed,
        "32 placings": len(scene.placings) == 32,
        "spatial track below a spatial track": any(scene.tracks[line - 1][0] in placed for line in placed),
        "spatial track with a route": any(row[0] in placed for row in scene.routes),
        "spatial track that an order names": any(row[1] in (1, 4, 5) and row[2] in placed for row in scene.orders),
        "coordinate at an end": any(abs(at) == scenes.FARTHEST for at in coordinates),
    }
    yield from (name for name, holds in found.items() if holds)
    for _, *place, near, far in scene.placings if scene.listener else []:
        yield f"spatial track {where(scene.listener[0], place, near, far)}"


def where(listener, place, near, far):
    """Where a track stands, in whole numbers."""
    square = sum((a - b) ** 2 for a, b in zip(listener, place))
    if square == 0:
        return "at the listener"
    if square <= near**2:
        return "at near" if square == near**2 else "inside near"
    return "between" if square < far**2 else "at far" if square == far**2 else "beyond far"


def of_orders(scene):
    for _, kind, _, _, clock, when, _, millis, easing, power in scene.orders:
        yield f"easing {easing} power {power}"
        yield f"order kind {kind}, {'by a clock' if clock else 'delayed' if when else 'at once'}"
        if millis == 0:
            yield "order of 0 ms"
    alike = [tuple(row[:3]) for row in scene.orders]
    if len(set(alike)) < len(alike):
        yield "alike orders in one block"
    for block, kind, index in set(alike):
        if kind == PAUSE and (block, RESUME, index) in alike:
            yield from of_both_kinds([row for row in scene.orders if row[0] == block and row[1] in (PAUSE, RESUME) and row[2] == index])


def of_both_kinds(rows):
    """Of a block's pauses and resumes for one track."""
    yield "lines " + "".join("P" if row[1] == PAUSE else "R" for row in rows)
    if rows[-1][1] == PAUSE:
        resume = [row for row in rows if row[1] == RESUME][-1]
        yield f"dropped resume that starts {'with' if resume[4:7] == rows[-1][4:7] else 'otherwise than'} the pause"
