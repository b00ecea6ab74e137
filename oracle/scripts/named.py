#!/usr/bin/env python3
"""The stored scenes: worked examples that need a scene, and each behaviour
that is easy to get wrong.

    named.py    writes scene.txt, samples.raw and visitor.raw into oracle/scenes/NAME

Each scene comes with a test of its output, so that it shows what its name
says. Most have chunks of 8 frames, 1 ms long, one to a block, in one channel.
"""
import pathlib

from tables import Scene, bits, number

FOLDER = pathlib.Path(__file__).parent.parent / "scenes"
SILENCE = -60000
FOREVER = 3_600_000
MAIN, TRACK, SEND, ROUTE, PAUSE, RESUME = range(6)
HOUSE, VISITOR = range(2)
NAMED = {}


def named(function):
    """A function that returns a scene and a test of its output, which is
    given as the values of each chunk in the first channel."""
    NAMED[function.__name__.replace("_", "-")] = function
    return function


def ramp(frames):
    """Frame i is (i + 1)/1024 on both sides: its value tells its place."""
    return [bits((i + 1) / 1024) for i in range(frames) for _ in range(2)]


def place(value):
    return round(value * 1024) - 1


def steady(frames, value=0.5):
    return [bits(value)] * (2 * frames)


def order(block, kind, index, volume=0, clock=0, when=0, part=0, millis=0, easing=0, power=0):
    return [block, kind, index, volume, clock, when, part, millis, easing, power]


def show(blocks=10, samples=None, rate=8000, channels=1, buffer=8, block=None, volume=0, **tables):
    """One track with one sound that plays all samples, where not said. A sound
    is from the house, where not said."""
    block = buffer if block is None else block
    samples = ramp(blocks * block) if samples is None else samples
    tables.setdefault("tracks", [[0, 0]])
    tables.setdefault("sounds", [[1, 0, len(samples) // 2]])
    tables["sounds"] = [row if len(row) == 4 else [*row, HOUSE] for row in tables["sounds"]]
    return Scene(head=[[rate, channels, buffer, block, blocks, volume]], samples=samples, **tables)


def chunks(scene, output):
    """The first channel's values, chunk by chunk."""
    _, channels, buffer, block, _, _ = scene.head[0]
    values = [number(b) for b in output[::channels]]
    blocks = [values[i : i + block] for i in range(0, len(values), block)]
    return [b[i : i + buffer] for b in blocks for i in range(0, block, buffer)]


def silent(chunk):
    return not any(chunk)


def still(chunk):
    return len(set(chunk)) == 1


def used_up(chunks, n):
    """How many frames of a ramp were used up when chunk n began."""
    return place(chunks[n][0])


# The worked examples, at their rate and buffer.

ROW = dict(rate=8192, buffer=128)


@named
def row_sample_scene():
    samples = [bits(x) for x in (0.5, -0.25, 1.0, 0.0)]
    return show(1, samples, channels=2, block=2, **ROW), lambda c: c == [[0.5, 1.0]]


@named
def row_linear_pause():
    scene = show(8, steady(1024), orders=[order(0, PAUSE, 1, millis=125)], **ROW)
    return scene, lambda c: silent(c[7]) and not silent(c[6])


@named
def row_delayed_resume():
    """Counted from the order, chunk 8 uses up half of the 256 frames without
    a sound, and the fade moves in chunk 9, which plays the rest."""
    orders = [order(0, PAUSE, 1), order(1, RESUME, 1, when=125, millis=125)]
    scene = show(11, steady(256), orders=orders, **ROW)
    return scene, lambda c: all(map(silent, c[:9])) and not silent(c[9]) and silent(c[10])


@named
def row_delayed_volume():
    scene = show(10, steady(1280), orders=[order(0, TRACK, 1, -6000, when=125, millis=125)], **ROW)
    return scene, lambda c: still(c[7]) and c[7] == c[0] and not still(c[8])


def doubled(channels):
    """Left 2.0 and right 0.0, of two sounds."""
    samples = [bits(1.0), bits(0.0)]
    return show(1, samples, channels=channels, block=1, sounds=[[0, 0, 1]] * 2, **ROW)


@named
def row_one_channel():
    return doubled(1), lambda c: c == [[0.5]]


@named
def row_three_channels():
    return doubled(3), lambda c: c == [[1.0]]


@named
def row_routed_track():
    scene = show(1, steady(1), block=1, sends=[[0]], routes=[[1, 1, 0]], **ROW)
    return scene, lambda c: c == [[1.0]]


@named
def row_send_below_silence():
    tracks, sounds = [[0, SILENCE], [1, 0]], [[2, 0, 1]]
    scene = show(1, steady(1), block=1, tracks=tracks, sounds=sounds, sends=[[0]], routes=[[2, 1, 0]], **ROW)
    return scene, lambda c: c == [[0.5]]


def chain(depth):
    tracks = [[i, 0] for i in range(depth)]
    return show(1, steady(1), block=1, tracks=tracks, sounds=[[depth, 0, 1]], **ROW)


@named
def row_depth_4():
    return chain(4), lambda c: c == [[0.5]]


@named
def row_depth_5():
    return chain(5), 6


@named
def row_volume_18000():
    return show(1, steady(1, 1 / 64), block=1, tracks=[[0, 18000]], **ROW), lambda c: 0.12 < c[0][0] < 0.13


@named
def row_volume_18001():
    return show(1, steady(1), block=1, tracks=[[0, 18001]], **ROW), 4


@named
def row_32_tracks():
    scene = show(1, steady(1, 1 / 64), block=1, tracks=[[0, 0]] * 32, sounds=[[t, 0, 1] for t in range(1, 33)], **ROW)
    return scene, lambda c: c == [[0.5]]


@named
def row_33_tracks():
    return show(1, steady(1), block=1, tracks=[[0, 0]] * 33, **ROW), 3


# Chunk time. How long a pause's fade took is told by the frames used up.


def pause_and_resume(millis, paused_by, **head):
    """A pause, a resume by block `paused_by`, and two chunks after it."""
    orders = [order(0, PAUSE, 1, millis=millis), order(paused_by, RESUME, 1)]
    return show(paused_by + 2, orders=orders, **head)


def fade_took(chunk, buffer):
    """The chunk that ends a fade uses up no frames; the resume's first does."""
    return lambda c: used_up(c, -1) == (chunk - 1 + 1) * buffer


@named
def fade_of_3_chunks_ends_in_chunk_3():
    return pause_and_resume(27, 5, buffer=72), fade_took(3, 72)


@named
def fade_of_7_chunks_ends_in_chunk_8():
    return pause_and_resume(21, 9, buffer=24), fade_took(8, 24)


@named
def chunk_time_is_a_product():
    """14 / 8400 three times is 5 ms; (1.0 / 8400) * 14 three times is less."""
    return pause_and_resume(5, 6, rate=8400, buffer=14), fade_took(4, 14)


# Delays.


def delayed_volume(millis, blocks, **head):
    scene = show(blocks, steady(blocks * head["buffer"]), **head)
    scene.tables["orders"] = [order(0, TRACK, 1, SILENCE, when=millis, millis=1)]
    return scene


def moves_first_in(chunk):
    return lambda c: all(x == c[0][0] for part in c[: chunk - 1] for x in part) and c[chunk - 1][-1] != c[0][0]


@named
def delay_nanoseconds_tie():
    """976562.5 ns a chunk are 976562: 128 chunks do not use up 125 ms."""
    return delayed_volume(125, 131, rate=8192, buffer=8), moves_first_in(130)


@named
def delay_nanoseconds_of_the_exact_value():
    """1 / 25600 s are 39063 ns; times 1e9 in f64 they would be 39062.5."""
    return delayed_volume(5, 131, rate=25600, buffer=1), moves_first_in(129)


@named
def delay_of_a_volume():
    scene = show(8, steady(64), orders=[order(0, TRACK, 1, -20000, when=3, millis=4)])
    return scene, moves_first_in(4)


@named
def delay_of_a_route():
    orders = [order(0, ROUTE, 1, -20000, when=3, millis=4)]
    scene = show(8, steady(64, 0.25), sends=[[0]], routes=[[1, 1, 0]], orders=orders)
    return scene, moves_first_in(4)


@named
def delay_of_a_pause():
    """It is `Pausing` at once and plays on; the fade moves in chunk 4."""
    scene = show(8, steady(64), orders=[order(0, PAUSE, 1, when=3, millis=3)])
    return scene, lambda c: moves_first_in(4)(c) and silent(c[5])


@named
def delay_of_a_resume():
    """The chunk that uses the delay up advances, at the standing fade."""
    orders = [order(0, PAUSE, 1), order(1, RESUME, 1, when=3, millis=1)]
    scene = show(8, orders=orders)
    return scene, lambda c: all(map(silent, c[:4])) and c[4][-1] != 0 and used_up(c, 5) == 16


# Clocks.


def clocked_volume(ticking, tick):
    orders = [order(0, TRACK, 1, -20000, clock=1, when=tick, millis=2)]
    return show(6, steady(48), clocks=[[1, 1_000_000, ticking]], orders=orders)


@named
def clock_moves_before_mixing():
    """A tick a chunk: tick 1 is reached in chunk 1 already."""
    return clocked_volume(1, 1), lambda c: not still(c[0])


@named
def clock_fraction():
    orders = [order(0, TRACK, 1, -20000, clock=1, when=0, part=500, millis=2)]
    scene = show(6, steady(48), clocks=[[1, 200_000, 1]], orders=orders)
    return scene, moves_first_in(3)


@named
def clock_that_does_not_tick():
    return clocked_volume(0, 0), lambda c: all(x == c[0][0] for part in c for x in part)


@named
def clock_resumes_a_track():
    orders = [order(0, PAUSE, 1), order(0, RESUME, 1, clock=1, when=3)]
    scene = show(6, clocks=[[0, 1, 1]], orders=orders)
    return scene, lambda c: all(map(silent, c[:3])) and used_up(c, 4) == 16


# Volumes.


@named
def volume_order_of_0_millis():
    scene = show(4, steady(32), orders=[order(1, TRACK, 1, -20000)])
    return scene, lambda c: len(set(c[1])) == 8 and still(c[2]) and c[2][0] == c[1][-1]


@named
def volume_order_of_0_millis_last_bit():
    """From 4.004 dB the last frame stands at -59.999996 dB, which sounds."""
    scene = show(3, steady(24), tracks=[[0, 4004]], orders=[order(1, TRACK, 1, SILENCE)])
    return scene, lambda c: c[1][-1] != 0 and silent(c[2])


# Pauses.


@named
def pause_of_0_millis():
    scene = show(6, orders=[order(1, PAUSE, 1), order(3, RESUME, 1)])
    return scene, lambda c: silent(c[1]) and silent(c[2]) and used_up(c, 4) == 16


@named
def pause_last_chunk_uses_no_frames():
    return pause_and_resume(3, 5, buffer=8), fade_took(3, 8)


@named
def pause_that_waits_plays():
    orders = [order(1, PAUSE, 1, when=2, millis=2), order(6, RESUME, 1)]
    return show(9, orders=orders), lambda c: used_up(c, 1) == 8 and used_up(c, 2) == 16 and used_up(c, 7) == 40


# Alike orders.


@named
def earlier_alike_order_leaves_no_trace():
    orders = [order(1, TRACK, 1, -20000), order(1, TRACK, 1, -6000, when=FOREVER, millis=1)]
    return show(5, steady(40), orders=orders), lambda c: all(x == 0.5 for part in c for x in part)


# A pause and a resume in one block. Where the last pause line stands after the
# last resume line, the resume is dropped: one scene for each state that the
# track can be in (docs/DIFFERENCES.md). Else kira reads the pause, then the resume.


def dropped_resume(before, resume, pause, after=(), **tables):
    """The track is in its state when block 2 begins."""
    orders = [*before, order(2, RESUME, 1, **resume), order(2, PAUSE, 1, **pause), *after]
    return show(8, tables.pop("samples", steady(64)), orders=orders, **tables)


@named
def dropped_resume_while_playing():
    scene = dropped_resume([], dict(millis=1), dict(millis=2))
    return scene, lambda c: still(c[1]) and 0.01 < c[2][-1] < 0.02 and all(map(silent, c[3:]))


@named
def dropped_resume_while_pausing():
    """The fade goes on from -15 dB, to be over in block 4 and not in block 7."""
    scene = dropped_resume([order(0, PAUSE, 1, millis=8)], dict(millis=2), dict(millis=3))
    return scene, lambda c: 0.08 < c[1][-1] < 0.09 and 0.01 < c[2][-1] < 0.02 and c[3][-1] != 0 and all(map(silent, c[4:]))


@named
def dropped_resume_while_paused():
    """`Pausing` for 3 chunks: silent itself, but the send from below sounds, and
    its own sound of 24 frames is used up when the track is resumed."""
    tables = dict(tracks=[[0, 0], [1, 0]], sounds=[[1, 0, 24], [2, 0, 64]], sends=[[0]], routes=[[2, 1, 0]])
    after = [order(6, RESUME, 1)]
    scene = dropped_resume([order(0, PAUSE, 1)], dict(millis=1), dict(millis=4), after, samples=steady(64, 0.125), **tables)
    heard = lambda c: [c[2], c[3], c[4], c[7]] == [[x] * 8 for x in (0.125, 0.125, 0.125, 0.25)]
    return scene, lambda c: silent(c[1]) and heard(c) and silent(c[5])


@named
def dropped_resume_while_waiting_to_resume():
    """The resume of block 1 would begin in block 3: the pause takes its place."""
    scene = dropped_resume([order(0, PAUSE, 1), order(1, RESUME, 1, when=3, millis=1)], dict(millis=1), {})
    return scene, lambda c: all(map(silent, c))


@named
def dropped_resume_while_resuming():
    """From -45 dB back to silence."""
    scene = dropped_resume([order(0, PAUSE, 1), order(1, RESUME, 1, millis=4)], dict(millis=1), dict(millis=2))
    return scene, lambda c: 0 < c[2][-1] < c[1][-1] < 0.01 and all(map(silent, c[3:]))


@named
def resume_line_after_the_pause_line():
    """Both are read, and the resume has the last word."""
    orders = [order(1, PAUSE, 1), order(1, RESUME, 1, millis=2)]
    return show(5, orders=orders), lambda c: used_up(c, 3) == 24


@named
def last_pause_line_decides():
    """The first pause line stands before the resume."""
    orders = [order(1, PAUSE, 1, millis=8), order(1, RESUME, 1), order(1, PAUSE, 1, millis=2)]
    return show(5, steady(40), orders=orders), lambda c: not silent(c[1]) and all(map(silent, c[2:]))


@named
def last_resume_line_decides():
    """Both are read: a pause line stands between the two resume lines."""
    orders = [order(1, RESUME, 1, when=FOREVER), order(1, PAUSE, 1), order(1, RESUME, 1, millis=2)]
    return show(5, orders=orders), lambda c: used_up(c, 3) == 24


@named
def dropped_resume_that_waits():
    """It would begin long after the pause."""
    orders = [order(1, RESUME, 1, when=2, millis=1), order(1, PAUSE, 1)]
    return show(6, orders=orders), lambda c: not silent(c[0]) and all(map(silent, c[1:]))


@named
def dropped_resume_of_a_clock():
    orders = [order(1, RESUME, 1, clock=1, when=3), order(1, PAUSE, 1)]
    scene = show(6, clocks=[[0, 1, 1]], orders=orders)
    return scene, lambda c: not silent(c[0]) and all(map(silent, c[1:]))


@named
def waiting_pause_drops_a_resume():
    """The resume would begin before the pause does."""
    orders = [order(1, RESUME, 1), order(1, PAUSE, 1, when=2, millis=1)]
    return show(6, orders=orders), lambda c: used_up(c, 2) == 16 and all(map(silent, c[3:]))


@named
def pause_of_another_track_drops_nothing():
    orders = [order(0, PAUSE, 1), order(2, RESUME, 1), order(2, PAUSE, 2)]
    scene = show(5, tracks=[[0, 0], [0, 0]], orders=orders)
    return scene, lambda c: silent(c[1]) and used_up(c, 3) == 8


@named
def pause_of_a_later_block_drops_nothing():
    orders = [order(0, PAUSE, 1), order(1, RESUME, 1), order(3, PAUSE, 1)]
    return show(5, orders=orders), lambda c: silent(c[0]) and used_up(c, 2) == 8 and silent(c[3])


@named
def delayed_resume_leaves_the_fade_running():
    """The pause's fade has reached -30 dB when the resume begins."""
    orders = [order(0, PAUSE, 1, millis=4), order(0, RESUME, 1, when=2, millis=2)]
    return show(6, steady(48), orders=orders), lambda c: silent(c[0]) and 0.01 < c[1][-1] < 0.03


# Fades that meet other orders.


@named
def waiting_order_holds_a_fade():
    orders = [order(0, TRACK, 1, SILENCE, millis=8), order(3, TRACK, 1, 0, when=FOREVER, millis=1)]
    return show(8, steady(64), orders=orders), lambda c: not still(c[2]) and all(still(x) and x == c[3] for x in c[3:])


@named
def new_order_starts_from_the_value_reached():
    orders = [order(0, TRACK, 1, SILENCE, millis=8), order(4, TRACK, 1, 0, millis=8)]
    return show(8, steady(64), orders=orders), lambda c: c[3][-1] < c[4][0] < c[4][-1] < 0.1


# Pauses and resumes of tracks that are paused or play.


@named
def second_pause_advances():
    """Its sounds are used up, and the send from below sounds for 3 chunks."""
    tracks, sounds = [[0, 0], [1, 0]], [[1, 0, 80], [2, 0, 80]]
    orders = [order(0, PAUSE, 1), order(2, PAUSE, 1, millis=4), order(7, RESUME, 1)]
    scene = show(10, tracks=tracks, sounds=sounds, sends=[[0]], routes=[[2, 1, 0]], orders=orders)
    return scene, lambda c: silent(c[1]) and all(map(all, c[2:5])) and silent(c[5])


@named
def delayed_resume_stops_a_playing_track():
    scene = show(8, orders=[order(1, RESUME, 1, when=3)])
    return scene, lambda c: silent(c[1]) and silent(c[2]) and used_up(c, 3) == 8


@named
def delayed_resume_lets_the_fade_go_on():
    orders = [order(0, PAUSE, 1, millis=8), order(2, RESUME, 1, when=3, millis=2)]
    return show(10, steady(80), orders=orders), lambda c: silent(c[2]) and silent(c[3]) and 0 < c[4][-1] < c[1][-1] / 5


# Tracks that stand still.


@named
def orders_are_read_below_a_paused_track():
    """Each in its block: kira reading both together would end with the resume."""
    orders = [order(0, PAUSE, 1), order(1, RESUME, 2), order(2, PAUSE, 2)]
    orders += [order(4, RESUME, 1), order(6, RESUME, 2)]
    scene = show(8, tracks=[[0, 0], [1, 0]], sounds=[[2, 0, 64]], orders=orders)
    return scene, lambda c: silent(c[5]) and used_up(c, 7) == 8


@named
def order_below_a_paused_track_waits_for_it():
    """The inner order begins only when the outer track advances again."""
    orders = [order(0, PAUSE, 1), order(1, TRACK, 2, SILENCE, millis=2), order(4, RESUME, 1)]
    scene = show(8, steady(64), tracks=[[0, 0], [1, 0]], sounds=[[2, 0, 64]], orders=orders)
    return scene, lambda c: c[4][-1] != 0 and c[5][0] != 0 and silent(c[6])


@named
def nothing_moves_below_a_paused_track():
    """An inner fade of 4 ms waits where it was after 2."""
    orders = [order(0, TRACK, 2, SILENCE, millis=4), order(2, PAUSE, 1), order(6, RESUME, 1)]
    scene = show(10, steady(80), tracks=[[0, 0], [1, 0]], sounds=[[2, 0, 80]], orders=orders)
    return scene, lambda c: c[6][-1] != 0 and c[7][0] != 0 and silent(c[8])


@named
def paused_track_moves_its_own_volume():
    orders = [order(0, PAUSE, 1), order(0, TRACK, 1, SILENCE, millis=3), order(4, RESUME, 1)]
    return show(8, steady(64), orders=orders), lambda c: all(map(silent, c))


@named
def paused_track_moves_its_own_routes():
    """The send is silent by the time the track sounds again."""
    orders = [order(0, PAUSE, 1), order(0, ROUTE, 1, SILENCE, millis=3), order(4, RESUME, 1)]
    scene = show(8, steady(64, 0.25), sends=[[0]], routes=[[1, 1, 0]], orders=orders)
    return scene, lambda c: c[5] == [0.25] * 8


@named
def paused_track_moves_its_own_fade():
    """A resume that waits stops nothing of the pause's fade above it."""
    orders = [order(0, PAUSE, 1, millis=3), order(1, RESUME, 1, when=4, millis=1)]
    return show(8, steady(64), orders=orders), lambda c: silent(c[1]) and silent(c[3]) and c[5][0] < 0.01 < c[5][-1]


# Mixing.


@named
def volume_and_fade_are_multiplied_first():
    """Uneven samples, whose products round."""
    samples = [bits(((i * 7919) % 1000 - 500) / 1013) for i in range(128)]
    orders = [order(0, PAUSE, 1, millis=9, easing=2, power=3), order(0, TRACK, 1, -7001, millis=9, easing=1, power=2)]
    return show(8, samples, tracks=[[0, -3300]], orders=orders), lambda c: not silent(c[6])


@named
def route_uses_the_value_at_the_chunk_end():
    orders = [order(1, ROUTE, 1, -20000, millis=4)]
    scene = show(6, steady(48, 0.25), sends=[[0]], routes=[[1, 1, 0]], orders=orders)
    return scene, lambda c: all(map(still, c)) and len({part[0] for part in c[:5]}) == 5


@named
def send_input_in_the_order_of_finishing():
    """0.25 meets two halves of its last bit: only if they come first do they count."""
    tiny = 2.0**-26
    samples = [bits(x) for x in (0.25, 0.25, tiny, tiny, -0.25, -0.25)]
    tracks = [[0, 0], [1, 0], [0, 0], [0, 0]]
    sounds = [[1, 0, 1], [2, 1, 1], [3, 1, 1], [4, 2, 1]]
    routes = [[1, 1, 0], [2, 1, 0], [3, 1, 0]]
    scene = show(1, samples, block=1, tracks=tracks, sounds=sounds, sends=[[0]], routes=routes)
    return scene, lambda c: c == [[0.25 + 2.0**-24]]


@named
def sounds_latest_line_first():
    """Halves of the last bit again; the latest line is added first."""
    tiny = 2.0**-26
    samples = [bits(x) for x in (0.25, 0.25, tiny, tiny)]
    sounds = [[1, 0, 1], [1, 1, 1], [1, 1, 1]]
    return show(1, samples, block=1, sounds=sounds), lambda c: c == [[0.25 + 2.0**-25]]


@named
def short_last_chunk():
    """Blocks of 11 frames: 8, then 3, each with its own length as n."""
    scene = show(2, steady(22), block=11, orders=[order(0, TRACK, 1, SILENCE, millis=1)])
    return scene, lambda c: c[0][-1] == 0 and silent(c[1])


@named
def short_chunk_slides_over_its_own_length():
    scene = show(3, steady(33), block=11, orders=[order(1, TRACK, 1, -20000, when=1, millis=1)])
    return scene, lambda c: still(c[2]) and len(set(c[3])) == 3 and c[3][-1] != c[3][0]


@named
def sound_ends_inside_a_chunk():
    sounds = [[1, 0, 5], [1, 3, 0], [1, 8, 0]]
    return show(2, ramp(8), sounds=sounds), lambda c: all(c[0][:5]) and silent(c[0][5:]) and silent(c[1])


def negative_zero(channels, **tables):
    return show(1, steady(1, tables.pop("value", -0.5)), channels=channels, block=1, **tables)


def is_negative_zero(c):
    return bits(c[0][0]) == 0x80000000


@named
def main_track_at_silence_keeps_the_sign():
    return negative_zero(3, volume=SILENCE), is_negative_zero


@named
def main_track_at_silence_keeps_the_sign_in_one_channel():
    return negative_zero(1, volume=SILENCE), is_negative_zero


@named
def sums_start_at_zero():
    """A lone -0.0 does not survive."""
    return negative_zero(2, value=-0.0), lambda c: bits(c[0][0]) == 0


@named
def folding_after_clamping():
    samples = [bits(x) for x in (1.0, -0.5)]
    return show(1, samples, block=1, sounds=[[0, 0, 1]] * 2), lambda c: c == [[0.0]]


# The visitor's recordings.


@named
def sound_from_the_visitor():
    scene = show(2, steady(16, 0.5), visitor=ramp(16), sounds=[[1, 0, 16, VISITOR]])
    return scene, lambda c: used_up(c, 0) == 0 and used_up(c, 1) == 8


@named
def sounds_from_both():
    """One place, two buffers."""
    sounds = [[1, 0, 16, HOUSE], [1, 0, 16, VISITOR]]
    return show(2, steady(16, 0.5), visitor=steady(16, 0.25), sounds=sounds), lambda c: c == [[0.75] * 8] * 2


@named
def visitor_longer_than_the_house():
    scene = show(2, steady(1), visitor=ramp(16), sounds=[[1, 8, 8, VISITOR], [1, 0, 1, HOUSE]])
    return scene, lambda c: place(c[0][1]) == 9 and silent(c[1])


@named
def from_2():
    return show(1, sounds=[[1, 0, 8, 2]]), 4


@named
def visitor_too_short():
    return show(1, visitor=ramp(7), sounds=[[1, 0, 8, VISITOR]]), 8


@named
def visitor_cut_inside_a_frame():
    """Though nothing is from it."""
    return show(1, visitor=ramp(1)[:1]), 8


@named
def visitor_too_short_before_the_house_too_loud():
    scene = show(1, steady(8, 1.5), visitor=[], sounds=[[1, 0, 8, VISITOR]])
    return scene, 8


@named
def visitor_too_loud():
    """Though nothing is from it."""
    return show(1, visitor=steady(1, 1.5)), 9


# Spatial tracks. Track 1 is placed, and the listener at 0 0 0, where not said.

HALFWAY = [3000, 4000, 0, 1000, 9000]  # 5 away: -30 dB
BEYOND = [3000, 4000, 0, 1000, 4000]


def spatial(*poses, listener=(0, 0, 0), **tables):
    """The first tracks at these poses."""
    tables.setdefault("samples", steady(16))
    placings = [[line, *pose] for line, pose in enumerate(poses, 1)]
    return show(2, listener=[list(listener)] if listener else [], placings=placings, **tables)


def throughout(value):
    return lambda c: c == [[value] * 8] * 2


def about(low, high):
    return lambda c: all(low < x < high and x == c[0][0] for part in c for x in part)


@named
def spatial_track_at_the_listener():
    return spatial([1500, 0, -2000, 0, 1], listener=(1500, 0, -2000)), throughout(0.5)


@named
def spatial_track_inside_near():
    return spatial([4900, 0, 0, 5000, 9000]), throughout(0.5)


@named
def spatial_track_at_near():
    return spatial([3000, 4000, 0, 5000, 9000]), throughout(0.5)


@named
def spatial_track_between():
    return spatial(HALFWAY), about(0.0158, 0.0159)


@named
def spatial_track_at_far():
    return spatial([3000, 4000, 0, 4000, 5000]), throughout(0.0)


@named
def spatial_track_beyond_far():
    return spatial(BEYOND), throughout(0.0)


@named
def spatial_track_without_a_listener():
    """It is silent and advances: the send from below is heard."""
    tables = dict(tracks=[[0, 0], [1, 0]], sounds=[[1, 0, 16], [2, 0, 16]], sends=[[0]], routes=[[2, 1, 0]])
    return spatial([0, 0, 0, 0, 1], listener=None, samples=steady(16, 0.25), **tables), throughout(0.25)


@named
def listener_and_no_spatial_track():
    return spatial(), throughout(0.5)


@named
def spatial_track_with_tracks_below():
    """What is below is as far away as the track."""
    return spatial(HALFWAY, tracks=[[0, 0], [1, 0]], sounds=[[2, 0, 16]]), about(0.0158, 0.0159)


@named
def spatial_track_below_a_spatial_track():
    """-30 dB twice."""
    return spatial(HALFWAY, HALFWAY, tracks=[[0, 0], [1, 0]], sounds=[[2, 0, 16]]), about(0.00049, 0.00051)


@named
def spatial_track_with_a_route():
    """The copy is as far away."""
    return spatial(HALFWAY, sends=[[0]], routes=[[1, 1, 0]]), about(0.0316, 0.0317)


@named
def send_below_a_track_beyond_far():
    scene = spatial(BEYOND, tracks=[[0, 0], [1, 0]], sounds=[[2, 0, 16]], sends=[[0]], routes=[[2, 1, 0]])
    return scene, throughout(0.5)


@named
def distance_before_volume():
    """Uneven samples, whose products round."""
    samples = [bits(((i * 7919) % 1000 - 500) / 1013) for i in range(32)]
    return spatial(HALFWAY, samples=samples, tracks=[[0, -3300]]), lambda c: not silent(c[0])


@named
def sum_of_squares_from_the_left():
    return spatial([-9927, -477, -6123, 59, 42692], listener=(13564, -19486, -12976)), about(0.003, 0.004)


@named
def root_is_the_nearest():
    return spatial([-12398, 5998, 12730, 459, 56498], listener=(16140, -17302, 18757)), about(0.005, 0.006)


@named
def listener_stands_still():
    """All frames of a chunk are alike, though kira goes from the listener's last place to this one."""
    return spatial([662, 19190, 5165, 567, 38785], listener=(-16249, -688, 15053)), about(0.003, 0.004)


@named
def near_is_far():
    return spatial([0, 0, 0, 5000, 5000]), 4


@named
def near_above_far():
    return spatial([0, 0, 0, 5000, 4999]), 4


@named
def coordinate_1000001():
    return spatial([0, 0, 1_000_001, 0, 1]), 4


@named
def placing_of_the_main_track():
    return show(1, placings=[[0, *HALFWAY]]), 5


@named
def placing_of_a_track_that_is_not_there():
    return spatial(HALFWAY, HALFWAY), 5


@named
def track_placed_twice():
    return show(1, placings=[[1, *HALFWAY], [1, *BEYOND]]), 7


@named
def two_listeners():
    return show(1, listener=[[0, 0, 0], [0, 0, 0]]), 3


@named
def placings_33():
    return show(1, tracks=[[0, 0]] * 32, placings=[[1 + line % 32, *HALFWAY] for line in range(33)]), 3


def write_all():
    for name, function in NAMED.items():
        scene, _ = function()
        folder = FOLDER / name
        folder.mkdir(parents=True, exist_ok=True)
        (folder / "scene.txt").write_bytes(scene.text())
        house, visitor = scene.sample_bytes()
        (folder / "samples.raw").write_bytes(house)
        # A file that is not there counts as empty.
        if visitor:
            (folder / "visitor.raw").write_bytes(visitor)


if __name__ == "__main__":
    write_all()
