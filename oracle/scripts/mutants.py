#!/usr/bin/env python3
"""Shows that the stored scenes tell right from wrong: each wrong edit of
kira's text or of ours, made in a copy, must change the output of the scene named.

    mutants.py [SCENE...]    all, or those of these scenes; about 3 s each
"""
import hashlib
import pathlib
import shutil
import subprocess
import sys

ROOT = pathlib.Path(__file__).parent.parent
COPY = ROOT / "target" / "mutants"
KIRA = "kira/crates/kira/src/"
PARAMETER = KIRA + "parameter.rs"
PLAYBACK = KIRA + "playback_state_manager.rs"
TRACK = KIRA + "track/sub.rs"
SPATIAL = KIRA + "track/sub/spatial_builder.rs"
GLAM = "stand-ins/glam/src/lib.rs"
RENDERER = KIRA + "backend/renderer.rs"
HARNESS = "absent/harness.rs"
NANOSECONDS = "Duration::from_secs_f64(dt)"
ADVANCING = "self.playback_state_manager.playback_state().is_advancing()"
CLOCKS = """		self.resources.clocks.update(
			self.dt * num_frames as f64,
			&self.resources.modulators,
			&self.resources.listeners,
		);
"""
READ_PAUSE = """		if let Some(tween) = self.command_readers.pause.read() {
			self.pause(tween);
		}
"""
READ_RESUME = "			self.resume(start_time, tween);\n		}\n"
ADD_SOUND = "*summed_out += sound_out;"
FIRST_TERM = "*summed_out = if *summed_out == Frame::ZERO { sound_out } else { *summed_out + sound_out };"
RUN_CHILDREN = """			for (_, sub_track) in &mut self.sub_tracks {
				sub_track.process(&mut self.temp_buffer[..out.len()], dt, clocks, modulators, listeners, None, send_tracks);
			}
			self.temp_buffer.fill(Frame::ZERO);
"""
START_CHILD = "sub_track.on_start_processing();"
LAST_LINES = "last_line(PAUSE) > last_line(RESUME)"
NAMED = "(other.block, other.kind, other.index) == (order.block, kind, order.index)"
STOOD_STILL = "self.playback_state_manager.playback_state() == crate::sound::PlaybackState::Paused"

SCALED = "*frame *= volume * fade_volume;"
VOLUME_LOOP = f"""		for (i, frame) in out.iter_mut().enumerate() {{
			let time_in_chunk = (i + 1) as f64 / num_frames as f64;
			let volume = self.volume.interpolated_value(time_in_chunk).as_amplitude();
			let fade_volume = self.playback_state_manager.interpolated_fade_volume(time_in_chunk).as_amplitude();
			{SCALED}
		}}
"""
SPATIAL_STEP = "		// apply spatialization\n		if let"
CUT = "let root = self.dot(self).sqrt(); if root as f64 * root as f64 > self.dot(self) as f64 { root.next_down() } else { root }"

# The scene that must change, and edits: file, text, other text.
MUTANTS = [
    ("chunk-time-is-a-product", (TRACK, "dt * out.len() as f64", "out.len() as f64 / (1.0 / dt).round()")),
    ("row-linear-pause", (PARAMETER, "*time >= tween.duration", "*time > tween.duration")),
    ("delay-nanoseconds-tie", (PARAMETER, NANOSECONDS, "Duration::from_nanos((dt * 1e9).round() as u64)")),
    ("delay-nanoseconds-of-the-exact-value",
     (PARAMETER, NANOSECONDS, "Duration::from_nanos((dt * 1e9).round_ties_even() as u64)")),
    ("delay-of-a-volume",
     (PARAMETER, NANOSECONDS + ");\n\t\t\t\t\t\tfalse", NANOSECONDS + ");\n\t\t\t\t\t\ttime_remaining.is_zero()")),
    ("delay-of-a-resume",
     (PLAYBACK, "let will_never_start", "let was = *start_time == StartTime::Immediate;\nlet will_never_start"),
     (PLAYBACK, "if *start_time == StartTime::Immediate {", "if was {")),
    ("clock-that-does-not-tick", (KIRA + "info.rs", "clock_info.ticking && clock_info.time", "clock_info.time")),
    ("clock-moves-before-mixing",
     (RENDERER, CLOCKS, ""), (RENDERER, "		// convert from frames", CLOCKS + "// convert from frames")),
    ("volume-order-of-0-millis-last-bit",
     (PARAMETER, "		T::interpolate(self.previous_raw", "if amount == 1.0 { return self.raw_value; }\nT::interpolate(self.previous_raw")),
    ("volume-order-of-0-millis",
     (PARAMETER, "		just_finished_tween\n", "if just_finished_tween { self.previous_raw_value = self.raw_value; }\njust_finished_tween\n")),
    ("pause-last-chunk-uses-no-frames",
     (TRACK, "// update playback state\n", f"let was = {ADVANCING};\n"), (TRACK, f"if !{ADVANCING} {{", "if !was {")),
    ("pause-that-waits-plays",
     (PLAYBACK, "self.state = State::Pausing;",
      "self.state = if fade_out_tween.start_time == StartTime::Immediate { State::Pausing } else { State::Paused };")),
    ("earlier-alike-order-leaves-no-trace",
     ("stand-ins/triple_buffer/src/lib.rs", "		*self.latest.lock()",
      "if self.latest.lock().unwrap().is_some() { return; }\n*self.latest.lock()")),
    ("resume-line-after-the-pause-line", (TRACK, READ_PAUSE, ""), (TRACK, READ_RESUME, READ_RESUME + READ_PAUSE)),
    *((f"dropped-resume-while-{state}", (HARNESS, LAST_LINES, "false"))
      for state in ("playing", "pausing", "paused", "waiting-to-resume", "resuming")),
    ("last-pause-line-decides", (HARNESS, ".rposition(named)", ".position(named)")),
    ("last-resume-line-decides", (HARNESS, LAST_LINES, "last_line(PAUSE).is_some()")),
    ("dropped-resume-that-waits", (HARNESS, LAST_LINES, f"order.start == Start::Immediate && {LAST_LINES}")),
    ("dropped-resume-of-a-clock", (HARNESS, LAST_LINES, f"order.start == Start::Immediate && {LAST_LINES}")),
    ("waiting-pause-drops-a-resume", (HARNESS, NAMED, f"other.start == Start::Immediate && {NAMED}")),
    ("pause-of-another-track-drops-nothing", (HARNESS, NAMED, "(other.block, other.kind) == (order.block, kind)")),
    ("pause-of-a-later-block-drops-nothing", (HARNESS, NAMED, "(other.kind, other.index) == (kind, order.index)")),
    ("delayed-resume-leaves-the-fade-running",
     (PLAYBACK, "let finished = self.volume_fade.update(dt, info);",
      "let finished = self.playback_state().is_advancing() && self.volume_fade.update(dt, info);")),
    ("waiting-order-holds-a-fade",
     (PARAMETER, "		self.stagnant = false;",
      "if matches!((&self.state, tween.start_time), (State::Tweening { .. }, StartTime::Delayed(_))) { return; }\nself.stagnant = false;")),
    ("new-order-starts-from-the-value-reached", (PARAMETER, "start: self.value()", "start: self.previous_value()")),
    ("second-pause-advances",
     (PLAYBACK, "self.state = State::Pausing;", "if let State::Paused = &self.state { return; }\nself.state = State::Pausing;")),
    ("delayed-resume-stops-a-playing-track",
     (PLAYBACK, "if let StartTime::Immediate = start_time {",
      "if let State::Playing = &self.state { return; }\nif let StartTime::Immediate = start_time {")),
    ("orders-are-read-below-a-paused-track", (TRACK, START_CHILD, f"if !({STOOD_STILL}) {{ {START_CHILD} }}")),
    ("nothing-moves-below-a-paused-track",
     (TRACK, "			out.fill(Frame::ZERO);\n			return;", RUN_CHILDREN + "out.fill(Frame::ZERO);\nreturn;")),
    ("paused-track-moves-its-own-volume",
     (TRACK, "		self.volume.update(", f"		if {ADVANCING} {{ self.volume.update(dt * out.len() as f64, &info); }}\nlet _ = (")),
    ("paused-track-moves-its-own-routes",
     (TRACK, "			route.volume.update(", f"			if {ADVANCING} {{ route.volume.update(dt * out.len() as f64, &info); }}\nlet _ = (")),
    ("paused-track-moves-its-own-fade",
     (PLAYBACK, "let finished = self.volume_fade.update(dt, info);",
      "let finished = self.playback_state().is_advancing() && self.volume_fade.update(dt, info);")),
    ("volume-and-fade-are-multiplied-first",
     (TRACK, "*frame *= volume * fade_volume;", "*frame *= volume; *frame *= fade_volume;")),
    ("route-uses-the-value-at-the-chunk-end",
     (TRACK, "add_input(out, volume.value())", "add_input(out, volume.previous_value())")),
    ("send-input-in-the-order-of-finishing", ("stand-ins/atomic_arena/src/lib.rs", "self.0.next_back()", "self.0.next()")),
    ("short-chunk-slides-over-its-own-length",
     (TRACK, "(i + 1) as f64 / num_frames as f64", "(i + 1) as f64 / self.internal_buffer_size as f64")),
    ("main-track-at-silence-keeps-the-sign", (RENDERER, "frame.left.clamp", "(frame.left + 0.0).clamp")),
    ("folding-after-clamping",
     (RENDERER, "let mut frame = self.temp_buffer[i];",
      "let mut frame = self.temp_buffer[i]; if num_channels == 1 { frame = frame.as_mono(); }")),
    ("sums-start-at-zero",
     *((KIRA + file, ADD_SOUND, FIRST_TERM) for file in ("track/main.rs", "track/sub.rs", "backend/resources/mixer.rs"))),
    ("spatial-track-inside-near", (SPATIAL, "distance.clamp(self.min_distance, self.max_distance)", "distance")),
    ("spatial-track-between", (SPATIAL, "(distance - self.min_distance) /", "distance /")),
    ("spatial-track-at-far", (TRACK, "(1.0 - relative_distance)", "relative_distance")),
    ("spatial-track-without-a-listener", (TRACK, "*frame = Frame::ZERO;", "")),
    ("spatial-track-with-a-route", (HARNESS, ".spatialization_strength(0.0)", "")),
    ("distance-before-volume",
     (TRACK, SCALED, "let _ = (frame, volume, fade_volume);"), (TRACK, SPATIAL_STEP, VOLUME_LOOP + SPATIAL_STEP)),
    ("sum-of-squares-from-the-left",
     (GLAM, "self.x * other.x + self.y * other.y + self.z * other.z", "self.x * other.x + (self.y * other.y + self.z * other.z)")),
    ("root-is-the-nearest", (GLAM, "		self.dot(self).sqrt()", CUT)),
    ("listener-stands-still", (GLAM, "self + (other - self) * amount", "self * (1.0 - amount) + other * amount")),
    ("row-send-below-silence",
     (TRACK, "		let num_frames = out.len();\n\n",
      "if self.volume.value().as_amplitude() == 0.0 { out.fill(Frame::ZERO); return; }\nlet num_frames = out.len();\n\n")),
]  # fmt: skip


def edited(edits):
    """A copy with these edits, and checksums that let it build."""
    for name in ("kira", "stand-ins", "absent", "crates"):
        shutil.rmtree(COPY / name, ignore_errors=True)
    unwanted = shutil.ignore_patterns("target", "scenes", "__pycache__")
    shutil.copytree(ROOT, COPY, ignore=unwanted, dirs_exist_ok=True)
    for file, text, other in edits:
        path = COPY / file
        found = path.read_text()
        assert text in found, (file, text)
        path.write_text(found.replace(text, other))
    sums = COPY / "kira" / "SHA256SUMS"
    names = [line.split("  ")[1] for line in sums.read_text().splitlines()]
    digest = lambda name: hashlib.sha256((COPY / "kira" / name).read_bytes()).hexdigest()
    sums.write_text("".join(f"{digest(name)}  {name}\n" for name in names))


def changes(scene):
    """Whether the copy renders the scene differently."""
    subprocess.run(["cargo", "build", "--quiet", "--jobs", "1"], cwd=COPY, check=True)
    folder = ROOT / "scenes" / scene
    printed = subprocess.run([COPY / "target/debug/oracle", "render", folder], stdout=subprocess.PIPE, check=True)
    return printed.stdout != (folder / "output.txt").read_bytes()


def main():
    wanted = sys.argv[1:]
    survived = 0
    for scene, *edits in MUTANTS:
        if not wanted or scene in wanted:
            edited(edits)
            killed = changes(scene)
            survived += not killed
            print(f"{'ok    ' if killed else 'FAILED'} {scene}", flush=True)
    print(f"{len(MUTANTS) - survived} passed, {survived} failed" if not wanted else "")
    sys.exit(survived > 0)


if __name__ == "__main__":
    main()
