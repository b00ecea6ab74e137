//! Both builds of kira link into one program and render the same scene.

const FILE: &[u8] = b"rate channels buffer block blocks volume
48000 2 128 64 4 -3000

unit speed ticking

parent volume
0 -1500

volume

track send volume

track first count from
1 0 256 0

x y z
0 0 0

track x y z near far
1 3000 4000 0 1000 100000

block kind index volume clock when part millis easing power
2 1 1 -20000 0 0 0 3 3 3
";

#[test]
fn table_and_powf_agree_within_the_tables_error() {
	let scene = scene::accepted(FILE).expect("an accepted scene");
	let samples = (0..512).map(|n| (n % 37) as f32 / 37.0 - 0.5).collect();
	let recordings = [samples, vec![]].map(|samples| scene::Recording {
		samples,
		broken: false,
	});
	let mut table = vec![0.0; scene::output_length(&scene)];
	let mut powf = table.clone();
	kira_table::harness::Show::new(&scene, &recordings).render(&mut table);
	kira_powf::harness::Show::new(&scene, &recordings).render(&mut powf);
	assert_ne!(table, powf);
	// A straight line between two entries is at most 7 parts in a million high,
	// for the track's volume and for the main track's.
	let close = |(a, b): (&f32, &f32)| (a - b).abs() <= 2e-5 * b.abs();
	assert!(table.iter().zip(&powf).all(close));
}
