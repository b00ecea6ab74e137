//! `room_desk_render`, by slices. For the drivers and the bench.

#[link(name = "room_desk", kind = "static")]
unsafe extern "C" {
    // A slice is passed as its first element's place and its length.
    fn room_desk_render(
        scene: *const u8,
        scene_length: usize,
        samples: *const f32,
        samples_length: usize,
        visitor: *const f32,
        visitor_length: usize,
        output: *mut f32,
        output_length: usize,
    ) -> u32;
}

pub fn render(scene: &[u8], samples: &[f32], visitor: &[f32], output: &mut [f32]) -> u32 {
    // SAFETY: the four slices live through the call, and only `output` is written.
    unsafe {
        room_desk_render(
            scene.as_ptr(),
            scene.len(),
            samples.as_ptr(),
            samples.len(),
            visitor.as_ptr(),
            visitor.len(),
            output.as_mut_ptr(),
            output.len(),
        )
    }
}
