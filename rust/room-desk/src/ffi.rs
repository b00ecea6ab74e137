//! The routines of the archive, as `include/room_desk.h` has them. The only `unsafe` of the project
//! stands here: each call lends slices that live through it, and what it writes is lent by `&mut`.

mod raw {
    unsafe extern "C" {
        pub fn room_desk_render(
            scene: *const u8,
            scene_length: usize,
            samples: *const f32,
            samples_length: usize,
            visitor: *const f32,
            visitor_length: usize,
            output: *mut f32,
            output_length: usize,
        ) -> u32;
        pub safe fn room_desk_amplitude(decibels: f32, amplitude: &mut f32) -> u32;
        pub fn room_desk_silent(
            scene: *const u8,
            scene_length: usize,
            samples: *const f32,
            samples_length: usize,
            visitor: *const f32,
            visitor_length: usize,
            tracks: *mut u32,
            tracks_length: usize,
        ) -> u32;
        pub fn room_desk_wave_info(
            file: *const u8,
            file_length: usize,
            rate: &mut u32,
            channels: &mut u32,
            bits: &mut u32,
            frames: &mut u32,
        ) -> u32;
        pub fn room_desk_wave_read(
            file: *const u8,
            file_length: usize,
            samples: *mut f32,
            samples_length: usize,
            rate: &mut u32,
        ) -> u32;
        pub safe fn room_desk_wave_length(samples: usize, channels: u32, bits: u32) -> usize;
        pub fn room_desk_wave_write(
            rate: u32,
            channels: u32,
            bits: u32,
            samples: *const f32,
            samples_length: usize,
            file: *mut u8,
            file_length: usize,
        ) -> u32;
        pub fn room_desk_aiff_info(
            file: *const u8,
            file_length: usize,
            rate: &mut u32,
            channels: &mut u32,
            frames: &mut u32,
        ) -> u32;
        pub fn room_desk_aiff_read(
            file: *const u8,
            file_length: usize,
            samples: *mut f32,
            samples_length: usize,
            rate: &mut u32,
        ) -> u32;
        pub safe fn room_desk_aiff_length(samples: usize, channels: u32) -> usize;
        pub fn room_desk_aiff_write(
            rate: u32,
            channels: u32,
            samples: *const f32,
            samples_length: usize,
            file: *mut u8,
            file_length: usize,
        ) -> u32;
        pub fn room_desk_wave_to_aiff(
            wave: *const u8,
            wave_length: usize,
            aiff: *mut u8,
            aiff_length: usize,
        ) -> u32;
        pub fn room_desk_aiff_to_wave(
            aiff: *const u8,
            aiff_length: usize,
            wave: *mut u8,
            wave_length: usize,
        ) -> u32;
    }
}

pub use raw::{
    room_desk_aiff_length as aiff_length, room_desk_amplitude as amplitude,
    room_desk_wave_length as wave_length,
};

pub fn render(scene: &[u8], samples: &[f32], visitor: &[f32], output: &mut [f32]) -> u32 {
    // SAFETY: the slices live through the call, and `output`, the one that is written, is lent alone.
    unsafe {
        raw::room_desk_render(
            scene.as_ptr(),
            scene.len(),
            samples.as_ptr(),
            samples.len(),
            visitor.as_ptr(),
            visitor.len(),
            output.as_mut_ptr(),
            output.len(),
        )
    }
}

pub fn silent(scene: &[u8], samples: &[f32], visitor: &[f32], tracks: &mut [u32]) -> u32 {
    // SAFETY: as in `render`.
    unsafe {
        raw::room_desk_silent(
            scene.as_ptr(),
            scene.len(),
            samples.as_ptr(),
            samples.len(),
            visitor.as_ptr(),
            visitor.len(),
            tracks.as_mut_ptr(),
            tracks.len(),
        )
    }
}

/// Rate, channels, bits and frames.
pub fn wave_info(file: &[u8]) -> (u32, [u32; 4]) {
    let [mut rate, mut channels, mut bits, mut frames] = [0; 4];
    // SAFETY: the slice lives through the call; the four places are our own.
    let number = unsafe {
        raw::room_desk_wave_info(
            file.as_ptr(),
            file.len(),
            &mut rate,
            &mut channels,
            &mut bits,
            &mut frames,
        )
    };
    (number, [rate, channels, bits, frames])
}

pub fn wave_read(file: &[u8], samples: &mut [f32], rate: &mut u32) -> u32 {
    // SAFETY: the slices live through the call; `samples` and `rate` are lent alone.
    unsafe {
        raw::room_desk_wave_read(
            file.as_ptr(),
            file.len(),
            samples.as_mut_ptr(),
            samples.len(),
            rate,
        )
    }
}

pub fn wave_write(rate: u32, channels: u32, bits: u32, samples: &[f32], file: &mut [u8]) -> u32 {
    // SAFETY: the slices live through the call; `file` is lent alone.
    unsafe {
        raw::room_desk_wave_write(
            rate,
            channels,
            bits,
            samples.as_ptr(),
            samples.len(),
            file.as_mut_ptr(),
            file.len(),
        )
    }
}

/// Rate, channels and frames.
pub fn aiff_info(file: &[u8]) -> (u32, [u32; 3]) {
    let [mut rate, mut channels, mut frames] = [0; 3];
    // SAFETY: the slice lives through the call; the three places are our own.
    let number = unsafe {
        raw::room_desk_aiff_info(file.as_ptr(), file.len(), &mut rate, &mut channels, &mut frames)
    };
    (number, [rate, channels, frames])
}

pub fn aiff_read(file: &[u8], samples: &mut [f32], rate: &mut u32) -> u32 {
    // SAFETY: as in `wave_read`.
    unsafe {
        raw::room_desk_aiff_read(
            file.as_ptr(),
            file.len(),
            samples.as_mut_ptr(),
            samples.len(),
            rate,
        )
    }
}

pub fn aiff_write(rate: u32, channels: u32, samples: &[f32], file: &mut [u8]) -> u32 {
    // SAFETY: as in `wave_write`.
    unsafe {
        raw::room_desk_aiff_write(
            rate,
            channels,
            samples.as_ptr(),
            samples.len(),
            file.as_mut_ptr(),
            file.len(),
        )
    }
}

pub fn wave_to_aiff(wave: &[u8], aiff: &mut [u8]) -> u32 {
    // SAFETY: the slices live through the call; `aiff` is lent alone.
    unsafe { raw::room_desk_wave_to_aiff(wave.as_ptr(), wave.len(), aiff.as_mut_ptr(), aiff.len()) }
}

pub fn aiff_to_wave(aiff: &[u8], wave: &mut [u8]) -> u32 {
    // SAFETY: the slices live through the call; `wave` is lent alone.
    unsafe { raw::room_desk_aiff_to_wave(aiff.as_ptr(), aiff.len(), wave.as_mut_ptr(), wave.len()) }
}
