//! The routines of `aiff` and `sound_converter`, by slices. For the driver beside it.

#[link(name = "room_desk", kind = "static")]
unsafe extern "C" {
    // A slice is passed as its first element's place and its length.
    fn room_desk_aiff_info(
        file: *const u8,
        file_length: usize,
        rate: *mut u32,
        channels: *mut u32,
        frames: *mut u32,
    ) -> u32;
    fn room_desk_aiff_read(
        file: *const u8,
        file_length: usize,
        samples: *mut f32,
        samples_length: usize,
        rate: *mut u32,
    ) -> u32;
    fn room_desk_aiff_write(
        rate: u32,
        channels: u32,
        samples: *const f32,
        samples_length: usize,
        file: *mut u8,
        file_length: usize,
    ) -> u32;
    fn room_desk_aiff_length(samples: usize, channels: u32) -> usize;
}

#[link(name = "room_desk", kind = "static")]
unsafe extern "C" {
    fn room_desk_wave_to_aiff(wave: *const u8, wave_length: usize, aiff: *mut u8, aiff_length: usize) -> u32;
    fn room_desk_aiff_to_wave(aiff: *const u8, aiff_length: usize, wave: *mut u8, wave_length: usize) -> u32;
}

/// What a file holds, or what stood there before.
#[derive(Clone, Copy)]
pub struct Info {
    pub rate: u32,
    pub channels: u32,
    pub frames: u32,
}

pub fn info(file: &[u8], info: &mut Info) -> u32 {
    // SAFETY: the slice and the struct live through the call, and only the struct's fields are written.
    unsafe { room_desk_aiff_info(file.as_ptr(), file.len(), &mut info.rate, &mut info.channels, &mut info.frames) }
}

pub fn read(file: &[u8], samples: &mut [f32], rate: &mut u32) -> u32 {
    // SAFETY: as above; `samples` and `rate` are written.
    unsafe { room_desk_aiff_read(file.as_ptr(), file.len(), samples.as_mut_ptr(), samples.len(), rate) }
}

pub fn write(rate: u32, channels: u32, samples: &[f32], file: &mut [u8]) -> u32 {
    // SAFETY: as above; `file` is written.
    unsafe { room_desk_aiff_write(rate, channels, samples.as_ptr(), samples.len(), file.as_mut_ptr(), file.len()) }
}

pub fn length(samples: usize, channels: u32) -> usize {
    // SAFETY: numbers only.
    unsafe { room_desk_aiff_length(samples, channels) }
}

pub fn wave_to_aiff(wave: &[u8], aiff: &mut [u8]) -> u32 {
    // SAFETY: as above; `aiff` is written.
    unsafe { room_desk_wave_to_aiff(wave.as_ptr(), wave.len(), aiff.as_mut_ptr(), aiff.len()) }
}

pub fn aiff_to_wave(aiff: &[u8], wave: &mut [u8]) -> u32 {
    // SAFETY: as above; `wave` is written.
    unsafe { room_desk_aiff_to_wave(aiff.as_ptr(), aiff.len(), wave.as_mut_ptr(), wave.len()) }
}
