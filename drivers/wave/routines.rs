//! The routines of `wave`, by slices. For the driver and the bench beside it.

#[link(name = "room_desk", kind = "static")]
unsafe extern "C" {
    // A slice is passed as its first element's place and its length.
    fn room_desk_wave_info(
        file: *const u8,
        file_length: usize,
        rate: *mut u32,
        channels: *mut u32,
        bits: *mut u32,
        frames: *mut u32,
    ) -> u32;
    fn room_desk_wave_read(
        file: *const u8,
        file_length: usize,
        samples: *mut f32,
        samples_length: usize,
        rate: *mut u32,
    ) -> u32;
    fn room_desk_wave_write(
        rate: u32,
        channels: u32,
        bits: u32,
        samples: *const f32,
        samples_length: usize,
        file: *mut u8,
        file_length: usize,
    ) -> u32;
    fn room_desk_wave_length(samples: usize, channels: u32, bits: u32) -> usize;
}

/// What a file holds, or what stood there before.
#[derive(Clone, Copy)]
pub struct Info {
    pub rate: u32,
    pub channels: u32,
    pub bits: u32,
    pub frames: u32,
}

pub fn info(file: &[u8], info: &mut Info) -> u32 {
    // SAFETY: the slice and the struct live through the call, and only the struct's fields are written.
    unsafe {
        room_desk_wave_info(
            file.as_ptr(),
            file.len(),
            &mut info.rate,
            &mut info.channels,
            &mut info.bits,
            &mut info.frames,
        )
    }
}

pub fn read(file: &[u8], samples: &mut [f32], rate: &mut u32) -> u32 {
    // SAFETY: as above; `samples` and `rate` are written.
    unsafe { room_desk_wave_read(file.as_ptr(), file.len(), samples.as_mut_ptr(), samples.len(), rate) }
}

pub fn write(rate: u32, channels: u32, bits: u32, samples: &[f32], file: &mut [u8]) -> u32 {
    // SAFETY: as above; `file` is written.
    unsafe {
        room_desk_wave_write(
            rate,
            channels,
            bits,
            samples.as_ptr(),
            samples.len(),
            file.as_mut_ptr(),
            file.len(),
        )
    }
}

pub fn length(samples: usize, channels: u32, bits: u32) -> usize {
    // SAFETY: numbers only.
    unsafe { room_desk_wave_length(samples, channels, bits) }
}
