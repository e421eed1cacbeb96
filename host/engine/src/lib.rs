//! A thin binding over the compiled engine's C calls.
//!
//! The calls stand in `include/controller.h`; here each one takes slices
//! instead of a pointer with a length. This is the one place of the host code
//! with `unsafe` in it. What the C contracts ask of the caller, slices give: a
//! pointer is good for as many bytes as it says, and regions lent for writing
//! overlap no other. The archive is found by `build.rs`.

mod c {
    extern "C" {
        pub fn controller_start(
            number: u32,
            bit: u8,
            image: *mut u8,
            image_len: usize,
            out: *mut u8,
            out_len: usize,
            length: *mut usize,
        ) -> u8;
        pub fn controller_tray(
            image: *mut u8,
            image_len: usize,
            tray: *const u8,
            tray_len: usize,
            out: *mut u8,
            out_len: usize,
            length: *mut usize,
        ) -> u8;
        pub fn controller_frame(frame: *const u8, frame_len: usize, round: u32) -> u8;
        pub fn controller_decision(image: *const u8, image_len: usize) -> u8;
        pub fn controller_round(image: *const u8, image_len: usize) -> u32;
        pub fn controller_king(image: *const u8, image_len: usize) -> u32;
        pub fn controller_heard(image: *const u8, image_len: usize) -> u32;
        pub fn controller_heard_number(image: *const u8, image_len: usize, i: u32) -> u32;
        pub fn controller_first_round(image: *const u8, image_len: usize, i: u32) -> u32;
        pub fn controller_candidates(image: *const u8, image_len: usize) -> u32;
        pub fn controller_echoes(image: *const u8, image_len: usize) -> u32;
    }
}

/// Starts a controller with its number and its input, a bit.
pub fn start(number: u32, bit: u8, image: &mut [u8], out: &mut [u8], length: &mut usize) -> u8 {
    // SAFETY: the pointers and lengths are those of slices that overlap nowhere.
    unsafe {
        c::controller_start(
            number,
            bit,
            image.as_mut_ptr(),
            image.len(),
            out.as_mut_ptr(),
            out.len(),
            length,
        )
    }
}

/// Works one tray: moves the state to the next round and writes its frame. The call that
/// decides sends none: it writes nothing, and the length is 0.
pub fn tray(image: &mut [u8], tray: &[u8], out: &mut [u8], length: &mut usize) -> u8 {
    // SAFETY: the pointers and lengths are those of slices that overlap nowhere.
    unsafe {
        c::controller_tray(
            image.as_mut_ptr(),
            image.len(),
            tray.as_ptr(),
            tray.len(),
            out.as_mut_ptr(),
            out.len(),
            length,
        )
    }
}

/// 0 for a frame of a round, else why the bytes are void for it.
pub fn frame(bytes: &[u8], round: u32) -> u8 {
    // SAFETY: pointer and length are those of a slice, which is only read.
    unsafe { c::controller_frame(bytes.as_ptr(), bytes.len(), round) }
}

/// The decision: 0, 1, or 2 for none; 255 for an image that is not sound.
pub fn decision(image: &[u8]) -> u8 {
    // SAFETY: pointer and length are those of a slice, which is only read.
    unsafe { c::controller_decision(image.as_ptr(), image.len()) }
}

/// The last round sent, or the round of the decision; 0 for an image that is not sound.
pub fn round(image: &[u8]) -> u32 {
    // SAFETY: pointer and length are those of a slice, which is only read.
    unsafe { c::controller_round(image.as_ptr(), image.len()) }
}

/// The king, 0 for none; 0 for an image that is not sound.
pub fn king(image: &[u8]) -> u32 {
    // SAFETY: pointer and length are those of a slice, which is only read.
    unsafe { c::controller_king(image.as_ptr(), image.len()) }
}

/// How many numbers were heard; 0 for an image that is not sound.
pub fn heard(image: &[u8]) -> u32 {
    // SAFETY: pointer and length are those of a slice, which is only read.
    unsafe { c::controller_heard(image.as_ptr(), image.len()) }
}

/// The i-th heard number, from 0, in rising order; 0 past the end and for an image that
/// is not sound.
pub fn heard_number(image: &[u8], i: u32) -> u32 {
    // SAFETY: pointer and length are those of a slice, which is only read.
    unsafe { c::controller_heard_number(image.as_ptr(), image.len(), i) }
}

/// The round of the tray that first brought the i-th heard number; 0 for the own one,
/// past the end and for an image that is not sound.
pub fn first_round(image: &[u8], i: u32) -> u32 {
    // SAFETY: pointer and length are those of a slice, which is only read.
    unsafe { c::controller_first_round(image.as_ptr(), image.len(), i) }
}

/// How many candidates there are; 0 for an image that is not sound.
pub fn candidates(image: &[u8]) -> u32 {
    // SAFETY: pointer and length are those of a slice, which is only read.
    unsafe { c::controller_candidates(image.as_ptr(), image.len()) }
}

/// How many echoes there are; 0 for an image that is not sound.
pub fn echoes(image: &[u8]) -> u32 {
    // SAFETY: pointer and length are those of a slice, which is only read.
    unsafe { c::controller_echoes(image.as_ptr(), image.len()) }
}
