//! The model's C functions, as the bench host calls them.

#![allow(unsafe_code)]

use oracle::address::Filter;

mod library {
    #[link(name = "tockfeather", kind = "static")]
    extern "C" {
        pub fn tockfeather_frame_check(frame: *const u8, length: usize) -> u32;
        pub fn tockfeather_address_rule(
            frame: *const u8,
            length: usize,
            control: u32,
            high: u32,
            low: u32,
            hash_high: u32,
            hash_low: u32,
        ) -> u32;
    }
}

/// 1 if the frame's check sequence is right, 0 if not.
pub fn frame_check(frame: &[u8]) -> u32 {
    // SAFETY: pointer and length are those of a live slice, which the function only reads.
    unsafe { library::tockfeather_frame_check(frame.as_ptr(), frame.len()) }
}

/// Why a station with these registers takes the frame, 1 to 4, and 0 if it does not.
pub fn address_rule(frame: &[u8], filter: &Filter) -> u32 {
    // SAFETY: as above; the other arguments are numbers.
    unsafe {
        library::tockfeather_address_rule(
            frame.as_ptr(),
            frame.len(),
            filter.control,
            filter.high,
            filter.low,
            filter.hash_high,
            filter.hash_low,
        )
    }
}
