//! The model's capture functions, by the C interface of its trial library.

#![allow(unsafe_code)]

mod trial {
    #[link(name = "pcap_trial", kind = "static")]
    extern "C" {
        pub fn pcap_trial_export(
            list: *const u8,
            list_len: usize,
            room: *mut u8,
            room_len: usize,
            found: *mut u64,
            found_len: usize,
        );
        pub fn pcap_trial_import(
            file: *const u8,
            file_len: usize,
            events: *mut u8,
            events_len: usize,
            times: *mut u8,
            times_len: usize,
            found: *mut u64,
            found_len: usize,
        );
    }
}

pub fn export(list: &[u8], room: &mut [u8], found: &mut [u64]) {
    // SAFETY: pointers and lengths are those of live slices; no two that are written share a byte.
    unsafe {
        trial::pcap_trial_export(
            list.as_ptr(),
            list.len(),
            room.as_mut_ptr(),
            room.len(),
            found.as_mut_ptr(),
            found.len(),
        )
    }
}

pub fn import(file: &[u8], events: &mut [u8], times: &mut [u8], found: &mut [u64]) {
    // SAFETY: as above.
    unsafe {
        trial::pcap_trial_import(
            file.as_ptr(),
            file.len(),
            events.as_mut_ptr(),
            events.len(),
            times.as_mut_ptr(),
            times.len(),
            found.as_mut_ptr(),
            found.len(),
        )
    }
}
