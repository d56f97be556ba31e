//! The model's trace functions, by the C interface of its trial library.

#![allow(unsafe_code)]

mod trial {
    #[link(name = "trace_trial", kind = "static")]
    extern "C" {
        pub fn trace_trial_read(
            trace: *const u8,
            trace_len: usize,
            room: *mut u8,
            room_len: usize,
            found: *mut u64,
            found_len: usize,
        );
        pub fn trace_trial_write(
            base: u32,
            window: u32,
            events: *const u8,
            events_len: usize,
            room: *mut u8,
            room_len: usize,
            found: *mut u64,
            found_len: usize,
        );
        pub fn trace_trial_replay(
            trace: *const u8,
            trace_len: usize,
            room: *mut u8,
            room_len: usize,
            memory: *mut u8,
            memory_len: usize,
            output: *mut u8,
            output_len: usize,
            answers: *mut u32,
            answers_len: usize,
            found: *mut u64,
            found_len: usize,
        );
    }
}

pub fn read(trace: &[u8], room: &mut [u8], found: &mut [u64]) {
    // SAFETY: pointers and lengths are those of live slices; no two that are written share a byte.
    unsafe {
        trial::trace_trial_read(
            trace.as_ptr(),
            trace.len(),
            room.as_mut_ptr(),
            room.len(),
            found.as_mut_ptr(),
            found.len(),
        )
    }
}

pub fn write(base: u32, window: u32, events: &[u8], room: &mut [u8], found: &mut [u64]) {
    // SAFETY: as above.
    unsafe {
        trial::trace_trial_write(
            base,
            window,
            events.as_ptr(),
            events.len(),
            room.as_mut_ptr(),
            room.len(),
            found.as_mut_ptr(),
            found.len(),
        )
    }
}

pub fn replay(
    trace: &[u8],
    room: &mut [u8],
    memory: &mut [u8],
    output: &mut [u8],
    answers: &mut [u32],
    found: &mut [u64],
) {
    // SAFETY: as above.
    unsafe {
        trial::trace_trial_replay(
            trace.as_ptr(),
            trace.len(),
            room.as_mut_ptr(),
            room.len(),
            memory.as_mut_ptr(),
            memory.len(),
            output.as_mut_ptr(),
            output.len(),
            answers.as_mut_ptr(),
            answers.len(),
            found.as_mut_ptr(),
            found.len(),
        )
    }
}
