//! The model's counters, by the C interface of its trial library.

#![allow(unsafe_code)]

use crate::case::{Case, Lent};

mod trial {
    #[link(name = "counter_trial", kind = "static")]
    extern "C" {
        pub fn counter_trial_run(
            base: u32,
            window: u32,
            delivered: u32,
            lost: u32,
            sent: u32,
            count: u32,
            memory: *mut u8,
            memory_len: usize,
            output: *mut u8,
            output_len: usize,
            events: *const u8,
            events_len: usize,
            answers: *mut u32,
            answers_len: usize,
            allowance: u32,
            found: *mut u64,
            found_len: usize,
        );
        pub fn counter_trial_burst(
            base: u32,
            window: u32,
            delivered: u32,
            lost: u32,
            sent: u32,
            count: u32,
            memory: *mut u8,
            memory_len: usize,
            output: *mut u8,
            output_len: usize,
            events: *const u8,
            events_len: usize,
            answers: *mut u32,
            answers_len: usize,
            store: *const u8,
            store_len: usize,
            starts: *const u32,
            starts_len: usize,
            lengths: *const u32,
            lengths_len: usize,
            list: *mut u32,
            list_len: usize,
            found: *mut u64,
            found_len: usize,
        );
    }
}

pub fn run(case: &Case, lent: &mut Lent, found: &mut [u64]) {
    // SAFETY: pointers and lengths are those of live slices; no two that are written share a byte.
    unsafe {
        trial::counter_trial_run(
            case.base,
            case.window,
            case.counters.delivered,
            case.counters.lost,
            case.counters.sent,
            case.count,
            lent.memory.as_mut_ptr(),
            lent.memory.len(),
            lent.output.as_mut_ptr(),
            lent.output.len(),
            case.events.as_ptr(),
            case.events.len(),
            lent.answers.as_mut_ptr(),
            lent.answers.len(),
            case.allowance,
            found.as_mut_ptr(),
            found.len(),
        )
    }
}

pub fn burst(case: &Case, lent: &mut Lent, found: &mut [u64]) {
    // SAFETY: as above.
    unsafe {
        trial::counter_trial_burst(
            case.base,
            case.window,
            case.counters.delivered,
            case.counters.lost,
            case.counters.sent,
            case.count,
            lent.memory.as_mut_ptr(),
            lent.memory.len(),
            lent.output.as_mut_ptr(),
            lent.output.len(),
            case.events.as_ptr(),
            case.events.len(),
            lent.answers.as_mut_ptr(),
            lent.answers.len(),
            case.store.as_ptr(),
            case.store.len(),
            case.starts.as_ptr(),
            case.starts.len(),
            case.lengths.as_ptr(),
            case.lengths.len(),
            lent.list.as_mut_ptr(),
            lent.list.len(),
            found.as_mut_ptr(),
            found.len(),
        )
    }
}
