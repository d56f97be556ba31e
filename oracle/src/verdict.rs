//! What the small verdict program says about one raw frame.

use crate::address::Filter;
use crate::check;
use crate::numbers::{DONE, FRAME_ADDRESS, FRAME_CHECK, FRAME_LENGTH};
use crate::reason::Reason;

/// The station of the verdict program, in wire order.
pub const STATION: [u8; 6] = [0x02, 0, 0, 0, 0, 0x01];

/// The most bytes the program takes from its input.
pub const TAKEN_AT_MOST: usize = 1_519;

/// Whether the length is one of a frame, check sequence included.
pub fn length_allowed(length: usize) -> bool {
    (64..=1_518).contains(&length)
}

/// Why a frame passes with these registers, or the first of 4, 5 and 6 that it meets.
pub fn passing(frame: &[u8], filter: &Filter) -> Result<Reason, u32> {
    if !length_allowed(frame.len()) {
        return Err(FRAME_LENGTH);
    }
    if !check::right(frame) {
        return Err(FRAME_CHECK);
    }
    filter.reason(frame).ok_or(FRAME_ADDRESS)
}

/// The first of 4, 5 and 6 that a frame meets with these registers, or 0.
pub fn first_number(frame: &[u8], filter: &Filter) -> u32 {
    passing(frame, filter).err().unwrap_or(DONE)
}

/// How many bytes of `input` the program takes, and its verdict on them.
pub fn verdict(input: &[u8]) -> (usize, u32) {
    let taken = &input[..input.len().min(TAKEN_AT_MOST)];
    let filter = Filter::of_station(STATION);
    (taken.len(), first_number(taken, &filter))
}

/// The program's whole output for `input`.
pub fn output(input: &[u8]) -> String {
    let (length, number) = verdict(input);
    format!("length {length}\nverdict {number}\n")
}

#[cfg(test)]
mod tests {
    use super::*;

    fn frame_to(destination: [u8; 6], length: usize) -> Vec<u8> {
        let mut message = vec![0; length - 4];
        message[..6].copy_from_slice(&destination);
        check::closed(&message)
    }

    #[test]
    fn empty_input() {
        assert_eq!(output(&[]), "length 0\nverdict 4\n");
    }

    #[test]
    fn lengths_at_both_ends() {
        assert_eq!(verdict(&frame_to(STATION, 63)), (63, 4));
        assert_eq!(verdict(&frame_to(STATION, 64)), (64, 0));
        assert_eq!(verdict(&frame_to(STATION, 1_518)), (1_518, 0));
        assert_eq!(verdict(&frame_to(STATION, 1_519)), (1_519, 4));
        assert_eq!(verdict(&frame_to(STATION, 2_000)), (1_519, 4));
    }

    #[test]
    fn a_wrong_check_comes_before_a_wrong_address() {
        let mut frame = frame_to([2; 6], 64);
        assert_eq!(verdict(&frame), (64, 6));
        frame[20] ^= 1;
        assert_eq!(verdict(&frame), (64, 5));
    }

    #[test]
    fn almost_broadcast_is_turned_away() {
        let almost = [0xFF, 0xFF, 0xFF, 0xFF, 0xFF, 0xFE];
        assert_eq!(verdict(&frame_to(almost, 64)), (64, 6));
        assert_eq!(verdict(&frame_to([0xFF; 6], 64)), (64, 0));
    }
}
