//! The window: lent memory as the device sees it from its base address.

use std::ops::Range;

#[derive(Clone, Copy, Debug, PartialEq, Eq)]
pub struct Window {
    pub base: u64,
    pub length: u64,
}

impl Window {
    /// The window of a bench whose own one was not allowed.
    pub const NONE: Window = Window { base: 0, length: 0 };

    pub fn allowed(base: u64, length: u64) -> Option<Window> {
        let sound = (64..=65_536).contains(&length)
            && length.is_multiple_of(4)
            && base.is_multiple_of(4)
            && base + length <= 1 << 32;
        sound.then_some(Window { base, length })
    }

    /// Whether the lent memory is of the window's length.
    pub fn is_lent(&self, memory: &[u8]) -> bool {
        memory.len() as u64 == self.length
    }

    /// Where `count` bytes from `address` on lie in the lent memory, if all lie in the window.
    pub fn places(&self, address: u32, count: u64) -> Option<Range<usize>> {
        let first = u64::from(address).checked_sub(self.base)?;
        let end = first + count;
        (end <= self.length).then_some(first as usize..end as usize)
    }
}

#[cfg(test)]
mod tests {
    use super::*;

    #[test]
    fn marked_windows() {
        for (mark, base, length, allowed) in [
            ("M1", 0, 60, false),
            ("M2", 0, 64, true),
            ("M3", 0, 66, false),
            ("M4", 0, 65_540, false),
            ("M5", 0xFFFF_FFC0, 64, true),
            ("M6", 0xFFFF_FFC4, 64, false),
        ] {
            assert_eq!(Window::allowed(base, length).is_some(), allowed, "{mark}");
        }
    }

    #[test]
    fn other_ends_of_the_rule() {
        assert!(Window::allowed(0, 65_536).is_some());
        assert!(Window::allowed(2, 64).is_none());
        assert!(Window::allowed(0xFFFF_0000, 65_536).is_some());
        assert!(Window::allowed(0xFFFF_0004, 65_536).is_none());
    }

    #[test]
    fn nothing_wraps_past_the_last_address() {
        let window = Window::allowed(0xFFFF_FFC0, 64).unwrap();
        assert_eq!(window.places(0xFFFF_FFF0, 16), Some(48..64));
        assert_eq!(window.places(0xFFFF_FFF4, 16), None);
        assert_eq!(window.places(0, 4), None);
        assert_eq!(window.places(0xFFFF_FFBC, 4), None);
    }
}
