//! The levels of the inputs, "active high, level sensitive": given with a call, never latched.

/// The sixteen inputs of VIC0 and those of VIC1, input 0 in the lowest bit.
pub type Levels = [u16; 2];

/// The controller and input of "VIC0.11 Ethernet MAC" (Table 13).
pub const ETHERNET: (usize, usize) = (0, 11);

/// The levels with the Ethernet controller's line at its input, whatever they say of that one.
pub fn with_ethernet(mut levels: Levels, line: bool) -> Levels {
    let (controller, input) = ETHERNET;
    let bit = 1 << input;
    levels[controller] &= !bit;
    if line {
        levels[controller] |= bit;
    }
    levels
}
