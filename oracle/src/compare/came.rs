//! How a frame came to the bench.

use std::fmt;

#[derive(Clone, Copy, Debug, PartialEq, Eq)]
pub enum Came {
    Alone,
    InABurst,
}

impl Came {
    pub const BOTH: [Came; 2] = [Came::Alone, Came::InABurst];
}

impl fmt::Display for Came {
    fn fmt(&self, out: &mut fmt::Formatter) -> fmt::Result {
        out.write_str(match self {
            Came::Alone => "alone",
            Came::InABurst => "in a burst",
        })
    }
}
