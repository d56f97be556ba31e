//! Wrong readings of the rules, each with its name.

/// Lists the readings with their names once, so that none is left out of `ALL`.
macro_rules! slips {
    ($($name:ident $text:literal,)*) => {
        #[derive(Clone, Copy, Debug, PartialEq, Eq)]
        pub enum Slip {
            $($name,)*
        }

        impl Slip {
            pub const ALL: &[Slip] = &[$(Slip::$name,)*];
        }

        impl std::fmt::Display for Slip {
            fn fmt(&self, out: &mut std::fmt::Formatter) -> std::fmt::Result {
                out.write_str(match self {
                    $(Slip::$name => $text,)*
                })
            }
        }
    };
}

pub(crate) use slips;
