//! The macro for every enum whose cases document 01 numbers. `tools/numbers` prints the numbers from the definitions.

/// Makes a plain enum, its table of cases, and the way from a number to a case and back.
macro_rules! numbered {
    ($(#[$meta:meta])* $name:ident { $($(#[$doc:meta])* $case:ident = $number:literal,)* }) => {
        $(#[$meta])*
        #[derive(Debug, Clone, Copy, PartialEq, Eq, PartialOrd, Ord, Hash)]
        #[non_exhaustive]
        pub enum $name {
            $($(#[$doc])* $case = $number,)*
        }

        impl $name {
            /// Every case, in the order of its numbers.
            pub const ALL: &'static [Self] = &[$(Self::$case,)*];

            /// The number of this case in rows.
            #[must_use]
            pub const fn number(self) -> u32 {
                self as u32
            }

            /// The case with this number.
            #[must_use]
            pub const fn from_number(number: u32) -> Option<Self> {
                match number {
                    $($number => Some(Self::$case),)*
                    _ => None,
                }
            }

            /// The case's name, as it is written in Rust.
            #[must_use]
            pub const fn name(self) -> &'static str {
                match self {
                    $(Self::$case => stringify!($case),)*
                }
            }

            /// The case with this name.
            #[must_use]
            pub fn from_name(name: &str) -> Option<Self> {
                Self::ALL.iter().copied().find(|case| case.name() == name)
            }
        }
    };
}

pub(crate) use numbered;
