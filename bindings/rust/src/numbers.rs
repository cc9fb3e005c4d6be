//! How the library's numbers become enums.
use std::fmt;

/// A number that none of an enum's values has.
#[derive(Clone, Copy, Debug, PartialEq, Eq, Hash)]
pub struct NoSuch {
    /// What was looked for.
    pub what: &'static str,
    /// Its number.
    pub number: u8,
}

impl fmt::Display for NoSuch {
    fn fmt(&self, f: &mut fmt::Formatter<'_>) -> fmt::Result {
        write!(f, "no {} has the number {}", self.what, self.number)
    }
}

impl std::error::Error for NoSuch {}

/// What a number of the archive stands for. The archive is proved to give only numbers that stand for something, so that
/// this never panics with the archive that the crate is made for.
pub(crate) fn proved<T>(meant: Option<T>) -> T {
    meant.expect("libpiet_c.a gave a number that it is proved not to give")
}

/// An enum whose values have the library's numbers, and the way from a number to its value.
macro_rules! numbered {
    ($(#[$about:meta])* $name:ident { $($(#[$value_about:meta])* $value:ident = $number:literal,)+ }) => {
        $(#[$about])*
        #[derive(Clone, Copy, Debug, PartialEq, Eq, Hash)]
        #[repr(u8)]
        pub enum $name {
            $($(#[$value_about])* $value = $number,)+
        }

        impl $name {
            /// All values, in the order of their numbers.
            pub const ALL: [$name; [$($number),+].len()] = [$($name::$value),+];

            /// The library's number.
            pub const fn number(self) -> u8 {
                self as u8
            }

            /// The value of a number, where there is one.
            pub(crate) fn of(number: u64) -> Option<$name> {
                match number {
                    $($number => Some($name::$value),)+
                    _ => None,
                }
            }
        }
    };
}

/// The value of a number from outside, where no refusal of the library fits a number that has none.
macro_rules! from_outside {
    ($name:ident, $what:literal) => {
        impl TryFrom<u8> for $name {
            type Error = NoSuch;

            fn try_from(number: u8) -> Result<Self, NoSuch> {
                $name::of(number.into()).ok_or(NoSuch { what: $what, number })
            }
        }
    };
}

pub(crate) use {from_outside, numbered};
