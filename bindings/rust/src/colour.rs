//! Colours, and pixels that have none of them.
use crate::numbers::{from_outside, numbered, NoSuch};
use crate::Refusal;

numbered! {
    /// The twenty colours: a hue 0 to 5, plus 6 for each step of lightness above dark, then black and white.
    Colour {
        /// Dark red.
        DarkRed = 0,
        /// Dark yellow.
        DarkYellow = 1,
        /// Dark green.
        DarkGreen = 2,
        /// Dark cyan.
        DarkCyan = 3,
        /// Dark blue.
        DarkBlue = 4,
        /// Dark magenta.
        DarkMagenta = 5,
        /// Red.
        Red = 6,
        /// Yellow.
        Yellow = 7,
        /// Green.
        Green = 8,
        /// Cyan.
        Cyan = 9,
        /// Blue.
        Blue = 10,
        /// Magenta.
        Magenta = 11,
        /// Light red.
        LightRed = 12,
        /// Light yellow.
        LightYellow = 13,
        /// Light green.
        LightGreen = 14,
        /// Light cyan.
        LightCyan = 15,
        /// Light blue.
        LightBlue = 16,
        /// Light magenta.
        LightMagenta = 17,
        /// Black.
        Black = 18,
        /// White.
        White = 19,
    }
}

from_outside!(Colour, "colour");

numbered! {
    /// What becomes of a pixel that is none of the twenty colours.
    Unknown {
        /// As the library has it by default: it becomes white.
        Default = 0,
        /// The picture is refused.
        Refused = 1,
        /// It becomes white.
        White = 2,
        /// It becomes black.
        Black = 3,
    }
}

/// A setting above 3 has the library's refusal.
impl TryFrom<u8> for Unknown {
    type Error = Refusal;

    fn try_from(number: u8) -> Result<Self, Refusal> {
        Unknown::of(number.into()).ok_or(Refusal::Setting)
    }
}
