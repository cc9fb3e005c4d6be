//! The two pointers.
use crate::numbers::{from_outside, numbered, NoSuch};

numbered! {
    /// The direction pointer.
    Dp {
        /// To the right.
        Right = 0,
        /// Down.
        Down = 1,
        /// To the left.
        Left = 2,
        /// Up.
        Up = 3,
    }
}

from_outside!(Dp, "direction");

numbered! {
    /// The codel chooser, seen facing the direction pointer.
    Cc {
        /// To the left.
        Left = 0,
        /// To the right.
        Right = 1,
    }
}

from_outside!(Cc, "codel chooser");

/// The pointer pair. Its number, the pointer state, is 2 x dp + cc.
#[derive(Clone, Copy, Debug, PartialEq, Eq, Hash)]
pub struct Pointers {
    /// The direction pointer.
    pub dp: Dp,
    /// The codel chooser.
    pub cc: Cc,
}

impl Pointers {
    /// The pointer state, 0 to 7.
    pub const fn state(self) -> u8 {
        2 * self.dp.number() + self.cc.number()
    }
}

impl TryFrom<u8> for Pointers {
    type Error = NoSuch;

    fn try_from(state: u8) -> Result<Self, NoSuch> {
        let pair = Dp::of((state / 2).into()).zip(Cc::of((state % 2).into()));
        pair.map(|(dp, cc)| Pointers { dp, cc }).ok_or(NoSuch { what: "pointer state", number: state })
    }
}
