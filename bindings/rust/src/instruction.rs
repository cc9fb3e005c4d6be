//! Instructions.
use crate::numbers::{from_outside, numbered, NoSuch};

numbered! {
    /// What a move does. The top of the stack is a, the value below it b.
    Instruction {
        /// Nothing.
        None = 0,
        /// Pushes the size of the block that is left.
        Push = 1,
        /// Pops a value.
        Pop = 2,
        /// b + a.
        Add = 3,
        /// b - a.
        Sub = 4,
        /// b times a.
        Mul = 5,
        /// b divided by a.
        Div = 6,
        /// b modulo a.
        Mod = 7,
        /// 1 for 0, and 0 for all else.
        Not = 8,
        /// 1 where b is greater than a, else 0.
        Gt = 9,
        /// Turns the direction pointer a times.
        Ptr = 10,
        /// Switches the codel chooser a times.
        Swi = 11,
        /// Pushes the top once more.
        Dup = 12,
        /// Rolls the uppermost b values by a.
        Roll = 13,
        /// Reads a character.
        CharIn = 14,
        /// Writes a character.
        CharOut = 15,
        /// Reads a number.
        IntIn = 16,
        /// Writes a number.
        IntOut = 17,
    }
}

from_outside!(Instruction, "instruction");
