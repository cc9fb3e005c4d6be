//! Pictures made to order: from a drawing, or from the program that a run is to execute.
use crate::numbers::{decode, instruction_number};
use crate::picture::Picture;
use piet_core::instruction::Instruction;

/// An instruction, and the size of the block that it leaves, which is what Push pushes.
pub type Op = (Instruction, usize);

/// Each letter is a pixel: the hues in order are `rygcbm` regular, `RYGCBM` light and `012345` dark;
/// `#` is black and `.` white.
pub fn drawn(codel: u32, lines: &[&str]) -> Picture {
    let colours = lines.iter().flat_map(|line| line.chars().map(drawn_colour)).collect();
    Picture { height: lines.len() as u32, width: lines[0].len() as u32, codel, colours }
}

fn drawn_colour(letter: char) -> u8 {
    "012345rygcbmRYGCBM#.".find(letter).expect("a letter of a colour") as u8
}

/// One row of blocks from regular red on, one for each instruction and one to end in.
pub fn row(program: &[Op]) -> Picture {
    let (mut colour, mut colours) = (6, vec![]);
    for &(instruction, size) in program {
        colours.extend(vec![colour; size]);
        colour = colour_after(colour, instruction);
    }
    colours.push(colour);
    Picture { height: 1, width: colours.len() as u32, codel: 1, colours }
}

/// The row above a white one: turned down at the end, a run slides back to the first block.
pub fn row_over_white(program: &[Op]) -> Picture {
    let mut picture = row(program);
    picture.colours.extend(vec![drawn_colour('.'); picture.width as usize]);
    Picture { height: 2, ..picture }
}

/// The one colour that this instruction leads to.
fn colour_after(from: u8, instruction: Instruction) -> u8 {
    let number = instruction_number(Some(instruction));
    (0..18).find(|&to| decode(from, to) == number).expect("every instruction leads somewhere")
}

/// Instructions that leave blocks of size 1.
pub fn ops(instructions: &[Instruction]) -> Vec<Op> {
    instructions.iter().map(|&i| (i, 1)).collect()
}
