//! Colours, instructions and pointer states of the Rust as the numbers of the rules (docs/RULES.md).
use crate::outside::caught;
use image::Rgb;
use parser::convert::{ConvertToLightness, UnknownPixelSettings, UnknownPixelSettings::*};
use parser::decode::DecodeInstruction;
use piet_core::color::{Hue, Hue::*, Lightness, Lightness::*};
use piet_core::flow::{find_offset, PointerState, DIRECTIONS};
use piet_core::instruction::{Instruction, Instruction::*};
use std::collections::BTreeMap;

const HUES: [Hue; 6] = [Red, Yellow, Green, Cyan, Blue, Magenta];

const INSTRUCTIONS: [Instruction; 17] = [
    Push, Pop, Add, Sub, Mul, Div, Mod, Not, Gt, Ptr, Swi, Dup, Roll, CharIn, CharOut, IntIn,
    IntOut,
];

struct Given;
impl ConvertToLightness for Given {}
impl DecodeInstruction for Given {}

pub fn colour(number: u8) -> Lightness {
    let hue = HUES[number as usize % 6];
    match number {
        0..=5 => Dark(hue),
        6..=11 => Reg(hue),
        12..=17 => Light(hue),
        18 => Black,
        19 => White,
        _ => panic!("no colour has the number {number}"),
    }
}

pub fn colour_number(lightness: Lightness) -> u8 {
    (0..20).find(|&n| colour(n) == lightness).expect("one of the twenty colours")
}

/// Instructions 1 to 17.
pub fn instruction(number: u8) -> Instruction {
    INSTRUCTIONS[number as usize - 1]
}

pub fn instruction_number(instruction: Option<Instruction>) -> u8 {
    instruction.map_or(0, |i| (1..=17).find(|&n| self::instruction(n) == i).expect("of the 17"))
}

pub fn state_number(p: PointerState) -> u8 {
    2 * p.dp as u8 + p.cc as u8
}

pub fn decode(from: u8, to: u8) -> u8 {
    instruction_number(Given::decode_instr(colour(from), colour(to)))
}

/// The eight states in the order in which they are attempted from this one.
pub fn order(state: u8) -> Vec<u8> {
    let offset = |t: u8| find_offset(DIRECTIONS[state as usize], DIRECTIONS[t as usize]);
    let by_offset: BTreeMap<u8, u8> = (0..8).map(|t| (offset(t), t)).collect();
    assert_eq!(by_offset.len(), 8, "no two states tie");
    by_offset.into_values().collect()
}

/// The colour number of one pixel under setting 0 to 3, or the panic.
pub fn classify(pixel: [u8; 3], setting: u8) -> Result<u8, String> {
    let setting = match setting {
        1 => TreatAsError,
        0 | 2 => TreatAsWhite,
        3 => TreatAsBlack,
        _ => panic!("no setting has the number {setting}"),
    };
    caught(|| classified(pixel, setting))
}

fn classified(pixel: [u8; 3], setting: UnknownPixelSettings) -> u8 {
    colour_number(Given::rgb_to_lightness(&Rgb(pixel), setting))
}

/// The bytes of each colour, found by asking about every pixel there is: a known pixel is one on
/// which the settings make no difference.
pub fn palette() -> [[u8; 3]; 20] {
    let mut found = [None; 20];
    for n in 0..1u32 << 24 {
        let [_, r, g, b] = n.to_be_bytes();
        let number = classified([r, g, b], TreatAsWhite);
        if number == classified([r, g, b], TreatAsBlack) {
            let earlier = found[number as usize].replace([r, g, b]);
            assert_eq!(earlier, None, "colour {number} has one pixel");
        }
    }
    found.map(|pixel| pixel.expect("every colour has a pixel"))
}
