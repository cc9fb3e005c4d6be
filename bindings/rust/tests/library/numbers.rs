//! The enums: every value both ways, every other number refused, and the names as the archive has them.
use crate::support::{built, classified, pixel, row_of};
use piet::{label, Cc, Colour, Dp, Edition, Instruction, NoSuch, Pointers, Refusal, Status, Unknown, LABEL};
use std::fmt::Debug;

/// The values have the numbers from `first` on, and no other number has a value.
fn both_ways<T>(all: &[T], first: u8, number: fn(T) -> u8, refused: impl Fn(u8) -> T::Error)
where
    T: Copy + Debug + PartialEq + TryFrom<u8>,
    T::Error: Debug + PartialEq,
{
    for candidate in 0..=u8::MAX {
        let value = candidate.checked_sub(first).and_then(|index| all.get(usize::from(index)));
        assert_eq!(T::try_from(candidate), value.copied().ok_or_else(|| refused(candidate)));
        assert_eq!(value.map_or(candidate, |&value| number(value)), candidate);
    }
}

fn no_such(what: &'static str) -> impl Fn(u8) -> NoSuch {
    move |number| NoSuch { what, number }
}

#[test]
fn every_value_both_ways() {
    both_ways(&Unknown::ALL, 0, Unknown::number, |_| Refusal::Setting);
    both_ways(&Dp::ALL, 0, Dp::number, no_such("direction"));
    both_ways(&Cc::ALL, 0, Cc::number, no_such("codel chooser"));
    both_ways(&Colour::ALL, 0, Colour::number, no_such("colour"));
    both_ways(&Instruction::ALL, 0, Instruction::number, no_such("instruction"));
    both_ways(&Status::ALL, 1, Status::number, no_such("status"));
}

/// An edition's number has 32 bits, and none of them is left out.
#[test]
fn editions_both_ways() {
    assert_eq!(Edition::ALL, [Edition::Rust, Edition::Page]);
    assert_eq!((Edition::Rust.number(), Edition::Page.number()), (1, 2));
    for edition in Edition::ALL {
        assert_eq!(Edition::try_from(u32::from(edition.number())), Ok(edition));
    }
    for none in [0, 3, 255, 256, 257, 258, 65_537, 65_538, u32::MAX] {
        assert_eq!(Edition::try_from(none), Err(Refusal::Edition));
    }
}

#[test]
fn as_many_as_the_library_has() {
    assert_eq!((Unknown::ALL.len(), Dp::ALL.len(), Cc::ALL.len()), (4, 4, 2));
    assert_eq!((Colour::ALL.len(), Instruction::ALL.len(), Status::ALL.len()), (20, 18, 6));
}

#[test]
fn pointer_states() {
    let all = Dp::ALL.map(|dp| Cc::ALL.map(|cc| Pointers { dp, cc })).concat();
    both_ways(&all, 0, Pointers::state, no_such("pointer state"));
    assert_eq!(Pointers { dp: Dp::Left, cc: Cc::Right }.state(), 5);
}

/// A label begins with the colour's name, where what is neither dark nor light is `Reg`.
#[test]
fn colour_names() {
    for colour in Colour::ALL {
        let mut out = [0; LABEL];
        let length = label(colour, (0, 1), &mut out).unwrap();
        let regular = if (6..12).contains(&colour.number()) { "Reg" } else { "" };
        assert_eq!(String::from_utf8_lossy(&out[..length]), format!("{regular}{colour:?}_0_1"));
    }
}

#[test]
fn colour_bytes() {
    for colour in Colour::ALL {
        assert_eq!(classified(pixel(colour), Unknown::Refused), Ok(colour.number()));
    }
}

/// The page's table: hue steps forward, then lightness steps darker.
#[test]
fn instruction_names() {
    use Instruction::{
        Add, CharIn, CharOut, Div, Dup, Gt, IntIn, IntOut, Mod, Mul, Not, Pop, Ptr, Push, Roll, Sub, Swi,
    };
    let page = [
        [Instruction::None, Push, Pop],
        [Add, Sub, Mul],
        [Div, Mod, Not],
        [Gt, Ptr, Swi],
        [Dup, Roll, IntIn],
        [CharIn, IntOut, CharOut],
    ];
    let start = Pointers { dp: Dp::Right, cc: Cc::Left };
    for (from, to) in (0..18).flat_map(|from| (0..18).map(move |to| (from, to))) {
        let colours = [Colour::ALL[from], Colour::ALL[to]];
        let (regions, slices) = built(&colours, row_of(2));
        let exit = slices.table(regions).exit(0, start);
        let instruction = page[(6 + to % 6 - from % 6) % 6][(3 + from / 6 - to / 6) % 3];
        let expected = (from != to).then_some(instruction);
        assert_eq!(exit.map(|exit| exit.instruction), expected, "{colours:?}");
    }
}
