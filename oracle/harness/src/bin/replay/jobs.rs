//! The run questions of the first edition that are replayed. Those that the Rust does not answer are left out, but for one deep Roll, which it
//! answers by the residue.
use crate::skipping;
use harness::machine::Room;
use harness::paint::{drawn, ops, row, row_over_white, Op};
use harness::picture::Picture;
use harness::question::Question;
use harness::random::Random;
use piet_core::instruction::Instruction::{self, *};

const SEED: u64 = 2;
const BY_CHANCE: usize = 250;
const LONGEST: u32 = 7;

pub const INSTRUCTIONS: [Instruction; 17] = [
    Push, Pop, Add, Sub, Mul, Div, Mod, Not, Gt, Ptr, Swi, Dup, Roll, CharIn, CharOut, IntIn,
    IntOut,
];

pub const ROOM: Room = Room { stack: 16, outputs: 8 };

pub fn jobs() -> Vec<Question> {
    [for_the_run_program(), skipping::jobs(), deep_rolls()].concat()
}

/// All but those that are there for the counts of skipped lines, which the run program does not print, and the deep Rolls.
pub fn for_the_run_program() -> Vec<Question> {
    let mut all = document();
    all.extend(depths());
    all.extend(two_values());
    all.extend(one_value());
    all.extend(rolls());
    all.extend(rooms());
    all.extend(lines());
    all.extend(needs_input());
    all.extend(loops());
    let mut random = Random::seeded(SEED);
    all.extend((0..BY_CHANCE).map(|_| by_chance(&mut random)));
    all.retain(|q| q.asked().is_some_and(|(_, judged)| judged.panic.is_none()));
    all
}

pub fn question(picture: Picture, limit: usize, input: &[u8]) -> Question {
    let (limit, input) = (limit as u64, input.to_vec());
    Question { picture, limit, is_abstract: false, room: ROOM, input }
}

/// The program to its end, and so many steps more.
pub fn program(program: &[Op], more: usize, input: &[u8]) -> Question {
    question(row(program), program.len() + more, input)
}

/// The runs that the rules name, and around their limits.
fn document() -> Vec<Question> {
    let pictures: [&[&str]; 8] =
        [&["Rr"], &["r."], &["r.r"], &["r..", "#.."], &["#r"], &["r"], &["#"], &["r#", ".r"]];
    let drawings = pictures.map(|lines| drawn(1, lines));
    drawings.iter().flat_map(|p| [0, 1, 3].map(|limit| question(p.clone(), limit, b""))).collect()
}

/// Each instruction over 0 to 3 values.
pub fn depths() -> Vec<Question> {
    let values = [(Push, 4), (Push, 2), (Push, 3)];
    let over = |depth: usize| {
        INSTRUCTIONS.map(|i| program(&[&values[3 - depth..], &[(i, 5)]].concat(), 0, b"65\n"))
    };
    (0..=3).flat_map(over).collect()
}

/// Numbers that are read and then met by these instructions.
pub fn on_numbers(numbers: &[i64], then: &[Instruction], more: usize) -> Question {
    let input: String = numbers.iter().map(|n| format!("{n}\n")).collect();
    let read = vec![IntIn; numbers.len()];
    program(&ops(&[&read, then].concat()), more, input.as_bytes())
}

fn two_values() -> Vec<Question> {
    const CORNERS: [i64; 8] = [i64::MIN, -7, -2, -1, 0, 1, 3, i64::MAX];
    let mut all = vec![on_numbers(&[7, -3], &[Mod], 0), on_numbers(&[-7, 2], &[Div], 0)];
    for instruction in [Add, Sub, Mul, Div, Mod, Gt] {
        for b in CORNERS {
            all.extend(CORNERS.map(|a| on_numbers(&[b, a], &[instruction], 0)));
        }
    }
    all
}

pub fn one_value() -> Vec<Question> {
    const TURNS: [i64; 11] = [i64::MIN, i64::MIN + 1, -5, -2, -1, 0, 1, 2, 3, 6, i64::MAX];
    const CHARACTERS: [i64; 14] = [
        -1,
        0,
        65,
        0xD7FF,
        0xD800,
        0xDFFF,
        0xE000,
        0x10_FFFF,
        0x11_0000,
        1 << 32,
        (1 << 32) + 65,
        (1 << 32) + 0xD800,
        i64::MIN,
        i64::MAX,
    ];
    let turned = |i: Instruction| TURNS.map(|n| on_numbers(&[n], &[i], 3));
    let mut all: Vec<Question> = [Ptr, Swi, Not, Dup].into_iter().flat_map(turned).collect();
    all.extend(CHARACTERS.map(|n| on_numbers(&[n], &[CharOut], 0)));
    all.extend(CHARACTERS.map(|n| on_numbers(&[n], &[IntOut], 0)));
    all
}

/// Roll with the top and the depth last; some of them panic and are left out.
fn rolls() -> Vec<Question> {
    let far = [i64::MIN, i64::MIN + 1, -8, -3, -2, -1, 0, 1, 2, 5, 7, i64::MAX];
    let depths = [i64::MIN, -1, 1, 2, 3, 4, 5, i64::MAX];
    let rolled = |n: i64, a: i64| on_numbers(&[4, 5, 6, 7, n, a], &[Roll], 0);
    let mut all: Vec<Question> = depths.iter().flat_map(|&n| far.map(|a| rolled(n, a))).collect();
    all.push(on_numbers(&[5, 6, 2, 1], &[Roll], 0));
    all.push(on_numbers(&[4, 5, 6, 3, -1], &[Roll], 0));
    all.push(on_numbers(&[1, 1], &[Roll], 0));
    all
}

/// Roll of 200 values, all different, by counts about none and all of them, and at the ends of the range. The Rust panics on
/// -2^63; `answers` asks it by the residue.
fn deep_rolls() -> Vec<Question> {
    const DEPTH: i64 = 200;
    let counts = [1, DEPTH - 1, DEPTH, -1, i64::MIN, i64::MAX];
    let rolled = |a: i64| {
        let numbers: Vec<i64> = (1..=DEPTH).chain([DEPTH, a]).collect();
        let room = Room { stack: numbers.len(), ..ROOM };
        Question { room, ..on_numbers(&numbers, &[Roll], 0) }
    };
    counts.map(rolled).into()
}

/// Runs that just fit and just do not.
fn rooms() -> Vec<Question> {
    let programs: [(&[Instruction], &[u8]); 12] = [
        (&[Push, Push, Push], b""),
        (&[Push, Dup, Add, Dup], b""),
        (&[Push, Pop, Push, Pop], b""),
        (&[Push, Push, IntOut, CharOut, Push, IntOut], b""),
        (&[IntIn, CharOut, IntIn, CharOut], b"55296\n65\n"),
        (&[Dup, IntOut, CharOut, Pop, Push], b""),
        (&[IntIn, IntIn], b"5\n6\n"),
        (&[IntIn, IntIn], b"x\n6\n"),
        (&[IntIn, IntIn], b"5\n6\xFF\n"),
        (&[CharIn, CharIn, CharIn], b"a\n\xFF\n"),
        (&[CharIn, CharIn, CharIn], b"a\n"),
        (&[Push, IntOut, IntIn, IntOut], b"3\n\xFF"),
    ];
    let mut all = vec![];
    for (instructions, input) in programs {
        for (stack, outputs) in [(0, 0), (1, 0), (1, 1), (2, 1), (3, 0), (3, 3)] {
            let question = program(&ops(instructions), 2, input);
            all.push(Question { room: Room { stack, outputs }, ..question });
        }
    }
    all
}

/// Odd inputs, read three times.
fn lines() -> Vec<Question> {
    const INPUTS: [&str; 40] = [
        "",
        "\n",
        "\n\n",
        "\r\n",
        "\r\r\n5\n",
        " \n",
        " \t\r\n7\n",
        "5",
        "5\r",
        "5\r\n6",
        "x",
        "x\r\ny",
        "+5\n-0\n+\n",
        "-\n--5\n+-5\n",
        "00\n-007\n5x\n",
        "4 2\n5.0\n1e3\n",
        "1_000\n0x10\n5\0\n",
        "9223372036854775807\n9223372036854775808\n9223372036854775806\n",
        "-9223372036854775808\n-9223372036854775809\n-9223372036854775807\n",
        "+9223372036854775807\n+9223372036854775808\n18446744073709551616\n",
        "00000000000000000000000000000009223372036854775807\n99999999999999999999\n",
        "\u{A0}7\n7\u{A0}\n4\u{A0}2\n",
        "\u{85}7\n7\u{85}\n\u{85}\n",
        "\u{3000}7\u{3000}\n\u{3000}\n",
        "\u{1680}7\n\u{2000}7\n\u{200A}7\n",
        "\u{2028}7\n\u{2029}7\n\u{202F}7\n",
        "\u{205F}7\n\u{B}7\n\u{C}7\n",
        "\u{200B}7\n\u{FEFF}7\n\u{1C}7\n",
        "\u{180E}7\n7\u{200D}\n\u{1FFF}7\n",
        "\u{2212}5\n\u{FF15}\n\u{665}\n",
        "\u{E9}\n\u{20AC}\n\u{1F600}\n",
        "\u{7F}\n\u{80}\n\u{7FF}\n",
        "\u{800}\n\u{D7FF}\n\u{E000}\n",
        "\u{FFFF}\n\u{10000}\n\u{10FFFF}\n",
        "\0\n\0\0\n\0",
        "\t-8\t\n\u{2003}\u{2003}-8\n8\u{2003}",
        "5\n",
        "5\n6\n7\n8\n",
        "a\u{301}\n",
        "\u{FEFF}a\n",
    ];
    const BAD: [&[u8]; 18] = [
        b"\xFF", b"\xFF\n", b"5\xFF\n", b"5 \xFF", b"5\n\xFF", b"x\n\xFF\n7\n", b"\n\n\xFF",
        b"\xC3\n\xA9\n", b"\xC3", b"5\n\xE2\x82", b"5\n6\n\xF0\x9F\x98\n", b"\xC0\x80\n",
        b"\xE0\x9F\xBF\n", b"\xED\xA0\x80\n", b"\xF0\x8F\xBF\xBF\n", b"\xF4\x90\x80\x80\n",
        b"\xF5\x80\x80\x80\n", b"7\n\x80\n",
    ];
    let inputs = INPUTS.map(str::as_bytes).into_iter().chain(BAD);
    let readers = [[IntIn; 3], [CharIn; 3], [CharIn, IntIn, CharIn]];
    inputs.flat_map(|i| readers.map(|r| program(&ops(&r), 0, i))).collect()
}

/// Abstract mode, with the limit before, at and after the input instruction.
pub fn needs_input() -> Vec<Question> {
    let programs = [vec![IntIn], vec![CharIn, Push], vec![Push, IntIn, Push], vec![Push, Dup, Add]];
    let in_abstract = |p: &Vec<Instruction>, limit: usize| Question {
        is_abstract: true,
        ..question(row(&ops(p)), limit, b"5\n\xFF\n")
    };
    programs.iter().flat_map(|p| (0..5).map(move |limit| in_abstract(p, limit))).collect()
}

/// Runs that turn their own pointers and come back through white.
pub fn loops() -> Vec<Question> {
    let counting = vec![(Push, 1), (Add, 1), (Dup, 1), (IntOut, 1), (Push, 1), (Ptr, 1)];
    let switching = vec![(Push, 3), (Swi, 1), (Push, 2), (Push, 1), (Ptr, 1)];
    let back = vec![(Push, 3), (Ptr, 1), (Push, 2), (Not, 1)];
    let around = vec![(Push, 5), (Push, 2), (Gt, 2), (Swi, 1), (Push, 1), (Ptr, 1)];
    let reading = vec![(IntIn, 1), (Ptr, 2), (IntIn, 1), (Swi, 2), (Push, 1), (Ptr, 1)];
    let mut all = vec![];
    for program in [counting, switching, back, around, reading] {
        for limit in [7, 20, 60] {
            for picture in [row(&program), row_over_white(&program)] {
                all.push(question(picture, limit, b"-1\n2\n3\n-3\n1\n0\n"));
            }
        }
    }
    all
}

fn by_chance(random: &mut Random) -> Question {
    Question {
        picture: picture_by_chance(random),
        limit: random.below(61) as u64,
        is_abstract: random.one_in(8),
        room: Room { stack: random.below(12) as usize, outputs: random.below(6) as usize },
        input: random.input(),
    }
}

fn picture_by_chance(random: &mut Random) -> Picture {
    match random.below(4) {
        0 => row_over_white(&random.program()),
        _ => random.picture(LONGEST),
    }
}
