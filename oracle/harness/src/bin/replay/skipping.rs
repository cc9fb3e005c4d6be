//! Run questions about lines that IntIn skips: what is counted, and what is not (rules 10.8, 10.9).
use crate::jobs::{program, question, ROOM};
use harness::machine::Room;
use harness::paint::{drawn, ops, row_over_white};
use harness::question::Question;
use piet_core::instruction::Instruction::{CharIn, IntIn, IntOut, Ptr, Push};

/// A number, and then something to skip for each reason, the last of them by the end of the input.
const ONE_OF_EACH: &[u8] = b"7\n \nx\n99999999999999999999\n";

pub fn jobs() -> Vec<Question> {
    [counted(), for_each_reason(), stopped(), by_char_in(), round_and_round()].concat()
}

fn reading(count: usize, input: &[u8]) -> Question {
    program(&ops(&vec![IntIn; count]), 0, input)
}

/// Every reason, up to each step; two reasons that could be mistaken for each other; several of one.
fn counted() -> Vec<Question> {
    let inputs: [&[u8]; 9] = [
        b"9223372036854775808x\n9223372036854775808 \n9223372036854775808",
        b"-9223372036854775809x\n-9223372036854775809\r\n-9223372036854775808\r\n",
        b"123456789012345678901234567890 1\n123456789012345678901234567890\n",
        b"0000000000000000000000000000000005\n-0009223372036854775808\n-0009223372036854775809\n",
        b"+\n-\n- 5\n+-5\n",
        b" \r\n\n\xE3\x80\x80\n\r\n",
        b"  ",
        b"5\n",
        b"5\n ",
    ];
    let up_to = |limit: usize| Question { limit: limit as u64, ..reading(5, ONE_OF_EACH) };
    (0..=6).map(up_to).chain(inputs.map(|input| reading(4, input))).collect()
}

/// Each reason twice: at a full stack, where a number or a bad line then stops the run, in abstract mode, and before the
/// run has nowhere to go.
fn for_each_reason() -> Vec<Question> {
    let mut all = vec![];
    for line in ["", " \n", "x\n", "99999999999999999999\n"] {
        let twice = line.repeat(2);
        let in_room = |stack: usize, count: usize, input: String| {
            let room = Room { stack, ..ROOM };
            Question { room, ..reading(count, input.as_bytes()) }
        };
        all.push(in_room(0, 2, twice.clone()));
        all.push(in_room(0, 3, format!("{twice}7\n")));
        all.push(in_room(1, 3, format!("7\n{twice}")));
        all.push(in_room(1, 4, format!("7\n{twice}8\n")));
        let bad_at_last = [b"7\n" as &[u8], twice.as_bytes(), b"\xFF\n"].concat();
        all.push(Question { input: bad_at_last, ..in_room(1, 4, String::new()) });
        all.push(question(drawn(1, &["5c", "cc"]), 9, line.as_bytes()));
        let unread = Question { is_abstract: true, ..reading(2, twice.as_bytes()) };
        all.extend([1, 2].map(|limit| Question { limit, ..unread.clone() }));
    }
    all
}

/// Bad input, also where it is not read, and no room for an output: the counts are those of the steps taken.
fn stopped() -> Vec<Question> {
    let bad: [&[u8]; 4] = [
        b"99999999999999999999\xFF\n",
        b" \nx\n\xFF\n",
        b"x\n99999999999999999999\n \xFF",
        b" \xFF",
    ];
    let mut all: Vec<Question> = bad.map(|input| reading(4, input)).into();
    let no_outputs = Room { outputs: 0, ..ROOM };
    let writing = program(&ops(&[IntIn, IntIn, Push, IntOut]), 0, b"x\n");
    all.push(Question { room: no_outputs, ..writing });
    let unread = reading(2, b"\xFF\n");
    all.push(Question { is_abstract: true, limit: 5, ..unread });
    all
}

/// CharIn counts nothing, at the end of the input neither.
fn by_char_in() -> Vec<Question> {
    let readers = [[CharIn; 4], [CharIn, IntIn, CharIn, IntIn], [IntIn, CharIn, IntIn, CharIn]];
    let inputs: [&[u8]; 4] = [b"", b"a\n", b" \nx\n", b"x\n99999999999999999999\n \n"];
    inputs.iter().flat_map(|input| readers.map(|r| program(&ops(&r), 0, input))).collect()
}

/// Loops that read on after the end of the input.
fn round_and_round() -> Vec<Question> {
    let picture = row_over_white(&[(IntIn, 1), (IntIn, 1), (Push, 1), (Ptr, 1)]);
    [20, 100]
        .map(|limit| question(picture.clone(), limit, b" \nx\n\nx\n99999999999999999999\n"))
        .into()
}
