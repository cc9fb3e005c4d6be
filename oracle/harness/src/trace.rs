//! What the trace program and the shade program print for a job that is run (rule 18): a model of the words, over what the Rust
//! held after each step.
use crate::editions::Left;
use crate::job::Ran;
use crate::machine::{Answer, Output};
use crate::visits::Visits;

/// The most moves that have a line.
pub const MOST: usize = 1_000;
/// The most values that are shown of a stack.
const TOP: usize = 8;

/// By status, from 1 on.
const STOPS: [&str; 6] = [
    "Completed: no attempt is open",
    "MaxSteps: as many steps as the limit",
    "NeedsInput: abstract mode, after an input instruction",
    "StackFull: the stack's room is used up",
    "OutputFull: the outputs' room is used up",
    "BadInput: the line to be read is not UTF-8",
];

/// In the order of the reasons.
const SKIPS: [&str; 4] = [
    "IntIn found no input left",
    "IntIn skipped lines that are blank",
    "IntIn skipped lines that are no number",
    "IntIn skipped lines that are out of range",
];

/// A line a move, and the end.
pub fn trace(ran: &Ran) -> String {
    let lines = (1..ran.held.len()).map(|step| move_line(ran, step));
    lines.collect::<String>() + &end(ran)
}

fn move_line(ran: &Ran, step: usize) -> String {
    let [before, after] = [&ran.held[step - 1], &ran.held[step]];
    let (label, (_, instruction)) =
        (ran.judged.entered[step - 1].get_label(), ran.judged.moves[step - 1]);
    let name = instruction.map_or("none".into(), |i| format!("{i:?}"));
    let [from, to] = [before, after].map(|held| stack(&held.stack));
    let (pointers, out) = (pointers(after), out(&after.outputs[before.outputs.len()..]));
    format!("{step} {label} {name}: {from} -> {to}; {pointers}{out}\n")
}

fn stack(values: &[i64]) -> String {
    if values.is_empty() {
        return "empty".into();
    }
    let top: Vec<String> = values.iter().take(TOP).map(i64::to_string).collect();
    let more = match values.len().saturating_sub(TOP) {
        0 => String::new(),
        count => format!(" and {count} more"),
    };
    top.join(" ") + &more
}

fn pointers(held: &Answer) -> String {
    let dp = ["right", "down", "left", "up"][held.dp as usize];
    let cc = ["left", "right"][held.cc as usize];
    format!("dp {dp}, cc {cc}")
}

/// What a move wrote, which is one output at most.
fn out(written: &[Output]) -> String {
    match written {
        [] => String::new(),
        [output] => format!("; out {}", shown(output)),
        _ => panic!("a move has one instruction"),
    }
}

/// A character that could spoil the line is shown by its number.
fn shown(output: &Output) -> String {
    match output {
        Output::Char(0..=31 | 127..=159) => output.to_string(),
        Output::Char(_) => format!("'{}'", plain(output)),
        Output::Int(_) => plain(output),
    }
}

/// As it is written.
fn plain(output: &Output) -> String {
    match *output {
        Output::Char(c) => char::from_u32(c as u32).expect("the Rust writes characters").into(),
        Output::Int(i) => i.to_string(),
    }
}

fn end(ran: &Ran) -> String {
    let answer = &ran.judged.answer;
    let hidden = counted("moves not shown, for lack of room", answer.steps - shown_moves(ran));
    let stop = STOPS[answer.status as usize - 1];
    let Answer { steps, label, .. } = answer;
    let place = format!("at {label}; {}; stack {}", pointers(answer), stack(&answer.stack));
    let skips = SKIPS.iter().zip(ran.judged.skips).map(|(what, count)| counted(what, count));
    let (skips, output) = (skips.collect::<String>(), output(&answer.outputs));
    format!("{hidden}{stop}\nsteps {steps}, {place}\n{skips}{output}")
}

fn shown_moves(ran: &Ran) -> u64 {
    ran.held.len() as u64 - 1
}

/// A line, unless there is nothing to count.
fn counted(what: &str, count: u64) -> String {
    match count {
        0 => String::new(),
        _ => format!("{what}: {count}\n"),
    }
}

fn output(outputs: &[Output]) -> String {
    let text: String = outputs.iter().map(plain).collect();
    format!("output {} bytes:\n{text}", text.len())
}

/// How often the block of each codel was entered, a line a row. The largest limit is one to which nothing is counted.
pub fn counts(ran: &Ran) -> String {
    if ran.limit == u64::MAX {
        return "refused 16\n".into();
    }
    let entered = Left::by_rust(&ran.built, &ran.judged).entered;
    let counts = Visits::of(&entered, &ran.built.marks()).counts;
    let line = |row: &[u32]| {
        let words: Vec<String> = row.iter().map(|&r| counts[r as usize].to_string()).collect();
        words.join(" ") + "\n"
    };
    ran.built.map.chunks(ran.columns).map(line).collect()
}

#[cfg(test)]
mod tests {
    use super::*;
    use crate::editions::tests::{ran_by_chance, run_up_to};
    use crate::machine::Terms;
    use crate::paint::{drawn, ops, row};
    use crate::picture::{build, Picture};
    use piet_core::instruction::Instruction::{CharOut, IntIn};

    fn ran(picture: &Picture, limit: u64, input: &[u8]) -> Ran {
        let terms = Terms { limit, is_abstract: false, input };
        Ran::of(build(picture), picture.width as usize, &terms)
    }

    #[test]
    fn three_moves_of_two_blocks() {
        let ran = ran(&drawn(1, &["Rr"]), 3, b"");
        let lines = [
            "1 Entry Push: empty -> 1; dp right, cc left",
            "2 RegRed_0_1 Pop: 1 -> empty; dp left, cc left",
            "3 Entry Push: empty -> 1; dp right, cc left",
            "MaxSteps: as many steps as the limit",
            "steps 3, at RegRed_0_1; dp right, cc left; stack 1",
            "output 0 bytes:",
            "",
        ];
        assert_eq!(trace(&ran), lines.join("\n"));
        assert_eq!(counts(&ran), "2 2\n");
    }

    #[test]
    fn a_run_of_more_moves_than_have_a_line() {
        let ran = ran(&drawn(1, &["Rr"]), 1_003, b"");
        let text = trace(&ran);
        let lines: Vec<&str> = text.lines().collect();
        assert_eq!(lines[999], "1000 RegRed_0_1 Pop: 1 -> empty; dp left, cc left");
        assert_eq!(lines[1_000], "moves not shown, for lack of room: 3");
        assert_eq!(lines[1_001], "MaxSteps: as many steps as the limit");
        assert_eq!(counts(&ran), "502 502\n");
    }

    #[test]
    fn characters_that_are_written() {
        let picture = row(&ops(&[IntIn, CharOut]));
        for (number, out) in [("65", "'A'"), ("10", "c10"), ("159", "c159"), ("8364", "'\u{20AC}'")]
        {
            let text = trace(&ran(&picture, 2, format!("{number}\n").as_bytes()));
            let line = text.lines().nth(1).expect("two moves");
            assert!(
                line.ends_with(&format!("{number} -> empty; dp right, cc left; out {out}")),
                "{line}"
            );
        }
    }

    #[test]
    fn stacks_about_as_high_as_is_shown() {
        let numbers = |count: i64| (1..=count).collect::<Vec<i64>>();
        assert_eq!(stack(&[]), "empty");
        assert_eq!(stack(&numbers(8)), "1 2 3 4 5 6 7 8");
        assert_eq!(stack(&numbers(9)), "1 2 3 4 5 6 7 8 and 1 more");
    }

    #[test]
    fn the_largest_limit_is_not_counted_to() {
        assert_eq!(counts(&ran(&drawn(1, &["r"]), u64::MAX - 1, b"")), "1\n");
        assert_eq!(counts(&ran(&drawn(1, &["r"]), u64::MAX, b"")), "refused 16\n");
    }

    /// Where the Rust's own run stops at each limit, against what the walk showed.
    #[test]
    fn what_is_held_is_what_runs_of_each_limit_leave() {
        let held = |a: &Answer| (a.stack.clone(), a.dp, a.cc, a.outputs.clone());
        for (question, built, _) in ran_by_chance(500) {
            let ran = ran(&question.picture, question.limit, &question.input);
            let left =
                (0..=ran.judged.answer.steps).map(|n| held(&run_up_to(n, &question, &built)));
            assert_eq!(ran.held.iter().map(held).collect::<Vec<_>>(), left.collect::<Vec<_>>());
        }
    }
}
