//! The run: as the Rust has it, in lent room, and one instruction alone.
use crate::numbers::instruction;
use crate::outside::{caught, with_input};
use crate::skips::{reason, Skips};
use interpreter::interpreter::Interpreter;
use piet_core::cfg::{Node, CFG};
use piet_core::flow::{PointerState, DIRECTIONS};
use piet_core::instruction::{Instruction, StdOutWrapper};
use piet_core::settings::{InterpreterSettings, Verbosity};
use piet_core::state::{ExecutionState, ExecutionStatus};
use std::fmt::{Display, Formatter};

pub struct Terms<'a> {
    pub limit: u64,
    pub is_abstract: bool,
    pub input: &'a [u8],
}

#[derive(Clone, Copy, Debug)]
pub struct Room {
    pub stack: usize,
    pub outputs: usize,
}

/// The result of a run; displayed as the run program prints it.
#[derive(Clone, Debug, PartialEq, Eq)]
pub struct Answer {
    /// 0 stands for running, which only a single instruction leaves behind
    pub status: u32,
    pub steps: u64,
    pub label: String,
    pub dp: u32,
    pub cc: u32,
    /// top first
    pub stack: Vec<i64>,
    pub outputs: Vec<Output>,
    /// bytes of input
    pub used: usize,
}

#[derive(Clone, Copy, Debug, PartialEq, Eq)]
pub enum Output {
    Char(i64),
    Int(i64),
}

const STACK_FULL: u32 = 4;
const OUTPUT_FULL: u32 = 5;
const BAD_INPUT: u32 = 6;

/// What `expect` says in both input instructions where a line is not UTF-8.
pub const BAD_LINE: &str = "Failed to read input";

impl Answer {
    pub fn of(s: ExecutionState, used: usize) -> Self {
        Answer {
            status: match s.status {
                ExecutionStatus::Running => 0,
                ExecutionStatus::Completed => 1,
                ExecutionStatus::MaxSteps => 2,
                ExecutionStatus::NeedsInput => 3,
            },
            steps: s.steps,
            label: s.cb_label,
            dp: s.pointers.dp as u32,
            cc: s.pointers.cc as u32,
            stack: s.stack.into(),
            outputs: s.stdout.iter().map(Output::of).collect(),
            used,
        }
    }
}

impl Output {
    fn of(given: &StdOutWrapper) -> Self {
        match *given {
            StdOutWrapper::Char(c) => Output::Char(c as i64),
            StdOutWrapper::Int(i) => Output::Int(i),
        }
    }
}

impl Display for Answer {
    fn fmt(&self, f: &mut Formatter) -> std::fmt::Result {
        writeln!(f, "status {}\nsteps {}", self.status, self.steps)?;
        writeln!(f, "at {} {} {}", self.label, self.dp, self.cc)?;
        writeln!(f, "stack {}", counted(&self.stack))?;
        writeln!(f, "out {}", counted(&self.outputs))
    }
}

impl Display for Output {
    fn fmt(&self, f: &mut Formatter) -> std::fmt::Result {
        match self {
            Output::Char(c) => write!(f, "c{c}"),
            Output::Int(i) => write!(f, "i{i}"),
        }
    }
}

fn counted<T: Display>(values: &[T]) -> String {
    let each = values.iter().map(|v| format!(" {v}"));
    format!("{}{}", values.len(), each.collect::<String>())
}

/// The Rust's machine before its first step.
pub fn interpreter<'a>(cfg: &'a CFG, terms: &Terms) -> Interpreter<'a> {
    let settings = InterpreterSettings {
        verbosity: Verbosity::Low,
        max_steps: Some(terms.limit),
        abstract_interp: terms.is_abstract,
        print: false,
        ..InterpreterSettings::default()
    };
    Interpreter::new(cfg, settings)
}

/// `Interpreter::get_entry`, or its panic.
pub fn entry(cfg: &CFG) -> Result<Node, String> {
    let terms = Terms { limit: 0, is_abstract: false, input: b"" };
    caught(|| interpreter(cfg, &terms).get_entry())
}

/// `Interpreter::run` as it stands, or its panic.
pub fn run(cfg: &CFG, terms: &Terms) -> Result<Answer, String> {
    let (state, used) = with_input(terms.input, || interpreter(cfg, terms).run());
    state.map(|s| Answer::of(s, used))
}

/// A run in lent room. With a panic's text, the Rust panics in the next step where the rules choose,
/// and the answer is as before that step.
pub struct Judged {
    pub answer: Answer,
    /// by the steps taken
    pub skips: Skips,
    /// the blocks that were entered, in their order: where the run starts, and where each step taken leads
    pub entered: Vec<Node>,
    pub moves: Vec<Move>,
    pub panic: Option<String>,
}

/// Of a step taken: the pointers that `next_block` leaves, before the instruction turns them, and that instruction.
pub type Move = (PointerState, Option<Instruction>);

impl Judged {
    /// What the Rust answers where the walk led, which it has to have reached by the same steps.
    fn of(answer: Answer, walk: Walk, panic: Option<String>) -> Self {
        let Walk { read: Read { place, skips }, entered, moves, .. } = walk;
        let last = entered.last().expect("the entry at least").get_label();
        assert_eq!((answer.used, &answer.label), (place, last));
        assert_eq!(answer.steps + 1, entered.len() as u64);
        Judged { answer, skips, entered, moves, panic }
    }

    /// The numbers of the result (rule 8.5), with that of the region it names.
    pub fn numbers(&self, region: usize) -> [u64; 12] {
        let a = &self.answer;
        let [status, dp, cc] = [a.status, a.dp, a.cc].map(u64::from);
        let [region, depth, outputs, used] =
            [region, a.stack.len(), a.outputs.len(), a.used].map(|n| n as u64);
        let [ended, blank, not_number, out_of_range] = self.skips;
        [
            status, a.steps, region, dp, cc, depth, outputs, used, ended, blank, not_number,
            out_of_range,
        ]
    }
}

/// The Rust has no room to run out of. So a walk finds the first step that passes the room or
/// panics, and `run` itself is asked for the states on both sides of it. Needs an entry.
pub fn run_in_room(cfg: &CFG, terms: &Terms, room: &Room) -> Judged {
    run_watched(cfg, terms, room, |_| ())
}

/// The same, with what the walk holds shown before its first step and after each that is taken.
pub fn run_watched(
    cfg: &CFG,
    terms: &Terms,
    room: &Room,
    watch: impl FnMut(&ExecutionState),
) -> Judged {
    let walk = walk(cfg, terms, room, watch);
    if walk.stop == Ok(0) {
        let answer = run(cfg, terms).expect("the walk met no panic");
        return Judged::of(answer, walk, None);
    }
    let upto = |limit| run(cfg, &Terms { limit, ..*terms });
    let mut answer = upto(walk.steps()).expect("the walk met no panic so far");
    assert_eq!(answer.status, 2);
    confirm(&walk.stop, &answer, upto(walk.steps() + 1), room);
    let (status, panic) = match &walk.stop {
        Ok(status) => (*status, None),
        Err(text) if text.starts_with(BAD_LINE) => (BAD_INPUT, None),
        Err(text) => (answer.status, Some(text.clone())),
    };
    answer.status = status;
    Judged::of(answer, walk, panic)
}

/// The steps before the first one that passes the room or panics.
struct Walk {
    entered: Vec<Node>,
    moves: Vec<Move>,
    read: Read,
    /// which it is; 0 where the run ends without one
    stop: Result<u32, String>,
}

/// The place in the input, and the lines that were skipped.
#[derive(Clone, Copy, Default)]
struct Read {
    place: usize,
    skips: Skips,
}

impl Walk {
    fn steps(&self) -> u64 {
        steps_to(&self.entered)
    }
}

/// The first block is entered without a step.
fn steps_to(entered: &[Node]) -> u64 {
    entered.len() as u64 - 1
}

fn walk(cfg: &CFG, terms: &Terms, room: &Room, mut watch: impl FnMut(&ExecutionState)) -> Walk {
    let (mut entered, mut moves, mut read) = (vec![], vec![], Read::default());
    let (stop, _) = with_input(terms.input, || {
        let mut machine = interpreter(cfg, terms);
        let mut block = machine.get_entry();
        entered.push(block.clone());
        watch(machine.open_state());
        while steps_to(&entered) != terms.limit
            && machine.is_complete() != ExecutionStatus::NeedsInput
        {
            machine.open_state().cb_count = block.get_region_size();
            let (Some(next), instruction) = machine.next_block(block) else {
                break;
            };
            block = next;
            let pointers = machine.open_state().pointers;
            let after = step(&mut machine, instruction, terms, read);
            if machine.open_state().stack.len() > room.stack {
                return STACK_FULL;
            }
            if machine.open_state().stdout.len() > room.outputs {
                return OUTPUT_FULL;
            }
            entered.push(block.clone());
            moves.push((pointers, instruction));
            watch(machine.open_state());
            read = after;
        }
        0
    });
    Walk { entered, moves, read, stop }
}

/// What a step more reads and skips; it is taken only where the room holds what it leaves.
fn step(
    machine: &mut Interpreter,
    instruction: Option<Instruction>,
    terms: &Terms,
    before: Read,
) -> Read {
    let mut after = before;
    let Some(instruction) = instruction else {
        return after;
    };
    let depth = machine.open_state().stack.len();
    let _skipped = machine.exec_instr(instruction);
    let state = machine.open_state();
    if matches!(instruction, Instruction::CharIn | Instruction::IntIn) {
        after.place += state.stdin.len();
    }
    if instruction == Instruction::IntIn && !terms.is_abstract {
        let why = reason(terms.input, before.place);
        assert_eq!(why.is_none(), state.stack.len() > depth, "there is a reason where IntIn skips");
        if let Some(why) = why {
            after.skips[why as usize] += 1;
        }
    }
    after
}

fn confirm(
    stop: &Result<u32, String>,
    before: &Answer,
    after: Result<Answer, String>,
    room: &Room,
) {
    assert!(before.stack.len() <= room.stack && before.outputs.len() <= room.outputs);
    match (stop, after) {
        (Ok(STACK_FULL), Ok(after)) => assert!(after.stack.len() > room.stack),
        (Ok(OUTPUT_FULL), Ok(after)) => assert!(after.outputs.len() > room.outputs),
        (Err(walked), Err(ran)) => assert_eq!(*walked, ran),
        _ => panic!("walk and run differ"),
    }
}

/// What stands before one instruction; the stack has its top first.
pub struct Before<'a> {
    pub size: u64,
    pub state: u8,
    pub stack: &'a [i64],
    pub input: &'a [u8],
    pub is_abstract: bool,
}

/// `exec_instr` alone, or its panic.
pub fn execute(number: u8, before: &Before) -> Result<Answer, String> {
    let cfg = CFG::new();
    let terms = Terms { limit: 1, is_abstract: before.is_abstract, input: before.input };
    let (state, used) = with_input(before.input, || {
        let mut machine = interpreter(&cfg, &terms);
        let state = machine.open_state();
        state.stack = before.stack.iter().copied().collect();
        state.pointers = DIRECTIONS[before.state as usize];
        state.cb_count = before.size;
        let _skipped = machine.exec_instr(instruction(number));
        machine.get_state()
    });
    state.map(|s| Answer::of(s, used))
}
