//! harness FILE: answers the questions of a file, one a line. The language is in README.md.
mod fields;

use fields::Fields;
use harness::job::{job, Done, Ran};
use harness::lines::{first_char, number};
use harness::machine::{execute, run, run_in_room, Answer, Before, Judged, Room, Terms};
use harness::numbers::{classify, decode, order};
use harness::outside::caught;
use harness::picture::{build, get, label, Picture};
use std::fmt::Display;
use std::io::{stdout, BufWriter, Write};
use std::process::ExitCode;
use std::str::from_utf8;

fn main() -> ExitCode {
    let arguments: Vec<String> = std::env::args().skip(1).collect();
    let [file] = &arguments[..] else {
        eprintln!("usage: harness FILE");
        return ExitCode::from(2);
    };
    match std::fs::read_to_string(file).and_then(|questions| answer_all(&questions)) {
        Ok(true) => ExitCode::SUCCESS,
        Ok(false) => ExitCode::FAILURE,
        Err(e) => {
            eprintln!("harness: {file}: {e}");
            ExitCode::from(2)
        }
    }
}

/// True where every question was understood.
fn answer_all(questions: &str) -> std::io::Result<bool> {
    // The Rust flushes standard output at every step, so the answers wait in a buffer of their own.
    let mut out = BufWriter::new(stdout().lock());
    let mut all_good = true;
    for (i, line) in questions.lines().enumerate() {
        if line.trim().is_empty() || line.starts_with('#') {
            continue;
        }
        // A panic of the Rust is an answer and caught where it is asked; one that comes here is ours.
        let answer = caught(|| ask(line)).unwrap_or_else(|panic| Err(format!("harness: {panic}")));
        match answer {
            Ok(answer) => writeln!(out, "{}\n--", answer.trim_end())?,
            Err(why) => {
                all_good = false;
                writeln!(out, "error line {}: {why}\n--", i + 1)?
            }
        }
    }
    out.flush().map(|()| all_good)
}

fn ask(line: &str) -> Result<String, String> {
    let mut f = Fields::of(line);
    let answer = match f.word("question")? {
        "classify" => ask_classify(&mut f),
        "decode" => Ok(decode(f.colour()?, f.colour()?).to_string()),
        "order" => Ok(spaced(order(f.number("state", 0..=7)?))),
        "get" => ask_get(&mut f),
        "label" => Ok(label(f.colour()?, f.position(1_023)?)),
        "build" => ask_build(&mut f),
        "run" => ask_run(&mut f),
        "room" => ask_room(&mut f),
        "exec" => ask_exec(&mut f),
        "line" => Ok(ask_line(&f.hex("line")?)),
        "job" => Ok(ask_job(&f.hex("job")?)),
        other => Err(format!("unknown question {other}")),
    }?;
    f.end().map(|()| answer)
}

fn ask_classify(f: &mut Fields) -> Result<String, String> {
    let setting = f.number("setting", 0..=3)?;
    let pixels = f.hex("pixels")?;
    if pixels.len() % 3 != 0 {
        return Err("pixels: a pixel has three bytes".into());
    }
    let number = |p: &[u8]| classify([p[0], p[1], p[2]], setting);
    let word = |p: &[u8]| number(p).map_or("x".into(), |n| n.to_string());
    Ok(spaced(pixels.chunks(3).map(word)))
}

fn ask_get(f: &mut Fields) -> Result<String, String> {
    let (height, width) = f.sides()?;
    let picture = Picture { height, width, codel: 1, colours: f.colours(height * width)? };
    Ok(get(&picture, f.position(u32::MAX)?).map_or("outside".into(), |n| n.to_string()))
}

fn ask_build(f: &mut Fields) -> Result<String, String> {
    let built = build(&f.picture()?);
    Ok(if built.refused_white() { refused(9) } else { built.to_string() })
}

fn ask_run(f: &mut Fields) -> Result<String, String> {
    let built = build(&f.picture()?);
    let (limit, is_abstract, input) = (f.number("limit", 0..=u64::MAX)?, f.mode()?, f.input()?);
    let ran = run(&built.cfg, &Terms { limit, is_abstract, input: &input });
    Ok(ran.map_or_else(panicked, |a| with_used(&a)))
}

fn ask_room(f: &mut Fields) -> Result<String, String> {
    let room = Room {
        stack: f.number("stack", 0..=usize::MAX)?,
        outputs: f.number("outputs", 0..=usize::MAX)?,
    };
    let built = build(&f.picture()?);
    let (limit, is_abstract, input) = (f.number("limit", 0..=u64::MAX)?, f.mode()?, f.input()?);
    if built.refused_white() {
        return Ok(refused(9));
    }
    let judged = run_in_room(&built.cfg, &Terms { limit, is_abstract, input: &input }, &room);
    Ok(with_used(&judged.answer) + &judged.panic.map_or(String::new(), panicked))
}

fn ask_exec(f: &mut Fields) -> Result<String, String> {
    let instruction = f.number("instruction", 1..=17)?;
    let size = f.number("size", 0..=u64::MAX)?;
    let state = f.number("state", 0..=7)?;
    let (is_abstract, input, stack) = (f.mode()?, f.input()?, f.stack()?);
    let before = Before { size, state, stack: &stack, input: &input, is_abstract };
    Ok(execute(instruction, &before).map_or_else(panicked, |a| with_used(&a)))
}

fn ask_line(line: &[u8]) -> String {
    let Ok(text) = from_utf8(line) else {
        return "utf8 0".into();
    };
    let or_none = |value: Option<i64>| value.map_or("none".into(), |v| v.to_string());
    let (first, number) = (or_none(first_char(text)), or_none(number(text)));
    format!("utf8 1\nchar {first}\ntrim {}\nint {number}", hex_of(text.trim().as_bytes()))
}

fn ask_job(bytes: &[u8]) -> String {
    match job(bytes) {
        None => "none".into(),
        Some(Done::Refused(n)) => refused(n),
        Some(Done::Ran(Ran { judged: Judged { answer, panic, .. }, .. })) => {
            answer.to_string() + &panic.map_or(String::new(), panicked)
        }
    }
}

fn refused(number: u32) -> String {
    format!("refused {number}")
}

fn panicked(text: String) -> String {
    format!("panic {text}")
}

fn with_used(answer: &Answer) -> String {
    format!("{answer}used {}\n", answer.used)
}

fn spaced<T: Display>(words: impl IntoIterator<Item = T>) -> String {
    let words: Vec<String> = words.into_iter().map(|w| w.to_string()).collect();
    words.join(" ")
}

fn hex_of(bytes: &[u8]) -> String {
    match bytes {
        [] => "-".into(),
        _ => bytes.iter().map(|b| format!("{b:02x}")).collect(),
    }
}
