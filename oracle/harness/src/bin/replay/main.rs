//! Writes what the test programs that replay the Rust's answers, and the model's, have to print.
mod answers;
mod jobs;
mod long_slides;
mod page_jobs;
mod page_pictures;
mod pictures;
mod programs;
mod questions;
mod records;
mod skipping;
mod traces;
mod walks;

use harness::editions::{Editions, PAGE, RUST};
use harness::lines::{char_in, int_in};
use harness::numbers::{classify, decode, palette};
use records::{read_all, Asked, Job, Reader};
use std::io::{stdout, Write};
use std::process::ExitCode;

const USAGE: &str = "usage: replay pixels | replay colours | replay questions | replay lines FILE
     | replay pictures | replay tables FILE | replay jobs | replay runs FILE
     | replay programs | replay printed FILE
     | replay walks JOBS | replay traced FILE | replay chances SEED COUNT | replay compared FILE FOUND";

fn main() -> ExitCode {
    let arguments: Vec<String> = std::env::args().skip(1).collect();
    let words: Vec<&str> = arguments.iter().map(String::as_str).collect();
    let written = match words[..] {
        ["pixels"] => Ok(pixels().as_flattened().to_vec()),
        ["colours"] => Ok(colours().into_bytes()),
        ["questions"] => Ok(questions::records()),
        ["lines", file] => lines(file).map(String::into_bytes),
        ["pictures"] => Ok(tables_asked().iter().flat_map(Asked::record).collect()),
        ["tables", file] => tables(file).map(String::into_bytes),
        ["jobs"] => Ok(runs_asked().iter().flat_map(Job::record).collect()),
        ["runs", file] => runs(file).map(String::into_bytes),
        ["programs"] => Ok(programs::records()),
        ["printed", file] => printed(file).map(String::into_bytes),
        ["walks", ref files @ ..] => walks(files),
        ["traced", file] => traced(file).map(String::into_bytes),
        ["chances", seed, count] => chances(seed, count),
        ["compared", file, found] => compared(file, found).map(String::into_bytes),
        _ => Err(USAGE.into()),
    };
    match written.and_then(|bytes| stdout().write_all(&bytes).map_err(|e| e.to_string())) {
        Ok(()) => ExitCode::SUCCESS,
        Err(why) => {
            eprintln!("replay: {why}");
            ExitCode::from(2)
        }
    }
}

/// The pixels that are classified: each colour and its neighbours.
fn pixels() -> Vec<[u8; 3]> {
    palette().into_iter().flat_map(variations).collect()
}

fn colours() -> String {
    let decoded = (0..20).map(decoded_from);
    decoded.chain(pixels().into_iter().map(classified)).collect()
}

/// The line of instructions from one colour to each.
fn decoded_from(from: u8) -> String {
    let row: Vec<String> = (0..20).map(|to| decode(from, to).to_string()).collect();
    row.join(" ") + "\n"
}

/// A pixel, and its six neighbours that differ by one in one byte.
fn variations(pixel: [u8; 3]) -> Vec<[u8; 3]> {
    let mut all = vec![pixel];
    for channel in 0..3 {
        for change in [1, u8::MAX] {
            let mut other = pixel;
            other[channel] = pixel[channel].wrapping_add(change);
            all.push(other);
        }
    }
    all
}

/// The line of a pixel's colour numbers under settings 1, 2 and 3.
fn classified(pixel: [u8; 3]) -> String {
    let word = |setting| classify(pixel, setting).map_or("x".into(), |n| n.to_string());
    let words: Vec<String> = (1..=3).map(word).collect();
    words.join(" ") + "\n"
}

fn lines(file: &str) -> Result<String, String> {
    Ok(questions::read(&contents(file)?)?.into_iter().map(line).collect())
}

/// The tables of the first edition, after them those of the second, and those with long slides in both.
fn tables_asked() -> Vec<Asked> {
    let by = |edition: u32| move |picture| Asked { edition, picture };
    let (rust, page) = (pictures::pictures().into_iter(), page_pictures::pictures().into_iter());
    rust.map(by(RUST)).chain(page.map(by(PAGE))).chain(long_slides::tables()).collect()
}

fn tables(file: &str) -> Result<String, String> {
    Ok(read_all(&contents(file)?, Reader::asked)?.iter().map(answers::table).collect())
}

/// The runs of the first edition, after them those of the second and of both, and those with long slides.
fn runs_asked() -> Vec<Job> {
    let editions = Editions { build: RUST, run: RUST };
    let rust = jobs::jobs().into_iter().map(|question| Job { editions, question });
    rust.chain(page_jobs::jobs()).chain(long_slides::jobs()).collect()
}

fn runs(file: &str) -> Result<String, String> {
    read_all(&contents(file)?, Reader::job)?.iter().map(answers::run).collect()
}

fn printed(file: &str) -> Result<String, String> {
    programs::read(&contents(file)?)?.into_iter().map(programs::printed).collect()
}

/// The jobs of these files, and after them those that are chosen.
fn walks(files: &[&str]) -> Result<Vec<u8>, String> {
    let mut jobs = files.iter().map(|file| contents(file)).collect::<Result<Vec<_>, String>>()?;
    jobs.extend(walks::chosen());
    Ok(programs::listed(&jobs))
}

fn traced(file: &str) -> Result<String, String> {
    programs::read(&contents(file)?)?.into_iter().map(traces::traced).collect()
}

fn chances(seed: &str, count: &str) -> Result<Vec<u8>, String> {
    let number = |word: &str| word.parse::<u64>().map_err(|e| format!("{word}: {e}"));
    Ok(programs::listed(&walks::by_chance(number(seed)?, number(count)? as usize)))
}

fn compared(file: &str, found: &str) -> Result<String, String> {
    traces::compared(&programs::read(&contents(file)?)?, &contents(found)?)
}

fn contents(file: &str) -> Result<Vec<u8>, String> {
    std::fs::read(file).map_err(|e| format!("{file}: {e}"))
}

/// What CharIn and IntIn do with one input, each with the bytes it consumes.
fn line(input: &[u8]) -> String {
    let ((c, c_used), (i, i_used)) = (char_in(input), int_in(input));
    format!("c {c} {c_used} i {i} {i_used}\n")
}
