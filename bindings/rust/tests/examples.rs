//! The repository's examples: each job through the library, and the saved picture, gives what stands beside it.
use piet::{run_pixels, Cells, Edition, Error, Picture, Pixels, Shape, Terms};
use std::fs;
use std::path::{Path, PathBuf};

/// The run program's room.
const CELLS: Cells = Cells { stack: 256, outputs: 256 };

fn folder() -> PathBuf {
    Path::new(env!("CARGO_MANIFEST_DIR")).join("../../examples")
}

fn jobs() -> Vec<PathBuf> {
    let entries = fs::read_dir(folder()).expect("the folder of examples");
    let paths = entries.map(|entry| entry.expect("an entry").path());
    paths.filter(|path| path.extension().is_some_and(|e| e == "job")).collect()
}

/// The body of the first record, and what follows it. What is no job does not come to the library.
fn record(bytes: &[u8]) -> (&[u8], &[u8]) {
    let length = u32::from_le_bytes(bytes[..4].try_into().expect("four bytes"));
    bytes[6..].split_at(length as usize)
}

fn answer(job: &[u8]) -> String {
    let (picture, rest) = record(job);
    let (way, rest) = record(rest);
    let (input, _) = record(rest);
    let side = |at: usize| usize::from(u16::from_le_bytes([picture[at], picture[at + 1]]));
    let limit = u64::from_le_bytes(way[..8].try_into().expect("eight bytes"));
    let shape = Shape { height: side(0), width: side(2), codel: side(4) };
    let terms = Terms { limit, abstract_mode: way[8] == 1, input };
    match run_pixels(Picture::of(&picture[6..], shape), Edition::Rust, terms, CELLS) {
        Ok(told) => told.to_string(),
        Err(Error::Refused(refusal)) => format!("refused {}\n", refusal.number()),
        Err(error) => error.to_string(),
    }
}

fn expected(path: &Path) -> String {
    fs::read_to_string(path.with_extension("out")).expect("an expected answer")
}

#[test]
fn examples() {
    let (none, jobs): (Vec<_>, Vec<_>) =
        jobs().into_iter().partition(|path| expected(path) == "refused 11\n");
    assert!(jobs.len() >= 9 && none.len() == 1, "found {} and {}", jobs.len(), none.len());
    for path in jobs {
        let job = fs::read(&path).expect("a job");
        assert_eq!(answer(&job), expected(&path), "{}", path.display());
    }
}

#[test]
fn a_saved_picture() {
    let path = folder().join("hello.ppm");
    let pixels = Pixels::of_p6(&fs::read(&path).expect("a file")).unwrap();
    let terms = Terms { limit: 1_000, abstract_mode: false, input: b"" };
    let told = run_pixels(pixels.picture(), Edition::Rust, terms, CELLS).unwrap();
    assert_eq!(told.to_string(), expected(&path));
}
