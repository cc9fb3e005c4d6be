//! What is printed of jobs that are traced, and the comparison of a whole list with what was found.
use crate::programs::{done, refused};
use harness::job::{Done, Ran};
use harness::machine::Answer;
use harness::trace::{counts, trace};
use std::collections::BTreeMap;

/// The trace, a newline and a line that ends it, and the counts and a line that ends them.
pub fn traced(job: &[u8]) -> Result<String, String> {
    Ok(text(&done(job)?))
}

fn text(done: &Done) -> String {
    let [trace, counts] = match done {
        Done::Refused(number) => [refused(*number), refused(*number)],
        Done::Ran(ran) => [trace(ran), counts(ran)],
    };
    format!("{trace}\n--\n{counts}--\n")
}

/// How many jobs there were, and of each kind; an error with the first job for which something else was found.
pub fn compared(jobs: &[&[u8]], found: &[u8]) -> Result<String, String> {
    let (mut rest, mut kinds) = (found, BTreeMap::new());
    for job in jobs {
        let done = done(job)?;
        let expected = text(&done);
        rest =
            rest.strip_prefix(expected.as_bytes()).ok_or_else(|| differs(job, &expected, rest))?;
        kinds_of(&done).into_iter().for_each(|kind| *kinds.entry(kind).or_insert(0) += 1);
    }
    if !rest.is_empty() {
        return Err("something is found after the last job".into());
    }
    let counted = |(kind, count)| format!("{kind} {count}\n");
    Ok(format!("jobs {}\n{}", jobs.len(), kinds.into_iter().map(counted).collect::<String>()))
}

/// The job, and the first line that is not as expected.
fn differs(job: &[u8], expected: &str, found: &[u8]) -> String {
    let hex: String = job.iter().map(|b| format!("{b:02x}")).collect();
    let found = String::from_utf8_lossy(found);
    let mut pairs = expected.split('\n').zip(found.split('\n'));
    let (e, f) = pairs.find(|(e, f)| e != f).unwrap_or(("more", "less"));
    format!("job {hex}\nexpected {e}\nfound {f}")
}

/// What jobs are counted by: the refusal or the status, and what their traces have.
fn kinds_of(done: &Done) -> Vec<String> {
    let ran = match done {
        Done::Refused(number) => return vec![format!("refused_{number}")],
        Done::Ran(ran) => ran,
    };
    let status = format!("status_{}", ran.judged.answer.status);
    let told = TOLD.iter().filter(|(_, is_told)| is_told(ran)).map(|(what, _)| what.to_string());
    [status].into_iter().chain(told).collect()
}

type Told = (&'static str, fn(&Ran) -> bool);

const TOLD: [Told; 9] = [
    ("moves_above_100", |ran| ran.judged.answer.steps > 100),
    ("moves_above_1000", |ran| ran.judged.answer.steps > 1_000),
    ("stack_above_8", |ran| highest(ran) > 8),
    ("stack_above_100", |ran| highest(ran) > 100),
    ("output", |ran| !ran.judged.answer.outputs.is_empty()),
    ("outputs_above_20", |ran| ran.judged.answer.outputs.len() > 20),
    ("a_region_entered_above_10_times", |ran| most_entered(ran) > 10),
    ("uncounted", |ran| ran.limit == u64::MAX),
    ("skipped_lines", |ran| ran.judged.skips != [0; 4]),
];

fn highest(ran: &Ran) -> usize {
    let depth = |held: &Answer| held.stack.len();
    ran.held.iter().map(depth).max().unwrap_or(0)
}

fn most_entered(ran: &Ran) -> usize {
    let mut times: BTreeMap<&str, usize> = BTreeMap::new();
    ran.judged.entered.iter().for_each(|block| *times.entry(block.get_label()).or_default() += 1);
    times.into_values().max().unwrap_or(0)
}
