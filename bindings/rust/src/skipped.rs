//! Why number lines were skipped.
use std::fmt;

/// How many lines IntIn skipped, by the reason (rules 10.8 and 10.9 of docs/RULES.md). Each is a step that was taken, so
/// that the sum of the four is at most the steps. What CharIn left of a line, in [`crate::Edition::Page`], is a line. In
/// abstract mode nothing is read, and nothing counts.
///
/// The reasons that occurred are displayed with their counts, as `blank=2 out_of_range=1`:
///
/// ```
/// // from red to light blue it is IntIn, and back it is Mod, which does nothing with an empty stack
/// let pixels = [0xFF, 0x00, 0x00, 0xC0, 0xC0, 0xFF];
/// let picture = piet::Picture::of(&pixels, piet::Shape { height: 1, width: 2, codel: 1 });
/// let terms = piet::Terms { limit: 5, abstract_mode: false, input: b"seven\n\n" };
/// let cells = piet::Cells { stack: 256, outputs: 256 };
/// let told = piet::run_pixels(picture, piet::Edition::Rust, terms, cells)?;
/// let skipped = piet::Skipped { ended: 1, blank: 1, not_number: 1, out_of_range: 0 };
/// assert_eq!(told.ended.skipped, skipped);
/// assert_eq!(skipped.to_string(), "ended=1 blank=1 not_number=1");
/// # Ok::<(), piet::Error>(())
/// ```
#[derive(Clone, Copy, Debug, PartialEq, Eq, Hash)]
pub struct Skipped {
    /// No byte of input was left.
    pub ended: u64,
    /// A line was there, and it was white space alone.
    pub blank: u64,
    /// Without white space at its ends the line was not a sign or none and one or more digits 0 to 9.
    pub not_number: u64,
    /// The line was such a number, below -2^63 or above 2^63 - 1.
    pub out_of_range: u64,
}

impl Skipped {
    /// No line was skipped.
    pub const NONE: Skipped = Skipped { ended: 0, blank: 0, not_number: 0, out_of_range: 0 };

    /// What the last cells of a run's answer say.
    pub(crate) fn of([ended, blank, not_number, out_of_range]: [u64; 4]) -> Self {
        Skipped { ended, blank, not_number, out_of_range }
    }

    fn by_name(self) -> [(&'static str, u64); 4] {
        let Skipped { ended, blank, not_number, out_of_range } = self;
        [("ended", ended), ("blank", blank), ("not_number", not_number), ("out_of_range", out_of_range)]
    }
}

impl fmt::Display for Skipped {
    fn fmt(&self, f: &mut fmt::Formatter<'_>) -> fmt::Result {
        let mut gap = "";
        for (reason, count) in self.by_name().into_iter().filter(|&(_, count)| count > 0) {
            write!(f, "{gap}{reason}={count}")?;
            gap = " ";
        }
        Ok(())
    }
}
