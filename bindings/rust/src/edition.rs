//! The editions of the rules.
use crate::numbers::numbered;
use crate::Refusal;

numbered! {
    /// The edition of the rules by which a table is built or run.
    ///
    /// The two differ in when a slide over white is lost and what becomes of it then, in Div, Mod and Roll where they
    /// can't be carried out, in the sign of Mod, and in how much CharIn takes of its line; include/piet.h has them side
    /// by side.
    ///
    /// ```
    /// use piet::{run_pixels, Cells, Edition, Picture, Shape, Status, Terms};
    ///
    /// // Two rows: red, white, white, and white, black, white. To the right the slide is lost; down, it comes back.
    /// let [red, white, black] = [[0xFF, 0x00, 0x00], [0xFF; 3], [0x00; 3]];
    /// let pixels = [red, white, white, white, black, white].concat();
    /// let picture = Picture::of(&pixels, Shape { height: 2, width: 3, codel: 1 });
    /// let terms = Terms { limit: 9, abstract_mode: false, input: b"" };
    /// let cells = Cells { stack: 256, outputs: 256 };
    ///
    /// let by_rust = run_pixels(picture, Edition::Rust, terms, cells)?;
    /// assert_eq!((by_rust.ended.status, by_rust.ended.steps), (Status::MaxSteps, 9));
    /// let by_page = run_pixels(picture, Edition::Page, terms, cells)?;
    /// assert_eq!((by_page.ended.status, by_page.ended.steps), (Status::Completed, 0));
    /// # Ok::<(), piet::Error>(())
    /// ```
    Edition {
        /// The rules of the Rust program pwang00/pietcc.
        Rust = 1,
        /// Those of the public Piet page.
        Page = 2,
    }
}

/// A number other than 1 and 2 has the library's refusal.
impl TryFrom<u32> for Edition {
    type Error = Refusal;

    fn try_from(number: u32) -> Result<Self, Refusal> {
        Edition::of(number.into()).ok_or(Refusal::Edition)
    }
}
