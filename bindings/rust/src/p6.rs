//! Netpbm P6 files, with the room allocated.
use crate::error::allocated;
use crate::picture::MOST_SIDE;
use crate::{read_p6, write_p6, Error, Picture, Shape};

/// The most bytes of a P6 file that is written, besides its pixels.
pub const P6_HEADER: usize = 17;

/// The most bytes of a picture's pixels.
const MOST_BYTES: usize = 3 * MOST_SIDE * MOST_SIDE;

/// A picture's pixels and sides, as a file has them: how many of the pixels a codel has on a side is not in it.
#[derive(Clone, Debug, PartialEq, Eq, Hash)]
pub struct Pixels {
    /// Red, green and blue of each pixel, row by row: 3 x height x width bytes.
    pub bytes: Vec<u8>,
    /// Rows of pixels.
    pub height: usize,
    /// Pixels in a row.
    pub width: usize,
}

impl Pixels {
    /// The pixels of a Netpbm P6 file, of which these are the bytes, in room that is allocated for them.
    ///
    /// ```
    /// let file = b"P6\n# as a paint program saves it\n2 1\n255\n\xFF\xC0\xC0\xFF\x00\x00";
    /// let pixels = piet::Pixels::of_p6(file)?;
    /// let terms = piet::Terms { limit: 3, abstract_mode: false, input: b"" };
    /// let cells = piet::Cells { stack: 256, outputs: 256 };
    /// let told = piet::run_pixels(pixels.picture(), piet::Edition::Rust, terms, cells)?;
    /// assert_eq!(told.to_string(), "status 2\nsteps 3\nat RegRed_0_1 0 0\nstack 1 1\nout 0\n");
    /// # Ok::<(), piet::Error>(())
    /// ```
    ///
    /// # Errors
    ///
    /// Memory, which is asked for first, and what [`read_p6`] refuses, but for Room.
    pub fn of_p6(file: &[u8]) -> Result<Self, Error> {
        let mut bytes = allocated(file.len().min(MOST_BYTES))?;
        let (height, width) = read_p6(file, &mut bytes)?;
        bytes.truncate(3 * height * width);
        Ok(Pixels { bytes, height, width })
    }

    /// The picture in which each pixel is a codel, and an unknown pixel is refused.
    pub fn picture(&self) -> Picture<'_> {
        self.in_codels(1)
    }

    /// The picture that is drawn with so many pixels on a side of a codel. An unknown pixel is refused.
    pub fn in_codels(&self, codel: usize) -> Picture<'_> {
        Picture::of(&self.bytes, Shape { height: self.height, width: self.width, codel })
    }
}

impl Picture<'_> {
    /// The Netpbm P6 file of the pixels, in room that is allocated for it. The codel width is not in the file.
    ///
    /// ```
    /// let picture = piet::Picture::of(b"abcdef", piet::Shape { height: 1, width: 2, codel: 1 });
    /// assert_eq!(picture.to_p6()?, b"P6\n2\n1\n255\nabcdef");
    /// # Ok::<(), piet::Error>(())
    /// ```
    ///
    /// # Errors
    ///
    /// Memory, which is asked for first, and what [`write_p6`] refuses, but for Room.
    pub fn to_p6(self) -> Result<Vec<u8>, Error> {
        let Shape { height, width, .. } = self.shape;
        let mut file = allocated(P6_HEADER + 3 * self.shape.pixels())?;
        let length = write_p6(self.pixels, (height, width), &mut file)?;
        file.truncate(length);
        Ok(file)
    }
}
