//! A picture, as the calls take it.
use crate::Unknown;

/// The most codels of a picture.
pub const MOST_CODELS: usize = 65_536;

/// The most pixels of a side.
pub(crate) const MOST_SIDE: usize = 1_024;

/// A picture's sides in pixels, and how many pixels a codel has on a side.
#[derive(Clone, Copy, Debug, PartialEq, Eq, Hash)]
pub struct Shape {
    /// Rows of pixels, 1 to 1,024.
    pub height: usize,
    /// Pixels in a row, 1 to 1,024.
    pub width: usize,
    /// Pixels on a side of a codel, 1 to 1,024.
    pub codel: usize,
}

impl Shape {
    /// The pixels of the picture, where its sides are accepted; else as many as do no harm as a length, since the call
    /// that is lent them refuses the sides first.
    pub fn pixels(self) -> usize {
        self.height.min(MOST_SIDE) * self.width.min(MOST_SIDE)
    }

    /// The codels of the picture, where its numbers are accepted; else as many as do no harm as a length, since the
    /// call that is lent them refuses the numbers first.
    pub fn codels(self) -> usize {
        let side = |pixels: usize| pixels.min(MOST_SIDE).div_ceil(self.codel.max(1));
        (side(self.height) * side(self.width)).min(MOST_CODELS)
    }
}

/// A picture of three bytes a pixel, row by row, and what becomes of a pixel that is none of the twenty colours.
#[derive(Clone, Copy, Debug, PartialEq, Eq, Hash)]
pub struct Picture<'a> {
    /// Red, green and blue of each pixel: 3 x height x width bytes.
    pub pixels: &'a [u8],
    /// The sides.
    pub shape: Shape,
    /// What becomes of an unknown pixel.
    pub unknown: Unknown,
}

impl<'a> Picture<'a> {
    /// A picture in which an unknown pixel is refused, as by the run program.
    pub fn of(pixels: &'a [u8], shape: Shape) -> Self {
        Picture { pixels, shape, unknown: Unknown::Refused }
    }
}
