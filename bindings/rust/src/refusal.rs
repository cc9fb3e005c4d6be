//! The library's refusals as an error.
use crate::numbers::proved;
use std::fmt;

/// Why a call was refused. A refused call leaves every slice that it was lent as it was.
///
/// The library's number 11 is the run program's alone.
#[derive(Clone, Copy, Debug, PartialEq, Eq, Hash)]
#[non_exhaustive]
pub enum Refusal {
    /// 1: height or width is 0 or above 1,024 pixels.
    Size,
    /// 2: the pixels are not 3 x height x width bytes, or the colours not height x width.
    Bytes,
    /// 3: a setting for unknown pixels above 3, which [`crate::Unknown`] refuses to be made of.
    Setting,
    /// 4: a lent slice is too short.
    Room,
    /// 5: a pixel is none of the twenty colours, under [`crate::Unknown::Refused`].
    Pixel {
        /// The row of the first such pixel.
        row: usize,
        /// Its column.
        column: usize,
    },
    /// 6: the codel width is 0 or above 1,024.
    Codel,
    /// 7: there are more than 65,536 codels.
    Grid,
    /// 8: a colour number is above 19.
    Colour {
        /// The index of the first such colour.
        index: usize,
    },
    /// 9: pixel (0,0) is white, and a run can't start there.
    White,
    /// 10: the table is not valid: its count of regions is 0 or above 65,536, a slice is short, a node mark is above 1,
    /// or an exit is none or leads to a region that the table doesn't have. The cell of a lost slide passes in edition 2 alone.
    Table,
    /// 12: row or column of a label is above 1,023, or under 22 bytes are lent for it.
    Label,
    /// 13: the file has no P6 header, or another maximum than 255.
    Header,
    /// 14: too few or too many bytes follow a P6 header.
    Length,
    /// 15: an edition other than 1 and 2, which [`crate::Edition`] refuses to be made of.
    Edition,
    /// 16: visits are to be counted up to a limit of 2^64 - 1, so that a count need not fit.
    Limit,
}

impl Refusal {
    /// The library's number.
    pub fn number(self) -> u32 {
        match self {
            Refusal::Size => 1,
            Refusal::Bytes => 2,
            Refusal::Setting => 3,
            Refusal::Room => 4,
            Refusal::Pixel { .. } => 5,
            Refusal::Codel => 6,
            Refusal::Grid => 7,
            Refusal::Colour { .. } => 8,
            Refusal::White => 9,
            Refusal::Table => 10,
            Refusal::Label => 12,
            Refusal::Header => 13,
            Refusal::Length => 14,
            Refusal::Edition => 15,
            Refusal::Limit => 16,
        }
    }

    /// What a call's number says, with the answer cells that name a place.
    pub(crate) fn unless_done(number: u32, place: [u64; 2]) -> Result<(), Refusal> {
        match number {
            0 => Ok(()),
            _ => Err(proved(Refusal::of(number, place.map(|cell| cell as usize)))),
        }
    }

    /// The refusal of a number. The place is row and column of a pixel; the index of a colour is the second of the two.
    fn of(number: u32, [first, second]: [usize; 2]) -> Option<Refusal> {
        Some(match number {
            1 => Refusal::Size,
            2 => Refusal::Bytes,
            3 => Refusal::Setting,
            4 => Refusal::Room,
            5 => Refusal::Pixel { row: first, column: second },
            6 => Refusal::Codel,
            7 => Refusal::Grid,
            8 => Refusal::Colour { index: second },
            9 => Refusal::White,
            10 => Refusal::Table,
            12 => Refusal::Label,
            13 => Refusal::Header,
            14 => Refusal::Length,
            15 => Refusal::Edition,
            16 => Refusal::Limit,
            _ => return None,
        })
    }
}

impl fmt::Display for Refusal {
    fn fmt(&self, f: &mut fmt::Formatter<'_>) -> fmt::Result {
        match self {
            Refusal::Size => write!(f, "a side is 0 or above 1,024 pixels"),
            Refusal::Bytes => write!(f, "the pixels or colours don't fit the sides"),
            Refusal::Setting => write!(f, "the setting for unknown pixels is above 3"),
            Refusal::Room => write!(f, "a lent slice is too short"),
            Refusal::Pixel { row, column } => {
                write!(f, "the pixel at row {row}, column {column} is none of the twenty colours")
            }
            Refusal::Codel => write!(f, "the codel width is 0 or above 1,024"),
            Refusal::Grid => write!(f, "more than 65,536 codels"),
            Refusal::Colour { index } => write!(f, "the colour number at index {index} is above 19"),
            Refusal::White => write!(f, "pixel (0,0) is white"),
            Refusal::Table => write!(f, "not a valid table"),
            Refusal::Label => write!(f, "no such label, or under 22 bytes for it"),
            Refusal::Header => write!(f, "no P6 header, or another maximum than 255"),
            Refusal::Length => write!(f, "too few or too many bytes after the P6 header"),
            Refusal::Edition => write!(f, "the edition is neither 1 nor 2"),
            Refusal::Limit => write!(f, "visits are to be counted up to a limit of 2^64 - 1"),
        }
    }
}

impl std::error::Error for Refusal {}
