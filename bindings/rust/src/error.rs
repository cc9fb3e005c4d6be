//! Why a call that allocates gave nothing.
use crate::Refusal;
use std::fmt;

/// Why a call that allocates gave nothing.
#[derive(Clone, Copy, Debug, PartialEq, Eq, Hash)]
#[non_exhaustive]
pub enum Error {
    /// The library refused it.
    Refused(Refusal),
    /// The room that was asked for can't be had.
    Memory,
}

impl From<Refusal> for Error {
    fn from(refusal: Refusal) -> Self {
        Error::Refused(refusal)
    }
}

impl fmt::Display for Error {
    fn fmt(&self, f: &mut fmt::Formatter<'_>) -> fmt::Result {
        match self {
            Error::Refused(refusal) => write!(f, "refused {}: {refusal}", refusal.number()),
            Error::Memory => write!(f, "there is no memory for the room that was asked for"),
        }
    }
}

impl std::error::Error for Error {}

/// Cells that hold `T`'s default.
pub(crate) fn allocated<T: Clone + Default>(cells: usize) -> Result<Vec<T>, Error> {
    let mut room = reserved(cells)?;
    room.resize(cells, T::default());
    Ok(room)
}

/// An empty vector that takes so many values without asking for memory again.
pub(crate) fn reserved<T>(values: usize) -> Result<Vec<T>, Error> {
    let mut room = Vec::new();
    room.try_reserve_exact(values).map_err(|_| Error::Memory)?;
    Ok(room)
}
