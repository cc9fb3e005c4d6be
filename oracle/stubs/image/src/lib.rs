//! Stand-in: the type that parser/src/convert.rs names.
pub struct Rgb<T>(pub [T; 3]);
