//! A run in lent room with all that it needs, as the comparisons ask about it.
use crate::machine::{run_in_room, Judged, Room, Terms};
use crate::picture::{build, Built, Picture};

#[derive(Clone, Debug)]
pub struct Question {
    pub picture: Picture,
    pub limit: u64,
    pub is_abstract: bool,
    pub room: Room,
    pub input: Vec<u8>,
}

impl Question {
    /// The table and the run; None where pixel (0,0) is white.
    pub fn asked(&self) -> Option<(Built, Judged)> {
        let built = build(&self.picture);
        let judged = (!built.refused_white()).then(|| self.judged(&built))?;
        Some((built, judged))
    }

    /// The run over this question's table.
    pub fn judged(&self, built: &Built) -> Judged {
        let Question { limit, is_abstract, .. } = *self;
        run_in_room(&built.cfg, &Terms { limit, is_abstract, input: &self.input }, &self.room)
    }
}
