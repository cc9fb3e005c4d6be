//! Either edition of the rules: the Rust answers for the first, the model of the page for the second.
use crate::machine::{Judged, Output};
use crate::page::{self, End, Grid, LOST};
use crate::picture::{build, exit_number, Built, Picture};
use crate::question::Question;
use std::iter::zip;

pub const RUST: u32 = 1;
pub const PAGE: u32 = 2;

/// The edition that a table is built by, and that by which it is run.
#[derive(Clone, Copy, Debug, PartialEq, Eq)]
pub struct Editions {
    pub build: u32,
    pub run: u32,
}

/// The picture's table by this edition, without the Rust's graph where it is the page's; None where pixel (0,0) is white.
pub fn table(picture: &Picture, edition: u32) -> Option<Built> {
    if edition == PAGE {
        let page::Table { map, rows, exits } = page::build(&grid(picture))?;
        return Some(Built { map, rows, exits, ..Built::default() });
    }
    let built = build(picture);
    (!built.refused_white()).then_some(built)
}

pub fn grid(picture: &Picture) -> Grid {
    let sides = [picture.height, picture.width, picture.codel].map(|n| n as usize);
    Grid::new(sides.into(), &picture.colours)
}

impl Built {
    /// Whether an exit is that of a lost slide, which the first edition does not take.
    pub fn has_lost(&self) -> bool {
        self.exits.as_flattened().contains(&LOST)
    }

    /// The run of a question over this table by the second edition.
    pub fn run_by_page(&self, question: &Question) -> End {
        let (rows, exits) = (self.rows.as_flattened(), self.exits.as_flattened());
        let ran = page::run_table(self.rows.len(), rows, exits, &question.page_terms());
        ran.expect("what was built is a table")
    }

    /// The same as far as the first edition does the same over this table, and the limit up to there.
    pub fn run_by_both(&self, question: &Question) -> (End, u64) {
        let end = self.run_by_page(question);
        let limit = end.parting.map_or(question.limit, |(steps, _)| steps);
        (self.run_by_page(&Question { limit, ..question.clone() }), limit)
    }
}

impl Question {
    /// The run by the second edition over the codels, which tells a long slide from others; None where pixel (0,0) is white.
    pub fn walked(&self) -> Option<End> {
        page::run_grid(&grid(&self.picture), &self.page_terms())
    }

    pub fn page_terms(&self) -> page::Terms<'_> {
        let Question { limit, is_abstract, room, ref input, .. } = *self;
        page::Terms { limit, is_abstract, input, stack: room.stack, outputs: room.outputs }
    }
}

/// What a run leaves.
pub struct Left {
    pub numbers: [u64; 12],
    /// bottom first
    pub stack: Vec<i64>,
    /// kind and value
    pub outputs: Vec<(u8, i64)>,
    /// the regions that were entered, in their order, from where it started on
    pub entered: Vec<usize>,
    /// the exit of each step taken, in their order
    pub taken: Vec<u32>,
}

impl Left {
    pub fn by_rust(built: &Built, ran: &Judged) -> Left {
        let kind_and_value = |output: &Output| match *output {
            Output::Char(c) => (1, c),
            Output::Int(i) => (2, i),
        };
        let regions = ran.entered.iter().map(|block| built.region(block.get_label()));
        let entered: Vec<usize> = regions.collect();
        let exits = zip(&entered[1..], &ran.moves).map(|(&to, &by)| exit_number(to, by));
        Left {
            numbers: ran.numbers(built.region(&ran.answer.label)),
            stack: ran.answer.stack.iter().rev().copied().collect(),
            outputs: ran.answer.outputs.iter().map(kind_and_value).collect(),
            taken: exits.collect(),
            entered,
        }
    }

    pub fn by_page(end: &End) -> Left {
        let End { stack, outputs, entered, taken, .. } = end.clone();
        Left { numbers: end.numbers(), stack, outputs, entered, taken }
    }
}

#[cfg(test)]
pub mod tests {
    use super::*;
    use crate::machine::{self, Answer, Room, Terms};
    use crate::numbers::order;
    use crate::paint::drawn;
    use crate::random::{Random, BLACK};

    /// A picture's table by each edition, and what a run over it leaves.
    pub fn ran_by_editions(lines: &[&str], limit: u64) -> [(Built, Left); 2] {
        let (picture, room) = (drawn(1, lines), Room { stack: 16, outputs: 8 });
        let question = Question { picture, limit, is_abstract: false, room, input: vec![] };
        [RUST, PAGE].map(|edition| {
            let built = table(&question.picture, edition).expect("not white");
            let left = match edition {
                RUST => Left::by_rust(&built, &question.judged(&built)),
                _ => Left::by_page(&built.run_by_page(&question)),
            };
            (built, left)
        })
    }

    /// So many pictures by chance, each with what the walk over its table finds.
    pub fn ran_by_chance(pictures: usize) -> impl Iterator<Item = (Question, Built, Judged)> {
        let mut random = Random::seeded(18);
        (0..pictures).map(move |_| {
            let (mut picture, input) = (random.picture(6), random.input());
            picture.colours[0] = picture.colours[0].min(BLACK);
            let (limit, room) = (30, Room { stack: usize::MAX, outputs: usize::MAX });
            let question = Question { picture, limit, is_abstract: false, room, input };
            let (built, ran) = question.asked().expect("not white");
            (question, built, ran)
        })
    }

    /// The Rust's own run, which has no room to run out of.
    pub fn run_up_to(limit: u64, question: &Question, built: &Built) -> Answer {
        let terms = Terms { limit, is_abstract: false, input: &question.input };
        machine::run(&built.cfg, &terms).expect("no panic so far")
    }

    fn taken_by_editions(lines: &[&str], limit: u64) -> [Vec<u32>; 2] {
        ran_by_editions(lines, limit).map(|(_, left)| left.taken)
    }

    #[test]
    fn exits_taken() {
        let [there, back] = [524_290, 1_310_721];
        assert_eq!(taken_by_editions(&["Rr"], 3), [(); 2].map(|()| vec![there, back, there]));
        assert_eq!(taken_by_editions(&["Rr"], 0), [(); 2].map(|()| vec![]));
        let up_and_right = 7;
        let slide = 1 + 65_536 * up_and_right;
        assert_eq!(taken_by_editions(&["r#", ".r"], 5), [(); 2].map(|()| vec![slide; 5]));
        assert_eq!(taken_by_editions(&["r..", ".#."], 5), [vec![slide; 5], vec![]]);
    }

    /// Where the Rust's own run stops at each limit, the table's exit by the first open attempt, against the walk's.
    #[test]
    fn the_exits_taken_are_the_first_open_ones_where_runs_of_each_limit_stop() {
        for (question, built, ran) in ran_by_chance(500) {
            let exits = (0..ran.answer.steps).map(|limit| {
                let Answer { label, dp, cc, .. } = run_up_to(limit, &question, &built);
                let exits = built.exits[built.region(&label)];
                let by_attempt = order((2 * dp + cc) as u8).into_iter().map(|s| exits[s as usize]);
                by_attempt.into_iter().find(|&exit| exit != 0).expect("the run goes on")
            });
            assert_eq!(Left::by_rust(&built, &ran).taken, exits.collect::<Vec<u32>>());
        }
    }
}
