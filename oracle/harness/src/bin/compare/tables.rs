//! Tables for the run and for `determine_runs_forever`, as built and spoiled, and their pictures.
use crate::cases::{hex, without_lines};
use harness::library::Table;
use harness::page::LOST;
use harness::picture::{Built, Picture};
use harness::random::Random;

/// What is wrong with a table, or only looks it.
#[derive(Clone, Copy, Debug)]
pub enum Spoil {
    None,
    /// refusal 10 from here
    Count(usize),
    ShortRows(usize),
    ShortExits(usize),
    Mark(usize, u32),
    Exit(usize, u32),
    Target(usize),
    /// no row is marked as a node any more, which a run does not look at
    Unmarked,
    /// cells of this number after the table, which nobody looks at
    After(u32),
}

/// An exit to the last of 65,536 regions, that of a lost slide, which the second edition takes, and what neither does.
const EXITS: [u32; 6] = [LOST - 1, LOST, LOST, LOST + 1, 9_502_720, u32::MAX];

impl Spoil {
    pub fn by_chance(random: &mut Random) -> Self {
        let at = random.below(1 << 16) as usize;
        match random.below(8) {
            0 => Spoil::Count(random.pick(&[0, 65_537, 1 << 32, usize::MAX])),
            1 => Spoil::ShortRows(1 + random.below(5) as usize),
            2 => Spoil::ShortExits(1 + random.below(8) as usize),
            3 => Spoil::Mark(at, random.pick(&[2, 3, u32::MAX])),
            4 => Spoil::Exit(at, random.pick(&EXITS)),
            5 => Spoil::Target(at),
            6 => Spoil::Unmarked,
            _ => Spoil::After(random.pick(&EXITS)),
        }
    }

    /// Whether the first edition refuses a table of its own that is spoilt like this.
    pub fn refused(self) -> bool {
        !matches!(self, Spoil::None | Spoil::Unmarked | Spoil::After(_))
    }

    pub fn applied_to(self, built: &Built) -> Table {
        let n = built.rows.len();
        let (rows, exits) = (built.rows.as_flattened(), built.exits.as_flattened());
        let mut table = Table { n, rows: rows.to_vec(), exits: exits.to_vec() };
        self.apply(&mut table);
        table
    }

    fn apply(self, table: &mut Table) {
        let Table { n, rows, exits } = table;
        match self {
            Spoil::None => (),
            Spoil::Count(count) => *n = count,
            Spoil::ShortRows(by) => rows.truncate(5 * *n - by),
            Spoil::ShortExits(by) => exits.truncate(8 * *n - by),
            Spoil::Mark(at, mark) => rows[5 * (at % *n) + 4] = mark,
            Spoil::Exit(at, exit) => exits[at % (8 * *n)] = exit,
            Spoil::Target(at) => exits[at % (8 * *n)] = 1 + *n as u32,
            Spoil::Unmarked => (0..*n).for_each(|r| rows[5 * r + 4] = 0),
            Spoil::After(cell) => {
                rows.extend([cell; 5]);
                exits.extend([cell; 8]);
            }
        }
    }
}

/// The picture without some of its rows or columns, or with codels of one pixel.
pub fn smaller_pictures(p: &Picture) -> impl Iterator<Item = Picture> + '_ {
    let lesser = without_lines(p.height as usize, p.width as usize, &p.colours);
    let picture = |(height, width, colours): (usize, usize, Vec<u8>)| {
        let (height, width) = (height as u32, width as u32);
        Picture { height, width, codel: p.codel, colours }
    };
    let finer = (p.codel > 1).then(|| Picture { codel: 1, ..p.clone() });
    lesser.map(picture).chain(finer)
}

pub fn shown_picture(p: &Picture) -> String {
    let Picture { height, width, codel, colours } = p;
    format!("height {height} width {width} codel {codel} colours {}", hex(colours))
}
