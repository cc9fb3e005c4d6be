//! Pictures with long white ways by chance: spirals, labyrinths, the paths of slides, scattered white.
use crate::picture::Picture;
use crate::random::{Random, BLACK, RED, WHITE};

/// Colour numbers of codels, by rows.
type Field = Vec<Vec<u8>>;

type Place = (usize, usize);

/// One in so many is as good as none.
const NEVER: u32 = u32::MAX;

impl Random {
    /// Pixel sides up to the longest, which is at least 12, and a codel more in height; codel width 1 to 3; pixel (0,0) is not
    /// white.
    pub fn white_ways(&mut self, longest: u32) -> Picture {
        let codel = self.codel();
        let longest = (longest / codel) as usize;
        let mut field = match self.below(6) {
            0 | 1 => self.spiral(longest),
            2 | 3 => self.landed_path(longest),
            4 => self.labyrinth(longest),
            _ => self.scattered(longest),
        };
        field[0][0] = match self.below(8) {
            0 => BLACK,
            1..3 => self.shade(),
            _ => RED,
        };
        self.in_pixels(&field, codel)
    }

    /// Mostly clockwise inward from (0,0), to an end that is coloured, white or black.
    fn spiral(&mut self, longest: usize) -> Field {
        let thick = self.thick(longest);
        let [rows, columns] = self.places(longest, thick);
        let order = inward(rows, columns);
        let mut field = carved(rows, columns, order.windows(2).map(|two| [two[0], two[1]]));
        let ((row, column), colour) = (order[order.len() - 1], self.shade());
        field[2 * row][2 * column] = self.pick(&[RED, colour, colour, WHITE, BLACK]);
        let field = stretched(&field, thick);
        let field = if self.one_in(8) { transposed(&field) } else { field };
        self.strewn(field)
    }

    /// Places of which each is joined to one that was joined before, with colour in a few of them.
    fn labyrinth(&mut self, longest: usize) -> Field {
        let thick = self.thick(longest);
        let [rows, columns] = self.places(longest, thick);
        let (mut joined, mut ways) = (vec![(0, 0)], vec![]);
        while joined.len() < rows * columns {
            let from = self.pick(&joined);
            let to = self.pick(&beside(from));
            if to.0 < rows && to.1 < columns && !joined.contains(&to) {
                joined.push(to);
                ways.push([from, to]);
            }
        }
        let mut field = carved(rows, columns, ways.into_iter());
        for _ in 0..1 + self.below(8) {
            let (row, column) = self.pick(&joined);
            field[2 * row][2 * column] = self.shade();
        }
        let field = stretched(&field, thick);
        let field = self.strewn(field);
        self.rimmed(field)
    }

    /// A path that comes to a colour, if one does that soon; most go round without end.
    fn landed_path(&mut self, longest: usize) -> Field {
        let landed = |field: &Field| field.iter().flatten().skip(1).any(|&codel| codel < BLACK);
        let found = (0..20).map(|_| self.path(longest)).find(landed);
        found.unwrap_or_else(|| self.path(longest))
    }

    /// The path of a slide from (0,0): what it comes to is settled then, mostly as white, else as black, and where it has
    /// turned often enough as a colour, from which it goes on.
    fn path(&mut self, longest: usize) -> Field {
        let ([rows, columns], black) = (self.sides(longest), self.pick(&[4, 6, 8]));
        let (enough, most) = (self.pick(&[2, 5, 8, 8, 9, 12]), self.pick(&[12, 40]));
        let mut field = vec![vec![None; columns]; rows];
        field[0][0] = Some(RED);
        let (mut at, mut dp, mut turns, mut all) = ((0, 0), 0, 0, 0);
        while all <= most {
            let ahead = beside(at)[dp];
            let place = field.get_mut(ahead.0).and_then(|row| row.get_mut(ahead.1));
            let codel = place.map_or(BLACK, |place| {
                *place.get_or_insert_with(|| match turns >= enough {
                    true if self.one_in(3) => self.shade(),
                    _ if self.one_in(black) => BLACK,
                    _ => WHITE,
                })
            });
            match codel {
                BLACK => (dp, turns, all) = ((dp + 1) % 4, turns + 1, all + 1),
                WHITE => at = ahead,
                _ => (at, turns) = (ahead, 0),
            }
        }
        let rest = self.pick(&[BLACK, BLACK, WHITE]);
        field.iter().map(|row| row.iter().map(|codel| codel.unwrap_or(rest)).collect()).collect()
    }

    /// Much white, some black, some colour.
    fn scattered(&mut self, longest: usize) -> Field {
        let [rows, columns] = self.sides(longest);
        let (black, coloured) = (self.pick(&[4, 5, 6, 8]), self.pick(&[8, 16, 32]));
        let few = [RED, self.shade(), self.shade()];
        let mut codel = || {
            let over_white = if self.one_in(coloured) { self.pick(&few) } else { WHITE };
            if self.one_in(black) {
                BLACK
            } else {
                over_white
            }
        };
        let field = (0..rows).map(|_| (0..columns).map(|_| codel()).collect()).collect();
        self.rimmed(field)
    }

    fn sides(&mut self, longest: usize) -> [usize; 2] {
        [(); 2].map(|()| 4 + self.below(longest as u32 - 3) as usize)
    }

    /// How thick ways and the walls between them are, so that a side has room for two ways.
    fn thick(&mut self, longest: usize) -> [usize; 2] {
        match longest {
            0..8 => [1, 1],
            _ => [self.pick(&[1, 1, 1, 2, 3]), self.pick(&[1, 1, 1, 2])],
        }
    }

    /// Rows and columns of places, from two to as many as the longest side has room for, rather many than few.
    fn places(&mut self, longest: usize, [way, wall]: [usize; 2]) -> [usize; 2] {
        let most = ((longest + wall) / (way + wall)) as u32;
        [(); 2].map(|()| (2 + self.below(most - 1).max(self.below(most - 1))) as usize)
    }

    /// In most fields some walls are pierced, and here and there is a codel of colour, or of black on a way.
    fn strewn(&mut self, mut field: Field) -> Field {
        let (in_wall, on_way) = (self.pick(&[4, 8, 16, NEVER]), self.pick(&[32, 128, NEVER]));
        let colour = self.shade();
        for codel in field.iter_mut().flatten() {
            match *codel {
                BLACK if self.one_in(in_wall) => *codel = self.pick(&[WHITE, RED, colour]),
                WHITE if self.one_in(on_way) => *codel = self.pick(&[BLACK, RED, colour]),
                _ => (),
            }
        }
        field
    }

    /// In half of the fields with a first row of two colours by turns: each codel of it is a node, and slides downward.
    fn rimmed(&mut self, mut field: Field) -> Field {
        if self.one_in(2) {
            let two = [RED, self.shade()];
            field.insert(0, (0..field[0].len()).map(|column| two[column % 2]).collect());
        }
        field
    }

    fn shade(&mut self) -> u8 {
        self.below(BLACK as u32) as u8
    }

    /// Codels of this width, some of them cut by the edges; what is not the first pixel of a codel is of any colour.
    fn in_pixels(&mut self, field: &Field, codel: u32) -> Picture {
        let [height, width] =
            [field.len(), field[0].len()].map(|n| n as u32 * codel - self.below(codel));
        let pixels = (0..height).flat_map(|row| (0..width).map(move |column| [row, column]));
        let colour = |[row, column]: [u32; 2]| {
            let is_first = row % codel == 0 && column % codel == 0;
            let [row, column] = [row, column].map(|n| (n / codel) as usize);
            if is_first {
                field[row][column]
            } else {
                self.below(20) as u8
            }
        };
        let colours = pixels.map(colour).collect();
        Picture { height, width, codel, colours }
    }
}

/// All places, clockwise and inward from the first.
fn inward(rows: usize, columns: usize) -> Vec<Place> {
    let row = |row: usize| (0..columns).map(|column| (row, column)).collect();
    let (mut left, mut order): (Vec<Vec<Place>>, _) = ((0..rows).map(row).collect(), vec![]);
    while left.first().is_some_and(|row| !row.is_empty()) {
        order.extend(left.remove(0));
        // The rest is turned, so that what was on the right is on top.
        left = transposed(&left);
        left.reverse();
    }
    order
}

fn transposed<T: Copy>(lines: &[Vec<T>]) -> Vec<Vec<T>> {
    let columns = lines.first().map_or(0, Vec::len);
    (0..columns).map(|column| lines.iter().map(|line| line[column]).collect()).collect()
}

/// Those to the right, below, to the left and above; outside of the field they are large.
fn beside((row, column): Place) -> [Place; 4] {
    let (left, above) = (column.wrapping_sub(1), row.wrapping_sub(1));
    [(row, column + 1), (row + 1, column), (row, left), (above, column)]
}

/// Black, with a white line for each place, in every second row and column, and for each way that joins two.
fn carved(rows: usize, columns: usize, ways: impl Iterator<Item = [Place; 2]>) -> Field {
    let mut field = vec![vec![BLACK; 2 * columns - 1]; 2 * rows - 1];
    for [from, to] in ways {
        for [one, other] in [[from, from], [from, to], [to, to]] {
            field[one.0 + other.0][one.1 + other.1] = WHITE;
        }
    }
    field
}

/// Rows and columns as thick as said, by turns.
fn stretched(field: &Field, thick: [usize; 2]) -> Field {
    let lines = |count: usize| (0..count).flat_map(move |line| vec![line; thick[line % 2]]);
    let (rows, columns) = (lines(field.len()), lines(field[0].len()));
    rows.map(|row| columns.clone().map(|column| field[row][column]).collect()).collect()
}
