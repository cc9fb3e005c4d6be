//! The model against itself, and against the Rust as far as the editions agree.
use crate::building::kinds_of_slides;
use crate::cases::{wide, Case, Outcome};
use crate::running::{kinds_of_end, shown_terms, sooner};
use crate::tables::{shown_picture, smaller_pictures};
use harness::editions::{self, Left, PAGE, RUST};
use harness::page::{build_short, Table, LOST};
use harness::picture::Built;
use harness::question::Question;
use std::iter::zip;

/// A run of the model over its own table, against its run over the codels, and up to what the editions do differently
/// against the Rust's. Its table with long slides lost, against the Rust's but for lost slides, and against its own but for
/// what long slides add.
#[derive(Clone)]
pub struct Modelled(pub Question);

impl Case for Modelled {
    fn outcomes(&self) -> [Outcome; 2] {
        let question = &self.0;
        let [rust, model] = [RUST, PAGE].map(|edition| {
            editions::table(&question.picture, edition).expect("an entry that is not white")
        });
        let short = build_short(&editions::grid(&question.picture)).expect("the same entry");
        let shared = without_long(&model, &short);
        let end = model.run_by_page(question);
        let walked = question.walked().expect("the same entry");
        let limit = walked.parting.map_or(question.limit, |(steps, _)| steps);
        let ran = Question { limit, ..question.clone() }.judged(&rust);
        let limit = if ran.panic.is_some() { ran.answer.steps } else { limit };
        let before = model.run_by_page(&Question { limit, ..question.clone() });
        let exits = short.exits.as_flattened().iter().map(|&e| if e == LOST { 0 } else { e });
        [
            Outcome(vec![
                ("map", wide(&rust.map)),
                ("rows", wide(rust.rows.as_flattened())),
                ("exits", wide(rust.exits.as_flattened())),
                ("shared map", wide(&short.map)),
                ("shared rows", wide(short.rows.as_flattened())),
                ("shared exits", wide(short.exits.as_flattened())),
                ("walked", flat(&Left::by_page(&walked))),
                ("ran", flat(&Left::by_rust(&rust, &ran))),
            ]),
            Outcome(vec![
                ("map", wide(&short.map)),
                ("rows", wide(short.rows.as_flattened())),
                ("exits", wide(&exits.collect::<Vec<u32>>())),
                ("shared map", wide(&shared.map)),
                ("shared rows", wide(shared.rows.as_flattened())),
                ("shared exits", wide(shared.exits.as_flattened())),
                ("walked", flat(&Left::by_page(&end))),
                ("ran", flat(&Left::by_page(&before))),
            ]),
        ]
    }

    fn kinds(&self, _: &Outcome) -> Vec<String> {
        let end = self.0.walked().expect("an entry that is not white");
        let slides = kinds_of_slides(&self.0.picture);
        [vec![format!("status {}", end.status)], kinds_of_end(&end), slides].concat()
    }

    fn smaller(&self) -> impl Iterator<Item = Self> {
        let pictures = smaller_pictures(&self.0.picture).filter(|p| p.colours[0] != 19);
        let lesser = pictures.map(|picture| Question { picture, ..self.0.clone() });
        lesser.chain(sooner(&self.0)).map(Modelled)
    }

    fn shown(&self) -> String {
        format!("{} {}", shown_picture(&self.0.picture), shown_terms(&self.0))
    }
}

/// The table, but as in the short one where a mark is 0 there, which may only grow, or a slide is lost.
fn without_long(model: &Built, short: &Table) -> Table {
    let rows = zip(&model.rows, &short.rows).map(|(&row, short)| {
        let [colour, size, first_row, first_column, mark] = row;
        [colour, size, first_row, first_column, mark.min(short[4])]
    });
    let exits = zip(&model.exits, zip(&short.exits, &short.rows)).map(|(exits, (short, row))| {
        let is_other = |state: usize| row[4] == 0 || short[state] == LOST;
        [0, 1, 2, 3, 4, 5, 6, 7].map(|s| if is_other(s) { short[s] } else { exits[s] })
    });
    Table { map: model.map.clone(), rows: rows.collect(), exits: exits.collect() }
}

/// The numbers, the stack, a kind and a value for each output, the regions entered, and the exits taken.
fn flat(left: &Left) -> Vec<i64> {
    let numbers = left.numbers.iter().map(|&n| n as i64);
    let outputs = left.outputs.iter().flat_map(|&(kind, value)| [kind.into(), value]);
    let entered = left.entered.iter().map(|&region| region as i64);
    let moved = entered.chain(left.taken.iter().map(|&exit| exit.into()));
    numbers.chain(left.stack.iter().copied()).chain(outputs).chain(moved).collect()
}
