//! Building in both editions, where there are many slides.
use crate::building::{build, lent, rust};
use crate::inputs::slides;
use crate::timing::fastest;
use harness::editions::{PAGE, RUST};

pub fn measure() {
    println!("{:44}{:>12}{:>12}{:>12}{:>8}", "", "Rust", "edition 1", "edition 2", "2 / 1");
    for (name, picture, beside_the_rust) in slides() {
        let mut lent = lent(picture.colours.len());
        let [one, two] =
            [RUST, PAGE].map(|edition| fastest(|| build(&picture, edition, &mut lent)));
        let rust =
            if beside_the_rust { format!("{:.3}", 1e3 * rust(&picture)) } else { "-".into() };
        let name = format!("slide, {name}, {}, ms", picture.width);
        println!("{name:44}{rust:>12}{:>12.3}{:>12.3}{:>8.2}", 1e3 * one, 1e3 * two, two / one);
    }
}
