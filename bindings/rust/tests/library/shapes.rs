//! A picture's pixels and codels, which the room goes by.
use crate::support::{pixel, CELLS, TERMS};
use piet::{run_pixels, Colour, Edition, Picture, Shape, MOST_CODELS};

fn shape(height: usize, width: usize, codel: usize) -> Shape {
    Shape { height, width, codel }
}

#[test]
fn accepted() {
    let cases = [
        (shape(1, 1, 1), 1, 1),
        (shape(5, 7, 3), 35, 6),
        (shape(6, 9, 3), 54, 6),
        (shape(7, 10, 3), 70, 12),
        (shape(2, 3, 1_024), 6, 1),
        (shape(256, 256, 1), MOST_CODELS, MOST_CODELS),
        (shape(1_024, 1_024, 4), 1_048_576, MOST_CODELS),
    ];
    for (shape, pixels, codels) in cases {
        assert_eq!((shape.pixels(), shape.codels()), (pixels, codels), "{shape:?}");
        let red = pixel(Colour::Red).repeat(pixels);
        let told = run_pixels(Picture::of(&red, shape), Edition::Rust, TERMS, CELLS).unwrap();
        assert_eq!((told.regions, told.region.label()), (1, Ok("Entry".into())));
    }
}

/// What is refused is given a length that does no harm.
#[test]
fn refused() {
    let largest = usize::MAX;
    for (height, width) in [(0, 0), (0, largest), (largest, largest), (1_025, 1_024), (1_024, 1_024)] {
        for codel in [0, 1, 2, 1_025, largest] {
            let refused = shape(height, width, codel);
            assert!(refused.pixels() <= 1_024 * 1_024 && refused.codels() <= MOST_CODELS);
        }
    }
}
