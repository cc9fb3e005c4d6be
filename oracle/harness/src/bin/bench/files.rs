//! Netpbm P6 files, beside a plain copy of the same pixels: the Rust has no reader of its own.
use crate::inputs::pixels;
use crate::timing::{fastest, line};
use harness::library;
use std::hint::black_box;

/// The most bytes of a file that is written, besides its pixels.
const HEADER: usize = 17;

pub fn measure() {
    let (pixels, side) = pixels();
    let bytes = pixels.as_flattened();
    let mut lent = vec![0; bytes.len()];
    let copy = fastest(|| black_box(&mut lent).copy_from_slice(black_box(bytes)));
    let (write, file) = written(bytes, side);
    let mut sides = [0; 2];
    let read = fastest(|| {
        assert_eq!(library::read_p6(&file, &mut lent, &mut sides), 0);
    });
    assert_eq!((&lent[..], sides), (bytes, [side as u64; 2]), "it is read back the same");
    for (name, ours) in [("read", read), ("write", write)] {
        let costs = [copy, ours].map(|seconds| 1e9 * seconds / pixels.len() as f64);
        line(&format!("{name} P6, 1024 x 1024"), "ns/pixel", costs, copy / ours);
    }
}

/// Seconds of the fastest writing, and the file.
fn written(bytes: &[u8], side: usize) -> (f64, Vec<u8>) {
    let (mut file, mut length) = (vec![0; HEADER + bytes.len()], [0]);
    let seconds = fastest(|| {
        assert_eq!(library::write_p6(bytes, (side, side), &mut file, &mut length), 0);
    });
    file.truncate(length[0] as usize);
    (seconds, file)
}
