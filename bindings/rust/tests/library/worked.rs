//! The worked job, light red and red with a limit of three steps: call by call, in one call, and with the room made. It
//! is the same in both editions.
use crate::support::{built_in, pixels, row_of, Slices, CELLS, PATTERN, TERMS};
use piet::{
    classify, determine_runs_forever, run, run_picture, run_pixels, Cc, Cells, Colour, Dp, Edition, Ended,
    Picture, Pictured, Pointers, Skipped, Status, Unknown,
};

const COLOURS: [Colour; 2] = [Colour::LightRed, Colour::Red];
const ENDED: Ended = Ended {
    status: Status::MaxSteps,
    steps: 3,
    region: 1,
    pointers: Pointers { dp: Dp::Right, cc: Cc::Left },
    depth: 1,
    outputs: 0,
    used: 0,
    skipped: Skipped::NONE,
};
const ROWS: [u32; 10] = [12, 1, 0, 0, 1, 6, 1, 0, 1, 1];
const EXITS: [u32; 16] = [524_290, 589_826, 0, 0, 0, 0, 0, 0, 0, 0, 0, 0, 1_310_721, 1_376_257, 0, 0];

#[test]
fn call_by_call() {
    let mut colours = [PATTERN; 3];
    classify(&pixels(&COLOURS), (1, 2), Unknown::Refused, &mut colours).unwrap();
    assert_eq!(colours, [12, 6, PATTERN]);

    for edition in Edition::ALL {
        let (regions, mut slices) = built_in(edition, &COLOURS, row_of(2));
        assert_eq!((regions, determine_runs_forever(slices.table(2))), (2, Ok(true)));
        assert_eq!(slices.table, [vec![0, 1], ROWS.to_vec(), EXITS.to_vec(), vec![0, 0]]);

        let table = slices.clone();
        assert_eq!(run(table.table(regions), edition, TERMS, slices.lent().run), Ok(ENDED));
        let (bottom, above) = slices.stack.split_first().unwrap();
        assert_eq!((*bottom, above, &slices.values[..]), (1, &[0; 255][..], &[0; 256][..]));
        assert_eq!(slices.kinds, [0; 256]);
    }
}

#[test]
fn in_one_call() {
    Edition::ALL.into_iter().for_each(one_call);
}

fn one_call(edition: Edition) {
    let mut slices = Slices::of(row_of(3), Cells { stack: 3, outputs: 2 });
    slices.values.push(9);
    let picture = &pixels(&COLOURS);
    let answer = run_picture(Picture::of(picture, row_of(2)), edition, TERMS, slices.lent());
    assert_eq!(answer, Ok(Pictured { ended: ENDED, regions: 2 }));
    assert_eq!(slices.colours, [12, 6, PATTERN]);
    // the cells of the third codel, for which there was no need, stay
    let longer = |cells: &[u32], kept| [cells, &vec![u32::from(PATTERN); kept][..]].concat();
    let table = [longer(&[0, 1], 1), longer(&ROWS, 5), longer(&EXITS, 8), longer(&[0, 0], 1)];
    assert_eq!(slices.table, table);
    assert_eq!((slices.stack, slices.kinds, slices.values), (vec![1, 0, 0], vec![0; 2], vec![0; 3]));
}

#[test]
fn with_the_room_made() {
    for edition in Edition::ALL {
        let told = run_pixels(Picture::of(&pixels(&COLOURS), row_of(2)), edition, TERMS, CELLS).unwrap();
        assert_eq!(told.to_string(), "status 2\nsteps 3\nat RegRed_0_1 0 0\nstack 1 1\nout 0\n");
        assert_eq!((told.ended, told.regions, told.stack, told.outputs), (ENDED, 2, vec![1], vec![]));
    }
}
