//! The examples of the second edition, and its cases one by one.
use super::grid::{Codel, Landing, Way};
use super::*;
use crate::editions::{self, Left};
use crate::machine::Room;
use crate::paint::{drawn, ops, row};
use crate::picture::Built;
use crate::question::Question;
use crate::random::Random;
use piet_core::instruction::Instruction::{self, *};
use std::collections::HashSet;

const MIN: i64 = i64::MIN;
const MAX: i64 = i64::MAX;

fn grid(picture: &crate::picture::Picture) -> Grid {
    editions::grid(picture)
}

fn table(lines: &[&str]) -> Table {
    build(&grid(&drawn(1, lines))).expect("an entry that is not white")
}

fn terms(limit: u64, input: &[u8]) -> Terms<'_> {
    Terms { limit, is_abstract: false, input, stack: 16, outputs: 8 }
}

/// Over its table, which has to end as over its codels.
fn run_picture(picture: &crate::picture::Picture, terms: &Terms) -> End {
    let grid = grid(picture);
    let table = build(&grid).expect("an entry that is not white");
    let (rows, exits) = (table.rows.as_flattened(), table.exits.as_flattened());
    let end = run_table(table.rows.len(), rows, exits, terms).expect("a table that was built");
    let walked = run_grid(&grid, terms).expect("an entry that is not white");
    assert_eq!(walked, End { parting: walked.parting, ..end }, "with and without a table");
    walked
}

/// The first eight numbers.
fn ended(lines: &[&str], limit: u64) -> [u64; 8] {
    *run_picture(&drawn(1, lines), &terms(limit, b"")).numbers().first_chunk().expect("twelve")
}

/// The table of the first edition, and the first eight numbers of its run, by the Rust.
fn by_rust(lines: &[&str], limit: u64) -> (Built, [u64; 8]) {
    let (room, input) = (Room { stack: 16, outputs: 8 }, vec![]);
    let question = Question { picture: drawn(1, lines), limit, is_abstract: false, room, input };
    let (built, ran) = question.asked().expect("an entry that is not white");
    let numbers = Left::by_rust(&built, &ran).numbers;
    (built, *numbers.first_chunk().expect("twelve"))
}

fn executed(program: &[Instruction], input: &[u8]) -> End {
    run_picture(&row(&ops(program)), &terms(program.len() as u64, input))
}

/// The stack after these numbers were read and this instruction executed, which counts as a step.
fn on(numbers: &[i64], then: Instruction) -> Vec<i64> {
    let input: String = numbers.iter().map(|n| format!("{n}\n")).collect();
    let program = [vec![IntIn; numbers.len()], vec![then]].concat();
    let end = executed(&program, input.as_bytes());
    assert_eq!((end.status, end.steps), (MAX_STEPS, program.len() as u64));
    end.stack
}

/// Status, steps, the stack, bytes used.
fn read(program: &[Instruction], input: &[u8]) -> (u32, u64, Vec<i64>, usize) {
    let end = executed(program, input);
    (end.status, end.steps, end.stack, end.used)
}

#[test]
fn a_lost_slide_completes_at_once() {
    let lost = ["r.", "#."];
    assert_eq!(table(&lost).exits[0], [LOST, LOST, 0, 0, 0, 0, 0, 0]);
    assert_eq!(ended(&lost, 9), [1, 0, 0, 0, 0, 0, 0, 0]);
    assert_eq!(ended(&lost, 0), [2, 0, 0, 0, 0, 0, 0, 0]);
}

#[test]
fn a_lost_slide_hides_the_open_attempt_after_it() {
    let lost = ["r..", ".#."];
    assert_eq!(table(&lost).exits[0], [LOST, LOST, 393_217, 458_753, 0, 0, 0, 0]);
    assert_eq!(ended(&lost, 9), [1, 0, 0, 0, 0, 0, 0, 0]);
    for other in [&["rr.", ".#."][..], &["r.", "..", "#."]] {
        let exits = table(other).exits[0];
        assert!(exits[0] == LOST && exits.iter().any(|&e| e != 0 && e != LOST), "{other:?}");
        assert_eq!(ended(other, 9), [1, 0, 0, 0, 0, 0, 0, 0]);
    }
}

#[test]
fn a_lost_slide_after_a_step_and_after_shut_attempts_leaves_the_pointers() {
    let later = ["r.", "#r", ".."];
    assert_eq!(ended(&later, 9), [1, 1, 3, 1, 1, 0, 0, 0]);
    assert_eq!(ended(&later, 1), [2, 1, 3, 1, 1, 0, 0, 0]);
    // Right is shut, and the slide down is lost.
    let below = ["rr", "#r", ".."];
    assert_eq!(table(&below).exits[0], [0, 0, LOST, LOST, 0, 0, 0, 0]);
    assert_eq!(ended(&below, 9), [1, 0, 0, 0, 0, 0, 0, 0]);
}

#[test]
fn a_lost_slide_after_an_open_attempt_is_not_reached() {
    let beside = ["rrR", "#r#", "..#"];
    assert_eq!(table(&beside).exits[0], [1_048_578, 0, LOST, LOST, 0, 0, 0, 0]);
    assert_eq!(ended(&beside, 1), [2, 1, 1, 0, 0, 0, 0, 0]);
}

#[test]
fn nodes_are_found_through_white_though_its_slides_are_lost() {
    let Table { rows, exits, .. } = table(&["r.#", "#.r"]);
    assert_eq!((rows[4], rows[1][4]), ([6, 1, 1, 2, 1], 0));
    assert_eq!(exits[4], [0, 0, 0, 0, LOST, LOST, 0, 0]);
    assert_eq!(exits[0], [LOST, LOST, 0, 0, 0, 0, 0, 0]);
    // The white region itself has no exits in a table.
    assert_eq!(exits[1], [0; 8]);
}

const SPIRAL: [&str; 10] = [
    "r.......", "#######.", "......#.", ".####.#.", ".#..#.#.", ".#.r#.#.", ".#.##.#.", ".#....#.",
    ".######.", "........",
];

/// Where the slide of this state out of a codel's block lands.
fn landing(grid: &Grid, of: Codel, state: u32) -> Option<Landing> {
    match grid.attempt(&grid.block(of), Pointers::numbered(state)) {
        Way::Across { landing, .. } => landing,
        _ => None,
    }
}

#[test]
fn a_slide_is_lost_where_it_comes_back_to_its_first_state_or_to_a_later_one() {
    for lost in [&["r.", "#."][..], &["r..", "##."], &["r..", "r#."], &["r..", ".#."]] {
        assert_eq!(table(lost).exits[0][0], LOST, "{lost:?}");
    }
    assert_eq!(table(&["r..", "##."]).exits[0], [LOST, LOST, 0, 0, 0, 0, 0, 0]);
}

#[test]
fn the_smallest_table_with_a_long_slide() {
    let lines = ["r.##", "#...", "..r#"];
    assert_eq!(table(&lines).exits[4], [0, 0, 0, 0, 5, 65_541, 65_541, 5]);
    assert_eq!(by_rust(&lines, 0).0.exits[4], [0, 0, 0, 0, 5, 65_541, 0, 0]);
    let grid = grid(&drawn(1, &lines));
    let turns = |state| landing(&grid, grid.codel(10), state).map(|l| l.turns);
    assert_eq!([turns(6), turns(7)], [Some(9); 2]);
}

#[test]
fn the_smallest_run_with_a_long_slide() {
    let lines = ["r.##", "#..r", "...#", "##.#"];
    assert_eq!(table(&lines).exits[0][0], 5);
    let (built, ran) = by_rust(&lines, 9);
    assert_eq!((built.exits[0][0], ran), (0, [1, 0, 0, 0, 0, 0, 0, 0]));
    assert_eq!(ended(&lines, 1), [2, 1, 4, 0, 0, 0, 0, 0]);
    let end = run_picture(&drawn(1, &lines), &terms(1, b""));
    assert_eq!(end.parting, Some((0, Parting::LongSlide)));
}

#[test]
fn a_spiral_of_nine_turns_lands_on_a_node_of_this_edition_alone() {
    let Table { rows, exits, .. } = table(&SPIRAL);
    assert_eq!((exits[0], rows[3][4]), ([196_612, 131_076, 0, 0, 0, 0, 0, 0], 1));
    assert_eq!(ended(&SPIRAL, 1), [2, 1, 3, 1, 1, 0, 0, 0]);
    let (built, ran) = by_rust(&SPIRAL, 1);
    assert_eq!((built.exits[0], built.rows[3][4]), ([0; 8], 0));
    assert_eq!(ran, [1, 0, 0, 0, 0, 0, 0, 0]);
}

#[test]
fn a_spiral_around_black_is_lost() {
    let shut = SPIRAL.map(|line| line.replace(".r", ".#"));
    let shut = shut.each_ref().map(String::as_str);
    assert_eq!(table(&shut).exits[0], [LOST, LOST, 0, 0, 0, 0, 0, 0]);
    assert_eq!(ended(&shut, 9), [1, 0, 0, 0, 0, 0, 0, 0]);
    assert_eq!(by_rust(&shut, 9).0.exits[0], [0; 8]);
}

#[test]
fn spirals_about_the_eighth_turn() {
    let seven = ["r.....", "#####.", "....#.", ".##.#.", ".#r.#.", ".#..#.", ".####.", "......"];
    let eight = [
        "r.......", "#######.", "......#.", ".####.#.", ".#.r#.#.", ".#....#.", ".######.",
        "........",
    ];
    let turns = |lines: &[&str]| {
        let grid = grid(&drawn(1, lines));
        landing(&grid, grid.codel(0), 0).map(|l| l.turns)
    };
    assert_eq!([turns(&seven), turns(&eight), turns(&SPIRAL)], [7, 8, 9].map(Some));
    assert_eq!(by_rust(&seven, 0).0.exits, table(&seven).exits);
    assert_eq!(table(&eight).exits[0], [4, 65_540, 0, 0, 0, 0, 0, 0]);
    assert_eq!(by_rust(&eight, 0).0.exits[0], [0; 8]);
}

/// The slide from a white codel by another record: from so many stations on, of this much of the pointers.
fn recorded(
    grid: &Grid,
    (mut at, mut by): (Codel, Pointers),
    from: usize,
    kept: fn(Pointers) -> u32,
) -> Option<Landing> {
    let (mut had, mut turns) = (HashSet::new(), 0);
    for station in 0.. {
        if station >= from && !had.insert((at, kept(by))) {
            break;
        }
        match (at.next(by.dp), grid.colour(at.next(by.dp))) {
            (_, None | Some(18)) => (by, turns) = (by.switched(1).turned(1), turns + 1),
            (ahead, Some(19)) => at = ahead,
            (ahead, Some(_)) => return Some(Landing { at: ahead, by, turns }),
        }
    }
    None
}

#[test]
fn slides_are_the_same_by_records_with_cc_and_without_the_first_stations() {
    let mut random = Random::seeded(1);
    for grid in (0..500).map(|_| grid(&random.white_ways(16))) {
        let coloured = grid.codels().filter(|&c| !grid.is_white(c));
        for (of, state) in coloured.flat_map(|c| (0..8).map(move |state| (c, state))) {
            let by = Pointers::numbered(state);
            if let Way::Across { white, landing } = grid.attempt(&grid.block(of), by) {
                assert_eq!(landing, recorded(&grid, (white, by), 0, Pointers::number));
                assert_eq!(landing, recorded(&grid, (white, by), 1, |by| by.dp));
                assert_eq!(landing, recorded(&grid, (white, by), 9, |by| by.dp));
            }
        }
    }
}

/// By the Rust's exit of a node, and that of the model.
#[test]
fn the_first_edition_s_slides_land_the_same_and_others_turn_eight_times_or_more() {
    let (mut random, mut long) = (Random::seeded(2), 0);
    for picture in (0..500).map(|_| random.white_ways(20)) {
        let (rust, grid) = (crate::picture::build(&picture), grid(&picture));
        let model = build(&grid).expect("an entry that is not white");
        for (region, row) in rust.rows.iter().enumerate().filter(|(_, row)| row[4] == 1) {
            assert_eq!(*row, model.rows[region]);
            let first = rust.map.iter().position(|&r| r == region as u32).expect("a codel");
            for state in 0..8 {
                let turns = landing(&grid, grid.codel(first), state).map(|l| l.turns);
                let exits = [&rust.exits, &model.exits].map(|exits| exits[region][state as usize]);
                match (turns, exits) {
                    (Some(8..), [rust, model]) => assert!(rust == 0 && model != LOST),
                    (None, [rust, LOST]) => assert_eq!(rust, 0),
                    (_, [rust, model]) => assert_eq!(rust, model),
                }
                long += turns.is_some_and(|turns| turns >= 8) as u32;
            }
        }
    }
    assert!(long > 50, "{long} are long");
}

#[test]
fn black_and_white_entries() {
    assert_eq!(table(&["#."]).exits[0], [LOST, LOST, 0, 0, 0, 0, 0, 0]);
    assert_eq!(ended(&["#."], 9), [1, 0, 0, 0, 0, 0, 0, 0]);
    assert_eq!(ended(&["#r"], 9), [1, 1, 1, 0, 0, 0, 0, 0]);
    let white = grid(&drawn(1, &[".r"]));
    assert_eq!((build(&white), run_grid(&white, &terms(9, b""))), (None, None));
}

#[test]
fn the_map_and_the_rows_of_the_rules() {
    let two = table(&["Rr"]);
    assert_eq!((two.map, two.rows), (vec![0, 1], vec![[12, 1, 0, 0, 1], [6, 1, 0, 1, 1]]));
    assert_eq!(two.exits[0], [524_290, 589_826, 0, 0, 0, 0, 0, 0]);
    assert_eq!(two.exits[1], [0, 0, 0, 0, 1_310_721, 1_376_257, 0, 0]);
    assert_eq!(table(&["r."]).exits[0][..2], [262_145, 327_681]);
    assert_eq!(table(&["r.r"]).exits[0][..2], [3, 65_539]);
    let cut = build(&grid(&drawn(2, &["rryyb", "rryyb", "ggrr#"]))).expect("red");
    assert_eq!(cut.map, [0, 1, 2, 3, 4, 5]);
    assert_eq!(cut.rows[5], [18, 1, 2, 4, 0]);
}

/// The status of a run over one region, or 10.
fn over_one_region(exit: u32) -> u32 {
    let mut exits = [0; 8];
    exits[5] = exit;
    run_table(1, &[6, 1, 0, 0, 0], &exits, &terms(2, b"")).map_or(10, |end| end.status)
}

#[test]
fn refusal_10_takes_the_new_exit_and_no_other() {
    assert_eq!([0, LOST, 1].map(over_one_region), [COMPLETED, COMPLETED, MAX_STEPS]);
    assert_eq!([2, LOST - 1, LOST + 1, u32::MAX].map(over_one_region), [10; 4]);
    let (rows, mut exits) = (vec![0; 5 * 65_536], vec![0; 8 * 65_536]);
    exits[0] = LOST - 1;
    let last = run_table(65_536, &rows, &exits, &terms(1, b"")).expect("a table");
    assert_eq!((last.region, last.pointers.number()), (65_535, 7));
    assert_eq!(run_table(65_537, &[0; 5 * 65_537], &[0; 8 * 65_537], &terms(1, b"")), None);
    let sized = |n, rows, exits| {
        run_table(n, &[0; 15][..rows], &[0; 24][..exits], &terms(0, b"")).is_some()
    };
    assert!(sized(1, 5, 8) && sized(2, 11, 17));
    assert!(!sized(0, 5, 8) && !sized(2, 9, 16) && !sized(2, 10, 15));
    assert_eq!(run_table(1, &[6, 1, 0, 0, 2], &[0; 8], &terms(0, b"")), None);
    let past = [&[0; 8][..], &[LOST + 1; 8]].concat();
    assert!(run_table(1, &[6, 1, 0, 0, 1, 9, 9, 9, 9, 9], &past, &terms(0, b"")).is_some());
}

#[test]
fn a_table_of_the_first_edition_runs_by_its_exits() {
    let built = table(&["r..", ".#."]);
    let exits = built.exits.as_flattened().iter().map(|&e| if e == LOST { 0 } else { e });
    let (rows, exits) = (built.rows.as_flattened(), exits.collect::<Vec<u32>>());
    let end = run_table(built.rows.len(), rows, &exits, &terms(9, b"")).expect("a table");
    assert_eq!(end.numbers()[..8], [2, 9, 0, 3, 1, 0, 0, 0]);
}

#[test]
fn what_can_not_be_carried_out_leaves_the_stack() {
    assert_eq!(on(&[9, 7, 0], Div), [9, 7, 0]);
    assert_eq!(on(&[9, 7, 0], Mod), [9, 7, 0]);
    assert_eq!(on(&[5, 6, -1, 1], Roll), [5, 6, -1, 1]);
    assert_eq!(on(&[5, 6, 3, 1], Roll), [5, 6, 3, 1]);
    assert_eq!(on(&[5, 6, 0, 1], Roll), [5, 6]);
    assert_eq!(on(&[5, 6, 2, 1], Roll), [6, 5]);
    assert_eq!(on(&[4, 5, 6, 3, -1], Roll), [5, 6, 4]);
    assert_eq!(on(&[4, 5, 6, 3, MIN], Roll), on(&[4, 5, 6, 3, 1], Roll));
    assert_eq!(on(&[5, 6, MIN, 1], Roll), [5, 6, MIN, 1]);
    assert_eq!(on(&[5, 6, MAX, 1], Roll), [5, 6, MAX, 1]);
    assert_eq!((on(&[0, 1], Roll), on(&[1, 1], Roll)), (vec![], vec![1, 1]));
    assert_eq!((on(&[1], Roll), on(&[0], Div), on(&[0], Mod)), (vec![1], vec![0], vec![0]));
}

#[test]
fn modulo_has_the_sign_of_the_top() {
    let modulo = |b: i64, a: i64| on(&[b, a], Mod);
    let small = [modulo(7, -3), modulo(-7, -3), modulo(-7, 3), modulo(6, -3), modulo(7, 3)];
    assert_eq!(small.concat(), [-2, -1, 2, 0, 1]);
    let by_min = [5, -5, MIN, MAX].map(|b| modulo(b, MIN));
    assert_eq!(by_min.concat(), [5 + MIN, -5, 0, -1]);
    assert_eq!([MIN, -1, 0, 5, MAX].map(|b| modulo(b, -1)).concat(), [0; 5]);
}

#[test]
fn arithmetic_is_else_as_in_the_first_edition() {
    assert_eq!([on(&[-7, 2], Div), on(&[7, -2], Div), on(&[MIN, -1], Div)].concat(), [-3, -3, MIN]);
    assert_eq!(
        [on(&[MAX, 1], Add), on(&[MIN, 1], Sub), on(&[MIN, -1], Mul)].concat(),
        [MIN, MAX, MIN]
    );
    assert_eq!(on(&[MAX, MAX], Mul), [1]);
    assert_eq!(
        [on(&[2, 1], Gt), on(&[1, 1], Gt), on(&[0], Not), on(&[-4], Not)].concat(),
        [1, 0, 1, 0]
    );
    assert_eq!((on(&[3], Dup), on(&[3, 4], Pop)), (vec![3, 3], vec![3]));
    let written = |a: i64| executed(&[IntIn, CharOut], format!("{a}").as_bytes()).outputs;
    assert_eq!((written(4_294_967_361), written(55_296)), (vec![(1, 65)], vec![]));
    assert_eq!(executed(&[IntIn, IntOut], b"-3").outputs, [(2, -3)]);
    let turned = |i: Instruction, a: &str| executed(&[IntIn, i], a.as_bytes()).pointers.number();
    assert_eq!((turned(Ptr, "-1"), turned(Ptr, "6"), turned(Swi, "-3")), (6, 4, 1));
}

#[test]
fn char_in_leaves_the_rest_of_the_line() {
    assert_eq!(read(&[CharIn, CharIn], b"ab\ncd\n"), (2, 2, vec![97, 98], 2));
    assert_eq!(read(&[CharIn, IntIn], b"a12\n3"), (2, 2, vec![97, 12], 4));
    assert_eq!(read(&[CharIn, IntIn, IntIn], b"5\n6\n"), (2, 3, vec![53, 6], 4));
    assert_eq!(read(&[CharIn; 3], b"a\r\n"), (2, 3, vec![97, 13, 10], 3));
    assert_eq!(read(&[IntIn, CharIn], b"5\nab\n"), (2, 2, vec![5, 97], 3));
    assert_eq!(
        read(&[CharIn; 2], "\u{20AC}\u{1F600}".as_bytes()),
        (2, 2, vec![0x20AC, 0x1F600], 7)
    );
    assert_eq!(read(&[CharIn; 2], b"a"), (2, 2, vec![97], 1));
}

#[test]
fn bad_input_is_judged_by_all_that_is_left_of_the_line() {
    assert_eq!(read(&[CharIn], b"a\xFF\n"), (BAD_INPUT, 0, vec![], 0));
    assert_eq!(read(&[CharIn; 3], b"a\n\xFF"), (BAD_INPUT, 2, vec![97, 10], 2));
    assert_eq!(read(&[CharIn, IntIn], b"a\n\xFF"), (2, 2, vec![97], 2));
    let full = |input| {
        let end = run_picture(&row(&ops(&[CharIn])), &Terms { stack: 0, ..terms(5, input) });
        (end.status, end.steps, end.used)
    };
    assert_eq!((full(b"a\xFF\n"), full(b"a\n")), ((BAD_INPUT, 0, 0), (STACK_FULL, 0, 0)));
    assert_eq!(full(b"").1, 5);
}

#[test]
fn what_is_left_of_a_line_is_counted_as_a_line() {
    assert_eq!(executed(&[CharIn, IntIn, IntIn], b"a\n").skipped, [1, 1, 0, 0]);
    assert_eq!(executed(&[CharIn, IntIn], b"a x\n").skipped, [0, 0, 1, 0]);
    assert_eq!(executed(&[CharIn, IntIn], b"a9223372036854775808").skipped, [0, 0, 0, 1]);
    assert_eq!(executed(&[CharIn, IntIn], b"a9223372036854775808x").skipped, [0, 0, 1, 0]);
    let five = executed(&[IntIn; 5], b"7\n \nx\n99999999999999999999\n");
    assert_eq!((five.stack, five.skipped), (vec![7], [1; 4]));
    let numbers =
        "+5\n-0009223372036854775808\n0000000000000000000000000005\n\u{3000}8\u{3000}\r\n";
    assert_eq!(executed(&[IntIn; 4], numbers.as_bytes()).stack, [5, MIN, 5, 8]);
}

#[test]
fn stops() {
    let unread = Terms { is_abstract: true, ..terms(9, b"\xFF") };
    let end = run_picture(&row(&ops(&[CharIn, Push])), &unread);
    assert_eq!((end.status, end.steps, end.used, end.skipped), (NEEDS_INPUT, 1, 0, [0; 4]));
    let two = row(&[(Push, 2), (IntOut, 1)]);
    let no_room = |stack, outputs| {
        let end = run_picture(&two, &Terms { stack, outputs, ..terms(9, b"") });
        (end.status, end.steps)
    };
    assert_eq!((no_room(0, 0), no_room(1, 0)), ((STACK_FULL, 0), (OUTPUT_FULL, 1)));
}
