//! How often a run enters each region, and which nodes it never enters (rule 17): counted from the list of the regions that
//! it enters, whoever has run it.

pub struct Visits {
    /// by region
    pub counts: Vec<u64>,
    /// rising
    pub unvisited: Vec<u32>,
}

impl Visits {
    /// Of a run that entered these regions, where it started among them, over a table with these node marks.
    pub fn of(entered: &[usize], marks: &[u32]) -> Visits {
        let regions = 0..marks.len();
        let times = |region: usize| entered.iter().filter(|&&other| other == region).count() as u64;
        let never = |region: &usize| marks[*region] == 1 && !entered.contains(region);
        Visits {
            counts: regions.clone().map(times).collect(),
            unvisited: regions.filter(never).map(|region| region as u32).collect(),
        }
    }
}

#[cfg(test)]
mod tests {
    use super::*;
    use crate::editions::tests::{ran_by_chance, ran_by_editions, run_up_to};
    use crate::editions::Left;

    /// The counts and the list of a picture's run by each edition.
    fn by_editions(lines: &[&str], limit: u64) -> [(Vec<u64>, Vec<u32>); 2] {
        ran_by_editions(lines, limit).map(|(built, left)| {
            let Visits { counts, unvisited } = Visits::of(&left.entered, &built.marks());
            (counts, unvisited)
        })
    }

    #[test]
    fn visits_of_the_rules() {
        let two = |limit: u64| by_editions(&["Rr"], limit);
        assert_eq!(two(3), [(); 2].map(|()| (vec![2, 2], vec![])));
        assert_eq!(two(0), [(); 2].map(|()| (vec![1, 0], vec![1])));
        let slides = by_editions(&["r#", ".r"], 5);
        assert_eq!(slides, [(); 2].map(|()| (vec![6, 0, 0, 0], vec![3])));
    }

    #[test]
    fn a_lost_slide_counts_nothing() {
        let [rust, page] = by_editions(&["r..", ".#."], 5);
        assert_eq!(rust, (vec![6, 0, 0, 0], vec![]));
        assert_eq!(page, (vec![1, 0, 0, 0], vec![]));
    }

    /// Where the Rust's own run stops at each limit, against the walk's list.
    #[test]
    fn the_regions_entered_are_where_runs_of_each_limit_stop() {
        for (question, built, ran) in ran_by_chance(500) {
            let stop = |limit| built.region(&run_up_to(limit, &question, &built).label);
            let stops = (0..=ran.answer.steps).map(stop);
            assert_eq!(Left::by_rust(&built, &ran).entered, stops.collect::<Vec<usize>>());
        }
    }

    #[test]
    fn marks_tell_what_is_listed_and_not_what_is_counted() {
        let of = |marks: &[u32]| {
            let Visits { counts, unvisited } = Visits::of(&[0, 2, 0], marks);
            (counts, unvisited)
        };
        assert_eq!(of(&[1, 1, 1, 1]), (vec![2, 0, 1, 0], vec![1, 3]));
        assert_eq!(of(&[0, 0, 0, 1]), (vec![2, 0, 1, 0], vec![3]));
    }
}
