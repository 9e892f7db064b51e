//! A disagreement made small.

use crate::case::Case;
use crate::run::run;
use crate::side::Side;
use std::time::{Duration, Instant};

/// The most time that is spent on one case.
const TIME: Duration = Duration::from_secs(30);

/// A simpler case on which the two still disagree; the case itself if they do not disagree on it.
pub fn shrink<A: Side, B: Side>(case: &Case) -> Case {
    let mut least = case.clone();
    match run::<A, B>(case) {
        Some((at, _)) => least.calls.truncate(at + 1),
        None => return least,
    }
    let began = Instant::now();
    loop {
        let before = least.clone();
        least.simplify(&mut |case| began.elapsed() < TIME && run::<A, B>(case).is_some());
        if least == before {
            return least;
        }
    }
}

#[cfg(test)]
mod tests {
    use super::*;
    use crate::broken::{Broken, FAULTS};
    use crate::compare::Difference;
    use crate::make::Maker;
    use crate::proved::Proved;
    use crate::run::{Counts, Runner};
    use crate::second::Reference;

    /// The first random case on which two implementations disagree.
    fn disagreement<A: Side, B: Side>() -> (Case, Difference) {
        for at in 0..2_000 {
            let mut maker = Maker::of_case(11, at);
            let mut case = Case { start: maker.start(), calls: Vec::new() };
            let mut runner = Runner::<A, B>::begin(&case.start);
            for _ in 0..30 {
                case.calls.push(maker.call(runner.station(), runner.route(), runner.names()));
                if let Err(difference) = runner.step(&case.calls[case.calls.len() - 1], &mut Counts::default()) {
                    return (case, difference);
                }
            }
        }
        panic!("no case shows the fault");
    }

    fn found_and_small<const FAULT: usize>() {
        let (case, difference) = disagreement::<Proved, Broken<FAULT>>();
        let least = shrink::<Proved, Broken<FAULT>>(&case);
        let (at, after) = run::<Proved, Broken<FAULT>>(&least).expect("it still disagrees");
        assert_eq!((&difference.what[..], &after.what[..]), (FAULTS[FAULT], FAULTS[FAULT]));
        assert_eq!(at + 1, least.calls.len());
        assert!(least.calls.len() <= 4 && least.text().len() < 1_500, "{}", least.text());
        assert_eq!(Case::read(&least.text()).as_ref(), Ok(&least));
        assert_eq!(shrink::<Proved, Reference>(&case), case);
    }

    #[test]
    fn faults_are_found_and_made_small() {
        found_and_small::<0>();
        found_and_small::<1>();
        found_and_small::<2>();
        found_and_small::<3>();
        found_and_small::<4>();
        found_and_small::<5>();
        found_and_small::<6>();
        found_and_small::<7>();
        found_and_small::<8>();
        found_and_small::<9>();
        found_and_small::<10>();
        found_and_small::<11>();
        found_and_small::<12>();
        found_and_small::<13>();
        found_and_small::<14>();
        found_and_small::<15>();
        found_and_small::<16>();
        found_and_small::<17>();
        found_and_small::<18>();
        found_and_small::<19>();
        found_and_small::<20>();
        found_and_small::<21>();
        found_and_small::<22>();
    }
}
