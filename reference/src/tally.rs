//! Counts of the answers that messages were given.

/// Answer numbers, 0 to 21.
pub const ANSWERS: usize = 22;

/// One count for each answer number. A full count stays.
#[derive(Clone, Debug, Default, PartialEq, Eq)]
pub struct Tally {
    pub counts: [u32; ANSWERS],
}

impl Tally {
    /// Counts the answer to one message. A number over 21 changes nothing, so a call that only waits is not counted.
    pub fn count(&mut self, answer: u8) {
        if let Some(count) = self.counts.get_mut(usize::from(answer)) {
            *count = count.saturating_add(1);
        }
    }
}

#[cfg(test)]
mod tests {
    use super::*;

    #[test]
    fn counting() {
        let mut tally = Tally::default();
        for answer in [0, 9, 0, 18, 19, 20, 21, 22, 255] {
            tally.count(answer);
        }
        assert_eq!([0, 9, 18, 19, 20, 21].map(|answer| tally.counts[answer]), [2, 1, 1, 1, 1, 1]);
        assert_eq!((tally.counts.iter().sum::<u32>(), tally.counts.len()), (7, 22));
        tally.counts[3] = u32::MAX - 1;
        tally.count(3);
        tally.count(3);
        assert_eq!(tally.counts[3], u32::MAX);
    }
}
