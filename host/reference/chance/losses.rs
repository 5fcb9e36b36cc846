//! Losses: bits and flags that are missing, as a cable may lose them, and round the weight up to
//! which a block or its kind is found all the same.

use crate::chance::lists;
use crate::chance::random::Random;
use crate::model::missing::MISSING;

/// Loses bits of a list: one, a few, a run, those at every second, fourth or eighth place, half of
/// them, most or all. Of a list that is not empty, one is lost at least.
pub fn lose_some(random: &mut Random, list: &mut [u8]) {
    let whole = list.len();
    match random.below(12) {
        0 | 1 => lists::lose(random, list, 1),
        2..=4 => {
            let few = 2 + random.below(7);
            lists::lose(random, list, few);
        }
        5 | 6 => lose_run(random, list),
        7 | 8 => lose_regularly(random, list),
        9 => lists::lose(random, list, (whole / 2).max(1)),
        10 => {
            let left = random.below(10);
            lists::lose(random, list, whole.saturating_sub(left).max(1));
        }
        _ => list.fill(MISSING),
    }
}

/// Loses a run of up to twenty bits.
fn lose_run(random: &mut Random, list: &mut [u8]) {
    let from = random.below(list.len().max(1));
    let run = 1 + random.below(20);
    for bit in list.iter_mut().skip(from).take(run) {
        *bit = MISSING;
    }
}

/// Loses the bits at every second, fourth or eighth place, as bursts do.
fn lose_regularly(random: &mut Random, list: &mut [u8]) {
    let step = random.pick(&[2, 4, 8]);
    let from = random.below(step.min(list.len().max(1)));
    for bit in list.iter_mut().skip(from).step_by(step) {
        *bit = MISSING;
    }
}

/// Alters some bits of a list and loses others; an altered one weighs twice as much as a missing
/// one, and together they have this weight.
pub fn damage(random: &mut Random, list: &mut [u8], weight: usize) {
    let altered = random.below(weight / 2 + 1);
    lists::alter_and_lose(random, list, altered, weight - 2 * altered);
}

/// Eight flags, so many of them 1 and so many 0; the others are missing.
pub fn flags_of(random: &mut Random, ones: usize, zeros: usize) -> Vec<u8> {
    let mut flags = vec![1; 8];
    lists::alter_and_lose(random, &mut flags, zeros, 8 - ones - zeros);
    flags
}

/// Eight flags, as many of them 1 as 0: four of each, or fewer and the others missing.
pub fn equal_flags(random: &mut Random) -> Vec<u8> {
    let each = random.below(5);
    flags_of(random, each, each)
}

/// Eight flags of which one more is 1 than is 0, or one fewer; one at least is missing.
pub fn nearly_equal_flags(random: &mut Random) -> Vec<u8> {
    let fewer = random.below(4);
    let (ones, zeros) = random.pick(&[(fewer, fewer + 1), (fewer + 1, fewer)]);
    flags_of(random, ones, zeros)
}

#[cfg(test)]
mod tests {
    use super::*;
    use crate::model::bits::{ones, zeros};

    /// How many bits of a list are missing.
    fn missing(list: &[u8]) -> usize {
        list.len() - ones(list) - zeros(list)
    }

    #[test]
    fn bits_are_lost_and_none_altered() {
        let mut random = Random::new(211);
        for length in [0, 1, 2, 8, 36, 116, 456] {
            for _ in 0..100 {
                let mut list = vec![1; length];
                lose_some(&mut random, &mut list);
                assert_eq!(zeros(&list), 0);
                assert_eq!(missing(&list) > 0, length > 0);
            }
        }
    }

    #[test]
    fn one_few_half_most_and_all_are_lost() {
        let mut random = Random::new(212);
        let mut seen = [0; 37];
        for _ in 0..2000 {
            let mut list = vec![0; 36];
            lose_some(&mut random, &mut list);
            seen[missing(&list)] += 1;
        }
        assert!((1..=8).chain([18, 36]).all(|number| seen[number] > 40));
        assert!(seen[27..36].iter().sum::<usize>() > 80, "{:?}", seen);
    }

    #[test]
    fn runs_are_lost_at_both_ends_and_between() {
        let mut random = Random::new(213);
        let mut seen = [0; 3];
        for _ in 0..1000 {
            let mut list = vec![0; 36];
            lose_run(&mut random, &mut list);
            let lost: Vec<usize> = (0..36).filter(|&k| list[k] == MISSING).collect();
            let (first, last) = (lost[0], lost[lost.len() - 1]);
            assert_eq!(last - first + 1, lost.len());
            seen[0] += usize::from(first == 0);
            seen[1] += usize::from(first > 0 && last < 35);
            seen[2] += usize::from(last == 35);
        }
        assert!(seen.iter().all(|&times| times > 10), "{:?}", seen);
    }

    #[test]
    fn regular_losses_leave_one_of_each_pair() {
        let mut random = Random::new(214);
        for _ in 0..100 {
            let mut list = vec![0; 48];
            lose_regularly(&mut random, &mut list);
            assert!([6, 12, 24].contains(&missing(&list)));
            assert!(list.chunks(2).all(|pair| missing(pair) <= 1));
        }
    }

    #[test]
    fn damage_has_its_weight_in_every_way() {
        let mut random = Random::new(215);
        for weight in 0..=8 {
            let mut seen = [0; 5];
            for _ in 0..200 {
                let mut list = vec![0; 36];
                damage(&mut random, &mut list, weight);
                assert_eq!(2 * ones(&list) + missing(&list), weight);
                seen[ones(&list)] += 1;
            }
            assert!(seen[..=weight / 2].iter().all(|&times| times > 10));
        }
    }

    #[test]
    fn flags_have_their_votes() {
        let mut random = Random::new(216);
        for sent in 0..=8 {
            for others in 0..=8 - sent {
                let flags = flags_of(&mut random, sent, others);
                assert_eq!((ones(&flags), zeros(&flags)), (sent, others));
            }
        }
    }

    #[test]
    fn equal_and_nearly_equal_votes_come_in_every_number() {
        let mut random = Random::new(217);
        let mut seen = [[0; 5]; 5];
        for _ in 0..1000 {
            for flags in [equal_flags(&mut random), nearly_equal_flags(&mut random)] {
                seen[ones(&flags)][zeros(&flags)] += 1;
            }
        }
        for (ones, row) in seen.iter().enumerate() {
            for (zeros, &times) in row.iter().enumerate() {
                let is_near = ones.abs_diff(zeros) <= 1;
                assert_eq!(times > 50, is_near, "{} {}: {}", ones, zeros, times);
            }
        }
    }
}
