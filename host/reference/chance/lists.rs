//! Lists of bits as they may be received: random, altered, or made to tie.

use crate::chance::random::Random;
use crate::model::bits::{ones, ones_at};
use crate::model::coding::convolve;
use crate::model::missing::{turned_over, MISSING};

/// Random bits.
pub fn random_bits(random: &mut Random, length: usize) -> Vec<u8> {
    (0..length).map(|_| random.below(2) as u8).collect()
}

/// A random candidate of n bits: the last four are 0.
pub fn candidate(random: &mut Random, n: usize) -> Vec<u8> {
    let mut u = random_bits(random, n);
    u[n - 4..].fill(0);
    u
}

/// So many of the indices, each at most once.
fn choose(random: &mut Random, mut indices: Vec<usize>, number: usize) -> Vec<usize> {
    let mut chosen = Vec::new();
    while chosen.len() < number && !indices.is_empty() {
        let index = random.below(indices.len());
        chosen.push(indices.swap_remove(index));
    }
    chosen
}

/// Turns over the bits at the indices.
fn turn_over(list: &mut [u8], indices: &[usize]) {
    for &k in indices {
        list[k] = turned_over(list[k]);
    }
}

/// So many indices of a list of this length, anywhere in it or all within a short stretch.
fn some_indices(random: &mut Random, whole: usize, number: usize) -> Vec<usize> {
    let stretch = if random.one_in(4) {
        whole.min(2 * number + 2)
    } else {
        whole
    };
    let first = random.below(whole - stretch + 1);
    choose(random, (first..first + stretch).collect(), number)
}

/// Alters the bits at the first so many of the indices, and those at the others are missing then.
fn alter_first_and_lose(list: &mut [u8], indices: &[usize], altered: usize) {
    let (altered, missing) = indices.split_at(altered.min(indices.len()));
    turn_over(list, altered);
    for &k in missing {
        list[k] = MISSING;
    }
}

/// Alters so many bits of a list, and so many others are missing then.
pub fn alter_and_lose(random: &mut Random, list: &mut [u8], altered: usize, missing: usize) {
    let indices = some_indices(random, list.len(), altered + missing);
    alter_first_and_lose(list, &indices, altered);
}

/// Alters so many bits of a list.
pub fn alter(random: &mut Random, list: &mut [u8], number: usize) {
    alter_and_lose(random, list, number, 0);
}

/// Loses so many bits of a list, which are missing then.
pub fn lose(random: &mut Random, list: &mut [u8], number: usize) {
    alter_and_lose(random, list, 0, number);
}

/// n bits, the last four 0, with an even number of ones that stand near each other.
pub fn short_difference(random: &mut Random, n: usize) -> Vec<u8> {
    let mut u = vec![0; n];
    let free = n.saturating_sub(4);
    if free < 2 {
        return u;
    }
    let span = free.min(2 + random.below(7));
    let first = random.below(free - span + 1);
    let last = first + span - 1;
    for k in first + 1..last {
        u[k] = random.below(2) as u8;
    }
    u[first] = 1;
    u[last] = 1;
    if ones(&u) % 2 == 1 {
        u[first + 1] = 1 - u[first + 1];
    }
    u
}

/// Moves a coded candidate towards the one that differs from it by these bits of u. Of the places in
/// which the two differ so many are missing then, and of the others half are altered, rounded down,
/// and so many more.
pub fn move_towards(
    random: &mut Random,
    list: &mut [u8],
    difference: &[u8],
    missing: usize,
    beyond_half: usize,
) {
    let places = ones_at(&convolve(difference));
    let altered = places.len().saturating_sub(missing) / 2 + beyond_half;
    let chosen = choose(random, places, altered + missing);
    alter_first_and_lose(list, &chosen, altered);
}

/// Moves a coded candidate of n bits half of the way to another one.
pub fn move_midway(random: &mut Random, list: &mut [u8], n: usize) {
    // Each one of u makes seven ones of c, so an even number of ones makes an even number.
    let difference = short_difference(random, n);
    move_towards(random, list, &difference, 0, 0);
}

/// All zeros or all ones, with a few bits turned over.
pub fn few_turned(random: &mut Random, length: usize) -> Vec<u8> {
    let mut list = vec![random.below(2) as u8; length];
    let number = random.below(9);
    alter(random, &mut list, number);
    list
}

/// One to eight bits, over and over.
pub fn pattern(random: &mut Random, length: usize) -> Vec<u8> {
    let period = 1 + random.below(8);
    let bits = random_bits(random, period);
    (0..length).map(|k| bits[k % period]).collect()
}

/// A list that no one sent: all alike but for a few, a pattern, random, or mostly missing.
pub fn unsent(random: &mut Random, length: usize) -> Vec<u8> {
    match random.below(4) {
        0 => few_turned(random, length),
        1 => pattern(random, length),
        2 => random_bits(random, length),
        _ => mostly_missing(random, length),
    }
}

/// Bits of which so many are missing that few are left, or none.
fn mostly_missing(random: &mut Random, length: usize) -> Vec<u8> {
    let mut list = random_bits(random, length);
    let left = random.pick(&[0, 1, 2, 5, 10, 20]).min(length);
    lose(random, &mut list, length - left);
    list
}

#[cfg(test)]
mod tests {
    use super::*;
    use crate::model::bits::zeros;

    #[test]
    fn so_many_bits_are_altered() {
        let mut random = Random::new(30);
        for number in 0..=20 {
            for _ in 0..20 {
                let mut list = vec![0; 36];
                alter(&mut random, &mut list, number);
                assert_eq!(ones(&list), number);
            }
        }
        // Not more than there are.
        let mut list = vec![0; 8];
        alter(&mut random, &mut list, 20);
        assert_eq!(list, [1; 8]);
        alter(&mut random, &mut [], 20);
    }

    #[test]
    fn so_many_bits_are_altered_and_so_many_others_missing() {
        let mut random = Random::new(209);
        for altered in 0..=8 {
            for missing in 0..=8 - altered {
                let mut list = vec![0; 8];
                alter_and_lose(&mut random, &mut list, altered, missing);
                assert_eq!(ones(&list), altered);
                assert_eq!(zeros(&list), 8 - altered - missing);
            }
        }
        let mut list = vec![0; 8];
        lose(&mut random, &mut list, 20);
        assert_eq!(list, [MISSING; 8]);
        // A bit that is missing is not altered.
        alter(&mut random, &mut list, 8);
        assert_eq!(list, [MISSING; 8]);
    }

    #[test]
    fn few_bits_are_left_where_most_are_missing() {
        let mut random = Random::new(210);
        let left = |list: &[u8]| ones(list) + zeros(list);
        for length in [0, 1, 8, 116] {
            for _ in 0..50 {
                assert!(left(&mostly_missing(&mut random, length)) <= length.min(20));
            }
        }
    }

    #[test]
    fn differences_have_an_even_number_of_ones_and_four_last_zeros() {
        let mut random = Random::new(31);
        for n in 6..=40 {
            for _ in 0..20 {
                let u = short_difference(&mut random, n);
                assert!(ones(&u) >= 2);
                assert_eq!(ones(&u) % 2, 0);
                assert_eq!(u[n - 4..], [0; 4]);
                assert_eq!(ones(&convolve(&u)) % 2, 0);
            }
        }
        assert_eq!(short_difference(&mut random, 5), [0; 5]);
        assert_eq!(short_difference(&mut random, 2), [0; 2]);
    }

    #[test]
    fn a_list_is_moved_towards_another_candidate_and_no_further_than_said() {
        let mut random = Random::new(321);
        for missing in 0..=8 {
            for beyond_half in 0..=3 {
                let difference = short_difference(&mut random, 18);
                let mut list = vec![0; 36];
                move_towards(&mut random, &mut list, &difference, missing, beyond_half);
                let differ = ones_at(&convolve(&difference));
                let moved: Vec<usize> = (0..36).filter(|&k| list[k] != 0).collect();
                assert!(moved.iter().all(|k| differ.contains(k)));
                let left = differ.len().saturating_sub(missing);
                let altered = (left / 2 + beyond_half).min(differ.len());
                assert_eq!(ones(&list), altered);
                assert_eq!(moved.len(), differ.len().min(altered + missing));
            }
        }
    }

    #[test]
    fn candidates_end_in_four_zeros() {
        let mut random = Random::new(322);
        for n in [4, 5, 18, 228] {
            let u = candidate(&mut random, n);
            assert_eq!((u.len(), &u[n - 4..]), (n, &[0; 4][..]));
        }
        let free = (0..200).map(|_| candidate(&mut random, 5)[0]);
        assert!((50..150).contains(&free.filter(|&bit| bit == 1).count()));
    }

    #[test]
    fn patterns_have_a_period_of_at_most_eight() {
        let mut random = Random::new(32);
        for _ in 0..100 {
            let list = pattern(&mut random, 36);
            assert!((1..=8).any(|period| list[..36 - period] == list[period..]));
        }
    }
}
