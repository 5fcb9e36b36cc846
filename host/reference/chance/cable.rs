//! The cable: alters and loses bits of an ended stream, block by block and burst by burst.

use crate::chance::lists::{self, random_bits};
use crate::chance::losses;
use crate::chance::random::Random;
use crate::model::bits::inverted;
use crate::model::burst::Interleaving::Diagonal;
use crate::model::burst::BURST;
use crate::model::missing::MISSING;

/// What alters the bursts of an ended stream, or loses them.
pub type Cable = fn(&mut Random, &mut [Vec<u8>]);

/// The cable of a lesson: quiet and noisy stretches, altered and missing flags, bad and missing
/// bursts.
pub fn lesson(random: &mut Random, bursts: &mut [Vec<u8>]) {
    let mut noisy = random.one_in(3);
    for n in 0..blocks(bursts) {
        if random.one_in(6) {
            noisy = !noisy;
        }
        let noise = if noisy { noisy_bits } else { quiet_bits };
        change_block(bursts, n, |c, flags| {
            noise(random, c);
            let number = altered_flags(random);
            lists::alter(random, flags, number);
            if number == 4 && random.one_in(2) {
                drown(random, c);
            }
            match random.below(20) {
                0 => losses::lose_some(random, c),
                1 => losses::lose_some(random, flags),
                _ => {}
            }
        });
    }
    for burst in 0..bursts.len() {
        match random.below(120) {
            0..=2 => spoil_burst(random, bursts, burst),
            3 => silence(random, bursts, burst),
            4 | 5 => bursts[burst].fill(MISSING),
            6 => pull(random, bursts, burst),
            _ => {}
        }
    }
}

/// The cable of a lesson on ties: of most blocks as many flags are 1 as are 0, of the others more or
/// fewer, whatever the kind. The bits are quiet, noisy or such as no one sent.
pub fn ties(random: &mut Random, bursts: &mut [Vec<u8>]) {
    for n in 0..blocks(bursts) {
        change_block(bursts, n, |c, flags| {
            match random.below(10) {
                0..=5 => quiet_bits(random, c),
                6 | 7 => noisy_bits(random, c),
                _ => c.copy_from_slice(&lists::unsent(random, c.len())),
            }
            flags.copy_from_slice(&any_votes(random));
        });
    }
}

/// Eight flags of which mostly as many are 1 as are 0.
fn any_votes(random: &mut Random) -> Vec<u8> {
    match random.below(20) {
        0..=8 => losses::flags_of(random, 4, 4),
        9..=11 => losses::equal_flags(random),
        12 | 13 => losses::nearly_equal_flags(random),
        _ => {
            let (ones, zeros) = random.pick(&[(0, 8), (3, 5), (5, 3), (8, 0)]);
            losses::flags_of(random, ones, zeros)
        }
    }
}

/// The cable of a lesson on what is missing: bits and flags altered and lost round the weight up to
/// which they are borne, single bursts that never come, and a cable that is pulled.
pub fn missing(random: &mut Random, bursts: &mut [Vec<u8>]) {
    for n in 0..blocks(bursts) {
        change_block(bursts, n, |c, flags| {
            lose_bits(random, c);
            lose_flags(random, flags);
        });
    }
    for burst in 0..bursts.len() {
        match random.below(200) {
            0..=3 => bursts[burst].fill(MISSING),
            4 => pull(random, bursts, burst),
            _ => {}
        }
    }
}

/// The cable of a lesson on lost bursts: all, many or few of one class, those of even numbers or those
/// of odd, never come. Of some lessons one or more of the other class are lost too, or bits altered.
pub fn bursts(random: &mut Random, bursts: &mut [Vec<u8>]) {
    let class = random.below(2);
    let one_in = random.pick(&[1, 2, 2, 3, 8]);
    let others = random.pick(&[0, 0, 0, 3, 8]);
    for (number, e) in bursts.iter_mut().enumerate() {
        let is_lost = match number % 2 == class {
            true => random.one_in(one_in),
            false => others > 0 && random.one_in(others),
        };
        if is_lost {
            e.fill(MISSING);
        }
    }
    if random.one_in(8) && !bursts.is_empty() {
        let burst = random.below(bursts.len());
        spoil_burst(random, bursts, burst);
    }
}

/// Loses bits of a block: mostly round the weight that is borne, among bits that are protected in
/// speech too.
fn lose_bits(random: &mut Random, c: &mut [u8]) {
    match random.below(12) {
        0..=5 => {
            let weight = random.pick(&[1, 4, 5, 6, 6, 6, 7, 7, 8]);
            losses::damage(random, &mut c[..378], weight);
        }
        6 => losses::lose_some(random, &mut c[378..]),
        7 => losses::lose_some(random, c),
        8 => {
            noisy_bits(random, c);
            losses::lose_some(random, c);
        }
        9 => c.copy_from_slice(&lists::unsent(random, c.len())),
        _ => {}
    }
}

/// Loses flags of a block: mostly round the weight that is borne.
fn lose_flags(random: &mut Random, flags: &mut [u8]) {
    match random.below(10) {
        0..=4 => {
            let weight = random.pick(&[1, 5, 6, 7, 7, 7, 8, 8]);
            losses::damage(random, flags, weight);
        }
        5 => flags.copy_from_slice(&losses::equal_flags(random)),
        6 => flags.copy_from_slice(&losses::nearly_equal_flags(random)),
        7 => flags.fill(MISSING),
        _ => {}
    }
}

/// The cable of a long stream: few bits and flags altered or lost now and then, a block drowned or a
/// burst bad or missing seldom.
pub fn light(random: &mut Random, bursts: &mut [Vec<u8>]) {
    for n in 0..blocks(bursts) {
        change_block(bursts, n, |c, flags| match random.below(100) {
            0..=11 => quiet_bits(random, c),
            12 | 13 => lists::alter(random, flags, 3),
            14 => lists::alter(random, flags, 4),
            15 => {
                lists::alter(random, flags, 4);
                drown(random, c);
            }
            16 => lose_bits(random, c),
            17 => lose_flags(random, flags),
            _ => {}
        });
    }
    for burst in 0..bursts.len() {
        match random.below(1000) {
            0 => spoil_burst(random, bursts, burst),
            1 => bursts[burst].fill(MISSING),
            2 => pull(random, bursts, burst),
            _ => {}
        }
    }
}

/// N blocks make 4N+4 bursts.
fn blocks(bursts: &[Vec<u8>]) -> usize {
    (bursts.len() / 4).saturating_sub(1)
}

/// Changes the coded bits and the flags of block n, and nothing else.
pub fn change_block(bursts: &mut [Vec<u8>], n: usize, change: impl FnOnce(&mut [u8], &mut [u8])) {
    let (mut c, mut flags) = (Diagonal(n).bits(bursts), Diagonal(n).flags(bursts));
    change(&mut c, &mut flags);
    Diagonal(n).put_bits(bursts, &c);
    Diagonal(n).put_flags(bursts, &flags);
}

/// 0 to 3 altered bits, or only bits that are unprotected in speech.
fn quiet_bits(random: &mut Random, c: &mut [u8]) {
    let (few, many) = (random.below(4), random.below(79));
    match random.below(8) {
        0 => lists::alter(random, &mut c[378..], many),
        // Three bits that are protected in speech too.
        1 | 2 => lists::alter(random, &mut c[..378], 3),
        _ => lists::alter(random, c, few),
    }
}

/// 4 to 60 altered bits, or half of the way to another candidate.
fn noisy_bits(random: &mut Random, c: &mut [u8]) {
    let number = random.pick(&[4, 5, 6, 7, 8, 10, 12, 15, 20, 30, 45, 60]);
    match random.below(5) {
        // The candidates of speech, 189 bits, are candidates of FACCH too.
        0 => lists::move_midway(random, c, 189),
        _ => lists::alter(random, c, number),
    }
}

/// 90 altered bits, which leave the parity bad as either kind, mostly.
fn drown(random: &mut Random, c: &mut [u8]) {
    lists::alter(random, c, 90);
}

/// How many of a block's flags are altered: mostly none, or so many that the vote is near.
fn altered_flags(random: &mut Random) -> usize {
    match random.below(20) {
        0 => 1 + random.below(2),
        1..=3 => 3,
        4..=6 => 4,
        7 => 5,
        8 => 6 + random.below(3),
        _ => 0,
    }
}

/// A single burst inverted, with its flags or without, zeroed, all ones, random or the one before.
fn spoil_burst(random: &mut Random, bursts: &mut [Vec<u8>], burst: usize) {
    let e = &bursts[burst];
    bursts[burst] = match random.below(7) {
        0 | 1 => inverted(e),
        2 => [&inverted(&e[..57]), &e[57..=58], &inverted(&e[59..])].concat(),
        3 => vec![0; BURST],
        4 => vec![1; BURST],
        5 => random_bits(random, BURST),
        _ => bursts[burst.saturating_sub(1)].clone(),
    };
}

/// The cable is off for some bursts, which are all zeros.
fn silence(random: &mut Random, bursts: &mut [Vec<u8>], first: usize) {
    fill_some(random, bursts, first, 0);
}

/// The cable is pulled for some bursts, which never come.
fn pull(random: &mut Random, bursts: &mut [Vec<u8>], first: usize) {
    fill_some(random, bursts, first, MISSING);
}

/// Two bursts or some more have this byte in all of their places.
fn fill_some(random: &mut Random, bursts: &mut [Vec<u8>], first: usize, byte: u8) {
    let last = bursts.len().min(first + 2 + random.below(8));
    for e in &mut bursts[first..last] {
        e.fill(byte);
    }
}

#[cfg(test)]
mod tests {
    use super::*;
    use crate::model::bits::{self, ones};
    use crate::model::channel::{Channel, CONTROL, NO_IDENTITY, SPEECH};

    /// The bursts of so many blocks, all zeros.
    fn zeros(blocks: usize) -> Vec<Vec<u8>> {
        vec![vec![0; BURST]; 4 * blocks + 4]
    }

    #[test]
    fn bursts_stay_bursts() {
        let mut random = Random::new(71);
        for number in 0..20 {
            for cable in [lesson, ties, missing, bursts, light] {
                let mut bursts = if number == 0 {
                    Vec::new()
                } else {
                    zeros(number)
                };
                let length = bursts.len();
                cable(&mut random, &mut bursts);
                assert_eq!(bursts.len(), length);
                assert!(bursts.iter().all(|e| e.len() == BURST));
                assert!(bursts.concat().iter().all(|&bit| bit <= MISSING));
            }
        }
    }

    #[test]
    fn only_the_block_that_is_meant_is_altered() {
        let mut random = Random::new(72);
        for number in 0..=8 {
            let mut bursts = zeros(3);
            change_block(&mut bursts, 1, |c, flags| {
                noisy_bits(&mut random, c);
                lists::alter(&mut random, flags, number);
            });
            assert!(ones(&Diagonal(1).bits(&bursts)) >= 2);
            assert_eq!(ones(&Diagonal(1).flags(&bursts)), number);
            for n in [0, 2] {
                assert_eq!(ones(&Diagonal(n).bits(&bursts)), 0);
                assert_eq!(ones(&Diagonal(n).flags(&bursts)), 0);
            }
        }
    }

    #[test]
    fn only_the_burst_that_is_meant_is_spoiled() {
        let mut random = Random::new(73);
        for burst in (0..8).cycle().take(100) {
            let sent: Vec<Vec<u8>> = (0..8).map(|_| random_bits(&mut random, BURST)).collect();
            let mut bursts = sent.clone();
            spoil_burst(&mut random, &mut bursts, burst);
            for other in (0..8).filter(|&other| other != burst) {
                assert_eq!(bursts[other], sent[other]);
            }
        }
    }

    #[test]
    fn bursts_of_one_class_are_lost_whole_and_of_both_classes_sometimes() {
        let mut random = Random::new(300);
        let mut seen = [[0; 2]; 2];
        for _ in 0..1000 {
            let mut all = zeros(4);
            bursts(&mut random, &mut all);
            let is_lost = |e: &Vec<u8>| e.iter().all(|&bit| bit == MISSING);
            let is_class_lost =
                |class: usize| all.iter().skip(class).step_by(2).any(|e| is_lost(e));
            seen[usize::from(is_class_lost(0))][usize::from(is_class_lost(1))] += 1;
            // A burst that is not lost has nothing missing.
            assert!(all.iter().all(|e| is_lost(e) || !e.contains(&MISSING)));
        }
        assert!(seen[1][0] > 200 && seen[0][1] > 200 && seen[1][1] > 100);
    }

    #[test]
    fn every_number_of_flags_is_altered() {
        let mut random = Random::new(74);
        let mut seen = [0; 9];
        for _ in 0..2000 {
            seen[altered_flags(&mut random)] += 1;
        }
        assert!(seen.iter().all(|&times| times > 20), "{:?}", seen);
        assert!(seen[3] > 200 && seen[4] > 200);
    }

    #[test]
    fn most_blocks_tie_on_the_cable_of_ties() {
        let mut bursts = zeros(1000);
        ties(&mut Random::new(187), &mut bursts);
        let mut seen = [[0; 9]; 9];
        for n in 0..1000 {
            let flags = Diagonal(n).flags(&bursts);
            seen[ones(&flags)][bits::zeros(&flags)] += 1;
        }
        let times = |votes: &[(usize, usize)]| -> Vec<usize> {
            votes
                .iter()
                .map(|&(ones, zeros)| seen[ones][zeros])
                .collect()
        };
        assert!(seen[4][4] > 400, "{:?}", seen);
        let others = [(0, 8), (3, 5), (5, 3), (8, 0)];
        let equal = [(0, 0), (1, 1), (2, 2), (3, 3)];
        let nearly = [
            (0, 1),
            (1, 2),
            (2, 3),
            (3, 4),
            (1, 0),
            (2, 1),
            (3, 2),
            (4, 3),
        ];
        assert!(times(&others).iter().all(|&times| times > 25), "{:?}", seen);
        assert!(times(&equal).iter().all(|&times| times > 15), "{:?}", seen);
        assert!(times(&nearly).iter().all(|&times| times > 3), "{:?}", seen);
    }

    /// How many bits of a list are missing.
    fn missing_of(list: &[u8]) -> usize {
        list.iter().filter(|&&bit| bit == MISSING).count()
    }

    #[test]
    fn every_weight_round_what_is_borne_is_on_the_cable_of_what_is_missing() {
        let mut bursts = zeros(4000);
        missing(&mut Random::new(218), &mut bursts);
        let (mut of_bits, mut of_flags) = ([[0; 9]; 5], [[0; 9]; 5]);
        for n in 0..4000 {
            let (c, flags) = (Diagonal(n).bits(&bursts), Diagonal(n).flags(&bursts));
            for (list, seen) in [(&c[..378], &mut of_bits), (&flags[..], &mut of_flags)] {
                let (altered, missing) = (ones(list), missing_of(list));
                if altered < 5 && missing < 9 {
                    seen[altered][missing] += 1;
                }
            }
        }
        for altered in 0..=3 {
            for weight in [6, 7] {
                let missing = weight - 2 * altered;
                assert!(of_bits[altered][missing] > 30, "{} {}", altered, missing);
            }
            for weight in [7, 8] {
                let missing = weight - 2 * altered;
                assert!(of_flags[altered][missing] > 30, "{} {}", altered, missing);
            }
        }
    }

    #[test]
    fn bursts_never_come_by_themselves_and_one_after_another() {
        let mut bursts = zeros(1000);
        missing(&mut Random::new(219), &mut bursts);
        let lost: Vec<bool> = bursts.iter().map(|e| missing_of(e) == BURST).collect();
        let alone = lost
            .windows(3)
            .filter(|three| *three == [false, true, false]);
        let together = lost.windows(4).filter(|four| *four == [true; 4]);
        assert!(alone.count() > 40 && together.count() > 20);
    }

    #[test]
    fn quiet_blocks_are_within_the_promise() {
        let mut random = Random::new(75);
        let mut seen = [0; 4];
        for _ in 0..1000 {
            let mut c = vec![0; 456];
            quiet_bits(&mut random, &mut c);
            // The protected bits of speech.
            seen[ones(&c[..378])] += 1;
        }
        assert!(seen.iter().all(|&times| times > 100), "{:?}", seen);
    }

    #[test]
    fn drowned_blocks_are_mostly_bad_as_either_kind() {
        let mut random = Random::new(188);
        let is_bad = |channel: Channel, c: &[u8]| {
            let answer = channel.decode(NO_IDENTITY, c, channel.reads);
            answer.is_err()
        };
        for sent in [SPEECH, CONTROL] {
            let is_drowned = |_: &usize| {
                let mut c = sent.coded(NO_IDENTITY, &random_bits(&mut random, sent.reads));
                drown(&mut random, &mut c);
                is_bad(SPEECH, &c) && is_bad(CONTROL, &c)
            };
            let number = (0..100).filter(is_drowned).count();
            assert!(number > 70, "{}: {}", sent.name, number);
        }
    }

    #[test]
    fn the_light_cable_leaves_most_blocks() {
        let mut bursts = zeros(2000);
        light(&mut Random::new(76), &mut bursts);
        let untouched = (0..2000)
            .filter(|&n| ones(&Diagonal(n).bits(&bursts)) == 0)
            .filter(|&n| ones(&Diagonal(n).flags(&bursts)) == 0)
            .count();
        assert!(untouched > 1500 && untouched < 1900, "{}", untouched);
    }
}
