//! The values of the table of examples, each worked out by the model: one line for each row.

use crate::model::bits::{bits_of, ones, ones_at};
use crate::model::channel::{Channel, ACCESS, CONTROL, EFR, NO_IDENTITY, SCH, SPEECH};
use crate::model::coding::convolve;
use crate::model::decoding::nearest;
use crate::model::efr;
use crate::model::exhaustive::Pairs;
use crate::model::missing::MISSING;
use crate::model::polynomial::{from_bits, parity, remainder};
use crate::model::sending_stream::sent_and_ended;

/// The lines, their numbers parted by single spaces.
pub fn lines() -> Vec<String> {
    rows().iter().map(|row| line(row)).collect()
}

/// Numbers parted by single spaces.
fn line(numbers: &[usize]) -> String {
    let words: Vec<String> = numbers.iter().map(|number| number.to_string()).collect();
    words.join(" ")
}

/// The rows in the order of the table.
fn rows() -> Vec<Vec<usize>> {
    let mut rows = vec![
        parity_of_mixed(&CONTROL),
        parity_of_mixed(&SCH),
        numbers(&sent(&ACCESS, 13, &mixed(8))),
    ];
    // d(49) is the last bit under the parity, d(181) the last that is protected.
    rows.extend([1, 2, 49, 50, 181, 182].map(ones_of_speech));
    rows.push(found(&tied()));
    rows.push(found(&four_away()));
    rows.push(found(&lossy_tied()));
    rows.push(found(&[MISSING; 16]));
    rows.push(found(&even_gone()));
    rows.push(found(&pairs_gone()));
    rows.push(left_by_five(&twin()));
    rows.push(left_by_five(&[0; 260]));
    rows.push(ones_on_bursts());
    rows.push(flags_of_a_stream());
    rows.extend(of_both_kinds());
    rows.push(cells_of_the_drawing());
    rows.push(ones_of_efr());
    rows.push(crc_of_efr());
    rows
}

/// The bits k*k/3 mod 2 for k = 0..n-1, which have no order that the coding knows.
fn mixed(n: usize) -> Vec<u8> {
    (0..n).map(|k| (k * k / 3 % 2) as u8).collect()
}

/// Bits as numbers.
fn numbers(bits: &[u8]) -> Vec<usize> {
    bits.iter().map(|&bit| usize::from(bit)).collect()
}

/// The bits that are sent for information bits that are in order.
fn sent(channel: &Channel, identity: u64, d: &[u8]) -> Vec<u8> {
    let answer = channel.encode(identity, d, channel.writes);
    answer.expect("a good block is sent")
}

/// The parity bits of a mixed block.
fn parity_of_mixed(channel: &Channel) -> Vec<usize> {
    let d = mixed(channel.covered);
    numbers(&parity(&d, &(channel.generator)()))
}

/// Where the ones of the coded bits stand, for the speech block with a one at d(k) alone.
fn ones_of_speech(k: usize) -> Vec<usize> {
    let mut d = vec![0; 260];
    d[k] = 1;
    ones_at(&sent(&SPEECH, NO_IDENTITY, &d))
}

/// The received bits of eight pairs, then the nearest candidate and its count.
fn found(r: &[u8]) -> Vec<usize> {
    let nearest = nearest(r);
    [numbers(r), numbers(&nearest.u), vec![nearest.count]].concat()
}

/// All lists of sixteen bits, from 0..00, 0..01, 0..10 on.
fn lists_of_eight_pairs() -> impl Iterator<Item = Vec<u8>> {
    (0..1 << 16).map(|number| bits_of(number, 16).into_iter().rev().collect())
}

/// The candidates of eight bits that have the fewest disagreements.
fn all_nearest(r: &[u8]) -> Vec<Vec<u8>> {
    let fewest = nearest(r).count;
    let pairs = Pairs::of(r);
    (0..1 << 4)
        .filter(|&number| pairs.disagreements(number) == fewest)
        .map(|number| bits_of(number, 8))
        .collect()
}

/// What a tie would take by three other rules: compared from the last bit back, the 1 at the first
/// difference; compared from u(0) on, the 0 there; and the 1.
fn otherwise(r: &[u8]) -> Vec<Vec<u8>> {
    let all = all_nearest(r);
    let backwards = |u: &&Vec<u8>| u.iter().rev().copied().collect::<Vec<u8>>();
    let taken = [
        all.iter().max_by_key(backwards),
        all.iter().min(),
        all.iter().max(),
    ];
    taken.into_iter().flatten().cloned().collect()
}

/// The rule for ties and the three others each take another candidate.
fn is_told(r: &[u8]) -> bool {
    let mut taken = otherwise(r);
    taken.push(nearest(r).u);
    taken.sort_unstable();
    taken.dedup();
    taken.len() == 4
}

/// The first list of which that is so.
fn tied() -> Vec<u8> {
    let mut lists = lists_of_eight_pairs();
    lists.find(|r| is_told(r)).expect("there is one")
}

/// The list with its first six bits missing, and two of each four behind them.
fn lossy(mut r: Vec<u8>) -> Vec<u8> {
    for k in (0..16).filter(|k| k < &6 || k % 4 > 1) {
        r[k] = MISSING;
    }
    r
}

/// The first list with bits missing of which that is so, and with which the nearest disagrees.
fn lossy_tied() -> Vec<u8> {
    let mut lists = lists_of_eight_pairs().map(lossy);
    let found = lists.find(|r| is_told(r) && nearest(r).count > 0);
    found.expect("there is one")
}

/// The first list that is four bits away from several candidates, of which the rule for ties takes
/// one that none of the others takes, and one that has more than a single one.
fn four_away() -> Vec<u8> {
    let is_told = |r: &Vec<u8>| {
        let nearest = nearest(r);
        nearest.count == 4 && ones(&nearest.u) > 1 && !otherwise(r).contains(&nearest.u)
    };
    lists_of_eight_pairs().find(is_told).expect("there is one")
}

/// The bits, of which those at some places never came.
fn without(mut c: Vec<u8>, is_lost: fn(usize) -> bool) -> Vec<u8> {
    for k in (0..c.len()).filter(|&k| is_lost(k)) {
        c[k] = MISSING;
    }
    c
}

/// Three ones and five zeros, whose pairs disagree with those of zeros in few second bits.
const THREE_ONES: [u8; 8] = [1, 1, 1, 0, 0, 0, 0, 0];

/// The pairs of this block without their first bits.
fn even_gone() -> Vec<u8> {
    without(convolve(&THREE_ONES), |k| k % 2 == 0)
}

/// The same without the first pair and the seventh besides.
fn pairs_gone() -> Vec<u8> {
    without(convolve(&THREE_ONES), |k| k % 2 == 0 || k == 1 || k == 13)
}

/// A speech block with ones in u at 30, 31, 32 and 36, 37, 38, which are d(60), d(62) and so on:
/// the second bits of its pairs are those of zeros but for pairs 30 and 42, in burst 5.
fn twin() -> Vec<u8> {
    ones_alone(260, &[60, 62, 64, 72, 74, 76])
}

/// Where the ones stand in the coded bits of a speech block, five of whose eight bursts are lost.
fn left_by_five(d: &[u8]) -> Vec<usize> {
    let c = sent(&SPEECH, NO_IDENTITY, d);
    ones_at(&without(c, |k| [0, 2, 4, 5, 6].contains(&(k % 8))))
}

/// Where the ones stand in the eight bursts, one after another, of a stream that sends one speech
/// block and ends: d(188)..d(195), which are c(384)..c(391), are 1, a bit in each of the bursts.
fn ones_on_bursts() -> Vec<usize> {
    let mut d = vec![0; 260];
    d[188..=195].fill(1);
    ones_at(&sent_and_ended(&[d]).concat())
}

/// e(57) and e(58), hl and hu, of each burst of a stream that sends FACCH, then speech, and ends.
fn flags_of_a_stream() -> Vec<usize> {
    let bursts = sent_and_ended(&[mixed(184), mixed(260)]);
    let flags: Vec<&[u8]> = bursts.iter().map(|e| &e[57..=58]).collect();
    numbers(&flags.concat())
}

/// So many bits, of which those at the given places are 1.
fn ones_alone(n: usize, places: &[usize]) -> Vec<u8> {
    (0..n).map(|k| u8::from(places.contains(&k))).collect()
}

/// Where the ones of the coded bits stand, for a FACCH with ones at d(0) and d(4), and for a speech
/// block with the same bits of u under its parity, d(0) and d(8), and the FACCH's last 78 bits.
fn of_both_kinds() -> [Vec<usize>; 2] {
    let facch = sent(&CONTROL, NO_IDENTITY, &ones_alone(184, &[0, 4]));
    let d = [&ones_alone(182, &[0, 8]), &facch[378..]].concat();
    [ones_at(&facch), ones_at(&sent(&SPEECH, NO_IDENTITY, &d))]
}

/// The bits that docs/DRAWING.md follows by hand.
const BY_HAND: [u8; 17] = [1, 0, 1, 0, 0, 0, 0, 0, 0, 0, 0, 0, 0, 0, 1, 0, 0];

/// What the forty cells of the control drawing hold after those bits, cell 0 first: by division,
/// what is left of them followed by forty zeros, the coefficient of D^0 first.
fn cells_of_the_drawing() -> Vec<usize> {
    let block = [&BY_HAND[..], &[0; 40]].concat();
    numbers(&remainder(&from_bits(&block), &(CONTROL.generator)()))
}

/// The 244 bits of enhanced full rate, which count from 1, with ones at the given numbers.
fn efr_block(numbers: &[usize]) -> Vec<u8> {
    let places: Vec<usize> = numbers.iter().map(|number| number - 1).collect();
    ones_alone(244, &places)
}

/// Where the ones of the coded bits stand, for the block of enhanced full rate with ones at s(1),
/// which is under the CRC, at s(70), which is repeated, and at s(244), the last one.
fn ones_of_efr() -> Vec<usize> {
    ones_at(&sent(&EFR, NO_IDENTITY, &efr_block(&[1, 70, 244])))
}

/// The CRC of the block of enhanced full rate with a one at s(39) alone, which is b(1).
fn crc_of_efr() -> Vec<usize> {
    numbers(&efr::crc_bits(&efr_block(&[39])))
}

#[cfg(test)]
mod tests {
    use super::*;
    use crate::model::missing::disagrees;
    use crate::model::polynomial::from_powers;

    #[test]
    fn there_are_twenty_four_rows() {
        let lengths: Vec<usize> = rows().iter().map(|row| row.len()).collect();
        assert_eq!(lengths[..3], [40, 10, 36]);
        assert_eq!(lengths[9..15], [25; 6]);
        assert_eq!(lengths[18..22], [24, 48, 48, 40]);
        assert_eq!(lengths[23..], [8]);
    }

    #[test]
    fn numbers_are_parted_by_single_spaces() {
        assert_eq!(line(&[1, 0, 182]), "1 0 182");
        assert_eq!(lines().len(), 24);
    }

    #[test]
    fn mixed_bits_begin_so() {
        // 0, 1, 4, 9, 16, 25, 36, 49, 64, 81 by 3: 0, 0, 1, 3, 5, 8, 12, 16, 21, 27
        assert_eq!(mixed(10), [0, 0, 1, 1, 1, 0, 0, 0, 1, 1]);
    }

    #[test]
    fn the_parity_of_control_is_that_of_the_block_that_is_sent() {
        let p: Vec<u8> = parity_of_mixed(&CONTROL)
            .iter()
            .map(|&bit| bit as u8)
            .collect();
        let u = [&mixed(184)[..], &p, &[0; 4]].concat();
        assert_eq!(convolve(&u), sent(&CONTROL, NO_IDENTITY, &mixed(184)));
    }

    #[test]
    fn the_parity_of_sch_is_that_of_the_block_that_is_sent() {
        let p: Vec<u8> = parity_of_mixed(&SCH).iter().map(|&bit| bit as u8).collect();
        let u = [&mixed(25)[..], &p, &[0; 4]].concat();
        assert_eq!(convolve(&u), sent(&SCH, NO_IDENTITY, &mixed(25)));
    }

    /// In how many places the pairs of u disagree with the received bits, counted one by one.
    fn disagreements(u: &[u8], r: &[u8]) -> usize {
        let c = convolve(u);
        (0..r.len()).filter(|&k| disagrees(c[k], r[k])).count()
    }

    /// Several candidates tie at the count of the nearest one, and that is not all zeros.
    fn is_a_tie(r: &[u8]) {
        let nearest = nearest(r);
        let all = all_nearest(r);
        assert!(all.len() >= 3);
        assert!(all.contains(&nearest.u) && ones(&nearest.u) > 0);
        for number in 0..1 << 4 {
            let u = bits_of(number, 8);
            let count = disagreements(&u, r);
            assert!(count >= nearest.count);
            assert_eq!(count == nearest.count, all.contains(&u));
        }
    }

    #[test]
    fn the_three_lists_of_eight_pairs_tie() {
        is_a_tie(&tied());
        is_a_tie(&four_away());
        is_a_tie(&lossy_tied());
        assert_eq!(nearest(&lossy_tied()).count, 1);
        assert_eq!(nearest(&four_away()).count, 4);
        assert_ne!(nearest(&four_away()).u, nearest(&tied()).u);
    }

    #[test]
    fn the_other_rules_take_others() {
        for r in [tied(), four_away(), lossy_tied()] {
            let taken = nearest(&r).u;
            for other in otherwise(&r) {
                assert!(all_nearest(&r).contains(&other));
                assert_ne!(other, taken);
            }
        }
    }

    /// The candidates of eight bits that disagree in no present place, tried one by one.
    fn agreeing(r: &[u8]) -> Vec<Vec<u8>> {
        let all = (0..1 << 4).map(|number| bits_of(number, 8));
        all.filter(|u| disagreements(u, r) == 0).collect()
    }

    #[test]
    fn one_bit_of_each_pair_leaves_one_candidate_and_two_whole_pairs_may_leave_two() {
        assert_eq!(agreeing(&even_gone()), [THREE_ONES.to_vec()]);
        assert_eq!(agreeing(&pairs_gone()), [vec![0; 8], THREE_ONES.to_vec()]);
        let one_of_each: [fn(usize) -> bool; 3] =
            [|k| k % 2 == 0, |k| k % 2 == 1, |k| k % 4 == 1 || k % 4 == 2];
        for number in 0..1 << 4 {
            let u = bits_of(number, 8);
            for is_lost in one_of_each {
                assert_eq!(agreeing(&without(convolve(&u), is_lost)), [u.clone()]);
            }
        }
    }

    #[test]
    fn the_twin_of_zeros_is_told_from_them_by_four_bursts_and_not_by_three() {
        assert_eq!(left_by_five(&twin()), left_by_five(&[0; 260]));
        let [one, other] = [twin(), vec![0; 260]].map(|d| sent(&SPEECH, NO_IDENTITY, &d));
        let differing: Vec<usize> = (0..456).filter(|&k| one[k] != other[k]).collect();
        // In the bursts 1, 3 and 7, which are left, the two are the same; in burst 5 they are not.
        assert!(differing.iter().all(|k| ![1, 3, 7].contains(&(k % 8))));
        let of_burst_5: Vec<&usize> = differing.iter().filter(|&k| k % 8 == 5).collect();
        assert_eq!(of_burst_5, [&61, &85]);
    }

    #[test]
    fn a_bit_stands_in_each_of_the_eight_bursts() {
        // Beside those of the parity 111, whose ones of c are at 182, 183, 184, 186, 188, 194, 195.
        let ones = ones_on_bursts();
        assert_eq!(ones.len(), 8 + 7);
        for burst in 0..8 {
            assert!(ones.iter().any(|place| place / 116 == burst), "{}", burst);
        }
    }

    #[test]
    fn flags_are_those_of_facch_in_the_first_eight_bursts_alone() {
        let flags: Vec<usize> = flags_of_a_stream();
        assert_eq!(flags[..8], [0, 1, 0, 1, 0, 1, 0, 1]);
        assert_eq!(flags[8..16], [1, 0, 1, 0, 1, 0, 1, 0]);
        assert_eq!(flags[16..], [0; 8]);
    }

    #[test]
    fn the_block_of_both_kinds_is_good_as_either() {
        let [facch, speech] = of_both_kinds();
        assert_eq!(facch, speech);
        let c: Vec<u8> = (0..456).map(|k| u8::from(facch.contains(&k))).collect();
        for channel in [CONTROL, SPEECH] {
            let (count, d) = channel.decode(NO_IDENTITY, &c, channel.reads).unwrap();
            assert_eq!((count, d[0], d[1]), (0, 1, 0), "{}", channel.name);
        }
    }

    /// The drawing itself: each bit is added to what leaves cell 39, the cells move up, and the
    /// sum enters at the taps.
    fn clocked(cells: &[u8], bit: u8) -> Vec<u8> {
        let sum = (bit + cells[39]) % 2;
        let mut next = [&[0], &cells[..39]].concat();
        for tap in [0, 3, 17, 23, 26] {
            next[tap] = (next[tap] + sum) % 2;
        }
        next
    }

    #[test]
    fn the_drawing_holds_what_division_leaves() {
        let one_clock = |cells: Vec<u8>, &bit: &u8| clocked(&cells, bit);
        let after = |bits: &[u8]| bits.iter().fold(vec![0; 40], one_clock);
        assert_eq!(numbers(&after(&BY_HAND)), cells_of_the_drawing());
        let mut p: Vec<u8> = after(&mixed(184)).iter().map(|&cell| 1 - cell).collect();
        p.reverse();
        assert_eq!(numbers(&p), parity_of_mixed(&CONTROL));
    }

    #[test]
    fn the_block_of_enhanced_full_rate_comes_back() {
        let ones = ones_of_efr();
        // s(70) stands there three times, and is of class 2.
        let class_2: Vec<usize> = ones.iter().copied().filter(|&k| k >= 378).collect();
        assert_eq!(class_2, [378, 379, 380]);
        let c = ones_alone(456, &ones);
        let s = efr_block(&[1, 70, 244]);
        assert_eq!((s[0], s[69], s[243]), (1, 1, 1));
        assert_eq!(EFR.decode(NO_IDENTITY, &c, EFR.reads), Ok((0, s)));
    }

    #[test]
    fn the_crc_of_the_first_bit_is_what_is_left_of_its_power() {
        let mut rest = remainder(&from_powers(&[72]), &from_powers(&[8, 4, 3, 2, 0]));
        // p(1) has the highest power.
        rest.reverse();
        assert_eq!(crc_of_efr(), numbers(&rest));
    }
}
