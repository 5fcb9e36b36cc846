//! Kit lines of lessons and of SACCH messages of which whole bursts never come: mostly all at even
//! places or all at odd, so that everything protected comes back, and some of both, so that it need
//! not. Between them stand the totals, and the same lines with a lent buffer.

use crate::chance::cable;
use crate::chance::random::Random;
use crate::makers::fields::good_bits;
use crate::makers::lesson::Lesson;
use crate::makers::request::Request;
use crate::makers::{lend_lines, lesson_lines, ties_lines};
use crate::model::burst::cut;
use crate::model::channel::{NO_IDENTITY, SACCH};
use crate::text::{bits, characters};

/// So many lines: a lesson's lines, with fresh streams for each lesson, and others between them.
pub fn lines(random: &mut Random, count: usize) -> Vec<Vec<u8>> {
    let mut lines = Vec::new();
    for line in lesson_lines::on_fresh_streams(random, count, lesson) {
        while random.one_in(6) {
            lines.push(between(random));
        }
        lines.push(lend_lines::with_or_without(random, line));
    }
    lines.truncate(count);
    lines
}

/// One lesson, ended, and taken to its last burst.
fn lesson(random: &mut Random) -> Vec<Vec<u8>> {
    let number = 1 + random.below(16);
    let blocks = (0..number).map(|_| ties_lines::block(random)).collect();
    let mut lesson = Lesson::of(random, blocks, cable::bursts);
    lesson_lines::carried(random, &mut lesson, true)
}

/// A line that leaves the streams as they are.
fn between(random: &mut Random) -> Vec<u8> {
    match random.below(4) {
        0 => b"totals".to_vec(),
        _ => {
            let line = message(random);
            lend_lines::with_or_without(random, line)
        }
    }
}

/// The four bursts of a SACCH message with these bits.
fn four_bursts(d: &[u8]) -> Vec<Vec<u8>> {
    let e = SACCH.encode(NO_IDENTITY, d, SACCH.writes);
    cut(&e.expect("a good message is sent"))
}

/// A SACCH message of which bursts never come.
fn message(random: &mut Random) -> Vec<u8> {
    let d = bits(&good_bits(random, SACCH.reads));
    let mut four = four_bursts(&d);
    cable::bursts(random, &mut four);
    Request::receiving(&SACCH, Vec::new(), characters(&four.concat())).line()
}

#[cfg(test)]
mod tests {
    use super::*;
    use crate::kit::answers;
    use crate::makers::each;
    use crate::makers::sorts::{call, is_done};
    use crate::makers::taken_blocks::{self, Block};
    use crate::model::burst::BURST;
    use crate::model::coding::convolve;
    use crate::model::kind::Kind;
    use crate::model::missing::MISSING;

    /// Which of so many bursts are lost of coded bits, bit k of which stands in burst k mod that
    /// number; nothing where any is altered, or missing though its burst is not.
    fn lost(sent: &[u8], received: &[u8], bursts: usize) -> Option<Vec<usize>> {
        let of = |burst: usize| (0..sent.len()).filter(move |k| k % bursts == burst);
        let is_lost = |burst: usize| of(burst).all(|k| received[k] == MISSING);
        let is_whole = |burst: usize| of(burst).all(|k| received[k] == sent[k]);
        (0..bursts)
            .all(|burst| is_lost(burst) || is_whole(burst))
            .then(|| (0..bursts).filter(|&burst| is_lost(burst)).collect())
    }

    /// All at even places, or all at odd.
    fn is_of_one_class(lost: &[usize]) -> bool {
        lost.windows(2).all(|two| two[0] % 2 == two[1] % 2)
    }

    /// A block of a stream that was sent, which of its bursts are lost, and what it is answered if
    /// these harm nothing: no bit that is protected is lost, and the others of lost bursts are 0.
    fn sent(block: &Block) -> Option<(Vec<usize>, String)> {
        let d = block.sent.clone()?;
        let kind = Kind::of_length(d.len())?;
        let c = kind.channel().coded(NO_IDENTITY, &d);
        let lost = lost(&c, &block.c, 8)?;
        let is_kept = |i: &usize| lost.contains(i) || block.flags[*i] == kind.flags()[*i];
        let is_gone = |i: &usize| !lost.contains(i) || block.flags[*i] == MISSING;
        if !(0..8).all(|i| is_kept(&i) && is_gone(&i)) {
            return None;
        }
        let mut d = d;
        if kind == Kind::Speech {
            // c(378+k) = d(182+k)
            for k in (182..260).filter(|k| lost.contains(&((k + 196) % 8))) {
                d[k] = 0;
            }
        }
        let digits = String::from_utf8(characters(&d)).unwrap();
        Some((lost, format!("{} {} 0 {}", kind.word(), block.n, digits)))
    }

    /// The answer has all that is expected; what a lent buffer held behind it may follow.
    fn is_as_expected(block: &Block, expected: &str) -> bool {
        match block.lent {
            None => block.answer == expected,
            Some(_) => block.answer.starts_with(expected),
        }
    }

    #[test]
    fn bursts_lost_at_even_places_or_at_odd_harm_nothing_in_any_set() {
        let blocks = taken_blocks::blocks(&lines(&mut Random::new(301), 30_000));
        // The sets that are seen, of speech and of FACCH.
        let mut seen = [Vec::new(), Vec::new()];
        for block in &blocks {
            if let Some((lost, expected)) = sent(block) {
                if is_of_one_class(&lost) {
                    assert!(is_as_expected(block, &expected), "{}", block.answer);
                    seen[usize::from(expected.starts_with("facch"))].push(lost);
                }
            }
        }
        for sets in &mut seen {
            sets.sort_unstable();
            sets.dedup();
            // none, and fifteen of each class
            assert_eq!(sets.len(), 31);
        }
    }

    #[test]
    fn of_bursts_lost_at_even_and_odd_places_some_come_back_and_some_do_not() {
        let blocks = taken_blocks::blocks(&lines(&mut Random::new(303), 12_000));
        let (mut back, mut harmed) = (0, 0);
        for block in &blocks {
            if let Some((lost, expected)) = sent(block) {
                if !is_of_one_class(&lost) {
                    match is_as_expected(block, &expected) {
                        true => back += 1,
                        false => harmed += 1,
                    }
                }
            }
        }
        assert!(back > 20 && harmed > 20, "{} {}", back, harmed);
    }

    /// How many of the lists are independent, each a sum of none of the others.
    fn rank(lists: Vec<Vec<u8>>) -> usize {
        let mut kept: Vec<(usize, Vec<u8>)> = Vec::new();
        for mut list in lists {
            for (place, other) in &kept {
                if list[*place] == 1 {
                    list = list.iter().zip(other).map(|(a, b)| a ^ b).collect();
                }
            }
            if let Some(place) = list.iter().position(|&bit| bit == 1) {
                kept.push((place, list));
            }
        }
        kept.len()
    }

    /// The pairs of each single bit of a candidate, without the bursts of a set.
    fn left_of_each_bit(pairs: usize, lost: usize) -> Vec<Vec<u8>> {
        let left = |bit: usize| -> Vec<u8> {
            let mut u = vec![0; pairs];
            u[bit] = 1;
            let c = convolve(&u);
            let is_left = |k: &usize| lost >> (k % 8) & 1 == 0;
            (0..c.len()).filter(is_left).map(|k| c[k]).collect()
        };
        (0..pairs - 4).map(left).collect()
    }

    #[test]
    fn at_most_four_lost_bursts_leave_one_candidate_and_five_do_not() {
        // Speech and FACCH; a candidate's last four bits are 0, and the pairs of a sum are the sum.
        for pairs in [189, 228] {
            for lost in 0_usize..256 {
                let is_one = rank(left_of_each_bit(pairs, lost)) == pairs - 4;
                assert_eq!(is_one, lost.count_ones() <= 4, "{} {:b}", pairs, lost);
            }
        }
    }

    #[test]
    fn messages_bear_the_same() {
        let mut random = Random::new(304);
        let mut seen = [0; 5];
        for _ in 0..600 {
            let d = bits(&good_bits(&mut random, SACCH.reads));
            let sent = four_bursts(&d);
            let mut four = sent.clone();
            cable::bursts(&mut random, &mut four);
            let lost: Vec<usize> = (0..4).filter(|&i| four[i] == [MISSING; BURST]).collect();
            let is_whole = |i: usize| lost.contains(&i) || four[i] == sent[i];
            if is_of_one_class(&lost) && (0..4).all(is_whole) {
                let answer = SACCH.decode(NO_IDENTITY, &four.concat(), SACCH.reads);
                assert_eq!(answer, Ok((0, d)));
                seen[lost.len()] += 1;
            }
        }
        assert!(seen[..3].iter().all(|&times| times > 20), "{:?}", seen);
    }

    #[test]
    fn lines_between_are_answered_and_leave_the_streams() {
        let lines = each(&mut Random::new(305), 400, between);
        let answers = answers(&lines);
        let word = |k: &usize| call(&lines[*k]).0[0].to_vec();
        let messages = (0..400).filter(|k| word(k) == b"sacch?").count();
        assert!(messages > 200);
        for (line, answer) in lines.iter().zip(&answers) {
            match line == b"totals" {
                true => assert_eq!(answer, "0 0 0 0"),
                // Good with its count, or bad with it.
                false => assert!(is_done(answer), "{}", answer),
            }
        }
    }

    #[test]
    fn the_number_of_lines_is_the_one_asked_for() {
        for count in [0, 1, 10, 333] {
            assert_eq!(lines(&mut Random::new(306), count).len(), count);
        }
    }
}
