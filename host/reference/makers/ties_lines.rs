//! Kit lines of lessons in which most blocks tie: as many of their flags are 1 as are 0, so that
//! their parity tells the kind. Most takes lend a buffer, some a wrong one, and the totals are asked
//! for.

use crate::chance::both_kinds::block_of_both_kinds;
use crate::chance::cable;
use crate::chance::random::Random;
use crate::makers::lesson::{self, Lesson};
use crate::makers::{lend_lines, lesson_lines};
use crate::text::characters;

/// So many lines: a lesson's lines, with fresh streams for each lesson, and others between them.
pub fn lines(random: &mut Random, count: usize) -> Vec<Vec<u8>> {
    let mut lines = Vec::new();
    for line in lesson_lines::on_fresh_streams(random, count, lesson) {
        match random.below(12) {
            0 => lines.push(b"totals".to_vec()),
            1 => lines.push(lend_lines::wrongly_lent(random, &line)),
            _ => {}
        }
        lines.push(lend_lines::with_or_without(random, line));
    }
    lines.truncate(count);
    lines
}

/// One lesson, ended, and taken to its last burst.
fn lesson(random: &mut Random) -> Vec<Vec<u8>> {
    let number = 1 + random.below(24);
    let blocks = (0..number).map(|_| block(random)).collect();
    let mut lesson = Lesson::of(random, blocks, cable::ties);
    lesson_lines::carried(random, &mut lesson, true)
}

/// The information bits of a block, as characters; one in five has the coded bits of both kinds.
pub fn block(random: &mut Random) -> Vec<u8> {
    if random.one_in(5) {
        let (speech, facch) = block_of_both_kinds(random);
        characters(random.pick(&[&speech, &facch]))
    } else {
        lesson::block(random, 2)
    }
}

#[cfg(test)]
mod tests {
    use super::*;
    use crate::kit::answers;
    use crate::makers::sorts::streams_are_left_by_the_refused;
    use crate::makers::taken_blocks::{self, Block};

    /// The blocks of eight thousand lines.
    fn blocks(seed: u64) -> Vec<Block> {
        taken_blocks::blocks(&lines(&mut Random::new(seed), 8000))
    }

    #[test]
    fn every_sort_comes_and_is_answered_by_its_flags_and_parities() {
        let blocks = blocks(190);
        for block in &blocks {
            block.is_answered_by_its_votes();
        }
        // So many ones and zeros, a good parity as FACCH and as speech, and how often at least.
        for (votes, good, least) in [
            ((4, 4), (true, false), 40),
            ((4, 4), (false, true), 40),
            ((4, 4), (false, false), 40),
            ((4, 4), (true, true), 20),
            ((0, 8), (true, true), 3),
            ((3, 5), (true, true), 3),
            ((5, 3), (true, true), 3),
            ((8, 0), (true, true), 3),
            ((3, 5), (true, false), 5),
            ((5, 3), (false, true), 5),
            ((3, 5), (false, false), 5),
            ((5, 3), (false, false), 5),
        ] {
            let is_meant = |block: &&Block| (block.votes(), block.good) == (votes, good);
            let number = blocks.iter().filter(is_meant).count();
            assert!(number >= least, "{:?} {:?}: {}", votes, good, number);
        }
    }

    #[test]
    fn votes_are_equal_and_nearly_equal_with_flags_missing_too() {
        let blocks = blocks(230);
        let number = |is_meant: fn(&&Block) -> bool| blocks.iter().filter(is_meant).count();
        let with_missing = |block: &&Block| block.ties() && block.votes().0 < 4;
        assert!(number(with_missing) > 60);
        assert!(number(|block| block.votes() == (0, 0)) > 8);
        assert!(number(|block| block.votes().0 == block.votes().1 + 1) > 15);
        assert!(number(|block| block.votes().1 == block.votes().0 + 1) > 15);
    }

    #[test]
    fn ties_have_every_count_that_is_repaired() {
        let blocks = blocks(191);
        for word in ["facch", "speech"] {
            for count in ["0", "1", "2", "3"] {
                let is_meant = |block: &&Block| {
                    let words: Vec<&str> = block.answer.split(' ').collect();
                    block.ties() && words[0] == word && words[2] == count
                };
                let number = blocks.iter().filter(is_meant).count();
                assert!(number >= 5, "{} {}: {}", word, count, number);
            }
        }
    }

    #[test]
    fn a_tie_leaves_of_a_lent_buffer_what_it_does_not_write() {
        let mut seen = [0; 3];
        for block in blocks(192).iter().filter(|block| block.ties()) {
            // No bits, so that they are seen to be left.
            let digit = match block.lent {
                Some(digit @ b'2'..=b'9') => digit,
                _ => continue,
            };
            let buffer = block.answer.rsplit(' ').next().unwrap().as_bytes();
            let (sort, written) = match block.good {
                (true, _) => (0, 184),
                (false, true) => (1, 260),
                (false, false) => (2, 0),
            };
            assert_eq!(buffer.len(), 260);
            let (bits, left) = buffer.split_at(written);
            assert!(bits.iter().all(|bit| b"01".contains(bit)));
            assert!(left.iter().all(|&byte| byte == digit), "{}", block.answer);
            seen[sort] += 1;
        }
        assert!(seen.iter().all(|&times| times > 20), "{:?}", seen);
    }

    #[test]
    fn ties_stand_beside_ties_and_beside_others() {
        let blocks = blocks(193);
        for other in [(0, 8), (3, 5), (4, 4), (5, 3), (8, 0)] {
            let are_meant = |two: &&[Block]| {
                let is_other = two[0].votes() == other || two[1].votes() == other;
                let ties = two.iter().filter(|block| block.ties()).count();
                two[1].n == two[0].n + 1 && is_other && ties > usize::from(other == (4, 4))
            };
            let number = blocks.windows(2).filter(are_meant).count();
            assert!(number > 15, "{:?}: {}", other, number);
        }
    }

    #[test]
    fn other_lines_stand_between_the_takes_and_leave_the_streams() {
        let lines = lines(&mut Random::new(194), 4000);
        let number = |begin: &[u8]| lines.iter().filter(|line| line.starts_with(begin)).count();
        assert!(number(b"totals") > 200 && number(b"send ") > 50 && number(b"take ") > 200);
        let wrongly_lent = answers(&lines)
            .iter()
            .zip(&lines)
            .filter(|(answer, line)| line.starts_with(b"lend ") && answer.starts_with("refused 1 "))
            .count();
        assert!(wrongly_lent > 100, "{}", wrongly_lent);
        streams_are_left_by_the_refused(&lines, 2000);
    }

    #[test]
    fn the_number_of_lines_is_the_one_asked_for() {
        for count in [0, 1, 10, 333] {
            assert_eq!(lines(&mut Random::new(195), count).len(), count);
        }
    }
}
