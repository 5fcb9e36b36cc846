//! Kit lines of lessons in which bits, flags and whole bursts never come. Between them stand blocks
//! and views with missing bits, the same with what is refused in their place, and bits that cannot
//! be sent since some of them are missing.

use crate::chance::cable;
use crate::chance::random::Random;
use crate::makers::lesson::{self, Lesson};
use crate::makers::{lend_lines, lesson_lines, received_lines, sent_lines, ties_lines, view_lines};

/// So many lines: a lesson's lines, with fresh streams for each lesson, and others between them.
pub fn lines(random: &mut Random, count: usize) -> Vec<Vec<u8>> {
    let mut lines = Vec::new();
    for line in lesson_lines::on_fresh_streams(random, count, lesson) {
        while random.one_in(3) {
            lines.push(between(random, &line));
        }
        lines.push(lend_lines::with_or_without(random, line));
    }
    lines.truncate(count);
    lines
}

/// One lesson, ended, and taken to its last burst and beyond.
fn lesson(random: &mut Random) -> Vec<Vec<u8>> {
    let number = 1 + random.below(24);
    let blocks = (0..number).map(|_| ties_lines::block(random)).collect();
    let mut lesson = Lesson::of(random, blocks, cable::missing);
    let mut lines = lesson_lines::carried(random, &mut lesson, true);
    lines.extend(lesson_lines::beyond(random, &mut lesson, 4));
    lines
}

/// A line that leaves the streams as they are.
fn between(random: &mut Random, next: &[u8]) -> Vec<u8> {
    match random.below(20) {
        0..=3 => b"totals".to_vec(),
        4..=9 => {
            let line = received_lines::with_missing(random);
            lend_lines::with_or_without(random, line)
        }
        10..=12 => view_lines::with_missing(random),
        13 => sent_lines::with_missing(random),
        14 => block_with_missing(random),
        15 | 16 => over_2(random, next),
        17 => {
            let line = received(random);
            over_2(random, &line)
        }
        18 => cut_short(random),
        _ => lend_lines::wrongly_lent(random, next),
    }
}

/// A block or a view of which bits are missing.
fn received(random: &mut Random) -> Vec<u8> {
    match random.below(3) {
        0 => view_lines::with_missing(random),
        _ => received_lines::with_missing(random),
    }
}

/// Refusal 2: a send of a block of which a bit is missing.
fn block_with_missing(random: &mut Random) -> Vec<u8> {
    let line = lesson::send(&lesson::block(random, 2));
    with_character(random, &line, b'2')
}

/// The line with one of its bits over 2: refusal 2, where all else is right.
fn over_2(random: &mut Random, line: &[u8]) -> Vec<u8> {
    with_character(random, line, b'3')
}

/// The line with this character at one place of its last field; as it is where that is empty.
fn with_character(random: &mut Random, line: &[u8], character: u8) -> Vec<u8> {
    let field = line.rsplit(|&byte| byte == b' ').next().unwrap_or_default();
    let mut line = line.to_vec();
    if !field.is_empty() {
        let place = line.len() - 1 - random.below(field.len());
        line[place] = character;
    }
    line
}

/// Refusal 1: the last bit is not even there as missing.
fn cut_short(random: &mut Random) -> Vec<u8> {
    let mut line = received_lines::with_missing(random);
    line.pop();
    line
}

#[cfg(test)]
mod tests {
    use super::*;
    use crate::kit::{answer, answers};
    use crate::makers::each;
    use crate::makers::sorts::{all_are, all_pass, call, is_done, streams_are_left_by_the_refused};
    use crate::makers::taken_blocks::{self, Block};
    use crate::model::channel::NO_IDENTITY;
    use crate::model::kind::Kind;
    use crate::text::characters;

    /// The blocks of so many lines.
    fn blocks(seed: u64, count: usize) -> Vec<Block> {
        taken_blocks::blocks(&lines(&mut Random::new(seed), count))
    }

    #[test]
    fn every_block_is_answered_by_its_votes_and_parities() {
        let blocks = blocks(231, 4000);
        for block in &blocks {
            block.is_answered_by_its_votes();
        }
        for (word, least) in [
            ("speech ", 60),
            ("facch ", 60),
            ("refused 8 ", 40),
            ("refused 9 ", 10),
        ] {
            let number = blocks.iter().filter(|block| block.answer.starts_with(word));
            assert!(number.count() >= least, "{}", word);
        }
    }

    /// How many of the received bits are others than the sent ones, and how many are missing.
    fn altered_and_missing(sent: &[u8], received: &[u8]) -> (usize, usize) {
        let missing = received.iter().filter(|&&bit| bit == 2).count();
        let differs = |k: &usize| sent[*k] != received[*k];
        ((0..sent.len()).filter(differs).count() - missing, missing)
    }

    /// A block that was sent, and what was altered and is missing of it.
    struct Sent {
        kind: Kind,
        /// Of its protected bits, how many are altered and how many missing.
        bits: (usize, usize),
        /// The same of its flags.
        flags: (usize, usize),
        /// What its answer begins with if it comes out as sent.
        expected: String,
        answer: String,
    }

    /// The information bits of a kind that are protected: of speech, those before d(182).
    fn protected(kind: Kind, d: &[u8]) -> &[u8] {
        match kind {
            Kind::Speech => &d[..182],
            Kind::Facch => d,
        }
    }

    /// What is known of a block; nothing where none was sent under its number.
    fn sent(block: Block) -> Option<Sent> {
        let d = block.sent?;
        let kind = Kind::of_length(d.len())?;
        let c = kind.channel().coded(NO_IDENTITY, &d);
        let number = kind.channel().protected();
        let bits = altered_and_missing(&c[..number], &block.c[..number]);
        let protected = String::from_utf8(characters(protected(kind, &d))).unwrap();
        Some(Sent {
            kind,
            bits,
            flags: altered_and_missing(&kind.flags(), &block.flags),
            expected: format!("{} {} {} {}", kind.word(), block.n, bits.0, protected),
            answer: block.answer,
        })
    }

    /// What is known of the blocks of twelve thousand lines that were sent.
    fn all_sent(seed: u64) -> Vec<Sent> {
        blocks(seed, 12_000).into_iter().filter_map(sent).collect()
    }

    /// An altered one weighs twice as much as a missing one.
    fn weight((altered, missing): (usize, usize)) -> usize {
        2 * altered + missing
    }

    #[test]
    fn blocks_within_the_weights_that_are_borne_come_out_as_sent() {
        let is_within = |sent: &Sent| weight(sent.bits) <= 6 && weight(sent.flags) <= 7;
        let (mut of_speech, mut of_facch) = (0, 0);
        for sent in all_sent(232).into_iter().filter(is_within) {
            assert!(sent.answer.starts_with(&sent.expected), "{}", sent.answer);
            let is_lossy = sent.bits.1 > 0 && sent.flags.1 > 0;
            of_speech += usize::from(is_lossy && sent.kind == Kind::Speech);
            of_facch += usize::from(is_lossy && sent.kind == Kind::Facch);
        }
        assert!(
            of_speech > 30 && of_facch > 30,
            "{} {}",
            of_speech,
            of_facch
        );
    }

    #[test]
    fn every_way_to_the_weights_that_are_borne_and_one_beyond_comes() {
        let sent = all_sent(233);
        for altered in 0..=3 {
            for weight in [6, 7] {
                let missing = weight - 2 * altered;
                let number = sent.iter().filter(|sent| sent.bits == (altered, missing));
                assert!(number.count() > 5, "{} {}", altered, missing);
            }
            for weight in [7, 8] {
                let missing = weight - 2 * altered;
                let number = sent.iter().filter(|sent| sent.flags == (altered, missing));
                assert!(number.count() > 5, "{} {}", altered, missing);
            }
        }
    }

    #[test]
    fn bursts_that_never_came_are_taken_in_their_turn() {
        let lines = lines(&mut Random::new(234), 4000);
        let answers = answers(&lines);
        let is_taken = |k: &usize| {
            let (fields, _) = call(&lines[*k]);
            let is_lost = matches!(fields[..], [b"take", _, e] if e == [b'2'; 116]);
            is_lost && is_done(&answers[*k])
        };
        let taken: Vec<usize> = (0..lines.len()).filter(is_taken).collect();
        assert!(taken.len() > 60, "{}", taken.len());
        // Some of them bring a good block.
        let is_good =
            |k: &&usize| answers[**k].starts_with("speech ") || answers[**k].starts_with("facch ");
        assert!(taken.iter().filter(is_good).count() > 3);
    }

    #[test]
    fn each_wrong_sort_is_wrong_as_meant() {
        let over_2 = |random: &mut Random| {
            let line = received(random);
            over_2(random, &line)
        };
        all_pass(235, 1000, over_2, |line| {
            // A view of nothing has no bit that could be wrong.
            answer(line) == "refused 2" || line == b"trellis "
        });
        all_are(235, 300, block_with_missing, "refused 2");
        all_are(235, 300, cut_short, "refused 1");
    }

    #[test]
    fn every_verb_that_receives_has_missing_bits_and_what_is_refused_for_them() {
        let lines = lines(&mut Random::new(236), 8000);
        let answers = answers(&lines);
        // The answers to the lines of a word, among whose bits there is a 2.
        let answers_to = |word: &str| -> Vec<&String> {
            let is_meant = |k: &usize| {
                let (fields, _) = call(&lines[*k]);
                fields[0] == word.as_bytes() && fields[fields.len() - 1].contains(&b'2')
            };
            let places = (0..lines.len()).filter(is_meant);
            places.map(|k| &answers[k]).collect()
        };
        let are_refused = |answer: &&&String| answer.starts_with("refused 2");
        for word in [
            "speech?", "control?", "sacch?", "access?", "sch?", "efr?", "trellis", "take",
        ] {
            let answers = answers_to(word);
            let refused = answers.iter().filter(are_refused).count();
            let others = answers.len() - refused;
            assert!(
                refused > 5 && others > 100,
                "{}: {} {}",
                word,
                refused,
                others
            );
        }
        for word in ["speech", "control", "sacch", "access", "sch", "efr", "send"] {
            let answers = answers_to(word);
            let refused = answers.iter().filter(are_refused).count();
            assert!(refused > 5, "{}: {}", word, refused);
            // The others have a wrong length besides.
            let other =
                |answer: &&&String| answer.starts_with("refused 1") || answer.as_str() == "?";
            assert_eq!(
                answers.iter().filter(other).count(),
                answers.len() - refused
            );
        }
    }

    #[test]
    fn lines_between_leave_the_streams() {
        let next = lesson::take(b"0", &[b'2'; 116]);
        let between = |random: &mut Random| between(random, &next);
        let mut lines = each(&mut Random::new(237), 500, between);
        lines.push(next.clone());
        assert_eq!(answers(&lines)[500], "waiting");
        let lines = super::lines(&mut Random::new(238), 4000);
        streams_are_left_by_the_refused(&lines, 2000);
    }

    #[test]
    fn the_number_of_lines_is_the_one_asked_for() {
        for count in [0, 1, 10, 333] {
            assert_eq!(lines(&mut Random::new(239), count).len(), count);
        }
    }
}
