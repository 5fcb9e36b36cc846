//! A full stream as kit lines: 16,383 blocks sent, its end, its 65,536 bursts taken, what is refused
//! at each edge, and the totals before and behind it all.

use crate::chance::cable;
use crate::chance::random::Random;
use crate::makers::lesson::{block, send, sent_bursts, take};
use crate::model::sending_stream::MOST_BLOCKS;
use crate::text::characters;

/// The lines of one full stream.
pub fn lines(random: &mut Random) -> Vec<Vec<u8>> {
    let blocks: Vec<Vec<u8>> = (0..MOST_BLOCKS).map(|_| block(random, 16)).collect();
    let mut bursts = sent_bursts(&blocks);
    cable::light(random, &mut bursts);
    let totals = b"totals".to_vec();
    let mut lines = vec![b"fresh".to_vec(), totals.clone()];
    lines.extend(blocks.iter().map(|d| send(d)));
    lines.extend(around_the_end(random));
    lines.push(totals.clone());
    let numbered = bursts.iter().enumerate();
    lines.extend(numbered.map(|(number, e)| take_bits(number, e)));
    lines.push(totals.clone());
    lines.extend(after_the_last(&bursts));
    lines.push(totals);
    lines
}

/// The line that takes bits under a number.
fn take_bits(number: usize, e: &[u8]) -> Vec<u8> {
    take(number.to_string().as_bytes(), &characters(e))
}

/// The same line with a lent buffer of so many sevens.
fn lent(length: usize, line: &[u8]) -> Vec<u8> {
    [format!("lend {} 7 ", length).as_bytes(), line].concat()
}

/// With 16,383 blocks sent: refusal 5, after 1 and 2; the end; then refusal 7, after 1 and 2.
fn around_the_end(random: &mut Random) -> Vec<Vec<u8>> {
    let end = b"end".to_vec();
    let wrong = [send(&[b'2'; 259]), send(&[b'2'; 260]), send(&[b'2'; 184])];
    let more = send(&block(random, 2));
    let full = [more.clone(), lent(464, &more), lent(463, &more)];
    let after = send(&block(random, 2));
    let ended = [end.clone(), after.clone(), lent(464, &after), end];
    [&full[..], &wrong, &ended, &wrong].concat()
}

/// With burst 65,535 taken: refusal 5, whatever the number, after 1 and 2.
fn after_the_last(bursts: &[Vec<u8>]) -> Vec<Vec<u8>> {
    vec![
        take_bits(65_535, &bursts[65_535]),
        take_bits(0, &bursts[0]),
        lent(260, &take_bits(0, &bursts[0])),
        take_bits(0, &bursts[0][1..]),
        take(b"0", &[b'2'; 116]),
        take(b"0", &[b'3'; 116]),
    ]
}

#[cfg(test)]
mod tests {
    use super::*;
    use crate::kit::Kit;

    #[test]
    fn the_full_stream_is_sent_and_ended() {
        let lines = lines(&mut Random::new(90));
        let mut kit = Kit::fresh();
        assert_eq!(kit.answer(&lines[0]), "fresh");
        assert_eq!(kit.answer(&lines[1]), "0 0 0 0");
        for line in &lines[2..=16_384] {
            assert_eq!(kit.answer(line).len(), 464);
        }
        let answers: Vec<String> = lines[16_385..16_398]
            .iter()
            .map(|line| kit.answer(line))
            .collect();
        let sevens = |number: &str, length: usize| format!("{} {}", number, "7".repeat(length));
        assert_eq!(answers[0], "refused 5");
        assert_eq!(answers[1], sevens("refused 5", 464));
        assert_eq!(answers[2], sevens("refused 1", 463));
        assert_eq!(answers[3..6], ["refused 1", "refused 2", "refused 2"]);
        assert_eq!(answers[6].len(), 464);
        assert_eq!(answers[7], "refused 7");
        assert_eq!(answers[8], sevens("refused 7", 464));
        assert_eq!(answers[9], "refused 7");
        assert_eq!(answers[10..], ["refused 1", "refused 2", "refused 2"]);
        assert_eq!(kit.answer(&lines[16_398]), "0 0 0 0");
        // The takes follow; of these only the first blocks are decoded here.
        assert!(lines[16_399].starts_with(b"take 0 "));
        for line in &lines[16_399..16_399 + 400] {
            assert!(!kit.answer(line).starts_with("refused 4"));
        }
    }

    #[test]
    fn the_full_stream_is_taken_to_burst_65535() {
        let lines = lines(&mut Random::new(91));
        assert_eq!(lines.len(), 2 + 16_383 + 13 + 1 + 65_536 + 1 + 6 + 1);
        for number in [0, 1, 9_999, 65_535] {
            let start = format!("take {} ", number);
            assert!(lines[16_399 + number].starts_with(start.as_bytes()));
        }
        let last = &lines[16_399 + 65_536..];
        assert!(last[1].starts_with(b"take 65535 ") && last[2].starts_with(b"take 0 "));
    }

    #[test]
    fn the_totals_are_asked_for_at_each_edge() {
        let lines = lines(&mut Random::new(160));
        let asked: Vec<usize> = (0..lines.len())
            .filter(|&k| lines[k] == b"totals")
            .collect();
        assert_eq!(asked, [1, 16_398, 81_935, 81_942]);
        assert_eq!(lines.len(), 81_943);
    }
}
