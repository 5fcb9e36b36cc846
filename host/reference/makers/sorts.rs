//! For the tests of the makers: lines of one sort, and what a fresh kit answers to each of them.

use crate::chance::random::Random;
use crate::kit::{self, answer};
use crate::makers::each;

/// So many lines of one sort.
fn lines(seed: u64, number: usize, sort: impl Fn(&mut Random) -> Vec<u8>) -> Vec<Vec<u8>> {
    each(&mut Random::new(seed), number, sort)
}

/// The answers to so many lines of one sort.
pub fn answers(seed: u64, number: usize, sort: impl Fn(&mut Random) -> Vec<u8>) -> Vec<String> {
    let lines = lines(seed, number, sort);
    lines.iter().map(|line| answer(line)).collect()
}

/// How often an answer comes.
pub fn times(answers: &[String], expected: &str) -> usize {
    answers.iter().filter(|answer| *answer == expected).count()
}

/// Every line of one sort passes.
pub fn all_pass(
    seed: u64,
    number: usize,
    sort: impl Fn(&mut Random) -> Vec<u8>,
    passes: impl Fn(&[u8]) -> bool,
) {
    for line in lines(seed, number, sort) {
        assert!(passes(&line), "{}", String::from_utf8_lossy(&line));
    }
}

/// Every line of one sort is answered as its sort says.
pub fn all_are(seed: u64, number: usize, sort: impl Fn(&mut Random) -> Vec<u8>, expected: &str) {
    all_pass(seed, number, sort, |line| answer(line) == expected);
}

/// The fields of the call that a line makes, and the digit of the buffer that it is lent, if any.
pub fn call(line: &[u8]) -> (Vec<&[u8]>, Option<u8>) {
    let fields: Vec<&[u8]> = line.split(|&byte| byte == b' ').collect();
    match fields[..] {
        [b"lend", _, [digit], ..] => (fields[3..].to_vec(), Some(*digit)),
        _ => (fields, None),
    }
}

/// A call that is done, or a block found bad, whose burst has been taken; the others with a no
/// leave all as before.
pub fn is_done(answer: &str) -> bool {
    let bad = ["refused 8", "refused 9"];
    let is_refused = answer.starts_with("refused");
    answer != "?" && (!is_refused || bad.iter().any(|words| answer.starts_with(words)))
}

/// Without the lines that leave the streams, the others have the same answers; so many are left at
/// least.
pub fn streams_are_left_by_the_refused(lines: &[Vec<u8>], least: usize) {
    let with = kit::answers(lines);
    let kept: Vec<usize> = (0..lines.len()).filter(|&k| is_done(&with[k])).collect();
    let lines: Vec<Vec<u8>> = kept.iter().map(|&k| lines[k].clone()).collect();
    let expected: Vec<String> = kept.iter().map(|&k| with[k].clone()).collect();
    assert!(lines.len() >= least, "{}", lines.len());
    assert_eq!(kit::answers(&lines), expected);
}
