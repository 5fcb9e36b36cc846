//! Lines that leave both streams as they are: calls that are refused, lines that are not
//! understood, and the verbs that call no stream.

use crate::chance::random::Random;
use crate::makers::lesson::{block, send, take, take_numbered, Lesson};
use crate::makers::{fields, received_lines, sent_lines, view_lines};
use crate::model::burst::BURST;

/// One random line that leaves the lesson's streams as they are.
pub fn line(random: &mut Random, lesson: &Lesson) -> Vec<u8> {
    match random.below(20) {
        0..=5 => refused_by_sender(random, lesson),
        6..=13 => refused_by_receiver(random, lesson),
        14..=17 => not_understood(random, lesson),
        _ => no_stream(random),
    }
}

/// A send or an end that is refused.
pub fn refused_by_sender(random: &mut Random, lesson: &Lesson) -> Vec<u8> {
    match random.below(6) {
        // Refusal 7, or refusal 6.
        0 | 1 if lesson.ended || lesson.sent == 0 => b"end".to_vec(),
        // Refusal 7.
        2 | 3 if lesson.ended => send(&block(random, 2)),
        0 | 2 | 4 => send(&spoiled_block(random)),
        _ => send(&block_of_wrong_length(random)),
    }
}

/// Refusal 2: a block with wrong characters.
fn spoiled_block(random: &mut Random) -> Vec<u8> {
    let mut d = block(random, 2);
    fields::spoil(random, &mut d, fields::WRONG_WHERE_SENT);
    d
}

/// Refusal 1: a block of another length, now and then with wrong characters.
fn block_of_wrong_length(random: &mut Random) -> Vec<u8> {
    let right = random.pick(&[184, 260]);
    let length = match another_length(random, right) {
        // The longest line has room for 995.
        184 | 260 => 995,
        length => length,
    };
    some_spoiled(random, length)
}

/// A length other than the right one.
fn another_length(random: &mut Random, right: usize) -> usize {
    let length = match random.below(8) {
        0 => right - 1,
        1 => right + 1,
        2 => 0,
        3 => random.pick(&[57, 78, 114, 116, 184, 260, 444, 456, 464]),
        4 => 2 * right,
        // The right length to one who counts in a single byte.
        5 => random.pick(&[right % 256, right + 256, right + 512]),
        _ => random.below(990),
    };
    fields::other_than(right, length)
}

/// Characters of bits, now and then with wrong ones among them.
fn some_spoiled(random: &mut Random, length: usize) -> Vec<u8> {
    let mut characters = fields::good_bits(random, length);
    if random.one_in(4) {
        fields::spoil(random, &mut characters, fields::WRONG_WHERE_SENT);
    }
    characters
}

/// A take that is refused.
fn refused_by_receiver(random: &mut Random, lesson: &Lesson) -> Vec<u8> {
    let right = lesson.next_number();
    let wrong = another_number(random, right);
    let any = random.pick(&[right, right, wrong]);
    let (number, e) = match random.below(4) {
        0 => (any, burst_of_wrong_length(random)),
        1 => (any, spoiled_burst(random, lesson)),
        _ => (wrong, lesson.some_burst(random)),
    };
    take_numbered(random, number, &e)
}

/// Refusal 4: one too high, one too low, repeated, far off, or the same in some of its bits.
fn another_number(random: &mut Random, right: usize) -> usize {
    let number = match random.below(10) {
        0 | 1 => right + 1,
        2 | 3 => right + 65_535,
        // The number of a block, or of the same burst in another block.
        4 => random.pick(&[right / 4, 4 * right, right + 4, right + 8]),
        5 => random.pick(&[0, 65_535]),
        // The next one to one who counts in a single byte, or in 14 or 15 bits.
        6 => right + random.pick(&[256, 512, 16_384, 32_768, 65_280]),
        7 => right ^ (1 << random.below(16)),
        _ => random.below(65_536),
    };
    if number % 65_536 == right {
        (right + 1) % 65_536
    } else {
        number % 65_536
    }
}

/// Refusal 1: a burst of another length, now and then with wrong characters.
fn burst_of_wrong_length(random: &mut Random) -> Vec<u8> {
    let length = another_length(random, BURST);
    some_spoiled(random, length)
}

/// Refusal 2: a burst with wrong characters, now and then at a flag alone.
fn spoiled_burst(random: &mut Random, lesson: &Lesson) -> Vec<u8> {
    let mut e = lesson.some_burst(random);
    if random.one_in(4) {
        let wrong = fields::wrong_character(random, fields::WRONG_WHERE_RECEIVED);
        e[57 + random.below(2)] = wrong;
    } else {
        fields::spoil(random, &mut e, fields::WRONG_WHERE_RECEIVED);
    }
    e
}

/// A line that is not understood, though a call like it would be done.
fn not_understood(random: &mut Random, lesson: &Lesson) -> Vec<u8> {
    match random.below(6) {
        0 => random.pick(&WRONG_WORDS).to_vec(),
        1 => {
            let word = random.pick(&[&b"end"[..], b"fresh"]);
            fields::changed_word(random, word)
        }
        2 => take(&fields::no_number(random), &lesson.some_burst(random)),
        3 => too_long(random, lesson),
        _ => wrong_fields(random, lesson),
    }
}

/// Words that have too few or too many arguments, or spaces where none belong.
const WRONG_WORDS: [&[u8]; 20] = [
    b"send",
    b"send  ",
    b"end ",
    b"end  ",
    b" end",
    b"end 0",
    b"fresh ",
    b" fresh",
    b"fresh 0",
    b"fresh\r",
    b"fresh\0",
    b"end\r",
    b"take",
    b"take ",
    b"take 0",
    b"take  ",
    b"stream",
    b"taken",
    b"fresh end",
    b"end fresh",
];

/// A call that would be done: the next take, or a send.
fn call(random: &mut Random, lesson: &Lesson) -> Vec<u8> {
    if random.one_in(2) {
        send(&block(random, 2))
    } else {
        let e = lesson.some_burst(random);
        take_numbered(random, lesson.next_number(), &e)
    }
}

/// A call with another word, an argument more or less, or a space too many.
fn wrong_fields(random: &mut Random, lesson: &Lesson) -> Vec<u8> {
    let line = call(random, lesson);
    let (word, rest) = line.split_at(4);
    match random.below(7) {
        0 => [&line[..], b" "].concat(),
        1 => [b" ", &line[..]].concat(),
        2 => fields::double_space(random, &line),
        3 => [&line[..], b" 0"].concat(),
        4 => [b"take ", &lesson.some_burst(random)[..]].concat(),
        5 => [word, b"\t", &rest[1..]].concat(),
        _ => {
            let word = random.pick(&[b"send", b"take"]);
            [&fields::changed_word(random, word)[..], rest].concat()
        }
    }
}

/// A call drawn out to over 1,000 bytes.
fn too_long(random: &mut Random, lesson: &Lesson) -> Vec<u8> {
    let mut line = call(random, lesson);
    let length = random.pick(&[1001, 1001, 1002, 1256, 4000]);
    line.resize(length, b'0');
    line
}

/// A line for a verb that calls no stream.
fn no_stream(random: &mut Random) -> Vec<u8> {
    match random.below(3) {
        0 => sent_lines::line(random),
        1 => received_lines::line(random),
        _ => view_lines::line(random),
    }
}

#[cfg(test)]
mod tests {
    use super::*;
    use crate::kit::Kit;
    use crate::makers::each;

    /// What a kit answers to so many lines of one sort, made for a lesson that has come as far.
    fn answers(
        kit: &mut Kit,
        lesson: &Lesson,
        sort: fn(&mut Random, &Lesson) -> Vec<u8>,
    ) -> Vec<String> {
        let lines = each(&mut Random::new(80), 1000, |random| sort(random, lesson));
        lines.iter().map(|line| kit.answer(line)).collect()
    }

    /// Every answer is one of those that are expected, and each of them comes.
    fn are(answers: &[String], expected: &[&str]) {
        for answer in answers {
            assert!(expected.contains(&answer.as_str()), "{}", answer);
        }
        for answer in expected {
            assert!(answers.iter().any(|other| other == answer), "{}", answer);
        }
    }

    /// A kit and a lesson that have sent two blocks and taken five bursts, and may have ended.
    fn under_way(ended: bool) -> (Kit, Lesson) {
        let mut random = Random::new(81);
        let mut kit = Kit::fresh();
        let mut lesson = Lesson::new(&mut random, 2);
        let mut lines = vec![lesson.send_next(), lesson.send_next()];
        if ended {
            lines.push(lesson.end());
        }
        lines.extend((0..5).map(|_| lesson.take_next(&mut random)));
        for line in lines {
            assert!(!kit.answer(&line).starts_with("refused"));
        }
        (kit, lesson)
    }

    /// A kit and a lesson that have not begun.
    fn not_begun() -> (Kit, Lesson) {
        (Kit::fresh(), Lesson::new(&mut Random::new(82), 2))
    }

    /// A lesson that has not begun, one under way, and one that has ended.
    fn lessons() -> [(Kit, Lesson); 3] {
        [not_begun(), under_way(false), under_way(true)]
    }

    #[test]
    fn the_sender_refuses_as_meant() {
        let expected: [&[&str]; 3] = [
            &["refused 1", "refused 2", "refused 6"],
            &["refused 1", "refused 2"],
            &["refused 1", "refused 2", "refused 7"],
        ];
        for ((mut kit, lesson), expected) in lessons().into_iter().zip(expected) {
            are(&answers(&mut kit, &lesson, refused_by_sender), expected);
        }
    }

    #[test]
    fn the_receiver_refuses_as_meant() {
        for (mut kit, lesson) in lessons() {
            let answers = answers(&mut kit, &lesson, refused_by_receiver);
            are(&answers, &["refused 1", "refused 2", "refused 4"]);
        }
    }

    #[test]
    fn each_wrong_sort_is_wrong_as_meant() {
        type Sort = fn(&mut Random, &Lesson) -> Vec<u8>;
        let sorts: [(Sort, &str); 5] = [
            (not_understood, "?"),
            (|random, _| send(&spoiled_block(random)), "refused 2"),
            (
                |random, _| send(&block_of_wrong_length(random)),
                "refused 1",
            ),
            (
                |random, lesson| {
                    let e = burst_of_wrong_length(random);
                    take_numbered(random, lesson.next_number(), &e)
                },
                "refused 1",
            ),
            (
                |random, lesson| {
                    let e = spoiled_burst(random, lesson);
                    take_numbered(random, lesson.next_number(), &e)
                },
                "refused 2",
            ),
        ];
        for (mut kit, lesson) in lessons() {
            for (sort, expected) in sorts {
                are(&answers(&mut kit, &lesson, sort), &[expected]);
            }
        }
    }

    #[test]
    fn another_number_is_never_the_right_one() {
        let mut random = Random::new(83);
        for right in [0, 1, 5, 255, 256, 4000, 65_534, 65_535] {
            let numbers: Vec<usize> = (0..500)
                .map(|_| another_number(&mut random, right))
                .collect();
            assert!(numbers
                .iter()
                .all(|&number| number != right && number < 65_536));
            for near in [right + 1, right + 65_535] {
                assert!(numbers.contains(&(near % 65_536)));
            }
        }
    }

    #[test]
    fn the_streams_stand_as_before() {
        for (mut kit, lesson) in lessons() {
            answers(&mut kit, &lesson, line);
            // The next burst is still the next one; the sender is as far as it was.
            let number = lesson.next_number().to_string();
            let next = take(number.as_bytes(), &[b'0'; 116]);
            assert_eq!(kit.answer(&next), "waiting");
            let end = kit.answer(b"end");
            match (lesson.ended, lesson.sent) {
                (true, _) => assert_eq!(end, "refused 7"),
                (false, 0) => assert_eq!(end, "refused 6"),
                _ => assert_eq!(end.len(), 464),
            }
        }
    }
}
