//! Kit lines of enhanced full rate: blocks that are sent, and blocks that are received with a good
//! CRC and with a bad one, many of them with a lent buffer. Between them stand lines that are wrong
//! in every way foreseen, and lines of the other verbs that call no stream.

use crate::chance::random::Random;
use crate::chance::{lists, losses};
use crate::makers::request::Request;
use crate::makers::{fields, lend_lines, received_lines, sent_lines};
use crate::model::channel::{EFR, NO_IDENTITY, SPEECH};
use crate::model::efr;
use crate::model::missing::turned_over;
use crate::text;

/// One random line, without its newline; of twenty, one is of any verb that calls no stream.
pub fn line(random: &mut Random) -> Vec<u8> {
    let line = call(random);
    match random.below(20) {
        0 => {
            let line = lend_lines::of_block(random);
            lend_lines::with_or_without(random, line)
        }
        1 => lend_lines::wrongly_lent(random, &line),
        2 => lend_lines::badly_lent(random, &line),
        _ => lend_lines::with_or_without(random, line),
    }
}

/// A line of the two verbs; of a hundred, 75 are sent or decoded.
fn call(random: &mut Random) -> Vec<u8> {
    match random.below(100) {
        0..=14 => sent(random).line(),
        15..=74 => received(random).line(),
        75..=77 => sent(random).wrong_length(random, sent_lines::change_length),
        78..=80 => received(random).wrong_length(random, received_lines::change_length),
        81..=82 => sent(random).wrong_bits(random),
        83..=84 => received(random).wrong_bits(random),
        85 => with_missing(random),
        86..=88 => several_wrong(random),
        89..=92 => wrong_word(random),
        93..=96 => any(random).wrong_fields(random, b"access? "),
        97 => any(random).long_line(random),
        _ => any(random).garbled(random),
    }
}

/// A block that will be sent.
fn sent(random: &mut Random) -> Request {
    sent_lines::valid(random, &EFR)
}

/// A block that will be decoded, with a good verdict or a bad one.
fn received(random: &mut Random) -> Request {
    let c = list(random);
    Request::receiving(&EFR, Vec::new(), text::characters(&c))
}

/// A block that will be sent or decoded.
fn any(random: &mut Random) -> Request {
    if random.one_in(2) {
        sent(random)
    } else {
        received(random)
    }
}

/// Bits as they may be received.
fn list(random: &mut Random) -> Vec<u8> {
    match random.below(20) {
        0 | 1 => coded(random),
        2..=4 => with_few_altered(random),
        5 | 6 => damaged(random),
        7..=9 => with_many_altered(random),
        10 => with_class_2_altered(random),
        11 => with_copies_altered(random),
        12 | 13 => speech(random),
        14..=16 => neighbour(random),
        17 => {
            let mut c = coded(random);
            lists::move_midway(random, &mut c, EFR.pairs);
            c
        }
        18 => with_some_missing(random),
        _ => lists::unsent(random, EFR.writes),
    }
}

/// The bits s of a block.
fn block(random: &mut Random) -> Vec<u8> {
    text::bits(&fields::good_bits(random, EFR.reads))
}

/// The coded bits of a block.
fn coded(random: &mut Random) -> Vec<u8> {
    EFR.coded(NO_IDENTITY, &block(random))
}

/// A block with one to three protected bits altered.
fn with_few_altered(random: &mut Random) -> Vec<u8> {
    let mut c = coded(random);
    let number = 1 + random.below(3);
    lists::alter(random, &mut c[..EFR.protected()], number);
    c
}

/// A block with protected bits altered and others missing, up to the weight that is borne.
fn damaged(random: &mut Random) -> Vec<u8> {
    let mut c = coded(random);
    let weight = 1 + random.below(6);
    losses::damage(random, &mut c[..EFR.protected()], weight);
    c
}

/// A block with up to forty protected bits altered.
fn with_many_altered(random: &mut Random) -> Vec<u8> {
    let mut c = coded(random);
    let number = random.below(41);
    lists::alter(random, &mut c[..EFR.protected()], number);
    c
}

/// A block of which unprotected bits alone are altered, and now and then some of them missing.
fn with_class_2_altered(random: &mut Random) -> Vec<u8> {
    let mut c = coded(random);
    let class_2 = &mut c[EFR.protected()..];
    let number = 1 + random.below(78);
    lists::alter(random, class_2, number);
    if random.one_in(3) {
        losses::lose_some(random, class_2);
    }
    c
}

/// Where the four repeated pairs stand in c: w(72) and w(73), d(183) and d(184), are c(379) and
/// c(380).
const COPIES: [usize; 8] = [379, 380, 382, 383, 385, 386, 388, 389];

/// A block of which bits of the repeated pairs alone are altered: one, some or all.
fn with_copies_altered(random: &mut Random) -> Vec<u8> {
    let mut c = coded(random);
    let chosen = match random.below(3) {
        0 => 1 << random.below(8),
        1 => 1 + random.below(255),
        _ => 255,
    };
    for (bit, k) in COPIES.into_iter().enumerate() {
        if chosen >> bit & 1 == 1 {
            c[k] = turned_over(c[k]);
        }
    }
    c
}

/// Speech of full rate, so that the parity is good and the CRC mostly bad; mostly unaltered.
fn speech(random: &mut Random) -> Vec<u8> {
    of_speech(random, lists::random_bits)
}

/// Speech that is a block but for one to three of its bits: whether the CRC is bad depends on which;
/// mostly unaltered.
fn neighbour(random: &mut Random) -> Vec<u8> {
    of_speech(random, |random, _| {
        let mut d = efr::speech_bits(&block(random));
        let number = 1 + random.below(3);
        lists::alter(random, &mut d[..182], number);
        d
    })
}

/// The coded bits of speech, mostly unaltered.
fn of_speech(random: &mut Random, bits: fn(&mut Random, usize) -> Vec<u8>) -> Vec<u8> {
    let d = bits(random, SPEECH.reads);
    let mut c = SPEECH.coded(NO_IDENTITY, &d);
    received_lines::alter_few(random, &mut c[..EFR.protected()]);
    c
}

/// A block, or speech that is nearly one, with bits missing anywhere.
fn with_some_missing(random: &mut Random) -> Vec<u8> {
    let mut c = match random.below(3) {
        0 => neighbour(random),
        _ => coded(random),
    };
    losses::lose_some(random, &mut c);
    c
}

/// Refusal 2: bits to be sent of which some are missing.
fn with_missing(random: &mut Random) -> Vec<u8> {
    let mut request = sent(random);
    request.lose_some(random);
    request.line()
}

/// The length and the characters wrong at once, or one of them.
fn several_wrong(random: &mut Random) -> Vec<u8> {
    if random.one_in(2) {
        sent(random).several_wrong(random, sent_lines::change_length)
    } else {
        received(random).several_wrong(random, received_lines::change_length)
    }
}

/// A word that is nearly one of the two, or that means the same elsewhere.
fn wrong_word(random: &mut Random) -> Vec<u8> {
    const UNKNOWN: [&[u8]; 10] = [
        b"fr", b"efs", b"efs?", b"EFR?", b"Efr?", b"hr", b"amr", b"tch/efs", b"efr1", b"e-fr",
    ];
    let request = any(random);
    let word = match random.below(6) {
        0 | 1 => random.pick(&UNKNOWN).to_vec(),
        2 => random
            .pick(&[&b"efr??"[..], b"?efr", b"efr ?", b"efr? ?"])
            .to_vec(),
        3 => [&fields::changed_word(random, b"efr")[..], b"?"].concat(),
        _ => fields::changed_word(random, b"efr"),
    };
    request.line_with(&word)
}

#[cfg(test)]
mod tests {
    use super::*;
    use crate::kit::answer;
    use crate::makers::each;
    use crate::makers::sorts::{all_are, answers, call as fields_of, times};
    use crate::model::bits::{add, ones_at};
    use crate::model::channel::Received;
    use crate::model::refusal::Refusal;

    /// What is answered to so many lists of one sort.
    fn decoded(seed: u64, number: usize, sort: fn(&mut Random) -> Vec<u8>) -> Vec<Received> {
        let mut random = Random::new(seed);
        let answer = |_| EFR.decode(NO_IDENTITY, &sort(&mut random), EFR.reads);
        (0..number).map(answer).collect()
    }

    /// How many of the answers are good, refused with 8 and refused with 10.
    fn verdicts(answers: &[Received]) -> [usize; 3] {
        let number = |is_meant: fn(&&Received) -> bool| answers.iter().filter(is_meant).count();
        [
            number(|answer| answer.is_ok()),
            number(|answer| matches!(answer, Err(Refusal::BadParity { .. }))),
            number(|answer| matches!(answer, Err(Refusal::BadCrc { .. }))),
        ]
    }

    #[test]
    fn blocks_within_what_is_borne_are_good() {
        for sort in [
            coded,
            with_few_altered,
            damaged,
            with_class_2_altered,
            with_copies_altered,
        ] {
            assert_eq!(verdicts(&decoded(250, 100, sort)), [100, 0, 0]);
        }
        let counts = |sort: fn(&mut Random) -> Vec<u8>| -> Vec<usize> {
            let answers = decoded(251, 100, sort);
            answers
                .into_iter()
                .map(|answer| answer.unwrap().0)
                .collect()
        };
        for sort in [coded, with_class_2_altered, with_copies_altered] {
            assert_eq!(counts(sort), [0; 100]);
        }
        for count in 1..=3 {
            assert!(counts(with_few_altered).contains(&count), "{}", count);
        }
    }

    #[test]
    fn altered_copies_are_not_read() {
        let mut random = Random::new(252);
        let mut seen = [0; 456];
        for _ in 0..200 {
            let mut c = with_copies_altered(&mut random);
            let (_, s) = EFR.decode(NO_IDENTITY, &c, EFR.reads).unwrap();
            add(&mut c, &EFR.coded(NO_IDENTITY, &s));
            let altered = ones_at(&c);
            assert!(!altered.is_empty() && altered.iter().all(|k| COPIES.contains(k)));
            altered.iter().for_each(|&k| seen[k] += 1);
        }
        assert!(COPIES.iter().all(|&k| seen[k] > 50 && seen[k] < 200));
    }

    #[test]
    fn speech_has_a_bad_crc_and_a_neighbour_may_have_one() {
        let [good, bad_parity, bad_crc] = verdicts(&decoded(253, 400, speech));
        assert!(good < 10 && bad_parity == 0 && bad_crc > 390);
        let [good, bad_parity, bad_crc] = verdicts(&decoded(253, 400, neighbour));
        assert!(good > 50 && bad_parity == 0 && bad_crc > 100);
    }

    #[test]
    fn many_altered_bits_are_answered_in_each_way() {
        let verdicts = verdicts(&decoded(254, 400, with_many_altered));
        assert!(verdicts.iter().all(|&number| number > 10), "{:?}", verdicts);
    }

    #[test]
    fn missing_bits_are_answered_in_each_way() {
        let verdicts = verdicts(&decoded(255, 400, with_some_missing));
        assert!(verdicts.iter().all(|&number| number > 20), "{:?}", verdicts);
    }

    #[test]
    fn each_wrong_sort_is_wrong_as_meant() {
        let sent_too_long =
            |random: &mut Random| sent(random).wrong_length(random, sent_lines::change_length);
        let received_too_long = |random: &mut Random| {
            received(random).wrong_length(random, received_lines::change_length)
        };
        let any_wrong = |random: &mut Random| any(random).wrong_bits(random);
        all_are(256, 500, sent_too_long, "refused 1");
        all_are(256, 500, received_too_long, "refused 1");
        all_are(256, 500, any_wrong, "refused 2");
        all_are(256, 500, with_missing, "refused 2");
        all_are(256, 2000, wrong_word, "?");
        let several = answers(257, 500, several_wrong);
        assert!(times(&several, "refused 1") > 100 && times(&several, "refused 2") > 50);
    }

    /// The sort of an answer: the number of a refusal, how a block was received, or the first word.
    fn sort(answer: &str) -> String {
        let words: Vec<&str> = answer.split(' ').collect();
        match words[..] {
            ["refused", number @ ("8" | "10"), count, ..] => {
                format!("refused {} {}", number, at_least_1(count))
            }
            ["refused", number, ..] => format!("refused {}", number),
            [bits] if bits.len() == 456 => "sent".to_string(),
            [count, bits] if bits.len() == 244 => format!("good {}", at_least_1(count)),
            _ => words[0].to_string(),
        }
    }

    /// A count that is 0, or that is not.
    fn at_least_1(count: &str) -> &str {
        match count {
            "0" => "0",
            _ => "more",
        }
    }

    #[test]
    fn every_sort_of_answer_comes_with_a_lent_buffer_and_without() {
        let lines = each(&mut Random::new(258), 2000, line);
        let sorts: Vec<String> = lines.iter().map(|line| sort(&answer(line))).collect();
        for (expected, least) in [
            ("good 0", 40),
            ("good more", 40),
            ("refused 8 0", 3),
            ("refused 8 more", 10),
            ("refused 10 0", 20),
            ("refused 10 more", 10),
            ("refused 1", 20),
            ("refused 2", 20),
            ("?", 20),
        ] {
            for is_lent in [true, false] {
                let is_meant =
                    |k: &usize| lines[*k].starts_with(b"lend ") == is_lent && sorts[*k] == expected;
                let number = (0..lines.len()).filter(is_meant).count();
                assert!(number >= least, "{}, {}: {}", expected, is_lent, number);
            }
        }
        assert!(times(&sorts, "sent") > 50 && times(&sorts, "done") > 100);
    }

    #[test]
    fn a_refusal_leaves_a_lent_buffer() {
        let mut seen = [0; 2];
        for line in each(&mut Random::new(259), 2000, line) {
            let answer = answer(&line);
            let words: Vec<&str> = answer.split(' ').collect();
            // No bits, so that they are seen to be left.
            let (number, digit) = match (&words[..], fields_of(&line).1) {
                (["refused", number, ..], Some(digit @ b'2'..=b'9')) => (*number, digit),
                _ => continue,
            };
            let left = words[words.len() - 1].bytes();
            assert!(words[words.len() - 1] == "-" || left.clone().all(|byte| byte == digit));
            seen[0] += usize::from(number == "8");
            seen[1] += usize::from(number == "10");
        }
        assert!(seen.iter().all(|&times| times > 30), "{:?}", seen);
    }

    #[test]
    fn some_lines_are_of_other_verbs() {
        let lines = each(&mut Random::new(260), 4000, line);
        for word in [
            "speech", "speech?", "control?", "sacch", "access", "access?", "sch?",
        ] {
            let is_meant = |line: &&Vec<u8>| fields_of(line).0.first() == Some(&word.as_bytes());
            assert!(lines.iter().filter(is_meant).count() > 2, "{}", word);
        }
    }
}
