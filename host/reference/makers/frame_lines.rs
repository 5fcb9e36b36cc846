//! Kit lines of frames: frames that are written and read, with any control bits and any speech, and
//! such as have a wrong type, wrong sync bits or wrong digits. Some frames are seen on their way, on
//! which the speech that they carry is sent, received and put into a frame again. Between them stand
//! lines that are wrong in every other way foreseen.

use crate::chance::lists;
use crate::chance::random::Random;
use crate::makers::request::Request;
use crate::makers::{fields, lend_lines, received_lines, sent_lines};
use crate::model::channel::{NO_IDENTITY, SPEECH};
use crate::model::frame::{written, CONTROL_BITS, DATA_BITS, TYPES};
use crate::text::{bits, characters, hexadecimal};

/// So many lines, each of them by itself or with those of one frame on its way.
pub fn lines(random: &mut Random, count: usize) -> Vec<Vec<u8>> {
    let mut lines = Vec::new();
    while lines.len() < count {
        if random.one_in(16) {
            lines.extend(on_its_way(random));
        } else {
            lines.push(line(random));
        }
    }
    lines.truncate(count);
    lines
}

/// One random line, without its newline; of a hundred, 52 are written or read.
fn line(random: &mut Random) -> Vec<u8> {
    match random.below(100) {
        0..=23 => writing(random).line(),
        24..=51 => reading(&octets(random)).line(),
        52..=55 => wrongly_typed(random).line(),
        56..=59 => reading(&with_wrong_type(random)).line(),
        60..=64 => reading(&with_wrong_sync(random)).line(),
        65..=67 => reading(&with_wrong_sync_and_type(random)).line(),
        68 | 69 => reading(&misread(random)).line(),
        70..=73 => with_wrong_length(random),
        74..=77 => with_wrong_bits(random),
        78 | 79 => several_wrong(random),
        80..=83 => reading(&of_wrong_length(random)).line(),
        84..=87 => no_octets(random),
        88..=90 => wrong_word(random),
        91..=93 => any(random).wrong_fields(random, b"access? "),
        94 | 95 => lent(random),
        96 | 97 => long_line(random),
        _ => any(random).garbled(random),
    }
}

/// Control bits of either type, the others any.
fn control(random: &mut Random) -> Vec<u8> {
    let others = fields::good_bits(random, CONTROL_BITS - 5);
    [&random.pick(&TYPES)[..], &bits(&others)].concat()
}

/// The bits of speech.
fn speech(random: &mut Random) -> Vec<u8> {
    bits(&fields::good_bits(random, DATA_BITS))
}

/// The request to write a frame.
fn framing(c: &[u8], d: &[u8]) -> Request {
    Request::framing(characters(c), characters(d))
}

/// A frame that will be written.
fn writing(random: &mut Random) -> Request {
    framing(&control(random), &speech(random))
}

/// The octets of a frame that will be read; T1 to T4 are as they are written, or any.
fn octets(random: &mut Random) -> Vec<u8> {
    let (c, d) = (control(random), speech(random));
    let mut octets = written(&c, &d).expect("its lengths, bits and type are right");
    if random.one_in(2) {
        octets[39] = octets[39] & 0xf0 | random.below(16) as u8;
    }
    octets
}

/// The request to read octets.
fn reading(octets: &[u8]) -> Request {
    Request::of_received("frame?", hexadecimal(octets).into_bytes())
}

/// A frame that will be written or read.
fn any(random: &mut Random) -> Request {
    if random.one_in(2) {
        writing(random)
    } else {
        reading(&octets(random))
    }
}

/// Types that are right elsewhere: that of enhanced full rate, each of the two backwards, and each with
/// all of its bits turned over.
const ELSEWHERE: [[u8; 5]; 5] = [
    [1, 1, 0, 1, 0],
    [0, 1, 0, 0, 0],
    [0, 0, 1, 1, 1],
    [1, 1, 1, 0, 1],
    [0, 0, 0, 1, 1],
];

/// A type that is neither of the two: mostly one of them with one bit turned over.
fn wrong_type(random: &mut Random) -> [u8; 5] {
    let mut speech = random.pick(&TYPES);
    match random.below(8) {
        0 | 1 => speech = random.pick(&ELSEWHERE),
        2 | 3 => speech.fill_with(|| random.below(2) as u8),
        _ => lists::alter(random, &mut speech, 1),
    }
    if TYPES.contains(&speech) {
        lists::alter(random, &mut speech, 1);
    }
    speech
}

/// Refusal 19: a frame to be written whose type is neither of the two.
fn wrongly_typed(random: &mut Random) -> Request {
    let mut c = control(random);
    c[..5].copy_from_slice(&wrong_type(random));
    framing(&c, &speech(random))
}

/// Puts another type in the place of C1 to C5, which stand behind the fixed bit of octet 2.
fn set_type(octets: &mut [u8], speech: [u8; 5]) {
    let speech = speech.iter().fold(0, |number, bit| 2 * number + bit);
    octets[2] = octets[2] & 0b1000_0011 | speech << 2;
}

/// Refusal 19: a frame to be read whose type is neither of the two.
fn with_wrong_type(random: &mut Random) -> Vec<u8> {
    let mut octets = octets(random);
    set_type(&mut octets, wrong_type(random));
    octets
}

/// Turns over one of the 35 sync and fixed bits.
fn turn_over_sync(random: &mut Random, octets: &mut [u8]) {
    match random.below(35) {
        bit @ 0..=15 => octets[bit / 8] ^= 0x80 >> (bit % 8),
        bit => octets[2 * (bit - 15)] ^= 0x80,
    }
}

/// Refusal 18: one sync or fixed bit is wrong, or some are, or all fixed ones; or the frame has moved by
/// a bit or by an octet.
fn with_wrong_sync(random: &mut Random) -> Vec<u8> {
    let mut octets = octets(random);
    spoil_sync(random, &mut octets);
    octets
}

/// Spoils the sync of a frame in one of these ways.
fn spoil_sync(random: &mut Random, octets: &mut [u8]) {
    match random.below(16) {
        0..=9 => turn_over_sync(random, octets),
        10 => {
            // The same one is not turned over twice.
            octets[0] ^= 0x80 >> random.below(8);
            octets[2 * (1 + random.below(19))] ^= 0x80;
        }
        11 => octets[..2].fill(1 + random.below(255) as u8),
        12 => (2..40).step_by(2).for_each(|k| octets[k] &= 0x7f),
        13 => octets.rotate_left(1 + random.below(37)),
        14 => move_up(octets),
        _ => move_down(octets),
    }
}

/// Moves all bits of a frame by one towards its beginning.
fn move_up(octets: &mut [u8]) {
    for k in 0..octets.len() {
        let next = octets.get(k + 1).copied().unwrap_or(0);
        octets[k] = octets[k] << 1 | next >> 7;
    }
}

/// Moves all bits of a frame by one towards its end.
fn move_down(octets: &mut [u8]) {
    for k in (1..octets.len()).rev() {
        octets[k] = octets[k] >> 1 | octets[k - 1] << 7;
    }
}

/// Refusal 18, before refusal 19: the type is wrong too.
fn with_wrong_sync_and_type(random: &mut Random) -> Vec<u8> {
    let mut octets = with_wrong_type(random);
    spoil_sync(random, &mut octets);
    octets
}

/// What mostly has a wrong sync or a wrong type: a frame whose octets have bit 1 last, one whose octets
/// are exchanged by twos, or octets that no one wrote.
fn misread(random: &mut Random) -> Vec<u8> {
    let frame = octets(random);
    match random.below(5) {
        0 => frame.iter().map(|octet| octet.reverse_bits()).collect(),
        1 => frame.chunks(2).flat_map(|two| [two[1], two[0]]).collect(),
        2 => vec![random.pick(&[0, 1, 0x7f, 0x80, 0xff]); 40],
        3 => frame.iter().map(|octet| !octet).collect(),
        _ => (0..40).map(|_| random.below(256) as u8).collect(),
    }
}

/// Another number of bits than the right one.
fn another_length(random: &mut Random, right: usize) -> usize {
    let length = match random.below(8) {
        0 | 1 => right - 1,
        2 | 3 => right + 1,
        4 => 0,
        // What else has a length.
        5 => random.pick(&[1, 5, 16, 21, 25, 40, 80, 184, 244, 260, 281, 320]),
        // The right length to one who counts in a single byte.
        6 => (right + 256) % 512,
        _ => random.below(601),
    };
    fields::other_than(right, length)
}

/// Control bits of another length.
fn control_of_wrong_length(random: &mut Random) -> Vec<u8> {
    let mut c = characters(&control(random));
    let length = another_length(random, CONTROL_BITS);
    fields::fit(random, &mut c, length);
    c
}

/// Refusal 1: another number of control bits, of bits of speech, or of both; now and then as many of
/// the one too many as of the other too few, or the one for the other.
fn with_wrong_length(random: &mut Random) -> Vec<u8> {
    let mut request = writing(random);
    match random.below(8) {
        0..=2 => request.set_before(control_of_wrong_length(random)),
        3..=5 => sent_lines::change_length(random, &mut request),
        6 => {
            let whole = [control(random), speech(random)].concat();
            let (c, d) = whole.split_at(random.pick(&[0, 1, 5, 16, 20, 22, 260, 281]));
            request = framing(c, d);
        }
        _ => {
            request.set_before(control_of_wrong_length(random));
            sent_lines::change_length(random, &mut request);
        }
    }
    request.line()
}

/// Control bits with wrong characters, of either type or not.
fn spoiled_control(random: &mut Random) -> Vec<u8> {
    let mut c = characters(&control(random));
    if random.one_in(2) {
        c[..5].copy_from_slice(&characters(&wrong_type(random)));
    }
    fields::spoil(random, &mut c, fields::WRONG_WHERE_SENT);
    c
}

/// Refusal 2, before refusal 19: wrong characters among the control bits or the bits of speech.
fn with_wrong_bits(random: &mut Random) -> Vec<u8> {
    let mut request = match random.below(3) {
        0 => wrongly_typed(random),
        _ => writing(random),
    };
    let chosen = random.below(3);
    if chosen != 0 {
        request.set_before(spoiled_control(random));
    }
    if chosen != 1 {
        request.spoil(random);
    }
    request.line()
}

/// Refusal 1, before all others: lengths, characters and mostly the type are wrong at once.
fn several_wrong(random: &mut Random) -> Vec<u8> {
    let mut request = wrongly_typed(random);
    if random.one_in(2) {
        request.set_before(spoiled_control(random));
    }
    sent_lines::change_length(random, &mut request);
    request.spoil(random);
    request.line()
}

/// Refusal 1: another number of octets; a line has room for 496.
fn of_wrong_length(random: &mut Random) -> Vec<u8> {
    let mut frame = match random.below(3) {
        0 => with_wrong_sync_and_type(random),
        _ => octets(random),
    };
    let length = match random.below(10) {
        0 | 1 => 39,
        2 | 3 => 41,
        4 => random.pick(&[0, 1, 2, 20, 38, 42, 80, 496]),
        // As if each bit were a digit, or each digit an octet.
        5 => random.pick(&[160, 320]),
        // Right to one who counts in a single byte.
        6 => 40 + 256,
        _ => fields::other_than(40, random.below(497)),
    };
    frame.truncate(length);
    while frame.len() < length {
        frame.push(random.below(256) as u8);
    }
    frame
}

/// What is no octets: an odd number of digits, capital letters, or other characters.
fn no_octets(random: &mut Random) -> Vec<u8> {
    let mut request = match random.below(4) {
        0 => reading(&of_wrong_length(random)),
        _ => reading(&octets(random)),
    };
    let digits = &mut request.bits;
    match random.below(8) {
        0 | 1 if !digits.is_empty() => digits.truncate(digits.len() - 1),
        2 => digits.push(random.pick(b"0123456789abcdef")),
        3 | 4 => spoil_digit(random, digits, b"ABCDEF"),
        5 => digits.extend(random.pick(&[&b"A"[..], b"FF", b"h", b"0x", b"\0", b".."])),
        6 => *digits = [b"0x", &digits[..]].concat(),
        _ => spoil_digit(random, digits, b"gGxX/:@`-+.,?_~\0\t\r\x7f\x80\xb0\xff"),
    }
    request.line()
}

/// Puts another character in the place of a digit, mostly of the first, of the last or of any; where
/// there is none, it is the only one.
fn spoil_digit(random: &mut Random, digits: &mut Vec<u8>, others: &[u8]) {
    let other = random.pick(others);
    match digits.len() {
        0 => digits.push(other),
        length => {
            let any = random.below(length);
            digits[random.pick(&[0, length - 1, any, any])] = other;
        }
    }
}

/// Words that are nearly the two, or that would ask the same.
const UNKNOWN: [&[u8]; 16] = [
    b"frames", b"frames?", b"framed", b"frame??", b"?frame", b"Frame", b"Frame?", b"FRAME?",
    b"fram?", b"fr", b"trau", b"trau?", b"octets", b"unframe", b"read", b"",
];

/// A word that is nearly one of the two.
fn wrong_word(random: &mut Random) -> Vec<u8> {
    let request = any(random);
    let word = match random.below(4) {
        0 | 1 => random.pick(&UNKNOWN).to_vec(),
        2 => [&fields::changed_word(random, b"frame")[..], b"?"].concat(),
        _ => fields::changed_word(random, b"frame"),
    };
    request.line_with(&word)
}

/// A frame with a buffer, though neither verb writes to one.
fn lent(random: &mut Random) -> Vec<u8> {
    let line = match random.below(4) {
        0 => with_wrong_length(random),
        1 => reading(&with_wrong_sync(random)).line(),
        _ => any(random).line(),
    };
    let length = random.pick(&[0, 1, 21, 40, 80, 260, 281, 600]);
    lend_lines::lent(random, length, &line)
}

/// A line at the limit of 1,000 bytes or over it, drawn out with digits.
fn long_line(random: &mut Random) -> Vec<u8> {
    let mut request = any(random);
    match random.below(4) {
        // The control bits are drawn out, and stand before those of speech.
        0 => {
            let mut c = characters(&control(random));
            let length = fields::long_length(random) - DATA_BITS - 7;
            fields::fit(random, &mut c, length);
            framing(&bits(&c), &speech(random)).line()
        }
        1 => {
            let length = 990 + random.below(14);
            request.draw_out(random, length);
            request.line()
        }
        _ => request.long_line(random),
    }
}

/// A frame on its way: it is read, its speech is sent in a block or in the stream, the block is received
/// with few bits altered, and what came is put into a frame, which is read.
fn on_its_way(random: &mut Random) -> Vec<Vec<u8>> {
    let (c, d) = (control(random), speech(random));
    let read = |c: &[u8], d: &[u8]| {
        let octets = written(c, d).expect("its lengths, bits and type are right");
        reading(&octets).line()
    };
    let mut coded = SPEECH.coded(NO_IDENTITY, &d);
    received_lines::alter_few(random, &mut coded);
    let mut lines = vec![framing(&c, &d).line(), read(&c, &d)];
    let block = Request::sending(&SPEECH, Vec::new(), characters(&d));
    lines.push(if random.one_in(3) {
        block.line_with(b"send")
    } else {
        lend_lines::with_or_without(random, block.line())
    });
    let received = Request::receiving(&SPEECH, Vec::new(), characters(&coded)).line();
    lines.push(lend_lines::with_or_without(random, received));
    if let Ok((_, came)) = SPEECH.decode(NO_IDENTITY, &coded, DATA_BITS) {
        let other = control(random);
        lines.extend([framing(&other, &came).line(), read(&other, &came)]);
    }
    lines
}

#[cfg(test)]
mod tests {
    use super::*;
    use crate::kit::{answer, answers};
    use crate::makers::each;
    use crate::makers::sorts::{self, all_are, all_pass, call, times};

    /// The sort of an answer: the number of a refusal, what else is answered by its lengths, or "?".
    fn sort(answer: &str) -> String {
        let words: Vec<&str> = answer.split(' ').collect();
        match words[..] {
            ["refused", number, ..] => format!("refused {}", number),
            [octets] if octets.len() == 80 => "written".to_string(),
            [c, d] if c.len() == 21 && d.len() == 260 => "read".to_string(),
            _ => words[0].to_string(),
        }
    }

    /// The answers to so many lines of one sort, as sorts.
    fn sorts_of(seed: u64, number: usize, line: fn(&mut Random) -> Vec<u8>) -> Vec<String> {
        let answers = sorts::answers(seed, number, line);
        answers.iter().map(|answer| sort(answer)).collect()
    }

    /// Every frame of one sort that is to be read is answered so.
    fn all_read(seed: u64, octets: fn(&mut Random) -> Vec<u8>, expected: &str) {
        let line = |random: &mut Random| reading(&octets(random)).line();
        all_are(seed, 1000, line, expected);
    }

    #[test]
    fn good_frames_are_written_and_read() {
        all_pass(
            420,
            1000,
            |random| writing(random).line(),
            |line| sort(&answer(line)) == "written",
        );
        let read = |random: &mut Random| reading(&octets(random)).line();
        all_pass(420, 1000, read, |line| sort(&answer(line)) == "read");
    }

    #[test]
    fn both_types_come_and_every_value_of_the_last_four_bits() {
        let made = each(&mut Random::new(421), 1000, octets);
        let times = |is_meant: &dyn Fn(&[u8]) -> bool| {
            let meant = made.iter().filter(|octets| is_meant(octets));
            meant.count()
        };
        for high in [0x88, 0xf0] {
            assert!(times(&|octets| octets[2] & 0xfc == high) > 400);
        }
        for low in 0..16 {
            assert!(times(&|octets| octets[39] & 0x0f == low) > 15, "{}", low);
        }
    }

    #[test]
    fn each_wrong_sort_is_wrong_as_meant() {
        all_are(
            422,
            1000,
            |random| wrongly_typed(random).line(),
            "refused 19",
        );
        all_read(422, with_wrong_type, "refused 19");
        all_read(422, with_wrong_sync, "refused 18");
        all_read(422, with_wrong_sync_and_type, "refused 18");
        all_are(422, 1000, with_wrong_length, "refused 1");
        all_are(422, 1000, with_wrong_bits, "refused 2");
        all_are(422, 1000, several_wrong, "refused 1");
        all_read(422, of_wrong_length, "refused 1");
        all_are(422, 2000, no_octets, "?");
        all_are(422, 2000, wrong_word, "?");
        all_are(422, 500, lent, "?");
    }

    #[test]
    fn what_is_misread_has_mostly_a_wrong_sync() {
        let sorts = sorts_of(423, 1000, |random| reading(&misread(random)).line());
        let number = times(&sorts, "refused 18");
        assert!(number > 800 && number < 1000, "{}", number);
    }

    #[test]
    fn every_wrong_type_comes_those_near_the_right_ones_more_often() {
        let made = each(&mut Random::new(424), 4000, |random| {
            wrong_type(random).to_vec()
        });
        let times = |speech: &[u8]| made.iter().filter(|other| *other == speech).count();
        let mut never = 0;
        for number in 0..32_u8 {
            let speech = [4, 3, 2, 1, 0].map(|k| number >> k & 1);
            if TYPES.contains(&speech) {
                assert_eq!(times(&speech), 0);
                never += 1;
                continue;
            }
            assert!(times(&speech) > 10, "{:05b}", number);
            let differ = |right: &[u8; 5]| (0..5).filter(|&k| right[k] != speech[k]).count();
            let is_near = TYPES.iter().any(|right| differ(right) == 1);
            assert!(!is_near || times(&speech) > 100, "{:05b}", number);
        }
        assert_eq!(never, 2);
    }

    #[test]
    fn each_of_the_35_bits_is_turned_over() {
        let mut random = Random::new(425);
        let mut seen = [0; 320];
        for _ in 0..2000 {
            let right = octets(&mut random);
            let mut turned = right.clone();
            turn_over_sync(&mut random, &mut turned);
            let is_turned = |k: &usize| (turned[k / 8] ^ right[k / 8]) << (k % 8) & 0x80 != 0;
            let turned: Vec<usize> = (0..320).filter(is_turned).collect();
            assert_eq!(turned.len(), 1);
            seen[turned[0]] += 1;
        }
        for k in 0..320 {
            let is_fixed = k < 16 || k % 16 == 0;
            assert_eq!(seen[k] > 20, is_fixed, "{}", k);
            assert_eq!(seen[k] == 0, !is_fixed, "{}", k);
        }
    }

    #[test]
    fn bits_move_by_one() {
        let mut octets = [0x01, 0x80, 0xff, 0x00];
        move_up(&mut octets);
        assert_eq!(octets, [0x03, 0x01, 0xfe, 0x00]);
        let mut octets = [0x00, 0x01, 0xfe, 0x81];
        move_down(&mut octets);
        assert_eq!(octets, [0x00, 0x00, 0xff, 0x40]);
    }

    #[test]
    fn lengths_are_wrong_by_one_and_either_way() {
        let lines = each(&mut Random::new(426), 2000, with_wrong_length);
        let has = |c: usize, d: usize| {
            let lengths = |line: &Vec<u8>| {
                let (fields, _) = call(line);
                (fields[1].len(), fields[2].len())
            };
            let number = lines.iter().filter(|line| lengths(line) == (c, d)).count();
            assert!(number > 5, "{} {}: {}", c, d, number);
        };
        for (c, d) in [
            (20, 260),
            (22, 260),
            (21, 259),
            (21, 261),
            (0, 260),
            (21, 0),
        ] {
            has(c, d);
        }
        // Together they have the right length.
        for (c, d) in [(20, 261), (22, 259), (0, 281), (281, 0), (260, 21)] {
            has(c, d);
        }
        let lengths: Vec<usize> = each(&mut Random::new(427), 1000, of_wrong_length)
            .iter()
            .map(|octets| octets.len())
            .collect();
        for length in [0, 1, 38, 39, 41, 42, 80, 160, 296, 320, 496] {
            assert!(lengths.contains(&length), "{}", length);
        }
    }

    #[test]
    fn digits_are_wrong_in_number_and_in_kind() {
        let lines = each(&mut Random::new(428), 2000, no_octets);
        let digits = |line: &[u8]| line[7..].to_vec();
        let number = |is_meant: &dyn Fn(&[u8]) -> bool| {
            let meant = lines.iter().filter(|line| is_meant(&digits(line)));
            meant.count()
        };
        let is_small = |byte: &u8| b"0123456789abcdef".contains(byte);
        let is_capital = |byte: &u8| b"ABCDEF".contains(byte);
        let odd = number(&|digits| digits.iter().all(is_small) && digits.len() % 2 == 1);
        let capital = number(&|digits| digits.len() == 80 && digits.iter().any(is_capital));
        let others = number(&|digits| {
            let is_other = |byte: &u8| !is_small(byte) && !is_capital(byte);
            digits.len() == 80 && digits.iter().any(is_other)
        });
        let numbers = [odd, capital, others];
        assert!(numbers.iter().all(|&number| number > 150), "{:?}", numbers);
        assert!(number(&|digits| [79, 81].contains(&digits.len())) > 200);
    }

    #[test]
    fn a_wrong_number_of_arguments_is_not_understood_unless_one_is_empty() {
        let wrong_fields = |random: &mut Random| any(random).wrong_fields(random, b"access? ");
        let wrong = sorts::answers(429, 1000, wrong_fields);
        let empty = times(&wrong, "refused 1");
        assert!(
            empty > 80 && empty + times(&wrong, "?") == 1000,
            "{}",
            empty
        );
    }

    #[test]
    fn lines_at_the_limit_are_refused_and_those_over_it_not_read() {
        let lines = each(&mut Random::new(430), 800, long_line);
        for length in [999, 1000, 1001] {
            let number = lines.iter().filter(|line| line.len() == length).count();
            assert!(number > 50, "{}", length);
        }
        for line in &lines {
            let is_odd = line.starts_with(b"frame? ") && line.len() % 2 == 0;
            let expected = match line.len() {
                0..=1000 if !is_odd => "refused 1",
                _ => "?",
            };
            assert_eq!(answer(line), expected, "{}", line.len());
        }
    }

    #[test]
    fn a_frame_comes_to_its_end_with_the_speech_that_it_carried() {
        let mut random = Random::new(431);
        let mut sent = [0; 2];
        for _ in 0..200 {
            let lines = on_its_way(&mut random);
            let answers = answers(&lines);
            // What is written is read next, and its speech is sent.
            assert_eq!(lines[1], [b"frame? ", answers[0].as_bytes()].concat());
            assert_eq!(lines[0], [b"frame ", answers[1].as_bytes()].concat());
            let (_, d) = answers[1].split_once(' ').unwrap();
            let (fields, _) = call(&lines[2]);
            assert_eq!(fields[1], d.as_bytes());
            sent[usize::from(fields[0] == b"send")] += 1;
            // Of the speech that came the first 182 bits are those of it, and at most three others
            // are altered.
            assert_eq!(lines.len(), 6);
            let (_, came) = answers[5].split_once(' ').unwrap();
            assert_eq!(came[..182], d[..182]);
            let differ = came
                .bytes()
                .zip(d.bytes())
                .filter(|(one, other)| one != other);
            assert!(differ.count() <= 3);
            assert!(answers[3].ends_with(came));
            assert_eq!(lines[5], [b"frame? ", answers[4].as_bytes()].concat());
        }
        assert!(sent.iter().all(|&number| number > 40), "{:?}", sent);
    }

    #[test]
    fn every_sort_of_answer_comes() {
        let lines = lines(&mut Random::new(432), 4000);
        let answers = answers(&lines);
        let number = |word: &str, expected: &str| {
            let is_meant = |k: &usize| {
                call(&lines[*k]).0.first() == Some(&word.as_bytes())
                    && sort(&answers[*k]) == expected
            };
            (0..lines.len()).filter(is_meant).count()
        };
        for (word, expected, least) in [
            ("frame", "written", 900),
            ("frame?", "read", 1000),
            ("frame", "refused 1", 150),
            ("frame", "refused 2", 80),
            ("frame", "refused 19", 80),
            ("frame", "?", 50),
            ("frame?", "refused 1", 100),
            ("frame?", "refused 18", 200),
            ("frame?", "refused 19", 80),
            ("frame?", "?", 120),
            ("speech?", "0", 20),
        ] {
            let number = number(word, expected);
            assert!(number > least, "{} {}: {}", word, expected, number);
        }
        let with_word = |word: &[u8]| {
            let is_meant = |line: &&Vec<u8>| call(line).0.first() == Some(&word);
            lines.iter().filter(is_meant).count()
        };
        for word in [&b"speech"[..], b"speech?", b"send"] {
            assert!(with_word(word) > 40, "{}", String::from_utf8_lossy(word));
        }
        let good = number("frame", "written") + number("frame?", "read");
        assert!(good > 2000 && good < 3000, "{}", good);
    }

    #[test]
    fn the_number_of_lines_is_the_one_asked_for() {
        for count in [0, 1, 10, 333] {
            assert_eq!(lines(&mut Random::new(433), count).len(), count);
        }
    }
}
