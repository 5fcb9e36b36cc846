//! Random access sheet lines: more than half are valid requests.

use crate::chance::random::Random;
use crate::makers::fields;

/// One random sheet line, without its newline; of a hundred, sixty are valid requests.
pub fn line(random: &mut Random) -> Vec<u8> {
    match random.below(100) {
        0..=59 => valid(random),
        60..=66 => high_identity(random),
        67..=74 => wrong_character(random),
        75..=78 => high_identity_and_wrong_character(random),
        79..=86 => wrong_length(random),
        87..=92 => wrong_head(random),
        93..=95 => Vec::new(),
        _ => garbage(random),
    }
}

/// Two digits, a space, and the characters.
fn request(identity: usize, characters: &[u8]) -> Vec<u8> {
    [format!("{:02} ", identity).as_bytes(), characters].concat()
}

/// Eight bits: all zeros, all ones, a single one, or random.
fn eight_bits(random: &mut Random) -> Vec<u8> {
    match random.below(10) {
        0 => vec![b'0'; 8],
        1 => vec![b'1'; 8],
        2 => fields::single(random, 8, b'1', b'0'),
        _ => fields::any_bits(random, 8),
    }
}

/// Eight characters, one to three of them no bits.
fn eight_spoiled(random: &mut Random) -> Vec<u8> {
    let mut bits = eight_bits(random);
    for _ in 0..=random.below(3) {
        let wrong = random.pick(b"23456789/:xlO \t\r\0\x01\x7f\x80\xb0\xb1\xff");
        bits[random.below(8)] = wrong;
    }
    bits
}

/// An identity from 00 to 63 and eight bits.
fn valid(random: &mut Random) -> Vec<u8> {
    request(random.below(64), &eight_bits(random))
}

/// Refusal 3: an identity from 64 to 99, the limit more often than the others.
fn high_identity(random: &mut Random) -> Vec<u8> {
    let identity = if random.one_in(4) {
        64
    } else {
        64 + random.below(36)
    };
    request(identity, &eight_bits(random))
}

/// Refusal 2: a good identity, wrong characters among the eight.
fn wrong_character(random: &mut Random) -> Vec<u8> {
    request(random.below(64), &eight_spoiled(random))
}

/// Refusal 2 before 3: both are wrong.
fn high_identity_and_wrong_character(random: &mut Random) -> Vec<u8> {
    request(64 + random.below(36), &eight_spoiled(random))
}

/// Refusal 1: another length than 11 bytes, with or without other faults.
fn wrong_length(random: &mut Random) -> Vec<u8> {
    let characters = if random.one_in(4) {
        eight_spoiled(random)
    } else {
        eight_bits(random)
    };
    let mut line = request(random.below(100), &characters);
    let longest = random.pick(&[40, 40, 40, 5000]);
    match random.below(12) {
        0..=2 => line.truncate(10),
        3..=5 => line.push(random.pick(b"01 \r\0x")),
        6 => line.insert(0, random.pick(b" 0")),
        7 => line.insert(3, b' '),
        8 => line.truncate(random.below(11)),
        // The right length to one who counts in one byte, or in two.
        9 => line.resize(11 + 256, b'0'),
        10 if random.one_in(20) => line.resize(11 + 65_536, b'0'),
        _ => line.resize(12 + random.below(longest), b'1'),
    }
    line
}

/// Refusal 1: 11 bytes, but a digit or the space is missing.
fn wrong_head(random: &mut Random) -> Vec<u8> {
    let mut line = if random.one_in(2) {
        valid(random)
    } else {
        high_identity_and_wrong_character(random)
    };
    match random.below(4) {
        0 => line[0] = random.pick(b" /:xO-+\0\r\x80\xb0\xff"),
        1 => line[1] = random.pick(b" /:xO-.\0\r\x80\xb0\xff"),
        2 => line[2] = random.pick(b"01_\t\0\r\x1f!\xa0"),
        // The identity with one digit, the line as long as before.
        _ => line = [&line[1..], b"0"].concat(),
    }
    line
}

/// Random bytes, or a valid line with one byte changed.
fn garbage(random: &mut Random) -> Vec<u8> {
    let length = if random.one_in(2) {
        11
    } else {
        1 + random.below(30)
    };
    match random.below(3) {
        0 => fields::any_bytes(random, length),
        1 => (0..length).map(|_| random.pick(b"0123456789 ")).collect(),
        _ => {
            let mut line = valid(random);
            line[random.below(11)] = random.any_byte();
            line
        }
    }
}

#[cfg(test)]
mod tests {
    use super::*;
    use crate::makers::each;
    use crate::makers::sorts::all_pass;
    use crate::sheet::answer;

    /// Every line of one sort is answered with this end.
    fn all_end_in(sort: fn(&mut Random) -> Vec<u8>, end: &str) {
        all_pass(15, 2000, sort, |line| answer(line).ends_with(end));
    }

    #[test]
    fn each_wrong_sort_is_wrong_as_meant() {
        all_end_in(wrong_length, "?? refused 1");
        all_end_in(wrong_head, "?? refused 1");
        all_end_in(wrong_character, " refused 2");
        all_end_in(high_identity_and_wrong_character, " refused 2");
        all_end_in(high_identity, " refused 3");
    }

    #[test]
    fn valid_requests_are_answered_with_36_bits() {
        all_pass(16, 2000, valid, |line| answer(line).len() == 39);
    }

    #[test]
    fn more_than_half_of_the_lines_are_requests() {
        let lines = each(&mut Random::new(18), 2000, line);
        let requests = lines.iter().filter(|line| answer(line).len() == 39);
        assert!(requests.count() > 1000);
    }
}
