//! The fields of random lines, good and wrong: bits, numbers and words, as characters.

use crate::chance::random::Random;

/// Bits as characters: all zeros, all ones, a single one, a single zero, or random.
pub fn good_bits(random: &mut Random, length: usize) -> Vec<u8> {
    match random.below(12) {
        0 => vec![b'0'; length],
        1 => vec![b'1'; length],
        2 | 3 => single(random, length, b'1', b'0'),
        4 => single(random, length, b'0', b'1'),
        _ => any_bits(random, length),
    }
}

/// Random bits as characters.
pub fn any_bits(random: &mut Random, length: usize) -> Vec<u8> {
    (0..length).map(|_| random.pick(b"01")).collect()
}

/// One character at a random index, and another at all others.
pub fn single(random: &mut Random, length: usize, one: u8, others: u8) -> Vec<u8> {
    let mut bits = vec![others; length];
    if length > 0 {
        bits[random.below(length)] = one;
    }
    bits
}

/// Cuts the bits short or draws them out to a length.
pub fn fit(random: &mut Random, bits: &mut Vec<u8>, length: usize) {
    bits.truncate(length);
    let missing = length - bits.len();
    bits.extend(good_bits(random, missing));
}

/// The length, but never the right one.
pub fn other_than(right: usize, length: usize) -> usize {
    if length == right {
        right + 1
    } else {
        length
    }
}

/// Digits that are refused where bits are sent, the lowest of them mostly.
pub const WRONG_WHERE_SENT: &[u8] = b"222222223456789";

/// Digits that are refused where bits are received: 2 is a missing bit there.
pub const WRONG_WHERE_RECEIVED: &[u8] = b"33333333456789";

/// A character that is no bit, one of these digits or another; a space would part the argument, a
/// newline the line.
pub fn wrong_character(random: &mut Random, digits: &[u8]) -> u8 {
    match random.below(4) {
        0 => random.pick(digits),
        1 => random.pick(&[0, 1, 9, 11, 13, 31, 47, 58, 127, 128, 176, 177, 255]),
        2 => 128 + random.below(128) as u8,
        _ => random.pick(b"abloOIxyzABZ+-.,!_~"),
    }
}

/// Puts wrong characters at the first, at the last, at a few or at all indices; or the same digit at
/// all of them.
pub fn spoil(random: &mut Random, bits: &mut [u8], digits: &[u8]) {
    if bits.is_empty() {
        return;
    }
    let last = bits.len() - 1;
    match random.below(8) {
        0 => bits[0] = wrong_character(random, digits),
        1 => bits[last] = wrong_character(random, digits),
        2 => bits.fill_with(|| wrong_character(random, digits)),
        3 => bits.fill(random.pick(digits)),
        _ => {
            for _ in 0..=random.below(3) {
                bits[random.below(last + 1)] = wrong_character(random, digits);
            }
        }
    }
}

/// A number in one to five digits, now and then with leading zeros.
pub fn number_of(random: &mut Random, value: usize) -> Vec<u8> {
    let digits = if random.one_in(4) {
        2 + random.below(4)
    } else {
        1
    };
    format!("{:0digits$}", value, digits = digits).into_bytes()
}

/// An identity from 0 to 63.
pub fn good_identity(random: &mut Random) -> Vec<u8> {
    let identity = random.below(64);
    number_of(random, identity)
}

/// Identities at the limits of what is taken, of two digits, of a byte and of a number.
const LIMITS: [usize; 8] = [64, 65, 99, 100, 255, 256, 263, 65_535];

/// An identity over 63: at a limit, of two digits, or up to 65535.
pub fn high_identity(random: &mut Random) -> Vec<u8> {
    let identity = match random.below(8) {
        0 | 1 => random.pick(&LIMITS),
        2 | 3 => 64 + random.below(36),
        // An identity to one who counts in a single byte.
        4 => 256 * (1 + random.below(255)) + random.below(64),
        5 => 65_535 - random.below(100),
        _ => 100 + random.below(65_436),
    };
    number_of(random, identity)
}

/// A list of what is no number, with values that wrap round to an identity.
const NO_NUMBERS: [&[u8]; 22] = [
    b"",
    b"65536",
    b"65537",
    b"65599",
    b"99999",
    b"100000",
    b"000000",
    b"000007",
    b"65535000",
    b"x",
    b"a7",
    b"7a",
    b"0x7",
    b"1e1",
    b"+5",
    b"-1",
    b"-0",
    b"7.0",
    b"7,",
    b"\xd9\xa3",
    b"7\0",
    b"\r7",
];

/// What is no number: too long, too large, or not of digits alone.
pub fn no_number(random: &mut Random) -> Vec<u8> {
    match random.below(8) {
        0 => (100_000 + random.below(900_000)).to_string().into_bytes(),
        1 => (65_536 + random.below(34_464)).to_string().into_bytes(),
        2 => format!("{:06}", random.below(64)).into_bytes(),
        3 => {
            let mut digits = number_of(random, 7);
            spoil_number(random, &mut digits);
            digits
        }
        _ => random.pick(&NO_NUMBERS).to_vec(),
    }
}

/// Puts one character that is no digit into a number.
fn spoil_number(random: &mut Random, digits: &mut [u8]) {
    let index = random.below(digits.len());
    digits[index] = random.pick(&[0, 13, 47, 58, b'o', b'l', b'+', b'-', 128, 176, 255]);
}

/// A verb's word cut short, drawn out, or with its letters changed.
pub fn changed_word(random: &mut Random, word: &[u8]) -> Vec<u8> {
    let mut letters = word.to_vec();
    let index = random.below(letters.len());
    match random.below(6) {
        0 => letters.truncate(index),
        1 => letters.push(random.pick(b"sxX0_\0\r\xff")),
        2 => letters[0] = letters[0].to_ascii_uppercase(),
        3 => letters.make_ascii_uppercase(),
        4 => letters[index] = b'a' + (letters[index] - b'a' + 1) % 26,
        _ => letters.insert(0, random.pick(b"sxX0_\0\r\t")),
    }
    letters
}

/// The line with one of its spaces written twice.
pub fn double_space(random: &mut Random, line: &[u8]) -> Vec<u8> {
    let spaces: Vec<usize> = (0..line.len()).filter(|&k| line[k] == b' ').collect();
    let mut doubled = line.to_vec();
    doubled.insert(random.pick(&spaces), b' ');
    doubled
}

/// The line with one of its bytes changed.
pub fn one_byte_changed(random: &mut Random, mut line: Vec<u8>) -> Vec<u8> {
    let index = random.below(line.len());
    line[index] = random.any_byte();
    line
}

/// So many bytes of any value but the newline's.
pub fn any_bytes(random: &mut Random, length: usize) -> Vec<u8> {
    (0..length).map(|_| random.any_byte()).collect()
}

/// Puts another byte that is no bit in the place of a carriage return at the end of a line.
pub fn end_otherwise(line: &mut [u8]) {
    if let [.., last @ b'\r'] = line {
        *last = b'\x0b';
    }
}

/// The length of a line at the limit of 1,000 bytes or over it.
pub fn long_length(random: &mut Random) -> usize {
    let beyond = 1002 + random.below(7000);
    random.pick(&[999, 1000, 1001, beyond])
}

#[cfg(test)]
mod tests {
    use super::*;

    #[test]
    fn lists_are_fitted_to_a_length() {
        let mut random = Random::new(92);
        for length in [0, 1, 4, 5, 20] {
            let mut bits = b"0110".to_vec();
            fit(&mut random, &mut bits, length);
            let kept = length.min(4);
            assert_eq!(bits.len(), length);
            assert_eq!(bits[..kept], b"0110"[..kept]);
        }
    }

    #[test]
    fn another_length_is_never_the_right_one() {
        assert_eq!(other_than(36, 36), 37);
        assert_eq!(other_than(36, 35), 35);
    }

    #[test]
    fn wrong_characters_are_no_bits_and_part_nothing() {
        let mut random = Random::new(93);
        for (digits, right) in [
            (WRONG_WHERE_SENT, &b"01 \n"[..]),
            (WRONG_WHERE_RECEIVED, b"012 \n"),
        ] {
            for _ in 0..5000 {
                assert!(!right.contains(&wrong_character(&mut random, digits)));
            }
        }
    }

    #[test]
    fn every_wrong_digit_comes_the_lowest_more_than_the_others() {
        let mut random = Random::new(224);
        for (digits, lowest) in [(WRONG_WHERE_SENT, b'2'), (WRONG_WHERE_RECEIVED, b'3')] {
            let made: Vec<u8> = (0..4000)
                .map(|_| wrong_character(&mut random, digits))
                .collect();
            let times = |digit: u8| made.iter().filter(|&&other| other == digit).count();
            assert!((lowest..=b'9').all(|digit| times(digit) > 20));
            assert!(times(lowest) > 300);
        }
    }

    #[test]
    fn high_identities_are_over_63_and_each_limit_comes() {
        let mut random = Random::new(135);
        let digits = |random: &mut Random| String::from_utf8(high_identity(random)).unwrap();
        let made: Vec<usize> = (0..1000)
            .map(|_| digits(&mut random).parse().unwrap())
            .collect();
        assert!(made
            .iter()
            .all(|&identity| (64..=65_535).contains(&identity)));
        for limit in LIMITS {
            assert!(made.contains(&limit), "{}", limit);
        }
    }

    #[test]
    fn a_return_at_the_end_alone_is_another_byte() {
        for (line, expected) in [
            (&b"end\r"[..], &b"end\x0b"[..]),
            (b"end\r\r", b"end\r\x0b"),
            (b"\rend", b"\rend"),
            (b"", b""),
        ] {
            let mut line = line.to_vec();
            end_otherwise(&mut line);
            assert_eq!(line, expected);
        }
    }

    #[test]
    fn a_space_is_written_twice() {
        let mut random = Random::new(94);
        for _ in 0..20 {
            let line = double_space(&mut random, b"take 7 01");
            assert!([&b"take  7 01"[..], b"take 7  01"].contains(&&line[..]));
        }
    }
}
