//! Bits and answers as text. Every answer is told in one way; how the bits that are written are
//! shown is the only difference between a call with a lent buffer and one without.

use crate::model::refusal::Refusal;

/// '0' to '9' are the bytes 0 to 9, any other character is the byte 255.
pub fn bits(characters: &[u8]) -> Vec<u8> {
    let byte = |&character: &u8| match character {
        b'0'..=b'9' => character - b'0',
        _ => 255,
    };
    characters.iter().map(byte).collect()
}

/// The characters of bits.
pub fn characters(bits: &[u8]) -> Vec<u8> {
    bits.iter().map(|bit| b'0' + bit).collect()
}

/// The octets of hexadecimal digits, two for each, the higher one first; nothing for an odd number of
/// them, or for another character. Capital letters are no digits.
pub fn octets(digits: &[u8]) -> Option<Vec<u8>> {
    let pairs = digits.chunks(2);
    pairs.map(octet).collect()
}

/// The octet of two digits.
fn octet(digits: &[u8]) -> Option<u8> {
    match digits {
        [high, low] => Some(16 * value(*high)? + value(*low)?),
        _ => None,
    }
}

/// The value of a hexadecimal digit.
fn value(digit: u8) -> Option<u8> {
    match digit {
        b'0'..=b'9' => Some(digit - b'0'),
        b'a'..=b'f' => Some(10 + digit - b'a'),
        _ => None,
    }
}

/// The hexadecimal digits of octets, in small letters.
pub fn hexadecimal(octets: &[u8]) -> String {
    let digits = |octet: &u8| format!("{:02x}", octet);
    octets.iter().map(digits).collect()
}

/// The bytes of a buffer in one run: a byte over 9 is x, and "-" stands for no byte at all.
pub fn shown(buffer: &[u8]) -> String {
    let character = |&byte: &u8| match byte {
        0..=9 => char::from(b'0' + byte),
        _ => 'x',
    };
    match buffer {
        [] => "-".to_string(),
        _ => buffer.iter().map(character).collect(),
    }
}

/// What is told of a call: words, and the bits that it writes to the beginning of the lent buffer.
pub struct Told {
    words: String,
    bits: Vec<u8>,
}

impl Told {
    /// Words, of which there may be none, and the bits that are written.
    pub fn new(words: String, bits: Vec<u8>) -> Told {
        Told { words, bits }
    }

    /// Words alone; nothing is written.
    pub fn words(words: String) -> Told {
        Told::new(words, Vec::new())
    }

    /// "refused", the number, n in a stream, and the count if it is returned besides.
    pub fn refused(refusal: Refusal, n: Option<usize>) -> Told {
        let numbers = [Some(usize::from(refusal.number())), n, refusal.count()];
        let numbers = numbers.into_iter().flatten();
        let words: String = numbers.map(|number| format!(" {}", number)).collect();
        Told::words(format!("refused{}", words))
    }

    /// The words and the bits that are written, where there are any.
    pub fn plain(&self) -> String {
        match (self.words.as_str(), &self.bits[..]) {
            ("", bits) => shown(bits),
            (words, []) => words.to_string(),
            (words, bits) => format!("{} {}", words, shown(bits)),
        }
    }

    /// The words, "done" where there are none, and the whole lent buffer as it stands then.
    pub fn with_buffer(&self, mut lent: Vec<u8>) -> String {
        lent[..self.bits.len()].copy_from_slice(&self.bits);
        let words = match self.words.as_str() {
            "" => "done",
            words => words,
        };
        format!("{} {}", words, shown(&lent))
    }
}

/// What is told of a good answer; or the refusal.
pub fn told<T>(answer: Result<T, Refusal>, good: impl FnOnce(T) -> Told) -> Told {
    match answer {
        Ok(answer) => good(answer),
        Err(refusal) => Told::refused(refusal, None),
    }
}

/// The bits that are sent.
pub fn sent(answer: Result<Vec<u8>, Refusal>) -> Told {
    told(answer, |bits| Told::new(String::new(), bits))
}

#[cfg(test)]
mod tests {
    use super::*;

    #[test]
    fn characters_are_read_as_bytes() {
        assert_eq!(
            bits(b"0129/:x\0\xff"),
            [0, 1, 2, 9, 255, 255, 255, 255, 255]
        );
    }

    #[test]
    fn bits_are_written() {
        assert_eq!(characters(&[0, 1, 1]), b"011");
        assert_eq!(shown(&[0, 1, 1]), "011");
        assert_eq!(sent(Ok(vec![1, 0])).plain(), "10");
    }

    #[test]
    fn octets_are_read_from_hexadecimal_digits_and_written_so() {
        assert_eq!(octets(b"00097fa1ff"), Some(vec![0, 9, 127, 161, 255]));
        assert_eq!(hexadecimal(&[0, 9, 127, 161, 255]), "00097fa1ff");
        assert_eq!(octets(b""), Some(Vec::new()));
        assert_eq!(hexadecimal(&[]), "");
        for octet in 0..=255 {
            let digits = hexadecimal(&[octet, octet]);
            assert_eq!(digits.len(), 4);
            assert_eq!(octets(digits.as_bytes()), Some(vec![octet, octet]));
        }
    }

    #[test]
    fn other_characters_and_an_odd_number_of_digits_are_no_octets() {
        for digits in ["0", "000", "a", "abc", "00000"] {
            assert_eq!(octets(digits.as_bytes()), None, "{}", digits);
        }
        let is_digit = |byte: u8| b"0123456789abcdef".contains(&byte);
        for byte in 0..=255 {
            for digits in [[byte, b'0'], [b'0', byte]] {
                let octets = octets(&digits);
                assert_eq!(octets.is_some(), is_digit(byte), "byte {}", byte);
            }
        }
    }

    #[test]
    fn every_byte_of_a_buffer_is_shown() {
        assert_eq!(shown(&[0, 1, 7, 9, 10, 255]), "0179xx");
        assert_eq!(shown(&[]), "-");
    }

    /// A refusal in words.
    fn refused(refusal: Refusal, n: Option<usize>) -> String {
        Told::refused(refusal, n).plain()
    }

    #[test]
    fn refusals_are_written_with_what_is_returned_besides() {
        assert_eq!(refused(Refusal::WrongIdentity, None), "refused 3");
        assert_eq!(refused(Refusal::EqualFlags, Some(7)), "refused 9 7");
        let bad_parity = Refusal::BadParity { count: 12 };
        assert_eq!(refused(bad_parity, None), "refused 8 12");
        assert_eq!(refused(bad_parity, Some(7)), "refused 8 7 12");
        let bad_crc = Refusal::BadCrc { count: 12 };
        assert_eq!(refused(bad_crc, None), "refused 10 12");
        assert_eq!(sent(Err(Refusal::Ended)).plain(), "refused 7");
    }

    #[test]
    fn words_come_before_the_bits() {
        let count = |bits| Told::new("3".to_string(), bits);
        assert_eq!(count(vec![0, 1]).plain(), "3 01");
        assert_eq!(count(vec![0, 1]).with_buffer(vec![7; 4]), "3 0177");
        assert_eq!(Told::words("waiting".to_string()).plain(), "waiting");
    }

    #[test]
    fn a_lent_buffer_is_shown_whole() {
        assert_eq!(sent(Ok(vec![1, 0])).with_buffer(vec![7; 2]), "done 10");
        let refused = |lent| Told::refused(Refusal::WrongLength, None).with_buffer(lent);
        assert_eq!(refused(vec![7; 3]), "refused 1 777");
        assert_eq!(refused(Vec::new()), "refused 1 -");
    }
}
