//! The access sheet: two decimal digits (identity), a space, eight characters d(0)..d(7).

use crate::model::channel::ACCESS;
use crate::text::{bits, sent};

/// The length, the two digits and the space are as a request has them.
fn is_request(line: &[u8]) -> bool {
    line.len() == 11 && line[0].is_ascii_digit() && line[1].is_ascii_digit() && line[2] == b' '
}

/// The answer to one line, without its newline: the two digits, a space, and the 36 bits
/// or "refused" and the number.
pub fn answer(line: &[u8]) -> String {
    if !is_request(line) {
        return "?? refused 1".to_string();
    }
    let (tens, units) = (line[0] - b'0', line[1] - b'0');
    let identity = u64::from(10 * tens + units);
    let answer = ACCESS.encode(identity, &bits(&line[3..]), ACCESS.writes);
    format!("{}{} {}", tens, units, sent(answer).plain())
}

#[cfg(test)]
mod tests {
    use super::*;
    use crate::page;

    /// A page of requests in, a page of answers out.
    fn page_of(input: &[u8]) -> String {
        String::from_utf8(page::answers(input, answer)).unwrap()
    }

    #[test]
    fn the_three_printed_lines() {
        let answers = "00 000000000000000011101001101001000011\n\
                       63 000000000000000000000000000000000000\n\
                       64 refused 3\n";
        assert_eq!(page_of(b"00 00000000\n63 00000000\n64 00000000\n"), answers);
        // The last line counts without its newline too.
        assert_eq!(page_of(b"00 00000000\n63 00000000\n64 00000000"), answers);
    }

    #[test]
    fn no_input_has_no_answer() {
        assert_eq!(page_of(b""), "");
    }

    #[test]
    fn an_empty_line_is_refused() {
        assert_eq!(page_of(b"\n"), "?? refused 1\n");
        assert_eq!(page_of(b"64 00000000\n\n"), "64 refused 3\n?? refused 1\n");
    }

    #[test]
    fn a_line_must_have_11_bytes() {
        for line in ["0", "63 0000000", "63 000000000", "63 00000000\r"] {
            assert_eq!(answer(line.as_bytes()), "?? refused 1", "{}", line);
        }
        assert_eq!(answer(&[b'0'; 70_000]), "?? refused 1");
    }

    #[test]
    fn the_digits_and_the_space_must_be_there() {
        for line in [
            "x3 00000000",
            "6x 00000000",
            "63000000000",
            "63\t00000000",
            " 6 00000000",
            "-1 00000000",
        ] {
            assert_eq!(answer(line.as_bytes()), "?? refused 1", "{}", line);
        }
    }

    #[test]
    fn refusals_come_in_the_order_1_2_3() {
        assert_eq!(answer(b"99 222222222"), "?? refused 1");
        assert_eq!(answer(b"99 00000002"), "99 refused 2");
        assert_eq!(answer(b"99 00000000"), "99 refused 3");
        assert_eq!(answer(b"07 0000 000"), "07 refused 2");
    }

    #[test]
    fn wrong_characters_are_refused() {
        for wrong in [b'2', b'9', b'/', b'x', b' ', 0, 1, 13, 128, 255] {
            let line = [&b"00 0000000"[..], &[wrong]].concat();
            assert_eq!(answer(&line), "00 refused 2", "byte {}", wrong);
        }
    }
}
