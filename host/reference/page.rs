//! A page is many lines. A line is any bytes but 10 and ends in byte 10. A text is a page that may
//! come from Windows, where a mark stands before the first line and each newline has two bytes.

/// The byte order mark, which may stand before the first line of a text.
pub const MARK: [u8; 3] = [0xef, 0xbb, 0xbf];

/// The lines of a page; a last line without its newline counts if it is not empty.
fn lines_of(page: &[u8]) -> Vec<&[u8]> {
    let mut lines: Vec<&[u8]> = page.split(|&byte| byte == 10).collect();
    // Behind the last newline stands an empty rest, or the last line without its newline.
    if lines.last() == Some(&&b""[..]) {
        lines.pop();
    }
    lines
}

/// The lines of a text: one mark at its beginning is passed over, and so is one carriage return
/// directly before each newline.
fn lines_of_text(text: &[u8]) -> Vec<&[u8]> {
    let text = text.strip_prefix(&MARK).unwrap_or(text);
    let with_ends = text.split_inclusive(|&byte| byte == 10);
    with_ends.map(without_end).collect()
}

/// A line without its newline and one carriage return before it; all of it if it has no newline.
fn without_end(line: &[u8]) -> &[u8] {
    match line {
        [line @ .., 13, 10] => line,
        [line @ .., 10] => line,
        line => line,
    }
}

/// The answers to a page, one line for each of its lines.
pub fn answers(page: &[u8], answer: impl FnMut(&[u8]) -> String) -> Vec<u8> {
    answers_to(lines_of(page), answer)
}

/// The answers to a text, one line for each of its lines.
pub fn answers_to_text(text: &[u8], answer: impl FnMut(&[u8]) -> String) -> Vec<u8> {
    answers_to(lines_of_text(text), answer)
}

/// The page of the answers to these lines.
fn answers_to(lines: Vec<&[u8]>, answer: impl FnMut(&[u8]) -> String) -> Vec<u8> {
    let answers: Vec<String> = lines.into_iter().map(answer).collect();
    of_lines(&answers)
}

/// The page of these lines, each with its newline.
pub fn of_lines(lines: &[String]) -> Vec<u8> {
    let mut page = Vec::new();
    for line in lines {
        page.extend(line.as_bytes());
        page.push(10);
    }
    page
}

#[cfg(test)]
mod tests {
    use super::*;

    #[test]
    fn an_empty_page_has_no_line() {
        assert!(lines_of(b"").is_empty());
    }

    #[test]
    fn an_empty_line_with_its_newline_counts() {
        assert_eq!(lines_of(b"\n"), [b""]);
        assert_eq!(lines_of(b"\n\n"), [b"", b""]);
        assert_eq!(lines_of(b"a\n\n"), [&b"a"[..], b""]);
    }

    #[test]
    fn a_last_line_without_its_newline_counts_if_not_empty() {
        assert_eq!(lines_of(b"a\nb\n"), [b"a", b"b"]);
        assert_eq!(lines_of(b"a\nb"), [b"a", b"b"]);
        assert_eq!(lines_of(b"a"), [b"a"]);
    }

    #[test]
    fn lines_make_a_page() {
        assert_eq!(of_lines(&["a".to_string(), String::new()]), b"a\n\n");
        assert!(of_lines(&[]).is_empty());
    }

    #[test]
    fn other_line_ends_are_part_of_the_line() {
        assert_eq!(lines_of(b"a\r\nb\0c\n"), [&b"a\r"[..], b"b\0c"]);
        assert_eq!(lines_of(b"\xef\xbb\xbfa\n"), [b"\xef\xbb\xbfa"]);
    }

    #[test]
    fn a_text_without_marks_and_returns_has_the_lines_of_a_page() {
        for text in [&b""[..], b"\n", b"\n\n", b"a", b"a\n", b"a\nb", b"a\n\nb\n"] {
            assert_eq!(lines_of_text(text), lines_of(text));
        }
    }

    #[test]
    fn one_return_is_passed_over_before_a_newline() {
        assert_eq!(lines_of_text(b"a\r\nb\r\n"), [b"a", b"b"]);
        assert_eq!(lines_of_text(b"a\r\nb\nc\r\n"), [b"a", b"b", b"c"]);
        assert_eq!(lines_of_text(b"\r\n\n"), [b"", b""]);
        assert_eq!(lines_of_text(b"a\r\r\n\r\r\n"), [&b"a\r"[..], b"\r"]);
    }

    #[test]
    fn a_return_elsewhere_is_part_of_the_line() {
        assert_eq!(lines_of_text(b"a\rb\n\rc\n"), [&b"a\rb"[..], b"\rc"]);
        assert_eq!(lines_of_text(b"a\r\nb\r"), [&b"a"[..], b"b\r"]);
        assert_eq!(lines_of_text(b"\r"), [b"\r"]);
        assert_eq!(lines_of_text(b"a\r \n"), [b"a\r "]);
    }

    #[test]
    fn one_mark_is_passed_over_before_the_first_line() {
        assert_eq!(lines_of_text(b"\xef\xbb\xbfa\nb\n"), [b"a", b"b"]);
        assert_eq!(lines_of_text(b"\xef\xbb\xbfa"), [b"a"]);
        assert_eq!(lines_of_text(b"\xef\xbb\xbf\n"), [b""]);
        assert_eq!(lines_of_text(b"\xef\xbb\xbf\r\n"), [b""]);
        assert_eq!(lines_of_text(b"\xef\xbb\xbf\r"), [b"\r"]);
        assert!(lines_of_text(b"\xef\xbb\xbf").is_empty());
    }

    #[test]
    fn a_mark_elsewhere_or_a_part_of_one_is_part_of_the_line() {
        let twice = [MARK, MARK].concat();
        assert_eq!(lines_of_text(&twice), [MARK]);
        assert_eq!(lines_of_text(b"a\n\xef\xbb\xbf"), [&b"a"[..], &MARK]);
        assert_eq!(lines_of_text(b"\n\xef\xbb\xbf\n"), [&b""[..], &MARK]);
        for line in [
            &MARK[..1],
            &MARK[..2],
            &MARK[1..],
            b"\xef\xbb\xbe",
            b" \xef\xbb\xbf",
        ] {
            assert_eq!(lines_of_text(line), [line]);
        }
    }
}
