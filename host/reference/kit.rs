//! The kit's line protocol: a word and its arguments, parted by single spaces. One sending and one
//! receiving stream live through all of the lines, and so does the hub.

use crate::handbook;
use crate::model::burst::FOUR_BURSTS;
use crate::model::channel::{self, Received, ACCESS, NO_IDENTITY};
use crate::model::frame::{self, Carried};
use crate::model::hub::{Heard, Hub};
use crate::model::marking::{self, Mark};
use crate::model::receiving_stream::{Receiver, Taken, Totals, LENT_TO_TAKE};
use crate::model::refusal::Refusal;
use crate::model::sending_stream::Sender;
use crate::model::trellis::{self, View};
use crate::model::whose::{whose, Named};
use crate::text::{bits, hexadecimal, octets, sent, shown, told, Told};

/// A line over this many bytes is not understood.
const LONGEST_LINE: usize = 1000;

/// The most bytes that a line lends.
const MOST_LENT: u16 = 600;

/// The answer to a line that is not understood.
const NOT_UNDERSTOOD: &str = "?";

/// A number is one to five decimal digits, at most 65535.
fn number(characters: &[u8]) -> Option<u16> {
    if characters.is_empty() || characters.len() > 5 {
        return None;
    }
    let mut value: u32 = 0;
    for character in characters {
        if !character.is_ascii_digit() {
            return None;
        }
        value = 10 * value + u32::from(character - b'0');
    }
    u16::try_from(value).ok()
}

/// A buffer of so many bytes, 0 to 600, each of them one digit; nothing if it is said otherwise.
fn buffer(length: &[u8], byte: &[u8]) -> Option<Vec<u8>> {
    let length = number(length).filter(|&length| length <= MOST_LENT)?;
    match byte {
        [digit @ b'0'..=b'9'] => Some(vec![digit - b'0'; length.into()]),
        _ => None,
    }
}

/// The count and the bits.
fn received(answer: Received) -> Told {
    told(answer, |(count, d)| Told::new(count.to_string(), d))
}

/// The sixteen numbers of the view, parted by single spaces.
fn viewed(answer: Result<View, Refusal>) -> Told {
    told(answer, |view| {
        Told::words(view.map(|number| number.to_string()).join(" "))
    })
}

/// The identity and the count.
fn named(answer: Named) -> Told {
    told(answer, |(identity, count)| {
        Told::words(format!("{} {}", identity, count))
    })
}

/// Yes, or no and what is wrong.
fn marked(answer: Result<Mark, Refusal>) -> Told {
    told(answer, |mark| Told::words(mark.words().to_string()))
}

/// "waiting"; or the kind, n, the count and the bits; or "refused" and what is returned besides.
fn taken(answer: Result<Taken, Refusal>) -> Told {
    told(answer, |taken| match taken {
        Taken::Waiting => Told::words("waiting".to_string()),
        Taken::Good { n, kind, count, d } => {
            Told::new(format!("{} {} {}", kind.word(), n, count), d)
        }
        Taken::Bad { n, refusal } => Told::refused(refusal, Some(n)),
    })
}

/// The four totals, parted by single spaces.
fn totalled(totals: Totals) -> Told {
    let numbers = [totals.speech, totals.facch, totals.refused, totals.counts];
    Told::words(numbers.map(|number| number.to_string()).join(" "))
}

/// The place that an identity is given.
fn enrolled(answer: Result<usize, Refusal>) -> Told {
    told(answer, |place| Told::words(place.to_string()))
}

/// "removed".
fn removed(answer: Result<(), Refusal>) -> Told {
    told(answer, |_| Told::words("removed".to_string()))
}

/// The place, the count and the bits.
fn heard(answer: Heard) -> Told {
    told(answer, |(place, count, d)| {
        Told::new(format!("{} {}", place, count), d)
    })
}

/// The octets of a frame in hexadecimal digits.
fn framed(answer: Result<Vec<u8>, Refusal>) -> Told {
    told(answer, |octets| Told::words(hexadecimal(&octets)))
}

/// The control bits of a frame and its speech.
fn carried(answer: Result<Carried, Refusal>) -> Told {
    told(answer, |(c, d)| {
        Told::words(format!("{} {}", shown(&c), shown(&d)))
    })
}

/// The answer of a channel's two verbs: its name sends a block, with a question mark behind it a
/// block is received. The identity comes first where the channel has one.
fn of_channel(word: &[u8], arguments: &[&[u8]], lent: Option<usize>) -> Option<Told> {
    let asked = word.strip_suffix(b"?");
    let channel = channel::named(asked.unwrap_or(word))?;
    let (identity, list) = match arguments {
        [list] if !channel.has_identity => (NO_IDENTITY, bits(list)),
        [identity, list] if channel.has_identity => (number(identity)?.into(), bits(list)),
        _ => return None,
    };
    Some(match asked {
        Some(_) => received(channel.decode(identity, &list, lent.unwrap_or(channel.reads))),
        None => sent(channel.encode(identity, &list, lent.unwrap_or(channel.writes))),
    })
}

/// The kit: its sending and its receiving stream, and the hub.
pub struct Kit {
    sender: Sender,
    receiver: Receiver,
    hub: Hub,
}

impl Kit {
    /// Both streams and the hub are fresh.
    pub fn fresh() -> Kit {
        Kit {
            sender: Sender::fresh(),
            receiver: Receiver::fresh(),
            hub: Hub::fresh(),
        }
    }

    /// The answer to one line, without its newline.
    pub fn answer(&mut self, line: &[u8]) -> String {
        if line.len() > LONGEST_LINE {
            return NOT_UNDERSTOOD.to_string();
        }
        let fields: Vec<&[u8]> = line.split(|&byte| byte == b' ').collect();
        self.answer_fields(&fields)
            .unwrap_or_else(|| NOT_UNDERSTOOD.to_string())
    }

    /// The answer to a word and its arguments; nothing if they are not understood.
    fn answer_fields(&mut self, fields: &[&[u8]]) -> Option<String> {
        if let [b"lend", length, byte, call @ ..] = fields {
            let lent = buffer(length, byte)?;
            let told = self.call_that_writes(call, Some(lent.len()))?;
            return Some(told.with_buffer(lent));
        }
        let told = match self.call_that_writes_nothing(fields) {
            Some(told) => told,
            None => self.call_that_writes(fields, None)?,
        };
        Some(told.plain())
    }

    /// What is told of a call that writes to so many lent bytes, to the right number of them where
    /// none is said; one row for each verb, nothing for other words.
    fn call_that_writes(&mut self, fields: &[&[u8]], lent: Option<usize>) -> Option<Told> {
        let four_bursts = lent.unwrap_or(FOUR_BURSTS);
        Some(match fields {
            [b"send", d] => sent(self.sender.send(&bits(d), four_bursts)),
            [b"end"] => sent(self.sender.end(four_bursts)),
            [b"take", burst, e] => {
                let lent = lent.unwrap_or(LENT_TO_TAKE);
                taken(self.receiver.take(number(burst)?, &bits(e), lent))
            }
            [b"hear", e] => heard(self.hub.hear(&bits(e), lent.unwrap_or(ACCESS.reads))),
            [word, arguments @ ..] => of_channel(word, arguments, lent)?,
            [] => return None,
        })
    }

    /// What is told of a call that needs no buffer; one row for each verb, nothing for other words.
    fn call_that_writes_nothing(&mut self, fields: &[&[u8]]) -> Option<Told> {
        match fields {
            // Without an argument it is the view of nothing.
            [b"trellis"] => Some(viewed(trellis::view(&[]))),
            [b"trellis", c] => Some(viewed(trellis::view(&bits(c)))),
            [b"whose", e] => Some(named(whose(&bits(e)))),
            [b"mark", channel, e, u, count] => {
                let (channel, count) = (marking::marked(channel)?, number(count)?);
                let answer = marking::mark(channel, &bits(e), &bits(u), count.into());
                Some(marked(answer))
            }
            [b"totals"] => Some(totalled(self.receiver.totals())),
            [b"enrol", identity] => Some(enrolled(self.hub.enrol(number(identity)?.into()))),
            [b"remove", place] => Some(removed(self.hub.remove(number(place)?.into()))),
            [b"frame", c, d] => Some(framed(frame::written(&bits(c), &bits(d)))),
            [b"frame?", digits] => Some(carried(frame::read(&octets(digits)?))),
            [b"fresh"] => {
                *self = Kit::fresh();
                Some(Told::words("fresh".to_string()))
            }
            [b"help"] => Some(Told::words(handbook::words().join(" "))),
            [b"help", word] => handbook::help(word).map(Told::words),
            [b"why", refusal] => handbook::why(number(refusal)?).map(Told::words),
            _ => None,
        }
    }
}

/// The answer of a fresh kit to one line.
#[cfg(test)]
pub fn answer(line: &[u8]) -> String {
    Kit::fresh().answer(line)
}

/// The answers of one kit to lines in their order.
#[cfg(test)]
pub fn answers(lines: &[Vec<u8>]) -> Vec<String> {
    let mut kit = Kit::fresh();
    lines.iter().map(|line| kit.answer(line)).collect()
}

#[cfg(test)]
mod tests {
    use super::*;
    use crate::model::channel::{Channel, CHANNELS};
    use crate::page;

    /// A text with its runs written out: "1{0*3}" is "1000".
    fn full(text: &str) -> String {
        let mut parts = text.split('{');
        let mut full = parts.next().unwrap_or_default().to_string();
        for part in parts {
            let (run, rest) = part.split_once('}').unwrap();
            let (bits, times) = run.split_once('*').unwrap();
            full += &bits.repeat(times.parse().unwrap());
            full += rest;
        }
        full
    }

    /// The answer of a fresh kit to a line of text.
    fn answer_to(line: &str) -> String {
        answer(full(line).as_bytes())
    }

    /// The answers of one kit to lines of text in their order.
    fn answers_to(lines: &[&str]) -> Vec<String> {
        let lines: Vec<Vec<u8>> = lines.iter().map(|line| full(line).into_bytes()).collect();
        answers(&lines)
    }

    /// Each line has its answer from a fresh kit.
    fn answered(lines: &[(&str, &str)]) {
        for (line, expected) in lines {
            assert_eq!(answer_to(line), full(expected), "{}", line);
        }
    }

    /// Each line is answered by "?".
    fn not_understood(lines: &[&str]) {
        for line in lines {
            assert_eq!(answer_to(line), "?", "{}", line);
        }
    }

    /// A text of lines in, a page of answers out.
    fn page_of(input: &[u8]) -> String {
        let mut kit = Kit::fresh();
        String::from_utf8(page::answers_to_text(input, |line| kit.answer(line))).unwrap()
    }

    /// All characters are bits, and so many.
    fn are_bits(answer: &str, number: usize) -> bool {
        answer.len() == number && answer.chars().all(|bit| bit == '0' || bit == '1')
    }

    #[test]
    fn access_answers_its_bits() {
        answered(&[
            ("access 0 00000000", "000000000000000011101001101001000011"),
            ("access 63 00000000", "{0*36}"),
        ]);
    }

    /// The words with which a channel's lines begin: its verb, and an identity where it has one.
    fn words_of(channel: &Channel, mark: &str) -> String {
        let identity = if channel.has_identity { " 41" } else { "" };
        format!("{}{}{}", channel.name, mark, identity)
    }

    #[test]
    fn every_channel_answers_its_length() {
        for channel in CHANNELS {
            let line = format!("{} {{1*{}}}", words_of(&channel, ""), channel.reads);
            assert!(are_bits(&answer_to(&line), channel.writes), "{}", line);
        }
    }

    #[test]
    fn what_is_sent_is_received() {
        for channel in CHANNELS {
            let d = &full("{0110100*38}")[..channel.reads];
            let sent = answer_to(&format!("{} {}", words_of(&channel, ""), d));
            let answer = answer_to(&format!("{} {}", words_of(&channel, "?"), sent));
            assert_eq!(answer, format!("0 {}", d));
        }
        let sent = answer_to("access 00041 01101001");
        assert_eq!(answer_to(&format!("access? 41 {}", sent)), "0 01101001");
        assert_eq!(answer_to(&format!("access? 40 {}", sent)), "refused 8 0");
    }

    #[test]
    fn an_identity_is_understood_where_the_channel_has_one_alone() {
        for channel in CHANNELS {
            for (mark, length) in [("", channel.reads), ("?", channel.writes)] {
                let word = format!("{}{}", channel.name, mark);
                let without = answer_to(&format!("{} {{0*{}}}", word, length));
                let with = answer_to(&format!("{} 63 {{0*{}}}", word, length));
                assert_eq!(without == "?", channel.has_identity, "{}", word);
                assert_eq!(with == "?", !channel.has_identity, "{}", word);
            }
        }
    }

    #[test]
    fn speech_of_zeros_has_its_seven_ones() {
        let answer = answer_to("speech {0*260}");
        let ones: Vec<usize> = answer.match_indices('1').map(|(k, _)| k).collect();
        assert_eq!(ones, [182, 183, 184, 186, 188, 194, 195]);
    }

    #[test]
    fn pages_are_answered_line_by_line() {
        assert_eq!(page_of(b""), "");
        assert_eq!(page_of(b"\n\n"), "?\n?\n");
        // A last line without its newline is answered.
        assert_eq!(page_of(b"sch \nsch 2"), "refused 1\nrefused 1\n");
    }

    #[test]
    fn a_text_from_windows_is_answered_like_any_other() {
        let text = page_of(b"\xef\xbb\xbfaccess 0 00000000\r\nfresh\r\n\r\n");
        assert_eq!(text, page_of(b"access 0 00000000\nfresh\n\n"));
        assert!(text.ends_with("0011\nfresh\n?\n"));
        // A second carriage return is one character more, and so is one without its newline.
        assert_eq!(page_of(b"access 0 00000000\r\r\n"), "refused 1\n");
        assert_eq!(page_of(b"access 0 00000000\r"), "refused 1\n");
        assert_eq!(page_of(b"fresh\n\xef\xbb\xbffresh\n"), "fresh\n?\n");
    }

    #[test]
    fn the_limit_of_a_line_is_on_what_remains() {
        for (bits, end, expected) in [
            (995, "\r\n", "refused 1\n"),
            (996, "\r\n", "?\n"),
            (994, "\r\r\n", "refused 1\n"),
            (995, "\r\r\n", "?\n"),
            (994, "\r", "refused 1\n"),
            (995, "\r", "?\n"),
        ] {
            let line = format!("send {}{}", "0".repeat(bits), end);
            assert_eq!(page_of(line.as_bytes()), expected);
            let marked = [&page::MARK[..], line.as_bytes()].concat();
            assert_eq!(page_of(&marked), expected);
        }
    }

    #[test]
    fn lines_of_1000_bytes_are_read_and_those_of_1001_are_not() {
        for (before, behind) in [
            ("speech ", ""),
            ("control? ", ""),
            ("efr? ", ""),
            ("whose ", ""),
            ("hear ", ""),
            ("mark sch ", " 1 1"),
            ("mark sch 1 ", " 1"),
            ("trellis ", ""),
            ("send ", ""),
            ("take 0 ", ""),
            ("frame ", " 1"),
            ("frame 1 ", ""),
        ] {
            let room = 1000 - before.len() - behind.len();
            let read = format!("{}{{0*{}}}{}", before, room, behind);
            let unread = format!("{}{{0*{}}}{}", before, room + 1, behind);
            assert_eq!((full(&read).len(), full(&unread).len()), (1000, 1001));
            assert_eq!(answer_to(&read), "refused 1", "{}", read);
            assert_eq!(answer_to(&unread), "?", "{}", unread);
        }
    }

    #[test]
    fn an_argument_may_be_empty() {
        answered(&[
            ("speech ", "refused 1"),
            ("access 5 ", "refused 1"),
            ("access? 5 ", "refused 1"),
            ("sch? ", "refused 1"),
            ("send ", "refused 1"),
            ("take 0 ", "refused 1"),
            ("take 1 ", "refused 1"),
            ("hear ", "refused 1"),
            ("mark access  {0*18} 0", "refused 1"),
            ("mark access   0", "refused 1"),
            ("mark access {0*36}  0", "no length"),
            ("frame  ", "refused 1"),
            ("frame  {0*260}", "refused 1"),
            ("frame 00010{0*16} ", "refused 1"),
            ("frame? ", "refused 1"),
            // The identity is empty here, and no number; then the place, the channel and the count.
            ("access  00000000", "?"),
            ("enrol ", "?"),
            ("remove ", "?"),
            ("mark  {0*36} {0*18} 0", "?"),
            ("mark access {0*36} {0*18} ", "?"),
        ]);
    }

    #[test]
    fn the_number_of_arguments_must_be_right() {
        not_understood(&[
            "sch",
            "sch  0",
            "sch {0*25} ",
            "sch  {0*25}",
            " sch {0*25}",
            "access 00000000",
            "access 0 00000000 0",
            "speech?",
            "speech? {0*456} ",
            "access? {0*36}",
            "access?  {0*36}",
            "access? 1 {0*36} 1",
        ]);
    }

    #[test]
    fn other_words_are_not_understood() {
        for word in [
            "", "spee", "speec", "speechx", "Speech", "SPEECH", "speech\0", "facch",
        ] {
            not_understood(&[&format!("{} {{0*260}}", word)]);
        }
        not_understood(&["speech ? {0*456}", "?speech {0*456}", "control?? {0*456}"]);
    }

    #[test]
    fn numbers_have_one_to_five_digits() {
        assert_eq!(number(b"0"), Some(0));
        assert_eq!(number(b"00007"), Some(7));
        assert_eq!(number(b"65535"), Some(65_535));
        for bad in [
            "", "000007", "65536", "99999", "+5", "-1", "5x", "x", "0x7", " 7", "1.0",
        ] {
            assert_eq!(number(bad.as_bytes()), None, "{}", bad);
        }
    }

    #[test]
    fn a_bad_number_comes_before_every_refusal() {
        not_understood(&["access 65536 2", "access x 2", "access? 65536 {0*36}"]);
        not_understood(&["mark access 3 2 65536", "mark access {3*36} {2*18} x"]);
        not_understood(&["mark sch {3*78} {0*39} -1", "mark speech  {0*189} 000000"]);
    }

    #[test]
    fn refusals_come_in_the_order_1_2_3() {
        answered(&[
            ("access 64 000000002", "refused 1"),
            ("access 64 00000002", "refused 2"),
            ("access 64 00000000", "refused 3"),
            ("access 65535 00000000", "refused 3"),
            ("sch 2", "refused 1"),
            ("access? 64 {0*36}3", "refused 1"),
            ("access? 64 {3*36}", "refused 2"),
            ("access? 64 {0*35}3", "refused 2"),
            ("access? 64 {2*36}", "refused 3"),
            ("access? 64 {0*36}", "refused 3"),
            ("access? 65535 {0*36}", "refused 3"),
        ]);
    }

    #[test]
    fn wrong_characters_are_refused_by_number() {
        for wrong in [b'2', b'9', b'/', b':', b'x', 0, 13, 128, 255] {
            let line = [&b"access 0 0000000"[..], &[wrong]].concat();
            assert_eq!(answer(&line), "refused 2", "byte {}", wrong);
        }
    }

    #[test]
    fn a_2_is_a_missing_bit_where_it_is_received_alone() {
        for wrong in [b'3', b'9', b'/', b':', b'x', 0, 13, 128, 255] {
            let line = [full("access? 63 {0*35}").as_bytes(), &[wrong]].concat();
            assert_eq!(answer(&line), "refused 2", "byte {}", wrong);
        }
        answered(&[
            ("access? 63 {0*35}2", "0 {0*8}"),
            ("access? 63 {2*36}", "0 {0*8}"),
            ("access? 62 {2*36}", "refused 8 0"),
            // The last bit is 1 where the last colour bit is, and identity 62 has it so.
            ("access? 63 {2*35}1", "refused 8 0"),
            ("access? 62 {2*35}1", "0 {0*8}"),
            ("speech? {2*456}", "refused 8 0"),
            ("control? {2*456}", "refused 8 0"),
            ("sacch? {2*464}", "refused 8 0"),
            ("sch? {2*78}", "refused 8 0"),
            ("efr? {2*456}", "refused 8 0"),
            ("access 63 {0*7}2", "refused 2"),
            ("sch {0*24}2", "refused 2"),
            ("speech {2*260}", "refused 2"),
            ("control {0*183}2", "refused 2"),
            ("sacch 2{0*183}", "refused 2"),
            ("efr {0*243}2", "refused 2"),
            ("send {0*183}2", "refused 2"),
            ("send 2{0*259}", "refused 2"),
        ]);
    }

    #[test]
    fn missing_bits_are_not_counted() {
        // Three bits are altered, or six are missing, or one is altered and four are missing.
        answered(&[
            ("access 7 01101001", "001110010001110010001100010011110000"),
            (
                "access? 7 000110010001110011001100010011010000",
                "3 01101001",
            ),
            (
                "access? 7 002112012001112010201100010011210000",
                "0 01101001",
            ),
            (
                "access? 7 000112012001112010201100010011110000",
                "1 01101001",
            ),
            (
                "access? 12 002112012001112010201100010011210000",
                "refused 8 0",
            ),
        ]);
    }

    /// What is sent for 244 zeros of enhanced full rate: those of speech, whose parity is 111.
    const EFR_OF_ZEROS: &str = "{0*182}11101010000011{0*260}";

    /// The same with the pairs of u(25) more, which is d(50) and s(1): the parity is good and the CRC
    /// is bad.
    const EFR_WITH_BAD_CRC: &str = "{0*50}1101001111{0*122}11101010000011{0*260}";

    /// Each call, a word and bits, has its answer.
    fn efr_answered(calls: &[(&str, &str, &str)]) {
        for (word, bits, expected) in calls {
            answered(&[(&format!("{} {}", word, bits), expected)]);
        }
    }

    #[test]
    fn enhanced_full_rate_of_zeros_is_sent_and_received() {
        efr_answered(&[
            ("efr", "{0*244}", EFR_OF_ZEROS),
            ("efr?", EFR_OF_ZEROS, "0 {0*244}"),
            // Three bits are altered, then six are missing.
            ("efr?", "111{0*179}11101010000011{0*260}", "3 {0*244}"),
            ("efr?", "{0*182}22202020000012{0*260}", "0 {0*244}"),
            // Of class 2, a repeated bit and then its two others.
            (
                "efr?",
                "{0*182}11101010000011{0*182}1{0*77}",
                "0 {0*69}1{0*174}",
            ),
            ("efr?", "{0*182}11101010000011{0*183}11{0*75}", "0 {0*244}"),
            ("efr?", "{0*182}11101010000011{0*182}{2*78}", "0 {0*244}"),
        ]);
    }

    #[test]
    fn a_bad_crc_is_refused_behind_a_bad_parity() {
        efr_answered(&[
            ("efr?", EFR_WITH_BAD_CRC, "refused 10 0"),
            ("efr?", "{0*456}", "refused 8 0"),
            // Both are bad.
            ("efr?", "{0*50}1101001111{0*396}", "refused 8 0"),
            // Three and four bits altered of a good block.
            (
                "efr?",
                "{0*50}1101{0*128}11101010000011{0*260}",
                "3 {0*244}",
            ),
            (
                "efr?",
                "{0*50}1101001{0*125}11101010000011{0*260}",
                "refused 10 3",
            ),
            // To full rate the same block is good.
            ("speech?", EFR_WITH_BAD_CRC, "0 {0*50}1{0*209}"),
        ]);
    }

    #[test]
    fn enhanced_full_rate_has_its_lengths_and_then_its_bytes() {
        efr_answered(&[
            ("efr", "", "refused 1"),
            ("efr", "{0*243}", "refused 1"),
            ("efr", "{3*245}", "refused 1"),
            ("efr", "{0*260}", "refused 1"),
            ("efr", "{0*456}", "refused 1"),
            ("efr", "{0*243}2", "refused 2"),
            ("efr", "x{0*243}", "refused 2"),
            ("efr?", "", "refused 1"),
            ("efr?", "{0*244}", "refused 1"),
            ("efr?", "{0*455}", "refused 1"),
            ("efr?", "{3*457}", "refused 1"),
            ("efr?", "{0*455}3", "refused 2"),
            ("efr?", "x{0*455}", "refused 2"),
        ]);
    }

    #[test]
    fn enhanced_full_rate_writes_to_a_lent_buffer_or_leaves_it() {
        let done = format!("done {}", EFR_OF_ZEROS);
        efr_answered(&[
            ("lend 456 7 efr", "{0*244}", &done),
            ("lend 244 7 efr?", EFR_OF_ZEROS, "0 {0*244}"),
            ("lend 244 7 efr?", EFR_WITH_BAD_CRC, "refused 10 0 {7*244}"),
            ("lend 244 7 efr?", "{0*456}", "refused 8 0 {7*244}"),
            ("lend 244 7 efr?", "{3*456}", "refused 2 {7*244}"),
            ("lend 456 7 efr", "{2*244}", "refused 2 {7*456}"),
            ("lend 244 7 efr", "{0*244}", "refused 1 {7*244}"),
            ("lend 260 7 efr?", EFR_OF_ZEROS, "refused 1 {7*260}"),
            ("lend 243 7 efr?", EFR_WITH_BAD_CRC, "refused 1 {7*243}"),
        ]);
    }

    #[test]
    fn enhanced_full_rate_has_one_argument_and_two_words() {
        not_understood(&["efr", "efr?", "efr  ", "efr?  ", " efr {0*244}"]);
        not_understood(&["efr {0*244} ", "efr  {0*244}", "efr {0*244} {0*244}"]);
        not_understood(&["efr 7 {0*244}", "efr? 7 {0*456}", "efr\t{0*244}"]);
        not_understood(&["lend 456 7 efr", "lend 244 7 efr?", "lend 244 efr? 0"]);
        for word in [
            "Efr", "EFR", "ef", "fr", "efrs", "eefr", "efs", "e", "efr??", "?efr", "efr ?", "e fr",
        ] {
            not_understood(&[&format!("{} {{0*244}}", word)]);
        }
    }

    #[test]
    fn streams_keep_full_rate() {
        let (send, first, second) = ("send {1*260}", "take 0 {0*116}", "take 1 {0*116}");
        let alone = answers_to(&[send, first, second, "end"]);
        let bad_crc = format!("efr? {}", EFR_WITH_BAD_CRC);
        let between = answers_to(&[
            "efr {1*244}",
            send,
            &bad_crc,
            first,
            "send {0*244}",
            "efr? {0*456}",
            second,
            "lend 456 7 efr {1*244}",
            "end",
        ]);
        assert_eq!(between[4], "refused 1");
        let kept = [1, 3, 6, 8].map(|k| between[k].clone());
        assert_eq!(kept[..], alone[..]);
    }

    #[test]
    fn whose_answers_the_identity_and_the_count() {
        answered(&[
            ("whose {0*36}", "63 0"),
            ("whose {2*36}", "63 0"),
            // The nearest block has u(0) = 1 and the rest 0, and its parity is 100011.
            ("whose 1101001{0*29}", "35 3"),
            ("whose 000000000000000011101001101001000011", "0 0"),
            // A burst of identity 7: as sent, three altered, six missing, one altered and four missing.
            ("whose 001110010001110010001100010011110000", "7 0"),
            ("whose 000110010001110011001100010011010000", "7 3"),
            ("whose 002112012001112010201100010011210000", "7 0"),
            ("whose 000112012001112010201100010011110000", "7 1"),
        ]);
    }

    #[test]
    fn whose_refuses_lengths_and_then_bytes() {
        answered(&[
            ("whose ", "refused 1"),
            ("whose {0*35}", "refused 1"),
            ("whose {0*37}", "refused 1"),
            ("whose {0*34}3", "refused 1"),
            ("whose {x*37}", "refused 1"),
            ("whose {0*35}3", "refused 2"),
            ("whose x{0*35}", "refused 2"),
            ("whose {9*36}", "refused 2"),
        ]);
    }

    #[test]
    fn whose_has_one_argument_and_one_word() {
        not_understood(&["whose", "whose  ", " whose {0*36}", "whose {0*36} "]);
        not_understood(&["whose  {0*36}", "whose 63 {0*36}", "whose {0*36} 63"]);
        not_understood(&["whose {0*18} {0*18}", "whose\t{0*36}", "whose{0*36}"]);
        for word in [
            "who", "whos", "whoses", "whose?", "?whose", "Whose", "WHOSE", "who's", "hose",
            "who se",
        ] {
            not_understood(&[&format!("{} {{0*36}}", word)]);
        }
    }

    #[test]
    fn whose_writes_nothing_that_is_lent() {
        not_understood(&["lend 8 7 whose {0*36}", "lend 0 7 whose {0*36}"]);
        not_understood(&["lend 36 7 whose {0*36}", "lend 8 7 whose {0*35}"]);
        not_understood(&["lend 8 7 whose {3*36}", "lend 8 7 whose", "lend 8 7 whose "]);
    }

    /// Each block and its count have their mark on a channel, for these received bits.
    fn marked_for(channel: &str, received: &str, marks: &[(&str, &str)]) {
        for (handed_in, expected) in marks {
            let line = format!("mark {} {} {}", channel, received, handed_in);
            answered(&[(&line, expected)]);
        }
    }

    #[test]
    fn mark_says_yes_to_the_nearest_block_with_its_count() {
        // The block of a burst: as sent, three altered, six missing, one altered and four missing.
        for (received, count) in [
            ("001110010001110010001100010011110000", 0),
            ("000110010001110011001100010011010000", 3),
            ("002112012001112010201100010011210000", 0),
            ("000112012001112010201100010011110000", 1),
        ] {
            let right = format!("011010010001000000 {}", count);
            let wrong = format!("011010010001000000 {}", count + 1);
            marked_for("access", received, &[(&right, "yes"), (&wrong, "no count")]);
        }
        // Zeros disagree in four places, and the block with u(0) = 1 and the rest 0 in three.
        marked_for(
            "access",
            "1101001{0*29}",
            &[
                ("1{0*17} 3", "yes"),
                ("1{0*17} 00003", "yes"),
                ("1{0*17} 2", "no count"),
                ("1{0*17} 65535", "no count"),
                ("{0*18} 4", "no fewest"),
                ("{0*18} 3", "no count"),
            ],
        );
    }

    #[test]
    fn mark_says_yes_to_all_that_tie() {
        // Midway between zeros and the block that begins with 11.
        marked_for(
            "access",
            "101000010010{0*24}",
            &[
                ("{0*18} 4", "yes"),
                ("11{0*16} 4", "yes"),
                ("1{0*17} 7", "no fewest"),
                ("01{0*16} 7", "no fewest"),
            ],
        );
        for (channel, received, block) in [
            ("speech", "{2*456}", "{0110*46}1{0*4}"),
            ("control", "{2*456}", "{0110*56}{0*4}"),
            ("access", "{2*36}", "{01*7}{0*4}"),
            ("sch", "{2*78}", "{1*35}{0*4}"),
        ] {
            let (none, one) = (format!("{} 0", block), format!("{} 1", block));
            marked_for(channel, received, &[(&none, "yes"), (&one, "no count")]);
        }
    }

    #[test]
    fn every_marked_channel_has_its_lengths() {
        for (channel, received, block) in [
            ("speech", 456, 189),
            ("control", 456, 228),
            ("access", 36, 18),
            ("sch", 78, 39),
        ] {
            let mark = |received, block| {
                answer_to(&format!(
                    "mark {} {{0*{}}} {{0*{}}} 0",
                    channel, received, block
                ))
            };
            assert_eq!(mark(received, block), "yes");
            for other in [0, 18, 36, 39, 78, 189, 228, 378, received - 1, received + 1] {
                let expected = if other == received {
                    "yes"
                } else {
                    "refused 1"
                };
                assert_eq!(mark(other, block), expected, "{} {}", channel, other);
            }
            for other in [
                0,
                4,
                8,
                18,
                25,
                39,
                184,
                189,
                228,
                260,
                block - 4,
                block - 1,
                block + 1,
            ] {
                let expected = if other == block { "yes" } else { "no length" };
                assert_eq!(mark(received, other), expected, "{} {}", channel, other);
            }
        }
    }

    #[test]
    fn of_speech_the_first_378_count() {
        marked_for(
            "speech",
            "{0*378}{1*78}",
            &[("{0*189} 0", "yes"), ("{0*189} 78", "no count")],
        );
        marked_for(
            "speech",
            "{0*377}1{2*78}",
            &[("{0*189} 1", "yes"), ("{0*189} 0", "no count")],
        );
        marked_for("speech", "{0*455}3", &[("{0*189} 0", "refused 2")]);
        marked_for(
            "control",
            "{0*455}1",
            &[("{0*228} 1", "yes"), ("{0*228} 0", "no count")],
        );
    }

    #[test]
    fn mark_says_what_is_wrong_first() {
        marked_for(
            "access",
            "{3*37}",
            &[("2 9", "refused 1"), ("{0*18} 0", "refused 1")],
        );
        marked_for(
            "access",
            "{0*35}",
            &[("{2*18} 9", "refused 1"), ("{0*18} 0", "refused 1")],
        );
        marked_for(
            "access",
            "{0*35}3",
            &[("1 9", "refused 2"), ("{0*18} 0", "refused 2")],
        );
        marked_for(
            "access",
            "x{0*35}",
            &[(" 9", "refused 2"), ("{1*18} 0", "refused 2")],
        );
        marked_for(
            "access",
            "{0*36}",
            &[
                ("2 9", "refused 2"),
                ("x{1*30} 9", "refused 2"),
                ("{0*17}2 0", "refused 2"),
                ("{0*17}/ 0", "refused 2"),
                ("1 9", "no length"),
                (" 0", "no length"),
                ("{0*17} 0", "no length"),
                ("{1*19} 9", "no length"),
                ("{1*18} 9", "no tail"),
                ("{0*17}1 2", "no tail"),
                ("{0*16}10 4", "no tail"),
                ("{0*15}100 4", "no tail"),
                ("{0*14}1000 5", "no tail"),
                ("{0*13}10000 7", "no fewest"),
                ("{0*13}10000 9", "no count"),
                ("1{0*17} 0", "no count"),
                ("1{0*17} 7", "no fewest"),
                ("{0*18} 1", "no count"),
                ("{0*18} 0", "yes"),
            ],
        );
    }

    #[test]
    fn wrong_characters_of_either_list_are_refused_where_it_is_marked() {
        for wrong in [b'3', b'9', b'/', b':', b'x', 0, 13, 128, 255] {
            let line = [full("mark access {0*35}").as_bytes(), &[wrong], b" 0 0"].concat();
            assert_eq!(answer(&line), "refused 2", "byte {}", wrong);
            let line = [full("mark access {2*36} ").as_bytes(), &[wrong], b" 0"].concat();
            assert_eq!(answer(&line), "refused 2", "byte {}", wrong);
        }
    }

    #[test]
    fn mark_has_one_word_and_four_arguments() {
        not_understood(&["mark", "mark ", "mark access", "mark access {0*36}"]);
        not_understood(&["mark access {0*36} {0*18}", "mark {0*36} {0*18} 0"]);
        not_understood(&[
            "mark access {0*36} {0*18} 0 ",
            " mark access {0*36} {0*18} 0",
        ]);
        not_understood(&[
            "mark  access {0*36} {0*18} 0",
            "mark access  {0*36} {0*18} 0",
        ]);
        not_understood(&[
            "mark access {0*36}  {0*18} 0",
            "mark access {0*36} {0*18}  0",
        ]);
        not_understood(&[
            "mark access {0*36} {0*18} 0 0",
            "mark access 63 {0*36} {0*18} 0",
        ]);
        not_understood(&["mark access {0*36} 0 {0*18}", "access mark {0*36} {0*18} 0"]);
        not_understood(&[
            "mark {0*36} access {0*18} 0",
            "mark\taccess {0*36} {0*18} 0",
        ]);
        for word in [
            "", "m", "mar", "marks", "mark?", "?mark", "Mark", "MARK", "marc", "arkm", "marked",
            "mark:", "mark\0",
        ] {
            not_understood(&[&format!("{} access {{0*36}} {{0*18}} 0", word)]);
        }
    }

    #[test]
    fn mark_has_one_of_four_channels() {
        for (channel, received, block) in [
            ("sacch", 464, 228),
            ("efr", 456, 189),
            ("facch", 456, 228),
            ("speech?", 456, 189),
            ("access?", 36, 18),
            ("Access", 36, 18),
            ("ACCESS", 36, 18),
            ("acces", 36, 18),
            ("accesss", 36, 18),
            ("access\0", 36, 18),
            ("SCH", 78, 39),
            ("sc", 78, 39),
            ("7", 36, 18),
            ("mark", 36, 18),
        ] {
            let line = format!("mark {} {{0*{}}} {{0*{}}} 0", channel, received, block);
            not_understood(&[&line]);
        }
    }

    #[test]
    fn the_count_that_is_marked_is_a_number() {
        let count_is = |count: &str| answer_to(&format!("mark access {{0*36}} {{0*18}} {}", count));
        for count in ["0", "00", "00000"] {
            assert_eq!(count_is(count), "yes", "{}", count);
        }
        for count in ["1", "7", "00256", "65535"] {
            assert_eq!(count_is(count), "no count", "{}", count);
        }
        for count in [
            "", "65536", "65537", "99999", "000000", "-1", "-0", "+0", "x", "0x0", "0.0", "0,",
            "O", "\u{660}", "0\0", "0\t",
        ] {
            assert_eq!(count_is(count), "?", "{}", count);
        }
    }

    #[test]
    fn mark_writes_nothing_that_is_lent() {
        not_understood(&["lend 18 7 mark access {0*36} {0*18} 0"]);
        not_understood(&["lend 0 7 mark access {0*36} {0*18} 0"]);
        not_understood(&["lend 36 7 mark access {0*35} {0*18} 0"]);
        not_understood(&["lend 8 7 mark access {0*36} {2*18} 0"]);
        not_understood(&["lend 8 7 mark", "lend 8 7 mark access {0*36} {0*18} x"]);
    }

    #[test]
    fn the_view_answers_sixteen_numbers() {
        answered(&[
            ("trellis 11", "2{ 65535*7} 0{ 65535*7}"),
            ("trellis 00", "0{ 65535*7} 2{ 65535*7}"),
            ("trellis 12", "1{ 65535*7} 0{ 65535*7}"),
            ("trellis 22", "0{ 65535*7} 0{ 65535*7}"),
        ]);
        let longest = answer_to("trellis {01*228}");
        assert_eq!(longest.split(' ').count(), 16);
    }

    #[test]
    fn the_view_of_nothing_may_lack_its_argument() {
        answered(&[("trellis", "0{ 65535*15}"), ("trellis ", "0{ 65535*15}")]);
        not_understood(&["trellis  ", "trellis 11 11", " trellis", "trellis?"]);
    }

    #[test]
    fn the_view_refuses_lengths_and_then_bytes() {
        answered(&[
            ("trellis 3", "refused 1"),
            ("trellis 13", "refused 2"),
            ("trellis {3*458}", "refused 1"),
            ("trellis {2*458}", "refused 1"),
        ]);
    }

    #[test]
    fn receiving_answers_the_count_and_the_bits() {
        answered(&[
            ("access? 63 {0*36}", "0 00000000"),
            ("access? 0 {0*36}", "refused 8 0"),
            ("access? 63 1101001{0*29}", "refused 8 3"),
            ("speech? {0*456}", "refused 8 0"),
        ]);
    }

    #[test]
    fn send_and_end_answer_464_bits() {
        let (speech, facch) = ("send {1*260}", "send {1*184}");
        let answers = answers_to(&[speech, facch, "end", "end", facch]);
        assert!(answers[..3].iter().all(|answer| are_bits(answer, 464)));
        assert_eq!(answers[3..], ["refused 7", "refused 7"]);
    }

    #[test]
    fn end_without_a_block_is_refused() {
        assert_eq!(answers_to(&["end", "end"]), ["refused 6", "refused 6"]);
    }

    /// The answers of a kit that takes the same burst twelve times, under the numbers 0 to 11.
    fn twelve_taken(e: &str) -> Vec<String> {
        let lines: Vec<String> = (0..12).map(|n| format!("take {:02} {}", n, e)).collect();
        let lines: Vec<&str> = lines.iter().map(|line| line.as_str()).collect();
        answers_to(&lines)
    }

    /// "waiting" twelve times, but for the answers for blocks 0 and 1.
    fn two_answers(first: &str, second: &str) -> Vec<String> {
        let mut answers = vec!["waiting".to_string(); 12];
        answers[7] = first.to_string();
        answers[11] = second.to_string();
        answers
    }

    #[test]
    fn zeros_taken_are_waited_for_and_then_refused() {
        let expected = two_answers("refused 8 0 0", "refused 8 1 0");
        assert_eq!(twelve_taken("{0*116}"), expected);
    }

    #[test]
    fn zeros_with_four_flags_are_refused_with_n() {
        // hu of the first four bursts of a block is 1, hl of the last four is 0.
        let expected = two_answers("refused 9 0", "refused 9 1");
        assert_eq!(twelve_taken("{0*57}01{0*57}"), expected);
    }

    #[test]
    fn what_is_all_missing_is_refused_with_9() {
        let expected = two_answers("refused 9 0", "refused 9 1");
        assert_eq!(twelve_taken("{2*116}"), expected);
        // Four flags of each block have a vote, and all the same.
        let expected = two_answers("refused 8 0 0", "refused 8 1 0");
        for votes in ["{2*57}0{2*58}", "{2*58}1{2*57}"] {
            assert_eq!(twelve_taken(votes), expected);
        }
        // As many are 1 as are 0.
        let expected = two_answers("refused 9 0", "refused 9 1");
        assert_eq!(twelve_taken("{2*57}01{2*57}"), expected);
    }

    #[test]
    fn a_burst_that_never_came_is_taken_as_116_missing_bits() {
        let (speech, facch) = ("{0110*45}01{0*78}", "{1101*46}");
        let sent = bursts_of(&[speech, facch]);
        let first = full(&format!("speech 0 0 {}", speech));
        let second = full(&format!("facch 1 0 {}", facch));
        for burst in 0..12 {
            let mut bursts = sent.clone();
            bursts[burst] = full("{2*116}");
            let take = |(number, e)| format!("take {} {}", number, e).into_bytes();
            let lines: Vec<Vec<u8>> = bursts.iter().enumerate().map(take).collect();
            assert_eq!(answers(&lines), two_answers(&first, &second));
        }
    }

    #[test]
    fn blocks_sent_are_taken() {
        let (speech, facch) = (full("{0110*65}"), full("{1101*46}"));
        let mut kit = Kit::fresh();
        let mut sent = kit.answer(format!("send {}", speech).as_bytes());
        sent += &kit.answer(format!("send {}", facch).as_bytes());
        sent += &kit.answer(b"end");
        let mut answers = Vec::new();
        for (number, start) in (0..sent.len()).step_by(116).enumerate() {
            let line = format!("take {:05} {}", number, &sent[start..start + 116]);
            answers.push(kit.answer(line.as_bytes()));
        }
        let (first, second) = (
            format!("speech 0 0 {}", speech),
            format!("facch 1 0 {}", facch),
        );
        assert_eq!(answers, two_answers(&first, &second));
    }

    #[test]
    fn fresh_makes_both_streams_anew() {
        let (send, first, second) = ("send {1*184}", "take 0 {0*116}", "take 1 {0*116}");
        let lines = [send, "end", first, "fresh", "end", second, first, send];
        let answers = answers_to(&lines);
        assert_eq!(answers[2..4], ["waiting", "fresh"]);
        assert_eq!(answers[4..7], ["refused 6", "refused 4", "waiting"]);
        assert_eq!(answers[7], answers[0]);
    }

    #[test]
    fn other_lines_leave_the_streams() {
        let (send, first, second) = ("send {1*260}", "take 0 {0*116}", "take 1 {0*116}");
        let alone = answers_to(&[send, first, send, second, "end"]);
        let between = answers_to(&[
            send,
            "fresh ",
            first,
            "trellis 11",
            "whose {0*36}",
            "mark access {0*36} {0*18} 0",
            "enrol 63",
            "hear {0*36}",
            "Fresh",
            send,
            "remove 0",
            "end ",
            "",
            second,
            "end",
        ]);
        let kept = [0, 2, 9, 13, 14].map(|k| between[k].clone());
        assert_eq!(kept[..], alone[..]);
    }

    #[test]
    fn a_lent_buffer_is_shown_with_what_is_written_to_it() {
        answered(&[
            ("lend 36 7 access 63 00000000", "done {0*36}"),
            ("lend 8 7 access? 63 {0*36}", "0 {0*8}"),
            ("lend 00008 0 access? 63 {0*35}1", "1 {0*8}"),
        ]);
    }

    #[test]
    fn a_lent_buffer_is_left_by_a_refusal() {
        answered(&[
            ("lend 35 7 access 63 00000000", "refused 1 {7*35}"),
            ("lend 36 7 access 63 0000000", "refused 1 {7*36}"),
            ("lend 36 8 access 63 00000002", "refused 2 {8*36}"),
            ("lend 36 9 access 64 00000000", "refused 3 {9*36}"),
            ("lend 8 4 access? 0 {0*36}", "refused 8 0 {4*8}"),
            ("lend 464 5 end", "refused 6 {5*464}"),
            ("lend 260 6 take 1 {0*116}", "refused 4 {6*260}"),
            ("lend 0 7 end", "refused 1 -"),
        ]);
    }

    /// A line that is done, or heard well, of every verb that a fresh kit can call, and how many
    /// bytes it writes.
    fn calls_that_write() -> Vec<(String, usize)> {
        let mut calls = vec![
            (full("send {0*260}"), 464),
            (full("send {0*184}"), 464),
            (full("take 0 {0*116}"), 260),
        ];
        for channel in &CHANNELS {
            let d = "0".repeat(channel.reads);
            let send = format!("{} {}", words_of(channel, ""), d);
            let receive = format!("{} {}", words_of(channel, "?"), answer_to(&send));
            calls.extend([(send, channel.writes), (receive, channel.reads)]);
        }
        calls
    }

    #[test]
    fn every_length_lent_but_the_right_one_is_refused() {
        for (call, right) in calls_that_write() {
            for length in 0..=600 {
                let answer = answer_to(&format!("lend {} 3 {}", length, call));
                let left = match length {
                    0 => "-".to_string(),
                    _ => "3".repeat(length),
                };
                let is_refused = answer == format!("refused 1 {}", left);
                assert_eq!(is_refused, length != right, "{} {}", length, call);
            }
        }
    }

    #[test]
    fn a_wrong_buffer_comes_before_every_other_refusal() {
        answered(&[
            ("lend 35 7 access 64 2222222", "refused 1 {7*35}"),
            ("lend 37 7 access 64 00000002", "refused 1 {7*37}"),
            ("lend 9 7 access? 64 {3*36}", "refused 1 {7*9}"),
            ("lend 9 7 access? 0 {0*36}", "refused 1 {7*9}"),
            ("lend 463 7 send {2*260}", "refused 1 {7*463}"),
            ("lend 465 7 end", "refused 1 {7*465}"),
            ("lend 259 7 take 1 {3*116}", "refused 1 {7*259}"),
        ]);
        let ended = ["send {0*184}", "end", "lend 463 7 end", "lend 464 7 end"];
        let answers = answers_to(&ended);
        assert_eq!(answers[2], full("refused 1 {7*463}"));
        assert_eq!(answers[3], full("refused 7 {7*464}"));
    }

    #[test]
    fn without_lend_a_verb_has_a_buffer_of_the_right_length() {
        for (call, right) in calls_that_write() {
            let plain = answer_to(&call);
            let lent = answer_to(&format!("lend {} 1 {}", right, call));
            let expected = match plain.as_str() {
                "waiting" => format!("waiting {}", "1".repeat(right)),
                bits if are_bits(bits, right) => format!("done {}", bits),
                heard => heard.to_string(),
            };
            assert_eq!(lent, expected, "{}", call);
        }
    }

    #[test]
    fn a_refused_call_with_a_lent_buffer_leaves_the_streams() {
        let (send, first, second) = ("send {01*130}", "take 0 {0*116}", "take 1 {0*116}");
        let alone = answers_to(&[send, first, send, second, "end"]);
        let between = answers_to(&[
            "lend 463 0 send {01*130}",
            send,
            "lend 261 0 take 0 {0*116}",
            first,
            "lend 0 0 send {01*130}",
            "lend 600 0 end",
            send,
            "lend 1 0 take 1 {0*116}",
            second,
            "end",
        ]);
        let kept = [1, 3, 6, 8, 9].map(|k| between[k].clone());
        assert_eq!(kept[..], alone[..]);
    }

    #[test]
    fn a_call_with_a_right_buffer_moves_the_streams() {
        let plain = answers_to(&["send {1*184}", "send {01*130}", "end"]);
        let lent = answers_to(&[
            "lend 464 9 send {1*184}",
            "lend 464 0 send {01*130}",
            "lend 464 2 end",
        ]);
        for k in 0..3 {
            assert_eq!(lent[k], format!("done {}", plain[k]));
        }
    }

    /// The bursts of blocks sent and ended.
    fn bursts_of(blocks: &[&str]) -> Vec<String> {
        let send = |block: &&str| full(&format!("send {}", block)).into_bytes();
        let mut lines: Vec<Vec<u8>> = blocks.iter().map(send).collect();
        lines.push(b"end".to_vec());
        let sent = answers(&lines).concat();
        let burst = |start| sent[start..start + 116].to_string();
        (0..sent.len()).step_by(116).map(burst).collect()
    }

    /// The answers of a kit that takes the bursts of one block, with lent buffers of sevens.
    fn taken_to_sevens(bursts: &[String]) -> Vec<String> {
        let take = |(number, e)| format!("lend 260 7 take {} {}", number, e).into_bytes();
        let lines: Vec<Vec<u8>> = bursts.iter().enumerate().map(take).collect();
        answers(&lines)
    }

    #[test]
    fn facch_leaves_the_last_76_bytes() {
        let facch = taken_to_sevens(&bursts_of(&["{1101*46}"]));
        assert_eq!(facch[..7], vec![full("waiting {7*260}"); 7]);
        assert_eq!(facch[7], full("facch 0 0 {1101*46}{7*76}"));
        let speech = taken_to_sevens(&bursts_of(&["{0110*65}"]));
        assert_eq!(speech[7], full("speech 0 0 {0110*65}"));
    }

    #[test]
    fn four_flags_leave_it_to_the_parity_what_is_written() {
        for (block, expected) in [
            ("{1101*46}", "facch 0 0 {1101*46}{7*76}"),
            ("{0110*65}", "speech 0 0 {0110*65}"),
        ] {
            let mut bursts = bursts_of(&[block]);
            // hu of two of the first four bursts, hl of two of the last four.
            turn_over(&mut bursts, &[(0, 58), (2, 58), (5, 57), (7, 57)]);
            let answers = taken_to_sevens(&bursts);
            assert_eq!(answers[..7], vec![full("waiting {7*260}"); 7]);
            assert_eq!(answers[7], full(expected));
        }
    }

    #[test]
    fn a_bad_block_leaves_the_buffer_but_its_burst_is_taken() {
        for (e, expected) in [
            ("{0*116}", "refused 8 0 0 {7*260}"),
            ("{0*57}01{0*57}", "refused 9 0 {7*260}"),
        ] {
            let take = |number| format!("lend 260 7 take {} {}", number, e);
            let lines: Vec<String> = (0..8).chain([7, 8]).map(take).collect();
            let lines: Vec<&str> = lines.iter().map(|line| line.as_str()).collect();
            let answers = answers_to(&lines);
            assert_eq!(answers[7], full(expected));
            assert_eq!(answers[8], full("refused 4 {7*260}"));
            assert_eq!(answers[9], full("waiting {7*260}"));
        }
    }

    #[test]
    fn lend_has_a_length_a_digit_and_a_call_that_writes() {
        not_understood(&["lend", "lend 36", "lend 36 7", "lend 36 7 ", "lend  7 end"]);
        not_understood(&["lend 601 7 end", "lend 65535 7 end", "lend 65536 7 end"]);
        not_understood(&["lend x 7 end", "lend 000464 7 end", "lend -1 7 end"]);
        not_understood(&["lend 464  end", "lend 464 77 end", "lend 464 x end"]);
        not_understood(&["lend 464 / end", "lend 464 : end", "lend 464 \u{661} end"]);
        not_understood(&["lend 464 7  end", "lend 464 7 end ", " lend 464 7 end"]);
        not_understood(&["lend 16 7 trellis", "lend 0 7 trellis 11", "lend 0 7 fresh"]);
        not_understood(&[
            "lend 464 7 lend 464 7 end",
            "lend 8 7 sends 0",
            "Lend 0 7 end",
        ]);
        not_understood(&["lend 36 7 access x 00000000", "lend 36 7 access 00000000"]);
        not_understood(&["lend 260 7 take 65536 {0*116}", "lend? 464 7 end"]);
        answered(&[
            ("lend 600 7 end", "refused 1 {7*600}"),
            ("lend 00600 7 end", "refused 1 {7*600}"),
        ]);
    }

    #[test]
    fn fresh_under_lend_leaves_the_streams() {
        let lines = ["take 0 {0*116}", "lend 0 7 fresh", "take 1 {0*116}"];
        assert_eq!(answers_to(&lines), ["waiting", "?", "waiting"]);
    }

    #[test]
    fn a_whole_line_with_lend_has_at_most_1000_bytes() {
        let words = "lend 464 7 send ";
        for (length, expected) in [(1000, full("refused 1 {7*464}")), (1001, "?".to_string())] {
            let line = format!("{}{{0*{}}}", words, length - words.len());
            assert_eq!(answer_to(&line), expected);
        }
    }

    /// The words of the kit's verbs, in the order of the handbook. Those of frames are not among
    /// them: their lines are understood, but the handbook has no rows for them yet.
    fn verbs() -> Vec<String> {
        let channels = CHANNELS.map(|channel| channel.name.to_string());
        let asked = CHANNELS.map(|channel| format!("{}?", channel.name));
        let of_nearest = ["whose", "mark"].map(String::from);
        let of_streams = ["send", "end", "take", "totals"].map(String::from);
        let of_hub = ["enrol", "remove", "hear"].map(String::from);
        let others = ["fresh", "lend", "trellis", "help", "why"].map(String::from);
        [
            &channels[..],
            &asked,
            &of_nearest,
            &of_streams,
            &of_hub,
            &others,
        ]
        .concat()
    }

    #[test]
    fn help_lists_the_verbs() {
        assert_eq!(answer_to("help"), verbs().join(" "));
    }

    /// A line of the handbook with something for each of its capitals.
    fn filled_in(line: &str) -> String {
        let fill_in = |field| match field {
            "WORD" | "LINE" => "end",
            "CHANNEL" => "access",
            "ID" | "PLACE" | "N" | "B" | "D" | "E" | "R" | "U" | "COUNT" => "1",
            word => word,
        };
        let fields: Vec<&str> = line.split(' ').map(fill_in).collect();
        fields.join(" ")
    }

    #[test]
    fn the_line_of_every_verb_is_understood() {
        for word in verbs() {
            let help = answer_to(&format!("help {}", word));
            let (line, _) = help.split_once(": ").unwrap();
            assert_eq!(line.split(' ').next(), Some(word.as_str()));
            assert_ne!(answer_to(&filled_in(line)), "?", "{}", line);
        }
    }

    #[test]
    fn help_answers_the_row_of_a_word() {
        let sch = "sch D: the 78 bits of SCH that carry the 25 bits D";
        let end = "end: the last four bursts of the stream, 464 bits";
        let why = "why N: refusal N in words";
        answered(&[("help sch", sch), ("help end", end), ("help why", why)]);
    }

    #[test]
    fn help_has_a_word_of_the_table_or_none() {
        not_understood(&["help ", "help  ", "help  end", "help end ", " help"]);
        not_understood(&["help end end", "help sch D", "help end?", "help sch??"]);
        not_understood(&["help spee", "help speechx", "help Speech", "help 1"]);
        not_understood(&["help `end`", "help line", "help D", "help end\r"]);
        not_understood(&["help\tend", "help\0", "help?", "help? end", "?"]);
        not_understood(&["Help", "HELP", "hel", "helps", "helps end"]);
    }

    #[test]
    fn why_answers_a_refusal_in_words() {
        answered(&[
            ("why 1", "a buffer has the wrong length"),
            ("why 003", "the identity is over 63"),
            (
                "why 00009",
                "as many flags are 1 as are 0, and the parity is bad as FACCH and as speech",
            ),
            (
                "why 10",
                "the parity of enhanced full rate is good and its CRC is bad",
            ),
            (
                "why 14",
                "the identity stands at a place of the hub already",
            ),
            ("why 015", "all 30 places of the hub are in use"),
            ("why 16", "the place is empty, or over 29"),
            ("why 00017", "no identity at the hub accepts the burst"),
        ]);
    }

    #[test]
    fn why_has_the_number_of_a_refusal() {
        not_understood(&["why", "why ", "why  ", "why 0", "why 00000"]);
        not_understood(&["why 11", "why 12", "why 13", "why 18", "why 19", "why 270"]);
        not_understood(&["why 259", "why 65535", "why 65536", "why 65539"]);
        not_understood(&["why 000003", "why x", "why -1", "why 3.", "why end"]);
        not_understood(&["why 3 3", "why 3 ", "why  3", " why 3", "why\t3"]);
        not_understood(&["Why 3", "whys 3", "wh 3", "why? 3", "why refused 3"]);
    }

    #[test]
    fn help_and_why_write_nothing_that_is_lent() {
        not_understood(&["lend 5 7 help", "lend 5 7 help end", "lend 5 7 why 3"]);
        not_understood(&["lend 0 7 help", "lend 464 7 help end", "lend 600 7 why 3"]);
    }

    #[test]
    fn help_and_why_leave_the_streams() {
        let (send, first, second) = ("send {1*260}", "take 0 {0*116}", "take 1 {0*116}");
        let alone = answers_to(&[send, first, send, second, "end"]);
        let between = answers_to(&[
            send,
            "help",
            first,
            "help fresh",
            send,
            "help end",
            "why 7",
            second,
            "lend 464 7 help end",
            "end",
        ]);
        let kept = [0, 2, 4, 7, 9].map(|k| between[k].clone());
        assert_eq!(kept[..], alone[..]);
    }

    #[test]
    fn fresh_streams_have_totals_of_0() {
        answered(&[("totals", "0 0 0 0")]);
        let answers = answers_to(&["send {1*260}", "totals", "end", "totals"]);
        assert_eq!((&answers[1][..], &answers[3][..]), ("0 0 0 0", "0 0 0 0"));
    }

    /// Turns over some bits, each the one at an index of a burst. By the first row of Table 1, e(0)
    /// of bursts 4n to 4n+3 is c(0), c(57), c(114), c(171) of block n, and e(1) of bursts 4n+4 to
    /// 4n+7 is c(228), c(285), c(342), c(399).
    fn turn_over(bursts: &mut [String], bits: &[(usize, usize)]) {
        for &(burst, index) in bits {
            let other = match &bursts[burst][index..=index] {
                "0" => "1",
                _ => "0",
            };
            bursts[burst].replace_range(index..=index, other);
        }
    }

    /// What a kit answers to `totals` after each burst taken in order.
    fn totals_after_each(bursts: &[String]) -> Vec<String> {
        let mut kit = Kit::fresh();
        let mut after_each = Vec::new();
        for (number, e) in bursts.iter().enumerate() {
            kit.answer(full(&format!("take {} {}", number, e)).as_bytes());
            after_each.push(kit.answer(b"totals"));
        }
        after_each
    }

    /// The totals after each of twelve bursts: those from block 0 on, and those with block 1.
    fn twelve_totals(first: &str, second: &str) -> Vec<String> {
        let totals = [&["0 0 0 0"; 7][..], &[first; 4], &[second]].concat();
        totals.into_iter().map(String::from).collect()
    }

    #[test]
    fn totals_tell_the_kinds_apart_and_sum_the_counts() {
        let mut bursts = bursts_of(&["{0110*65}", "{1101*46}"]);
        let totals = totals_after_each(&bursts);
        assert_eq!(totals, twelve_totals("1 0 0 0", "1 1 0 0"));
        // Three protected bits of the speech block, and c(399), which is unprotected there.
        turn_over(&mut bursts, &[(0, 0), (1, 0), (2, 0), (7, 1)]);
        // c(0) and c(399) of the FACCH block.
        turn_over(&mut bursts, &[(4, 0), (11, 1)]);
        let totals = totals_after_each(&bursts);
        assert_eq!(totals, twelve_totals("1 0 0 3", "1 1 0 5"));
    }

    #[test]
    fn blocks_refused_with_8_are_in_the_totals_without_their_counts() {
        let mut bursts = vec![full("{0*116}"); 12];
        turn_over(&mut bursts, &[(0, 0), (1, 0), (4, 0)]);
        let take = |(number, e)| format!("take {} {}", number, e).into_bytes();
        let lines: Vec<Vec<u8>> = bursts.iter().enumerate().map(take).collect();
        let expected = two_answers("refused 8 0 2", "refused 8 1 1");
        assert_eq!(answers(&lines), expected);
        let totals = totals_after_each(&bursts);
        assert_eq!(totals, twelve_totals("0 0 1 0", "0 0 2 0"));
    }

    #[test]
    fn blocks_refused_with_9_are_in_the_totals() {
        let bursts = vec!["{0*57}01{0*57}".to_string(); 12];
        let totals = totals_after_each(&bursts);
        assert_eq!(totals, twelve_totals("0 0 1 0", "0 0 2 0"));
    }

    #[test]
    fn a_bad_block_leaves_the_totals_of_the_good_ones() {
        // Between the blocks of two ended streams lies one of zeros.
        let mut bursts = [bursts_of(&["{01*130}"]), bursts_of(&["{0*260}"])].concat();
        // c(0) of the first and of the last block; four flags of the one between them.
        turn_over(&mut bursts, &[(0, 0), (8, 0)]);
        turn_over(&mut bursts, &[(4, 58), (5, 58), (6, 58), (7, 58)]);
        let totals = totals_after_each(&bursts);
        let expected = twelve_totals("1 0 0 1", "1 0 1 1");
        assert_eq!(totals[..12], expected[..]);
        assert_eq!(totals[12..], ["1 0 1 1", "1 0 1 1", "1 0 1 1", "2 0 1 2"]);
    }

    #[test]
    fn blocks_with_four_flags_are_in_the_totals_of_their_kind() {
        let mut bursts = bursts_of(&["{01*130}", "{1*184}"]);
        // c(0) of both blocks, and four flags of each.
        turn_over(&mut bursts, &[(0, 0), (4, 0)]);
        turn_over(&mut bursts, &[(0, 58), (1, 58), (2, 58), (3, 58)]);
        turn_over(&mut bursts, &[(4, 58), (5, 58), (6, 58), (7, 58)]);
        let totals = totals_after_each(&bursts);
        assert_eq!(totals, twelve_totals("1 0 0 1", "1 1 0 2"));
    }

    /// Takes a FACCH block of which one bit is altered.
    fn take_facch(kit: &mut Kit) {
        let mut bursts = bursts_of(&["{1101*46}"]);
        turn_over(&mut bursts, &[(0, 0)]);
        for (number, e) in bursts.iter().enumerate() {
            kit.answer(format!("take {} {}", number, e).as_bytes());
        }
    }

    #[test]
    fn other_calls_leave_the_totals() {
        let mut kit = Kit::fresh();
        take_facch(&mut kit);
        assert_eq!(kit.answer(b"totals"), "0 1 0 1");
        for (line, expected) in [
            ("take 8 {0*115}", "refused 1"),
            ("take 8 {3*116}", "refused 2"),
            ("take 7 {2*116}", "refused 4"),
            ("take 7 {0*116}", "refused 4"),
            ("take 9 {0*116}", "refused 4"),
            ("take 65536 {0*116}", "?"),
            ("lend 3 7 take 8 {0*116}", "refused 1 777"),
            ("lend 260 7 take 7 {0*116}", "refused 4 {7*260}"),
            ("send 2", "refused 1"),
            ("end", "refused 6"),
            // Blocks that come in no stream.
            ("speech? {0*456}", "refused 8 0"),
            ("access? 63 {0*35}1", "1 00000000"),
            ("lend 8 7 access? 63 {0*35}1", "1 00000000"),
            ("whose {0*35}1", "63 1"),
            ("mark access {0*35}1 {0*18} 1", "yes"),
            ("mark speech {0*456} {0*189} 1", "no count"),
            ("enrol 63", "0"),
            ("hear {0*35}1", "0 1 00000000"),
            ("remove 0", "removed"),
            ("hear {0*35}1", "refused 17"),
            ("frame? {0*80}", "refused 18"),
            ("frame {0*21} {0*260}", "refused 19"),
            ("fresh ", "?"),
            ("totals ", "?"),
            ("lend 260 7 totals", "?"),
            ("totals", "0 1 0 1"),
            // A burst that is waited with.
            ("take 8 {0*116}", "waiting"),
        ] {
            assert_eq!(kit.answer(full(line).as_bytes()), full(expected));
            assert_eq!(kit.answer(b"totals"), "0 1 0 1", "{}", line);
        }
    }

    #[test]
    fn fresh_begins_the_totals_anew() {
        let mut kit = Kit::fresh();
        for _ in 0..2 {
            take_facch(&mut kit);
            assert_eq!(kit.answer(b"totals"), "0 1 0 1");
            assert_eq!(kit.answer(b"fresh"), "fresh");
            assert_eq!(kit.answer(b"totals"), "0 0 0 0");
        }
    }

    #[test]
    fn a_block_taken_to_a_lent_buffer_is_in_the_totals() {
        let take = |number| full(&format!("lend 260 7 take {} {{0*116}}", number));
        let mut lines: Vec<Vec<u8>> = (0..8).map(|n| take(n).into_bytes()).collect();
        lines.push(b"totals".to_vec());
        assert_eq!(answers(&lines)[8], "0 0 1 0");
    }

    #[test]
    fn totals_has_no_argument() {
        not_understood(&["totals ", "totals  ", " totals", "totals 0", "totals 00"]);
        not_understood(&["totals\t", "totals\r", "totals\0", "totals?", "totals? "]);
        not_understood(&["Totals", "TOTALS", "total", "totalss", "otals", "totals,"]);
        not_understood(&["totals totals", "totals fresh", "fresh totals"]);
    }

    #[test]
    fn totals_writes_nothing_that_is_lent() {
        not_understood(&["lend 0 7 totals", "lend 4 7 totals", "lend 7 0 totals"]);
        not_understood(&["lend 260 7 totals", "lend 464 7 totals", "lend 0 7 totals "]);
    }

    #[test]
    fn totals_leaves_the_streams() {
        let (send, first, second) = ("send {1*260}", "take 0 {0*116}", "take 1 {0*116}");
        let alone = answers_to(&[send, first, send, second, "end"]);
        let between = answers_to(&[
            "totals",
            send,
            "totals",
            first,
            "totals",
            "totals",
            send,
            "lend 260 7 totals",
            second,
            "totals",
            "end",
        ]);
        let kept = [1, 3, 6, 8, 10].map(|k| between[k].clone());
        assert_eq!(kept[..], alone[..]);
    }

    /// Each line of one kit has its answer, in their order.
    fn answered_in_turn(lines: &[(&str, &str)]) {
        let mut kit = Kit::fresh();
        for (line, expected) in lines {
            let answer = kit.answer(full(line).as_bytes());
            assert_eq!(answer, full(expected), "{}", line);
        }
    }

    /// A kit at whose hub these identities are enrolled, from place 0 on.
    fn with_enrolled(identities: &[usize]) -> Kit {
        let mut kit = Kit::fresh();
        for (place, identity) in identities.iter().enumerate() {
            let answer = kit.answer(format!("enrol {}", identity).as_bytes());
            assert_eq!(answer, place.to_string());
        }
        kit
    }

    /// Thirty identities, of which none is the number of its place.
    fn thirty() -> Vec<usize> {
        (0..30).map(|place| (7 * place + 5) % 64).collect()
    }

    #[test]
    fn enrol_answers_the_smallest_free_place() {
        answered_in_turn(&[
            ("enrol 63", "0"),
            ("enrol 0", "1"),
            ("enrol 00007", "2"),
            ("remove 0", "removed"),
            ("remove 00001", "removed"),
            ("enrol 12", "0"),
            ("enrol 63", "1"),
            ("enrol 0", "3"),
        ]);
    }

    #[test]
    fn hear_answers_the_place_the_count_and_the_bits() {
        answered_in_turn(&[
            ("hear {0*36}", "refused 17"),
            ("enrol 12", "0"),
            ("enrol 63", "1"),
            ("enrol 7", "2"),
            ("hear {0*36}", "1 0 {0*8}"),
            ("hear {2*36}", "1 0 {0*8}"),
            ("hear 111{0*33}", "1 3 {0*8}"),
            // The nearest block has u(0) = 1 and the rest 0, and is for identity 35.
            ("hear 1101001{0*29}", "refused 17"),
            ("enrol 35", "3"),
            ("hear 1101001{0*29}", "3 3 1{0*7}"),
            // As sent, three altered, six missing, one altered and four missing.
            ("hear 001110010001110010001100010011110000", "2 0 01101001"),
            ("hear 000110010001110011001100010011010000", "2 3 01101001"),
            ("hear 002112012001112010201100010011210000", "2 0 01101001"),
            ("hear 000112012001112010201100010011110000", "2 1 01101001"),
            ("remove 2", "removed"),
            ("hear 001110010001110010001100010011110000", "refused 17"),
            ("hear {0*36}", "1 0 {0*8}"),
            // It comes back to another place.
            ("remove 0", "removed"),
            ("enrol 7", "0"),
            ("hear 001110010001110010001100010011110000", "0 0 01101001"),
        ]);
    }

    #[test]
    fn thirty_bursts_go_to_thirty_places() {
        let identities = thirty();
        let mut kit = with_enrolled(&identities);
        let others: Vec<usize> = (0..64).filter(|k| !identities.contains(k)).collect();
        for identity in 0..64 {
            let d = format!("{:08b}", 3 * identity);
            let sent = answer_to(&format!("access {} {}", identity, d));
            let mut altered = sent.into_bytes();
            for k in 0..identity % 4 {
                let bit = &mut altered[(identity + 11 * k) % 36];
                *bit = b'0' + b'1' - *bit;
            }
            let answer = kit.answer(&[&b"hear "[..], &altered].concat());
            match identities.iter().position(|&other| other == identity) {
                Some(place) => assert_eq!(answer, format!("{} {} {}", place, identity % 4, d)),
                None => assert_eq!(answer, "refused 17", "{}", identity),
            }
        }
        assert_eq!(kit.answer(b"enrol 64"), "refused 3");
        for other in others {
            let answer = kit.answer(format!("enrol {}", other).as_bytes());
            assert_eq!(answer, "refused 15");
        }
        for place in 0..30 {
            let again = kit.answer(format!("enrol {}", identities[place]).as_bytes());
            assert_eq!(again, "refused 14");
            let removed = kit.answer(format!("remove {}", place).as_bytes());
            assert_eq!(removed, "removed");
        }
        assert_eq!(kit.answer(b"enrol 1"), "0");
    }

    #[test]
    fn enrol_refuses_3_then_14_then_15() {
        let mut kit = with_enrolled(&[63, 7]);
        for (identity, expected) in [(64, "3"), (319, "3"), (65_535, "3"), (63, "14"), (7, "14")] {
            let answer = kit.answer(format!("enrol {}", identity).as_bytes());
            assert_eq!(answer, format!("refused {}", expected));
        }
        let mut kit = with_enrolled(&thirty());
        for (identity, expected) in [(64, "3"), (69, "3"), (261, "3"), (5, "14"), (0, "15")] {
            let answer = kit.answer(format!("enrol {}", identity).as_bytes());
            assert_eq!(answer, format!("refused {}", expected));
        }
    }

    #[test]
    fn remove_refuses_an_empty_place_and_one_over_29() {
        let mut kit = with_enrolled(&thirty());
        for place in ["30", "31", "63", "64", "255", "256", "285", "65535"] {
            let answer = kit.answer(format!("remove {}", place).as_bytes());
            assert_eq!(answer, "refused 16", "{}", place);
        }
        assert_eq!(kit.answer(b"remove 29"), "removed");
        assert_eq!(kit.answer(b"remove 29"), "refused 16");
        assert_eq!(kit.answer(b"remove 00028"), "removed");
        answered(&[("remove 0", "refused 16"), ("remove 30", "refused 16")]);
    }

    #[test]
    fn hear_refuses_1_then_2_then_17() {
        for enrolled in [&[][..], &[63], &thirty()] {
            let mut kit = with_enrolled(enrolled);
            for (bits, expected) in [
                ("", "1"),
                ("{0*35}", "1"),
                ("{0*37}", "1"),
                ("{x*37}", "1"),
                ("{0*34}3", "1"),
                ("{0*8}", "1"),
                ("{0*35}3", "2"),
                ("x{0*35}", "2"),
                ("{9*36}", "2"),
                // A burst of identity 62, which has the last colour bit 1.
                ("{2*35}1", "17"),
            ] {
                let answer = kit.answer(full(&format!("hear {}", bits)).as_bytes());
                assert_eq!(answer, format!("refused {}", expected), "{}", bits);
            }
            for wrong in [b'3', b'9', b'/', b':', b'x', 0, 13, 128, 255] {
                let line = [full("hear {0*35}").as_bytes(), &[wrong]].concat();
                assert_eq!(kit.answer(&line), "refused 2", "byte {}", wrong);
            }
        }
    }

    #[test]
    fn hear_writes_to_a_lent_buffer_or_leaves_it() {
        answered_in_turn(&[
            ("lend 8 7 hear {0*36}", "refused 17 {7*8}"),
            ("lend 9 7 hear {0*36}", "refused 1 {7*9}"),
            ("enrol 5", "0"),
            ("enrol 63", "1"),
            ("lend 8 7 hear {0*36}", "1 0 {0*8}"),
            ("lend 00008 0 hear {0*35}1", "1 1 {0*8}"),
            ("lend 8 9 hear {2*35}1", "refused 17 {9*8}"),
            ("lend 8 7 hear {0*35}3", "refused 2 {7*8}"),
            ("lend 9 7 hear {0*35}3", "refused 1 {7*9}"),
            ("lend 8 7 hear {0*35}", "refused 1 {7*8}"),
            ("lend 8 7 hear ", "refused 1 {7*8}"),
            ("lend 0 7 hear {0*36}", "refused 1 -"),
            ("lend 36 7 hear {0*36}", "refused 1 {7*36}"),
            ("lend 601 7 hear {0*36}", "?"),
            ("lend 8 77 hear {0*36}", "?"),
            ("lend 8 7 hear", "?"),
            ("lend 8 7 hear  {0*36}", "?"),
            ("lend 8 7 hear {0*36} ", "?"),
        ]);
        let mut kit = with_enrolled(&[63]);
        for length in 0..=600 {
            let answer = kit.answer(full(&format!("lend {} 3 hear {{0*36}}", length)).as_bytes());
            let expected = match length {
                0 => "refused 1 -".to_string(),
                8 => full("0 0 {0*8}"),
                _ => format!("refused 1 {}", "3".repeat(length)),
            };
            assert_eq!(answer, expected);
        }
    }

    #[test]
    fn enrol_and_remove_write_nothing_that_is_lent() {
        answered_in_turn(&[
            ("enrol 63", "0"),
            ("lend 8 7 enrol 5", "?"),
            ("lend 0 7 enrol 5", "?"),
            ("lend 8 7 enrol 63", "?"),
            ("lend 8 7 enrol 64", "?"),
            ("lend 8 7 remove 0", "?"),
            ("lend 0 7 remove 0", "?"),
            ("lend 8 7 remove 30", "?"),
            ("lend 8 7 remove", "?"),
            ("hear {0*36}", "0 0 {0*8}"),
            ("enrol 5", "1"),
        ]);
    }

    #[test]
    fn the_words_of_the_hub_have_one_argument() {
        not_understood(&["enrol", "enrol  ", " enrol 7", "enrol 7 ", "enrol  7"]);
        not_understood(&["enrol 7 7", "enrol 7 8 9", "enrol\t7", "enrol7", "7 enrol"]);
        not_understood(&["remove", "remove  ", " remove 0", "remove 0 ", "remove  0"]);
        not_understood(&["remove 0 0", "remove\t0", "remove0", "0 remove"]);
        not_understood(&["hear", "hear  ", " hear {0*36}", "hear {0*36} "]);
        not_understood(&["hear  {0*36}", "hear 63 {0*36}", "hear {0*36} 63"]);
        not_understood(&["hear {0*18} {0*18}", "hear\t{0*36}", "hear{0*36}"]);
        for word in [
            "", "enro", "enroll", "enrols", "enrol?", "?enrol", "Enrol", "ENROL", "nrol",
            "enrol\0", "remov", "removes", "removed", "remove?", "Remove", "REMOVE", "emove",
            "remove:", "join",
        ] {
            not_understood(&[&format!("{} 7", word)]);
        }
        for word in [
            "", "hea", "hears", "heard", "hear?", "?hear", "Hear", "HEAR", "ear", "hear:", "here",
        ] {
            not_understood(&[&format!("{} {{0*36}}", word)]);
        }
    }

    #[test]
    fn the_identity_and_the_place_are_numbers() {
        let mut kit = with_enrolled(&thirty()[..29]);
        for number in [
            "", "65536", "65541", "99999", "100000", "000005", "000000", "x", "5x", "0x5", "-1",
            "-0", "+5", "5.0", "5,", "\u{665}", "5\0", "5\r", "\r5",
        ] {
            for word in ["enrol", "remove"] {
                let line = format!("{} {}", word, number);
                assert_eq!(kit.answer(line.as_bytes()), "?", "{}", line);
            }
        }
        assert_eq!(kit.answer(b"enrol 63"), "29");
        assert_eq!(kit.answer(b"remove 0"), "removed");
    }

    #[test]
    fn fresh_begins_the_hub_anew() {
        let mut kit = Kit::fresh();
        for _ in 0..2 {
            for (line, expected) in [
                ("enrol 5", "0"),
                ("enrol 63", "1"),
                ("hear {0*36}", "1 0 {0*8}"),
                ("fresh ", "?"),
                ("lend 8 7 fresh", "?"),
                ("hear {0*36}", "1 0 {0*8}"),
                ("fresh", "fresh"),
                ("hear {0*36}", "refused 17"),
                ("remove 0", "refused 16"),
                ("remove 1", "refused 16"),
            ] {
                assert_eq!(kit.answer(full(line).as_bytes()), full(expected));
            }
        }
    }

    #[test]
    fn other_lines_leave_the_hub() {
        let mut kit = with_enrolled(&[5, 63]);
        for (line, expected) in [
            ("enrol 63", "refused 14"),
            ("enrol 64", "refused 3"),
            ("enrol x", "?"),
            ("remove 2", "refused 16"),
            ("remove 30", "refused 16"),
            ("remove 65536", "?"),
            ("hear {0*36}", "1 0 {0*8}"),
            ("hear {2*35}1", "refused 17"),
            ("hear {3*36}", "refused 2"),
            ("lend 7 7 hear {0*36}", "refused 1 {7*7}"),
            ("whose {0*36}", "63 0"),
            ("access? 63 {0*36}", "0 {0*8}"),
            ("access? 5 {0*36}", "refused 8 0"),
            ("mark access {0*36} {0*18} 0", "yes"),
            ("take 0 {0*116}", "waiting"),
            ("end", "refused 6"),
            ("totals", "0 0 0 0"),
            ("trellis", "0{ 65535*15}"),
            ("why 17", "no identity at the hub accepts the burst"),
            (FRAME_OF_ZEROS, "00010{0*16} {0*260}"),
            ("frame 11010{0*16} {0*260}", "refused 19"),
            ("Fresh", "?"),
        ] {
            assert_eq!(
                kit.answer(full(line).as_bytes()),
                full(expected),
                "{}",
                line
            );
            let heard = kit.answer(full("hear {0*36}").as_bytes());
            assert_eq!(heard, "1 0 00000000", "{}", line);
        }
        assert_eq!(kit.answer(b"enrol 0"), "2");
        assert_eq!(kit.answer(b"remove 0"), "removed");
        assert_eq!(kit.answer(b"enrol 62"), "0");
    }

    #[test]
    fn the_hub_and_the_streams_leave_each_other() {
        let bursts = bursts_of(&["{0110*65}", "{1101*46}"]);
        let take = |(number, e)| format!("take {} {}", number, e).into_bytes();
        let mut streams: Vec<Vec<u8>> = bursts.iter().enumerate().map(take).collect();
        let calls = ["send {1*260}", "send {1*184}", "end", "end", "totals"];
        streams.extend(calls.map(|line| full(line).into_bytes()));
        let hub: Vec<Vec<u8>> = [
            "enrol 63",
            "enrol 7",
            "hear {0*36}",
            "enrol 7",
            "remove 0",
            "hear {0*36}",
            "enrol 12",
            "enrol 63",
            "lend 8 7 hear {0*36}",
            "remove 9",
            "remove 1",
            "hear 001110010001110010001100010011110000",
            "hear {3*36}",
            "enrol 0",
            "hear {2*36}",
            "remove 2",
            "hear {2*36}",
        ]
        .map(|line| full(line).into_bytes())
        .to_vec();
        assert_eq!(streams.len(), hub.len());
        let both: Vec<Vec<u8>> = streams
            .iter()
            .zip(&hub)
            .flat_map(|(one, other)| [one, other])
            .cloned()
            .collect();
        let in_turn = answers(&both);
        let every_second = |from| in_turn.iter().skip(from).step_by(2).cloned();
        assert_eq!(every_second(0).collect::<Vec<String>>(), answers(&streams));
        assert_eq!(every_second(1).collect::<Vec<String>>(), answers(&hub));
    }

    #[test]
    fn a_line_of_1000_bytes_may_lend_what_hear_writes() {
        let words = "lend 8 7 hear ";
        for (length, expected) in [(1000, "refused 1 77777777"), (1001, "?")] {
            let line = format!("{}{{0*{}}}", words, length - words.len());
            assert_eq!(answer_to(&line), expected);
        }
        for word in ["enrol", "remove"] {
            for length in [999, 1000, 1001] {
                let line = format!("{} {{0*{}}}", word, length - word.len() - 1);
                assert_eq!(answer_to(&line), "?");
            }
        }
    }

    /// The frame of the uplink whose other control bits and whose speech are zeros, to be read.
    const FRAME_OF_ZEROS: &str = "frame? 00008800{8000*17}800f";

    #[test]
    fn frames_of_zeros_and_of_ones_are_written_and_read() {
        for (c, d, frame) in [
            ("00010{0*16}", "{0*260}", "00008800{8000*17}800f"),
            ("11100{0*16}", "{0*260}", "0000f000{8000*17}800f"),
            ("00010{1*16}", "{0*260}", "00008bff{8000*17}83ff"),
            ("11100{1*16}", "{1*260}", "0000f3ff{ffff*17}ffff"),
            ("00010{0*16}", "{1*260}", "00008800{ffff*17}fc0f"),
            // C7, C8, C15, C16, C17, C18 and C21, one at a time.
            ("00010{0*1}1{0*14}", "{0*260}", "00008900{8000*17}800f"),
            ("00010{0*2}1{0*13}", "{0*260}", "00008880{8000*17}800f"),
            ("00010{0*9}1{0*6}", "{0*260}", "00008801{8000*17}800f"),
            ("00010{0*10}1{0*5}", "{0*260}", "00008800{8000*17}820f"),
            ("00010{0*11}1{0*4}", "{0*260}", "00008800{8000*17}810f"),
            ("00010{0*12}1{0*3}", "{0*260}", "00008800{8000*17}808f"),
            ("00010{0*15}1", "{0*260}", "00008800{8000*17}801f"),
        ] {
            let (written, read) = (format!("frame {} {}", c, d), format!("frame? {}", frame));
            let carried = format!("{} {}", c, d);
            answered(&[(&written, frame), (&read, &carried)]);
        }
    }

    #[test]
    fn bits_of_speech_stand_where_both_tables_have_them() {
        let c = "11100{01*8}";
        for (d, frame) in [
            // d(0), bit 5 of parameter 1, is D6.
            ("1{0*259}", "0000f1558200{8000*16}815f"),
            // d(4), bit 5 of parameter 63, is D221.
            ("{0*4}1{0*255}", "0000f155{8000*14}8010{8000*2}815f"),
            // d(49), bit 1 of parameter 60, is D206.
            ("{0*49}1{0*210}", "0000f155{8000*13}8010{8000*3}815f"),
            // d(66) and d(68), bit 2 of parameters 3 and 4, are D15 and D20; between them is 8's, D36.
            ("{0*66}1{0*193}", "0000f1558001{8000*16}815f"),
            ("{0*67}1{0*192}", "0000f155{8000*2}8200{8000*14}815f"),
            ("{0*68}1{0*191}", "0000f15580008400{8000*15}815f"),
            // d(182), bit 1 of parameter 68, is D235.
            ("{0*182}1{0*77}", "0000f155{8000*15}80208000815f"),
            // d(259), bit 0 of parameter 6, is D27.
            ("{0*259}1", "0000f15580008008{8000*15}815f"),
        ] {
            let (written, read) = (format!("frame {} {}", c, d), format!("frame? {}", frame));
            answered(&[(&written, frame), (&read, &format!("{} {}", c, d))]);
        }
    }

    #[test]
    fn a_frame_is_answered_in_80_digits_and_read_in_small_letters_alone() {
        let (c, d) = ("11100{10*8}", "{1101001*37}1");
        let frame = answer_to(&format!("frame {} {}", c, d));
        let is_digit = |byte: u8| b"0123456789abcdef".contains(&byte);
        assert!(
            frame.len() == 80 && frame.bytes().all(is_digit),
            "{}",
            frame
        );
        let read = answer_to(&format!("frame? {}", frame));
        assert_eq!(read, full(&format!("{} {}", c, d)));
        let capitals = frame.to_ascii_uppercase();
        assert_ne!(capitals, frame);
        not_understood(&[&format!("frame? {}", capitals)]);
        for (k, letter) in frame.char_indices() {
            let mut one_capital = frame.clone();
            one_capital.replace_range(k..=k, &letter.to_ascii_uppercase().to_string());
            let answer = answer_to(&format!("frame? {}", one_capital));
            assert_eq!(
                answer == "?",
                letter.is_ascii_alphabetic(),
                "{}",
                one_capital
            );
        }
    }

    #[test]
    fn a_frame_carries_the_speech_that_is_sent() {
        let d = full("{0110100*37}0");
        let frame = answer_to(&format!("frame 11100{{1*16}} {}", d));
        let read = answer_to(&format!("frame? {}", frame));
        let (c, carried) = read.split_once(' ').unwrap();
        assert_eq!((c.len(), carried), (21, &d[..]));
        let sent = answer_to(&format!("speech {}", carried));
        let received = answer_to(&format!("speech? {}", sent));
        let (_, found) = received.split_once(' ').unwrap();
        let again = answer_to(&format!("frame {} {}", c, found));
        assert_eq!(again, frame);
    }

    #[test]
    fn writing_a_frame_refuses_1_then_2_then_19() {
        answered(&[
            ("frame 00010{0*15} {0*260}", "refused 1"),
            ("frame 00010{0*17} {0*260}", "refused 1"),
            ("frame 00010{0*16} {0*259}", "refused 1"),
            ("frame 00010{0*16} {0*261}", "refused 1"),
            ("frame {0*22} {0*259}", "refused 1"),
            ("frame {0*260} 00010{0*16}", "refused 1"),
            ("frame 1 1", "refused 1"),
            ("frame 2 2", "refused 1"),
            ("frame ? 00", "refused 1"),
            ("frame {x*20} {x*260}", "refused 1"),
            ("frame {2*21} {2*259}", "refused 1"),
            ("frame 00010{0*16} {0*244}", "refused 1"),
            ("frame 00010{0*15}2 {0*260}", "refused 2"),
            ("frame x0010{0*16} {0*260}", "refused 2"),
            ("frame 00010{0*16} {0*259}2", "refused 2"),
            ("frame 00010{0*16} x{0*259}", "refused 2"),
            ("frame 11010{0*16} {0*259}2", "refused 2"),
            ("frame {0*20}9 {0*260}", "refused 2"),
            ("frame 2{0*20} {0*260}", "refused 2"),
            ("frame {0*21} {0*260}", "refused 19"),
            ("frame {1*21} {1*260}", "refused 19"),
            ("frame 11010{0*16} {0*260}", "refused 19"),
            ("frame 00011{0*16} {0*260}", "refused 19"),
            ("frame 01000{0*16} {0*260}", "refused 19"),
            ("frame 00111{0*16} {0*260}", "refused 19"),
            ("frame {0*16}00010 {0*260}", "refused 19"),
        ]);
        for wrong in [b'2', b'9', b'/', b':', b'x', b'a', 0, 13, 128, 255] {
            let line = [full("frame 00010{0*15}").as_bytes(), &[wrong], b" 0"].concat();
            assert_eq!(answer(&line), "refused 1", "byte {}", wrong);
            let line = [&line[..], &[b'0'; 259]].concat();
            assert_eq!(answer(&line), "refused 2", "byte {}", wrong);
            let line = [full("frame {0*21} {0*259}").as_bytes(), &[wrong]].concat();
            assert_eq!(answer(&line), "refused 2", "byte {}", wrong);
        }
    }

    #[test]
    fn reading_a_frame_refuses_1_then_18_then_19() {
        answered(&[
            ("frame? ff", "refused 1"),
            ("frame? 00008800{8000*17}80", "refused 1"),
            ("frame? 00008800{8000*17}800fff", "refused 1"),
            (
                "frame? 00008800{8000*17}800f00008800{8000*17}800f",
                "refused 1",
            ),
            ("frame? {ff*39}", "refused 1"),
            ("frame? {ff*41}", "refused 1"),
            ("frame? {ff*400}", "refused 1"),
            ("frame? {0*80}", "refused 18"),
            ("frame? {f*80}", "refused 18"),
            ("frame? 80008800{8000*17}800f", "refused 18"),
            ("frame? 01008800{8000*17}800f", "refused 18"),
            ("frame? 00018800{8000*17}800f", "refused 18"),
            ("frame? 00000800{8000*17}800f", "refused 18"),
            ("frame? 00008800{8000*16}0000800f", "refused 18"),
            ("frame? 00008800{8000*17}000f", "refused 18"),
            // The type is wrong too.
            ("frame? 0000e800{8000*16}0000800f", "refused 18"),
            ("frame? 00010000{8000*17}800f", "refused 18"),
            ("frame? 00008000{8000*17}800f", "refused 19"),
            ("frame? 0000e800{8000*17}800f", "refused 19"),
            ("frame? 0000ff00{8000*17}800f", "refused 19"),
            ("frame? 00008900{8000*17}8000", "00010010{0*13} {0*260}"),
            ("frame? 00008c00{8000*17}800f", "refused 19"),
        ]);
    }

    #[test]
    fn the_last_four_bits_of_a_frame_are_not_read() {
        for digit in "0123456789abcdef".chars() {
            let line = format!("frame? 0000f101{{8000*17}}806{}", digit);
            answered(&[(&line, "11100{0*1}1{0*7}1{0*3}110 {0*260}")]);
        }
    }

    #[test]
    fn octets_have_an_even_number_of_digits() {
        for number in 0..=993 {
            let expected = match number {
                80 => "refused 18",
                _ if number % 2 == 1 => "?",
                _ => "refused 1",
            };
            let line = format!("frame? {}", "a".repeat(number));
            assert_eq!(answer_to(&line), expected, "{}", number);
        }
        // Lines of 1,000 bytes and of 1,001: 993 digits are odd, and 994 too many.
        for number in 993..=996 {
            not_understood(&[&format!("frame? {}", "a".repeat(number))]);
        }
    }

    #[test]
    fn other_characters_are_no_octets() {
        let good = full(FRAME_OF_ZEROS).into_bytes();
        assert_ne!(answer(&good), "?");
        for byte in (0..=255).filter(|byte| !b"0123456789abcdef".contains(byte)) {
            for k in [7, 8, 40, 85, 86] {
                let mut line = good.clone();
                line[k] = byte;
                assert_eq!(answer(&line), "?", "byte {} at {}", byte, k);
            }
        }
        not_understood(&[
            "frame? 0x",
            "frame? 0x00",
            "frame? -1",
            "frame? 0g",
            "frame? xx",
        ]);
        not_understood(&["frame? 0", "frame? 00f", "frame? F0", "frame? \u{661}0"]);
        // Wrong characters come before every refusal.
        not_understood(&[
            "frame? {0*79}x",
            "frame? {F*80}",
            "frame? {f*79}",
            "frame? {f*81}",
        ]);
        not_understood(&["frame? {00*38}0F", "frame? G{0*80}", "frame? {0*81}G"]);
    }

    #[test]
    fn the_words_of_frames_have_their_arguments() {
        not_understood(&["frame", "frame ", "frame   ", " frame {0*21} {0*260}"]);
        not_understood(&["frame {0*260}", "frame {0*281}", "frame {0*21} {0*260} "]);
        not_understood(&["frame  {0*21} {0*260}", "frame {0*21}  {0*260}"]);
        not_understood(&["frame {0*21} {0*260} 1", "frame 7 {0*21} {0*260}"]);
        not_understood(&["frame\t{0*21} {0*260}", "frame {0*21}\t{0*260}"]);
        not_understood(&[
            "frame?",
            "frame?  ",
            "frame? 00 ",
            "frame?  00",
            " frame? 00",
        ]);
        not_understood(&["frame? 00 00", "frame?\t00", "frame?00", "frame ?"]);
        not_understood(&["frame? 00010{0*16} {0*260}", "frame {00*40}"]);
        for word in [
            "", "fram", "frames", "framed", "Frame", "FRAME", "frame??", "?frame", "frame:",
            "frame\0", "rame", "f", "trau",
        ] {
            not_understood(&[&format!("{} 00010{{0*16}} {{0*260}}", word)]);
            not_understood(&[&format!("{}? 00008800{{8000*17}}800f", word)]);
        }
    }

    #[test]
    fn help_and_why_do_not_tell_of_frames_yet() {
        not_understood(&["help frame", "help frame?", "why 18", "why 19"]);
        not_understood(&["why 00018", "why 019", "why 20", "why 21", "why 274"]);
        answered(&[("frame 1 1", "refused 1"), ("frame? 7f", "refused 1")]);
    }

    #[test]
    fn frames_leave_the_streams() {
        let (send, first, second) = ("send {1*260}", "take 0 {0*116}", "take 1 {0*116}");
        let alone = answers_to(&[send, first, send, second, "end"]);
        let between = answers_to(&[
            send,
            "frame 00010{0*16} {1*260}",
            first,
            "frame? 00008800{80ff*17}800f",
            send,
            "frame {0*21} {0*260}",
            second,
            "frame? {0*80}",
            "end",
        ]);
        let kept = [0, 2, 4, 6, 8].map(|k| between[k].clone());
        assert_eq!(kept[..], alone[..]);
    }

    #[test]
    fn frames_write_nothing_that_is_lent() {
        for length in [0, 21, 40, 80, 260, 281, 600] {
            for call in [
                "frame 00010{0*16} {0*260}",
                "frame {0*21} {0*260}",
                "frame 1 1",
                FRAME_OF_ZEROS,
                "frame? {0*80}",
                "frame? 00",
                "frame? ",
            ] {
                not_understood(&[&format!("lend {} 7 {}", length, call)]);
            }
        }
    }

    #[test]
    fn stream_words_have_their_arguments() {
        not_understood(&["send", "send  ", "send {0*260} ", "send  {0*260}"]);
        not_understood(&["end ", "end 0", " end", "fresh ", "fresh 1", " fresh"]);
        not_understood(&[
            "take",
            "take ",
            "take 0",
            "take  0",
            "take 0  ",
            "take 0 0 0",
        ]);
        not_understood(&["take 65536 ", "take x ", "take 000000 ", "take 0x0 {0*116}"]);
        not_understood(&["take {0*116}", "take  {0*116}", "take 0  {0*116}"]);
        not_understood(&["take 0 {0*116} ", "End", "FRESH", "sends 1", "took 0 "]);
        not_understood(&["send? 1", "take? 0 0"]);
    }

    #[test]
    fn stream_refusals_come_in_their_order() {
        answered(&[
            ("send 2", "refused 1"),
            ("send {2*184}", "refused 2"),
            ("take 65535 3", "refused 1"),
            ("take 65535 {x*116}", "refused 2"),
            ("take 65535 {3*116}", "refused 2"),
            ("take 65535 {2*116}", "refused 4"),
            ("take 65535 {0*116}", "refused 4"),
            ("take 1 {0*116}", "refused 4"),
            ("take 00000 {0*116}", "waiting"),
        ]);
    }
}
