//! The handbook: the kit's lines and the refusals, in the words of README's two tables.

/// README, in which both tables stand.
const README: &str = include_str!("../../README.md");

/// A row of a table: its two cells, without backticks.
type Row = (String, String);

/// The rows of the table with this header.
fn table(header: &str) -> Vec<Row> {
    let from_header = README.lines().skip_while(|line| *line != header);
    // The rows begin behind the header and the rule under it.
    from_header.skip(2).map_while(row).collect()
}

/// The row that a line of README is; nothing behind the last row of a table.
fn row(line: &str) -> Option<Row> {
    let cells = line.strip_prefix("| ")?.strip_suffix(" |")?;
    let (first, second) = cells.split_once(" | ")?;
    Some((first.replace('`', ""), second.replace('`', "")))
}

/// What the kit reads, and what it answers.
fn lines() -> Vec<Row> {
    table("| line | answer |")
}

/// The refusals by number, and why each is given.
fn refusals() -> Vec<Row> {
    table("| refusal | why |")
}

/// The word with which a line begins.
fn word_of(line: &str) -> &str {
    line.split(' ').next().unwrap_or_default()
}

/// The words with which the kit's lines begin, in the order of the table.
pub fn words() -> Vec<String> {
    let word = |(line, _): &Row| word_of(line).to_string();
    lines().iter().map(word).collect()
}

/// The line that begins with a word, and its answer; nothing for a word of no line.
pub fn help(word: &[u8]) -> Option<String> {
    let begins = |(line, _): &Row| word_of(line).as_bytes() == word;
    let (line, answer) = lines().into_iter().find(begins)?;
    Some(format!("{}: {}", line, answer))
}

/// Why a refusal is given; nothing for a number that is no refusal's.
pub fn why(refusal: u16) -> Option<String> {
    let number = refusal.to_string();
    let (_, why) = refusals().into_iter().find(|(first, _)| *first == number)?;
    Some(why)
}

#[cfg(test)]
mod tests {
    use super::*;

    #[test]
    fn a_row_has_two_cells_without_backticks() {
        let cells = |first: &str, second: &str| Some((first.to_string(), second.to_string()));
        assert_eq!(row("| `end` | the `last` |"), cells("end", "the last"));
        assert_eq!(row("| 1 | a | b |"), cells("1", "a | b"));
        for line in ["", "|---|---|", "| a |", "a | b", "`trellis` alone"] {
            assert_eq!(row(line), None, "{}", line);
        }
    }

    #[test]
    fn the_words_stand_in_their_order() {
        let words = words().join(" ");
        let expected = "speech control sacch access sch efr \
            speech? control? sacch? access? sch? efr? whose mark \
            send end take totals enrol remove hear fresh lend trellis help why";
        assert_eq!(words, expected);
    }

    #[test]
    fn every_row_is_answered() {
        for (line, answer) in lines() {
            let help = help(word_of(&line).as_bytes());
            assert_eq!(help, Some(format!("{}: {}", line, answer)));
        }
        for (number, words) in refusals() {
            assert_eq!(why(number.parse().unwrap()), Some(words));
        }
    }

    #[test]
    fn rows_are_as_printed() {
        let speech = "speech D: the 456 coded bits of the 260 bits D";
        assert_eq!(help(b"speech").as_deref(), Some(speech));
        let asked = "sch? R: of 78 received bits, 2 for a missing one, \
                     COUNT and the 25 bits of the nearest block";
        assert_eq!(help(b"sch?").as_deref(), Some(asked));
        let efr = "efr D: the 456 coded bits of the 244 bits D of enhanced full rate";
        assert_eq!(help(b"efr").as_deref(), Some(efr));
        let asked = "efr? R: of 456 received bits, 2 for a missing one, COUNT and \
                     the 244 bits of enhanced full rate of the nearest block";
        assert_eq!(help(b"efr?").as_deref(), Some(asked));
        let whose = "whose R: of 36 received bits, 2 for a missing one, IDENTITY and COUNT: \
                     the one identity under which access? accepts them, and its count";
        assert_eq!(help(b"whose").as_deref(), Some(whose));
        let mark = "mark CHANNEL R U COUNT: yes, if no block of the speech, control, access or sch \
                    bits R, 2 for a missing one, is nearer than the block U, which disagrees in COUNT \
                    places; or no, and what is wrong first: length, tail, count or fewest";
        assert_eq!(help(b"mark").as_deref(), Some(mark));
        let enrol = "enrol ID: PLACE, 0 to 29: the smallest free place of the hub, \
                     at which the identity ID then stands";
        assert_eq!(help(b"enrol").as_deref(), Some(enrol));
        let remove = "remove PLACE: removed; the place is free again";
        assert_eq!(help(b"remove").as_deref(), Some(remove));
        let hear = "hear R: of 36 received bits, 2 for a missing one, PLACE, COUNT and the 8 bits \
                    of the nearest block, for the place whose identity accepts them";
        assert_eq!(help(b"hear").as_deref(), Some(hear));
        let fresh = "fresh: fresh; both streams and the hub begin anew";
        assert_eq!(help(b"fresh").as_deref(), Some(fresh));
    }

    #[test]
    fn other_words_have_no_row() {
        for word in [
            "", " ", "speec", "speechx", "Speech", "speech D", "`end`", "1",
        ] {
            assert_eq!(help(word.as_bytes()), None, "{}", word);
        }
    }

    #[test]
    fn the_fourteen_refusals_are_told_in_words() {
        let numbers = (1..=10).chain(14..=17);
        let told: Vec<String> = numbers.map(|refusal| why(refusal).unwrap()).collect();
        let expected = [
            "a buffer has the wrong length",
            "a bit is neither 0 nor 1, nor 2 for missing on reception",
            "the identity is over 63",
            "the burst is not the next one",
            "the stream is full: 16383 blocks are sent, or burst 65535 is taken",
            "nothing was sent before the end",
            "the stream has ended",
            "the parity is bad",
            "as many flags are 1 as are 0, and the parity is bad as FACCH and as speech",
            "the parity of enhanced full rate is good and its CRC is bad",
            "the identity stands at a place of the hub already",
            "all 30 places of the hub are in use",
            "the place is empty, or over 29",
            "no identity at the hub accepts the burst",
        ];
        assert_eq!(told, expected);
        assert_eq!(refusals().len(), 14);
        for number in [0, 11, 12, 13, 18, 19, 90, 100, 257, 270, 65_535] {
            assert_eq!(why(number), None, "{}", number);
        }
    }

    #[test]
    fn every_answer_is_one_line_of_printable_characters() {
        let is_printable = |byte: u8| (32..127).contains(&byte) && !b"`|".contains(&byte);
        for (first, second) in lines().into_iter().chain(refusals()) {
            for cell in [first, second] {
                assert!(
                    !cell.is_empty() && cell.bytes().all(is_printable),
                    "{}",
                    cell
                );
            }
        }
    }
}
