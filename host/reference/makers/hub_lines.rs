//! Kit lines that play classes at the hub: kits are enrolled and removed, and bursts are heard as they
//! were sent, altered or with missing bits, from kits that stand there, that have left or that never
//! came. Hubs become full, and freed places are used again. Between them stand lines that are wrong in
//! every way foreseen, and those of a lesson, whose streams the hub leaves as they are.

use crate::chance::losses;
use crate::chance::random::Random;
use crate::makers::lesson::Lesson;
use crate::makers::request::Request;
use crate::makers::{fields, lend_lines, lesson_lines, received_lines, whose_lines};
use crate::model::channel::ACCESS;
use crate::model::hub::{Hub, PLACES};
use crate::text::characters;

/// So many lines of classes, each at a fresh hub.
pub fn lines(random: &mut Random, count: usize) -> Vec<Vec<u8>> {
    lesson_lines::on_fresh_streams(random, count, any_class)
}

/// One class: it comes, and then some come and go, and in some stretches most of them go.
fn any_class(random: &mut Random) -> Vec<Vec<u8>> {
    let mut class = Class::new();
    let mut lines = class.stretch(random, 5, 10);
    for _ in 0..random.below(6) {
        let moves_of_ten = random.pick(&[2, 4, 5]);
        let enrols_of_ten = random.pick(&[1, 4, 6, 8, 10]);
        lines.extend(class.stretch(random, moves_of_ten, enrols_of_ten));
    }
    with_lesson(random, lines)
}

/// The lines of a class, and between them those of a short lesson.
fn with_lesson(random: &mut Random, class: Vec<Vec<u8>>) -> Vec<Vec<u8>> {
    let blocks = random.below(3);
    let mut lesson = Lesson::new(random, blocks);
    let mut carried = lesson_lines::carried(random, &mut lesson, blocks > 0).into_iter();
    let mut lines = Vec::new();
    for line in class {
        if random.one_in(12) {
            lines.extend(carried.next());
        }
        lines.push(line);
    }
    lines
}

/// A class, as far as it has come.
struct Class {
    hub: Hub,
    /// The identities that were removed, the last one behind the others.
    removed: Vec<usize>,
}

/// The two moves of the hub.
const ENROL: &str = "enrol";
const REMOVE: &str = "remove";

/// A word and its number.
fn with_number(random: &mut Random, word: &str, number: usize) -> Request {
    Request::of_received(word, fields::number_of(random, number))
}

/// The request to hear a burst.
fn hearing(e: &[u8]) -> Request {
    Request::of_received("hear", characters(e))
}

impl Class {
    /// No one has come.
    fn new() -> Class {
        Class {
            hub: Hub::fresh(),
            removed: Vec::new(),
        }
    }

    /// The identity at a place.
    fn identity_at(&self, place: usize) -> Option<usize> {
        self.hub
            .identity_at(place)
            .map(|identity| identity as usize)
    }

    /// The places in use.
    fn used(&self) -> Vec<usize> {
        let is_used = |&place: &usize| self.identity_at(place).is_some();
        (0..PLACES).filter(is_used).collect()
    }

    /// The identities that stand at the hub.
    fn enrolled(&self) -> Vec<usize> {
        let identity = |place| self.identity_at(place);
        (0..PLACES).filter_map(identity).collect()
    }

    /// Those of the identities that do not stand there.
    fn absent(&self, identities: impl Iterator<Item = usize>) -> Vec<usize> {
        let enrolled = self.enrolled();
        identities.filter(|k| !enrolled.contains(k)).collect()
    }

    /// The last identities that were removed, and did not come back.
    fn left(&self) -> Vec<usize> {
        self.absent(self.removed.iter().rev().take(4).copied())
    }

    /// Some lines, of ten of which so many are moves; and of ten moves so many are enrolments.
    fn stretch(
        &mut self,
        random: &mut Random,
        moves_of_ten: usize,
        enrols_of_ten: usize,
    ) -> Vec<Vec<u8>> {
        let mut lines = Vec::new();
        for _ in 0..20 + random.below(80) {
            if random.below(10) >= moves_of_ten {
                lines.extend(self.other(random));
            } else if self.used().len() == PLACES && random.one_in(3) {
                lines.push(self.refused_move(random));
            } else {
                let (word, number) = self.next_move(random, enrols_of_ten);
                self.make(word, number);
                lines.push(with_number(random, word, number).line());
            }
        }
        lines
    }

    /// A move that is done while there is a place for it: an identity that is not there yet is
    /// enrolled, or one that is there removed. Refusal 15 at a full hub, refusal 16 at a fresh one.
    fn next_move(&self, random: &mut Random, enrols_of_ten: usize) -> (&'static str, usize) {
        if random.below(10) < enrols_of_ten {
            (ENROL, self.newcomer(random))
        } else {
            let used = self.used();
            let place = match used[..] {
                [] => random.below(PLACES),
                _ => random.pick(&used),
            };
            (REMOVE, place)
        }
    }

    /// An identity that does not stand there: one that has left, or any.
    fn newcomer(&self, random: &mut Random) -> usize {
        let left = self.left();
        if left.is_empty() || !random.one_in(3) {
            random.pick(&self.absent(0..64))
        } else {
            random.pick(&left)
        }
    }

    /// Makes a move; one that is refused leaves the hub as it is.
    fn make(&mut self, word: &str, number: usize) {
        if word == ENROL {
            self.hub.enrol(number as u64).ok();
        } else {
            self.removed.extend(self.identity_at(number));
            self.hub.remove(number).ok();
        }
    }

    /// A line that leaves the hub as it is, or some that ask of one burst.
    fn other(&self, random: &mut Random) -> Vec<Vec<u8>> {
        vec![match random.below(100) {
            0..=51 => self.heard(random),
            52..=55 => return self.heard_and_asked(random),
            56..=76 => self.refused_move(random),
            77..=85 => self.wrongly_heard(random),
            86..=88 => hearing(&self.burst(random)).wrong_word(random, &UNKNOWN),
            89 | 90 => hearing(&self.burst(random)).wrong_fields(random, b"access? "),
            91 | 92 => self.no_number(random),
            93 => self.any_move(random).wrong_word(random, &UNKNOWN),
            94 | 95 => self.any_move(random).wrong_fields(random, b"access? "),
            96 | 97 => self.lent_move(random),
            98 => self.long_move(random),
            _ => hearing(&self.burst(random)).long_line(random),
        }]
    }

    /// Whose burst is heard: mostly one's who is there, else one's who has left, or anyone's.
    fn sender(&self, random: &mut Random) -> usize {
        let (enrolled, left) = (self.enrolled(), self.left());
        match random.below(10) {
            0..=5 if !enrolled.is_empty() => random.pick(&enrolled),
            6 | 7 if !left.is_empty() => random.pick(&left),
            _ => random.below(64),
        }
    }

    /// 36 bits as they may be received.
    fn burst(&self, random: &mut Random) -> Vec<u8> {
        let sender = self.sender(random);
        match random.below(8) {
            0..=3 => borne(random, sender),
            4 => not_quite_borne(random, sender),
            _ => whose_lines::received(random, sender),
        }
    }

    /// A burst that is heard, with a buffer or without one.
    fn heard(&self, random: &mut Random) -> Vec<u8> {
        let line = hearing(&self.burst(random)).line();
        match random.below(3) {
            0 => lend_lines::with_or_without(random, line),
            _ => line,
        }
    }

    /// A burst that is heard, the question whose it was, and the same bits as they are received under
    /// the identity of some place and under any.
    fn heard_and_asked(&self, random: &mut Random) -> Vec<Vec<u8>> {
        let e = self.burst(random);
        let mut lines = vec![hearing(&e).line()];
        lines.push(Request::of_received("whose", characters(&e)).line());
        let there = self.hub.hear(&e, ACCESS.reads).ok();
        let there = there.and_then(|(place, _, _)| self.identity_at(place));
        for identity in [there.unwrap_or(7), self.sender(random)] {
            let identity = fields::number_of(random, identity);
            let line = Request::receiving(&ACCESS, identity, characters(&e)).line();
            lines.push(lend_lines::with_or_without(random, line));
        }
        lines
    }

    /// A move that is refused with 3, 14 or 16.
    fn refused_move(&self, random: &mut Random) -> Vec<u8> {
        match random.below(20) {
            0..=7 => self.taken_identity(random),
            8..=11 => self.high_identity(random),
            12..=15 => self.empty_place(random),
            _ => self.high_place(random),
        }
    }

    /// Refusal 14, at a full hub too: an identity that stands there.
    fn taken_identity(&self, random: &mut Random) -> Vec<u8> {
        let enrolled = self.enrolled();
        match enrolled[..] {
            [] => self.high_identity(random),
            _ => {
                let identity = random.pick(&enrolled);
                with_number(random, ENROL, identity).line()
            }
        }
    }

    /// Refusal 3, at a full hub too: an identity over 63; it may be one that is there to those who read
    /// few of its bits.
    fn high_identity(&self, random: &mut Random) -> Vec<u8> {
        let enrolled = self.enrolled();
        let identity = if enrolled.is_empty() || random.one_in(2) {
            fields::high_identity(random)
        } else {
            let high = random.pick(&[64, 128, 256, 512, 4096, 65_472]);
            let identity = random.pick(&enrolled);
            fields::number_of(random, high + identity)
        };
        Request::of_received(ENROL, identity).line()
    }

    /// Refusal 16: a place at which no one stands, or one over 29 if all are in use.
    fn empty_place(&self, random: &mut Random) -> Vec<u8> {
        let used = self.used();
        let free: Vec<usize> = (0..PLACES).filter(|k| !used.contains(k)).collect();
        match free[..] {
            [] => self.high_place(random),
            _ => {
                let place = random.pick(&free);
                with_number(random, REMOVE, place).line()
            }
        }
    }

    /// Refusal 16: a place over 29; it may be one in use to those who read few of its bits, or the
    /// identity of one who is there.
    fn high_place(&self, random: &mut Random) -> Vec<u8> {
        let (used, enrolled) = (self.used(), self.enrolled());
        let place = match random.below(8) {
            0..=2 if !used.is_empty() => {
                let high = random.pick(&[30, 32, 64, 256, 512, 65_280]);
                high + random.pick(&used)
            }
            3 | 4 if !used.is_empty() => random.pick(&enrolled).max(PLACES),
            5 => PLACES + random.below(65_536 - PLACES),
            _ => random.pick(&[30, 31, 32, 63, 64, 255, 256, 65_535]),
        };
        with_number(random, REMOVE, place).line()
    }

    /// A burst with a wrong length, wrong bytes, a wrong buffer or one byte changed.
    fn wrongly_heard(&self, random: &mut Random) -> Vec<u8> {
        let request = hearing(&self.burst(random));
        match random.below(12) {
            0 | 1 => request.wrong_length(random, received_lines::change_length),
            2 | 3 => request.wrong_bits(random),
            4 | 5 => request.several_wrong(random, received_lines::change_length),
            6..=8 => lend_lines::wrongly_lent(random, &request.line()),
            9 => {
                let line = request.wrong_bits(random);
                lend_lines::with_or_without(random, line)
            }
            10 => lend_lines::badly_lent(random, &request.line()),
            _ => request.garbled(random),
        }
    }

    /// Either move, which would be done if it were said rightly.
    fn any_move(&self, random: &mut Random) -> Request {
        let (word, number) = self.next_move(random, 5);
        with_number(random, word, number)
    }

    /// A move whose number is none; some are right to one who counts in two bytes, or reads no
    /// further.
    fn no_number(&self, random: &mut Random) -> Vec<u8> {
        let (word, number) = self.next_move(random, 5);
        let behind = random.pick(&["x", ".", ":", "?", "\t", "\0"]);
        let text = match random.below(6) {
            0 => (65_536 + number).to_string(),
            1 => format!("{:06}", number),
            2 => format!("{}{}", number, behind),
            3 => random.pick(&["ID", "PLACE", "seven", "first"]).to_string(),
            _ => return Request::of_received(word, fields::no_number(random)).line(),
        };
        Request::of_received(word, text.into_bytes()).line()
    }

    /// A move with a buffer, though it writes none.
    fn lent_move(&self, random: &mut Random) -> Vec<u8> {
        let line = self.any_move(random).line();
        let length = random.pick(&[0, 1, 8, 30, 36, 600]);
        lend_lines::lent(random, length, &line)
    }

    /// A move drawn out to the limit of 1,000 bytes or over it.
    fn long_move(&self, random: &mut Random) -> Vec<u8> {
        let mut line = self.any_move(random).line();
        let length = fields::long_length(random);
        let last = random.pick(&[b' ', b'0', line[line.len() - 1]]);
        line.resize(length, last);
        line
    }
}

/// The burst of a sender, of which no more is altered and missing than is borne.
fn borne(random: &mut Random, sender: usize) -> Vec<u8> {
    let mut e = received_lines::coded(random, &ACCESS, sender);
    match random.below(4) {
        0 => {}
        1 | 2 => whose_lines::alter_few(random, &mut e),
        _ => whose_lines::damage(random, &mut e),
    }
    e
}

/// The burst of a sender, of which just too much is altered and missing to be borne always.
fn not_quite_borne(random: &mut Random, sender: usize) -> Vec<u8> {
    let mut e = received_lines::coded(random, &ACCESS, sender);
    let weight = 7 + random.below(3);
    losses::damage(random, &mut e, weight);
    e
}

/// Words that are nearly the verbs, or that would ask the same.
const UNKNOWN: [&[u8]; 30] = [
    b"enroll",
    b"enrols",
    b"enrol?",
    b"?enrol",
    b"Enrol",
    b"ENROL",
    b"en rol",
    b"enrolled",
    b"enrol:",
    b"join",
    b"removes",
    b"removed",
    b"remove?",
    b"Remove",
    b"REMOVE",
    b"re move",
    b"unenrol",
    b"leave",
    b"free",
    b"hears",
    b"heard",
    b"hear?",
    b"?hear",
    b"Hear",
    b"HEAR",
    b"he ar",
    b"here",
    b"hub",
    b"listen",
    b"",
];

#[cfg(test)]
mod tests {
    use super::*;
    use crate::kit::{answers, Kit};
    use crate::makers::each;
    use crate::makers::sorts::{call, streams_are_left_by_the_refused};
    use crate::model::whose::whose;
    use crate::text::bits;

    /// A class of so many, some of whom have left, and the kit at whose hub it stands.
    fn class_of(random: &mut Random, number: usize) -> (Class, Kit) {
        let (mut class, mut kit) = (Class::new(), Kit::fresh());
        let mut make = |class: &mut Class, random: &mut Random, enrols_of_ten| {
            let (word, number) = class.next_move(random, enrols_of_ten);
            class.make(word, number);
            kit.answer(&with_number(random, word, number).line());
        };
        for _ in 0..number {
            make(&mut class, random, 10);
        }
        for _ in 0..number / 3 {
            make(&mut class, random, 0);
        }
        for _ in 0..number / 3 {
            make(&mut class, random, 10);
        }
        (class, kit)
    }

    /// How a line of one sort is made.
    type Sort = fn(&Class, &mut Random) -> Vec<u8>;

    /// The answers to so many lines of one sort, in a class of so many.
    fn answers_of(seed: u64, number: usize, sort: Sort, lines: usize) -> Vec<String> {
        let mut random = Random::new(seed);
        let (class, mut kit) = class_of(&mut random, number);
        let lines = each(&mut random, lines, |random| sort(&class, random));
        lines.iter().map(|line| kit.answer(line)).collect()
    }

    /// Every line of one sort is answered so, in a small class, in a larger one and at a full hub.
    fn all_are(sort: Sort, expected: &str) {
        for number in [1, 5, 20, 29, 30] {
            for answer in answers_of(400, number, sort, 300) {
                assert_eq!(answer, expected, "{}", number);
            }
        }
    }

    #[test]
    fn each_wrong_sort_is_wrong_as_meant() {
        all_are(Class::taken_identity, "refused 14");
        all_are(Class::high_identity, "refused 3");
        all_are(Class::empty_place, "refused 16");
        all_are(Class::high_place, "refused 16");
        all_are(Class::no_number, "?");
        all_are(Class::lent_move, "?");
        all_are(Class::long_move, "?");
        all_are(
            |class, random| class.any_move(random).wrong_word(random, &UNKNOWN),
            "?",
        );
        all_are(
            |class, random| hearing(&class.burst(random)).wrong_word(random, &UNKNOWN),
            "?",
        );
    }

    #[test]
    fn no_one_is_there_in_a_class_that_has_not_come() {
        for (sort, expected) in [
            (Class::taken_identity as Sort, "refused 3"),
            (Class::high_identity, "refused 3"),
            (Class::empty_place, "refused 16"),
            (Class::high_place, "refused 16"),
            (Class::no_number, "?"),
        ] {
            for answer in answers_of(401, 0, sort, 100) {
                assert_eq!(answer, expected);
            }
        }
    }

    #[test]
    fn a_wrong_number_of_arguments_is_not_understood_unless_one_is_empty() {
        let sorts: [Sort; 2] = [
            |class, random| class.any_move(random).wrong_fields(random, b"access? "),
            |class, random| hearing(&class.burst(random)).wrong_fields(random, b"access? "),
        ];
        for sort in sorts {
            let wrong = answers_of(402, 20, sort, 500);
            let empty = times(&wrong, "refused 1");
            assert!(empty > 20 && empty + times(&wrong, "?") == 500, "{}", empty);
        }
    }

    /// The answer begins with these words.
    fn begins(answer: &str, words: &str) -> bool {
        let mut fields = answer.split(' ');
        words.split(' ').all(|word| fields.next() == Some(word))
    }

    /// How many of the answers begin with these words.
    fn times(answers: &[String], words: &str) -> usize {
        let with_words = answers.iter().filter(|answer| begins(answer, words));
        with_words.count()
    }

    #[test]
    fn bursts_are_wrongly_heard_in_each_way() {
        let wrong = answers_of(403, 20, Class::wrongly_heard, 1000);
        for (words, least) in [("refused 1", 400), ("refused 2", 200), ("?", 60)] {
            let number = times(&wrong, words);
            assert!(number > least, "{}: {}", words, number);
        }
    }

    #[test]
    fn lines_at_the_limit_are_refused_and_those_over_it_not_read() {
        let long: Sort = |class, random| hearing(&class.burst(random)).long_line(random);
        let long = answers_of(404, 20, long, 200);
        assert!(times(&long, "refused 1") > 50 && times(&long, "?") > 50);
        let mut random = Random::new(405);
        let (class, _) = class_of(&mut random, 20);
        let lengths: Vec<usize> = (0..200)
            .map(|_| class.long_move(&mut random).len())
            .collect();
        for length in [999, 1000, 1001] {
            assert!(lengths.iter().filter(|&&made| made == length).count() > 20);
        }
    }

    #[test]
    fn what_is_borne_reaches_the_place_and_what_is_not_may_go_astray() {
        let mut random = Random::new(406);
        let (class, _) = class_of(&mut random, 30);
        let reaches = |e: Vec<u8>, place: usize| match class.hub.hear(&e, 8) {
            Ok((heard, _, _)) => heard == place,
            Err(_) => false,
        };
        let mut astray = 0;
        for k in 0..300 {
            let (place, sender) = (k % 30, class.identity_at(k % 30).unwrap());
            assert!(reaches(borne(&mut random, sender), place));
            let beyond = not_quite_borne(&mut random, sender);
            astray += usize::from(!reaches(beyond, place));
        }
        assert!(astray > 10 && astray < 200, "{}", astray);
    }

    #[test]
    fn the_same_bits_are_heard_where_the_identity_stands_that_is_named() {
        let mut random = Random::new(407);
        let (class, mut kit) = class_of(&mut random, 20);
        let mut heard = 0;
        for _ in 0..200 {
            let lines = class.heard_and_asked(&mut random);
            let answers: Vec<String> = lines.iter().map(|line| kit.answer(line)).collect();
            let (named, count) = answers[1].split_once(' ').unwrap();
            let stands = |&place: &usize| class.identity_at(place) == named.parse().ok();
            match (0..PLACES).find(stands) {
                Some(place) => {
                    let words = format!("{} {} ", place, count);
                    assert!(answers[0].starts_with(&words), "{:?}", answers);
                    // It is received under that identity.
                    let bits = answers[0].rsplit(' ').next();
                    assert_eq!(answers[2].rsplit(' ').next(), bits);
                    heard += 1;
                }
                None => assert_eq!(answers[0], "refused 17"),
            }
        }
        assert!((80..180).contains(&heard), "{}", heard);
    }

    /// A line of a class, its answer, and how the class stood before it.
    struct Played {
        fields: Vec<Vec<u8>>,
        is_lent: bool,
        answer: String,
        /// The number of places in use.
        in_use: usize,
        /// Those who have left.
        left: Vec<usize>,
    }

    /// The number that a field is, if it is one.
    fn number_in(field: &[u8]) -> Option<usize> {
        String::from_utf8(field.to_vec()).ok()?.parse().ok()
    }

    /// Four thousand lines, each with what came of it.
    fn played(seed: u64) -> Vec<Played> {
        let lines = lines(&mut Random::new(seed), 4000);
        let answers = answers(&lines);
        let mut class = Class::new();
        let mut played = Vec::new();
        for (line, answer) in lines.iter().zip(answers) {
            let (fields, lent) = call(line);
            played.push(Played {
                fields: fields.iter().map(|field| field.to_vec()).collect(),
                is_lent: lent.is_some(),
                in_use: class.used().len(),
                left: class.absent(class.removed.iter().copied()),
                answer: answer.clone(),
            });
            match fields[..] {
                [b"fresh"] if answer == "fresh" => class = Class::new(),
                [b"enrol", identity] if number_in(answer.as_bytes()).is_some() => {
                    class.make(ENROL, number_in(identity).unwrap());
                }
                [b"remove", place] if answer == "removed" => {
                    class.make(REMOVE, number_in(place).unwrap());
                }
                _ => {}
            }
        }
        played
    }

    impl Played {
        /// The line has this word.
        fn has_word(&self, word: &str) -> bool {
            self.fields.first().map(|field| &field[..]) == Some(word.as_bytes())
        }

        /// The line has this word and one argument, and is answered with these words first.
        fn is(&self, word: &str, words: &str) -> bool {
            self.fields.len() == 2 && self.has_word(word) && begins(&self.answer, words)
        }

        /// The number of the line.
        fn number(&self) -> usize {
            number_in(&self.fields[1]).unwrap()
        }

        /// The place that a burst is given to, or an identity gets.
        fn place(&self) -> Option<usize> {
            number_in(self.answer.split(' ').next()?.as_bytes())
        }

        /// An identity gets a place.
        fn is_enrolled(&self) -> bool {
            self.has_word(ENROL) && self.place().is_some()
        }

        /// A burst is given to a place.
        fn is_heard(&self) -> bool {
            self.has_word("hear") && self.place().is_some()
        }

        /// The identity that the burst of the line names.
        fn named(&self) -> usize {
            whose(&bits(&self.fields[1])).unwrap().0 as usize
        }
    }

    /// At least so many of the lines are such ones.
    fn come(played: &[Played], least: usize, what: &str, is_such: impl Fn(&Played) -> bool) {
        let number = played.iter().filter(|played| is_such(played)).count();
        assert!(number >= least, "{}: {}", what, number);
    }

    #[test]
    fn every_place_is_given_and_freed_places_are_given_again() {
        let played = played(408);
        for place in 0..PLACES {
            let words = place.to_string();
            come(&played, 5, &words, |one| one.is(ENROL, &words));
        }
        for tens in 0..3 {
            come(&played, 30, "removed", |one| {
                one.is(REMOVE, "removed") && one.number() / 10 == tens
            });
        }
        come(&played, 500, "places given", Played::is_enrolled);
        come(&played, 80, "places before others in use", |one| {
            one.is_enrolled() && one.place() < Some(one.in_use)
        });
        come(&played, 50, "those who come back", |one| {
            one.is_enrolled() && one.left.contains(&one.number())
        });
    }

    #[test]
    fn moves_are_refused_at_full_hubs_and_at_others() {
        let played = played(409);
        let is_full = |one: &Played| one.in_use == PLACES;
        come(&played, 80, "15", |one| one.is(ENROL, "refused 15"));
        for (number, at_others, at_full) in [("3", 30, 12), ("14", 60, 30)] {
            let words = format!("refused {}", number);
            come(&played, at_others, number, |one| {
                one.is(ENROL, &words) && !is_full(one)
            });
            come(&played, at_full, number, |one| {
                one.is(ENROL, &words) && is_full(one)
            });
        }
        for is_over in [false, true] {
            come(&played, 40, "16", |one| {
                one.is(REMOVE, "refused 16") && (one.number() > 29) == is_over
            });
        }
        come(&played, 20, "16 at a full hub", |one| {
            one.is(REMOVE, "refused 16") && is_full(one)
        });
    }

    #[test]
    fn bursts_are_heard_with_every_count_and_with_missing_bits() {
        let played = played(410);
        for count in 0..=3 {
            let field = count.to_string();
            come(&played, 50, &field, |one| {
                one.is_heard() && one.answer.split(' ').nth(1) == Some(&field)
            });
        }
        come(&played, 20, "more than three", |one| {
            let count = one.answer.split(' ').nth(1);
            one.is_heard() && count.and_then(|count| count.parse().ok()) > Some(3)
        });
        for is_lossy in [false, true] {
            come(&played, 120, "with missing bits or without", |one| {
                one.is_heard() && one.fields[1].contains(&b'2') == is_lossy
            });
        }
        for place in 0..PLACES {
            let words = place.to_string();
            come(&played, 2, &words, |one| {
                one.is_heard() && one.place() == Some(place)
            });
        }
    }

    #[test]
    fn bursts_are_heard_by_nobody_also_of_those_who_have_left() {
        let played = played(411);
        let is_unheard = |one: &Played| one.is("hear", "refused 17");
        come(&played, 200, "17", is_unheard);
        come(&played, 30, "17 at a full hub", |one| {
            is_unheard(one) && one.in_use == PLACES
        });
        come(&played, 2, "17 at a fresh hub", |one| {
            is_unheard(one) && one.in_use == 0
        });
        come(&played, 40, "17 for those who have left", |one| {
            is_unheard(one) && one.left.contains(&one.named())
        });
    }

    #[test]
    fn buffers_are_lent_rightly_and_wrongly() {
        let played = played(412);
        for is_lent in [false, true] {
            for (words, least) in [("refused 1", 20), ("refused 2", 3), ("refused 17", 40)] {
                come(&played, least, words, |one| {
                    one.is("hear", words) && one.is_lent == is_lent
                });
            }
            come(&played, 80, "heard", |one| {
                one.is_heard() && one.is_lent == is_lent
            });
        }
        for word in [ENROL, REMOVE] {
            come(&played, 5, word, |one| one.is(word, "?") && one.is_lent);
        }
    }

    #[test]
    fn other_lines_come_between_them() {
        let played = played(413);
        for (word, least) in [("whose", 40), ("access?", 80), ("take", 30), ("send", 10)] {
            come(&played, least, word, |one| one.has_word(word));
        }
        come(&played, 200, "?", |one| one.answer == "?");
        come(&played, 8, "fresh", |one| one.answer == "fresh");
        let fresh = played.iter().filter(|one| one.answer == "fresh").count();
        assert!(fresh < 60, "{}", fresh);
        // The hub becomes full in most classes.
        let filled = |two: &&[Played]| two[0].in_use == 29 && two[1].in_use == 30;
        assert!(played.windows(2).filter(filled).count() > fresh / 2);
    }

    #[test]
    fn refused_calls_leave_the_hub_and_the_streams() {
        let lines = lines(&mut Random::new(414), 3000);
        streams_are_left_by_the_refused(&lines, 1000);
    }

    #[test]
    fn the_number_of_lines_is_the_one_asked_for() {
        for count in [0, 1, 10, 333] {
            assert_eq!(lines(&mut Random::new(415), count).len(), count);
        }
    }
}
