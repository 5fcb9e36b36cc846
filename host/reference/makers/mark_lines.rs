//! Kit lines that mark a decoder: blocks handed in for received bits, each with a count. Some are the
//! decoder's own or tie with it, some are farther, and some have a wrong count, end or length. Between
//! them stand lines that are wrong in every way foreseen.

use crate::chance::random::Random;
use crate::chance::{lists, losses};
use crate::makers::request::Request;
use crate::makers::{fields, lend_lines, received_lines};
use crate::model::bits::{add, bits_of, ones, ones_at};
use crate::model::channel::{Channel, ACCESS, CHANNELS, SACCH};
use crate::model::coding::{convolve, unrepaired};
use crate::model::decoding::nearest;
use crate::model::exhaustive::Pairs;
use crate::model::marking::{disagreements, MARKED};
use crate::model::missing::MISSING;
use crate::model::survivors::Survivor;
use crate::text::characters;

/// One random line, without its newline; of a hundred, about 32 are answered by yes and 42 by a no.
pub fn line(random: &mut Random) -> Vec<u8> {
    match random.below(100) {
        0..=16 => own(random).line(random),
        17..=31 => tied(random).line(random),
        32..=47 => farther(random).line(random),
        48..=58 => miscounted(random).line(random),
        59..=65 => without_tail(random).line(random),
        66..=72 => wrong_number(random),
        73..=77 => wrong_length(random),
        78..=81 => request(random).wrong_bits(random),
        82..=84 => wrong_block_bits(random),
        85..=89 => several_wrong(random),
        90 | 91 => request(random).wrong_word(random, &UNKNOWN),
        92 | 93 => wrong_channel(random),
        94 | 95 => bad_count(random),
        96 => wrong_fields(random),
        97 => lent(random),
        98 => request(random).long_line(random),
        _ => request(random).garbled(random),
    }
}

/// A block that is handed in for the received bits of a channel, and its count.
struct Answer {
    channel: Channel,
    e: Vec<u8>,
    u: Vec<u8>,
    count: usize,
}

/// Where the block and its count stand behind the received bits.
const BLOCK: usize = 0;
const COUNT: usize = 1;

impl Answer {
    /// A block with its true count.
    fn of(channel: Channel, e: Vec<u8>, u: Vec<u8>) -> Answer {
        let count = disagreements(&u, &e[..channel.protected()]);
        Answer {
            channel,
            e,
            u,
            count,
        }
    }

    /// The received bits that are protected, and the others.
    fn pairs_and_others(&self) -> (&[u8], &[u8]) {
        self.e.split_at(self.channel.protected())
    }

    /// The decoder's own block and its count.
    fn nearest(&self) -> Survivor {
        nearest(self.pairs_and_others().0)
    }

    /// The request to mark it.
    fn request(&self, random: &mut Random) -> Request {
        let count = fields::number_of(random, self.count);
        Request::marking(
            &self.channel,
            characters(&self.e),
            characters(&self.u),
            count,
        )
    }

    /// The line that marks it.
    fn line(&self, random: &mut Random) -> Vec<u8> {
        self.request(random).line()
    }
}

/// A block that is sent, its parity right or wrong, and its coded bits.
fn sent(random: &mut Random, channel: &Channel) -> (Vec<u8>, Vec<u8>) {
    let sender = random.below(64);
    let mut e = received_lines::coded(random, channel, sender);
    let pairs = &mut e[..channel.protected()];
    if random.one_in(2) {
        pairs.copy_from_slice(&convolve(&lists::candidate(random, channel.pairs)));
    }
    (unrepaired(pairs), e)
}

/// A block that was sent, whatever became of its coded bits.
fn damaged(random: &mut Random) -> Answer {
    let channel = random.pick(&MARKED);
    let (u, mut e) = sent(random, &channel);
    received_lines::alter_some(random, &mut e);
    lose_now_and_then(random, &mut e);
    Answer::of(channel, e, u)
}

/// Loses some bits of one list in three.
fn lose_now_and_then(random: &mut Random, e: &mut [u8]) {
    if random.one_in(3) {
        losses::lose_some(random, e);
    }
}

/// Yes: the decoder's own block.
fn own(random: &mut Random) -> Answer {
    let channel = random.pick(&MARKED);
    let sender = random.below(64);
    let mut e = match random.below(6) {
        0 => lists::unsent(random, channel.writes),
        _ => received_lines::coded_list(random, &channel, sender),
    };
    lose_now_and_then(random, &mut e);
    let u = nearest(&e[..channel.protected()]).u;
    Answer::of(channel, e, u)
}

/// A block with its true count, whatever its mark.
fn any(random: &mut Random) -> Answer {
    match random.below(4) {
        0 => own(random),
        1 => between(random),
        2 => elsewhere(random),
        _ => damaged(random),
    }
}

/// The request to mark such a block.
fn request(random: &mut Random) -> Request {
    any(random).request(random)
}

/// The first that is made and passes beside the decoder's own.
fn until(
    random: &mut Random,
    make: fn(&mut Random) -> Answer,
    passes: fn(&Answer, &Survivor) -> bool,
) -> Answer {
    loop {
        let answer = make(random);
        if passes(&answer, &answer.nearest()) {
            return answer;
        }
    }
}

/// Yes: another block than the decoder's own that disagrees in as few places.
fn tied(random: &mut Random) -> Answer {
    until(random, between, |answer, own| {
        answer.count == own.count && answer.u != own.u
    })
}

/// A block that may tie with others.
fn between(random: &mut Random) -> Answer {
    let channel = random.pick(&MARKED);
    match random.below(8) {
        0 => mostly_lost(random, channel),
        1 => without_run(random, channel),
        2 => of_all_nearest(random),
        _ => midway(random, channel),
    }
}

/// A block of which few bits are left, or none.
fn mostly_lost(random: &mut Random, channel: Channel) -> Answer {
    let (u, mut e) = sent(random, &channel);
    let left = random.pick(&[0, 0, 1, 2, 5, 10, 20]);
    lists::lose(random, &mut e, channel.writes - left);
    Answer::of(channel, e, u)
}

/// One of two blocks that differ in a run of places alone, all of which are missing.
fn without_run(random: &mut Random, channel: Channel) -> Answer {
    let (mut u, mut e) = sent(random, &channel);
    let difference = difference(random, channel.pairs);
    let places = ones_at(&convolve(&difference));
    e[places[0]..=places[places.len() - 1]].fill(MISSING);
    received_lines::alter_few(random, &mut e);
    add_or_not(random, &mut u, &difference);
    Answer::of(channel, e, u)
}

/// One of the nearest blocks of access to a list that no one sent.
fn of_all_nearest(random: &mut Random) -> Answer {
    let e = lists::unsent(random, ACCESS.writes);
    let all = Pairs::of(&e).nearest(ACCESS.pairs);
    let u = bits_of(random.pick(&all), ACCESS.pairs);
    Answer::of(ACCESS, e, u)
}

/// One of two blocks, or of four, that stand equally far from the received bits; some of the places in
/// which they differ may be missing.
fn midway(random: &mut Random, channel: Channel) -> Answer {
    let (mut u, mut e) = sent(random, &channel);
    let is_whole = random.one_in(2);
    for _ in 0..=random.below(2) {
        let (difference, missing) = if is_whole {
            (lists::short_difference(random, channel.pairs), 0)
        } else {
            some_missing(random, channel.pairs)
        };
        lists::move_towards(random, &mut e, &difference, missing, 0);
        add_or_not(random, &mut u, &difference);
    }
    received_lines::alter_few(random, &mut e);
    Answer::of(channel, e, u)
}

/// What two candidates of n bits differ by, and how many of the places in which they differ then are to
/// be missing: an even number is left.
fn some_missing(random: &mut Random, n: usize) -> (Vec<u8>, usize) {
    let difference = difference(random, n);
    let apart = ones(&convolve(&difference));
    (difference, apart - 2 * random.below(apart / 2 + 1))
}

/// What two candidates of n bits differ by: one bit, or a few near each other.
fn difference(random: &mut Random, n: usize) -> Vec<u8> {
    if random.one_in(3) {
        let one = fields::single(random, n - 4, 1, 0);
        [&one[..], &[0; 4]].concat()
    } else {
        lists::short_difference(random, n)
    }
}

/// Adds the difference to one block in two.
fn add_or_not(random: &mut Random, u: &mut [u8], difference: &[u8]) {
    if random.one_in(2) {
        add(u, difference);
    }
}

/// No fewest: a block that disagrees in more places than the decoder's own.
fn farther(random: &mut Random) -> Answer {
    until(random, elsewhere, |answer, own| answer.count > own.count)
}

/// A block that may be farther than another.
fn elsewhere(random: &mut Random) -> Answer {
    let channel = random.pick(&MARKED);
    match random.below(8) {
        0..=2 => overtaken(random, channel),
        3 | 4 => by_one(random, channel),
        5 => of_unrepaired(random),
        _ => neighbour(random),
    }
}

/// The block that was sent, though another is nearer to what came of it.
fn overtaken(random: &mut Random, channel: Channel) -> Answer {
    let (u, mut e) = sent(random, &channel);
    let difference = difference(random, channel.pairs);
    let few = random.below(7);
    let missing = random.pick(&[0, few]);
    let beyond_half = 1 + random.below(2);
    lists::move_towards(random, &mut e, &difference, missing, beyond_half);
    Answer::of(channel, e, u)
}

/// Another block than the one that was sent, which is nearer by one place alone.
fn by_one(random: &mut Random, channel: Channel) -> Answer {
    let (mut u, mut e) = sent(random, &channel);
    let difference = difference(random, channel.pairs);
    let apart = ones(&convolve(&difference));
    let left = 1 + 2 * random.below((apart + 1) / 2);
    lists::move_towards(random, &mut e, &difference, apart - left, 0);
    add(&mut u, &difference);
    Answer::of(channel, e, u)
}

/// What one hands in who repairs nothing but the last four bits.
fn of_unrepaired(random: &mut Random) -> Answer {
    let Answer { channel, e, .. } = damaged(random);
    let mut u = unrepaired(&e[..channel.protected()]);
    u[channel.pairs - 4..].fill(0);
    Answer::of(channel, e, u)
}

/// A block near the one that was sent, or any other.
fn neighbour(random: &mut Random) -> Answer {
    let Answer {
        channel, e, mut u, ..
    } = damaged(random);
    let difference = match random.below(3) {
        0 => lists::candidate(random, channel.pairs),
        _ => difference(random, channel.pairs),
    };
    add(&mut u, &difference);
    Answer::of(channel, e, u)
}

/// No count: a block with another count than its own.
fn miscounted(random: &mut Random) -> Answer {
    let mut answer = any(random);
    answer.count = another_count(random, &answer);
    answer
}

/// A count that is not the right one.
fn another_count(random: &mut Random, answer: &Answer) -> usize {
    let right = answer.count;
    let (pairs, others) = answer.pairs_and_others();
    let missing = pairs.iter().filter(|&&bit| bit == MISSING).count();
    let count = match random.below(12) {
        0 | 1 => right + 1,
        2 | 3 => right.saturating_sub(1),
        4 => 0,
        5 => 65_535,
        6 => right + missing,
        7 => pairs.len() - missing - right,
        8 => right + ones(others),
        // The right number to one who counts in a single byte, or in fewer bits.
        9 => right + 256 * (1 + random.below(200)),
        10 => right % random.pick(&[2, 4, 8, 16]),
        _ => answer.nearest().count,
    };
    fields::other_than(right, count)
}

/// No tail: a block with ones among its last four bits, and its own count. Some were sent so, and are
/// nearer than any candidate.
fn without_tail(random: &mut Random) -> Answer {
    let Answer {
        channel,
        mut e,
        mut u,
        ..
    } = any(random);
    spoil_tail(random, &mut u);
    if random.one_in(4) {
        e[..channel.protected()].copy_from_slice(&convolve(&u));
        received_lines::alter_few(random, &mut e);
    }
    Answer::of(channel, e, u)
}

/// Puts a one, or several, into the place of the last four zeros.
fn spoil_tail(random: &mut Random, u: &mut [u8]) {
    let several = 1 + random.below(15) as u64;
    let ending = random.pick(&[1, 2, 4, 8, several]);
    let last_four = u.len() - 4;
    u[last_four..].copy_from_slice(&bits_of(ending, 4));
}

/// No length: another number of bits in the block.
fn wrong_number(random: &mut Random) -> Vec<u8> {
    let answer = any(random);
    let mut request = answer.request(random);
    change_number(random, &answer.channel, &mut request);
    request.line()
}

/// A number of bits other than that of the pairs, but no higher than the highest.
fn another_number(random: &mut Random, channel: &Channel, highest: usize) -> usize {
    let right = channel.pairs;
    let other = random.pick(&CHANNELS);
    let number = match random.below(12) {
        0 | 1 => right - 1,
        2 | 3 => right + 1,
        4 => 0,
        5 => 1 + random.below(4),
        // Without the last four zeros, and without the parity.
        6 => right - 4,
        7 => channel.reads,
        8 => other.pairs,
        9 => random.pick(&[other.reads, other.writes]),
        // The right number to one who counts in a single byte.
        10 => (right + 256) % 512,
        _ => random.below(highest + 1),
    };
    fields::other_than(right, number.min(highest))
}

/// Cuts the block short or draws it out to another number of bits.
fn change_number(random: &mut Random, channel: &Channel, request: &mut Request) {
    let highest = 1000 - (request.line().len() - request.behind[BLOCK].len());
    let number = another_number(random, channel, highest);
    fields::fit(random, &mut request.behind[BLOCK], number);
}

/// Refusal 1: another number of received bits, or the block in their place and they in its.
fn wrong_length(random: &mut Random) -> Vec<u8> {
    let mut request = request(random);
    if random.one_in(6) {
        std::mem::swap(&mut request.bits, &mut request.behind[BLOCK]);
        return request.line();
    }
    request.wrong_length(random, received_lines::change_length)
}

/// Puts wrong characters into the block.
fn spoil_block(random: &mut Random, request: &mut Request) {
    fields::spoil(random, &mut request.behind[BLOCK], fields::WRONG_WHERE_SENT);
}

/// Refusal 2: wrong characters in the block, now and then of another length.
fn wrong_block_bits(random: &mut Random) -> Vec<u8> {
    let answer = any(random);
    let mut request = answer.request(random);
    if random.one_in(3) {
        change_number(random, &answer.channel, &mut request);
        if request.behind[BLOCK].is_empty() {
            // Of no bits none is wrong.
            request.behind[BLOCK].push(b'0');
        }
    }
    spoil_block(random, &mut request);
    request.line()
}

/// Two things wrong at once, or more, so that the order of the answers shows.
fn several_wrong(random: &mut Random) -> Vec<u8> {
    let mut answer = any(random);
    let first = 1 + random.below(5);
    let other = random.below(first);
    let is_wrong =
        [0, 1, 2, 3, 4, 5].map(|k| k == first || k == other || k < first && random.one_in(3));
    if is_wrong[0] {
        answer.count = another_count(random, &answer);
    }
    if is_wrong[1] {
        spoil_tail(random, &mut answer.u);
    }
    let mut request = answer.request(random);
    if is_wrong[2] {
        change_number(random, &answer.channel, &mut request);
    }
    if is_wrong[3] {
        spoil_block(random, &mut request);
    }
    if is_wrong[4] {
        request.spoil(random);
    }
    if is_wrong[5] {
        received_lines::change_length(random, &mut request);
    }
    request.line()
}

/// Words that are nearly the verb, or that would ask the same.
const UNKNOWN: [&[u8]; 16] = [
    b"mar",
    b"marks",
    b"marked",
    b"mark?",
    b"?mark",
    b"mark ?",
    b"Mark",
    b"MARK",
    b"mark:",
    b"m ark",
    b"mark mark",
    b"marc",
    b"check",
    b"judge",
    b"nearest",
    b"",
];

/// What is no channel that is marked.
const NO_CHANNELS: [&[u8]; 14] = [
    b"",
    b"sacch",
    b"efr",
    b"efr?",
    b"facch",
    b"rach",
    b"mark",
    b"CHANNEL",
    b"7",
    b"access 7",
    b"whose",
    b"trellis",
    b"speech,control",
    b"\0",
];

/// A channel that is not marked, or what is none.
fn wrong_channel(random: &mut Random) -> Vec<u8> {
    let answer = any(random);
    let mut request = answer.request(random);
    let name = answer.channel.name.as_bytes();
    let other = match random.below(6) {
        0 => {
            fields::fit(random, &mut request.bits, SACCH.writes);
            b"sacch".to_vec()
        }
        1 => [name, b"?"].concat(),
        2 | 3 => random.pick(&NO_CHANNELS).to_vec(),
        _ => fields::changed_word(random, name),
    };
    request.set_before(other);
    request.line()
}

/// What is no number in the place of the count; now and then something else is wrong besides.
fn bad_count(random: &mut Random) -> Vec<u8> {
    let answer = any(random);
    let mut request = answer.request(random);
    request.behind[COUNT] = match random.below(4) {
        // The right number to one who counts in two bytes.
        0 => (65_536 + answer.count).to_string().into_bytes(),
        1 => format!("{:06}", answer.count).into_bytes(),
        _ => fields::no_number(random),
    };
    match random.below(6) {
        0 => request.spoil(random),
        1 => spoil_block(random, &mut request),
        2 => received_lines::change_length(random, &mut request),
        _ => {}
    }
    request.line()
}

/// A field left out, said twice or in another's place, or a space too many.
fn wrong_fields(random: &mut Random) -> Vec<u8> {
    let request = request(random);
    let mut fields = vec![&request.word[..]];
    fields.extend(request.arguments());
    let index = random.below(fields.len());
    match random.below(4) {
        0 => {
            fields.remove(index);
        }
        1 => fields.insert(index, fields[index]),
        2 => {
            let (one, other) = random.pick(&[(1, 2), (1, 3), (1, 4), (2, 4), (3, 4), (0, 1)]);
            fields.swap(one, other);
        }
        _ => return request.wrong_fields(random, b"mark access "),
    }
    fields.join(&b' ')
}

/// A mark with a buffer, though it writes none.
fn lent(random: &mut Random) -> Vec<u8> {
    let line = any(random).line(random);
    let length = random.pick(&[0, 1, 8, 36, 189, 260, 456, 600]);
    lend_lines::lent(random, length, &line)
}

#[cfg(test)]
mod tests {
    use super::*;
    use crate::kit::answer;
    use crate::makers::each;
    use crate::makers::sorts::{all_are, answers, call, times};
    use crate::model::marking::marked;
    use crate::text::bits;

    /// How answers of one sort are made.
    type Sort = fn(&mut Random) -> Answer;

    /// So many answers of one sort.
    fn made(seed: u64, number: usize, sort: Sort) -> Vec<Answer> {
        let mut random = Random::new(seed);
        (0..number).map(|_| sort(&mut random)).collect()
    }

    /// The answer is of this channel.
    fn is_of(answer: &Answer, channel: &Channel) -> bool {
        answer.channel.name == channel.name
    }

    /// Some bits are missing of those that count.
    fn is_lossy(answer: &Answer) -> bool {
        answer.pairs_and_others().0.contains(&MISSING)
    }

    /// On each channel as many of the answers at least are such ones.
    fn on_each_channel(answers: &[Answer], least: usize, is_such: impl Fn(&Answer) -> bool) {
        for channel in MARKED {
            let of_channel = answers.iter().filter(|answer| is_of(answer, &channel));
            let number = of_channel.filter(|answer| is_such(answer)).count();
            assert!(number >= least, "{}: {}", channel.name, number);
        }
    }

    #[test]
    fn each_sort_is_marked_as_meant() {
        let sorts: [(Sort, &str); 5] = [
            (own, "yes"),
            (tied, "yes"),
            (farther, "no fewest"),
            (miscounted, "no count"),
            (without_tail, "no tail"),
        ];
        for (sort, expected) in sorts {
            all_are(350, 300, |random| sort(random).line(random), expected);
        }
        all_are(350, 300, wrong_number, "no length");
    }

    #[test]
    fn each_wrong_sort_is_wrong_as_meant() {
        let wrong_bits = |random: &mut Random| request(random).wrong_bits(random);
        let wrong_word = |random: &mut Random| request(random).wrong_word(random, &UNKNOWN);
        all_are(351, 500, wrong_length, "refused 1");
        all_are(351, 500, wrong_bits, "refused 2");
        all_are(351, 500, wrong_block_bits, "refused 2");
        all_are(351, 1000, wrong_word, "?");
        all_are(351, 1000, wrong_channel, "?");
        all_are(351, 1000, bad_count, "?");
        all_are(351, 1000, wrong_fields, "?");
        all_are(351, 200, lent, "?");
    }

    #[test]
    fn ties_are_real_on_each_channel_with_missing_bits_and_without() {
        let answers = made(352, 400, tied);
        on_each_channel(&answers, 20, is_lossy);
        on_each_channel(&answers, 10, |answer| !is_lossy(answer));
        on_each_channel(&answers, 20, |answer| answer.count == 0);
        on_each_channel(&answers, 20, |answer| answer.count > 2);
        let all_missing = |answer: &Answer| answer.e.iter().all(|&bit| bit == MISSING);
        on_each_channel(&answers, 1, all_missing);
    }

    #[test]
    fn blocks_that_may_tie_do_so_often() {
        for channel in MARKED {
            for sort in [mostly_lost, without_run, midway] {
                let mut random = Random::new(353);
                let ties = (0..100).filter(|_| {
                    let answer = sort(&mut random, channel);
                    let own = answer.nearest();
                    answer.count == own.count && answer.u != own.u
                });
                let number = ties.count();
                assert!(number > 15, "{}: {}", channel.name, number);
            }
        }
    }

    #[test]
    fn blocks_are_farther_by_one_place_and_by_more() {
        let answers = made(354, 300, farther);
        let beyond = |answer: &Answer| answer.count - answer.nearest().count;
        on_each_channel(&answers, 10, |answer| beyond(answer) == 1);
        on_each_channel(&answers, 5, |answer| beyond(answer) == 2);
        on_each_channel(&answers, 5, |answer| beyond(answer) > 6);
        on_each_channel(&answers, 10, is_lossy);
        on_each_channel(&answers, 10, |answer| !is_lossy(answer));
    }

    #[test]
    fn another_block_is_always_nearer_than_one_overtaken_or_one_behind_by_one() {
        let mut random = Random::new(355);
        for channel in MARKED {
            for _ in 0..20 {
                for sort in [overtaken, by_one] {
                    let answer = sort(&mut random, channel);
                    assert!(answer.count > answer.nearest().count, "{}", channel.name);
                }
            }
        }
    }

    #[test]
    fn wrong_counts_are_near_the_right_one_and_far() {
        let answers = made(356, 800, miscounted);
        let right = |answer: &Answer| disagreements(&answer.u, answer.pairs_and_others().0);
        on_each_channel(&answers, 10, |answer| answer.count == right(answer) + 1);
        on_each_channel(&answers, 10, |answer| answer.count + 1 == right(answer));
        on_each_channel(&answers, 10, |answer| answer.count == 0);
        on_each_channel(&answers, 5, |answer| answer.count == 65_535);
        on_each_channel(&answers, 5, |answer| {
            answer.count > right(answer) && answer.count % 256 == right(answer)
        });
        let with_missing = |answer: &Answer| {
            let missing = answer.pairs_and_others().0.iter().filter(|&&bit| bit == 2);
            is_lossy(answer) && answer.count == right(answer) + missing.count()
        };
        on_each_channel(&answers, 2, with_missing);
    }

    #[test]
    fn each_of_the_last_four_bits_is_spoiled_alone() {
        let answers = made(357, 400, without_tail);
        for k in 1..=4 {
            on_each_channel(&answers, 5, |answer| {
                let last_four = &answer.u[answer.u.len() - 4..];
                ones_at(last_four) == [4 - k]
            });
        }
        // Some of them disagree in fewer places than any candidate.
        on_each_channel(&answers, 2, |answer| answer.count < answer.nearest().count);
    }

    /// Those of the lines that have this mark, read again.
    fn marked_so(lines: &[Vec<u8>], mark: &str) -> Vec<Answer> {
        let of_mark = lines.iter().filter(|line| answer(line) == mark);
        of_mark.map(|line| read(line)).collect()
    }

    /// What a line hands in.
    fn read(line: &[u8]) -> Answer {
        let fields = call(line).0;
        let count = String::from_utf8(fields[4].to_vec()).unwrap();
        Answer {
            channel: *marked(fields[1]).unwrap(),
            e: bits(fields[2]),
            u: bits(fields[3]),
            count: count.parse().unwrap(),
        }
    }

    #[test]
    fn blocks_of_many_lengths_are_handed_in() {
        for channel in MARKED {
            let mut random = Random::new(358);
            let numbers: Vec<usize> = (0..400)
                .map(|_| another_number(&mut random, &channel, 500))
                .collect();
            let right = channel.pairs;
            assert!(!numbers.contains(&right));
            for number in [0, 1, 4, right - 4, right - 1, right + 1, channel.reads] {
                assert!(numbers.contains(&number), "{} {}", channel.name, number);
            }
            for other in MARKED.iter().filter(|other| other.pairs != right) {
                assert!(numbers.contains(&other.pairs), "{}", channel.name);
            }
        }
    }

    #[test]
    fn several_wrong_are_answered_in_each_way() {
        let answers = answers(359, 600, several_wrong);
        let mut all = 0;
        for (expected, least) in [
            ("refused 1", 80),
            ("refused 2", 160),
            ("no length", 80),
            ("no tail", 80),
        ] {
            let number = times(&answers, expected);
            assert!(number > least, "{}: {}", expected, number);
            all += number;
        }
        assert_eq!(all, 600);
    }

    #[test]
    fn lines_at_the_limit_are_refused_and_those_over_it_not_read() {
        let long = answers(360, 200, |random| request(random).long_line(random));
        for expected in ["refused 1", "?"] {
            assert!(times(&long, expected) > 50);
        }
    }

    #[test]
    fn every_answer_comes_often() {
        let answers = answers(361, 4000, line);
        for (expected, least) in [
            ("yes", 1000),
            ("no length", 200),
            ("no tail", 200),
            ("no count", 350),
            ("no fewest", 500),
            ("refused 1", 200),
            ("refused 2", 250),
            ("?", 300),
        ] {
            let number = times(&answers, expected);
            assert!(number > least, "{}: {}", expected, number);
        }
    }

    #[test]
    fn every_mark_comes_on_each_channel_with_missing_bits_and_without() {
        let lines = each(&mut Random::new(362), 4000, line);
        for mark in ["yes", "no length", "no tail", "no count", "no fewest"] {
            let marked = marked_so(&lines, mark);
            on_each_channel(&marked, 15, is_lossy);
            on_each_channel(&marked, 15, |answer| !is_lossy(answer));
        }
    }

    #[test]
    fn many_that_get_yes_are_not_the_decoders_own() {
        let lines = each(&mut Random::new(363), 4000, line);
        let yes = marked_so(&lines, "yes");
        on_each_channel(&yes, 80, |answer| answer.nearest().u == answer.u);
        on_each_channel(&yes, 80, |answer| answer.nearest().u != answer.u);
    }
}
