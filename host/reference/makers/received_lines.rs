//! Random kit lines that receive: more than half are decoded, the others are wrong in every way
//! foreseen.

use crate::chance::random::Random;
use crate::chance::{lists, losses};
use crate::makers::fields;
use crate::makers::request::Request;
use crate::model::bits::add;
use crate::model::burst::on_four_bursts;
use crate::model::channel::{Channel, ACCESS, CHANNELS, SACCH};
use crate::model::coding::convolve;
use crate::text;

/// One random receiving line, without its newline; of a hundred, 75 are decoded.
pub fn line(random: &mut Random) -> Vec<u8> {
    match random.below(100) {
        0..=74 => any(random).line(),
        75..=79 => any(random).wrong_length(random, change_length),
        80..=83 => any(random).wrong_bits(random),
        84 => wrong_flag(random),
        85..=86 => high_identity(random),
        87..=88 => decoded(random, &ACCESS).bad_number(random),
        89..=91 => several_wrong(random),
        92..=93 => wrong_word(random),
        94 => sending_word(random),
        95..=96 => any(random).wrong_fields(random, b"access? "),
        97 => any(random).long_line(random),
        _ => any(random).garbled(random),
    }
}

/// A request of any channel that will be decoded.
fn any(random: &mut Random) -> Request {
    let channel = random.pick(&CHANNELS);
    decoded(random, &channel)
}

/// A request that will be decoded, with a good verdict or a bad one.
fn decoded(random: &mut Random, channel: &Channel) -> Request {
    let sender = random.below(64);
    let c = coded_list(random, channel, sender);
    receiving(random, channel, sender, c)
}

/// The request to receive coded bits of a sender.
fn receiving(random: &mut Random, channel: &Channel, sender: usize, c: Vec<u8>) -> Request {
    let receiver = receiver_of(random, sender);
    let list = as_sent(random, channel, c);
    let identity = fields::number_of(random, receiver);
    Request::receiving(channel, identity, text::characters(&list))
}

/// A line of any channel that will be decoded, though some of its bits are missing or, now and then,
/// have only been altered.
pub fn with_missing(random: &mut Random) -> Vec<u8> {
    let channel = random.pick(&CHANNELS);
    let sender = random.below(64);
    let mut c = coded(random, &channel, sender);
    match random.below(8) {
        0..=3 => damage(random, &channel, &mut c),
        4 => {
            lists::move_midway(random, &mut c, channel.pairs);
            losses::lose_some(random, &mut c);
        }
        5 => {
            alter_some(random, &mut c);
            losses::lose_some(random, &mut c);
        }
        _ => losses::lose_some(random, &mut c),
    }
    receiving(random, &channel, sender, c).line()
}

/// Alters and loses protected bits, round the weight that is borne.
fn damage(random: &mut Random, channel: &Channel, c: &mut [u8]) {
    let weight = random.pick(&[1, 3, 5, 6, 6, 6, 7, 7, 8]);
    losses::damage(random, &mut c[..channel.protected()], weight);
}

/// The sender's identity mostly, or one that differs in one bit, or any.
fn receiver_of(random: &mut Random, sender: usize) -> usize {
    match random.below(10) {
        0 => sender ^ (1 << random.below(6)),
        1 => random.below(64),
        _ => sender,
    }
}

/// Coded bits as received, before they are put on bursts.
pub fn coded_list(random: &mut Random, channel: &Channel, sender: usize) -> Vec<u8> {
    let mut list = coded(random, channel, sender);
    match random.below(20) {
        0 => list = lists::random_bits(random, list.len()),
        1 => list = lists::few_turned(random, list.len()),
        2 => list = lists::pattern(random, list.len()),
        3..=5 => {
            lists::move_midway(random, &mut list, channel.pairs);
            alter_few(random, &mut list);
        }
        6 | 7 => {
            spoil_parity(random, channel, &mut list);
            alter_few(random, &mut list);
        }
        _ => alter_some(random, &mut list),
    }
    if random.one_in(5) {
        losses::lose_some(random, &mut list);
    }
    list
}

/// The coded bits c of a random block.
pub fn coded(random: &mut Random, channel: &Channel, sender: usize) -> Vec<u8> {
    let d = text::bits(&fields::good_bits(random, channel.reads));
    channel.coded(sender as u64, &d)
}

/// Alters 0 to 20 bits; 0 to 3, 4 to 7 and more are all common.
pub fn alter_some(random: &mut Random, list: &mut [u8]) {
    let number = match random.below(10) {
        0..=4 => random.below(4),
        5..=7 => 4 + random.below(4),
        _ => 8 + random.below(13),
    };
    lists::alter(random, list, number);
}

/// Alters no bit mostly, or up to three.
pub fn alter_few(random: &mut Random, list: &mut [u8]) {
    if random.one_in(3) {
        let number = 1 + random.below(3);
        lists::alter(random, list, number);
    }
}

/// Adds the pairs of wrong parity bits, so that the coded bits are those of another candidate.
fn spoil_parity(random: &mut Random, channel: &Channel, list: &mut [u8]) {
    let (first, number) = channel.parity;
    let mut u = vec![0; channel.pairs];
    for _ in 0..=random.below(3) {
        u[first + random.below(number)] = 1;
    }
    add(list, &convolve(&u));
}

/// The coded bits, on four bursts where the channel has flags: all 1, all 0, random or missing.
fn as_sent(random: &mut Random, channel: &Channel, c: Vec<u8>) -> Vec<u8> {
    if channel.flags.is_none() {
        return c;
    }
    let mut flags = match random.below(4) {
        0 => lists::random_bits(random, 8),
        1 => vec![0; 8],
        _ => vec![1; 8],
    };
    if random.one_in(4) {
        losses::lose_some(random, &mut flags);
    }
    on_four_bursts(&c, &flags)
}

/// A length other than the right one, but none over the longest, which fills the line up to its limit.
fn another_length(random: &mut Random, right: usize, longest: usize) -> usize {
    let other = random.pick(&CHANNELS);
    let length = match random.below(10) {
        0 => right - 1,
        1 => right + 1,
        2 => random.pick(&[right - 2, right + 2, right / 2, 2 * right]),
        3 => 0,
        4 => other.writes,
        5 => other.reads,
        // The protected bits alone, or bits in u.
        6 => random.pick(&[other.protected(), other.pairs]),
        // The right length to one who counts in a single byte.
        7 => (right + 256) % 512,
        8 => 2 * random.below(longest / 2) + 1,
        _ => random.below(longest + 1),
    };
    fields::other_than(right, length.min(longest))
}

/// Cuts the bits short or draws them out to another length.
pub fn change_length(random: &mut Random, request: &mut Request) {
    let right = request.bits.len();
    let longest = 1000 - (request.line().len() - right);
    let length = another_length(random, right, longest);
    fields::fit(random, &mut request.bits, length);
}

/// Refusal 2: SACCH with a wrong character at a flag, e(57) or e(58) of a burst.
fn wrong_flag(random: &mut Random) -> Vec<u8> {
    let mut request = decoded(random, &SACCH);
    let flag = 116 * random.below(4) + 57 + random.below(2);
    request.bits[flag] = fields::wrong_character(random, fields::WRONG_WHERE_RECEIVED);
    request.line()
}

/// Refusal 3: an identity over 63.
pub fn high_identity(random: &mut Random) -> Vec<u8> {
    decoded(random, &ACCESS).high_identity(random)
}

/// Two or three things wrong at once, in access requests more than in others.
fn several_wrong(random: &mut Random) -> Vec<u8> {
    let any = random.pick(&CHANNELS);
    let channel = random.pick(&[ACCESS, any]);
    decoded(random, &channel).several_wrong(random, change_length)
}

/// The verb's word without its question mark.
fn stem(request: &Request) -> &[u8] {
    request.word.strip_suffix(b"?").unwrap_or(&request.word)
}

/// An unknown word before good arguments.
fn wrong_word(random: &mut Random) -> Vec<u8> {
    const UNKNOWN: [&[u8]; 6] = [b"rach?", b"facch?", b"view", b"?", b"", b"decode"];
    let request = any(random);
    let stem = stem(&request);
    let word = match random.below(6) {
        0 => random.pick(&UNKNOWN).to_vec(),
        1 => [stem, b"??"].concat(),
        2 => [b"?", stem].concat(),
        3 => [stem, b" ?"].concat(),
        _ => [&fields::changed_word(random, stem)[..], b"?"].concat(),
    };
    request.line_with(&word)
}

/// Refusal 1: the sending verb reads another number of bits.
fn sending_word(random: &mut Random) -> Vec<u8> {
    let request = any(random);
    request.line_with(stem(&request))
}

#[cfg(test)]
mod tests {
    use super::*;
    use crate::kit::answer;
    use crate::makers::each;
    use crate::makers::sorts::{all_are, answers, times};

    /// The answer of a decoding: a good block, refusal 8, or refusal 10.
    fn is_decoded(answer: &str) -> bool {
        let bad = ["refused 8 ", "refused 10 "];
        is_good(answer) || bad.iter().any(|words| answer.starts_with(words))
    }

    /// The answer gives a good block.
    fn is_good(answer: &str) -> bool {
        !answer.starts_with("refused") && answer != "?"
    }

    #[test]
    fn each_wrong_sort_is_wrong_as_meant() {
        let wrong_length = |random: &mut Random| any(random).wrong_length(random, change_length);
        let wrong_bits = |random: &mut Random| any(random).wrong_bits(random);
        let bad_number = |random: &mut Random| decoded(random, &ACCESS).bad_number(random);
        all_are(41, 1000, wrong_length, "refused 1");
        all_are(41, 1000, sending_word, "refused 1");
        all_are(41, 1000, wrong_bits, "refused 2");
        all_are(41, 1000, wrong_flag, "refused 2");
        all_are(41, 1000, high_identity, "refused 3");
        all_are(41, 1000, bad_number, "?");
        all_are(41, 1000, wrong_word, "?");
    }

    #[test]
    fn each_channel_is_decoded_well_and_badly() {
        for channel in CHANNELS {
            let answers = answers(42, 50, |random| decoded(random, &channel).line());
            assert!(answers.iter().all(|answer| is_decoded(answer)));
            let good = answers.iter().filter(|answer| is_good(answer)).count();
            assert!(good > 10 && good < 45, "{} {}", channel.name, good);
        }
    }

    /// The bits of a line, and how many of them are missing.
    fn bits_and_missing(line: &[u8]) -> (&[u8], usize) {
        let bits = line.rsplit(|&byte| byte == b' ').next().unwrap();
        let missing = bits.iter().filter(|&&bit| bit == b'2').count();
        (bits, missing)
    }

    #[test]
    fn missing_bits_are_decoded_well_and_badly() {
        let lines = each(&mut Random::new(226), 900, with_missing);
        for channel in CHANNELS {
            let word = format!("{}? ", channel.name);
            let of_channel = lines
                .iter()
                .filter(|line| line.starts_with(word.as_bytes()));
            let (mut good, mut bad, mut all_missing) = (0, 0, 0);
            for line in of_channel {
                let (bits, missing) = bits_and_missing(line);
                let answer = answer(line);
                assert!(is_decoded(&answer), "{}", answer);
                good += usize::from(missing > 0 && is_good(&answer));
                bad += usize::from(missing > 0 && !is_good(&answer));
                // The flags of four bursts may have come.
                all_missing += usize::from(missing + 8 >= bits.len());
            }
            assert!(good > 20 && bad > 10 && all_missing > 2, "{}", word);
        }
    }

    #[test]
    fn one_in_four_of_the_decoded_lines_has_missing_bits() {
        let lines = each(&mut Random::new(227), 1000, |random| any(random).line());
        let lossy = lines.iter().filter(|line| bits_and_missing(line).1 > 0);
        let number = lossy.count();
        assert!((150..=350).contains(&number), "{}", number);
    }

    #[test]
    fn spoiled_parity_is_bad() {
        for channel in CHANNELS {
            let mut random = Random::new(43);
            let mut list = coded(&mut random, &channel, 7);
            spoil_parity(&mut random, &channel, &mut list);
            let list = as_sent(&mut random, &channel, list);
            let request = Request::receiving(&channel, b"7".to_vec(), text::characters(&list));
            assert_eq!(answer(&request.line()), "refused 8 0", "{}", channel.name);
        }
    }

    #[test]
    fn several_wrong_are_refused_in_each_way() {
        let answers = answers(44, 1000, several_wrong);
        for refusal in ["refused 1", "refused 2"] {
            assert!(times(&answers, refusal) > 100);
        }
    }

    #[test]
    fn lines_at_the_limit_are_refused_and_those_over_it_not_read() {
        let answers = answers(45, 200, |random| any(random).long_line(random));
        for expected in ["refused 1", "?"] {
            assert!(times(&answers, expected) > 50);
        }
    }

    #[test]
    fn more_than_half_of_the_lines_are_decoded() {
        let answers = answers(47, 200, line);
        assert!(answers.iter().filter(|answer| is_decoded(answer)).count() > 120);
    }
}
