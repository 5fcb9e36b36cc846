//! The five calls of the proved library desk, beside the independent reference. In every call it is
//! also looked at what must stay: the buffer that is read, the bytes around both buffers, and on a
//! refusal every byte of the buffer that would have been written. The call that writes nothing has a
//! file of its own, whose.rs.

// Only a part of the reference is asked here.
#![allow(dead_code)]
// Loops keep the index k of the standard.
#![allow(clippy::needless_range_loop, clippy::manual_memcpy)]

#[path = "../reference/chance/mod.rs"]
mod chance;
#[path = "../reference/model/mod.rs"]
mod model;
mod whose;

use chance::lists::{self, random_bits};
use chance::losses;
use chance::random::Random;
use model::bits::{add, bits_of};
use model::channel::{Channel, Received, ACCESS, CONTROL, NO_IDENTITY};
use model::coding::convolve;
use model::missing::MISSING;

/// The calls of desk.h, on slices.
mod library {
    #[link(name = "desk", kind = "static")]
    extern "C" {
        fn desk_send_access(id: u64, d: *const u8, d_len: usize, e: *mut u8, e_len: usize) -> u32;
        fn desk_receive_access(
            id: u64,
            e: *const u8,
            e_len: usize,
            d: *mut u8,
            d_len: usize,
        ) -> u32;
        fn desk_send_control(d: *const u8, d_len: usize, c: *mut u8, c_len: usize) -> u32;
        fn desk_receive_control(c: *const u8, c_len: usize, d: *mut u8, d_len: usize) -> u32;
        fn desk_whose_access(e: *const u8, e_len: usize) -> u32;
    }

    pub fn send_access(identity: u64, d: &[u8], e: &mut [u8]) -> u32 {
        // SAFETY: each address comes with the length of its own slice, no slice has a null address,
        // and a slice that is written overlaps no other.
        unsafe { desk_send_access(identity, d.as_ptr(), d.len(), e.as_mut_ptr(), e.len()) }
    }

    pub fn receive_access(identity: u64, e: &[u8], d: &mut [u8]) -> u32 {
        // SAFETY: as in send_access.
        unsafe { desk_receive_access(identity, e.as_ptr(), e.len(), d.as_mut_ptr(), d.len()) }
    }

    pub fn send_control(d: &[u8], c: &mut [u8]) -> u32 {
        // SAFETY: as in send_access.
        unsafe { desk_send_control(d.as_ptr(), d.len(), c.as_mut_ptr(), c.len()) }
    }

    pub fn receive_control(c: &[u8], d: &mut [u8]) -> u32 {
        // SAFETY: as in send_access.
        unsafe { desk_receive_control(c.as_ptr(), c.len(), d.as_mut_ptr(), d.len()) }
    }

    pub fn whose_access(e: &[u8]) -> u32 {
        // SAFETY: as in send_access.
        unsafe { desk_whose_access(e.as_ptr(), e.len()) }
    }
}

/// One of the four calls that write: a channel of the reference in one direction, and the library's
/// function; control looks at no identity.
struct Call {
    name: &'static str,
    channel: Channel,
    sends: bool,
    library: fn(u64, &[u8], &mut [u8]) -> u32,
}

const SEND_ACCESS: Call = Call {
    name: "send access",
    channel: ACCESS,
    sends: true,
    library: library::send_access,
};
const RECEIVE_ACCESS: Call = Call {
    name: "receive access",
    channel: ACCESS,
    sends: false,
    library: library::receive_access,
};
const SEND_CONTROL: Call = Call {
    name: "send control",
    channel: CONTROL,
    sends: true,
    library: |_, d, c| library::send_control(d, c),
};
const RECEIVE_CONTROL: Call = Call {
    name: "receive control",
    channel: CONTROL,
    sends: false,
    library: |_, c, d| library::receive_control(c, d),
};
const CALLS: [Call; 4] = [SEND_ACCESS, RECEIVE_ACCESS, SEND_CONTROL, RECEIVE_CONTROL];

impl Call {
    /// How many bytes are read, and how many are written.
    fn lengths(&self) -> (usize, usize) {
        let Channel { reads, writes, .. } = self.channel;
        if self.sends {
            (reads, writes)
        } else {
            (writes, reads)
        }
    }

    fn reads(&self) -> usize {
        self.lengths().0
    }

    fn writes(&self) -> usize {
        self.lengths().1
    }

    /// The highest byte that is read as a bit.
    fn highest(&self) -> u8 {
        if self.sends {
            1
        } else {
            MISSING
        }
    }

    /// What the reference makes of an input for so many lent bytes; a send counts nothing.
    fn reference(&self, identity: u64, input: &[u8], lent: usize) -> Received {
        if self.sends {
            let sent = self.channel.encode(identity, input, lent)?;
            Ok((0, sent))
        } else {
            self.channel.decode(identity, input, lent)
        }
    }

    /// A random block that is sent or received well, and the identity for it.
    fn good_input(&self, random: &mut Random) -> (u64, Vec<u8>) {
        let (identity, d, sent) = block(random, &self.channel);
        (identity, if self.sends { d } else { sent })
    }
}

/// The number and the count in an answer, and every byte that the lent buffer is left with.
#[derive(Debug, PartialEq)]
struct Outcome {
    number: u32,
    count: u32,
    left: Vec<u8>,
}

/// Number 0: the count, and the bits written.
fn good(count: usize, bits: &[u8]) -> Outcome {
    Outcome {
        number: 0,
        count: count as u32,
        left: bits.to_vec(),
    }
}

/// A refusal: the buffer is left as it was before.
fn refused(number: u8, count: usize, before: &[u8]) -> Outcome {
    Outcome {
        number: u32::from(number),
        count: count as u32,
        left: before.to_vec(),
    }
}

/// So many bytes stand before and behind each lent buffer.
const MARGIN: usize = 16;

/// The bytes within margins.
fn framed(bytes: &[u8]) -> Vec<u8> {
    [&[0xa5; MARGIN], bytes, &[0xa5; MARGIN]].concat()
}

/// What the library makes of an input and of a buffer that holds these bytes before.
fn outcome(call: &Call, identity: u64, input: &[u8], before: &[u8]) -> Outcome {
    let (read, mut lent) = (framed(input), framed(before));
    let (first, last) = (MARGIN + input.len(), MARGIN + before.len());
    let answer = (call.library)(identity, &read[MARGIN..first], &mut lent[MARGIN..last]);
    let left = lent[MARGIN..last].to_vec();
    assert_eq!(read, framed(input), "{}: what is read stays", call.name);
    assert_eq!(lent, framed(&left), "{}: the margins stay", call.name);
    Outcome {
        // These calls name no identity, so that nothing stands above the number.
        number: answer / 65_536,
        count: answer % 65_536,
        left,
    }
}

/// What the reference makes of them.
fn expected(call: &Call, identity: u64, input: &[u8], before: &[u8]) -> Outcome {
    match call.reference(identity, input, before.len()) {
        Ok((count, bits)) => good(count, &bits),
        Err(refusal) => refused(refusal.number(), refusal.count().unwrap_or(0), before),
    }
}

/// Arbitrary bytes, none of them a bit or missing.
fn noise(random: &mut Random, length: usize) -> Vec<u8> {
    (0..length).map(|_| 3 + random.below(253) as u8).collect()
}

/// The library makes this of an input, whatever non-bits the buffer holds before.
fn gives(random: &mut Random, call: &Call, identity: u64, input: &[u8], count: usize, d: &[u8]) {
    let before = noise(random, call.writes());
    let got = outcome(call, identity, input, &before);
    assert_eq!(got, good(count, d), "{} {}", call.name, identity);
}

/// The library refuses an input and leaves the buffer.
fn refuses(
    random: &mut Random,
    call: &Call,
    identity: u64,
    input: &[u8],
    number: u8,
    count: usize,
) {
    let before = noise(random, call.writes());
    let got = outcome(call, identity, input, &before);
    let want = refused(number, count, &before);
    assert_eq!(got, want, "{} {} {:?}", call.name, identity, input);
}

/// The library and the reference make the same of an input.
fn agrees(random: &mut Random, call: &Call, identity: u64, input: &[u8]) {
    let before = noise(random, call.writes());
    assert_eq!(
        outcome(call, identity, input, &before),
        expected(call, identity, input, &before),
        "{} {} {:?}",
        call.name,
        identity,
        input
    );
}

/// A random identity of a base station.
fn any_identity(random: &mut Random) -> u64 {
    random.below(64) as u64
}

/// Identities that more than a byte is needed for. Some of them are 0 or 7 to one who keeps six,
/// eight or thirty-two bits; the negative ones are as C passes an int.
fn wide_identities() -> Vec<u64> {
    let large = [256, 263, 1 << 32, (1 << 32) + 7, 1 << 63, u64::MAX];
    let negative = [-1, -7, 7 - 64, 7 - 256, i32::MIN];
    let passed = negative.map(|identity| i64::from(identity) as u64);
    large.into_iter().chain(passed).collect()
}

/// Any number in the place of an identity, often one over 63.
fn any_number(random: &mut Random) -> u64 {
    if random.one_in(4) {
        random.pick(&wide_identities())
    } else {
        random.below(256) as u64
    }
}

/// A random block of a channel: an identity, its bits, the bits that are sent.
fn block(random: &mut Random, channel: &Channel) -> (u64, Vec<u8>, Vec<u8>) {
    let identity = any_identity(random);
    let d = random_bits(random, channel.reads);
    let sent = channel.encode(identity, &d, channel.writes);
    (identity, d, sent.unwrap())
}

/// A random access block: its identity, its bits, its coded bits.
fn access_block(random: &mut Random) -> (u64, Vec<u8>, Vec<u8>) {
    block(random, &ACCESS)
}

/// A random control block: its bits, its coded bits.
fn control_block(random: &mut Random) -> (Vec<u8>, Vec<u8>) {
    let (_, d, c) = block(random, &CONTROL);
    (d, c)
}

/// The list with the bits at the indices turned over.
fn turned(list: &[u8], indices: &[usize]) -> Vec<u8> {
    let mut list = list.to_vec();
    for &k in indices {
        list[k] = 1 - list[k];
    }
    list
}

/// The list with the bits at the indices missing.
fn lost(list: &[u8], indices: &[usize]) -> Vec<u8> {
    let mut list = list.to_vec();
    for &k in indices {
        list[k] = MISSING;
    }
    list
}

/// Every way of choosing at most three of so many indices.
fn up_to_three_of(length: usize) -> Vec<Vec<usize>> {
    let mut ways = vec![vec![]];
    for a in 0..length {
        ways.push(vec![a]);
        for b in 0..a {
            ways.push(vec![a, b]);
            ways.extend((0..b).map(|c| vec![a, b, c]));
        }
    }
    ways
}

#[test]
fn every_access_block_is_sent_and_comes_back() {
    let mut random = Random::new(101);
    for identity in 0..64 {
        for number in 0..256 {
            let d = bits_of(number, 8);
            let e = ACCESS.encode(identity, &d, 36).unwrap();
            gives(&mut random, &SEND_ACCESS, identity, &d, 0, &e);
            gives(&mut random, &RECEIVE_ACCESS, identity, &e, 0, &d);
        }
    }
}

#[test]
fn control_blocks_are_sent_and_come_back() {
    let mut random = Random::new(102);
    let single_ones = (0..184).map(|k| turned(&[0; 184], &[k]));
    let mut blocks: Vec<Vec<u8>> = single_ones.collect();
    blocks.extend([vec![0; 184], vec![1; 184]]);
    blocks.extend((0..600).map(|_| random_bits(&mut random, 184)));
    for d in blocks {
        let c = CONTROL.encode(NO_IDENTITY, &d, 456).unwrap();
        gives(&mut random, &SEND_CONTROL, 0, &d, 0, &c);
        gives(&mut random, &RECEIVE_CONTROL, 0, &c, 0, &d);
    }
}

#[test]
fn access_is_repaired_wherever_up_to_three_bits_are_altered() {
    let mut random = Random::new(103);
    for altered in up_to_three_of(36) {
        let (identity, d, e) = access_block(&mut random);
        let (damaged, count) = (turned(&e, &altered), altered.len());
        let other = (identity + 1 + random.below(63) as u64) % 64;
        gives(&mut random, &RECEIVE_ACCESS, identity, &damaged, count, &d);
        refuses(&mut random, &RECEIVE_ACCESS, other, &damaged, 8, count);
    }
}

#[test]
fn access_is_taken_under_its_own_identity_only() {
    let mut random = Random::new(104);
    for sample in 0..200 {
        let altered = sample % 4;
        let (own, d, mut e) = access_block(&mut random);
        lists::alter(&mut random, &mut e, altered);
        for identity in 0..64 {
            if identity == own {
                gives(&mut random, &RECEIVE_ACCESS, own, &e, altered, &d);
            } else {
                refuses(&mut random, &RECEIVE_ACCESS, identity, &e, 8, altered);
            }
        }
    }
}

#[test]
fn control_is_repaired_with_any_one_bit_altered() {
    let mut random = Random::new(105);
    for k in 0..456 {
        let (d, c) = control_block(&mut random);
        let damaged = turned(&c, &[k]);
        gives(&mut random, &RECEIVE_CONTROL, 0, &damaged, 1, &d);
    }
}

#[test]
fn control_is_repaired_with_two_or_three_bits_altered() {
    let mut random = Random::new(106);
    for sample in 0..800 {
        let altered = 2 + sample % 2;
        let (d, mut c) = control_block(&mut random);
        lists::alter(&mut random, &mut c, altered);
        gives(&mut random, &RECEIVE_CONTROL, 0, &c, altered, &d);
    }
}

#[test]
fn access_beyond_three_altered_bits_is_as_the_reference_says() {
    let mut random = Random::new(107);
    for altered in 4..=36 {
        for _ in 0..12 {
            let (own, _, mut e) = access_block(&mut random);
            let other = any_identity(&mut random);
            lists::alter(&mut random, &mut e, altered);
            agrees(&mut random, &RECEIVE_ACCESS, own, &e);
            agrees(&mut random, &RECEIVE_ACCESS, other, &e);
        }
    }
}

#[test]
fn control_beyond_three_altered_bits_is_as_the_reference_says() {
    let mut random = Random::new(108);
    let many = [50, 60, 80, 100, 150, 200, 228, 300, 400, 455, 456];
    for altered in (4..=40).chain(many) {
        for _ in 0..3 {
            let (_, mut c) = control_block(&mut random);
            lists::alter(&mut random, &mut c, altered);
            agrees(&mut random, &RECEIVE_CONTROL, 0, &c);
        }
    }
}

/// Lists that are near no block, or as near to one as to another; n is the length of u.
fn far_lists(random: &mut Random, n: usize, coded: Vec<u8>) -> Vec<Vec<u8>> {
    let mut midway = coded;
    lists::move_midway(random, &mut midway, n);
    vec![
        midway,
        random_bits(random, 2 * n),
        random_bits(random, 2 * n),
        lists::few_turned(random, 2 * n),
        lists::pattern(random, 2 * n),
    ]
}

#[test]
fn any_36_bits_are_received_as_the_reference_says() {
    let mut random = Random::new(109);
    for _ in 0..150 {
        let (own, _, coded) = access_block(&mut random);
        for e in far_lists(&mut random, 18, coded) {
            let other = any_identity(&mut random);
            agrees(&mut random, &RECEIVE_ACCESS, own, &e);
            agrees(&mut random, &RECEIVE_ACCESS, other, &e);
        }
    }
}

#[test]
fn any_456_bits_are_received_as_the_reference_says() {
    let mut random = Random::new(110);
    for _ in 0..30 {
        let (_, coded) = control_block(&mut random);
        for c in far_lists(&mut random, 228, coded) {
            agrees(&mut random, &RECEIVE_CONTROL, 0, &c);
        }
    }
}

#[test]
fn access_is_repaired_wherever_up_to_six_bits_are_missing() {
    let mut random = Random::new(125);
    for first in up_to_three_of(36) {
        let (identity, d, e) = access_block(&mut random);
        let mut lossy = lost(&e, &first);
        // Others besides, of which some may be missing already.
        lists::lose(&mut random, &mut lossy, 6 - first.len());
        let other = (identity + 1 + random.below(63) as u64) % 64;
        gives(&mut random, &RECEIVE_ACCESS, identity, &lossy, 0, &d);
        refuses(&mut random, &RECEIVE_ACCESS, other, &lossy, 8, 0);
    }
}

#[test]
fn blocks_are_repaired_up_to_six_of_twice_the_altered_and_the_missing_bits() {
    let mut random = Random::new(126);
    for call in [&RECEIVE_ACCESS, &RECEIVE_CONTROL] {
        for altered in 0..=3 {
            for missing in 0..=6 - 2 * altered {
                for _ in 0..40 {
                    let (identity, d, mut e) = block(&mut random, &call.channel);
                    lists::alter_and_lose(&mut random, &mut e, altered, missing);
                    gives(&mut random, call, identity, &e, altered, &d);
                }
            }
        }
    }
}

#[test]
fn what_is_missing_of_a_block_is_as_the_reference_says() {
    let mut random = Random::new(127);
    for call in [&RECEIVE_ACCESS, &RECEIVE_CONTROL] {
        for weight in (1..=16).chain([20, 30, 45, 60]) {
            for _ in 0..3 {
                let (own, _, mut e) = block(&mut random, &call.channel);
                losses::damage(&mut random, &mut e, weight);
                let other = any_identity(&mut random);
                agrees(&mut random, call, own, &e);
                agrees(&mut random, call, other, &e);
            }
        }
    }
}

#[test]
fn what_is_missing_of_any_bits_is_as_the_reference_says() {
    let mut random = Random::new(128);
    for (call, times) in [(&RECEIVE_ACCESS, 150), (&RECEIVE_CONTROL, 30)] {
        for _ in 0..times {
            let (own, _, coded) = block(&mut random, &call.channel);
            let mut lists = far_lists(&mut random, call.channel.pairs, coded.clone());
            lists.push(coded);
            for mut e in lists {
                losses::lose_some(&mut random, &mut e);
                agrees(&mut random, call, own, &e);
            }
        }
    }
}

#[test]
fn where_all_bits_are_missing_zeros_are_received() {
    let mut random = Random::new(129);
    refuses(&mut random, &RECEIVE_CONTROL, 0, &[MISSING; 456], 8, 0);
    gives(&mut random, &RECEIVE_ACCESS, 63, &[MISSING; 36], 0, &[0; 8]);
    for identity in 0..63 {
        refuses(&mut random, &RECEIVE_ACCESS, identity, &[MISSING; 36], 8, 0);
    }
}

#[test]
fn each_control_parity_bit_counts() {
    let mut random = Random::new(111);
    for k in 184..224 {
        let (_, mut c) = control_block(&mut random);
        add(&mut c, &convolve(&turned(&[0; 228], &[k])));
        refuses(&mut random, &RECEIVE_CONTROL, 0, &c, 8, 0);
    }
}

/// Lengths other than the right one: all up to 600, and those that a byte or two would cut to it.
fn wrong_lengths(right: usize) -> Vec<usize> {
    let cut = [256, 512, 1024, 65_536, 131_072].map(|more| right + more);
    (0..=600).filter(|&k| k != right).chain(cut).collect()
}

/// The call refuses these lengths, whether the input holds bits or none.
fn refuses_lengths(random: &mut Random, call: &Call, reads: usize, writes: usize) {
    let identity = any_number(random);
    let before = noise(random, writes);
    for input in [random_bits(random, reads), noise(random, reads)] {
        let got = outcome(call, identity, &input, &before);
        let want = refused(1, 0, &before);
        assert_eq!(got, want, "{} {} {}", call.name, reads, writes);
    }
}

#[test]
fn wrong_lengths_are_refused() {
    let mut random = Random::new(112);
    for call in &CALLS {
        for reads in wrong_lengths(call.reads()) {
            refuses_lengths(&mut random, call, reads, call.writes());
        }
        for writes in wrong_lengths(call.writes()) {
            refuses_lengths(&mut random, call, call.reads(), writes);
        }
    }
}

#[test]
fn two_wrong_lengths_are_refused() {
    let mut random = Random::new(113);
    for call in &CALLS {
        refuses_lengths(&mut random, call, call.writes(), call.reads());
        for reads in wrong_lengths(call.reads()) {
            // A sum of both that looks right, the same length twice, and any other.
            let sum = (call.reads() + call.writes()).saturating_sub(reads);
            for writes in [sum, reads, random.below(601)] {
                if writes != call.writes() {
                    refuses_lengths(&mut random, call, reads, writes);
                }
            }
        }
    }
}

#[test]
fn a_byte_over_the_highest_is_refused_at_each_index() {
    let mut random = Random::new(114);
    for call in &CALLS {
        for k in 0..call.reads() {
            let any = 3 + random.below(253) as u8;
            for wrong in [call.highest() + 1, 3, 127, 128, 129, 130, 254, 255, any] {
                let mut input = random_bits(&mut random, call.reads());
                input[k] = wrong;
                let identity = any_number(&mut random);
                refuses(&mut random, call, identity, &input, 2, 0);
            }
        }
    }
}

#[test]
fn every_byte_over_the_highest_is_refused() {
    let mut random = Random::new(115);
    for call in &CALLS {
        for wrong in call.highest() + 1..=255 {
            let mut input = random_bits(&mut random, call.reads());
            input[random.below(call.reads())] = wrong;
            let identity = any_identity(&mut random);
            refuses(&mut random, call, identity, &input, 2, 0);
            refuses(
                &mut random,
                call,
                identity,
                &vec![wrong; call.reads()],
                2,
                0,
            );
        }
    }
}

/// Numbers that are this identity in their lowest bits; the last is as C passes a negative int.
fn over_63(own: u64) -> Vec<u64> {
    let more = [64, 128, 192, 1 << 8, 1 << 16, 1 << 32, 1 << 63];
    let passed = more.map(|more| own + more);
    passed.into_iter().chain([own.wrapping_sub(64)]).collect()
}

#[test]
fn identities_over_63_are_refused() {
    let mut random = Random::new(116);
    for identity in (0..=255).chain(wide_identities()) {
        let (own, d, e) = access_block(&mut random);
        if identity > 63 {
            refuses(&mut random, &SEND_ACCESS, identity, &d, 3, 0);
            refuses(&mut random, &RECEIVE_ACCESS, identity, &e, 3, 0);
        } else {
            agrees(&mut random, &SEND_ACCESS, identity, &d);
            agrees(&mut random, &RECEIVE_ACCESS, identity, &e);
        }
        // Neither does the identity that it was sent to help, in the lowest bits of another.
        for high in over_63(own) {
            refuses(&mut random, &SEND_ACCESS, high, &d, 3, 0);
            refuses(&mut random, &RECEIVE_ACCESS, high, &e, 3, 0);
        }
    }
}

/// Makes an input wrong in one of these ways or in both: by one bit more, or by this byte.
fn spoil(random: &mut Random, input: &mut Vec<u8>, length: bool, bits: bool, wrong: u8) {
    if bits {
        let k = random.below(input.len());
        input[k] = wrong;
    }
    if length {
        input.push(random.below(2) as u8);
    }
}

/// The lowest number of what is wrong; nothing if all is right.
fn lowest(length: bool, bits: bool, identity: bool) -> Option<u8> {
    let wrongs = [(length, 1), (bits, 2), (identity, 3)];
    wrongs.iter().find(|wrong| wrong.0).map(|wrong| wrong.1)
}

/// Of a good input the call gives the lowest number of what is then wrong: the length that is read,
/// the length that is lent, the bits, or the identity.
fn gives_the_lowest(
    random: &mut Random,
    call: &Call,
    good: &[u8],
    wrong: [bool; 3],
    identity: u64,
) {
    let [read, lent, bits] = wrong;
    let mut input = good.to_vec();
    let byte = random.pick(&[call.highest() + 1, 128, 255]);
    spoil(random, &mut input, read, bits, byte);
    let before = noise(random, call.writes() + usize::from(lent));
    let got = outcome(call, identity, &input, &before);
    let high = identity > 63 && call.channel.has_identity;
    match lowest(read || lent, bits, high) {
        Some(number) => assert_eq!(got, refused(number, 0, &before), "{}", call.name),
        None => assert_eq!(got, expected(call, identity, &input, &before)),
    }
}

#[test]
fn of_several_refusals_the_lowest_is_given() {
    let mut random = Random::new(117);
    for call in &CALLS {
        for ways in 0..8 {
            let wrong = [1, 2, 4].map(|way| ways & way != 0);
            let (own, input) = call.good_input(&mut random);
            let identities = [vec![own], over_63(own), wide_identities()].concat();
            for identity in identities {
                gives_the_lowest(&mut random, call, &input, wrong, identity);
            }
        }
    }
}

#[test]
fn a_good_answer_writes_every_byte_whatever_stood_there() {
    let mut random = Random::new(118);
    for call in &CALLS {
        let (identity, input) = call.good_input(&mut random);
        let answer = call.reference(identity, &input, call.writes());
        let (_, bits) = answer.unwrap();
        for fill in 0..=255 {
            let before = vec![fill; call.writes()];
            let got = outcome(call, identity, &input, &before);
            assert_eq!(got, good(0, &bits), "{} over {}", call.name, fill);
        }
    }
}

#[test]
fn a_call_keeps_nothing_for_the_next() {
    let mut random = Random::new(119);
    for _ in 0..100 {
        let call = &CALLS[random.below(4)];
        let (identity, input) = call.good_input(&mut random);
        let first = outcome(call, identity, &input, &vec![2; call.writes()]);
        let between = &CALLS[random.below(4)];
        let wrong = noise(&mut random, between.reads());
        refuses(&mut random, between, u64::MAX, &wrong, 2, 0);
        let again = outcome(call, identity, &input, &vec![255; call.writes()]);
        assert_eq!(first, again, "{}", call.name);
    }
}

#[test]
fn handbook_456_zeros_have_bad_parity() {
    let mut random = Random::new(120);
    refuses(&mut random, &RECEIVE_CONTROL, 0, &[0; 456], 8, 0);
}

#[test]
fn handbook_36_zeros_are_for_identity_63() {
    let mut random = Random::new(121);
    gives(&mut random, &SEND_ACCESS, 63, &[0; 8], 0, &[0; 36]);
    gives(&mut random, &RECEIVE_ACCESS, 63, &[0; 36], 0, &[0; 8]);
    for identity in 0..63 {
        refuses(&mut random, &RECEIVE_ACCESS, identity, &[0; 36], 8, 0);
        agrees(&mut random, &RECEIVE_ACCESS, identity, &[0; 36]);
    }
}

#[test]
fn handbook_four_altered_bits_are_beyond_the_promise() {
    let mut random = Random::new(122);
    let received = turned(&[0; 36], &[0, 1, 3, 6]);
    refuses(&mut random, &RECEIVE_ACCESS, 63, &received, 8, 3);
    agrees(&mut random, &RECEIVE_ACCESS, 63, &received);
}

#[test]
fn handbook_colour_bits_under_identity_0() {
    let mut random = Random::new(123);
    // u is d, the colour bits, four zeros.
    let zeros = [&[0; 8][..], &[1, 1, 1, 1, 1, 1], &[0; 4]].concat();
    let last_one = [&[0, 0, 0, 0, 0, 0, 0, 1][..], &[0, 1, 0, 0, 0, 0], &[0; 4]].concat();
    for u in [zeros, last_one] {
        let e = convolve(&u);
        gives(&mut random, &SEND_ACCESS, 0, &u[..8], 0, &e);
        gives(&mut random, &RECEIVE_ACCESS, 0, &e, 0, &u[..8]);
    }
}

#[test]
fn handbook_identity_63_passes_and_64_is_refused() {
    let mut random = Random::new(124);
    let e = ACCESS.encode(63, &[1; 8], 36).unwrap();
    gives(&mut random, &SEND_ACCESS, 63, &[1; 8], 0, &e);
    gives(&mut random, &RECEIVE_ACCESS, 63, &e, 0, &[1; 8]);
    refuses(&mut random, &SEND_ACCESS, 64, &[1; 8], 3, 0);
    refuses(&mut random, &RECEIVE_ACCESS, 64, &e, 3, 0);
}
