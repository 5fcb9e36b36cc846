//! The entries of the reference that host/speed/speed counts: NAME CALLS calls one of them so many
//! times. Takes are those of the first bursts of a stream. What is decoded must be what was encoded.

// Only a part of the reference is asked here.
#![allow(dead_code)]
// Loops keep the index k of the standard.
#![allow(clippy::needless_range_loop, clippy::manual_memcpy)]

#[path = "../reference/model/mod.rs"]
mod model;

use model::burst::Interleaving;
use model::channel::{self, Channel, ACCESS};
use model::coding::convolve;
use model::frame::{self, CONTROL_BITS, DATA_BITS, TYPES};
use model::hub::{Hub, PLACES};
use model::marking::{self, Mark};
use model::receiving_stream::{Receiver, Taken};
use model::sending_stream::{sent_and_ended, Sender};
use model::whose::whose;
use std::process::ExitCode;
use std::slice::from_ref;

/// The base station of access; other channels look at no identity.
const IDENTITY: u64 = 7;

/// Bits in no order that the coding knows.
fn bits(length: usize) -> Vec<u8> {
    let powers = std::iter::successors(Some(75_u32), |x| Some(x * 75 % 65_537));
    powers.take(length).map(|x| (x % 2) as u8).collect()
}

/// What the last of so many calls gives.
fn repeat<T>(calls: usize, mut call: impl FnMut() -> T) -> T {
    let mut given = call();
    for _ in 1..calls {
        given = call();
    }
    given
}

/// Whether a block is encoded so many times.
fn encode(channel: &Channel, calls: usize) -> bool {
    let d = bits(channel.reads);
    repeat(calls, || channel.encode(IDENTITY, &d, channel.writes)).is_ok()
}

/// Whether a block comes back, decoded so many times.
fn decode(channel: &Channel, calls: usize) -> bool {
    let d = bits(channel.reads);
    let sent = channel.encode(IDENTITY, &d, channel.writes).unwrap();
    repeat(calls, || channel.decode(IDENTITY, &sent, channel.reads)) == Ok((0, d))
}

/// Whether the identity that an access burst was sent to is named, so many times.
fn name_sender(calls: usize) -> bool {
    let sent = ACCESS.encode(IDENTITY, &bits(8), 36).unwrap();
    repeat(calls, || whose(&sent)) == Ok((IDENTITY, 0))
}

/// A hub at which so many identities were enrolled, from this one on; 0 comes after 63.
fn filled(first: u64, kits: usize) -> Hub {
    let mut hub = Hub::fresh();
    for identity in (0..64).cycle().skip(first as usize).take(kits) {
        hub.enrol(identity).unwrap();
    }
    hub
}

/// Whether so many kits more are enrolled, up to the last place.
fn enrol(calls: usize) -> bool {
    let mut hub = filled(0, PLACES - 3);
    let mut identity = (PLACES - 3) as u64..;
    repeat(calls, || hub.enrol(identity.next().unwrap())).is_ok()
}

/// Whether so many kits are removed, down from the last place.
fn remove(calls: usize) -> bool {
    let mut hub = filled(0, PLACES);
    let mut places = (0..PLACES).rev();
    repeat(calls, || hub.remove(places.next().unwrap())).is_ok()
}

/// Whether a burst is given to this place, or to none, so many times: at the places stand the
/// identities from the first on.
fn hear(first: u64, place: Option<usize>, calls: usize) -> bool {
    let hub = filled(first, PLACES);
    let sent = ACCESS.encode(IDENTITY, &bits(8), 36).unwrap();
    let heard = repeat(calls, || hub.hear(&sent, 8));
    heard.ok().map(|(place, _, _)| place) == place
}

/// Whether a block gets yes, so many times: one of its coded bits is altered.
fn mark(channel: &Channel, calls: usize) -> bool {
    let mut u = bits(channel.pairs);
    u[channel.pairs - 4..].fill(0);
    let mut e = convolve(&u);
    e[5] = 1 - e[5];
    e.resize(channel.writes, 0);
    repeat(calls, || marking::mark(channel, &e, &u, 1)) == Ok(Mark::Yes)
}

/// The control bits and the bits of speech of a frame.
fn carried() -> (Vec<u8>, Vec<u8>) {
    let mut c = TYPES[0].to_vec();
    c.resize(CONTROL_BITS, 0);
    (c, bits(DATA_BITS))
}

/// Whether a frame is written so many times.
fn write_frame(calls: usize) -> bool {
    let (c, d) = carried();
    repeat(calls, || frame::written(&c, &d)).is_ok()
}

/// Whether a frame is read so many times, as it was written.
fn read_frame(calls: usize) -> bool {
    let (c, d) = carried();
    let octets = frame::written(&c, &d).unwrap();
    repeat(calls, || frame::read(&octets)) == Ok((c, d))
}

/// Whether a stream sends so many blocks.
fn send(calls: usize, length: usize) -> bool {
    let d = bits(length);
    let mut sender = Sender::fresh();
    repeat(calls, || sender.send(&d, 464)).is_ok()
}

/// The eight bursts of a block, as they are sent.
fn as_sent(block: &Vec<u8>) -> Vec<Vec<u8>> {
    sent_and_ended(from_ref(block))
}

/// The same with four flags that are 1, so that FACCH is tried before speech.
fn tied(block: &Vec<u8>) -> Vec<Vec<u8>> {
    let mut bursts = as_sent(block);
    Interleaving::Diagonal(0).put_flags(&mut bursts, &[1, 1, 1, 1, 0, 0, 0, 0]);
    bursts
}

/// How the bursts of a block come.
type Bursts = fn(&Vec<u8>) -> Vec<Vec<u8>>;

/// Whether so many of a block's eight bursts are taken: the eighth brings the block. The totals are
/// read after each where they are charted.
fn take(calls: usize, length: usize, bursts: Bursts, charted: bool) -> bool {
    let block = bits(length);
    let bursts = bursts(&block);
    let mut receiver = Receiver::fresh();
    let mut numbered = (0..).zip(&bursts);
    let mut drawn = 0;
    let mut take = |(number, e): (u16, &Vec<u8>)| {
        let taken = receiver.take(number, e, 260);
        if charted {
            let totals = receiver.totals();
            drawn += totals.speech + totals.facch + totals.refused + totals.counts;
        }
        taken
    };
    let next = || numbered.next().map(&mut take);
    let good = match repeat(calls, next) {
        Some(Ok(Taken::Waiting)) => calls < 8,
        Some(Ok(Taken::Good { d, .. })) => d == block,
        _ => false,
    };
    // Only the eighth burst adds to the totals.
    good && drawn <= 1
}

/// Whether there is an entry of this name, and its calls go well.
fn run(name: &str, calls: usize) -> bool {
    let (kind, call) = name.split_once('-').unwrap_or_default();
    match (kind, call, channel::named(kind.as_bytes())) {
        (_, "encode", Some(channel)) => encode(channel, calls),
        (_, "decode", Some(channel)) => decode(channel, calls),
        ("access", "whose", _) => name_sender(calls),
        ("frame", "write", _) => write_frame(calls),
        ("frame", "read", _) => read_frame(calls),
        ("hub", "enrol", _) => enrol(calls),
        ("hub", "remove", _) => remove(calls),
        ("hub", "hear-first", _) => hear(IDENTITY, Some(0), calls),
        ("hub", "hear-last", _) => hear(IDENTITY + 35, Some(PLACES - 1), calls),
        ("hub", "hear-none", _) => hear(IDENTITY + 1, None, calls),
        ("mark", word, _) => {
            marking::marked(word.as_bytes()).map_or(false, |channel| mark(channel, calls))
        }
        ("send", "speech", _) => send(calls, 260),
        ("send", "facch", _) => send(calls, 184),
        ("take", "speech", _) => take(calls, 260, as_sent, false),
        ("take", "facch", _) => take(calls, 184, as_sent, false),
        ("take", "tie", _) => take(calls, 260, tied, false),
        ("take", "charted", _) => take(calls, 260, as_sent, true),
        _ => false,
    }
}

fn main() -> ExitCode {
    let arguments: Vec<String> = std::env::args().collect();
    let calls = arguments.get(2).and_then(|word| word.parse().ok());
    match (arguments.get(1), calls) {
        (Some(name), Some(calls)) if run(name, calls) => ExitCode::SUCCESS,
        _ => {
            eprintln!("no such entry, or what is decoded is not what was encoded");
            ExitCode::FAILURE
        }
    }
}
