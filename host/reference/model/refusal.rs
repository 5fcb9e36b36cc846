//! The numbers given for a no, and the checks that every entry begins with.

use crate::model::missing::MISSING;

/// Why a call is refused. Where several apply: 1, 2, 3, 7, 5, 4, 6, 9, 8, 10; at the hub 1, 2, 3, 14,
/// 15, 16, 17; of a frame 1, 2, 18, 19.
#[derive(Clone, Copy, Debug, PartialEq)]
pub enum Refusal {
    /// A lent buffer has another length than the table says.
    WrongLength,
    /// A byte that is read as a bit is over 1 where it is sent, or over 2 where it is received.
    NotABit,
    /// The identity is over 63.
    WrongIdentity,
    /// The burst number is not the next one.
    OutOfTurn,
    /// 16,383 blocks are sent, or burst 65,535 is taken.
    StreamFull,
    /// End with no block sent.
    NothingSent,
    /// Send or end after end.
    Ended,
    /// The parity is bad; the count is returned besides.
    BadParity { count: usize },
    /// As many of the eight flags are 1 as are 0, and the parity is bad as FACCH and as speech.
    EqualFlags,
    /// The parity of enhanced full rate is good and its CRC is bad; the count is returned besides.
    BadCrc { count: usize },
    /// The identity stands at a place of the hub already.
    IdentityTaken,
    /// All 30 places of the hub are in use.
    AllPlacesInUse,
    /// The place that is to be freed is empty, or over 29.
    EmptyPlace,
    /// No identity at the hub accepts the burst.
    NobodyAccepts,
    /// A sync bit or a fixed bit of the frame is wrong.
    BadSync,
    /// C1 to C5 of the frame are no full rate speech type.
    NotFullRate,
}

impl Refusal {
    /// The number given.
    pub fn number(self) -> u8 {
        match self {
            Refusal::WrongLength => 1,
            Refusal::NotABit => 2,
            Refusal::WrongIdentity => 3,
            Refusal::OutOfTurn => 4,
            Refusal::StreamFull => 5,
            Refusal::NothingSent => 6,
            Refusal::Ended => 7,
            Refusal::BadParity { .. } => 8,
            Refusal::EqualFlags => 9,
            Refusal::BadCrc { .. } => 10,
            Refusal::IdentityTaken => 14,
            Refusal::AllPlacesInUse => 15,
            Refusal::EmptyPlace => 16,
            Refusal::NobodyAccepts => 17,
            Refusal::BadSync => 18,
            Refusal::NotFullRate => 19,
        }
    }

    /// The count, where it is returned besides.
    pub fn count(self) -> Option<usize> {
        match self {
            Refusal::BadParity { count } | Refusal::BadCrc { count } => Some(count),
            _ => None,
        }
    }
}

/// The checks of what is sent: each of its bytes is a bit.
pub fn check_sent(d: &[u8], right_lengths: bool) -> Result<(), Refusal> {
    check(d, 1, right_lengths)
}

/// The checks of what is received: each of its bytes is a bit, or missing.
pub fn check_received(e: &[u8], right_lengths: bool) -> Result<(), Refusal> {
    check(e, MISSING, right_lengths)
}

/// Refusal 1 for a wrong length, of what is read or of what is lent, then refusal 2 for a byte over
/// the highest.
fn check(bytes: &[u8], highest: u8, right_lengths: bool) -> Result<(), Refusal> {
    if !right_lengths {
        return Err(Refusal::WrongLength);
    }
    if bytes.iter().any(|&byte| byte > highest) {
        return Err(Refusal::NotABit);
    }
    Ok(())
}

/// Refusal 3 for an identity over 63.
pub fn check_identity(identity: u64) -> Result<(), Refusal> {
    if identity > 63 {
        return Err(Refusal::WrongIdentity);
    }
    Ok(())
}

#[cfg(test)]
mod tests {
    use super::Refusal::*;
    use super::*;

    #[test]
    fn the_fourteen_numbers_are_those_of_papers_01_and_02() {
        let refusals = [
            WrongLength,
            NotABit,
            WrongIdentity,
            OutOfTurn,
            StreamFull,
            NothingSent,
            Ended,
            BadParity { count: 3 },
            EqualFlags,
            BadCrc { count: 3 },
            IdentityTaken,
            AllPlacesInUse,
            EmptyPlace,
            NobodyAccepts,
        ];
        let numbers: Vec<u8> = refusals.iter().map(|refusal| refusal.number()).collect();
        assert_eq!(numbers, [1, 2, 3, 4, 5, 6, 7, 8, 9, 10, 14, 15, 16, 17]);
        // Of these, 8 and 10 return a count besides.
        for refusal in refusals {
            let count = [8, 10].contains(&refusal.number()).then_some(3);
            assert_eq!(refusal.count(), count);
        }
    }

    #[test]
    fn the_two_numbers_of_frames_are_those_of_paper_02() {
        let refusals = [BadSync, NotFullRate];
        assert_eq!(refusals.map(|refusal| refusal.number()), [18, 19]);
        assert_eq!(refusals.map(|refusal| refusal.count()), [None, None]);
    }

    #[test]
    fn the_length_comes_before_the_bytes() {
        for check in [check_sent, check_received] {
            assert_eq!(check(&[0, 3], false), Err(WrongLength));
            assert_eq!(check(&[0, 3], true), Err(NotABit));
            assert_eq!(check(&[0, 1], false), Err(WrongLength));
            assert_eq!(check(&[0, 1], true), Ok(()));
        }
    }

    #[test]
    fn what_is_received_may_be_missing_and_what_is_sent_may_not() {
        assert_eq!(check_sent(&[0, 2], true), Err(NotABit));
        assert_eq!(check_received(&[0, 2], true), Ok(()));
        for byte in 3..=255 {
            assert_eq!(check_sent(&[byte, 1], true), Err(NotABit));
            assert_eq!(check_received(&[byte, 1], true), Err(NotABit));
        }
    }

    #[test]
    fn identity_63_passes_and_64_is_refused() {
        assert_eq!(check_identity(63), Ok(()));
        assert_eq!(check_identity(64), Err(WrongIdentity));
        for identity in [65_535, 263, (1 << 32) + 7, u64::MAX] {
            assert_eq!(check_identity(identity), Err(WrongIdentity));
        }
    }
}
