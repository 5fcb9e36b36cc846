//! What is received: bits, and 2 where a bit never came. 02, M-102

/// The byte in the place of a bit that is missing.
pub const MISSING: u8 = 2;

/// A coded bit disagrees with the byte received in its place; nothing disagrees with a missing one.
pub fn disagrees(coded: u8, received: u8) -> bool {
    received != MISSING && received != coded
}

/// What an unprotected byte is given as: a bit as received, a missing one as 0.
pub fn given_as(received: u8) -> u8 {
    match received {
        MISSING => 0,
        bit => bit,
    }
}

/// A received bit turned over; a missing one stays missing.
pub fn turned_over(received: u8) -> u8 {
    match received {
        MISSING => MISSING,
        bit => 1 - bit,
    }
}

#[cfg(test)]
mod tests {
    use super::*;

    #[test]
    fn a_missing_bit_disagrees_with_nothing() {
        for coded in [0, 1] {
            assert!(!disagrees(coded, coded));
            assert!(disagrees(coded, 1 - coded));
            assert!(!disagrees(coded, MISSING));
        }
    }

    #[test]
    fn a_missing_bit_is_given_as_0() {
        assert_eq!([0, 1, 2].map(given_as), [0, 1, 0]);
    }

    #[test]
    fn a_missing_bit_is_not_turned_over() {
        assert_eq!([0, 1, 2].map(turned_over), [1, 0, 2]);
    }
}
