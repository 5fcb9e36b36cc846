//! Blocks that are speech and FACCH at once: their coded bits are those of either.

use crate::chance::lists::random_bits;
use crate::chance::random::Random;
use crate::model::channel::{CONTROL, NO_IDENTITY, SPEECH};
use crate::model::polynomial::parity;
use crate::model::receiving::speech_bits;

/// The information bits of such a block, as speech and as FACCH.
pub fn block_of_both_kinds(random: &mut Random) -> (Vec<u8>, Vec<u8>) {
    loop {
        let facch = random_bits(random, CONTROL.reads);
        if let Some(speech) = as_speech(&facch) {
            return (speech, facch);
        }
    }
}

/// The speech that has the same coded bits as this FACCH. There is some for about one in 128:
/// u(185)..u(188) must be 0, and u(91)..u(93) the parity of speech.
fn as_speech(facch: &[u8]) -> Option<Vec<u8>> {
    let p = parity(facch, &(CONTROL.generator)());
    let c = CONTROL.coded(NO_IDENTITY, facch);
    let speech = speech_bits(&[facch, &p].concat(), &c);
    (SPEECH.coded(NO_IDENTITY, &speech) == c).then_some(speech)
}

#[cfg(test)]
mod tests {
    use super::*;

    #[test]
    fn a_block_of_both_kinds_is_good_as_either() {
        let mut random = Random::new(180);
        for _ in 0..10 {
            let (speech, facch) = block_of_both_kinds(&mut random);
            let c = SPEECH.coded(NO_IDENTITY, &speech);
            assert_eq!(CONTROL.coded(NO_IDENTITY, &facch), c);
            assert_eq!(SPEECH.decode(NO_IDENTITY, &c, 260), Ok((0, speech)));
            assert_eq!(CONTROL.decode(NO_IDENTITY, &c, 184), Ok((0, facch)));
        }
    }

    #[test]
    fn of_many_blocks_about_one_in_128_is_of_both_kinds() {
        let mut random = Random::new(181);
        let is_both = |_: &usize| as_speech(&random_bits(&mut random, 184)).is_some();
        let number = (0..12_800).filter(is_both).count();
        assert!((70..=130).contains(&number), "{}", number);
    }
}
