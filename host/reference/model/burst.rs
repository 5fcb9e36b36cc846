//! Interleaving and mapping on bursts: where the coded bits and the flags of a block stand.

use crate::model::burst::Interleaving::{Diagonal, Rectangular};

/// A burst is e(0)..e(115).
pub const BURST: usize = 116;
/// What a stream writes at once.
pub const FOUR_BURSTS: usize = 4 * BURST;
/// e(57) is hl
const HL: usize = 57;
/// e(58) is hu
const HU: usize = 58;

/// The bursts that a block is spread over.
#[derive(Clone, Copy)]
pub enum Interleaving {
    /// Speech and FACCH, 3.1.3 and 3.1.4: block n of a stream, over bursts 4n..4n+7
    Diagonal(usize),
    /// SACCH, 4.1.4 and 4.1.5: over four bursts
    Rectangular,
}

/// B = k mod 8 for speech, k mod 4 for SACCH, counted from the block's first burst
/// j = 2((49k) mod 57) + ((k mod 8) div 4)
pub fn burst_and_place(k: usize, bursts: usize) -> (usize, usize) {
    (k % bursts, 2 * ((49 * k) % 57) + (k % 8) / 4)
}

/// Place j is e(j) for j up to 56 and e(j+2) from 57 on.
fn index(place: usize) -> usize {
    if place <= 56 {
        place
    } else {
        place + 2
    }
}

/// Puts bit k where it belongs, for each k.
fn put(bursts: &mut [Vec<u8>], bits: &[u8], at: impl Fn(usize) -> (usize, usize)) {
    for k in 0..bits.len() {
        let (burst, index) = at(k);
        bursts[burst][index] = bits[k];
    }
}

/// So many bits, bit k picked from where it belongs.
fn pick(bursts: &[Vec<u8>], number: usize, at: impl Fn(usize) -> (usize, usize)) -> Vec<u8> {
    let picked = |(burst, index): (usize, usize)| bursts[burst][index];
    (0..number).map(|k| picked(at(k))).collect()
}

impl Interleaving {
    /// Bit k of block n goes to burst B = 4n + (k mod 8), that of SACCH to burst k mod 4.
    fn bit_at(self, k: usize) -> (usize, usize) {
        let (first, bursts) = match self {
            Diagonal(n) => (4 * n, 8),
            Rectangular => (0, 4),
        };
        let (burst, place) = burst_and_place(k, bursts);
        (first + burst, index(place))
    }

    /// The flags of block n are hu of bursts 4n..4n+3 and hl of bursts 4n+4..4n+7; those of SACCH
    /// are hl and hu of each burst.
    fn flag_at(self, m: usize) -> (usize, usize) {
        match self {
            Diagonal(n) => (4 * n + m, if m <= 3 { HU } else { HL }),
            Rectangular => (m / 2, if m % 2 == 0 { HL } else { HU }),
        }
    }

    /// Puts c(0)..c(455), each bit on its burst and place.
    pub fn put_bits(self, bursts: &mut [Vec<u8>], c: &[u8]) {
        put(bursts, c, |k| self.bit_at(k));
    }

    /// Puts the eight flags.
    pub fn put_flags(self, bursts: &mut [Vec<u8>], flags: &[u8]) {
        put(bursts, flags, |m| self.flag_at(m));
    }

    /// c(0)..c(455), each bit picked from its burst and place.
    pub fn bits(self, bursts: &[Vec<u8>]) -> Vec<u8> {
        pick(bursts, 456, |k| self.bit_at(k))
    }

    /// The eight flags.
    pub fn flags(self, bursts: &[Vec<u8>]) -> Vec<u8> {
        pick(bursts, 8, |m| self.flag_at(m))
    }
}

/// One run of bits cut into bursts.
pub fn cut(e: &[u8]) -> Vec<Vec<u8>> {
    e.chunks(BURST).map(|e| e.to_vec()).collect()
}

/// The coded bits on four bursts with these flags, in one run of 464 bits.
pub fn on_four_bursts(c: &[u8], flags: &[u8]) -> Vec<u8> {
    let mut bursts = vec![vec![0; BURST]; 4];
    Rectangular.put_bits(&mut bursts, c);
    Rectangular.put_flags(&mut bursts, flags);
    bursts.concat()
}

/// The coded bits of four bursts in one run; the flags are left out.
pub fn from_four_bursts(e: &[u8]) -> Vec<u8> {
    Rectangular.bits(&cut(e))
}

/// i(B, j) for j = 0..113, read back from e(B):
/// e(B, j) = i(B, j) and e(B, 59+j) = i(B, 57+j) for j = 0..56
#[cfg(test)]
pub fn places(e: &[u8]) -> Vec<u8> {
    [&e[..=56], &e[59..]].concat()
}

#[cfg(test)]
mod tests {
    use super::*;
    use crate::chance::lists::random_bits;
    use crate::chance::random::Random;
    use crate::model::bits::ones;

    /// Table 1 of document 000: row j = 0, 2, .. 112 and j = 1, 3, .. 113, column k mod 8.
    const TABLE_1: [[usize; 8]; 57] = [
        [0, 57, 114, 171, 228, 285, 342, 399],
        [64, 121, 178, 235, 292, 349, 406, 7],
        [128, 185, 242, 299, 356, 413, 14, 71],
        [192, 249, 306, 363, 420, 21, 78, 135],
        [256, 313, 370, 427, 28, 85, 142, 199],
        [320, 377, 434, 35, 92, 149, 206, 263],
        [384, 441, 42, 99, 156, 213, 270, 327],
        [448, 49, 106, 163, 220, 277, 334, 391],
        [56, 113, 170, 227, 284, 341, 398, 455],
        [120, 177, 234, 291, 348, 405, 6, 63],
        [184, 241, 298, 355, 412, 13, 70, 127],
        [248, 305, 362, 419, 20, 77, 134, 191],
        [312, 369, 426, 27, 84, 141, 198, 255],
        [376, 433, 34, 91, 148, 205, 262, 319],
        [440, 41, 98, 155, 212, 269, 326, 383],
        [48, 105, 162, 219, 276, 333, 390, 447],
        [112, 169, 226, 283, 340, 397, 454, 55],
        [176, 233, 290, 347, 404, 5, 62, 119],
        [240, 297, 354, 411, 12, 69, 126, 183],
        [304, 361, 418, 19, 76, 133, 190, 247],
        [368, 425, 26, 83, 140, 197, 254, 311],
        [432, 33, 90, 147, 204, 261, 318, 375],
        [40, 97, 154, 211, 268, 325, 382, 439],
        [104, 161, 218, 275, 332, 389, 446, 47],
        [168, 225, 282, 339, 396, 453, 54, 111],
        [232, 289, 346, 403, 4, 61, 118, 175],
        [296, 353, 410, 11, 68, 125, 182, 239],
        [360, 417, 18, 75, 132, 189, 246, 303],
        [424, 25, 82, 139, 196, 253, 310, 367],
        [32, 89, 146, 203, 260, 317, 374, 431],
        [96, 153, 210, 267, 324, 381, 438, 39],
        [160, 217, 274, 331, 388, 445, 46, 103],
        [224, 281, 338, 395, 452, 53, 110, 167],
        [288, 345, 402, 3, 60, 117, 174, 231],
        [352, 409, 10, 67, 124, 181, 238, 295],
        [416, 17, 74, 131, 188, 245, 302, 359],
        [24, 81, 138, 195, 252, 309, 366, 423],
        [88, 145, 202, 259, 316, 373, 430, 31],
        [152, 209, 266, 323, 380, 437, 38, 95],
        [216, 273, 330, 387, 444, 45, 102, 159],
        [280, 337, 394, 451, 52, 109, 166, 223],
        [344, 401, 2, 59, 116, 173, 230, 287],
        [408, 9, 66, 123, 180, 237, 294, 351],
        [16, 73, 130, 187, 244, 301, 358, 415],
        [80, 137, 194, 251, 308, 365, 422, 23],
        [144, 201, 258, 315, 372, 429, 30, 87],
        [208, 265, 322, 379, 436, 37, 94, 151],
        [272, 329, 386, 443, 44, 101, 158, 215],
        [336, 393, 450, 51, 108, 165, 222, 279],
        [400, 1, 58, 115, 172, 229, 286, 343],
        [8, 65, 122, 179, 236, 293, 350, 407],
        [72, 129, 186, 243, 300, 357, 414, 15],
        [136, 193, 250, 307, 364, 421, 22, 79],
        [200, 257, 314, 371, 428, 29, 86, 143],
        [264, 321, 378, 435, 36, 93, 150, 207],
        [328, 385, 442, 43, 100, 157, 214, 271],
        [392, 449, 50, 107, 164, 221, 278, 335],
    ];

    #[test]
    fn speech_bits_go_to_burst_and_place() {
        assert_eq!(burst_and_place(0, 8), (0, 0));
        assert_eq!(burst_and_place(1, 8), (1, 98));
        assert_eq!(burst_and_place(4, 8), (4, 51));
        assert_eq!(burst_and_place(8, 8), (0, 100));
        assert_eq!(burst_and_place(455, 8), (7, 17));
    }

    #[test]
    fn sacch_bits_go_to_burst_and_place() {
        assert_eq!(burst_and_place(4, 4), (0, 51));
        assert_eq!(burst_and_place(455, 4), (3, 17));
    }

    #[test]
    fn bits_go_where_the_handbook_says() {
        assert_eq!(Diagonal(0).bit_at(0), (0, 0));
        assert_eq!(Diagonal(0).bit_at(1), (1, 100));
        assert_eq!(Diagonal(0).bit_at(4), (4, 51));
        assert_eq!(Diagonal(0).bit_at(8), (0, 102));
        assert_eq!(Diagonal(0).bit_at(455), (7, 17));
        assert_eq!(Diagonal(3).bit_at(455), (19, 17));
        assert_eq!(Rectangular.bit_at(4), (0, 51));
        assert_eq!(Rectangular.bit_at(455), (3, 17));
    }

    #[test]
    fn bits_go_where_table_1_says() {
        for row in 0..=56 {
            for column in 0..=7 {
                let place = 2 * row + usize::from(column >= 4);
                let k = TABLE_1[row][column];
                assert_eq!(k % 8, column);
                for n in [0, 9] {
                    let expected = (4 * n + column, index(place));
                    assert_eq!(Diagonal(n).bit_at(k), expected, "k = {}", k);
                }
                let expected = (column % 4, index(place));
                assert_eq!(Rectangular.bit_at(k), expected, "k = {}", k);
            }
        }
    }

    #[test]
    fn places_leave_room_for_the_flags() {
        assert_eq!(index(0), 0);
        assert_eq!(index(56), 56);
        assert_eq!(index(57), 59);
        assert_eq!(index(98), 100);
        assert_eq!(index(113), 115);
        // i(B, j) is read back from where it was put.
        let e: Vec<u8> = (0..116).collect();
        let read: Vec<u8> = (0..114).map(|place| e[index(place)]).collect();
        assert_eq!(places(&e), read);
    }

    #[test]
    fn the_first_four_flags_of_a_block_are_hu_and_the_last_four_hl() {
        let at: Vec<(usize, usize)> = (0..=7).map(|m| Diagonal(2).flag_at(m)).collect();
        let first = [(8, 58), (9, 58), (10, 58), (11, 58)];
        let last = [(12, 57), (13, 57), (14, 57), (15, 57)];
        assert_eq!(at, [first, last].concat());
    }

    #[test]
    fn the_flags_of_four_bursts_are_hl_and_hu_of_each() {
        let e = on_four_bursts(&[0; 456], &[1, 0, 0, 1, 1, 1, 0, 0]);
        let flags: Vec<&[u8]> = e.chunks(BURST).map(|e| &e[57..=58]).collect();
        assert_eq!(flags, [[1, 0], [0, 1], [1, 1], [0, 0]]);
        assert_eq!(ones(&e), 4);
    }

    #[test]
    fn no_two_bits_share_a_place() {
        for spread in [Diagonal(0), Rectangular] {
            let flags = (0..=7).map(|m| spread.flag_at(m));
            let mut taken: Vec<(usize, usize)> =
                (0..=455).map(|k| spread.bit_at(k)).chain(flags).collect();
            taken.sort_unstable();
            taken.dedup();
            assert_eq!(taken.len(), 464);
        }
    }

    #[test]
    fn each_bit_of_the_bursts_between_belongs_to_one_block() {
        let mut owners = vec![vec![0; BURST]; 16];
        for n in 0..=2 {
            let bits = (0..=455).map(|k| Diagonal(n).bit_at(k));
            for (burst, index) in bits.chain((0..=7).map(|m| Diagonal(n).flag_at(m))) {
                owners[burst][index] += 1;
            }
        }
        // The first and the last four bursts are half idle.
        assert_eq!(owners[4..12].concat(), [1; 8 * BURST]);
        assert_eq!(owners[..4].concat().iter().sum::<usize>(), 4 * 58);
        assert_eq!(owners[12..].concat().iter().sum::<usize>(), 4 * 58);
    }

    #[test]
    fn one_sacch_bit_is_found_again() {
        let mut c = vec![0; 456];
        c[455] = 1;
        let e = on_four_bursts(&c, &[0; 8]);
        assert_eq!((e[3 * BURST + 17], ones(&e)), (1, 1));
        assert_eq!(from_four_bursts(&e), c);
    }

    /// The bits and the flags that are read back.
    fn read(spread: Interleaving, bursts: &[Vec<u8>]) -> (Vec<u8>, Vec<u8>) {
        (spread.bits(bursts), spread.flags(bursts))
    }

    #[test]
    fn bursts_are_read_back_and_nothing_else_is_touched() {
        let mut random = Random::new(60);
        for spread in [Diagonal(1), Rectangular] {
            let mut bursts = cut(&random_bits(&mut random, 16 * BURST));
            let others = |bursts: &[Vec<u8>]| match spread {
                Diagonal(_) => vec![read(Diagonal(0), bursts), read(Diagonal(2), bursts)],
                Rectangular => vec![read(Diagonal(1), bursts)],
            };
            let before = others(&bursts);
            let (c, flags) = (random_bits(&mut random, 456), random_bits(&mut random, 8));
            spread.put_bits(&mut bursts, &c);
            spread.put_flags(&mut bursts, &flags);
            assert_eq!(read(spread, &bursts), (c, flags));
            assert_eq!(others(&bursts), before);
        }
    }
}
