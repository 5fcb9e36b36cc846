//! Lists of bits. A bit is one byte, 0 or 1; all sums are modulo 2.

use crate::model::missing::turned_over;

/// The indices at which a one stands.
pub fn ones_at(bits: &[u8]) -> Vec<usize> {
    (0..bits.len()).filter(|&k| bits[k] == 1).collect()
}

/// The number of ones.
pub fn ones(bits: &[u8]) -> usize {
    ones_at(bits).len()
}

/// The number of zeros; what is missing of received bits is neither.
pub fn zeros(bits: &[u8]) -> usize {
    bits.iter().filter(|&&bit| bit == 0).count()
}

/// Adds bits to the beginning of a list.
pub fn add(list: &mut [u8], bits: &[u8]) {
    for k in 0..bits.len() {
        list[k] = (list[k] + bits[k]) % 2;
    }
}

/// The list with every bit turned over; what is missing of received bits stays so.
pub fn inverted(bits: &[u8]) -> Vec<u8> {
    bits.iter().map(|&bit| turned_over(bit)).collect()
}

/// The bits u(0)..u(n-1) of a number, with u(k) at bit k.
pub fn bits_of(number: u64, n: usize) -> Vec<u8> {
    (0..n).map(|k| (number >> k & 1) as u8).collect()
}

#[cfg(test)]
mod tests {
    use super::*;

    #[test]
    fn ones_are_found_and_counted() {
        assert_eq!(ones_at(&[0, 1, 1, 0, 1]), [1, 2, 4]);
        assert_eq!(ones(&[0, 1, 1, 0, 1]), 3);
        assert_eq!(ones(&[]), 0);
    }

    #[test]
    fn what_is_missing_is_neither_one_nor_zero() {
        let received = [2, 0, 1, 2, 0, 0];
        assert_eq!((ones(&received), zeros(&received)), (1, 3));
    }

    #[test]
    fn a_sum_of_lists() {
        let mut list = vec![0, 1, 0, 1, 1];
        add(&mut list, &[0, 0, 1, 1]);
        assert_eq!(list, [0, 1, 1, 0, 1]);
    }

    #[test]
    fn every_bit_is_turned_over() {
        assert_eq!(inverted(&[0, 1, 1]), [1, 0, 0]);
        assert_eq!(inverted(&[2, 0, 2]), [2, 1, 2]);
    }

    #[test]
    fn bit_k_of_the_number_is_u_of_k() {
        assert_eq!(bits_of(0b1011, 6), [1, 1, 0, 1, 0, 0]);
        assert!(bits_of(0, 0).is_empty());
    }
}
