//! Polynomials over GF(2), by school arithmetic: long multiplication and long division.

use crate::model::bits::inverted;

/// Place i holds the coefficient of D^i, 0 or 1.
pub type Polynomial = Vec<u8>;

/// D^a + D^b + .. from the powers a, b, ..
pub fn from_powers(powers: &[usize]) -> Polynomial {
    let degree = powers.iter().max().copied().unwrap_or(0);
    let mut sum = vec![0; degree + 1];
    for &power in powers {
        sum[power] = (sum[power] + 1) % 2;
    }
    sum
}

/// a(0)D^(n-1) + a(1)D^(n-2) + .. + a(n-1): the first bit has the highest power.
pub fn from_bits(bits: &[u8]) -> Polynomial {
    bits.iter().rev().copied().collect()
}

/// f(D) * g(D): every term of f times every term of g.
pub fn multiply(f: &[u8], g: &[u8]) -> Polynomial {
    let mut product = vec![0; f.len() + g.len() - 1];
    for i in 0..f.len() {
        for j in 0..g.len() {
            product[i + j] = (product[i + j] + f[i] * g[j]) % 2;
        }
    }
    product
}

/// What f(D) leaves on division by g(D), of degree m: the coefficients of D^0 to D^(m-1).
pub fn remainder(f: &[u8], g: &[u8]) -> Polynomial {
    let m = g.len() - 1;
    let mut rest = f.to_vec();
    for power in (m..f.len()).rev() {
        // Where the highest power left is there, take g(D) times D^(power-m) away.
        if rest[power] == 1 {
            for i in 0..=m {
                rest[power - m + i] = (rest[power - m + i] + g[i]) % 2;
            }
        }
    }
    rest.resize(m, 0);
    rest
}

/// p(0)..p(m-1), such that d(0)D^(n+m-1) + .. + d(n-1)D^m + p(0)D^(m-1) + .. + p(m-1),
/// divided by g(D), leaves 0.
pub fn crc(d: &[u8], g: &[u8]) -> Vec<u8> {
    let m = g.len() - 1;
    let mut block = d.to_vec();
    block.resize(d.len() + m, 0);
    let rest = remainder(&from_bits(&block), g);
    // p(k) stands at D^(m-1-k) and makes the coefficient there 0.
    (0..m).map(|k| rest[m - 1 - k]).collect()
}

/// The same, but what is left is 1 + D + .. + D^(m-1): each of them makes its coefficient 1.
pub fn parity(d: &[u8], g: &[u8]) -> Vec<u8> {
    inverted(&crc(d, g))
}

/// The bits, divided by g(D), leave 0.
pub fn leaves_0(bits: &[u8], g: &[u8]) -> bool {
    let rest = remainder(&from_bits(bits), g);
    rest.iter().all(|&coefficient| coefficient == 0)
}

/// The bits, divided by g(D) of degree m, leave 1 + D + .. + D^(m-1).
pub fn leaves_all_ones(bits: &[u8], g: &[u8]) -> bool {
    let rest = remainder(&from_bits(bits), g);
    rest.iter().all(|&coefficient| coefficient == 1)
}

#[cfg(test)]
mod tests {
    use super::*;

    #[test]
    fn a_sum_of_powers() {
        assert_eq!(from_powers(&[3, 1, 0]), [1, 1, 0, 1]);
        // D + D is 0 modulo 2.
        assert_eq!(from_powers(&[2, 1, 1]), [0, 0, 1]);
    }

    #[test]
    fn the_first_bit_has_the_highest_power() {
        assert_eq!(from_bits(&[1, 0, 1, 1]), from_powers(&[3, 1, 0]));
    }

    #[test]
    fn a_product() {
        // (D + 1)(D^2 + D + 1) = D^3 + 1
        assert_eq!(multiply(&[1, 1], &[1, 1, 1]), from_powers(&[3, 0]));
    }

    #[test]
    fn a_remainder() {
        // D^3 + D^2 = (D^3 + D + 1) + (D^2 + D + 1)
        assert_eq!(
            remainder(&from_powers(&[3, 2]), &from_powers(&[3, 1, 0])),
            [1, 1, 1]
        );
        // A polynomial below the divisor is its own remainder.
        assert_eq!(remainder(&[0, 1], &from_powers(&[3, 1, 0])), [0, 1, 0]);
    }

    #[test]
    fn a_product_and_a_rest_leave_the_rest() {
        let g = from_powers(&[6, 5, 3, 2, 1, 0]);
        let mut f = multiply(&g, &from_powers(&[7, 4, 0]));
        f[3] = (f[3] + 1) % 2;
        assert_eq!(remainder(&f, &g), [0, 0, 0, 1, 0, 0]);
    }

    #[test]
    fn all_ones_are_left_or_not() {
        // D^5 + D^3 leaves D^2 + D + 1 + D + 1 = D^2, so D + 1 makes it all ones.
        let g = from_powers(&[3, 1, 0]);
        assert_eq!(remainder(&from_powers(&[5, 3]), &g), [0, 0, 1]);
        assert_eq!(parity(&[1, 0, 1], &g), [0, 1, 1]);
        assert!(leaves_all_ones(&[1, 0, 1, 0, 1, 1], &g));
        assert!(!leaves_all_ones(&[1, 0, 1, 0, 0, 1], &g));
        assert!(!leaves_all_ones(&[0, 0, 0, 0, 0, 0], &g));
    }

    #[test]
    fn nothing_is_left_or_something() {
        // The same D^5 + D^3, which leaves D^2.
        let g = from_powers(&[3, 1, 0]);
        assert_eq!(crc(&[1, 0, 1], &g), [1, 0, 0]);
        assert!(leaves_0(&[1, 0, 1, 1, 0, 0], &g));
        assert!(!leaves_0(&[1, 0, 1, 0, 1, 1], &g));
        assert!(!leaves_0(&[1, 0, 1, 1, 0, 1], &g));
        assert!(leaves_0(&[0, 0, 0, 0, 0, 0], &g));
    }
}
