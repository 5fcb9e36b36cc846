//! The order in which enhanced full rate gives its bits w(1)..w(260) to the coder of speech: that of
//! the table "Ordering of enhanced full rate speech parameters for the channel encoder", which the
//! text calls by another number. 02, M-103

use std::ops::RangeInclusive;

/// The rows of class 1a, 50 bits: 39-44 are w(39) to w(44), 48 is w(48), of which the table has
/// another letter. A line has rows of the same parameters.
const CLASS_1A: [&str; 7] = [
    "39-44 146-151 94-95 201-202",
    "48 89 100 141",
    "45 152 96 203",
    "2-3 8 10 18-19 24",
    "46-47 153-154 97 204",
    "4-5 11-12 16 9 6-7 13 17 20",
    "98 205",
];

/// Class 1b, 132 bits; the table has another letter of w(199).
const CLASS_1B: [&str; 29] = [
    "1 14-15 21 25-26 28",
    "155 207 196 248 90 142 197 249",
    "253-260",
    "49 101 156 208",
    "22-23 27 29",
    "52 56 60 64 68",
    "104 108 112 116 120",
    "159 163 167 171 175",
    "211 215 219 223 227",
    "91 143 198 250",
    "50 102 157 209",
    "30-32 33-36",
    "99 206",
    "53 57 61 65 69",
    "105 109 113 117 121",
    "160 164 168 172 176",
    "212 216 220 224 228",
    "54 58 62 66",
    "106 110 114 118",
    "161 165 169 173",
    "213 221 225",
    "92 144 199 251",
    "51 103 158 210",
    "93 145 200 252",
    "55 59 63 67",
    "107 111 115 119",
    "162 166 170 174",
    "214 222 226",
    "37-38",
];

/// Class 2, 78 bits, of which the first are repeated; the table has another letter of w(125).
const CLASS_2: [&str; 18] = [
    "70 72-73",
    "122 124-125",
    "177 179-180",
    "229 231-232",
    "217-218",
    "71 123 178 230",
    "74 77 80 83 86",
    "126 129 132 135 138",
    "181 184 187 190 193",
    "233 236 239 242 245",
    "75 78 81 84 87",
    "127 130 133 136 139",
    "182 185 188 191 194",
    "234 237 240 243 246",
    "76 79 82 85 88",
    "128 131 134 137 140",
    "183 186 189 192 195",
    "235 238 241 244 247",
];

/// The numbers of a row, from its first to its last.
fn numbers(row: &str) -> RangeInclusive<usize> {
    let (first, last) = row.split_once('-').unwrap_or((row, row));
    let number = |digits: &str| digits.parse().expect("a row has numbers");
    number(first)..=number(last)
}

/// The numbers of a class.
fn of_class(lines: &[&str]) -> Vec<usize> {
    lines.join(" ").split(' ').flat_map(numbers).collect()
}

/// The numbers of w in the order of d(0), d(1), .., d(259).
pub fn order() -> Vec<usize> {
    let classes = [&CLASS_1A[..], &CLASS_1B, &CLASS_2];
    classes.into_iter().flat_map(of_class).collect()
}

#[cfg(test)]
mod tests {
    use super::*;

    #[test]
    fn a_row_has_one_number_or_its_first_and_its_last() {
        assert_eq!(numbers("48"), 48..=48);
        assert_eq!(numbers("253-260"), 253..=260);
        assert_eq!(of_class(&["2-3 8", "39-41"]), [2, 3, 8, 39, 40, 41]);
    }

    #[test]
    fn the_classes_have_50_132_and_78_bits() {
        let lengths = [&CLASS_1A[..], &CLASS_1B, &CLASS_2].map(|lines| of_class(lines).len());
        assert_eq!(lengths, [50, 132, 78]);
    }

    #[test]
    fn the_classes_have_31_116_and_73_rows() {
        let rows = |lines: &[&str]| lines.join(" ").split(' ').count();
        assert_eq!(rows(&CLASS_1A), 31);
        assert_eq!(rows(&CLASS_1B), 116);
        assert_eq!(rows(&CLASS_2), 73);
    }

    #[test]
    fn every_number_from_1_to_260_stands_there_once() {
        let mut numbers = order();
        numbers.sort_unstable();
        assert_eq!(numbers, (1..=260).collect::<Vec<usize>>());
    }

    #[test]
    fn the_order_is_that_of_the_table() {
        let order = order();
        assert_eq!(order[..8], [39, 40, 41, 42, 43, 44, 146, 147]);
        // The last row of class 1a and the first of class 1b, the same of 1b and 2, and the last.
        assert_eq!(order[48..53], [98, 205, 1, 14, 15]);
        assert_eq!(order[179..185], [226, 37, 38, 70, 72, 73]);
        assert_eq!(order[258..], [244, 247]);
    }
}
