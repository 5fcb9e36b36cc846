//! The order in which full rate speech comes to the coder: Table 2 of document 000, in which
//! parameters and bit indices are those of GSM 06.10. The bits that GSM 06.10 gives, D1..D260 of a
//! frame, are parameter by parameter, the least significant bit of each first. 02, M-113

/// A row of the table: its parameters, in the order in which they come, and the bit index.
type Row = (&'static str, usize);

/// The rows of each importance class. Two are printed otherwise, and stand here as they are meant:
/// behind the first row the table has 43, which is a lag, for the block amplitude 46; and the last
/// pulses with the bit index 0 end there at 67.
const IMPORTANCE_CLASSES: [&[Row]; 6] = [
    &[("1", 5), ("12,29,46,63", 5)],
    &[("1", 4), ("2", 5), ("3", 4)],
    &[
        ("1", 3),
        ("2", 4),
        ("3", 3),
        ("4", 4),
        ("9,26,43,60", 6),
        ("12,29,46,63", 4),
        ("2,5,6", 3),
        ("9,26,43,60", 5),
        ("9,26,43,60", 4),
        ("9,26,43,60", 3),
        ("9,26,43,60", 2),
    ],
    &[
        ("12,29,46,63", 3),
        ("1", 2),
        ("4", 3),
        ("7", 2),
        ("9,26,43,60", 1),
        ("5,6", 2),
        ("10,27,44,61", 1),
        ("9,26,43,60", 0),
        ("11,28,45,62", 1),
    ],
    &[
        ("1", 1),
        ("2,3,8,4", 2),
        ("5,7", 1),
        ("10,27,44,61", 0),
        ("12,29,46,63", 2),
        ("13..25", 2),
        ("30..42", 2),
        ("47..59", 2),
        ("64..76", 2),
        ("11,28,45,62", 0),
        ("12,29,46,63", 1),
        ("13..25", 1),
        ("30..42", 1),
        ("47..59", 1),
        ("64..67", 1),
        ("68..76", 1),
    ],
    &[
        ("1", 0),
        ("2,3,6", 1),
        ("7", 0),
        ("8", 1),
        ("8,3", 0),
        ("4", 1),
        ("4,5", 0),
        ("12,29,46,63", 0),
        ("13..25", 0),
        ("30..42", 0),
        ("47..59", 0),
        ("64..76", 0),
        ("2,6", 0),
    ],
];

/// How many bits the log area ratios have, parameters 1 to 8.
const LOG_AREA_RATIOS: [usize; 8] = [6, 6, 5, 5, 4, 4, 3, 3];

/// How many bits the parameters of a sub-frame have: lag, gain, grid position, block amplitude and
/// thirteen pulses. The four sub-frames are parameters 9 to 25, 26 to 42, 43 to 59 and 60 to 76.
const SUB_FRAME: [usize; 17] = [7, 2, 2, 6, 3, 3, 3, 3, 3, 3, 3, 3, 3, 3, 3, 3, 3];

/// How many bits each of the 76 parameters has.
fn widths() -> Vec<usize> {
    [&LOG_AREA_RATIOS[..], &SUB_FRAME.repeat(4)].concat()
}

/// The parameters of a row: a list of them, or the first and the last.
fn parameters(row: &str) -> Vec<usize> {
    let number = |digits: &str| digits.parse().expect("a row has numbers");
    match row.split_once("..") {
        Some((first, last)) => (number(first)..=number(last)).collect(),
        None => row.split(',').map(number).collect(),
    }
}

/// The number of D at which a bit of a parameter stands: D1 is bit 0 of parameter 1.
fn number_of(parameter: usize, index: usize) -> usize {
    let before: usize = widths()[..parameter - 1].iter().sum();
    before + index + 1
}

/// The numbers of D in a row.
fn numbers(&(row, index): &Row) -> Vec<usize> {
    let number = |parameter| number_of(parameter, index);
    parameters(row).into_iter().map(number).collect()
}

/// The numbers of D in the order of d(0), d(1), .., d(259).
pub fn order() -> Vec<usize> {
    let rows = IMPORTANCE_CLASSES.concat();
    rows.iter().flat_map(numbers).collect()
}

#[cfg(test)]
mod tests {
    use super::*;

    #[test]
    fn a_row_has_a_list_of_parameters_or_the_first_and_the_last() {
        assert_eq!(parameters("7"), [7]);
        assert_eq!(parameters("2,3,8,4"), [2, 3, 8, 4]);
        assert_eq!(parameters("64..67"), [64, 65, 66, 67]);
    }

    #[test]
    fn the_76_parameters_have_260_bits() {
        let widths = widths();
        assert_eq!(widths.len(), 76);
        assert_eq!(widths.iter().sum::<usize>(), 260);
        // Lag, gain, grid position and block amplitude of each sub-frame, and its pulses.
        for first in [9, 26, 43, 60] {
            assert_eq!(widths[first - 1..first + 3], [7, 2, 2, 6]);
            assert_eq!(widths[first + 3..first + 16], [3; 13]);
        }
    }

    #[test]
    fn the_least_significant_bit_of_each_parameter_comes_first() {
        for (parameter, first, last) in [
            (1, 1, 6),
            (2, 7, 12),
            (3, 13, 17),
            (4, 18, 22),
            (5, 23, 26),
            (6, 27, 30),
            (7, 31, 33),
            (8, 34, 36),
            (9, 37, 43),
            (10, 44, 45),
            (11, 46, 47),
            (12, 48, 53),
            (13, 54, 56),
            (25, 90, 92),
            (26, 93, 99),
            (43, 149, 155),
            (60, 205, 211),
            (63, 216, 221),
            (76, 258, 260),
        ] {
            assert_eq!(number_of(parameter, 0), first, "{}", parameter);
            let width = widths()[parameter - 1];
            assert_eq!(number_of(parameter, width - 1), last, "{}", parameter);
        }
    }

    #[test]
    fn every_number_from_1_to_260_stands_there_once() {
        let mut numbers = order();
        numbers.sort_unstable();
        assert_eq!(numbers, (1..=260).collect::<Vec<usize>>());
    }

    #[test]
    fn every_index_of_a_row_is_one_of_its_parameters_bits() {
        for (row, index) in IMPORTANCE_CLASSES.concat() {
            let is_bit = |parameter: usize| index < widths()[parameter - 1];
            assert!(parameters(row).into_iter().all(is_bit), "{} {}", row, index);
        }
    }

    #[test]
    fn the_importance_classes_have_their_rows_and_bits() {
        let rows = IMPORTANCE_CLASSES.map(|rows| rows.len());
        assert_eq!(rows, [2, 3, 11, 9, 16, 13]);
        let bits = IMPORTANCE_CLASSES.map(|rows| rows.iter().flat_map(numbers).count());
        assert_eq!(bits, [5, 3, 31, 25, 127, 69]);
    }

    #[test]
    fn the_classes_of_50_132_and_78_bits_end_where_a_row_ends() {
        let mut bits = 0;
        let end = |row: &Row| {
            bits += numbers(row).len();
            bits
        };
        let rows = IMPORTANCE_CLASSES.concat();
        let ends: Vec<usize> = rows.iter().map(end).collect();
        for (class_end, last_row) in [(50, ("9,26,43,60", 1)), (182, ("64..67", 1))] {
            let k = ends.iter().position(|&end| end == class_end).unwrap();
            assert_eq!(rows[k], last_row);
        }
        assert_eq!(ends.last(), Some(&260));
    }

    #[test]
    fn the_labels_stand_where_the_table_has_them() {
        let order = order();
        let label = |k: usize, parameter, index| {
            assert_eq!(order[k], number_of(parameter, index), "d({})", k);
        };
        label(0, 1, 5);
        for (k, amplitude) in [(1, 12), (2, 29), (3, 46), (4, 63)] {
            label(k, amplitude, 5);
        }
        label(48, 43, 1);
        label(49, 60, 1);
        label(50, 5, 2);
        label(181, 67, 1);
        label(182, 68, 1);
        label(259, 6, 0);
    }

    #[test]
    fn the_numbers_of_the_first_rows_and_the_last() {
        let order = order();
        assert_eq!(order[..8], [6, 53, 109, 165, 221, 5, 12, 17]);
        assert_eq!(order[46..52], [38, 94, 150, 206, 25, 29]);
        assert_eq!(order[178..185], [223, 226, 229, 232, 235, 238, 241]);
        assert_eq!(order[255..], [252, 255, 258, 7, 27]);
    }

    /// The same table by parameter: where the bits of each log area ratio stand in d, the most
    /// significant first.
    const OF_RATIOS: [&[usize]; 8] = [
        &[0, 5, 8, 43, 64, 191],
        &[6, 9, 20, 65, 192, 258],
        &[7, 10, 66, 193, 198],
        &[11, 44, 68, 199, 200],
        &[21, 50, 69, 201],
        &[22, 51, 194, 259],
        &[45, 70, 195],
        &[67, 196, 197],
    ];

    /// The same of lag, gain, grid position and block amplitude of the first sub-frame; those of the
    /// next ones stand one behind the other.
    const OF_SUB_FRAME: [&[usize]; 4] = [
        &[12, 23, 27, 31, 35, 46, 56],
        &[52, 71],
        &[60, 131],
        &[1, 16, 39, 75, 135, 202],
    ];

    /// The same of the first pulse; those of the next 51 stand one behind the other.
    const OF_PULSE: &[usize] = &[79, 139, 206];

    /// Where the bits of the 76 parameters stand in d, the most significant first.
    fn by_parameter() -> Vec<Vec<usize>> {
        let behind = |places: &[usize], number: usize| -> Vec<usize> {
            places.iter().map(|place| place + number).collect()
        };
        let mut all: Vec<Vec<usize>> = OF_RATIOS.iter().map(|places| places.to_vec()).collect();
        for sub_frame in 0..4 {
            all.extend(OF_SUB_FRAME.map(|places| behind(places, sub_frame)));
            all.extend((0..13).map(|pulse| behind(OF_PULSE, 13 * sub_frame + pulse)));
        }
        all
    }

    #[test]
    fn the_order_is_the_same_by_parameter() {
        let mut expected = vec![0; 260];
        let mut number = 0;
        for places in by_parameter() {
            for k in places.into_iter().rev() {
                number += 1;
                expected[k] = number;
            }
        }
        assert_eq!(number, 260);
        assert_eq!(order(), expected);
    }
}
