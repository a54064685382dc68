use crate::{narrow_eighth, number, wide_eighth, words, Eighth, LARGEST_NARROW, LARGEST_WIDE};

#[test]
fn words_and_back() {
    for x in [0, 1, -1, i128::MIN, i128::MAX, 1 << 63, 1 << 64, -(1 << 64) - 1] {
        assert_eq!(number(words(x)), x);
    }
}

#[test]
fn the_largest() {
    assert_eq!(LARGEST_NARROW, (1 << 57) - 1);
    assert_eq!(LARGEST_WIDE, (1 << 121) - 1);
}

/// A constant is 64 times larger in every child, and coefficient 1 holds the least.
#[test]
fn children_of_equal_coefficients() {
    for k in 0..8 {
        for x in [0, 1, -1, LARGEST_NARROW, -LARGEST_NARROW] {
            let child = Eighth { coefficients: [64 * x; 27], least: 64 * x, number: 1 };
            assert_eq!(narrow_eighth(&[x; 27], k), child);
            assert_eq!(wide_eighth(&[x.into(); 27], k), child.into());
        }
        for x in [1 << 57, -(1 << 57), 1 << 64, -(1 << 64), LARGEST_WIDE, -LARGEST_WIDE] {
            let child = Eighth { coefficients: [64 * x; 27], least: 64 * x, number: 1 };
            assert_eq!(wide_eighth(&[x; 27], k), child);
        }
    }
}

/// The nine rows in xi, by the numbers of their coefficients from 0.
const ROWS: [[usize; 3]; 9] = [
    [0, 8, 1],
    [3, 10, 2],
    [4, 16, 5],
    [7, 18, 6],
    [11, 20, 9],
    [12, 21, 13],
    [15, 23, 14],
    [19, 25, 17],
    [24, 26, 22],
];

/// All rows in xi alike.
fn of_rows(row: [i64; 3]) -> [i64; 27] {
    let mut net = [0; 27];
    for [x, y, z] in ROWS {
        [net[x], net[y], net[z]] = row;
    }
    net
}

/// Where J rises in xi, the start of every row holds the least, coefficient 1 before all
/// others; where it falls, the end, and coefficient 2.
#[test]
fn children_of_a_slope() {
    let rises = ([2, 3, 4], [[128, 160, 192], [192, 224, 256]], 1);
    let falls = ([4, 3, 2], [[256, 224, 192], [192, 160, 128]], 2);
    for (cell, halves, number) in [rises, falls] {
        let cell = of_rows(cell);
        for (k, side) in (0..8).zip([0, 1, 1, 0, 0, 1, 1, 0]) {
            let coefficients = of_rows(halves[side]);
            let child =
                Eighth { coefficients, least: coefficients[number - 1], number: number as i64 };
            assert_eq!(narrow_eighth(&cell, k), child);
            assert_eq!(wide_eighth(&cell.map(i128::from), k), child.into());
        }
    }
}

#[test]
#[should_panic(expected = "no child: 8")]
fn a_ninth_child() {
    narrow_eighth(&[0; 27], 8);
}

#[test]
#[should_panic(expected = "no child: 8")]
fn a_ninth_child_in_two_words() {
    wide_eighth(&[0; 27], 8);
}

#[test]
#[should_panic(expected = "too large to be cut")]
fn a_coefficient_that_is_too_large() {
    let mut cell = [0; 27];
    cell[26] = -LARGEST_NARROW - 1;
    narrow_eighth(&cell, 0);
}

#[test]
#[should_panic(expected = "too large to be cut")]
fn a_coefficient_that_is_too_large_for_two_words() {
    let mut cell = [0; 27];
    cell[26] = LARGEST_WIDE + 1;
    wide_eighth(&cell, 0);
}
