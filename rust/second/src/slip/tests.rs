//! The slip, to the byte.

use super::*;
use crate::specimens::{worked, Points};

/// The nodes of a worked case.
fn case(name: char) -> Vec<i32> {
    let narrow = |points: Points| points.map(|x| x as i32).to_vec();
    worked().into_iter().find(|(n, _)| *n == name).map(|(_, points)| narrow(points)).unwrap()
}

/// A lot of cases, eight nodes each, and of elements by their first node.
fn lot(label: &[u8], cases: &[char], elements: &[u32]) -> Lot {
    Lot {
        label: label.to_vec(),
        nodes: cases.iter().flat_map(|&name| case(name)).collect(),
        elements: elements.iter().flat_map(|&first| first..first + 8).collect(),
        ..Lot::default()
    }
}

#[track_caller]
fn expect(lot: &Lot, lines: &[&str]) {
    let printed: String = lines.iter().map(|line| format!("{line}\n")).collect();
    assert_eq!(String::from_utf8(slip(&lot.file())).unwrap(), printed);
}

/// "For case A labelled CUBE, whole".
#[test]
fn the_cube() {
    let text = "lot CUBE\n1 CUBE 0 0 0 0 0 0 0 0 1\ntally 1 0 0 0\nstamp sound\n";
    assert_eq!(slip(&lot(b"CUBE", &['A'], &[0]).file()), text.as_bytes());
    assert_eq!(slip(include_bytes!("../../../../examples/cube.lot")), text.as_bytes());
}

/// The lot of the examples: one element of each verdict.
#[test]
fn the_grouped_lot() {
    let text = "lot SAMPLE 7\n\
                1 SAMPLE 7 0 0 0 0 0 0 0 0 1\n\
                2 twisted 1 1 0 0 1 5 0 0 2\n\
                3 twisted 2 3 0 0 2 13 -262144 -1 169\n\
                4 SAMPLE 7 5 4 20 0 0 0 0 0 0\n\
                tally 1 1 1 1\n\
                stamp faulty\n";
    let printed = slip(include_bytes!("../../../../examples/grouped.lot"));
    assert_eq!(String::from_utf8(printed).unwrap(), text);
}

/// Valid at a deeper level, invalid, undecided, and refused by an index, by a
/// coordinate and by a pair of places; names of groups, two at one place, one empty,
/// one after the last element.
#[test]
fn every_kind_of_record() {
    let mut all = lot(b"all kinds", &['D', 'C', 'F', 'A'], &[0, 8, 16, 25, 24])
        .group(1, b"never seen")
        .group(1, b" two words ")
        .group(3, b"")
        .group(4, b"~")
        .group(6, b"after the last");
    all.nodes[3 * 26 + 1] = 1_048_577;
    all.elements.extend([24, 25, 24, 27, 28, 29, 30, 31]);
    expect(
        &all,
        &[
            "lot all kinds",
            "1 all kinds 0 1 0 0 0 0 0 0 9",
            "2  two words  1 0 0 0 0 1 -8 -1 1",
            "3  two words  2 3 0 0 2 13 -262144 -1 169",
            "4 all kinds 5 8 32 0 0 0 0 0 0",
            "5 ~ 6 3 2 0 0 0 0 0 0",
            "6 ~ 7 1 3 0 0 0 0 0 0",
            "tally 1 1 1 3",
            "stamp faulty",
        ],
    );
}

/// "an empty name prints as nothing, its spaces kept."
#[test]
fn an_empty_label() {
    let two = lot(b"", &['A'], &[0, 0]);
    let lines =
        ["lot ", "1  0 0 0 0 0 0 0 0 1", "2  0 0 0 0 0 0 0 0 1", "tally 2 0 0 0", "stamp sound"];
    expect(&two, &lines);
    expect(&two.clone().group(0, b""), &lines);
    let named = [lines[0], lines[1], "2 x 0 0 0 0 0 0 0 0 1", lines[3], lines[4]];
    expect(&two.group(1, b"x"), &named);
}

/// Lots with no element, one undecided, one undecided and one invalid, all valid, all
/// refused, one refused among valid ones, one undecided or invalid beside a valid one.
#[test]
fn stamps() {
    const A: &str = "0 0 0 0 0 0 0 0 1";
    const C: &str = "1 0 0 0 0 1 -8 -1 1";
    const F: &str = "2 3 0 0 2 13 -262144 -1 169";
    const REFUSED: &str = "5 8 8 0 0 0 0 0 0";
    let lots: [(&[char], &[u32], &[&str], &str, &str); 8] = [
        (&['A'], &[], &[], "tally 0 0 0 0", "stamp open"),
        (&['F'], &[0], &[F], "tally 0 0 1 0", "stamp open"),
        (&['F', 'C'], &[0, 8], &[F, C], "tally 0 1 1 0", "stamp faulty"),
        (&['A'], &[0, 0], &[A, A], "tally 2 0 0 0", "stamp sound"),
        (&['A'], &[1, 1], &[REFUSED, REFUSED], "tally 0 0 0 2", "stamp faulty"),
        (&['A'], &[0, 1, 0], &[A, REFUSED, A], "tally 2 0 0 1", "stamp faulty"),
        (&['A', 'F'], &[0, 8], &[A, F], "tally 1 0 1 0", "stamp open"),
        (&['A', 'C'], &[0, 8], &[A, C], "tally 1 1 0 0", "stamp faulty"),
    ];
    for (cases, elements, records, tally, stamp) in lots {
        let mut lines = vec!["lot L".to_string()];
        lines.extend((1..).zip(records).map(|(number, words)| format!("{number} x {words}")));
        lines.extend([tally, stamp].map(str::to_string));
        let lines: Vec<&str> = lines.iter().map(String::as_str).collect();
        expect(&lot(b"L", cases, elements).group(0, b"x"), &lines);
    }
}

#[test]
fn refused_lots() {
    let many = lot(b"", &[], &[0; 1001]).file();
    let files: [(&[u8], &str); 8] = [
        (&[0; 65_537], "refused 20\n"),
        (b"", "refused 21\n"),
        (b"????", "refused 22\n"),
        (b"LB\x21\0", "refused 23\n"),
        (b"EN\0\0", "refused 24\n"),
        (b"LB\x01\0\n", "refused 25\n"),
        (&many, "refused 26\n"),
        (b"LB\0\0GR\x01\0\x7F", "refused 25\n"),
    ];
    for (file, text) in files {
        assert_eq!(slip(file), text.as_bytes());
    }
}

/// The largest cube with its rings exchanged, and the same a unit shorter in x: J times
/// 8 is -2^66, and 2^45 more.
#[test]
fn values_past_64_bits() {
    let mut large = lot(b"large", &['C', 'C'], &[0, 8]);
    large.nodes.iter_mut().for_each(|x| *x = (2 * *x - 1) * 1_048_576);
    large.nodes[24..].iter_mut().step_by(3).for_each(|x| *x = (*x).min(1_048_575));
    expect(
        &large,
        &[
            "lot large",
            "1 large 1 0 0 0 0 1 0 -4 1",
            "2 large 1 0 0 0 0 1 35184372088832 -4 1",
            "tally 0 2 0 0",
            "stamp faulty",
        ],
    );
}

/// 02, No. 8: "the slip answers 26 to a longer lot without fault."
#[test]
fn at_most_900_elements() {
    for (elements, first) in [(899, "lot L\n"), (900, "lot L\n"), (901, "refused 26\n")] {
        let printed = slip(&lot(b"L", &['A'], &vec![0; elements]).file());
        assert!(printed.starts_with(first.as_bytes()));
        assert_eq!(printed.len() == first.len(), elements > 900);
    }
    assert_eq!(slip(&lot(b"L", &['A'], &[0; 1000]).file()), b"refused 26\n");
    // a fault of the file goes before
    let cut_short = lot(b"L", &['A'], &[0; 1000]).file();
    assert_eq!(slip(&cut_short[..cut_short.len() - 1]), b"refused 21\n");
}

/// "The program never lacks room": the longest slips are far below 262,144 bytes.
#[test]
fn a_full_lot() {
    let name = [b'~'; 32];
    let mut full = lot(&name, &['F'], &[u32::MAX - 8; 900]).group(0, &name).group(900, b"");
    full.nodes.resize(3 * 2066, 0);
    let file = full.file();
    assert_eq!(file.len(), 65_536);
    let printed = slip(&file);
    assert!(printed.ends_with(b"\ntally 0 0 0 900\nstamp faulty\n"));
    let longest = "900 ~~~~~~~~~~~~~~~~~~~~~~~~~~~~~~~~ 5 1 4294967287 0 0 0 0 0 0\n";
    assert!(printed.len() < 910 * longest.len());
}
