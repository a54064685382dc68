//! Inspects the unit cube at depth 3 and prints its record, the counts and the
//! stamp; before that it asks whether wrapper and library are of one version.

#![deny(warnings)]

fn main() {
    // Three coordinates a node; eight indices an element, in the order of the
    // reference cube's corners; nine report words an element.
    #[rustfmt::skip]
    let coordinates = [
        0, 0, 0,  1, 0, 0,  1, 1, 0,  0, 1, 0,
        0, 0, 1,  1, 0, 1,  1, 1, 1,  0, 1, 1,
    ];
    let indices = [0, 1, 2, 3, 4, 5, 6, 7];
    let mut report = [0; brundhal::RECORD_WORDS];

    if brundhal::version() != brundhal::VERSION {
        let (wrapper, library) = (brundhal::VERSION, brundhal::version());
        eprintln!("wrapper of version {wrapper}, library of version {library}");
        std::process::exit(1);
    }
    let answer = brundhal::inspect(&coordinates, &indices, 3, &mut report);
    if answer.number != 0 {
        eprintln!("refused {}", answer.number);
        std::process::exit(1);
    }
    println!("record {}", report.map(|word| word.to_string()).join(" "));
    println!(
        "valid {} invalid {} undecided {} refused {}",
        answer.valid, answer.invalid, answer.undecided, answer.refused
    );
    if let Some(stamp) = brundhal::stamp(answer) {
        println!("stamp {stamp}");
    }
}
