//! The worked cases of 01 and the figures of the paper.

use crate::check::report_words;
use crate::draw::{narrow, RANGE};
use crate::program::{Record, IN_ORDER, RECORD_WORDS};
use crate::question::Question;
use second::specimens::{cube, worked, Points};
use second::two_words;

/// A mesh of one element, with what 01 prints of it.
pub struct Case {
    pub name: &'static str,
    pub points: [i32; 24],
    pub indices: [u32; 8],
    /// Depths, and the record printed for them.
    pub records: Vec<(Vec<u32>, Record)>,
    /// A depth with the bounds printed for it.
    pub bounds: Option<(u32, i128, i128)>,
}

impl Case {
    fn new(name: &'static str, points: Points, records: &[(&[u32], Record)]) -> Case {
        Case {
            name,
            points: points.map(|x| i32::try_from(x).expect("a coordinate of 32 bits")),
            indices: IN_ORDER,
            records: records.iter().map(|(depths, words)| (depths.to_vec(), *words)).collect(),
            bounds: None,
        }
    }

    /// The mesh at one depth.
    pub fn question(&self, depth: u32) -> Question {
        Question::Inspect {
            depth,
            space: RECORD_WORDS,
            coordinates: self.points.to_vec(),
            indices: self.indices.to_vec(),
        }
    }

    /// Whether the eight points can be asked for as an element.
    pub fn is_whole(&self) -> bool {
        self.indices == IN_ORDER && self.points.iter().all(|x| i64::from(*x).abs() <= RANGE)
    }

    fn not_as_printed(&self, question: &Question, words: &[i64]) -> Option<String> {
        let (said, printed) = match question {
            Question::Inspect { depth, .. } if *question == self.question(*depth) => {
                let (_, record) = self.records.iter().find(|(at, _)| at.contains(depth))?;
                (report_words(words), record.to_vec())
            }
            Question::Bounds { depth, points } if *points == self.points => {
                let (_, low, high) = self.bounds.filter(|(at, ..)| at == depth)?;
                (words, [&[0], &two_words(low)[..], &two_words(high)].concat())
            }
            _ => return None,
        };
        (said != printed).then(|| format!("case {}: {said:?}, in 01 {printed:?}", self.name))
    }
}

/// Where the answer to a worked case is not the one that 01 prints.
pub fn not_as_printed(question: &Question, words: &[i64]) -> Option<String> {
    cases().iter().find_map(|case| case.not_as_printed(question, words))
}

const ALL: [u32; 9] = [0, 1, 2, 3, 4, 5, 6, 7, 8];

/// The cases A to I, and the cube from -1,048,576 to 1,048,576, in the layout of 02's
/// No. 8.  A record that is printed for the depth of a decision holds at every greater
/// depth as well.
pub fn cases() -> Vec<Case> {
    let [a, b, c, d, e, f, g] = worked().map(|(_, points)| points);
    let mut d = Case::new(
        "D",
        d,
        &[(&ALL[..1], [2, 0, 0, 0, 0, 13, 0, 0, 1]), (&ALL[1..], [0, 1, 0, 0, 0, 0, 0, 0, 9])],
    );
    d.bounds = Some((1, 1024, 1024));
    let mut f = Case::new(
        "F",
        f,
        &[(&[0], [2, 0, 0, 0, 0, 13, -64, -1, 1]), (&[3], [2, 3, 0, 0, 2, 13, -262_144, -1, 169])],
    );
    f.bounds = Some((3, -262_144, 131_072));
    let mut h = Case::new("H", a, &[(&ALL, [6, 3, 2, 0, 0, 0, 0, 0, 0])]);
    h.points[3 * 2 + 1] = 1_048_577;
    let mut i = Case::new("I", a, &[(&ALL, [5, 4, 8, 0, 0, 0, 0, 0, 0])]);
    i.indices[3] = 8;
    vec![
        Case::new("A", a, &[(&ALL, [0, 0, 0, 0, 0, 0, 0, 0, 1])]),
        Case::new("B", b, &[(&ALL, [1, 0, 0, 0, 0, 1, 0, 0, 1])]),
        Case::new("C", c, &[(&ALL, [1, 0, 0, 0, 0, 1, -8, -1, 1])]),
        d,
        Case::new(
            "E",
            e,
            &[
                (&ALL[..1], [2, 0, 0, 0, 0, 13, -32, -1, 1]),
                (&ALL[1..], [1, 1, 0, 0, 1, 5, 0, 0, 2]),
            ],
        ),
        f,
        Case::new("G", g, &[(&ALL, [1, 0, 0, 0, 0, 1, 0, 0, 1])]),
        h,
        Case::new("-1048576..1048576", cube(-RANGE, RANGE), &[(&ALL, [0, 0, 0, 0, 0, 0, 0, 0, 1])]),
        i,
    ]
}

// ----------------------------------------------------------------- figures --

/// A figure of the paper (004, section 7): nodes in decimals.
pub struct Figure {
    pub name: &'static str,
    pub nodes: [[f64; 3]; 8],
    /// Units to one of the figure's.
    pub scales: [f64; 6],
}

/// The whole-number points of a figure at a scale, node 1 at the origin: each
/// coordinate is rounded to the nearest unit.
pub fn rounded(figure: &Figure, scale: f64) -> [i32; 24] {
    let mut points = [0; 24];
    for (place, x) in points.iter_mut().enumerate() {
        let from_node_1 = figure.nodes[place / 3][place % 3] - figure.nodes[0][place % 3];
        *x = (scale * from_node_1).round() as i64;
    }
    narrow(points)
}

pub fn figures() -> [Figure; 3] {
    [
        Figure {
            name: "Figure 5",
            nodes: [
                [0.0, 0.0, 0.0],
                [1.0, 0.0, 0.0],
                [1.7615170641459, 0.594764272968121, 0.15552188663289],
                [0.438888411629833, 1.53098020041072, 0.185631029838277],
                [1.3859049651391, 0.0755794018509022, 1.77483024073906],
                [1.22129676447071, 0.271876165350328, 0.630922158503566],
                [1.77365642274365, 1.25103990471942, 1.83300604452892],
                [0.0769922201302364, 0.940424880836765, 1.45521546591891],
            ],
            scales: [10.0, 100.0, 500.0, 1000.0, 2200.0, 500_000.0],
        },
        Figure {
            name: "Figure 6",
            nodes: [
                [0.0, 0.0, 0.0],
                [1.0, 0.0, 0.0],
                [1.539, 0.704696, 1.84011],
                [0.166589, 1.08208, 0.162539],
                [0.0501127, 1.96347, 1.56559],
                [0.422336, 0.00419138, 1.43038],
                [0.509917, 0.0214216, 1.55322],
                [0.40783, 1.73452, 1.93234],
            ],
            scales: [10.0, 100.0, 500.0, 1000.0, 2080.0, 500_000.0],
        },
        Figure {
            name: "Figure 7",
            nodes: [
                [0.464949491866817, 0.358989226966155, 0.0133365886410108],
                [0.481795709097567, 0.358745078890347, 0.0163884395886105],
                [0.482406079287087, 0.351664784691916, 0.0235297708059938],
                [0.466719565416425, 0.339945677053133, 0.0278023621326335],
                [0.465498825037385, 0.320291756950591, -0.00277718436231578],
                [0.465987121189001, 0.321085238196966, -0.0042420728171636],
                [0.501998962370677, 0.322367015594958, -0.0116275521103549],
                [0.487166966765343, 0.308816797387616, 0.0115054780724508],
            ],
            scales: [1000.0, 4000.0, 10_000.0, 40_000.0, 80_000.0, 20_000_000.0],
        },
    ]
}
