//! What was met in the children that were compared.

use crate::ask::{Child, Width};
use std::collections::BTreeMap;
use std::fmt;

pub const ABOVE: &str = "least above 0";
pub const ZERO: &str = "least 0";
pub const BELOW: &str = "least below 0";
pub const LARGEST: &str = "least at the upper limit";
pub const SMALLEST: &str = "least at the lower limit";
pub const SEVERAL: &str = "least held by several";
pub const SEVERAL_PAST_CORNERS: &str = "least held by several, by no corner";
pub const ALL: &str = "least held by all 27";
pub const NOT_THE_LOWEST: &str = "least not the lowest-numbered <= 0";
pub const PAST_ONE_WORD: &str = "with a coefficient past one word";

/// What is said of one child.
fn said(width: Width, child: &Child) -> Vec<&'static str> {
    let Child { coefficients, least, number } = child;
    let holders = coefficients.iter().filter(|x| *x == least).count();
    let lowest = coefficients.iter().position(|&x| x <= 0);
    let past = coefficients.iter().any(|&x| i64::try_from(x).is_err());
    let largest = 64 * width.largest();
    let all = [
        (SEVERAL, holders > 1),
        (ALL, holders == 27),
        (SEVERAL_PAST_CORNERS, holders > 1 && *number > 8),
        (ABOVE, *least > 0),
        (ZERO, *least == 0),
        (BELOW, *least < 0),
        (NOT_THE_LOWEST, lowest.is_some_and(|at| at as i64 + 1 != *number)),
        (LARGEST, *least == largest),
        (SMALLEST, *least == -largest),
        (PAST_ONE_WORD, past),
    ];
    all.into_iter().filter(|(_, holds)| *holds).map(|(what, _)| what).collect()
}

/// How often what was met.
#[derive(Default)]
pub struct Met {
    cells: u64,
    said: BTreeMap<&'static str, u64>,
    /// Of each child, how often each number was told.
    pub told: [[u64; 27]; 8],
    /// The same where several hold the least.
    pub told_of_several: [[u64; 27]; 8],
}

fn add_each(to: &mut [[u64; 27]; 8], more: &[[u64; 27]; 8]) {
    for (to, more) in to.as_flattened_mut().iter_mut().zip(more.as_flattened()) {
        *to += more;
    }
}

impl Met {
    pub fn add_cell(&mut self, width: Width, children: &[Child; 8]) {
        self.cells += 1;
        for (k, child) in children.iter().enumerate() {
            let at = child.number as usize - 1;
            let said = said(width, child);
            self.told[k][at] += 1;
            if said.contains(&SEVERAL) {
                self.told_of_several[k][at] += 1;
            }
            said.into_iter().for_each(|what| *self.said.entry(what).or_insert(0) += 1);
        }
    }

    pub fn sum<'a>(parts: impl Iterator<Item = &'a Met>) -> Met {
        let mut whole = Met::default();
        for part in parts {
            whole.cells += part.cells;
            for (what, times) in &part.said {
                *whole.said.entry(what).or_insert(0) += times;
            }
            add_each(&mut whole.told, &part.told);
            add_each(&mut whole.told_of_several, &part.told_of_several);
        }
        whole
    }

    pub fn times(&self, what: &str) -> u64 {
        self.said.get(what).copied().unwrap_or(0)
    }
}

impl fmt::Display for Met {
    fn fmt(&self, f: &mut fmt::Formatter) -> fmt::Result {
        write!(f, "{} cells, {} children", self.cells, 8 * self.cells)?;
        for (what, times) in &self.said {
            write!(f, "; {what}: {times}")?;
        }
        let told = |at: usize| self.told.iter().map(move |child| child[at]);
        let each: Vec<String> = (0..27).map(|at| told(at).sum::<u64>().to_string()).collect();
        write!(f, "; at numbers 1 to 27: {}", each.join(" "))
    }
}
