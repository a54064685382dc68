//! What is asked of one service: listed questions, and random ones, each from a seed.

use crate::question::Question;
use crate::run::Plan;
use second::specimens::Shaker;

/// Corpora, what each holds and its questions, made one after the other.
pub type Corpora = Box<dyn Iterator<Item = (&'static str, Vec<Question>)>>;

/// A kind of random question.
pub type Draw = fn(&mut Shaker) -> Question;

pub struct Service {
    pub name: &'static str,
    pub listed: fn() -> Corpora,
    pub drawn: &'static [(&'static str, Draw)],
    /// How many are drawn of each kind.
    pub count: fn(Plan) -> usize,
    /// What an answer's words are counted as.
    pub met: fn(&Question, &[i64]) -> Vec<String>,
    /// What has to be met.
    pub needed: fn() -> Vec<String>,
}

/// What makes the questions of a corpus.
pub type Make = fn() -> Vec<Question>;

pub fn made<const N: usize>(corpora: [(&'static str, Make); N]) -> Corpora {
    Box::new(corpora.into_iter().map(|(name, questions)| (name, questions())))
}

/// An answer by its number.
pub fn numbered(number: i64) -> String {
    format!("number {number}")
}

pub fn by_number(_: &Question, words: &[i64]) -> Vec<String> {
    vec![numbered(words[0])]
}

pub fn all_numbered(numbers: impl IntoIterator<Item = i64>) -> Vec<String> {
    numbers.into_iter().map(numbered).collect()
}
