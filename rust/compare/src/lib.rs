//! The built library and the second program, side by side.
//!
//! Both are asked the same questions, and every word of every answer is
//! compared: numbers, counts, stamps, all report words, bounds, address moves;
//! of a lot that is read or written also every word of the lent space, and the label
//! with its place; of an element's name its place; of a slip every byte; of numbers of
//! two words both words of every sum, difference, product and the like.
//! The library's auditor, a second inspector, is asked for every report and for bounds
//! too, and its words are compared with those of both.
//! What 01 says over depths is tested on the library's answers for every
//! element, accepted mesh and bounds, that the stamp is the one that the records give on
//! every accepted mesh, and what 02 says of writing and reading on every lot that is
//! accepted.  A difference carries its whole question, in one line
//! that `compare again` takes.

#![deny(warnings)]
#![forbid(unsafe_code)]

pub mod cases;
pub mod check;
pub mod draw;
pub mod elements;
pub mod lots;
pub mod program;
pub mod question;
pub mod run;
pub mod service;
