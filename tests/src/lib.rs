//! Document 01 and what has landed of document 02 a second time, in plain Rust, to test the proved judge, reader, writer and lists of
//! what may come next against. It is written from the documents and the decisions on their open points, and shares no code with them.
//!
//! What is here, from the bottom up:
//! - `sets`: sets of joint events; `term`: terms, closings, states; `refusals`: the checks 1 to 14, 22 and 23; `matching`: which records
//!   a node takes.
//! - `rules`: the rules as plain lists, sentence by sentence; `guided`: the same successors one at a time.
//! - `reader`: the flow file; `writer`: the flow file written; `judge`: the counted search and the answer, with names and without;
//!   `next`: what may come next, by a search of its own; `program`: a flow file judged with its names.
//! - `printed`: the published trace semantics as explicit sets; `traces`: the same for flows that may get stuck; `laws`: the laws of
//!   demand 3.
//! - `selfcheck`: `judge` and `next` against `traces` and against each other, `traces` against `printed`, `guided` against `rules`, with
//!   and without a memory, the laws against `judge` and `next`.
//! - `cases`: cases for `replay`; `compare`: its lines against ours; `samples`, `measured`: flow files to try and to measure.
//! - `drawing`, `random`, `flowfile`, `rng`: flows, records and files, by hand and at random.

pub mod by_hand;
pub mod cases;
pub mod compare;
pub mod drawing;
pub mod flowfile;
pub mod guided;
pub mod judge;
pub mod laws;
pub mod matching;
pub mod measured;
pub mod next;
pub mod printed;
pub mod program;
pub mod random;
pub mod reader;
pub mod refusals;
pub mod rng;
pub mod rules;
pub mod samples;
pub mod selfcheck;
pub mod sets;
pub mod term;
pub mod traces;
pub mod writer;
