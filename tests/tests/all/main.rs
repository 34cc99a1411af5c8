//! All tests, as one program: they share what is compiled, and the cores.

mod cases;
mod fresh;
mod hand;
mod measured;
mod meeting;
mod names;
mod next;
mod reader;
mod refusals;
mod samples;
mod semantics;
mod writer;
