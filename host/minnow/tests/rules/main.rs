//! The safe calls held to the paper's rules: the night book's rows, every refusal, and what happens to blocks.

mod blocks;
mod made;
mod night_book;
mod refusals;
