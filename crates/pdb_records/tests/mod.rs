//! Worked examples: bytes, and what they mean.

mod damaged;
mod equality;
mod further;
mod names;
mod pieces;
mod registers;
mod rows;
mod support;
mod tables;
