//! Worked examples: bytes, and what they mean.

mod annotations;
mod compilers;
mod damaged;
mod enums;
mod headings;
mod lists;
mod procedures;
mod references;
mod support;
mod tables;
mod thunks;
mod variables;
