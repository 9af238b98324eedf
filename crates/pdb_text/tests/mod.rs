//! Tests of what no clause says: values from outside, and that calls succeed with ample memory.

mod counted;
mod digits;
mod fakes;
mod one_line;
mod output;
mod words;
