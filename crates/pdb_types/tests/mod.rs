//! Tests of what no clause says: values from outside, and that calls succeed with ample memory.

mod definitions;
mod functions;
mod members;
mod names;
mod records;
mod simple;
mod support;
mod values;

use std::fmt::Debug;
use std::process::Abort;

// What was given is what was wanted: one proof for all comparisons of a type.
fn is<T: PartialEq + Debug>(rt: &impl Abort, label: &str, given: &T, wanted: &T) {
    assert!(rt; given == wanted, "{label}: {given:?}, and not {wanted:?}");
}
