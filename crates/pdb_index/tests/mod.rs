//! Tests of what no clause says: indexes worked out by hand, and any bytes.

mod damaged;
mod look_ups;
mod sample;
mod steps;
mod well_made;

use std::fmt::Debug;
use std::process::Abort;

// What was given is what was wanted: one proof for all comparisons of a type.
fn is<T: PartialEq + Debug>(rt: &impl Abort, label: &str, given: &T, wanted: &T) {
    assert!(rt; given == wanted, "{label}: {given:?}, and not {wanted:?}");
}
