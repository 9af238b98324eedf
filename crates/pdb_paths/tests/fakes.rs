//! What tests share.

use std::fmt::Debug;
use std::process::Abort;

// What was given is what was wanted: one proof for all comparisons of a type.
pub fn is<T: PartialEq + Debug>(rt: &impl Abort, label: &str, given: &T, wanted: &T) {
    assert!(rt; given == wanted, "{label}: {given:?}, and not {wanted:?}");
}
