//! What tests share.

use std::alloc::{AllocError, Global};
use std::fmt::Debug;
use std::process::Abort;

// What was given is what was wanted: one proof for all comparisons of a type.
pub fn is<T: PartialEq + Debug>(rt: &impl Abort, label: &str, given: &T, wanted: &T) {
    assert!(rt; given == wanted, "{label}: {given:?}, and not {wanted:?}");
}

/// The arguments of a line, each behind a blank.
pub fn words(alloc: Global, line: &str) -> Result<Vec<String>, AllocError> {
    let mut all = Vec::new(alloc);
    for word in line.split(' ') {
        all.push(String::from_str(alloc, word)?)?;
    }
    Ok(all)
}
