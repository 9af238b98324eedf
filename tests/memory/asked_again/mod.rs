//! What files, their parts and texts of addresses return when called again.

mod files;
mod parts;
mod resolver;

use std::fmt::Debug;
use std::process::Abort;

// What was given is what was wanted: one proof for all comparisons of a type.
fn is<T: PartialEq + Debug>(rt: &impl Abort, label: &str, given: &T, wanted: &T) {
    assert!(rt; given == wanted, "{label}: {given:?}, and not {wanted:?}");
}

fn put(bytes: &mut Vec<u8>, at: usize, part: &[u8]) {
    for (i, byte) in part.iter().enumerate() {
        if at < bytes.len() && i < bytes.len() - at {
            bytes[at + i] = *byte;
        }
    }
}
