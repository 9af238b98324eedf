//! Tests of what no clause says: values from outside, and that calls succeed with ample memory.

mod files;
mod images;
mod messages;
mod records;
mod types;

use std::fmt::Debug;
use std::process::Abort;

// What was given is what was wanted: one proof for all comparisons of a type.
fn is<T: PartialEq + Debug>(rt: &impl Abort, label: &str, given: &T, wanted: &T) {
    assert!(rt; given == wanted, "{label}: {given:?}, and not {wanted:?}");
}

fn put(bytes: &mut Vec<u8>, at: usize, part: &[u8]) {
    for (i, byte) in part.iter().enumerate() {
        if at < bytes.len() && i < bytes.len() - at {
            bytes[at + i] = *byte;
        }
    }
}

fn put_numbers(bytes: &mut Vec<u8>, at: usize, numbers: &[u32]) {
    for (i, number) in numbers.iter().enumerate() {
        if i < 64 && at < 65536 {
            put(bytes, at + 4 * i, &number.to_le_bytes());
        }
    }
}
