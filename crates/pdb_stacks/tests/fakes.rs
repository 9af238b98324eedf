//! What tests share.

use crate::{Reference, Span, put_references};
use std::alloc::{AllocError, Global};
use std::fmt::Debug;
use std::process::Abort;

// What was given is what was wanted: one proof for all comparisons of a type.
pub fn is<T: PartialEq + Debug>(rt: &impl Abort, label: &str, given: &T, wanted: &T) {
    assert!(rt; given == wanted, "{label}: {given:?}, and not {wanted:?}");
}

/// Appends a number in hex.
pub fn put_hex(out: &mut Vec<u8>, number: u64) -> Result<(), AllocError> {
    let text = format!(in *out.allocator(); "{number:x}")?;
    out.extend_from_slice(text.as_bytes())
}

/// Appends the bytes of a piece, or `?` where it is none of the line.
fn put_piece(out: &mut Vec<u8>, line: &[u8], piece: Span) -> Result<(), AllocError> {
    match line.get(piece.start..piece.end) {
        Some(bytes) => out.extend_from_slice(bytes),
        None => Ok(out.push(b'?')?),
    }
}

/// Appends `module symbol number`, in which the symbol may be missing, and `)` where one follows.
fn put_reference(out: &mut Vec<u8>, line: &[u8], reference: &Reference) -> Result<(), AllocError> {
    put_piece(out, line, reference.module)?;
    out.push(b' ')?;
    if let Some(symbol) = reference.symbol {
        put_piece(out, line, symbol)?;
        out.push(b' ')?;
    }
    put_hex(out, reference.number)?;
    if reference.is_closed {
        out.push(b')')?;
    }
    Ok(out.push(b';')?)
}

/// Appends references.
pub fn put_all(out: &mut Vec<u8>, line: &[u8], references: &[Reference]) -> Result<(), AllocError> {
    for reference in references {
        put_reference(out, line, reference)?;
    }
    Ok(())
}

/// The references of a line, as text.
pub fn references_of(alloc: Global, line: &[u8]) -> Result<Vec<u8>, AllocError> {
    let mut references = Vec::new(alloc);
    put_references(&mut references, line)?;
    let mut out = Vec::new(alloc);
    put_all(&mut out, line, &references)?;
    Ok(out)
}

/// The texts of a line's references.
pub fn texts_of(alloc: Global, line: &[u8]) -> Result<Vec<u8>, AllocError> {
    let mut references = Vec::new(alloc);
    put_references(&mut references, line)?;
    let mut out = Vec::new(alloc);
    for reference in references.iter() {
        put_piece(&mut out, line, reference.text)?;
        out.push(b';')?;
    }
    Ok(out)
}
