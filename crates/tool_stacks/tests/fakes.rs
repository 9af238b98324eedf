//! What tests share.

ghost use Rattle.std.specs.Prelude.{None, false};

use crate::{FoundPdb, KnownModule, StackText, Symbols, put_missing};
use pdb_stacks::{ReturnAddresses, same_module};
use std::alloc::{AllocError, Global};
use std::fmt::Debug;
use std::process::Abort;

// What was given is what was wanted: one proof for all comparisons of a type.
pub fn is<T: PartialEq + Debug>(rt: &impl Abort, label: &str, given: &T, wanted: &T) {
    assert!(rt; given == wanted, "{label}: {given:?}, and not {wanted:?}");
}

/// One module that has a PDB, whose frames are stored texts.
#[derive(Drop)]
pub struct Fake<'a> {
    pub name: &'a [u8],
    pub module: KnownModule,
    /// The address at which a function begins.
    pub begin: u32,
    /// Addresses and their frames.
    pub frames: &'a [(u32, &'a [u8])],
}

impl<'a> Symbols for Fake<'a> {
    ghost state = { λ _. record { answers = record { pdb_of = λ _. None; begins_function = λ _ _. false; frames = λ _ _. None }; told = false } };

    fn pdb_of(&mut self, name: &[u8]) -> Result<Option<FoundPdb>, AllocError> {
        if same_module(self.name, name) {
            Ok(Some(FoundPdb {
                pdb: 3,
                module: self.module,
            }))
        } else {
            Ok(None)
        }
    }

    fn begins_function(&mut self, pdb: usize, address: u32) -> Result<bool, AllocError> {
        Ok(pdb == 3 && address == self.begin)
    }

    fn put_frames(
        &mut self,
        out: &mut Vec<u8>,
        pdb: usize,
        address: u32,
    ) -> Result<bool, AllocError> {
        for (at, text) in self.frames {
            if pdb == 3 && *at == address {
                out.extend_from_slice(text)?;
                return Ok(true);
            }
        }
        Ok(false)
    }
}

/// A text with its frames, and behind it the names without a PDB, and whether it is answered.
pub fn written(
    alloc: Global,
    text: &[u8],
    which: ReturnAddresses,
    fake: Fake<'_>,
) -> Result<Vec<u8>, AllocError> {
    let mut fake = fake;
    let mut stack = StackText::new(alloc, which);
    let mut out = Vec::new(alloc);
    let mut rest = text;
    for _ in 0..text.len() {
        let Some(end) = rest.iter().position(|b| *b == b'\n') else {
            break;
        };
        stack.put_line(&mut out, &mut fake, &rest[..end], true)?;
        rest = &rest[end + 1..];
    }
    if !rest.is_empty() {
        stack.put_line(&mut out, &mut fake, rest, false)?;
    }
    for missing in stack.missing() {
        put_missing(&mut out, missing)?;
        out.push(b'\n')?;
    }
    if !stack.is_answered() {
        out.extend_from_slice(b"not answered\n")?;
    }
    Ok(out)
}
