//! Tests of `words`.

use crate::tests::fakes::is;
use crate::words::*;
use std::env::FillError;
use std::io::ErrorKind;
use std::rt::Env;
use std::test::Fail;

/// The arguments of a program, its own name first.
#[derive(Clone, Copy)]
struct Given<'x> {
    args: &'x [&'x [u8]],
}

impl Env for Given<'_> {
    fn arg(&self, i: usize, buf: &mut [u8]) -> Result<usize, FillError> {
        match self.args.get(i) {
            Some(arg) if arg.len() <= buf.len() => {
                buf[..arg.len()].copy_from_slice(arg);
                Ok(arg.len())
            }
            Some(_) => Err(FillError::TooLong),
            None => Err(FillError::NotPresent),
        }
    }

    fn var(&self, _name: &str, _buf: &mut [u8]) -> Result<usize, FillError> {
        Err(FillError::NotPresent)
    }

    fn var_at(&self, _i: usize, _buf: &mut [u8]) -> Result<usize, FillError> {
        Err(FillError::NotPresent)
    }
}

#[test]
fn words_are_all_arguments_but_the_first(rt: HostRuntime) -> Result<(), Fail> {
    let rows: [(&[&[u8]], &[&[u8]]); 5] = [
        (&[], &[]),
        (&[b"pdb_list"], &[]),
        (&[b"pdb_list", b"a.pdb"], &[b"a.pdb"]),
        (&[b"", b"a.pdb", b"", b"a.pdb"], &[b"a.pdb", b"", b"a.pdb"]),
        (
            &[b"pdb_list", b"\xd0\xb6.pdb", b"info"],
            &[b"\xd0\xb6.pdb", b"info"],
        ),
    ];
    for (args, wanted) in rows {
        let words = words_of(&(Given { args }, rt.alloc()))?;
        is(&rt, "count", &words.len(), &wanted.len());
        for (i, word) in wanted.iter().enumerate() {
            is(&rt, "word", &words[i].as_bytes(), word);
        }
    }
    Ok(())
}

#[test]
fn words_that_are_no_text_are_an_error(rt: HostRuntime) {
    let rows: [&[&[u8]]; 3] = [
        &[b"pdb_list", b"\xff"],
        &[b"pdb_list", b"a.pdb", b"\xd0"],
        &[b"\xff", b"a.pdb"],
    ];
    for args in rows {
        match words_of(&(Given { args }, rt.alloc())) {
            Ok(words) => is(&rt, "no words", &words.len(), &usize::MAX),
            Err(e) => is(&rt, "kind", &e.kind(), &ErrorKind::InvalidData),
        }
    }
}
