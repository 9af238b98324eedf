//! Tests of `arguments`.

use crate::arguments::*;
use crate::tests::fakes::is;
use std::env::FillError;
use std::rt::Env;
use std::test::Fail;

/// The arguments of a program, its own name first.
#[derive(Clone, Copy)]
struct Given<'x> {
    args: &'x [&'x [u8]],
}

impl Env for Given<'_> {
    fn arg(&self, i: usize, buf: &mut [u8]) -> Result<usize, FillError> {
        match self.args.get(i) {
            Some(arg) if arg.len() <= buf.len() => {
                buf[..arg.len()].copy_from_slice(arg);
                Ok(arg.len())
            }
            Some(_) => Err(FillError::TooLong),
            None => Err(FillError::NotPresent),
        }
    }

    // The variable `long` has as many bytes as there are arguments, times 1000.
    fn var(&self, name: &str, buf: &mut [u8]) -> Result<usize, FillError> {
        let size = self.args.len() * 1000;
        if name != "long" {
            return Err(FillError::NotPresent);
        }
        if buf.len() < size {
            return Err(FillError::TooLong);
        }
        buf[..size].fill(b'v');
        Ok(size)
    }

    fn var_at(&self, _i: usize, _buf: &mut [u8]) -> Result<usize, FillError> {
        Err(FillError::NotPresent)
    }
}

/// The program's arguments, the arguments behind its name as they are shown, and the indices of those that are no text.
type Row<'x> = (&'x [&'x [u8]], &'x [&'x str], &'x [usize]);

#[test]
fn an_argument_that_is_no_text_spoils_no_other(rt: HostRuntime) -> Result<(), Fail> {
    let rows: [Row<'_>; 6] = [
        (&[], &[], &[]),
        (&[b"pdb_tool"], &[], &[]),
        (
            &[b"\xff", b"key", b"", b"\xd0\xb6.pdb"],
            &["key", "", "\u{436}.pdb"],
            &[],
        ),
        (
            &[b"pdb_tool", b"\xff", b"a.pdb"],
            &["\u{fffd}", "a.pdb"],
            &[0],
        ),
        // A character of three bytes without its last one is one piece, and two bytes that begin none are two.
        (
            &[b"pdb_tool", b"key", b"a\xe2\x82b"],
            &["key", "a\u{fffd}b"],
            &[1],
        ),
        (
            &[b"pdb_tool", b"\x80\x80", b"x", b"\xd0"],
            &["\u{fffd}\u{fffd}", "x", "\u{fffd}"],
            &[0, 2],
        ),
    ];
    for (args, wanted, not_text) in rows {
        let given = arguments_of(&(Given { args }, rt.alloc()))?;
        is(&rt, "count", &given.words.len(), &wanted.len());
        for (word, wanted) in given.words.iter().zip(wanted) {
            is(&rt, "word", &word.as_str(), wanted);
        }
        is(&rt, "not text", &given.not_text.as_slice(), &not_text);
    }
    Ok(())
}

#[test]
fn an_argument_is_longer_than_the_first_buffer(rt: HostRuntime) -> Result<(), Fail> {
    for size in [4095, 4096, 4097, 131072] {
        let mut long = Vec::new(rt.alloc());
        long.resize(size, b'a')?;
        let args = [b"pdb_tool".as_slice(), long.as_slice(), b"b"];
        let given = arguments_of(&(Given { args: &args }, rt.alloc()))?;
        is(&rt, "count", &given.words.len(), &2);
        is(&rt, "long", &given.words[0].as_bytes(), &long.as_slice());
        is(&rt, "next", &given.words[1].as_str(), &"b");
    }
    Ok(())
}

#[test]
fn a_variable_of_any_length(rt: HostRuntime) -> Result<(), Fail> {
    let args: [&[u8]; 9] = [b""; 9];
    for count in [0, 1, 5, 9] {
        let given = (
            Given {
                args: &args[..count],
            },
            rt.alloc(),
        );
        let value = variable_of(&given, "long")?.expect(&rt, "a variable");
        is(&rt, "size", &value.len(), &(count * 1000));
        is(&rt, "bytes", &value.iter().all(|byte| *byte == b'v'), &true);
        is(&rt, "another", &variable_of(&given, "other")?, &None);
    }
    Ok(())
}
