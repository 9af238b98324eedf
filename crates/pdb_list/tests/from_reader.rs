//! Tests of `from_reader`.

use super::texts::{TEXTS, joined};
use super::views::whole_texts;
use crate::SAMPLE_COMMANDS;
use crate::from_reader::list_from;
use crate::report::Fault;
use crate::tests::fakes::{Places, Slow, is};
use std::test::Fail;

#[test]
fn texts_are_those_of_the_file_read_whole(rt: HostRuntime) -> Result<(), Fail> {
    let alloc = rt.alloc();
    let bytes = pdb_sample::file(alloc)?;
    let size = bytes.len() as u64;
    let whole = joined(alloc, &TEXTS)?;
    for step in [1usize, 100, 65536] {
        let input = Places::of(&bytes, step);
        let mut out = Slow::new(alloc, 4096, 999);
        let listed = list_from(alloc, &input, size, &SAMPLE_COMMANDS, &mut out);
        is(&rt, "listed", &listed, &Ok(()));
        is(&rt, "out.taken()", &out.taken(), &whole.as_slice());
    }
    // A reader that can't fail.
    let mut out = Slow::new(alloc, 4096, 999);
    let listed = list_from(alloc, &bytes, size, &SAMPLE_COMMANDS, &mut out);
    is(&rt, "listed", &listed, &Ok(()));
    is(&rt, "out.taken()", &out.taken(), &whole.as_slice());
    Ok(())
}

#[test]
fn reads_that_fail_or_end(rt: HostRuntime) -> Result<(), Fail> {
    let alloc = rt.alloc();
    let bytes = pdb_sample::file(alloc)?;
    let size = bytes.len() as u64;
    for fails in [true, false] {
        let mut done = false;
        for reads in 0..80u32 {
            let input = Places::ending(&bytes, 100, reads, fails);
            let mut out = Slow::new(alloc, 4096, 999);
            let listed = list_from(alloc, &input, size, &SAMPLE_COMMANDS, &mut out);
            let written = whole_texts(alloc, &TEXTS, out.taken())?;
            done = listed.is_ok();
            if done {
                is(&rt, "all texts", &written, &Some(12));
            } else {
                is(&rt, "listed", &listed, &Err(Fault::Read));
                is(&rt, "whole texts", &written.is_some(), &true);
            }
        }
        is(&rt, "so many reads are enough", &done, &true);
    }
    let mut out = Slow::new(alloc, 4096, 999);
    let shrank = list_from(alloc, &bytes, size + 1, &SAMPLE_COMMANDS, &mut out);
    is(&rt, "a file that shrank", &shrank, &Err(Fault::Read));
    Ok(())
}
