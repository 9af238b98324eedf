//! Tests of `report`.

use crate::engine::RunError;
use crate::report::{Fault, report};
use crate::tests::fakes::{Slow, is};
use pdb::Error;
use pdb_file::FetchError;
use pdb_text::WordsError;
use std::alloc::AllocError;

#[test]
fn lines_and_statuses(rt: HostRuntime) {
    let rows: [(Fault, u8, &[u8]); 7] = [
        (Fault::Usage, 2, b"usage: pdb_list FILE COMMAND..\n"),
        (Fault::Read, 3, b"cannot read file\n"),
        (Fault::Open(3), 4, b"cannot open: 3\n"),
        (Fault::Open(22), 4, b"cannot open: 22\n"),
        (Fault::Open(255), 4, b"cannot open: 255\n"),
        (Fault::Memory, 5, b"out of memory\n"),
        (Fault::Write, 6, b"cannot write\n"),
    ];
    for (fault, status, line) in rows {
        let mut err = Slow::new(rt.alloc(), 64, 64);
        is(
            &rt,
            "report(&fault, &mut err)",
            &report(&fault, &mut err),
            &status,
        );
        is(&rt, "err.taken()", &err.taken(), &line);
    }
}

#[test]
fn passes_over_errors_of_the_writer(rt: HostRuntime) {
    let mut err = Slow::new(rt.alloc(), 5, 2);
    is(
        &rt,
        "report(&Fault::Open(3), &mut err)",
        &report(&Fault::Open(3), &mut err),
        &4,
    );
    is(&rt, "err.taken()", &err.taken(), &b"cannot ope".as_slice());
}

#[test]
fn faults_of_errors(rt: HostRuntime) {
    is(
        &rt,
        "Fault::from(RunError::Open(Error::Unrecogniz",
        &Fault::from(RunError::Open(Error::UnrecognizedFileFormat)),
        &Fault::Open(3),
    );
    is(
        &rt,
        "Fault::from(RunError::Open(Error::InvalidPag",
        &Fault::from(RunError::Open(Error::InvalidPageSize(513))),
        &Fault::Open(4),
    );
    is(
        &rt,
        "Fault::from(RunError::OutOfMemory)",
        &Fault::from(RunError::OutOfMemory),
        &Fault::Memory,
    );
    is(
        &rt,
        "Fault::from(RunError::Read)",
        &Fault::from(RunError::Read),
        &Fault::Read,
    );
    is(
        &rt,
        "Fault::from(RunError::Write)",
        &Fault::from(RunError::Write),
        &Fault::Write,
    );
    is(
        &rt,
        "Fault::from(WordsError::BadWord(1))",
        &Fault::from(WordsError::BadWord(1)),
        &Fault::Usage,
    );
    is(
        &rt,
        "Fault::from(WordsError::OutOfMemory)",
        &Fault::from(WordsError::OutOfMemory),
        &Fault::Memory,
    );
}
