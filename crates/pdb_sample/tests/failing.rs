//! Tests of `failing`.

use super::is;
use crate::FailingSource;
use pdb_base::{Error, MemorySource, Msf, Result, Source, SourceSlice, View};
use std::alloc::Global;

const INSIDE: SourceSlice = SourceSlice { offset: 1, size: 2 };

const OUTSIDE: SourceSlice = SourceSlice { offset: 9, size: 2 };

#[test]
fn one_view_fails(rt: HostRuntime) {
    let mut source = FailingSource::new(MemorySource::new(b"0123456789"), 1);
    assert!(rt; !source.steady());
    assert!(rt; source.view(rt.alloc(), &[INSIDE]).is_ok());
    assert!(rt; !source.steady());
    is(
        &rt,
        "source.view(rt.alloc(), &[INSIDE]).err()",
        &source.view(rt.alloc(), &[INSIDE]).err(),
        &Some(Error::IoError),
    );
    is(&rt, "source.failures()", &source.failures(), &1);
    assert!(rt; source.steady());
    let view = source.view(rt.alloc(), &[INSIDE]).expect(&rt, "a view");
    is(&rt, "view.as_slice()", &view.as_slice(), &b"12".as_slice());
    is(
        &rt,
        "source.view(rt.alloc(), &[OUTSIDE]).err()",
        &source.view(rt.alloc(), &[OUTSIDE]).err(),
        &Some(Error::UnexpectedEof),
    );
    is(&rt, "source.failures()", &source.failures(), &1);
}

#[test]
fn end_of_data_comes_first(rt: HostRuntime) {
    let mut source = FailingSource::new(MemorySource::new(b"0123456789"), 0);
    is(
        &rt,
        "source.view(rt.alloc(), &[INSIDE, OUTSIDE]).",
        &source.view(rt.alloc(), &[INSIDE, OUTSIDE]).err(),
        &Some(Error::UnexpectedEof),
    );
    is(&rt, "source.failures()", &source.failures(), &0);
    assert!(rt; source.steady());
    assert!(rt; source.view(rt.alloc(), &[INSIDE]).is_ok());
}

#[test]
fn spent_source(rt: HostRuntime) {
    let mut source = FailingSource::spent(MemorySource::new(b"0123456789"));
    assert!(rt; !source.steady());
    for _k in 0..3 {
        is(
            &rt,
            "source.view(rt.alloc(), &[INSIDE]).err()",
            &source.view(rt.alloc(), &[INSIDE]).err(),
            &Some(Error::IoError),
        );
        is(
            &rt,
            "source.view(rt.alloc(), &[OUTSIDE]).err()",
            &source.view(rt.alloc(), &[OUTSIDE]).err(),
            &Some(Error::UnexpectedEof),
        );
        is(&rt, "source.failures()", &source.failures(), &u64::MAX);
    }
}

#[test]
fn counts_of_two_sources(rt: HostRuntime) {
    let inner = FailingSource::new(MemorySource::new(b"0123456789"), 0);
    let mut source = FailingSource::new(inner, 0);
    is(
        &rt,
        "source.view(rt.alloc(), &[INSIDE]).err()",
        &source.view(rt.alloc(), &[INSIDE]).err(),
        &Some(Error::IoError),
    );
    is(&rt, "source.failures()", &source.failures(), &2);
    assert!(rt; source.steady());
}

#[test]
fn opening_over_failing_sources(rt: HostRuntime) {
    let alloc = rt.alloc();
    let bytes = crate::sample::file(alloc).expect(&rt, "the sample");
    let spent = FailingSource::spent(MemorySource::new(&bytes));
    is(
        &rt,
        "Msf::open(alloc, spent).err()",
        &Msf::open(alloc, spent).err(),
        &Some(Error::IoError),
    );
    for k in 0..4u64 {
        let source = FailingSource::new(MemorySource::new(&bytes), k);
        is(
            &rt,
            "Msf::open(alloc, source).err()",
            &Msf::open(alloc, source).err(),
            &Some(Error::IoError),
        );
    }
    let source = FailingSource::new(MemorySource::new(&bytes), 4);
    let mut msf = Msf::open(alloc, source).expect(&rt, "four views");
    is(
        &rt,
        "msf.get(1, None).err()",
        &msf.get(1, None).err(),
        &Some(Error::IoError),
    );
    is(&rt, "msf.failures()", &msf.failures(), &1);
    assert!(rt; msf.steady());
    assert!(rt; msf.get(1, None).is_ok());
}
