//! Values from outside.

mod counted;
mod fakes;
mod parts;
mod whole;

use crate::{Held, Run};
use pdb_base::SourceSlice;
use std::alloc::{AllocError, Global};
use std::test::Fail;

/// The runs 2 to 4, 4 to 6 and 8 to 10 of a file of ten digits.
fn three_runs<'s>(alloc: Global) -> Result<Held<'s>, AllocError> {
    let mut held = Held::new(alloc, 10);
    held.insert(Run {
        at: 8,
        bytes: b"89",
    })?;
    held.insert(Run {
        at: 2,
        bytes: b"23",
    })?;
    held.insert(Run {
        at: 4,
        bytes: b"45",
    })?;
    Ok(held)
}

pub fn slice(offset: u64, size: usize) -> SourceSlice {
    SourceSlice { offset, size }
}

#[test]
fn runs_are_held_once_and_in_order(rt: HostRuntime) -> Result<(), Fail> {
    let alloc = rt.alloc();
    let mut held = three_runs(alloc)?;
    assert!(rt; held.count() == 3);
    assert!(rt; held.size() == 10);
    assert!(rt;
        !held.insert(Run {
            at: 3,
            bytes: b"34"
        })?
    );
    assert!(rt; !held.insert(Run { at: 9, bytes: b"9" })?);
    assert!(rt;
        !held.insert(Run {
            at: 1,
            bytes: b"12"
        })?
    );
    assert!(rt;
        !held.insert(Run {
            at: 10,
            bytes: b"a"
        })?
    );
    assert!(rt; held.from_place(3) == Some(b"3".as_slice()));
    assert!(rt; held.from_place(8) == Some(b"89".as_slice()));
    assert!(rt; held.from_place(6).is_none());
    assert!(rt; held.from_place(1).is_none());
    assert!(rt; held.next_place(6, 10) == 8);
    assert!(rt; held.next_place(6, 7) == 7);
    assert!(rt; held.next_place(8, 10) == 10);
    Ok(())
}
