//! The bytes of streams.

use super::parts::small;
use super::program::{one, said};
use super::wanted::pdb;
use crate::tests::fakes::is;
use std::test::Fail;

#[test]
fn bytes_as_they_are(rt: HostRuntime) -> Result<(), Fail> {
    let bytes = pdb(rt.alloc(), 1)?;
    let files = [("a.pdb", bytes.as_slice())];
    for is_whole in [false, true] {
        let host = one(rt.alloc(), &files, is_whole);
        let given = said(&host, &["stream", "a.pdb", "1"], b"")?;
        is(&rt, "size", &given.out.len(), &40);
        is(
            &rt,
            "GUID",
            &&given.out[12..28],
            &b"\x00\x01\x02\x03\x04\x05\x06\x07\x08\x09\x0a\x0b\x0c\x0d\x0e\x0f".as_slice(),
        );
        is(&rt, "result", &given.result, &Ok(true));
        let given = said(&host, &["stream", "a.pdb", "0"], b"")?;
        is(&rt, "no bytes", &given.out.as_slice(), &b"".as_slice());
        is(&rt, "result", &given.result, &Ok(true));
    }
    Ok(())
}

#[test]
fn streams_that_are_not_there(rt: HostRuntime) -> Result<(), Fail> {
    let bytes = small(rt.alloc())?;
    let files = [("a.pdb", bytes.as_slice())];
    let host = one(rt.alloc(), &files, false);
    let rows: [(&str, &[u8]); 5] = [
        (
            "2",
            b"pdb_tool: a.pdb has no stream 2: pdb_tool streams FILE lists them\n",
        ),
        (
            "9",
            b"pdb_tool: a.pdb has no stream 9: pdb_tool streams FILE lists them\n",
        ),
        (
            "65535",
            b"pdb_tool: a.pdb has no stream 65535: pdb_tool streams FILE lists them\n",
        ),
        (
            "4294967299",
            b"pdb_tool: a.pdb has no stream 4294967299: pdb_tool streams FILE lists them\n",
        ),
        (
            "0x3",
            b"pdb_tool: a.pdb has no stream called 0x3: pdb_tool streams FILE lists them\n",
        ),
    ];
    for (stream, wanted) in rows {
        let given = said(&host, &["stream", "a.pdb", stream], b"")?;
        is(&rt, stream, &given.err.as_slice(), &wanted);
        is(&rt, stream, &given.out.len(), &0);
        is(&rt, stream, &given.result, &Ok(false));
    }
    Ok(())
}

#[test]
fn names_that_cannot_be_read(rt: HostRuntime) -> Result<(), Fail> {
    let bytes = pdb(rt.alloc(), 1)?;
    let files = [("a.pdb", bytes.as_slice())];
    let host = one(rt.alloc(), &files, false);
    let given = said(&host, &["stream", "a.pdb", "/names"], b"")?;
    let wanted: &[u8] = b"pdb_tool: a.pdb: the data ends before a record does\n";
    is(&rt, "err", &given.err.as_slice(), &wanted);
    is(&rt, "out", &given.out.len(), &0);
    is(&rt, "result", &given.result, &Ok(false));
    Ok(())
}
