//! JSON objects of a file that is made by hand.

use super::parts::small;
use super::program::{one, prints, said};
use crate::tests::fakes::is;
use json::Writer;
use pdb::{QualifiedName, RawString};
use pdb_resolve::{Frame, FunctionName};
use std::alloc::AllocError;
use std::test::Fail;
use tool_lists::module_lists::put_size;
use tool_search::frame_objects::{put_asked_line, put_unasked_line};

#[test]
fn objects_of_addresses(rt: HostRuntime) -> Result<(), Fail> {
    let bytes = small(rt.alloc())?;
    let wanted: &[u8] =
        b"{\"asked\":\"1:5F\",\"frames\":[{\"name\":\"f\",\"file\":null,\"line\":0,\"column\":0}]}\n{\"asked\":\"0x17\",\"frames\":[{\"name\":null,\"file\":null,\"line\":0,\"column\":0}]}\n";
    let words = ["resolve", "a.pdb", "1:5F", "--json", "0x17"];
    prints(&rt, &bytes, &words, wanted)
}

#[test]
fn objects_of_frames(rt: HostRuntime) -> Result<(), AllocError> {
    let alloc = rt.alloc();
    let frames = [
        Frame {
            name: Some(FunctionName::Read(QualifiedName {
                scope: Some(RawString::from("n")),
                name: RawString::from(""),
            })),
            displacement: None,
            file: Some(RawString::from("a\\b\n.c")),
            line: 4_294_967_295,
            column: 7,
        },
        Frame {
            name: Some(FunctionName::Read(QualifiedName {
                scope: None,
                name: RawString::from(""),
            })),
            displacement: Some(4),
            file: Some(RawString::from("")),
            line: 1,
            column: 0,
        },
    ];
    let mut out = Vec::new(alloc);
    out.extend_from_slice(b"x\n")?;
    put_asked_line(alloc, &mut out, b"1:2", &frames)?;
    put_asked_line(alloc, &mut out, b"", &[])?;
    put_unasked_line(alloc, &mut out, b" x\r")?;
    let wanted: &[u8] =
        b"x\n{\"asked\":\"1:2\",\"frames\":[{\"name\":\"n::\",\"file\":\"a\\\\b\\n.c\",\"line\":4294967295,\"column\":7},{\"name\":null,\"file\":null,\"line\":1,\"column\":0}]}\n{\"asked\":\"\",\"frames\":[]}\n{\"asked\":\" x\\r\",\"frames\":null}\n";
    is(&rt, "out", &out.as_slice(), &wanted);
    Ok(())
}

#[test]
fn objects_of_lines(rt: HostRuntime) -> Result<(), Fail> {
    let alloc = rt.alloc();
    let bytes = small(alloc)?;
    let files = [("a.pdb", bytes.as_slice())];
    let words = ["resolve", "--json", "--addresses", "a.pdb"];
    let input: &[u8] = b" 1:50\r\nx \n\n1:\xff\xc3\xa9\n1:5f";
    let given = said(&one(alloc, &files, false), &words, input)?;
    is(&rt, "result", &given.result, &Ok(true));
    let wanted: &[u8] =
        b"{\"asked\":\"1:50\",\"frames\":[{\"name\":\"f\",\"file\":null,\"line\":0,\"column\":0}]}\n{\"asked\":\"x \",\"frames\":null}\n{\"asked\":\"\",\"frames\":null}\n{\"asked\":\"1:\xef\xbf\xbd\xc3\xa9\",\"frames\":null}\n{\"asked\":\"1:5f\",\"frames\":[{\"name\":\"f\",\"file\":null,\"line\":0,\"column\":0}]}\n";
    is(&rt, "out", &given.out.as_slice(), &wanted);
    Ok(())
}

#[test]
fn sums_above_2_to_the_53_are_strings(rt: HostRuntime) -> Result<(), AllocError> {
    let cases: [(u64, &[u8]); 4] = [
        (0, b"{\"bytes\":0}"),
        (9_007_199_254_740_992, b"{\"bytes\":9007199254740992}"),
        (9_007_199_254_740_993, b"{\"bytes\":\"9007199254740993\"}"),
        (u64::MAX, b"{\"bytes\":\"18446744073709551615\"}"),
    ];
    for (bytes, wanted) in &cases {
        let mut writer = Writer::new(Vec::new(rt.alloc()));
        writer.begin_object()?;
        put_size(rt.alloc(), &mut writer, *bytes)?;
        writer.end_object()?;
        is(&rt, "a size", &writer.into_inner().as_slice(), wanted);
    }
    Ok(())
}
