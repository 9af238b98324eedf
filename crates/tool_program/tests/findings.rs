//! Tests of `findings`.

use crate::tests::fakes::is;
use pdb::{BinaryAnnotations, BinaryAnnotationsIter, Error, FallibleIterator, SymbolIndex};
use std::test::Fail;
use tool_arguments::options::OutputFormat;
use tool_check::findings::{
    put_answer, put_damage, put_damage_at, put_end, put_list, put_refusal, put_refused_record,
};
use tool_check::subject::Subject;
use tool_output::stop::Stop;

#[test]
fn what_is_not_there_has_no_line(rt: HostRuntime) -> Result<(), Fail> {
    let mut out = Vec::new(rt.alloc());
    let subject = Subject::new(OutputFormat::Text, b"a", b"");
    put_damage(&mut out, &subject, b"names", Error::StreamNameNotFound)?;
    put_damage(&mut out, &subject, b"names", Error::GlobalSymbolsNotFound)?;
    let (index, kind) = (4, Error::UnimplementedSymbolKind(7));
    put_damage_at(rt.alloc(), &mut out, &subject, b"symbol ", index, kind)?;
    is(&rt, "out.is_empty()", &out.is_empty(), &true);
    put_damage(&mut out, &subject, b"names", Error::AddressMapNotFound)?;
    put_damage_at(
        rt.alloc(),
        &mut out,
        &Subject::new(OutputFormat::Text, b"a", b"module 1"),
        b" symbol ",
        0xabc,
        Error::UnexpectedEof,
    )?;
    let wanted: &[u8] = b"a: names: the file has no complete address map\n\
        a: module 1 symbol 00000abc: the data ends before a record does\n";
    is(&rt, "out.as_slice()", &out.as_slice(), &wanted);
    Ok(())
}

#[test]
fn want_of_memory_and_failures_are_passed_on(rt: HostRuntime) -> Result<(), Fail> {
    let mut out = Vec::new(rt.alloc());
    let subject = Subject::new(OutputFormat::Text, b"a", b"");
    let wanted = Error::OutOfMemory;
    let given = put_refusal(&mut out, &subject, b"ids", wanted);
    is(&rt, "no memory", &given, &Err(Stop::Memory));
    let given = put_refusal(&mut out, &subject, b"ids", Error::IoError);
    is(&rt, "a failure", &given, &Err(Stop::Read));
    let given = put_answer::<u8>(&mut out, &subject, b"ids", Err(wanted));
    is(&rt, "an answer", &given, &Err(Stop::Memory));
    let index = SymbolIndex(4);
    let given = put_refused_record(rt.alloc(), &mut out, &subject, b"", index, wanted);
    is(&rt, "a record", &given, &Err(Stop::Memory));
    is(&rt, "out.is_empty()", &out.is_empty(), &true);
    Ok(())
}

#[test]
fn answers_and_lists(rt: HostRuntime) -> Result<(), Fail> {
    let mut out = Vec::new(rt.alloc());
    let subject = Subject::new(OutputFormat::Text, b"a", b"");
    let whole = BinaryAnnotations::new(&[1, 2]);
    let damaged = BinaryAnnotations::new(&[1, 2, 14]);
    let answer = put_answer(&mut out, &subject, b"first", Ok(7u8));
    is(&rt, "an answer", &answer, &Ok(()));
    put_end(&mut out, &subject, b"second", whole.iter())?;
    put_end(&mut out, &subject, b"third", damaged.iter())?;
    let list = put_list(&mut out, &subject, b"fourth", Ok(damaged.iter()));
    is(&rt, "a list", &list, &Ok(()));
    let refused: pdb::Result<BinaryAnnotationsIter<'_>> = Err(Error::StreamNotFound(2));
    let list = put_list(&mut out, &subject, b"fifth", refused);
    is(&rt, "a refused list", &list, &Ok(()));
    let wanted: &[u8] = b"a: third: binary annotation 14 is unknown\n\
        a: fourth: binary annotation 14 is unknown\n\
        a: fifth: there is no stream 2\n";
    is(&rt, "out.as_slice()", &out.as_slice(), &wanted);
    Ok(())
}
