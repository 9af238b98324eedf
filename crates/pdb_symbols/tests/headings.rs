//! What heads a record: its form and its name.

use crate::tests::support::{headed, is};
use crate::{Form, Heading};
use pdb_base::{Error, RawString, Result};

#[test]
fn a_record_is_headed_by_its_form_and_its_name(rt: HostRuntime) -> Result<()> {
    let rows: [(&[u8], Form, Option<&str>); 7] = [
        (b"\x06\x00", Form::ScopeEnd, None),
        (
            b"\x3e\x11\x74\x00\x00\x00\x01\x00argc\x00\xf2\xf1",
            Form::Local,
            Some("argc"),
        ),
        (
            b"\x09\x10\x02\x00\x00\x00\x10\x00\x00\x00\x01\x00\x04main",
            Form::Public,
            Some("main"),
        ),
        (
            b"\x07\x11\x74\x00\x00\x00\x02\x80\xff\xffMAX\x00",
            Form::Constant,
            Some("MAX"),
        ),
        (
            b"\x25\x11\x00\x00\x00\x00\x6c\x00\x00\x00\x01\x00main\x00",
            Form::ProcedureReference,
            Some("main"),
        ),
        (
            b"\x00\x04\x00\x00\x00\x00\x6c\x00\x00\x00\x01\x00",
            Form::ProcedureReference,
            None,
        ),
        (b"\x4c\x11\x06\x10\x00\x00", Form::BuildInfo, None),
    ];
    for (bytes, form, name) in rows {
        let wanted = Heading {
            form,
            name: name.map(RawString::from),
        };
        is(&rt, "heading", &headed(rt.alloc(), bytes)?, &wanted);
    }
    Ok(())
}

#[test]
fn a_kind_without_a_form_heads_nothing(rt: HostRuntime) {
    let refused = headed(rt.alloc(), b"\x42\x11").err();
    is(
        &rt,
        "refusal",
        &refused,
        &Some(Error::UnimplementedSymbolKind(0x1142)),
    );
}
