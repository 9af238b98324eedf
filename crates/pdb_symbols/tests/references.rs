//! References.

use crate::tests::support::{record, says, says_exactly};
use crate::{AnnotationReferenceSymbol, DataReferenceSymbol, ProcedureReferenceSymbol, SymbolData};
use pdb_base::{RawString, Result, SymbolIndex};

#[test]
fn procedure_references_name_a_module_and_its_symbol(rt: HostRuntime) -> Result<()> {
    let rows: [(&[u8], bool, u32, Option<usize>, Option<&str>); 4] = [
        (
            b"\x00\x04\x00\x00\x00\x00\x6c\x00\x00\x00\x01\x00",
            true,
            108,
            Some(0),
            None,
        ),
        (
            b"\x25\x11\x00\x00\x00\x00\x6c\x00\x00\x00\x01\x00\x61\x00",
            true,
            108,
            Some(0),
            Some("a"),
        ),
        (
            b"\x27\x11\x00\x00\x00\x00\x80\x04\x00\x00\xb6\x00\x61\x00",
            false,
            1152,
            Some(181),
            Some("a"),
        ),
        (
            b"\x03\x04\x00\x00\x00\x00\x00\x00\x00\x00\x00\x00",
            false,
            0,
            None,
            None,
        ),
    ];
    for (bytes, global, index, module, name) in rows {
        let wanted = SymbolData::ProcedureReference(ProcedureReferenceSymbol {
            global,
            sum_name: 0,
            symbol_index: SymbolIndex(index),
            module,
            name: name.map(RawString::from),
        });
        says_exactly(&rt, rt.alloc(), "a procedure", bytes, &wanted, name)?;
    }
    Ok(())
}

#[test]
fn bytes_behind_a_reference_without_a_name_are_free(rt: HostRuntime) -> Result<()> {
    let wanted = SymbolData::ProcedureReference(ProcedureReferenceSymbol {
        global: true,
        sum_name: 0,
        symbol_index: SymbolIndex(108),
        module: Some(0),
        name: None,
    });
    let bytes = b"\x00\x04\x00\x00\x00\x00\x6c\x00\x00\x00\x01\x00\x03\x61\x62\x63";
    says(
        &rt,
        rt.alloc(),
        "a name that isn't read",
        bytes,
        &wanted,
        None,
    )
}

#[test]
fn data_references_name_a_module_and_its_symbol(rt: HostRuntime) -> Result<()> {
    let rows: [(u16, &[u8], Option<&str>); 2] = [
        (0x1126, b"\x61\x00", Some("a")),
        (0x0401, b"", None),
    ];
    for (kind, more, name) in rows {
        let bytes = record(
            rt.alloc(),
            kind,
            b"\x04\x03\x02\x01\x80\x04\x00\x00\xff\xff",
            more,
        )?;
        let wanted = SymbolData::DataReference(DataReferenceSymbol {
            sum_name: 0x0102_0304,
            symbol_index: SymbolIndex(1152),
            module: Some(65534),
            name: name.map(RawString::from),
        });
        says_exactly(&rt, rt.alloc(), "data", &bytes, &wanted, name)?;
    }
    Ok(())
}

#[test]
fn annotation_references_name_a_module_and_its_symbol(rt: HostRuntime) -> Result<()> {
    let rows: [(&[u8], Option<usize>); 2] = [
        (
            b"\x28\x11\x04\x03\x02\x01\x80\x04\x00\x00\x02\x00\x61\x00",
            Some(1),
        ),
        (
            b"\x28\x11\x04\x03\x02\x01\x80\x04\x00\x00\x00\x00\x61\x00",
            None,
        ),
    ];
    for (bytes, module) in rows {
        let wanted = SymbolData::AnnotationReference(AnnotationReferenceSymbol {
            sum_name: 0x0102_0304,
            symbol_index: SymbolIndex(1152),
            module,
            name: RawString::from("a"),
        });
        says_exactly(&rt, rt.alloc(), "an annotation", bytes, &wanted, Some("a"))?;
    }
    Ok(())
}
