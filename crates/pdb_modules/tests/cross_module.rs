//! Imports and exports.

use crate::tests::lists::{gives, is};
use crate::tests::streams::lines_info;
use crate::{
    CrossModuleExport, CrossModuleExportIter, CrossModuleExports, CrossModuleImports,
    CrossModuleRef, FileIterator, InlineeIterator, InlineeLineIterator, LineIterator, ModuleRef,
};
use pdb_base::{
    Error, FallibleIterator, IdIndex, Local, Part, Result, Steps, StringRef, TypeIndex,
};
use std::alloc::Global;
use std::process::Abort;

/// The exports of lines data answer these global numbers for local ones, also with counted comparisons and in a copy.
fn exported(
    rt: &impl Abort,
    alloc: Global,
    lines_data: &[u8],
    wanted: &[(u32, Option<u32>)],
) -> Result<()> {
    let exports = lines_info(rt, lines_data)?.exports(alloc)?;
    let copy = exports.try_clone(alloc)?;
    is(rt, "as many", &copy.len(), &exports.len());
    for (local, global) in wanted {
        let wanted = match global {
            Some(global) => Some(TypeIndex(*global)),
            None => None,
        };
        let local = Local(TypeIndex(*local));
        is(rt, "found", &exports.resolve_import(local)?, &wanted);
        is(rt, "in a copy", &copy.resolve_import(local)?, &wanted);
        let counted = exports.resolve_import_counted(local, &mut Steps::new())?;
        is(rt, "counted", &counted, &wanted);
    }
    Ok(())
}

#[test]
fn the_first_export_of_a_local_number_is_found(rt: HostRuntime) -> Result<()> {
    let alloc = rt.alloc();
    let unsorted =
        b"\xf8\x00\x00\x00\x18\x00\x00\x00\x20\x10\x00\x00\x01\x00\x00\x00\x1f\x10\x00\x00\x02\x00\
          \x00\x00\x20\x10\x00\x00\x03\x00\x00\x00";
    exported(
        &rt,
        alloc,
        unsorted,
        &[(0x1020, Some(1)), (0x101f, Some(2)), (0xfeed, None)],
    )?;
    let increasing =
        b"\xf8\x00\x00\x00\x18\x00\x00\x00\x01\x00\x00\x00\x07\x00\x00\x00\x02\x00\x00\x00\x08\x00\
          \x00\x00\x03\x00\x00\x00\x09\x00\x00\x00";
    exported(
        &rt,
        alloc,
        increasing,
        &[
            (1, Some(7)),
            (2, Some(8)),
            (3, Some(9)),
            (4, None),
            (0, None),
        ],
    )?;
    let equal =
        b"\xf8\x00\x00\x00\x18\x00\x00\x00\x01\x00\x00\x00\x07\x00\x00\x00\x01\x00\x00\x00\x08\x00\
          \x00\x00\x02\x00\x00\x00\x09\x00\x00\x00";
    exported(&rt, alloc, equal, &[(1, Some(7)), (2, Some(9)), (3, None)])?;
    Ok(())
}

#[test]
fn exports_in_no_order_and_none(rt: HostRuntime) -> Result<()> {
    let alloc = rt.alloc();
    let falling =
        b"\xf8\x00\x00\x00\x18\x00\x00\x00\x05\x00\x00\x00\x01\x00\x00\x00\x04\x00\x00\x00\x02\x00\
          \x00\x00\x05\x00\x00\x00\x03\x00\x00\x00";
    exported(
        &rt,
        alloc,
        falling,
        &[(5, Some(1)), (4, Some(2)), (3, None)],
    )?;
    exported(&rt, alloc, b"", &[(1, None)])?;
    let behind_a_marked_one =
        b"\x01\x00\x00\x80\x00\x00\x00\x00\xf8\x00\x00\x00\x08\x00\x00\x00\x01\x00\x00\x00\x07\x00\
          \x00\x00";
    exported(&rt, alloc, behind_a_marked_one, &[(1, Some(7))])?;
    Ok(())
}

#[test]
fn exports_are_types_and_ids_in_file_order(rt: HostRuntime) -> Result<()> {
    let alloc = rt.alloc();
    let exports = lines_info(
        &rt,
        b"\xf8\x00\x00\x00\x20\x00\x00\x00\x1f\x10\x00\x00\x0c\x10\x00\x00\x20\x10\x00\x00\x4f\x22\
          \x00\x00\x5c\x11\x00\x80\x61\x11\x00\x00\x6d\x11\x00\x80\x62\x11\x00\x00",
    )?
    .exports(alloc)?;
    let wanted = [
        CrossModuleExport::Type(Local(TypeIndex(0x101f)), TypeIndex(0x100c)),
        CrossModuleExport::Type(Local(TypeIndex(0x1020)), TypeIndex(0x224f)),
        CrossModuleExport::Id(Local(IdIndex(0x8000_115c)), IdIndex(0x1161)),
        CrossModuleExport::Id(Local(IdIndex(0x8000_116d)), IdIndex(0x1162)),
    ];
    gives(&rt, "exports", exports.exports(), &wanted, None);
    is(&rt, "how many", &exports.len(), &4);
    is(&rt, "not empty", &exports.is_empty(), &false);
    let found = exports.resolve_import(Local(IdIndex(0x8000_115c)))?;
    is(&rt, "an id", &found, &Some(IdIndex(0x1161)));
    is(&rt, "is an id", &wanted[2].is_id(), &true);
    is(&rt, "is a type", &wanted[0].is_id(), &false);
    is(&rt, "local", &wanted[2].local_number(), &0x8000_115c);
    is(&rt, "global", &wanted[1].global_number(), &0x224f);
    let info = lines_info(
        &rt,
        b"\xf8\x00\x00\x00\x0c\x00\x00\x00\x00\x00\x00\x00\x00\x00\x00\x00\x00\x00\x00\x00",
    )?;
    let refused = Some(Error::InvalidStreamLength(Part::CrossScopeExports));
    is(&rt, "twelve bytes", &info.exports(alloc).err(), &refused);
    Ok(())
}

/// An index refers to this module and local number, or to none.
fn refers(
    rt: &impl Abort,
    imports: &CrossModuleImports<'_>,
    index: u32,
    wanted: std::result::Result<(u32, u32), Error>,
) {
    let given = match imports.resolve_import(IdIndex(index)) {
        Ok(found) => Ok((found.0.0.0, found.1.0.0)),
        Err(error) => Err(error),
    };
    is(rt, "a reference", &given, &wanted);
}

#[test]
fn imports_are_found_by_place(rt: HostRuntime) -> Result<()> {
    let alloc = rt.alloc();
    let info = lines_info(
        &rt,
        b"\xf7\x00\x00\x00\x4c\x00\x00\x00\xbd\x2c\x00\x00\x0e\x00\x00\x00\xab\x13\x00\x80\x25\x14\
          \x00\x80\xa1\x13\x00\x80\x5a\x14\x00\x80\x9f\x13\x00\x80\x37\x14\x00\x80\x6d\x11\x00\x80\
          \xee\x11\x00\x80\xf6\x13\x00\x80\x45\x14\x00\x80\x68\x13\x00\x80\x94\x14\x00\x80\xc3\x14\
          \x00\x80\xdb\x14\x00\x80\x15\xde\x00\x00\x01\x00\x00\x00\x60\x16\x00\x80",
    )?;
    let imports = info.imports(alloc)?;
    let copy = imports.try_clone(alloc)?;
    for imports in [&imports, &copy] {
        refers(&rt, imports, 0x8000_0000, Ok((0x2cbd, 0x8000_13ab)));
        refers(&rt, imports, 0x8000_000a, Ok((0x2cbd, 0x8000_1368)));
        refers(&rt, imports, 0x8000_000d, Ok((0x2cbd, 0x8000_14db)));
        refers(&rt, imports, 0x8010_0000, Ok((0xde15, 0x8000_1660)));
        refers(
            &rt,
            imports,
            0x8000_000e,
            Err(Error::CrossModuleRefNotFound(0x8000_000e)),
        );
        refers(
            &rt,
            imports,
            0x8020_0000,
            Err(Error::CrossModuleRefNotFound(0x8020_0000)),
        );
        refers(&rt, imports, 0x1000, Err(Error::NotACrossModuleRef(0x1000)));
    }
    let found = imports.resolve_import(TypeIndex(0x8000_000a))?;
    let wanted = CrossModuleRef(ModuleRef(StringRef(0x2cbd)), Local(TypeIndex(0x8000_1368)));
    is(&rt, "a type", &found, &wanted);
    Ok(())
}

#[test]
fn imports_of_modules_of_one_name(rt: HostRuntime) -> Result<()> {
    let info = lines_info(
        &rt,
        b"\xf7\x00\x00\x00\x1c\x00\x00\x00\x01\x00\x00\x00\x01\x00\x00\x00\x05\x00\x00\x00\x01\x00\
          \x00\x00\x02\x00\x00\x00\x06\x00\x00\x00\x07\x00\x00\x00",
    )?;
    let imports = info.imports(rt.alloc())?;
    refers(
        &rt,
        &imports,
        0x8000_0001,
        Err(Error::CrossModuleRefNotFound(0x8000_0001)),
    );
    refers(&rt, &imports, 0x8010_0000, Ok((1, 6)));
    refers(&rt, &imports, 0x8010_0001, Ok((1, 7)));
    let info = lines_info(
        &rt,
        b"\xf7\x00\x00\x00\x08\x00\x00\x00\x01\x00\x00\x00\xff\xff\xff\xff",
    )?;
    is(
        &rt,
        "a count past the end",
        &info.imports(rt.alloc()).err(),
        &Some(Error::UnexpectedEof),
    );
    Ok(())
}

#[test]
fn a_module_is_shown_by_its_name(
    rt: HostRuntime,
) -> std::result::Result<(), std::alloc::AllocError> {
    let text = format!(in rt.alloc(); "{}", ModuleRef(StringRef(0x2cbd)))?;
    is(&rt, "its text", &text.as_str(), &"0x2cbd");
    Ok(())
}

#[test]
fn empty_tables_and_default_lists(rt: HostRuntime) {
    let exports = CrossModuleExports::empty(rt.alloc());
    is(&rt, "empty", &exports.is_empty(), &true);
    gives(&rt, "exports of none", exports.exports(), &[], None);
    gives(&rt, "exports", CrossModuleExportIter::default(), &[], None);
    gives(&rt, "lines", LineIterator::default(), &[], None);
    gives(
        &rt,
        "lines of a site",
        InlineeLineIterator::default(),
        &[],
        None,
    );
    gives(&rt, "files", FileIterator::default(), &[], None);
    is(
        &rt,
        "inlined functions",
        &InlineeIterator::default().count(),
        &Ok(0),
    );
    let imports = CrossModuleImports::empty(rt.alloc());
    refers(
        &rt,
        &imports,
        0x8000_0000,
        Err(Error::CrossModuleRefNotFound(0x8000_0000)),
    );
}

/// A subsection of this kind with so many pairs of numbers: k and k times 3.
fn pairs(alloc: Global, kind: u32, count: u32) -> Result<Vec<u8>> {
    let mut bytes = Vec::new(alloc);
    bytes.extend_from_slice(&kind.to_le_bytes())?;
    bytes.extend_from_slice(&count.saturating_mul(8).to_le_bytes())?;
    for k in 0..count {
        bytes.extend_from_slice(&k.to_le_bytes())?;
        bytes.extend_from_slice(&k.saturating_mul(3).to_le_bytes())?;
    }
    Ok(bytes)
}

#[test]
fn hundreds_of_exports_are_read(rt: HostRuntime) -> Result<()> {
    for count in [1u32, 5, 300] {
        let bytes = pairs(rt.alloc(), 0xf8, count)?;
        let exports = lines_info(&rt, &bytes)?.exports(rt.alloc())?;
        is(&rt, "as many", &exports.len(), &(count as usize));
        let last = exports.resolve_import(Local(TypeIndex(count - 1)))?;
        is(&rt, "the last", &last, &Some(TypeIndex(3 * count - 3)));
    }
    Ok(())
}

/// A subsection of imports from so many modules, each with one number: the module's place and 7.
fn many_imports(alloc: Global, count: u32) -> Result<Vec<u8>> {
    let mut bytes = Vec::new(alloc);
    bytes.extend_from_slice(&0xf7u32.to_le_bytes())?;
    bytes.extend_from_slice(&count.saturating_mul(12).to_le_bytes())?;
    for k in 0..count {
        for number in [k, 1, k.saturating_add(7)] {
            bytes.extend_from_slice(&number.to_le_bytes())?;
        }
    }
    Ok(bytes)
}

#[test]
fn hundreds_of_imports_are_read(rt: HostRuntime) -> Result<()> {
    for count in [1u32, 3, 200] {
        let bytes = many_imports(rt.alloc(), count)?;
        let info = lines_info(&rt, &bytes)?;
        let imports = info.imports(rt.alloc())?;
        let last = TypeIndex(0x8000_0000 + (count - 1) * 0x10_0000);
        let found = imports.resolve_import(last)?;
        is(&rt, "name", &found.0, &ModuleRef(StringRef(count - 1)));
        is(&rt, "number", &found.1, &Local(TypeIndex(count + 6)));
    }
    Ok(())
}

/// How many modules are imported from: one more than ten bits count.
const MODULES: u32 = 1030;

#[test]
fn the_module_of_an_index_has_eleven_bits(rt: HostRuntime) -> Result<()> {
    let alloc = rt.alloc();
    let mut data = Vec::new(alloc);
    data.extend_from_slice(&0xf7u32.to_le_bytes())?;
    data.extend_from_slice(&(12 * MODULES).to_le_bytes())?;
    for module in 0..MODULES {
        for word in [7 * module, 1, 3 * module] {
            data.extend_from_slice(&word.to_le_bytes())?;
        }
    }
    let info = lines_info(&rt, &data)?;
    let imports = info.imports(alloc)?;
    refers(&rt, &imports, 0x8050_0000, Ok((7 * 5, 3 * 5)));
    refers(&rt, &imports, 0xc050_0000, Ok((7 * 1029, 3 * 1029)));
    Ok(())
}
