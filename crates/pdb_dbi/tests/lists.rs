//! The lists of modules and of section contributions.

use super::is;
use crate::tests::sample::{changed, dbi, debug_information, joined, stream};
use crate::*;
use pdb_base::{
    Error, FallibleIterator, PdbInternalSectionOffset, Result, SectionCharacteristics, StreamIndex,
};
use std::alloc::Global;
use std::borrow::CowStr;
use std::process::Abort;

/// The sample's module: a record of 64 bytes and two names.
fn module() -> &'static [u8] {
    &dbi()[64..140]
}

/// The module's record alone.
fn module_record() -> &'static [u8] {
    &dbi()[64..128]
}

/// A DBI stream with these modules, and the sample's contributions behind them.
fn with_modules(alloc: Global, pieces: &[&[u8]]) -> Result<Vec<u8>> {
    let modules = joined(alloc, pieces)?;
    debug_information(alloc, &modules, &dbi()[140..172])
}

/// A DBI stream with no module, and this part of contributions.
fn with_contributions(alloc: Global, pieces: &[&[u8]]) -> Result<Vec<u8>> {
    let part = joined(alloc, pieces)?;
    debug_information(alloc, &[], &part)
}

fn count_modules(rt: &impl Abort, bytes: &[u8]) -> Result<usize> {
    let information = DebugInformation::parse(stream(rt, bytes))?;
    information.modules()?.count()
}

fn count_contributions(rt: &impl Abort, bytes: &[u8]) -> Result<usize> {
    let information = DebugInformation::parse(stream(rt, bytes))?;
    information.section_contributions()?.count()
}

/// Asserts that nothing comes, however often it is asked.
fn assert_ended<I: FallibleIterator>(rt: &impl Abort, it: &mut I) {
    for _ in 0..3 {
        assert!(rt; matches!(it.next(), Ok(None)));
    }
}

/// Asserts that so many items come, then `UnexpectedEof`, and then nothing.
fn assert_fault_after<I: FallibleIterator>(rt: &impl Abort, items: usize, it: &mut I) {
    for _ in 0..items {
        assert!(rt; matches!(it.next(), Ok(Some(_))));
    }
    assert!(rt; matches!(it.next(), Err(Error::UnexpectedEof)));
    assert_ended(rt, it);
}

/// Asserts that a module has the sample's numbers, and these names.
fn assert_module(rt: &impl Abort, module: &Module<'_>, name: &[u8], object: &[u8]) {
    is(rt, "module.stream()", &module.stream(), &StreamIndex(6));
    is(rt, "module.sizes()", &module.sizes(), &(84, 0, 176));
    is(
        rt,
        "module.raw_module_name().as_bytes()",
        &module.raw_module_name().as_bytes(),
        &name,
    );
    is(
        rt,
        "module.raw_object_file_name().as_bytes()",
        &module.raw_object_file_name().as_bytes(),
        &object,
    );
}

fn assert_text(rt: &impl Abort, text: &CowStr<'_>, wanted: &[u8], is_owned: bool) {
    is(
        rt,
        "text.as_str().as_bytes()",
        &text.as_str().as_bytes(),
        &wanted,
    );
    is(
        rt,
        "matches!(text, CowStr::Owned(_))",
        &matches!(text, CowStr::Owned(_)),
        &is_owned,
    );
}

#[test]
fn the_sample_has_one_module(rt: HostRuntime) -> Result<()> {
    let information = DebugInformation::parse(stream(&rt, dbi()))?;
    let mut modules = information.modules()?;
    let module = modules.next()?.expect(&rt, "a module");
    assert_module(&rt, &module, b"a.obj", b"a.obj");
    assert_text(&rt, &module.module_name(rt.alloc())?, b"a.obj", false);
    assert_text(&rt, &module.object_file_name(rt.alloc())?, b"a.obj", false);
    assert_ended(&rt, &mut modules);
    Ok(())
}

#[test]
fn a_clone_is_the_same_module(rt: HostRuntime) -> Result<()> {
    let bytes = with_modules(rt.alloc(), &[module_record(), b"ab\0cde\0\xff"])?;
    let information = DebugInformation::parse(stream(&rt, &bytes))?;
    let module = information.modules()?.next()?.expect(&rt, "a module");
    assert_module(&rt, &module, b"ab", b"cde");
    assert_module(&rt, &module.clone()?, b"ab", b"cde");
    Ok(())
}

/// A module's record in which each byte of the fields that are read tells its place.
const RECORD: &[u8; 68] =
    b"\xee\xee\xee\xee\xee\xee\xee\xee\xee\xee\xee\xee\xee\xee\xee\xee\xee\xee\xee\xee\xee\xee\xee\xee\xee\xee\xee\xee\xee\xee\xee\xee\xee\xee\x22\x23\x24\x25\x26\x27\x28\x29\x2a\x2b\x2c\x2d\x2e\x2f\xee\xee\xee\xee\xee\xee\xee\xee\xee\xee\xee\xee\xee\xee\xee\xee\0\0\xff\xff";

#[test]
fn a_modules_fields_have_their_places(rt: HostRuntime) -> Result<()> {
    let bytes = with_modules(rt.alloc(), &[RECORD])?;
    let information = DebugInformation::parse(stream(&rt, &bytes))?;
    let module = information.modules()?.next()?.expect(&rt, "a module");
    is(
        &rt,
        "module.stream()",
        &module.stream(),
        &StreamIndex(0x2322),
    );
    is(
        &rt,
        "module.sizes()",
        &module.sizes(),
        &(0x2726_2524, 0x2b2a_2928, 0x2f2e_2d2c),
    );
    is(
        &rt,
        "module.raw_module_name().as_bytes()",
        &module.raw_module_name().as_bytes(),
        &b"".as_slice(),
    );
    Ok(())
}

#[test]
fn a_module_may_have_no_stream(rt: HostRuntime) -> Result<()> {
    let bytes = changed(rt.alloc(), 98, 0x0054_ffff)?;
    let information = DebugInformation::parse(stream(&rt, &bytes))?;
    let module = information.modules()?.next()?.expect(&rt, "a module");
    is(
        &rt,
        "module.stream()",
        &module.stream(),
        &StreamIndex::none(),
    );
    is(&rt, "module.sizes()", &module.sizes(), &(84, 0, 176));
    Ok(())
}

#[test]
fn a_name_that_is_no_text_is_lossy(rt: HostRuntime) -> Result<()> {
    let names = b"\xff\x0a\0\xfe\0\0\0\0";
    let bytes = with_modules(rt.alloc(), &[module_record(), names])?;
    let information = DebugInformation::parse(stream(&rt, &bytes))?;
    let module = information.modules()?.next()?.expect(&rt, "a module");
    assert_module(&rt, &module, b"\xff\x0a", b"\xfe");
    let text = module.module_name(rt.alloc())?;
    assert_text(&rt, &text, b"\xef\xbf\xbd\x0a", true);
    let text = module.object_file_name(rt.alloc())?;
    assert_text(&rt, &text, b"\xef\xbf\xbd", true);
    Ok(())
}

/// Two modules, each with three bytes of padding.
fn two_modules(alloc: Global) -> Result<Vec<u8>> {
    let (first, second) = (b"a\0bc\0\xff\xff\xff", b"\0def\0\xff\xff\xff");
    with_modules(alloc, &[module_record(), first, module_record(), second])
}

#[test]
fn a_module_stands_behind_the_padding_of_another(rt: HostRuntime) -> Result<()> {
    let bytes = two_modules(rt.alloc())?;
    let information = DebugInformation::parse(stream(&rt, &bytes))?;
    let mut modules = information.modules()?;
    let module = modules.next()?.expect(&rt, "a module");
    assert_module(&rt, &module, b"a", b"bc");
    let module = modules.next()?.expect(&rt, "a second module");
    assert_module(&rt, &module, b"", b"def");
    assert_ended(&rt, &mut modules);
    Ok(())
}

#[test]
fn modules_are_collected_and_counted(rt: HostRuntime) -> Result<()> {
    let bytes = two_modules(rt.alloc())?;
    is(
        &rt,
        "count_modules(&rt, &bytes)",
        &count_modules(&rt, &bytes),
        &Ok(2),
    );
    let information = DebugInformation::parse(stream(&rt, &bytes))?;
    let modules = information.modules()?.collect(rt.alloc())?;
    is(&rt, "modules.len()", &modules.len(), &2);
    for module in &modules {
        is(&rt, "module.sizes()", &module.sizes(), &(84, 0, 176));
    }
    Ok(())
}

/// Asserts that a DBI stream gives so many modules, then `UnexpectedEof`, and then nothing.
fn assert_modules_fault(rt: &impl Abort, items: usize, bytes: &[u8]) -> Result<()> {
    is(
        rt,
        "count_modules(rt, bytes)",
        &count_modules(rt, bytes),
        &Err(Error::UnexpectedEof),
    );
    let information = DebugInformation::parse(stream(rt, bytes))?;
    assert_fault_after(rt, items, &mut information.modules()?);
    Ok(())
}

#[test]
fn a_cut_record_ends_the_modules(rt: HostRuntime) -> Result<()> {
    for k in 1..=64 {
        let cut = &dbi()[64..64 + k];
        let bytes = with_modules(rt.alloc(), &[module(), module(), cut])?;
        assert_modules_fault(&rt, 2, &bytes)?;
        let bytes = with_modules(rt.alloc(), &[cut])?;
        assert_modules_fault(&rt, 0, &bytes)?;
    }
    Ok(())
}

#[test]
fn a_name_or_padding_that_is_not_all_there_ends_the_modules(rt: HostRuntime) -> Result<()> {
    let unended: [&[u8]; 6] = [
        b"abc",
        b"a\0",
        b"a\0bc",
        b"ab\0c\0",
        b"ab\0c\0\0\0",
        b"\0\0",
    ];
    for names in unended {
        let bytes = with_modules(rt.alloc(), &[module(), module_record(), names])?;
        assert_modules_fault(&rt, 1, &bytes)?;
    }
    Ok(())
}

/// How many modules bytes list that are read where they stand.
fn count_in_place(bytes: &[u8]) -> Result<usize> {
    modules_of_bytes(bytes)?.count()
}

#[test]
fn modules_are_read_where_their_bytes_stand(rt: HostRuntime) -> Result<()> {
    let bytes = two_modules(rt.alloc())?;
    let mut modules = modules_of_bytes(&bytes)?;
    let module = modules.next()?.expect(&rt, "a module");
    assert_module(&rt, &module, b"a", b"bc");
    let module = modules.next()?.expect(&rt, "a second module");
    assert_module(&rt, &module, b"", b"def");
    assert_ended(&rt, &mut modules);
    let cut = &dbi()[..63];
    is(
        &rt,
        "no header",
        &count_in_place(cut),
        &Err(Error::UnexpectedEof),
    );
    let cut = &dbi()[..139];
    is(
        &rt,
        "no module",
        &count_in_place(cut),
        &Err(Error::UnexpectedEof),
    );
    is(&rt, "one module", &count_in_place(dbi()), &Ok(1));
    Ok(())
}

#[test]
fn modules_that_are_not_all_there_are_refused(rt: HostRuntime) {
    for k in 64..=184 {
        let wanted = if k < 140 {
            Err(Error::UnexpectedEof)
        } else {
            Ok(1)
        };
        is(&rt, "cut to", &count_modules(&rt, &dbi()[..k]), &wanted);
    }
}

#[test]
fn contributions_that_are_not_all_there_are_refused(rt: HostRuntime) {
    for k in 64..=184 {
        let wanted = if k < 172 {
            Err(Error::UnexpectedEof)
        } else {
            Ok(1)
        };
        is(
            &rt,
            "cut to",
            &count_contributions(&rt, &dbi()[..k]),
            &wanted,
        );
    }
}

#[test]
fn only_the_size_of_the_modules_moves_their_end(rt: HostRuntime) -> Result<()> {
    for at in [24, 28, 32, 36, 40, 44, 48, 52] {
        let wanted = if at == 24 {
            Err(Error::UnexpectedEof)
        } else {
            Ok(1)
        };
        let bytes = changed(rt.alloc(), at, 0xffff_ffff)?;
        is(&rt, "the number at", &count_modules(&rt, &bytes), &wanted);
    }
    Ok(())
}

#[test]
fn only_two_sizes_move_the_end_of_contributions(rt: HostRuntime) -> Result<()> {
    for at in [24, 28, 32, 36, 40, 44, 48, 52] {
        let wanted = if at < 32 {
            Err(Error::UnexpectedEof)
        } else {
            Ok(1)
        };
        let bytes = changed(rt.alloc(), at, 0xffff_ffff)?;
        is(
            &rt,
            "the number at",
            &count_contributions(&rt, &bytes),
            &wanted,
        );
    }
    Ok(())
}

#[test]
fn the_sample_has_one_section_contribution(rt: HostRuntime) -> Result<()> {
    let information = DebugInformation::parse(stream(&rt, dbi()))?;
    let mut contributions = information.section_contributions()?;
    let first = contributions.next()?.expect(&rt, "a contribution");
    is(
        &rt,
        "first.offset",
        &first.offset,
        &PdbInternalSectionOffset::new(1, 0x100),
    );
    is(&rt, "first.size", &first.size, &48);
    is(
        &rt,
        "first.characteristics",
        &first.characteristics,
        &SectionCharacteristics(0x6050_0020),
    );
    is(&rt, "first.module", &first.module, &0);
    is(&rt, "first.data_crc", &first.data_crc, &0);
    is(&rt, "first.reloc_crc", &first.reloc_crc, &0);
    assert_ended(&rt, &mut contributions);
    Ok(())
}

const VERSION_1: &[u8; 4] = b"\x2d\xba\x2e\xf1";

const VERSION_2: &[u8; 4] = b"\xe4\x51\x31\xf1";

/// A record of a contribution, each of whose bytes tells its place.
const CONTRIBUTION: &[u8; 28] =
    b"\x00\x01\x02\x03\x04\x05\x06\x07\x08\x09\x0a\x0b\x0c\x0d\x0e\x0f\x10\x11\x12\x13\x14\x15\x16\x17\x18\x19\x1a\x1b";

/// The four bytes more that a record has in the second version.
const MORE: &[u8; 4] = b"\xaa\xbb\xcc\xdd";

fn assert_contribution(rt: &impl Abort, contribution: &DBISectionContribution) {
    let offset = PdbInternalSectionOffset::new(0x0100, 0x0706_0504);
    is(rt, "contribution.offset", &contribution.offset, &offset);
    is(rt, "contribution.size", &contribution.size, &0x0b0a_0908);
    is(
        rt,
        "contribution.characteristics",
        &contribution.characteristics,
        &SectionCharacteristics(0x0f0e_0d0c),
    );
    is(rt, "contribution.module", &contribution.module, &0x1110);
    is(
        rt,
        "contribution.data_crc",
        &contribution.data_crc,
        &0x1716_1514,
    );
    is(
        rt,
        "contribution.reloc_crc",
        &contribution.reloc_crc,
        &0x1b1a_1918,
    );
}

#[test]
fn a_contribution_has_32_bytes_in_the_second_version(rt: HostRuntime) -> Result<()> {
    let bytes = with_contributions(rt.alloc(), &[VERSION_2, CONTRIBUTION, MORE])?;
    let information = DebugInformation::parse(stream(&rt, &bytes))?;
    let mut contributions = information.section_contributions()?;
    let first = contributions.next()?.expect(&rt, "a contribution");
    assert_contribution(&rt, &first);
    assert_ended(&rt, &mut contributions);
    Ok(())
}

#[test]
fn a_contribution_has_28_bytes_in_the_first_version(rt: HostRuntime) -> Result<()> {
    let bytes = with_contributions(rt.alloc(), &[VERSION_1, CONTRIBUTION, MORE])?;
    let information = DebugInformation::parse(stream(&rt, &bytes))?;
    let mut contributions = information.section_contributions()?;
    let first = contributions.next()?.expect(&rt, "a contribution");
    assert_contribution(&rt, &first);
    assert_fault_after(&rt, 0, &mut contributions);
    Ok(())
}

#[test]
fn contributions_are_collected_and_counted(rt: HostRuntime) -> Result<()> {
    let pieces: [&[u8]; 5] = [VERSION_2, CONTRIBUTION, MORE, CONTRIBUTION, MORE];
    let bytes = with_contributions(rt.alloc(), &pieces)?;
    is(
        &rt,
        "count_contributions(&rt, &bytes)",
        &count_contributions(&rt, &bytes),
        &Ok(2),
    );
    let information = DebugInformation::parse(stream(&rt, &bytes))?;
    let all = information.section_contributions()?.collect(rt.alloc())?;
    is(&rt, "all.len()", &all.len(), &2);
    for contribution in &all {
        assert_contribution(&rt, contribution);
    }
    Ok(())
}

#[test]
fn a_part_of_contributions_has_a_version(rt: HostRuntime) -> Result<()> {
    for size in 0..=4 {
        let wanted = if size < 4 {
            Err(Error::UnexpectedEof)
        } else {
            Ok(0)
        };
        let bytes = with_contributions(rt.alloc(), &[&VERSION_1[..size]])?;
        is(&rt, "bytes", &count_contributions(&rt, &bytes), &wanted);
    }
    Ok(())
}

/// Asserts that a DBI stream gives so many contributions, then `UnexpectedEof`, and then nothing.
fn assert_contributions_fault(rt: &impl Abort, items: usize, bytes: &[u8]) -> Result<()> {
    is(
        rt,
        "count_contributions(rt, bytes)",
        &count_contributions(rt, bytes),
        &Err(Error::UnexpectedEof),
    );
    let information = DebugInformation::parse(stream(rt, bytes))?;
    assert_fault_after(rt, items, &mut information.section_contributions()?);
    Ok(())
}

#[test]
fn a_cut_contribution_ends_the_list(rt: HostRuntime) -> Result<()> {
    for k in 1..28 {
        let cut = &CONTRIBUTION[..k];
        let bytes = with_contributions(rt.alloc(), &[VERSION_1, CONTRIBUTION, cut])?;
        assert_contributions_fault(&rt, 1, &bytes)?;
    }
    for k in 0..4 {
        let bytes = with_contributions(rt.alloc(), &[VERSION_2, CONTRIBUTION, &MORE[..k]])?;
        assert_contributions_fault(&rt, 0, &bytes)?;
    }
    Ok(())
}
