//! Tests of `error_line`.

use crate::tests::fakes::is;
use pdb::{Error, Feature, Part};
use std::test::Fail;
use tool_output::error_line::{put_error_line, put_refusal_line};

// Each refusal, with a number that has leading zeros in hex digits where it tells one.
const REFUSALS: [Error; 26] = [
    Error::UnexpectedEof,
    Error::UnimplementedFeature(Feature::SmallMsf),
    Error::UnimplementedFeature(Feature::StringTable),
    Error::UnimplementedFeature(Feature::AncientDbiHeader),
    Error::UnimplementedFeature(Feature::SymbolDataFormat),
    Error::UnimplementedFeature(Feature::C11LinePrograms),
    Error::UnrecognizedFileFormat,
    Error::InvalidPageSize(4095),
    Error::PageReferenceOutOfRange(305),
    Error::StreamNotFound(17),
    Error::StreamNameNotFound,
    Error::GlobalSymbolsNotFound,
    Error::AddressMapNotFound,
    Error::InvalidStreamLength(Part::DebugHeader),
    Error::SymbolTooShort,
    Error::UnimplementedSymbolKind(0x12),
    Error::UnimplementedDebugSubsection(0xabc),
    Error::UnimplementedFileChecksumKind(4),
    Error::InvalidFileChecksumOffset(0),
    Error::UnknownBinaryAnnotation(14),
    Error::InvalidCompressedAnnotation,
    Error::NotACrossModuleRef(0x1234),
    Error::CrossModuleRefNotFound(0x8000_0068),
    Error::UnexpectedNumericPrefix(0x8005),
    Error::IoError,
    Error::OutOfMemory,
];

#[test]
fn the_text_is_what_the_display_writes(rt: HostRuntime) -> Result<(), Fail> {
    for e in REFUSALS {
        let mut out = Vec::new(rt.alloc());
        put_error_line(&mut out, e)?;
        let number = e.number();
        let wanted = format!(in rt.alloc(); "\0error {number} {e}\n")?;
        is(&rt, "out.as_slice()", &out.as_slice(), &wanted.as_bytes());
    }
    Ok(())
}

#[test]
fn lines_of_refusals(rt: HostRuntime) -> Result<(), Fail> {
    let mut out = Vec::new(rt.alloc());
    put_error_line(&mut out, Error::UnimplementedSymbolKind(0x12))?;
    put_refusal_line(&mut out, Error::CrossModuleRefNotFound(0x1068))?;
    is(
        &rt,
        "put_refusal_line(&mut out, Error::OutOfMemory)",
        &put_refusal_line(&mut out, Error::OutOfMemory).is_err(),
        &true,
    );
    let wanted: &[u8] = b"\x00error 12 symbols of kind 0x0012 are not supported\n\
        \x00error 19 index 0x1068 is not among the imports of the module\n";
    is(&rt, "out.as_slice()", &out.as_slice(), &wanted);
    Ok(())
}
