//! Lists of annotations.

use crate::BinaryAnnotation::{
    ChangeCodeLength, ChangeCodeLengthAndCodeOffset, ChangeCodeOffset,
    ChangeCodeOffsetAndLineOffset, ChangeCodeOffsetBase, ChangeColumnEnd, ChangeColumnEndDelta,
    ChangeColumnStart, ChangeFile, ChangeLineEndDelta, ChangeLineOffset, ChangeRangeKind,
    CodeOffset,
};
use crate::tests::support::is;
use crate::{BinaryAnnotation, BinaryAnnotations, BinaryAnnotationsIter};
use pdb_base::{Error, FallibleIterator, FileIndex, Result};
use std::process::Abort;

/// The list has these annotations, then the fault if there is one, and then nothing.
fn gives(
    rt: &impl Abort,
    label: &str,
    bytes: &[u8],
    wanted: &[BinaryAnnotation],
    fault: Option<Error>,
) {
    let mut it = BinaryAnnotations::new(bytes).iter();
    for annotation in wanted {
        is(rt, label, &it.next(), &Ok(Some(*annotation)));
    }
    if let Some(error) = fault {
        is(rt, label, &it.next(), &Err(error));
    }
    is(rt, label, &it.next(), &Ok(None));
    is(rt, label, &it.next(), &Ok(None));
}

#[test]
fn each_opcode_has_its_operands(rt: HostRuntime) {
    let rows: [(&[u8], BinaryAnnotation, bool); 16] = [
        (b"\x01\x02", CodeOffset(2), false),
        (b"\x02\x02", ChangeCodeOffsetBase(2), false),
        (b"\x03\x02", ChangeCodeOffset(2), true),
        (b"\x04\x02", ChangeCodeLength(2), false),
        (b"\x05\x02", ChangeFile(FileIndex(2)), false),
        (b"\x06\x02", ChangeLineOffset(1), false),
        (b"\x06\x03", ChangeLineOffset(-1), false),
        (b"\x07\x02", ChangeLineEndDelta(2), false),
        (b"\x08\x02", ChangeRangeKind(2), false),
        (b"\x09\x02", ChangeColumnStart(2), false),
        (b"\x0a\x02", ChangeColumnEndDelta(1), false),
        (b"\x0a\x05", ChangeColumnEndDelta(-2), false),
        (b"\x0b\x25", ChangeCodeOffsetAndLineOffset(5, 1), true),
        (b"\x0b\x7f", ChangeCodeOffsetAndLineOffset(15, -3), true),
        (b"\x0c\x02\x03", ChangeCodeLengthAndCodeOffset(2, 3), true),
        (b"\x0d\x02", ChangeColumnEnd(2), false),
    ];
    for (bytes, wanted, emits) in rows {
        gives(&rt, "an opcode", bytes, &[wanted], None);
        is(&rt, "emits", &wanted.emits_line_info(), &emits);
    }
}

#[test]
fn numbers_are_spelled_in_one_two_or_four_bytes(rt: HostRuntime) {
    let rows: [(&str, &[u8], BinaryAnnotation); 10] = [
        (
            "the greatest of one byte",
            b"\x03\x7f",
            ChangeCodeOffset(127),
        ),
        ("two bytes", b"\x03\x80\x05", ChangeCodeOffset(5)),
        (
            "the greatest of two bytes",
            b"\x03\xbf\xff",
            ChangeCodeOffset(16383),
        ),
        (
            "four bytes",
            b"\x03\xc0\x01\x00\x00",
            ChangeCodeOffset(65536),
        ),
        (
            "the greatest of four bytes",
            b"\x03\xdf\xff\xff\xff",
            ChangeCodeOffset(536870911),
        ),
        (
            "a long opcode",
            b"\xc0\x00\x00\x05\x07",
            ChangeFile(FileIndex(7)),
        ),
        (
            "a long opcode of two bytes",
            b"\x80\x04\x07",
            ChangeCodeLength(7),
        ),
        (
            "a long operand",
            b"\x05\xc0\x00\x00\x00",
            ChangeFile(FileIndex(0)),
        ),
        (
            "a signed operand of four bytes",
            b"\x06\xc0\x00\x00\x05",
            ChangeLineOffset(-2),
        ),
        (
            "two operands of two bytes",
            b"\x0c\x81\x02\x83\x04",
            ChangeCodeLengthAndCodeOffset(258, 772),
        ),
    ];
    for (label, bytes, wanted) in rows {
        gives(&rt, label, bytes, &[wanted], None);
    }
}

#[test]
fn a_list_is_whole_at_the_end_of_the_bytes_and_where_a_zero_is_spelled(rt: HostRuntime) {
    let one = [ChangeCodeOffset(2)];
    let rows: [(&str, &[u8]); 5] = [
        ("the end", b"\x03\x02"),
        ("a zero byte", b"\x03\x02\x00\x03\x01"),
        ("a zero of two bytes", b"\x03\x02\x80\x00\x03\x01"),
        ("a zero of four bytes", b"\x03\x02\xc0\x00\x00\x00\x0e"),
        ("zero bytes", b"\x03\x02\x00\x00\x00"),
    ];
    for (label, bytes) in rows {
        gives(&rt, label, bytes, &one, None);
    }
    gives(&rt, "no bytes", b"", &[], None);
    gives(&rt, "a long zero alone", b"\x80\x00", &[], None);
}

#[test]
fn a_fault_is_told_in_reading_order(rt: HostRuntime) {
    let rows: [(&str, &[u8], Error); 13] = [
        (
            "an opcode of four bytes, the first too great",
            b"\xe0\x00\x00\x00",
            Error::InvalidCompressedAnnotation,
        ),
        (
            "an operand's first byte too great",
            b"\x03\xe0\x00\x00\x00",
            Error::InvalidCompressedAnnotation,
        ),
        (
            "the greatest first byte",
            b"\x03\xff\x00\x00\x00",
            Error::InvalidCompressedAnnotation,
        ),
        (
            "a first byte too great, and too few bytes",
            b"\x03\xe0",
            Error::UnexpectedEof,
        ),
        (
            "three bytes of four",
            b"\x03\xc0\x00\x00",
            Error::UnexpectedEof,
        ),
        ("one byte of two", b"\x03\x80", Error::UnexpectedEof),
        ("no operand", b"\x03", Error::UnexpectedEof),
        ("no second operand", b"\x0c\x05", Error::UnexpectedEof),
        ("an opcode cut", b"\x80", Error::UnexpectedEof),
        ("opcode 14", b"\x0e", Error::UnknownBinaryAnnotation(14)),
        (
            "opcode 14 of two bytes",
            b"\x80\x0e",
            Error::UnknownBinaryAnnotation(14),
        ),
        (
            "opcode 14 of four bytes",
            b"\xc0\x00\x00\x0e",
            Error::UnknownBinaryAnnotation(14),
        ),
        (
            "the greatest opcode",
            b"\xdf\xff\xff\xff",
            Error::UnknownBinaryAnnotation(536870911),
        ),
    ];
    for (label, bytes, fault) in rows {
        gives(&rt, label, bytes, &[], Some(fault));
    }
    gives(
        &rt,
        "behind an annotation",
        b"\x03\x02\x0e\x03\x01",
        &[ChangeCodeOffset(2)],
        Some(Error::UnknownBinaryAnnotation(14)),
    );
}

#[test]
fn a_compilers_annotations(rt: HostRuntime) {
    let bytes =
        b"\x0b\x03\x06\x0a\x03\x08\x06\x06\x03\x2d\x06\x08\x03\x07\x0b\x72\x06\x06\x0c\x03\x07\x06\x0f\x0c\x06\x05\x00\x00";
    let wanted = [
        ChangeCodeOffsetAndLineOffset(3, 0),
        ChangeLineOffset(5),
        ChangeCodeOffset(8),
        ChangeLineOffset(3),
        ChangeCodeOffset(45),
        ChangeLineOffset(4),
        ChangeCodeOffset(7),
        ChangeCodeOffsetAndLineOffset(2, -3),
        ChangeLineOffset(3),
        ChangeCodeLengthAndCodeOffset(3, 7),
        ChangeLineOffset(-7),
        ChangeCodeLengthAndCodeOffset(6, 5),
    ];
    gives(&rt, "a compiler's", bytes, &wanted, None);
    let bytes =
        b"\x03\x50\x06\x0e\x03\x0c\x06\x04\x03\x32\x06\x06\x03\x54\x0b\x23\x0b\x5c\x0b\x43\x0b\x2f\x06\x04\x0c\x2d\x09\x03\x3b\x06\x1d\x0c\x05\x06\x00\x00";
    let wanted = [
        ChangeCodeOffset(80),
        ChangeLineOffset(7),
        ChangeCodeOffset(12),
        ChangeLineOffset(2),
        ChangeCodeOffset(50),
        ChangeLineOffset(3),
        ChangeCodeOffset(84),
        ChangeCodeOffsetAndLineOffset(3, 1),
        ChangeCodeOffsetAndLineOffset(12, -2),
        ChangeCodeOffsetAndLineOffset(3, 2),
        ChangeCodeOffsetAndLineOffset(15, 1),
        ChangeLineOffset(2),
        ChangeCodeLengthAndCodeOffset(45, 9),
        ChangeCodeOffset(59),
        ChangeLineOffset(-14),
        ChangeCodeLengthAndCodeOffset(5, 6),
    ];
    gives(&rt, "another one's", bytes, &wanted, None);
}

#[test]
fn a_list_by_default_is_empty_and_a_copy_goes_on_alike(rt: HostRuntime) -> Result<()> {
    is(
        &rt,
        "a list",
        &BinaryAnnotations::default().iter().next(),
        &Ok(None),
    );
    is(
        &rt,
        "its iterator",
        &BinaryAnnotationsIter::default().next(),
        &Ok(None),
    );
    let mut it = BinaryAnnotations::new(b"\x03\x02\x03\x01").iter();
    is(&rt, "the first", &it.next(), &Ok(Some(ChangeCodeOffset(2))));
    let mut copy = it.clone()?;
    is(
        &rt,
        "the copy goes on",
        &copy.next(),
        &Ok(Some(ChangeCodeOffset(1))),
    );
    is(&rt, "the copy ends", &copy.next(), &Ok(None));
    is(
        &rt,
        "the list goes on",
        &it.next(),
        &Ok(Some(ChangeCodeOffset(1))),
    );
    is(&rt, "the list ends", &it.next(), &Ok(None));
    Ok(())
}
