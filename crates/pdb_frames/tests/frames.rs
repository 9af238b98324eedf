//! Records of frame data.

use crate::{FpoRecords, FrameData, FrameDataRecords, FrameType};
use pdb_base::StringRef;
use std::process::Abort;

/// The first two records of a DLL that LLVM's linker made, one in which each field has a value of its own, and 31 bytes.
const RECORDS: [u8; 127] = [
    0x00, 0x10, 0, 0, 0x4c, 0, 0, 0, 0, 0, 0, 0, 0x04, 0, 0, 0, 0, 0, 0, 0, 0x02, 0, 0, 0, 0x02, 0,
    0, 0, 0x04, 0, 0, 0, //
    0x01, 0x10, 0, 0, 0x4b, 0, 0, 0, 0, 0, 0, 0, 0x04, 0, 0, 0, 0, 0, 0, 0, 0x2f, 0, 0, 0, 0x01, 0,
    0x04, 0, 0, 0, 0, 0, //
    0x70, 0x10, 0, 0, 0x66, 0, 0, 0, 0x38, 0x01, 0, 0, 0x08, 0, 0, 0, 0x24, 0, 0, 0, 0x13, 0x01, 0,
    0, 0x06, 0x02, 0x0c, 0, 0x03, 0, 0, 0, //
    1, 1, 1, 1, 1, 1, 1, 1, 1, 1, 1, 1, 1, 1, 1, 1, 1, 1, 1, 1, 1, 1, 1, 1, 1, 1, 1, 1, 1, 1, 1,
];

/// What no record of `FRAMEDATA` says otherwise.
const PLAIN: FrameData = FrameData {
    frame_type: FrameType::FrameData,
    code_start: 0,
    code_size: 0,
    locals_size: 0,
    params_size: 0,
    max_stack_size: 0,
    prolog_size: 0,
    saved_regs_size: 0,
    has_structured_eh: false,
    has_cpp_eh: false,
    is_function_start: false,
    uses_base_pointer: false,
    program: None,
};

/// The record of a number is this one.
fn has(rt: &impl Abort, k: usize, given: Option<FrameData>, wanted: Option<FrameData>) {
    assert!(rt;
        given == wanted,
        "record {k}: {:?}, and not {:?}",
        given,
        wanted
    );
}

#[test]
fn records_of_frame_data(rt: HostRuntime) {
    let records = FrameDataRecords::new(&RECORDS);
    assert!(rt; records.len() == 3 && !records.is_empty());
    let first = FrameData {
        code_start: 0x1000,
        code_size: 76,
        params_size: 4,
        prolog_size: 2,
        is_function_start: true,
        program: Some(StringRef(2)),
        ..PLAIN
    };
    has(&rt, 0, records.get(0), Some(first));
    let second = FrameData {
        code_start: 0x1001,
        code_size: 75,
        params_size: 4,
        prolog_size: 1,
        saved_regs_size: 4,
        program: Some(StringRef(0x2f)),
        ..PLAIN
    };
    has(&rt, 1, records.get(1), Some(second));
    let third = FrameData {
        code_start: 0x1070,
        code_size: 0x66,
        locals_size: 0x138,
        params_size: 8,
        max_stack_size: 36,
        prolog_size: 0x206,
        saved_regs_size: 12,
        has_structured_eh: true,
        has_cpp_eh: true,
        program: Some(StringRef(0x113)),
        ..PLAIN
    };
    has(&rt, 2, records.get(2), Some(third));
    // 31 bytes are no record.
    has(&rt, 3, records.get(3), None);
    has(&rt, usize::MAX, records.get(usize::MAX), None);
}

#[test]
fn no_records(rt: HostRuntime) {
    let records = FrameDataRecords::new(&RECORDS[..31]);
    assert!(rt; records.is_empty() && records.len() == 0 && records.get(0).is_none());
    let records = FpoRecords::new(&RECORDS[..15]);
    assert!(rt; records.is_empty() && records.len() == 0 && records.get(0).is_none());
}

/// The one record of a file of LLVM's tests, one in which each field has a value of its own, and one of each further kind.
const FPO_RECORDS: [u8; 80] = [
    0x4e, 0, 0, 0, 0x13, 0, 0, 0, 0, 0, 0, 0, 0, 0, 0x00, 0x08, //
    0x00, 0x20, 0, 0, 0x30, 0x01, 0, 0, 0x05, 0, 0, 0xc0, 0x02, 0xc0, 0x21, 0x13, //
    0, 0, 0, 0, 0, 0, 0, 0, 0, 0, 0, 0, 0, 0, 0x00, 0x40, //
    0, 0, 0, 0, 0, 0, 0, 0, 0, 0, 0, 0, 0, 0, 0x00, 0x80, //
    0, 0, 0, 0, 0, 0, 0, 0, 0, 0, 0, 0, 0, 0, 0xff, 0xe7,
];

#[test]
fn records_without_a_frame_pointer(rt: HostRuntime) {
    let records = FpoRecords::new(&FPO_RECORDS);
    assert!(rt; records.len() == 5 && !records.is_empty());
    let plain = FrameData {
        frame_type: FrameType::Fpo,
        ..PLAIN
    };
    let first = FrameData {
        code_start: 0x4e,
        code_size: 19,
        has_structured_eh: true,
        ..plain
    };
    has(&rt, 0, records.get(0), Some(first));
    // Words of four bytes: more of locals than a number of 32 bits has.
    let second = FrameData {
        code_start: 0x2000,
        code_size: 0x130,
        locals_size: 0x3_0000_0014,
        params_size: 0x3_0008,
        prolog_size: 0x21,
        saved_regs_size: 12,
        uses_base_pointer: true,
        ..plain
    };
    has(&rt, 1, records.get(1), Some(second));
    let trap = FrameData {
        frame_type: FrameType::Trap,
        ..plain
    };
    has(&rt, 2, records.get(2), Some(trap));
    let tss = FrameData {
        frame_type: FrameType::Tss,
        ..plain
    };
    has(&rt, 3, records.get(3), Some(tss));
    let standard = FrameData {
        frame_type: FrameType::Standard,
        prolog_size: 0xff,
        saved_regs_size: 28,
        ..plain
    };
    has(&rt, 4, records.get(4), Some(standard));
    has(&rt, 5, records.get(5), None);
}
