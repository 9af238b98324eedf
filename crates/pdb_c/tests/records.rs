//! Further records made by hand, and the names of registers.

use super::is;
use crate::*;

const NOTHING: PdbRecord<'static> = PdbRecord {
    name: b"-",
    form: 99,
    type_index: 99,
    flags: 99,
    location: 99,
    number: 99,
    displacement: 99,
    offset: 99,
    section: 99,
    size: 99,
    part: 99,
    has_place: 99,
    is_part: 99,
};

/// A part of a variable at 40 bytes behind `rsp`, in 0x17 bytes of code from 2:110 on but those of a gap.
const RANGE: [u8; 22] =
    *b"\x45\x11\x4f\x01\x41\x00\x28\x00\x00\x00\x10\x01\x00\x00\x02\x00\x17\x00\x08\x00\x04\x00";

fn numbers_of(it: &PdbRecord<'_>) -> [u32; 11] {
    [
        it.form,
        it.type_index,
        it.flags,
        it.location,
        it.number,
        it.offset,
        it.section,
        it.size,
        it.part,
        it.has_place,
        it.is_part,
    ]
}

#[test]
fn record_of_a_range(rt: HostRuntime) {
    let mut out = NOTHING;
    is(&rt, "code", &pdb_record(&RANGE, &mut out), &0);
    let wanted = [9, 0, 0, 2, 335, 0x110, 2, 0x17, 4, 1, 1];
    is(&rt, "numbers", &numbers_of(&out), &wanted);
    is(&rt, "displacement", &out.displacement, &40);
    is(&rt, "name", &out.name.len(), &0);
}

#[test]
fn record_of_a_static(rt: HostRuntime) {
    let bytes = *b"\x53\x11\x22\x10\x00\x00\xc0\x30\x00\x00\x01\x06g\0";
    let mut out = NOTHING;
    is(&rt, "code", &pdb_record(&bytes, &mut out), &0);
    let wanted = [10, 0x1022, 0x601, 0, 0, 0, 0, 0, 0, 0, 0];
    is(&rt, "numbers", &numbers_of(&out), &wanted);
    is(&rt, "name", &out.name, &b"g".as_slice());
}

#[test]
fn records_in_error(rt: HostRuntime) {
    // No kind, no field, and a kind that the calls on symbols read.
    for (bytes, wanted) in [
        (b"\x45".as_slice(), 11),
        (b"\x45\x11".as_slice(), 1),
        (b"\x06\0".as_slice(), 12),
    ] {
        let mut out = NOTHING;
        is(&rt, "code", &pdb_record(bytes, &mut out), &wanted);
        is(&rt, "form", &out.form, &99);
        let mut count = 9usize;
        is(&rt, "code", &pdb_gaps(bytes, &mut [], &mut count), &wanted);
        is(&rt, "count", &count, &0);
    }
}

#[test]
fn gaps_of_a_range(rt: HostRuntime) {
    let mut count = 9usize;
    is(&rt, "no room", &pdb_gaps(&RANGE, &mut [], &mut count), &31);
    is(&rt, "count", &count, &1);
    let mut rows = [PdbGap {
        start: 99,
        size: 99,
    }; 2];
    is(&rt, "code", &pdb_gaps(&RANGE, &mut rows, &mut count), &0);
    is(&rt, "gap", &(rows[0].start, rows[0].size), &(8, 4));
    is(&rt, "behind", &(rows[1].start, rows[1].size), &(99, 99));
}

#[test]
fn names_of_registers(rt: HostRuntime) {
    for (machine, number, wanted) in [
        (0x8664, 330, b"rcx".as_slice()),
        (0x14c, 18, b"ecx".as_slice()),
        (0xaa64, 81, b"sp".as_slice()),
        (0x8664, 9999, b"".as_slice()),
        (0, 330, b"".as_slice()),
    ] {
        let mut out = PdbName { bytes: b"-" };
        pdb_register_name(machine, number, &mut out);
        is(&rt, "name", &out.bytes, &wanted);
    }
}

#[test]
fn registers_of_frames(rt: HostRuntime) {
    for (machine, base, wanted) in [
        (0x8664, 1, 335),
        (0x8664, 3, 341),
        (0x14c, 1, 30006),
        (0x8664, 0, 0),
        (0, 1, 0),
    ] {
        is(&rt, "register", &pdb_frame_register(machine, base), &wanted);
    }
}
