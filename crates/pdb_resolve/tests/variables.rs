//! Variables at places of modules that are put together record by record.

use crate::ModuleCode;
use crate::tests::files::is;
use crate::tests::modules::info_of;
use pdb::{PdbInternalSectionOffset, Result};
use std::alloc::Global;
use std::process::Abort;

/// The index that no scope of these modules reaches.
const END: u32 = 10_000;

/// The section, and 16 bytes from a range's offset on.
const SHORT: &[u8] = b"\x01\0\x10\0";

/// The ids and the first lines of inlined functions: 0x1001 and 0x1002.
static INLINEES: [u8; 36] = [
    0xf6, 0, 0, 0, 0x1c, 0, 0, 0, 0, 0, 0, 0, 0x01, 0x10, 0, 0, 0, 0, 0, 0, 0x0a, 0, 0, 0, 0x02,
    0x10, 0, 0, 0, 0, 0, 0, 0x14, 0, 0, 0,
];

/// A module's symbols.
#[derive(Drop)]
struct Symbols {
    bytes: Vec<u8>,
}

impl Symbols {
    /// Those of a procedure of 0x40 bytes at 1:100.
    fn of_procedure(alloc: Global) -> Result<Self> {
        let mut bytes = Vec::new(alloc);
        bytes.extend_from_slice(&[4, 0, 0, 0])?;
        let mut symbols = Symbols { bytes };
        symbols.procedure(0x100, 0x40)?;
        Ok(symbols)
    }

    /// One more record: its kind, and numbers of four bytes with others behind them.
    fn push(&mut self, kind: u16, numbers: &[u32], rest: &[u8]) -> Result<()> {
        let size = 2 + 4 * numbers.len().min(100) as u16 + rest.len().min(100) as u16;
        self.bytes.extend_from_slice(&size.to_le_bytes())?;
        self.bytes.extend_from_slice(&kind.to_le_bytes())?;
        for number in numbers {
            self.bytes.extend_from_slice(&number.to_le_bytes())?;
        }
        self.bytes.extend_from_slice(rest)?;
        Ok(())
    }

    fn procedure(&mut self, offset: u32, length: u32) -> Result<()> {
        self.push(
            0x1110,
            &[0, END, 0, length, 0, 0, 0, offset],
            b"\x01\0\0f\0",
        )
    }

    /// A frame whose local variables count from the register 1, and whose parameters from 2.
    fn frame(&mut self) -> Result<()> {
        self.push(0x1012, &[0, 0, 0, 0, 0], b"\0\0\0\x40\x02\0")
    }

    /// A block of 16 bytes.
    fn block(&mut self, offset: u32) -> Result<()> {
        self.push(0x1103, &[0, 0, 0x10, offset], b"\x01\0\0")
    }

    /// A site of an inlined function, of eight bytes from this many behind the procedure's start on.
    fn site(&mut self, id: u32, annotations: &[u8]) -> Result<()> {
        self.push(0x114d, &[0, 0, id], annotations)
    }

    fn end(&mut self) -> Result<()> {
        self.push(0x0006, &[], b"")
    }

    /// A variable of type 0x74 that records of ranges follow; its flags and its name.
    fn local(&mut self, rest: &[u8]) -> Result<()> {
        self.push(0x113e, &[0x74], rest)
    }

    /// It is in a register for 16 bytes.
    fn in_register(&mut self, register: u32, offset: u32) -> Result<()> {
        self.push(0x1141, &[register, offset], SHORT)
    }

    /// The variables at an offset in section 1, a line for each.
    fn stand(&self, rt: &impl Abort, alloc: Global, offset: u32, wanted: &str) -> Result<()> {
        let size = self.bytes.len().min(60_000) as u32;
        let mut bytes = self.bytes.clone()?;
        bytes.extend_from_slice(&INLINEES)?;
        let info = info_of(rt, bytes.as_slice(), (size, 0, 36))?;
        let code = ModuleCode::new(alloc, &info)?;
        let mut text = Vec::new(alloc);
        let place = PdbInternalSectionOffset::new(1, offset);
        for v in code.variables_at(alloc, place)?.as_slice() {
            let front = format!(in alloc; "{:?} {:?} {:x} ", v.owner, v.kind, v.type_index.0)?;
            text.extend_from_slice(front.as_bytes())?;
            text.extend_from_slice(v.name.as_bytes())?;
            let location = format!(in alloc; " {:?}\n", v.location)?;
            text.extend_from_slice(location.as_bytes())?;
        }
        is(rt, "variables", &text.as_slice(), &wanted.as_bytes());
        Ok(())
    }
}

#[test]
fn ranges_tell_where_variables_are(rt: HostRuntime) -> Result<()> {
    let alloc = rt.alloc();
    let mut symbols = Symbols::of_procedure(alloc)?;
    symbols.local(b"\x01\0a\0")?;
    // At its first byte two records hold, of which the first listed counts.
    symbols.push(0x1145, &[0x15, 4, 0x100], b"\x01\0\x01\0")?;
    symbols.push(0x1145, &[0x16, 8, 0x100], b"\x01\0\x40\0")?;
    symbols.local(b"\0\0b\0")?;
    symbols.in_register(0x11, 0x100)?;
    symbols.push(0x113f, &[7, 0x110], SHORT)?;
    // One that can't be read says nothing, and ends nothing.
    symbols.push(0x1150, &[], b"")?;
    symbols.push(0x1141, &[0x12], b"")?;
    symbols.push(0x1144, &[0xffff_fffc], b"")?;
    symbols.stand(
        &rt,
        alloc,
        0x100,
        "None Parameter 74 a Whole(RegisterRelative(Register(21), 4))\nNone Local 74 b Whole(Register(Register(17)))\n",
    )?;
    symbols.stand(
        &rt,
        alloc,
        0x11f,
        "None Parameter 74 a Whole(RegisterRelative(Register(22), 8))\nNone Local 74 b Whole(Program(7))\n",
    )?;
    symbols.stand(
        &rt,
        alloc,
        0x120,
        "None Parameter 74 a Whole(RegisterRelative(Register(22), 8))\nNone Local 74 b Whole(FrameRelative(0, -4))\n",
    )
}

#[test]
fn gaps_count_from_the_range_and_end_nothing(rt: HostRuntime) -> Result<()> {
    let alloc = rt.alloc();
    let mut symbols = Symbols::of_procedure(alloc)?;
    symbols.local(b"\0\0a\0")?;
    // Of 32 bytes at 1:108, without two behind the first four, and without those of an empty gap.
    let rest = b"\x01\0\x20\0\x04\0\x02\0\x0a\0\0\0\xff";
    symbols.push(0x1141, &[0x11, 0x108], rest)?;
    let there = "None Local 74 a Whole(Register(Register(17)))\n";
    let nowhere = "None Local 74 a Nowhere\n";
    let rows = [
        (0x107, false),
        (0x108, true),
        (0x10b, true),
        (0x10c, false),
        (0x10d, false),
        (0x10e, true),
        (0x112, true),
        (0x127, true),
        (0x128, false),
    ];
    for (offset, is_there) in &rows {
        let wanted = if *is_there { there } else { nowhere };
        symbols.stand(&rt, alloc, *offset, wanted)?;
    }
    Ok(())
}

#[test]
fn parts_count_where_no_record_has_the_whole(rt: HostRuntime) -> Result<()> {
    let alloc = rt.alloc();
    let mut symbols = Symbols::of_procedure(alloc)?;
    symbols.local(b"\0\0m\0")?;
    symbols.push(0x1143, &[0x11, 4, 0x110], SHORT)?;
    symbols.push(0x1145, &[0x0081_0015, 12, 0x110], b"\x01\0\x08\0")?;
    symbols.push(0x1140, &[7, 16, 0x110], b"\x02\0\x10\0")?;
    symbols.push(0x1140, &[9, 16, 0x110], SHORT)?;
    symbols.in_register(0x12, 0x11f)?;
    symbols.stand(
        &rt,
        alloc,
        0x110,
        "None Local 74 m Parts([VariablePart { offset: 4, storage: Register(Register(17)) }, VariablePart { offset: 8, storage: RegisterRelative(Register(21), 12) }, VariablePart { offset: 16, storage: Program(9) }])\n",
    )?;
    symbols.stand(
        &rt,
        alloc,
        0x118,
        "None Local 74 m Parts([VariablePart { offset: 4, storage: Register(Register(17)) }, VariablePart { offset: 16, storage: Program(9) }])\n",
    )?;
    symbols.stand(
        &rt,
        alloc,
        0x11f,
        "None Local 74 m Whole(Register(Register(18)))\n",
    )?;
    symbols.stand(&rt, alloc, 0x10f, "None Local 74 m Nowhere\n")
}

#[test]
fn frames_have_registers_for_parameters_and_for_others(rt: HostRuntime) -> Result<()> {
    let alloc = rt.alloc();
    let mut symbols = Symbols::of_procedure(alloc)?;
    symbols.local(b"\x01\0a\0")?;
    symbols.push(0x1142, &[8, 0x100], SHORT)?;
    symbols.block(0x100)?;
    // The frame of a block isn't the function's.
    symbols.push(0x1012, &[0, 0, 0, 0, 0], b"\0\0\0\xc0\x03\0")?;
    symbols.local(b"\0\0b\0")?;
    symbols.push(0x1144, &[16], b"")?;
    symbols.end()?;
    symbols.frame()?;
    symbols.push(0x1012, &[0, 0, 0, 0, 0], b"\0\0\0\0\0\0")?;
    symbols.stand(
        &rt,
        alloc,
        0x100,
        "None Parameter 74 a Whole(FrameRelative(2, 8))\nNone Local 74 b Whole(FrameRelative(1, 16))\n",
    )
}

#[test]
fn separated_code_has_a_frame_of_its_own(rt: HostRuntime) -> Result<()> {
    let alloc = rt.alloc();
    let mut symbols = Symbols::of_procedure(alloc)?;
    symbols.frame()?;
    // Of 16 bytes at 1:110, of the procedure at 1:100.
    let rest = b"\x01\0\x01\0";
    symbols.push(0x1132, &[0, END, 0x10, 0, 0x110, 0x100], rest)?;
    symbols.block(0x110)?;
    symbols.local(b"\0\0a\0")?;
    symbols.push(0x1144, &[8], b"")?;
    symbols.end()?;
    symbols.push(0x1012, &[0, 0, 0, 0, 0], b"\0\0\0\xc0\x03\0")?;
    symbols.end()?;
    symbols.local(b"\0\0b\0")?;
    symbols.push(0x1144, &[16], b"")?;
    symbols.stand(
        &rt,
        alloc,
        0x110,
        "None Local 74 a Whole(FrameRelative(3, 8))\nNone Local 74 b Whole(FrameRelative(1, 16))\n",
    )?;
    symbols.stand(
        &rt,
        alloc,
        0x120,
        "None Local 74 b Whole(FrameRelative(1, 16))\n",
    )
}

#[test]
fn blocks_are_entered_where_they_have_the_place(rt: HostRuntime) -> Result<()> {
    let alloc = rt.alloc();
    let mut symbols = Symbols::of_procedure(alloc)?;
    symbols.block(0x110)?;
    symbols.push(0x1106, &[0x74], b"\x11\0a\0")?;
    // Members of a variable are named alone.
    symbols.push(0x1104, &[0, 0, 0, 0], b"\0\0w\0")?;
    symbols.push(0x1106, &[0x74], b"\x12\0b\0")?;
    symbols.end()?;
    symbols.block(0x118)?;
    symbols.push(0x1106, &[0x74], b"\x13\0c\0")?;
    symbols.end()?;
    symbols.end()?;
    // Another function stands in this one.
    symbols.procedure(0x200, 0x40)?;
    symbols.push(0x1106, &[0x74], b"\x14\0d\0")?;
    symbols.end()?;
    symbols.push(0x1106, &[0x74], b"\x15\0e\0")?;
    symbols.end()?;
    // Behind the function's end.
    symbols.push(0x1106, &[0x74], b"\x16\0g\0")?;
    let e = "None Local 74 e Whole(Register(Register(21)))\n";
    symbols.stand(&rt, alloc, 0x10f, e)?;
    symbols.stand(&rt, alloc, 0x120, e)?;
    symbols.stand(
        &rt,
        alloc,
        0x110,
        "None Local 74 a Whole(Register(Register(17)))\nNone Local 74 b Whole(Register(Register(18)))\nNone Local 74 e Whole(Register(Register(21)))\n",
    )?;
    symbols.stand(
        &rt,
        alloc,
        0x118,
        "None Local 74 a Whole(Register(Register(17)))\nNone Local 74 b Whole(Register(Register(18)))\nNone Local 74 c Whole(Register(Register(19)))\nNone Local 74 e Whole(Register(Register(21)))\n",
    )?;
    symbols.stand(
        &rt,
        alloc,
        0x200,
        "None Local 74 d Whole(Register(Register(20)))\n",
    )?;
    symbols.stand(&rt, alloc, 0x140, "")
}

#[test]
fn variables_of_inlined_calls_have_their_numbers(rt: HostRuntime) -> Result<()> {
    let alloc = rt.alloc();
    let mut symbols = Symbols::of_procedure(alloc)?;
    symbols.frame()?;
    // One that has another place, one of two that have it, and one in it.
    symbols.site(0x1001, b"\x03\x20\x04\x08")?;
    symbols.push(0x1106, &[0x74], b"\x11\0a\0")?;
    symbols.push(0x114e, &[], b"")?;
    symbols.block(0x130)?;
    symbols.site(0x1001, b"\x03\x04\x04\x08")?;
    symbols.push(0x1106, &[0x74], b"\x12\0b\0")?;
    symbols.push(0x114e, &[], b"")?;
    symbols.end()?;
    symbols.site(0x1002, b"\x03\x04\x04\x08")?;
    symbols.push(0x1012, &[0, 0, 0, 0, 0], b"\0\0\0\xc0\x03\0")?;
    symbols.local(b"\x01\0c\0")?;
    symbols.push(0x1142, &[8, 0x100], SHORT)?;
    symbols.site(0x1001, b"\x03\x04\x04\x04")?;
    symbols.push(0x1106, &[0x74], b"\x13\0d\0")?;
    symbols.push(0x114e, &[], b"")?;
    symbols.push(0x1106, &[0x74], b"\x14\0e\0")?;
    symbols.push(0x114e, &[], b"")?;
    symbols.push(0x1106, &[0x74], b"\x15\0g\0")?;
    // The call in the block counts, though its variables don't: the block has another place.
    symbols.stand(
        &rt,
        alloc,
        0x104,
        "Some(1) Parameter 74 c Whole(FrameRelative(2, 8))\nSome(2) Local 74 d Whole(Register(Register(19)))\nSome(1) Local 74 e Whole(Register(Register(20)))\nNone Local 74 g Whole(Register(Register(21)))\n",
    )?;
    symbols.stand(
        &rt,
        alloc,
        0x120,
        "Some(0) Local 74 a Whole(Register(Register(17)))\nNone Local 74 g Whole(Register(Register(21)))\n",
    )
}

#[test]
fn what_is_told_again_is_left_out(rt: HostRuntime) -> Result<()> {
    let alloc = rt.alloc();
    let mut symbols = Symbols::of_procedure(alloc)?;
    symbols.push(0x1111, &[4, 0x74], b"\x15\0a\0")?;
    symbols.push(0x110b, &[8, 0x74], b"b\0")?;
    symbols.push(0x100d, &[8, 0x75], b"\x15\0\x01a")?;
    symbols.push(0x1106, &[0x74], b"\x15\0ab\0")?;
    symbols.site(0x1001, b"\x03\x04\x04\x08")?;
    symbols.local(b"\0\0c\0")?;
    symbols.push(0x114e, &[], b"")?;
    symbols.push(0x1106, &[0x74], b"\x16\0c\0")?;
    // Data and constants are told, whoever has their names.
    symbols.push(0x110c, &[0x74, 0x2000], b"\x03\0a\0")?;
    symbols.push(0x1112, &[0x74, 0x10], b"\x04\0a\0")?;
    symbols.push(0x1107, &[0x74], b"\x05\0a\0")?;
    symbols.block(0x200)?;
    symbols.local(b"\0\0b\0")?;
    symbols.end()?;
    symbols.local(b"\0\0a\0")?;
    symbols.push(0x1153, &[0x74, 0], b"\0\0s\0")?;
    symbols.push(0x1106, &[0x74], b"\x16\0s\0")?;
    symbols.stand(
        &rt,
        alloc,
        0x100,
        "None Local 75 a Whole(RegisterRelative(Register(21), 8))\nNone Local 74 ab Whole(Register(Register(21)))\nNone Local 74 c Whole(Register(Register(22)))\nNone Static 74 a At(PdbInternalSectionOffset { offset: 8192, section: 3 })\nNone Thread 74 a At(PdbInternalSectionOffset { offset: 16, section: 4 })\nNone Constant 74 a Value(U16(5))\nNone Local 74 a Nowhere\nNone Static 74 s Nowhere\n",
    )
}
