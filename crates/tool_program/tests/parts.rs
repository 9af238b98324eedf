//! Texts of a file that is made by hand, read in parts and whole.

use super::files::{debug_stream, file_of, module_record};
use super::program::prints;
use crate::file_printing::print_file;
use crate::tests::fakes::{Narrow, is};
use pdb_text::CountedWriter;
use std::alloc::{AllocError, Global};
use std::test::Fail;
use tool_arguments::tasks::FileTask;
use tool_output::stop::Stop;
use tool_printing::Printout;

/// The public symbol `p` at 1:10.
static GLOBALS: &[u8] = b"\x0e\x00\x0e\x11\x02\x00\x00\x00\x10\x00\x00\x00\x01\x00p\x00";

/// The procedure `f` at 1:50 of 33 bytes.
static SYMBOLS: &[u8] =
    b"\x04\x00\x00\x00\x27\x00\x10\x11\x00\x00\x00\x00\x90\x00\x00\x00\x00\x00\x00\x00\x21\x00\x00\x00\x04\x00\x00\x00\x1e\x00\x00\x00\x09\x10\x00\x00\x50\x00\x00\x00\x01\x00\x00f\x00";

/// Module 0 has 64 bytes from 1:40 on.
static CONTRIBUTIONS: &[u8] =
    b"\x2d\xba\x2e\xf1\x01\x00\x00\x00\x40\x00\x00\x00\x40\x00\x00\x00\x20\x00\x00\x60\x00\x00\x00\x00\x00\x00\x00\x00\x00\x00\x00\x00";

/// A file of one module.
pub fn small(alloc: Global) -> Result<Vec<u8>, AllocError> {
    let module = module_record(6, 45, 0);
    let debug = debug_stream(alloc, 5, &module, CONTRIBUTIONS, b"")?;
    let streams: [Option<&[u8]>; 9] = [
        Some(b""),
        None,
        None,
        Some(&debug),
        None,
        Some(GLOBALS),
        Some(SYMBOLS),
        None,
        None,
    ];
    file_of(alloc, &streams)
}

#[test]
fn texts_of_a_file(rt: HostRuntime) -> Result<(), Fail> {
    let bytes = small(rt.alloc())?;
    prints(&rt, &bytes, &["resolve", "a.pdb", "1:5f"], b"f\n??:0:0\n\n")?;
    let headed = ["variables", "--addresses", "a.pdb", "0x17"];
    prints(&rt, &bytes, &headed, b"0x17\n??\n??:0:0\n\n")?;
    prints(&rt, &bytes, &["lines", "a.pdb"], b"")?;
    prints(
        &rt,
        &bytes,
        &["lines", "a.pdb", "0", "1"],
        b"module 0 a\nnone\n",
    )?;
    let scopes: &[u8] = b"procedure 0001:00000050 33 f: ??\n";
    prints(&rt, &bytes, &["scopes", "a.pdb"], scopes)?;
    prints(&rt, &bytes, &["scopes", "a.pdb", "0"], scopes)?;
    let globals: &[u8] =
        b"00000000 S_PUB32 code=false function=true managed=false msil=false offset=0001:00000010 p\n";
    prints(&rt, &bytes, &["symbols", "a.pdb"], globals)?;
    let symbols: &[u8] =
        b"00000004 S_GPROC32 parent=- end=00000090 next=- len=33 dbg_start_offset=4 dbg_end_offset=30 type_index=00001009 offset=0001:00000050 flags=- global=true dpc=false f: ??\n";
    prints(&rt, &bytes, &["symbols", "a.pdb", "0"], symbols)?;
    prints(&rt, &bytes, &["symbols", "--all", "a.pdb"], symbols)
}

#[test]
fn files_that_end_early_and_writers_that_fail(rt: HostRuntime) -> Result<(), Fail> {
    let alloc = rt.alloc();
    let bytes = small(alloc)?;
    let size = bytes.len() as u64;
    let task = FileTask::Scopes(Vec::new(alloc));
    let mut out = Narrow::new(alloc, 4096);
    let shrank = print_file(
        alloc,
        &bytes,
        size + 600,
        None,
        &task,
        &mut Printout::new(&mut CountedWriter::counting(&mut out)),
    );
    is(&rt, "a file that shrank", &shrank, &Err(Stop::Read));
    let mut out = Narrow::new(alloc, 4096);
    let front = Vec::from_slice(alloc, bytes.get(..2000).unwrap_or(&[]))?;
    let ended = print_file(
        alloc,
        &front,
        size,
        None,
        &task,
        &mut Printout::new(&mut CountedWriter::counting(&mut out)),
    );
    is(&rt, "a file that ends early", &ended, &Err(Stop::Read));
    assert!(rt; out.taken().is_empty());
    let mut out = Narrow::new(alloc, 9);
    let full = print_file(
        alloc,
        &bytes,
        size,
        None,
        &task,
        &mut Printout::new(&mut CountedWriter::counting(&mut out)),
    );
    is(&rt, "a full writer", &full, &Err(Stop::Write));
    let wanted: &[u8] = b"procedure";
    is(&rt, "out.taken()", &out.taken(), &wanted);
    Ok(())
}
