//! Lines of keys of images, and texts of a file that is wanted or isn't.

use super::files::{debug_stream, file_of};
use super::program::{one, said};
use crate::key_line::key_line;
use crate::tests::fakes::is;
use crate::wanted::{wanted_key, wants_in};
use pdb::Error;
use pdb_image::ImageError;
use std::alloc::{AllocError, Global};
use std::test::Fail;
use tool_arguments::options::{KeyFormat, Options, ValueAt};
use tool_output::fault::Fault;
use tool_output::stop::{Stop, Unopened};

/// Puts a number of four bytes at an offset, least byte first.
pub fn put(bytes: &mut Vec<u8>, at: usize, number: u32) {
    put_bytes(bytes, at, &number.to_le_bytes());
}

/// Puts bytes at an offset.
pub fn put_bytes(bytes: &mut Vec<u8>, at: usize, part: &[u8]) {
    for (place, byte) in bytes.iter_mut().skip(at).zip(part) {
        *place = *byte;
    }
}

/// An image of 354 bytes.
pub fn image(alloc: Global) -> Result<Vec<u8>, AllocError> {
    let mut bytes = vec![in alloc; 0u8; 354]?;
    put_bytes(&mut bytes, 0, b"MZ");
    put(&mut bytes, 60, 64);
    put_bytes(&mut bytes, 64, b"PE\0\0");
    put(&mut bytes, 68, 0x0001_8664);
    put(&mut bytes, 72, 0x1122_3344);
    put(&mut bytes, 84, 168);
    put(&mut bytes, 88, 0x20b);
    put(&mut bytes, 112, 0x4000_0000);
    put(&mut bytes, 116, 1);
    put(&mut bytes, 144, 0x3000);
    put(&mut bytes, 196, 7);
    put(&mut bytes, 248, 0x1000);
    put(&mut bytes, 252, 28);
    put(&mut bytes, 268, 0x1000);
    put(&mut bytes, 272, 58);
    put(&mut bytes, 276, 296);
    put(&mut bytes, 308, 2);
    put(&mut bytes, 312, 30);
    put(&mut bytes, 320, 324);
    put_bytes(
        &mut bytes,
        324,
        b"RSDS\x00\x01\x02\x03\x04\x05\x06\x07\x08\x09\x0a\x0b\x0c\x0d\x0e\x0f\x01\0\0\0a.pdb\0",
    );
    Ok(bytes)
}

/// The key of the PDB that the image names.
const KEY: &[u8] = b"030201000504070608090A0B0C0D0E0F1";

/// A PDB with the GUID of the image's, and this age.
pub fn pdb(alloc: Global, age: u8) -> Result<Vec<u8>, AllocError> {
    let mut information = vec![in alloc; 0u8; 40]?;
    put(&mut information, 0, 20000404);
    put(&mut information, 8, 7);
    put_bytes(
        &mut information,
        12,
        b"\x00\x01\x02\x03\x04\x05\x06\x07\x08\x09\x0a\x0b\x0c\x0d\x0e\x0f",
    );
    let mut debug = debug_stream(alloc, 5, b"", b"", b"")?;
    put_bytes(&mut debug, 8, &[age]);
    let streams: [Option<&[u8]>; 9] = [
        Some(b""),
        Some(&information),
        None,
        Some(&debug),
        None,
        Some(b""),
        None,
        None,
        None,
    ];
    file_of(alloc, &streams)
}

/// The line of these bytes, which lie in memory.
fn line_of(alloc: Global, format: KeyFormat, bytes: &[u8], name: &[u8]) -> Result<Vec<u8>, Stop> {
    let bytes = Vec::from_slice(alloc, bytes)?;
    key_line(alloc, format, &bytes, bytes.len() as u64, name)
}

#[test]
fn lines_of_images(rt: HostRuntime) -> Result<(), Fail> {
    let alloc = rt.alloc();
    let mut bytes = image(alloc)?;
    let line = b"112233443000 x.exe 030201000504070608090A0B0C0D0E0F1 a.pdb\n".as_slice();
    let given = line_of(alloc, KeyFormat::Names, &bytes, b"x.exe")
        .ok()
        .expect(&rt, "line");
    is(&rt, "line", &given.as_slice(), &line);
    let object =
        b"{\"key\":\"112233443000\",\"file\":\"x.exe\",\"pdb_key\":\"030201000504070608090A0B0C0D0E0F1\",\"pdb\":\"a.pdb\"}\n".as_slice();
    let given = line_of(alloc, KeyFormat::Json, &bytes, b"x.exe")
        .ok()
        .expect(&rt, "object");
    is(&rt, "object", &given.as_slice(), &object);
    for size in 2..354 {
        let given = line_of(alloc, KeyFormat::Names, &bytes[..size], b"x.exe");
        let wanted = Err(Stop::Image(ImageError::UnexpectedEof));
        is(&rt, "cut", &given, &wanted);
    }
    put(&mut bytes, 72, 0xabcdef);
    put(&mut bytes, 144, 0xABC000);
    put(&mut bytes, 308, 16);
    let given = line_of(alloc, KeyFormat::Names, &bytes, b"x.exe")
        .ok()
        .expect(&rt, "line");
    is(
        &rt,
        "no PDB",
        &given.as_slice(),
        &b"00ABCDEFabc000 x.exe - -\n".as_slice(),
    );
    let object =
        b"{\"key\":\"00ABCDEFabc000\",\"file\":\"x.exe\",\"pdb_key\":null,\"pdb\":null}\n".as_slice();
    let given = line_of(alloc, KeyFormat::Json, &bytes, b"x.exe")
        .ok()
        .expect(&rt, "object");
    is(&rt, "object", &given.as_slice(), &object);
    is(
        &rt,
        "wants",
        &wants_in(alloc, &bytes).err(),
        &Some(Stop::NoPdb),
    );
    Ok(())
}

#[test]
fn a_line_end_in_a_path_is_a_blank(rt: HostRuntime) -> Result<(), Fail> {
    let alloc = rt.alloc();
    let mut bytes = image(alloc)?;
    put_bytes(&mut bytes, 348, b"a\r\ndb");
    let line = b"112233443000 x 030201000504070608090A0B0C0D0E0F1 a  db\n".as_slice();
    let given = line_of(alloc, KeyFormat::Names, &bytes, b"x")
        .ok()
        .expect(&rt, "line");
    is(&rt, "line", &given.as_slice(), &line);
    let line = b"112233443000 x y 030201000504070608090A0B0C0D0E0F1 a  db\n".as_slice();
    let given = line_of(alloc, KeyFormat::Names, &bytes, b"x\ny")
        .ok()
        .expect(&rt, "line");
    is(&rt, "a name's", &given.as_slice(), &line);
    put_bytes(&mut bytes, 348, b"\0");
    let line = b"112233443000 x 030201000504070608090A0B0C0D0E0F1\n".as_slice();
    let given = line_of(alloc, KeyFormat::Names, &bytes, b"x")
        .ok()
        .expect(&rt, "line");
    is(&rt, "no path", &given.as_slice(), &line);
    let bytes = pdb(alloc, 1)?;
    let line = b"030201000504070608090A0B0C0D0E0F1 a  .pdb\n".as_slice();
    let given = line_of(alloc, KeyFormat::Names, &bytes, b"a\r\n.pdb")
        .ok()
        .expect(&rt, "line");
    is(&rt, "a PDB's", &given.as_slice(), &line);
    Ok(())
}

#[test]
fn lines_of_pdbs(rt: HostRuntime) -> Result<(), Fail> {
    let alloc = rt.alloc();
    let bytes = pdb(alloc, 1)?;
    let line = b"030201000504070608090A0B0C0D0E0F1 a.pdb\n".as_slice();
    let given = line_of(alloc, KeyFormat::Names, &bytes, b"a.pdb")
        .ok()
        .expect(&rt, "line");
    is(&rt, "line", &given.as_slice(), &line);
    let object =
        b"{\"key\":\"030201000504070608090A0B0C0D0E0F1\",\"file\":\"a\\\\b.pdb\"}\n".as_slice();
    let given = line_of(alloc, KeyFormat::Json, &bytes, b"a\\b.pdb")
        .ok()
        .expect(&rt, "object");
    is(&rt, "object", &given.as_slice(), &object);
    let refused = Err(Stop::Open(Error::UnrecognizedFileFormat));
    for bytes in [b"".as_slice(), b"M", b"mz", b"ZM"] {
        is(
            &rt,
            "no file",
            &line_of(alloc, KeyFormat::Names, bytes, b"a").map(|_| ()),
            &refused,
        );
    }
    Ok(())
}

#[test]
fn what_is_wanted(rt: HostRuntime) -> Result<(), Fail> {
    let alloc = rt.alloc();
    let key = wanted_key(alloc, "{03020100-0504070608090a0B0c0D0e0F1}")?;
    is(&rt, "key", &key.as_slice(), &KEY);
    let wants = wants_in(alloc, &image(alloc)?).ok().expect(&rt, "wants");
    is(&rt, "its key", &wants.key.as_slice(), &KEY);
    is(&rt, "base", &wants.base, &0x1_4000_0000);
    is(&rt, "size", &wants.size, &0x3000);
    is(&rt, "path", &wants.path.as_slice(), &b"a.pdb".as_slice());
    let refused = wants_in(alloc, &pdb(alloc, 1)?).err();
    is(
        &rt,
        "no image",
        &refused,
        &Some(Stop::Image(ImageError::NotAnImage)),
    );
    let given = Options {
        base: Some(7),
        ..Options::default()
    };
    is(&rt, "given", &given.with_base_of(9, 1).base, &Some(7));
    is(
        &rt,
        "own",
        &Options::default().with_base_of(9, 1).base,
        &Some(9),
    );
    Ok(())
}

#[test]
fn nothing_is_told_of_another_file(rt: HostRuntime) -> Result<(), Fail> {
    let alloc = rt.alloc();
    let nowhere = b"??\n??:0:0\n\n".as_slice();
    let rows: [(u8, &str, Option<&str>, &[u8]); 5] = [
        (1, "--key=030201000504070608090A0B0C0D0E0F1", None, nowhere),
        (1, "--addresses", None, b"17\n??\n??:0:0\n\n"),
        (2, "--base=1", None, nowhere),
        (
            2,
            "--key=030201000504070608090A0B0C0D0E0F1",
            Some(
                "pdb_tool: wrong PDB: a.pdb has the key 030201000504070608090A0B0C0D0E0F2, and not 030201000504070608090A0B0C0D0E0F1\n",
            ),
            b"",
        ),
        (
            17,
            "--key={03020100-0504-0706-0809-0a0b0c0d0e0f}1",
            Some(
                "pdb_tool: wrong PDB: a.pdb has the key 030201000504070608090A0B0C0D0E0F11, and not 030201000504070608090A0B0C0D0E0F1\n",
            ),
            b"",
        ),
    ];
    for (age, option, other, told) in rows {
        let bytes = pdb(alloc, age)?;
        let files = [("a.pdb", bytes.as_slice())];
        let wanted = match other {
            Some(_) => Err(Fault::OtherKey),
            None => Ok(true),
        };
        for is_whole in [false, true] {
            let host = one(alloc, &files, is_whole);
            let given = said(&host, &["resolve", option, "a.pdb", "17"], b"")?;
            is(&rt, "result", &given.result, &wanted);
            is(&rt, "out", &given.out.as_slice(), &told);
            is(
                &rt,
                "err",
                &given.err.as_slice(),
                &other.unwrap_or("").as_bytes(),
            );
            let given = said(&host, &["resolve", option, "a.pdb"], b"17")?;
            is(&rt, "result of a line", &given.result, &wanted);
            is(&rt, "out of a line", &given.out.as_slice(), &told);
        }
    }
    Ok(())
}

#[test]
fn an_image_names_the_file_and_its_base(rt: HostRuntime) -> Result<(), Fail> {
    let alloc = rt.alloc();
    let (image, bytes, other) = (image(alloc)?, pdb(alloc, 1)?, pdb(alloc, 2)?);
    let files = [
        ("a.pdb", bytes.as_slice()),
        ("b.pdb", other.as_slice()),
        ("a.exe", image.as_slice()),
    ];
    let host = one(alloc, &files, false);
    let words = ["resolve", "a.pdb", "--image", "a.exe", "140000017"];
    let given = said(&host, &words, b"")?;
    is(&rt, "result", &given.result, &Ok(true));
    is(
        &rt,
        "out",
        &given.out.as_slice(),
        &b"??\n??:0:0\n\n".as_slice(),
    );
    let given = said(
        &host,
        &["resolve", "--image=a.exe", "a.pdb"],
        b"140000017\n17",
    )?;
    is(&rt, "result of lines", &given.result, &Ok(true));
    let wanted: &[u8] = b"??\n??:0:0\n\n??\n??:0:0\n\n";
    is(&rt, "lines", &given.out.as_slice(), &wanted);
    let given = said(&host, &["resolve", "--image=a.exe", "b.pdb", "17"], b"")?;
    is(&rt, "another", &given.result, &Err(Fault::OtherKey));
    let wanted: &[u8] =
        b"pdb_tool: wrong PDB: b.pdb has the key 030201000504070608090A0B0C0D0E0F2, a.exe needs 030201000504070608090A0B0C0D0E0F1\n";
    is(&rt, "whose key", &given.err.as_slice(), &wanted);
    let given = said(&host, &["resolve", "--image=none", "b.pdb", "17"], b"")?;
    let value = ValueAt {
        argument: 1,
        is_joined: true,
    };
    let missing = Err(Fault::Image(Stop::Unopened(Unopened::Missing), value));
    is(&rt, "none", &given.result, &missing);
    let given = said(&host, &["resolve", "--image", "b.pdb", "a.pdb", "17"], b"")?;
    let value = ValueAt {
        argument: 2,
        is_joined: false,
    };
    let refused = Err(Fault::Image(Stop::Image(ImageError::NotAnImage), value));
    is(&rt, "no image", &given.result, &refused);
    Ok(())
}
