//! The program over files in memory.

use crate::host::{Host, Unstored};
use crate::messages::report_fault;
use crate::tasks::{StandardStreams, run};
use crate::tests::fakes::is;
use pdb_file::{FileBytes, ReadAt};
use pdb_text::CountedWriter;
use std::alloc::{AllocError, Global};
use std::io::{self, ErrorKind};
use std::process::Abort;
use std::test::Fail;
use tool_arguments::operands::Operand;
use tool_output::fault::Fault;
use tool_output::stop::{Stop, Unopened};

/// A file that gives at most seven bytes at a read, and lends none.
#[derive(Drop)]
pub struct Pieces<'a> {
    bytes: &'a [u8],
}

impl<'a> ReadAt for Pieces<'a> {
    ghost use Rattle.std.specs.Prelude.{None, false};

    ghost known = { λ _. None };

    ghost is_steady = { λ _. false };

    fn read_bytes_at(&self, buf: &mut [u8], at: u64) -> io::Result<usize> {
        let Some(rest) = self.bytes.get(at as usize..) else {
            return Err(io::Error::from(ErrorKind::Other));
        };
        let count = rest.len().min(buf.len()).min(7);
        buf[..count].copy_from_slice(&rest[..count]);
        Ok(count)
    }

    fn borrow_at(&self, _at: u64, _size: usize) -> Option<&[u8]> {
        None
    }

    fn steady_size(&self) -> Option<u64> {
        None
    }
}

/// Files by their names, each of this size, in parts; or whole.
#[derive(Drop)]
pub struct Fakes<'a> {
    pub alloc: Global,
    pub files: &'a [(&'a str, &'a [u8])],
    pub is_whole: bool,
    pub not_text: &'a [usize],
    pub has_input: bool,
    pub is_asked_by_hand: bool,
    /// The value of `_NT_SYMBOL_PATH`.
    pub variable: Option<&'a [u8]>,
}

impl<'a> Fakes<'a> {
    fn bytes_of(&self, name: &str) -> Option<&'a [u8]> {
        for (file, bytes) in self.files {
            if *file == name {
                return Some(*bytes);
            }
        }
        None
    }
}

impl<'a> Host for Fakes<'a> {
    ghost use Rattle.std.specs.Prelude.{false, Err};
    ghost use Rattle.tool_output.specs.declared.stop.Stop.TheVariants.{Read};

    type File = Pieces<'a>;

    ghost is_known = { λ _. false };

    ghost file = { λ _ _. Err Read };

    fn alloc(&self) -> Global {
        self.alloc
    }

    fn open(&self, name: Operand<'_>) -> Result<FileBytes<Pieces<'a>>, Stop> {
        if self.not_text.contains(&name.argument) {
            return Err(Stop::Unopened(Unopened::NotText));
        }
        self.open_path(name.word)
    }

    fn open_path(&self, path: &str) -> Result<FileBytes<Pieces<'a>>, Stop> {
        match self.bytes_of(path) {
            // A file without bytes stands for one that nobody may read.
            Some(b"") if path.starts_with("denied") => Err(Stop::Unopened(Unopened::Denied)),
            Some(bytes) if self.is_whole => {
                Ok(FileBytes::Whole(Vec::from_slice(self.alloc, bytes)?))
            }
            Some(bytes) => Ok(FileBytes::InParts(Pieces { bytes }, bytes.len() as u64)),
            None => Err(Stop::Unopened(Unopened::Missing)),
        }
    }

    fn store(&self, path: &str, bytes: &FileBytes<Pieces<'a>>) -> Result<(), Unstored> {
        // The first letter of a path says what happens there.
        match path.as_bytes().first() {
            Some(b'd') => Err(Unstored::Unwritten(Unopened::Denied)),
            Some(b'f') => Err(Unstored::Unwritten(Unopened::Other)),
            Some(b'u') => Err(Unstored::Unread),
            Some(b'm') => Err(Unstored::OutOfMemory),
            Some(_) if bytes.size() > 0 => Ok(()),
            _ => Err(Unstored::Unread),
        }
    }

    fn is_file(&self, path: &str) -> bool {
        self.bytes_of(path).is_some()
    }

    fn symbol_path(&self) -> Result<Option<Vec<u8>>, AllocError> {
        match self.variable {
            Some(value) => Ok(Some(Vec::from_slice(self.alloc, value)?)),
            None => Ok(None),
        }
    }

    fn front(&self, name: &str) -> Option<(Vec<u8>, u64)> {
        let bytes = self.bytes_of(name)?;
        if self.is_whole {
            return None;
        }
        let front = bytes.get(..52).unwrap_or(bytes);
        Some((Vec::from_slice(self.alloc, front).ok()?, bytes.len() as u64))
    }

    fn has_input(&self) -> bool {
        self.has_input
    }

    fn is_asked_by_hand(&self) -> bool {
        self.is_asked_by_hand
    }

    fn not_text(&self) -> &[usize] {
        self.not_text
    }
}

/// How the program ended, and what it wrote.
#[derive(Drop)]
pub struct Said {
    pub result: Result<bool, Fault>,
    pub out: Vec<u8>,
    pub err: Vec<u8>,
}

/// What the program says over these files, with these arguments and this input.
pub fn said(host: &Fakes<'_>, words: &[&str], mut input: &[u8]) -> Result<Said, Fail> {
    let mut all = Vec::new(host.alloc);
    for word in words {
        all.push(String::from_str(host.alloc, word)?)?;
    }
    let mut out = Vec::new(host.alloc);
    let mut err = Vec::new(host.alloc);
    let mut counted = CountedWriter::counting(&mut out);
    let mut streams = StandardStreams {
        input: &mut input,
        out: &mut counted,
        err: &mut err,
    };
    let result = run(host, &all, &mut streams);
    if let Err(fault) = result {
        report_fault(host, fault, &all, &mut err);
    }
    Ok(Said { result, out, err })
}

/// One file `a.pdb`, in parts or whole.
pub fn one<'a>(alloc: Global, files: &'a [(&'a str, &'a [u8])], is_whole: bool) -> Fakes<'a> {
    Fakes {
        alloc,
        files,
        is_whole,
        not_text: &[],
        has_input: true,
        is_asked_by_hand: false,
        variable: None,
    }
}

// The command prints this text of the file `a.pdb`, whole and in parts.
pub fn prints(
    rt: &(impl Abort + AllocGlobal),
    bytes: &[u8],
    words: &[&str],
    wanted: &[u8],
) -> Result<(), Fail> {
    let looks_up = matches!(words.first(), Some(&"find" | &"where"));
    let files = [("a.pdb", bytes)];
    for is_whole in [false, true] {
        let given = said(&one(rt.alloc(), &files, is_whole), words, b"")?;
        is(rt, "out", &given.out.as_slice(), &wanted);
        let is_well = !looks_up || !wanted.is_empty();
        is(rt, "result", &given.result, &Ok(is_well));
    }
    Ok(())
}

// What `check` prints of the file `a.pdb`, and whether nothing is wrong with it.
pub fn checks(
    rt: &(impl Abort + AllocGlobal),
    bytes: &[u8],
    well: bool,
    wanted: &[u8],
) -> Result<(), Fail> {
    let files = [("a.pdb", bytes)];
    for is_whole in [false, true] {
        let given = said(&one(rt.alloc(), &files, is_whole), &["check", "a.pdb"], b"")?;
        is(rt, "out", &given.out.as_slice(), &wanted);
        is(rt, "result", &given.result, &Ok(well));
    }
    Ok(())
}
