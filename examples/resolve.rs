//! A safe face for the frames of addresses, and a program with the text of `pdb_tool resolve FILE ADDRESS..`.
//!
//!     rustc --edition 2024 -O examples/resolve.rs -L c/out -l static=pdb -o resolve

use std::io::Write;

/// An address that is asked for.
#[repr(C)]
#[derive(Clone, Copy)]
pub struct Address {
    pub offset: u32,
    pub section: u16,
    /// 0 for a relative virtual address, 1 for an offset in a section.
    pub kind: u16,
}

#[repr(C)]
#[derive(Clone, Copy, Default)]
struct Row {
    address: usize,
    name_at: usize,
    name_size: usize,
    file_at: usize,
    file_size: usize,
    line: u32,
    column: u32,
    has_name: u32,
    has_file: u32,
}

unsafe extern "C" {
    fn pdb_frames(
        file: *const u8,
        file_size: usize,
        addresses: *const Address,
        addresses_count: usize,
        frames: *mut Row,
        room: usize,
        count: &mut usize,
        names: *mut u8,
        names_room: usize,
        size: &mut usize,
    ) -> u32;
}

/// A function whose code stands at an address, and the line there.
pub struct Frame<'a> {
    pub address: usize,
    pub name: Option<&'a [u8]>,
    pub file: Option<&'a [u8]>,
    pub line: u32,
    pub column: u32,
}

/// The frames of addresses, with the names that they borrow.
pub struct Frames {
    rows: Vec<Row>,
    names: Vec<u8>,
}

impl Frames {
    /// Of a file's bytes; a refusal is its number.
    pub fn of(file: &[u8], addresses: &[Address]) -> Result<Self, u32> {
        let (mut rows, mut names) = (Vec::new(), Vec::new());
        let (mut count, mut size) = (0, 0);
        loop {
            // A slice's pointer is never null, and each is as long as is said.
            let code = unsafe {
                pdb_frames(
                    file.as_ptr(),
                    file.len(),
                    addresses.as_ptr(),
                    addresses.len(),
                    rows.as_mut_ptr(),
                    rows.len(),
                    &mut count,
                    names.as_mut_ptr(),
                    names.len(),
                    &mut size,
                )
            };
            match code {
                0 => return Ok(Frames { rows, names }),
                31 => {
                    rows = vec![Row::default(); count];
                    names = vec![0; size];
                }
                refusal => return Err(refusal),
            }
        }
    }

    pub fn iter(&self) -> impl Iterator<Item = Frame<'_>> {
        self.rows.iter().map(|it| Frame {
            address: it.address,
            name: (it.has_name == 1).then(|| &self.names[it.name_at..it.name_at + it.name_size]),
            file: (it.has_file == 1).then(|| &self.names[it.file_at..it.file_at + it.file_size]),
            line: it.line,
            column: it.column,
        })
    }
}

/// A number of 1 to `most` hex digits.
fn hex(digits: &str, most: usize) -> Option<u32> {
    let well = (1..=most).contains(&digits.len()) && digits.bytes().all(|it| it.is_ascii_hexdigit());
    well.then(|| u32::from_str_radix(digits, 16).ok()).flatten()
}

/// The address that an argument is: HEX, 0xHEX or SECTION:HEX.
fn asked(word: &str) -> Option<Address> {
    if let Some((section, offset)) = word.split_once(':') {
        return Some(Address { offset: hex(offset, 8)?, section: hex(section, 4)? as u16, kind: 1 });
    }
    let digits = word.strip_prefix("0x").or_else(|| word.strip_prefix("0X")).unwrap_or(word);
    Some(Address { offset: hex(digits, 8)?, section: 0, kind: 0 })
}

fn stop(status: i32, why: &str) -> ! {
    eprintln!("{why}");
    std::process::exit(status)
}

const USAGE: &str = "usage: resolve FILE ADDRESS.., each HEX, 0xHEX or SECTION:HEX";

fn main() {
    let words: Vec<String> = std::env::args().skip(1).collect();
    let [path, words @ ..] = words.as_slice() else { stop(2, USAGE) };
    let addresses: Vec<Address> = words
        .iter()
        .map(|word| asked(word).unwrap_or_else(|| stop(2, &format!("resolve: not an address: {word}\n{USAGE}"))))
        .collect();
    let file = std::fs::read(path).unwrap_or_else(|error| stop(3, &format!("resolve: {path}: {error}")));
    let frames = Frames::of(&file, &addresses).unwrap_or_else(|code| match code {
        22 => stop(5, "out of memory"),
        _ => stop(4, &format!("cannot open: {code}")),
    });
    let mut out = Vec::new();
    let mut left = frames.iter().peekable();
    for k in 0..addresses.len() {
        while let Some(it) = left.next_if(|it| it.address == k) {
            out.extend_from_slice(it.name.unwrap_or(b"??"));
            out.push(b'\n');
            out.extend_from_slice(it.file.unwrap_or(b"??"));
            out.extend_from_slice(format!(":{}:{}\n", it.line, it.column).as_bytes());
        }
        out.push(b'\n');
    }
    std::io::stdout().write_all(&out).unwrap_or_else(|_| std::process::exit(6));
}
