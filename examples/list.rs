//! A safe face for modules, symbols and lines, and a program with the lines of `pdb_list FILE COMMAND..` for modules, globals,
//! symbols K and lines K.
//!
//!     rustc --edition 2024 -O examples/list.rs -L c/out -l static=pdb -o list

use std::io::Write;
use std::marker::PhantomData;

/// A refusal or a fault, by its number.
pub type Code = u32;

const DONE: Code = 0;
const END: Code = 30;
const ROOM: Code = 31;
const NO_STREAM: u32 = 0xffff;

/// Bytes that are lent by those that were passed.
#[repr(C)]
#[derive(Clone, Copy)]
pub struct Bytes<'a> {
    data: *const u8,
    size: usize,
    lender: PhantomData<&'a [u8]>,
}

impl<'a> Bytes<'a> {
    const NONE: Self = Bytes { data: b"".as_ptr(), size: 0, lender: PhantomData };

    pub fn get(self) -> &'a [u8] {
        // The library lends parts of the bytes that it was passed, which are borrowed for 'a.
        unsafe { std::slice::from_raw_parts(self.data, self.size) }
    }
}

#[repr(C)]
#[derive(Clone, Copy, Default)]
struct StreamRow {
    at: usize,
    size: usize,
    number: u32,
    code: u32,
}

#[repr(C)]
#[derive(Clone, Copy, Default)]
pub struct Header {
    pub age: u32,
    pub symbols_stream: u32,
    pub machine: u32,
    pub flags: u32,
}

#[repr(C)]
#[derive(Clone, Copy)]
pub struct Module<'a> {
    pub name: Bytes<'a>,
    pub object: Bytes<'a>,
    pub stream: u32,
    pub symbols_size: u32,
    pub lines_size: u32,
    pub c13_lines_size: u32,
}

#[repr(C)]
#[derive(Clone, Copy)]
pub struct Symbol<'a> {
    pub record: Bytes<'a>,
    pub name: Bytes<'a>,
    pub annotations: Bytes<'a>,
    pub index: u32,
    pub parent: u32,
    pub end: u32,
    pub offset: u32,
    pub code_size: u32,
    pub type_index: u32,
    pub inlinee: u32,
    pub section: u16,
    pub kind: u16,
    pub form: u8,
    pub refused: u8,
    pub has_name: u8,
    pub has_place: u8,
    pub starts_scope: u8,
    pub ends_scope: u8,
}

#[repr(C)]
#[derive(Clone, Copy, Default)]
pub struct Line {
    pub offset: u32,
    pub section: u16,
    pub file_refused: u16,
    pub has_length: u8,
    pub has_column_start: u8,
    pub has_column_end: u8,
    pub is_statement: u8,
    pub length: u32,
    pub file: u32,
    pub file_name: u32,
    pub line_start: u32,
    pub line_end: u32,
    pub column_start: u32,
    pub column_end: u32,
}

unsafe extern "C" {
    fn pdb_debug_information(file: *const u8, file_size: usize, out: &mut Header) -> Code;
    fn pdb_streams(file: *const u8, file_size: usize, numbers: *const u16, count: usize, rows: *mut StreamRow, rows_room: usize, room: *mut u8, room_size: usize, size: &mut usize) -> Code;
    fn pdb_modules(dbi: *const u8, dbi_size: usize, records: *mut Module<'_>, room: usize, count: &mut usize) -> Code;
    fn pdb_symbols(stream: *const u8, stream_size: usize, symbols_size: u32, at: &mut u32, records: *mut Symbol<'_>, room: usize, count: &mut usize) -> Code;
    fn pdb_global_symbols(stream: *const u8, stream_size: usize, at: &mut u32, records: *mut Symbol<'_>, room: usize, count: &mut usize) -> Code;
    fn pdb_lines(stream: *const u8, stream_size: usize, symbols_size: u32, lines_size: u32, c13_lines_size: u32, records: *mut Line, room: usize, count: &mut usize) -> Code;
}

/// What a list had, and 0 or the fault behind it.
pub struct Listed<T> {
    pub items: Vec<T>,
    pub fault: Code,
}

/// What the DBI stream's header says.
pub fn header(file: &[u8]) -> Result<Header, Code> {
    let mut out = Header::default();
    match unsafe { pdb_debug_information(file.as_ptr(), file.len(), &mut out) } {
        DONE => Ok(out),
        code => Err(code),
    }
}

/// The bytes of a stream.
pub fn stream(file: &[u8], number: u16) -> Result<Vec<u8>, Code> {
    let (mut row, mut room, mut size) = (StreamRow::default(), Vec::new(), 0);
    loop {
        let code = unsafe { pdb_streams(file.as_ptr(), file.len(), &number, 1, &mut row, 1, room.as_mut_ptr(), room.len(), &mut size) };
        match code {
            DONE if row.code == DONE => return Ok(room),
            DONE => return Err(row.code),
            ROOM => room = vec![0; size],
            code => return Err(code),
        }
    }
}

/// The modules of the DBI stream's bytes.
pub fn modules(dbi: &[u8]) -> Listed<Module<'_>> {
    let none = Module { name: Bytes::NONE, object: Bytes::NONE, stream: 0, symbols_size: 0, lines_size: 0, c13_lines_size: 0 };
    let (mut items, mut count) = (vec![none; dbi.len() / 68 + 1], 0);
    let fault = unsafe { pdb_modules(dbi.as_ptr(), dbi.len(), items.as_mut_ptr(), items.len(), &mut count) };
    items.truncate(count);
    Listed { items, fault }
}

/// Symbols, as many in one call as there is room for: those of a module, by the size of its symbols, or global ones.
pub fn symbols(stream: &[u8], symbols_size: Option<u32>) -> Listed<Symbol<'_>> {
    let none = Symbol {
        record: Bytes::NONE, name: Bytes::NONE, annotations: Bytes::NONE, index: 0, parent: 0, end: 0, offset: 0, code_size: 0, type_index: 0,
        inlinee: 0, section: 0, kind: 0, form: 0, refused: 0, has_name: 0, has_place: 0, starts_scope: 0, ends_scope: 0,
    };
    let (mut room, mut items, mut count) = (vec![none; 256], Vec::new(), 0);
    let mut at = if symbols_size.is_some() { 4 } else { 0 };
    loop {
        let (rows, places) = (room.as_mut_ptr(), room.len());
        let code = match symbols_size {
            Some(size) => unsafe { pdb_symbols(stream.as_ptr(), stream.len(), size, &mut at, rows, places, &mut count) },
            None => unsafe { pdb_global_symbols(stream.as_ptr(), stream.len(), &mut at, rows, places, &mut count) },
        };
        items.extend_from_slice(&room[..count]);
        match code {
            DONE => {}
            END => return Listed { items, fault: DONE },
            fault => return Listed { items, fault },
        }
    }
}

/// The line records of a module's stream.
pub fn lines(stream: &[u8], module: &Module<'_>) -> Listed<Line> {
    let most = (module.c13_lines_size as usize).min(stream.len()) / 8;
    let (mut items, mut count) = (vec![Line::default(); most], 0);
    let (symbols, older, newer) = (module.symbols_size, module.lines_size, module.c13_lines_size);
    let fault = unsafe { pdb_lines(stream.as_ptr(), stream.len(), symbols, older, newer, items.as_mut_ptr(), most, &mut count) };
    items.truncate(count);
    Listed { items, fault }
}

const FORMS: [&str; 28] = [
    "", "ScopeEnd", "ObjName", "RegisterVariable", "Constant", "UserDefinedType", "MultiRegisterVariable", "Data", "Public", "Procedure",
    "ThreadStorage", "CompileFlags", "UsingNamespace", "ProcedureReference", "DataReference", "AnnotationReference", "Trampoline",
    "Export", "Local", "BuildInfo", "InlineSite", "InlineSiteEnd", "ProcedureEnd", "Label", "Block", "RegisterRelative", "Thunk",
    "SeparatedCode",
];

fn told(has: u8, number: u32) -> String {
    if has == 1 { number.to_string() } else { "-".to_string() }
}

fn put_modules(out: &mut Vec<u8>, modules: &[Module<'_>]) -> std::io::Result<()> {
    for (k, it) in modules.iter().enumerate() {
        let stream = told(u8::from(it.stream != NO_STREAM), it.stream);
        write!(out, "module {k} {stream} {} {} {} ", it.symbols_size, it.lines_size, it.c13_lines_size)?;
        out.extend_from_slice(it.name.get());
        out.extend_from_slice(b"\nobject ");
        out.extend_from_slice(it.object.get());
        out.push(b'\n');
    }
    Ok(())
}

fn put_symbols(out: &mut Vec<u8>, symbols: &[Symbol<'_>]) -> std::io::Result<()> {
    for it in symbols {
        write!(out, "symbol {:08x} {:04x} ", it.index, it.kind)?;
        if it.refused != 0 {
            write!(out, "refused {}", it.refused)?;
        } else {
            out.extend_from_slice(FORMS[usize::from(it.form)].as_bytes());
        }
        if it.has_name == 1 {
            out.push(b' ');
            out.extend_from_slice(it.name.get());
        }
        out.push(b'\n');
    }
    Ok(())
}

fn put_lines(out: &mut Vec<u8>, lines: &[Line]) -> std::io::Result<()> {
    for it in lines {
        let (length, start, end) = (told(it.has_length, it.length), told(it.has_column_start, it.column_start), told(it.has_column_end, it.column_end));
        let kind = if it.is_statement == 1 { 'S' } else { 'E' };
        writeln!(out, "line {:04x}:{:08x} {length} {} {} {} {start} {end} {kind}", it.section, it.offset, it.file, it.line_start, it.line_end)?;
    }
    Ok(())
}

/// A command's lines; 0, or the fault behind them.
fn put(out: &mut Vec<u8>, file: &[u8], command: &str, k: usize) -> Result<Code, Code> {
    let header = header(file)?;
    if command == "globals" {
        if header.symbols_stream == NO_STREAM {
            return Err(8);
        }
        let bytes = stream(file, header.symbols_stream as u16)?;
        let listed = symbols(&bytes, None);
        put_symbols(out, &listed.items).map_err(|_| 6u32)?;
        return Ok(listed.fault);
    }
    let dbi = stream(file, 3)?;
    let modules = modules(&dbi);
    if command == "modules" {
        put_modules(out, &modules.items).map_err(|_| 6u32)?;
        return Ok(modules.fault);
    }
    let module = match modules.items.get(k) {
        Some(module) if module.stream != NO_STREAM => module,
        None if modules.fault != DONE => return Err(modules.fault),
        _ => {
            out.extend_from_slice(b"none\n");
            return Ok(DONE);
        }
    };
    let bytes = stream(file, module.stream as u16)?;
    if command == "symbols" {
        let listed = symbols(&bytes, Some(module.symbols_size));
        put_symbols(out, &listed.items).map_err(|_| 6u32)?;
        return Ok(listed.fault);
    }
    let listed = lines(&bytes, module);
    put_lines(out, &listed.items).map_err(|_| 6u32)?;
    Ok(listed.fault)
}

fn stop(status: i32, why: &str) -> ! {
    eprintln!("{why}");
    std::process::exit(status)
}

const USAGE: &str = "usage: list FILE COMMAND.., of modules, globals, symbols K and lines K";

/// The commands that arguments are, each with its number; why they are none.
fn commands(words: &[String]) -> Result<Vec<(&str, usize)>, String> {
    let mut left = words.iter();
    let mut found = Vec::new();
    while let Some(command) = left.next() {
        let k = match command.as_str() {
            "modules" | "globals" => 0,
            "symbols" | "lines" => {
                let word = left.next().map_or("none", String::as_str);
                word.parse::<u32>().map_err(|_| format!("list: {command}: not a number: {word}"))?
            }
            _ => return Err(format!("list: no command: {command}")),
        };
        found.push((command.as_str(), k as usize));
    }
    if found.is_empty() { Err("list: no command".to_string()) } else { Ok(found) }
}

fn main() {
    let words: Vec<String> = std::env::args().skip(1).collect();
    let [path, words @ ..] = words.as_slice() else { stop(2, USAGE) };
    let commands = commands(words).unwrap_or_else(|why| stop(2, &format!("{why}\n{USAGE}")));
    let file = std::fs::read(path).unwrap_or_else(|error| stop(3, &format!("list: {path}: {error}")));
    let mut out = Vec::new();
    for (command, k) in commands {
        if let Err(code) | Ok(code @ 1..) = put(&mut out, &file, command, k) {
            out.extend_from_slice(format!("error {code}\n").as_bytes());
        }
    }
    std::io::stdout().write_all(&out).unwrap_or_else(|_| std::process::exit(6));
}
