// `pdb_tool symbols --all FILE` in plain Rust: the measure beside which pdb_tool is put. It trusts its input, and knows the
// kinds and the machines of real programs for x86 and x64 alone.
use std::io::Write;

mod container;
mod registers;
mod symbol_records;
mod type_names;

use container::{cstring, modules_of, u16_at, u32_at, File, Items};
use registers::Machine;
use symbol_records::put_record;
use type_names::Types;

/// Texts that many lines end with, each made once.
struct Kept(Vec<Option<Box<[u8]>>>);

impl Kept {
    fn put(&mut self, out: &mut Vec<u8>, index: u32, make: impl FnOnce(&mut Vec<u8>)) {
        let index = index as usize;
        if index >= self.0.len() {
            self.0.resize(index + 1, None);
        }
        let text = self.0[index].get_or_insert_with(|| {
            let mut text = Vec::new();
            make(&mut text);
            text.into()
        });
        out.extend_from_slice(text);
    }
}

/// The names of types and of inlined functions.
pub struct Names<'a> {
    ids: &'a Items<'a>,
    types: Types<'a>,
    kept_types: Kept,
    kept_calls: Kept,
}

impl<'a> Names<'a> {
    fn new(ids: &'a Items<'a>, types: &'a Items<'a>) -> Self {
        Names { ids, types: Types::new(types), kept_types: Kept(Vec::new()), kept_calls: Kept(Vec::new()) }
    }

    /// The name of a type behind a colon.
    pub fn put_type(&mut self, out: &mut Vec<u8>, index: u32) {
        if index != 0 {
            self.kept_types.put(out, index, |text| put_typed(text, &self.types, index));
        }
    }

    /// The name of an inlined function, and that of its type.
    pub fn put_call(&mut self, out: &mut Vec<u8>, id: u32) {
        self.kept_calls.put(out, id, |text| put_function(text, self.ids, &self.types, id));
    }
}

fn put_typed(out: &mut Vec<u8>, types: &Types, index: u32) {
    out.extend_from_slice(b": ");
    types.put_name(out, index);
}

fn put_function(out: &mut Vec<u8>, ids: &Items, types: &Types, id: u32) {
    let item = ids.find(id).unwrap();
    let (parent, is_member) = (u32_at(item, 2), u16_at(item, 0) == 0x1602);
    out.push(b' ');
    if parent != 0 {
        if is_member {
            types.put_name(out, parent);
        } else {
            out.extend_from_slice(cstring(ids.find(parent).unwrap(), 6));
        }
        out.extend_from_slice(b"::");
    }
    out.extend_from_slice(cstring(item, 10));
    put_typed(out, types, u32_at(item, 6));
}

fn ends_scope(kind: u16) -> bool {
    matches!(kind, 0x0006 | 0x114e | 0x114f)
}

fn starts_scope(kind: u16) -> bool {
    matches!(kind, 0x1102 | 0x1103 | 0x110f | 0x1110 | 0x1146 | 0x1147 | 0x114d)
}

/// The lines of a module's symbols.
fn put_symbols(out: &mut Vec<u8>, names: &mut Names, machine: &Machine, b: &[u8]) {
    let (mut at, mut depth) = (4, 0usize);
    while at < b.len() {
        let record = &b[at + 2..at + 2 + u16_at(b, at) as usize];
        let kind = u16_at(record, 0);
        if !matches!(kind, 0x0402 | 0x0007) {
            depth = depth.saturating_sub(ends_scope(kind).into());
            out.resize(out.len() + 2 * depth.min(32), b' ');
            put_record(out, names, machine, at as u32, record);
            depth += usize::from(starts_scope(kind));
        }
        at += 2 + record.len();
    }
}

/// Whether a module is for x64, by the record of its compiler.
fn is_x64(b: &[u8]) -> Option<bool> {
    let mut at = 4;
    while at < b.len() {
        if u16_at(b, at + 2) == 0x113c {
            return Some(u16_at(b, at + 8) == 0xd0);
        }
        at += 2 + u16_at(b, at) as usize;
    }
    None
}

fn main() {
    let file = File::open(&std::env::args().nth(1).unwrap());
    let (ids, types) = (file.stream(4), file.stream(2));
    let (ids, types) = (Items::new(&ids), Items::new(&types));
    let mut names = Names::new(&ids, &types);
    let (dbi, starts) = modules_of(&file);
    let (x86, x64, header) = (Machine::x86(), Machine::x64(), u16_at(&dbi, 58) == 0x8664);
    let stream_of = |at: usize| u16_at(&dbi, at + 34);
    let are_several = starts.iter().filter(|&&at| stream_of(at) != 0xffff).count() > 1;
    let (mut out, mut written) = (Vec::new(), std::io::stdout());
    for (k, &at) in starts.iter().enumerate().filter(|(_, &at)| stream_of(at) != 0xffff) {
        if are_several {
            write!(out, "module {k} ").unwrap();
            out.extend_from_slice(cstring(&dbi, at + 64));
            out.push(b'\n');
        }
        let stream = file.stream(stream_of(at).into());
        let symbols = &stream[..u32_at(&dbi, at + 36) as usize];
        let machine = if is_x64(symbols).unwrap_or(header) { &x64 } else { &x86 };
        put_symbols(&mut out, &mut names, machine, symbols);
        written.write_all(&out).unwrap();
        out.clear();
    }
}
