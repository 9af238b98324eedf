// What a plain Rust program takes to print the same texts over the files that `files` makes: the measure beside which
// pdb_list is put. It trusts its input, and reads what these files have alone.
use std::collections::HashMap;
use std::io::Write;

mod container;
mod type_names;

use container::{cstring, decimal, modules_of, u16_at, u32_at, File, Items};

fn hex(out: &mut Vec<u8>, n: u32, digits: u32) {
    let mut text = [0; 8];
    for (at, digit) in text.iter_mut().enumerate().take(digits as usize) {
        *digit = b"0123456789abcdef"[(n >> (4 * (digits - 1 - at as u32)) & 15) as usize];
    }
    out.extend_from_slice(&text[..digits as usize]);
}

fn symbols(out: &mut Vec<u8>, b: &[u8], mut at: usize) {
    while at < b.len() {
        let (size, kind) = (u16_at(b, at) as usize, u16_at(b, at + 2));
        let (form, name): (&[u8], usize) = match kind {
            0x113e => (b"Local ", 10),
            0x1103 => (b"Block ", 22),
            0x1110 => (b"Procedure ", 39),
            0x0006 => (b"ScopeEnd", 0),
            0x1012 | 0x1142 => (b"refused 12", 0),
            0x110e => (b"Public ", 14),
            0x1108 => (b"UserDefinedType ", 8),
            0x1125 => (b"ProcedureReference ", 14),
            0x1107 => (b"Constant ", 10),
            _ => (b"Data ", 14),
        };
        out.extend_from_slice(b"symbol ");
        hex(out, at as u32, 8);
        out.push(b' ');
        hex(out, kind.into(), 4);
        out.push(b' ');
        out.extend_from_slice(form);
        if name > 0 {
            out.extend_from_slice(cstring(b, at + name));
        }
        out.push(b'\n');
        at += 2 + size;
    }
}

/// `pdb_tool find FILE '*'`, of the global symbols of a file without sections, whose names aren't decorated.
fn find(out: &mut Vec<u8>, b: &[u8]) {
    let mut at = 0;
    while at < b.len() {
        let size = u16_at(b, at) as usize;
        let kind: &[u8] = match u16_at(b, at + 2) {
            0x110e => b"public ",
            0x110d => b"data ",
            0x1113 => b"thread ",
            _ => b"",
        };
        if !kind.is_empty() {
            out.extend_from_slice(kind);
            hex(out, u16_at(b, at + 12).into(), 4);
            out.push(b':');
            hex(out, u32_at(b, at + 8), 8);
            out.extend_from_slice(b" - - ");
            let name = cstring(b, at + 14);
            out.extend(name.iter().map(|&x| if x == b'\n' || x == b'\r' { b' ' } else { x }));
            out.push(b'\n');
        }
        at += 2 + size;
    }
}

fn names(out: &mut Vec<u8>, b: &[u8]) {
    let text = &b[32..32 + u32_at(b, 28) as usize];
    let table = &b[32 + text.len()..];
    let present = u32_at(table, 8) as usize;
    let deleted = u32_at(table, 12 + 4 * present) as usize;
    for pair in table[16 + 4 * (present + deleted)..].chunks_exact(8) {
        out.extend_from_slice(b"name ");
        decimal(out, u32_at(pair, 4));
        out.push(b' ');
        out.extend_from_slice(cstring(text, u32_at(pair, 0) as usize));
        out.push(b'\n');
    }
}

fn modules(out: &mut Vec<u8>, b: &[u8]) {
    let end = 64 + u32_at(b, 24) as usize;
    let (mut at, mut k) = (64, 0);
    while at < end {
        let name = cstring(b, at + 64);
        let object = cstring(b, at + 65 + name.len());
        out.extend_from_slice(b"module ");
        decimal(out, k);
        for n in [u16_at(b, at + 34).into(), u32_at(b, at + 36), u32_at(b, at + 40), u32_at(b, at + 44)] {
            out.push(b' ');
            decimal(out, n);
        }
        out.push(b' ');
        out.extend_from_slice(name);
        out.extend_from_slice(b"\nobject ");
        out.extend_from_slice(object);
        out.push(b'\n');
        at += (66 + name.len() + object.len() + 3) & !3;
        k += 1;
    }
}

fn contributions(out: &mut Vec<u8>, b: &[u8]) {
    let start = 64 + u32_at(b, 24) as usize;
    for row in b[start + 4..start + u32_at(b, 28) as usize].chunks_exact(28) {
        out.extend_from_slice(b"contribution ");
        hex(out, u16_at(row, 0).into(), 4);
        out.push(b':');
        hex(out, u32_at(row, 4), 8);
        out.push(b' ');
        decimal(out, u32_at(row, 8));
        out.push(b' ');
        hex(out, u32_at(row, 12), 8);
        out.push(b' ');
        decimal(out, u16_at(row, 16).into());
        for at in [20, 24] {
            out.push(b' ');
            hex(out, u32_at(row, at), 8);
        }
        out.push(b'\n');
    }
}

fn line(out: &mut Vec<u8>, section: u16, offset: u32, numbers: [u32; 4]) {
    out.extend_from_slice(b"line ");
    hex(out, section.into(), 4);
    out.push(b':');
    hex(out, offset, 8);
    for n in numbers {
        out.push(b' ');
        decimal(out, n);
    }
    out.extend_from_slice(b" - - S\n");
}

fn lines(out: &mut Vec<u8>, b: &[u8]) {
    let mut at = 0;
    while at < b.len() {
        let (kind, size) = (u32_at(b, at), u32_at(b, at + 4) as usize);
        let part = &b[at + 8..at + 8 + size];
        if kind == 0xf2 {
            let (start, section, code) = (u32_at(part, 0), u16_at(part, 4), u32_at(part, 8));
            let mut block = 12;
            while block < part.len() {
                let (file, count) = (u32_at(part, block), u32_at(part, block + 4) as usize);
                let entries = &part[block + 12..block + 12 + 8 * count];
                for k in 0..count {
                    let (offset, flags) = (u32_at(entries, 8 * k), u32_at(entries, 8 * k + 4));
                    let next = if k + 1 < count { u32_at(entries, 8 * k + 8) } else { code };
                    let first = flags & 0xff_ffff;
                    line(out, section, start + offset, [next - offset, file, first, first + (flags >> 24 & 127)]);
                }
                block += u32_at(part, block + 8) as usize;
            }
        }
        at += 8 + (size + 3 & !3);
    }
}

fn inlinees(out: &mut Vec<u8>, b: &[u8], functions: &[u8]) {
    let mut known = HashMap::new();
    for row in functions[12..].chunks_exact(12) {
        out.extend_from_slice(b"inlinee ");
        hex(out, u32_at(row, 0), 8);
        out.push(b'\n');
        known.entry(u32_at(row, 0)).or_insert((u32_at(row, 4), u32_at(row, 8)));
    }
    let (mut at, mut parent) = (4, None);
    while at < b.len() {
        let size = u16_at(b, at) as usize;
        let record = &b[at..at + 2 + size];
        match u16_at(record, 2) {
            0x1110 => parent = Some((u16_at(record, 36), u32_at(record, 32))),
            0x114d => {
                let id = u32_at(record, 12);
                out.extend_from_slice(b"site ");
                hex(out, at as u32, 8);
                out.push(b' ');
                hex(out, id, 8);
                out.push(b'\n');
                if let (Some((section, start)), Some(&(file, first))) = (parent, known.get(&id)) {
                    site(out, &record[16..], (section, start), (file, first));
                }
            }
            _ => {}
        }
        at += 2 + size;
    }
}

fn site(out: &mut Vec<u8>, b: &[u8], (section, start): (u16, u32), (file, first): (u32, u32)) {
    let (mut at, mut code, mut here) = (0, 0u32, first as i64);
    let mut pending: Option<(u32, i64)> = None;
    let mut emit = |pending: &mut Option<(u32, i64)>, end: u32| {
        if let Some((code, here)) = pending.take() {
            line(out, section, start + code, [end - code, file, here as u32, here as u32 + 1]);
        }
    };
    while at < b.len() && b[at] != 0 {
        let value = b[at + 1] as u32;
        match b[at] {
            0x06 => here += i64::from(value >> 1) * if value & 1 == 1 { -1 } else { 1 },
            0x03 => {
                code += value;
                emit(&mut pending, code);
                pending = Some((code, here));
            }
            0x0b => {
                code += value & 15;
                let delta = value >> 4;
                here += i64::from(delta >> 1) * if delta & 1 == 1 { -1 } else { 1 };
                emit(&mut pending, code);
                pending = Some((code, here));
            }
            _ => {
                code += value;
                emit(&mut pending, code);
            }
        }
        at += 2;
    }
}

/// The first part of a kind.
fn part(b: &[u8], kind: u32) -> &[u8] {
    let mut at = 0;
    while u32_at(b, at) != kind {
        at += 8 + (u32_at(b, at + 4) as usize + 3 & !3);
    }
    &b[at + 8..at + 8 + u32_at(b, at + 4) as usize]
}

fn files(out: &mut Vec<u8>, b: &[u8]) {
    let mut at = 0;
    while at < b.len() {
        let size = b[at + 4] as usize;
        out.extend_from_slice(b"file ");
        decimal(out, u32_at(b, at));
        out.extend_from_slice([&b" none"[..], b" md5 ", b" sha1 ", b" sha256 "][b[at + 5] as usize]);
        for &byte in &b[at + 6..at + 6 + size] {
            hex(out, byte.into(), 2);
        }
        out.push(b'\n');
        at += (6 + size + 3) & !3;
    }
}

fn exports(out: &mut Vec<u8>, b: &[u8]) {
    for row in b.chunks_exact(8) {
        let local = u32_at(row, 0);
        out.extend_from_slice(if local >> 31 == 1 { &b"export id "[..] } else { b"export type " });
        hex(out, local & 0x7fff_ffff, 8);
        out.push(b' ');
        hex(out, u32_at(row, 4), 8);
        out.push(b'\n');
    }
}

/// How many ids there are, and how many bytes they have.
fn finder(out: &mut Vec<u8>, ids: &Items) {
    let (mut count, mut size) = (0u32, 0);
    while let Some(item) = ids.find(0x1000 + count) {
        count += 1;
        size += item.len();
    }
    writeln!(out, "{count} {size}").unwrap();
}

/// How many types there are, and how many bytes their names have; the names themselves, where they are wanted.
fn named(out: &mut Vec<u8>, items: &Items, is_listed: bool) {
    let types = type_names::Types::new(items);
    let (mut count, mut size, mut name) = (0u32, 0, Vec::new());
    for index in 0x1000.. {
        if items.find(index).is_none() {
            break;
        }
        name.clear();
        types.put_name(&mut name, index);
        count += 1;
        size += name.len();
        if is_listed {
            out.extend_from_slice(&name);
            out.push(b'\n');
        }
    }
    writeln!(out, "{count} {size}").unwrap();
}

/// The name of a function with its scope; of files whose types are all structures.
fn qualified_name<'a>(ids: &Items<'a>, types: &Items<'a>, id: u32) -> Option<(&'a [u8], &'a [u8])> {
    let item = ids.find(id)?;
    let before = u32_at(item, 2);
    match u16_at(item, 0) {
        0x1601 => {
            let scope = ids.find(before).filter(|it| u16_at(it, 0) == 0x1605);
            Some((scope.map_or(b"", |it| cstring(it, 6)), cstring(item, 10)))
        }
        0x1602 => Some((types.find(before).map_or(b"", |it| cstring(it, 20)), cstring(item, 10))),
        _ => None,
    }
}

/// How many ids have names, and how many bytes these have.
fn qualified(out: &mut Vec<u8>, ids: &Items, types: &Items) {
    let (mut count, mut size) = (0u32, 0);
    for index in 0x1000.. {
        if ids.find(index).is_none() {
            break;
        }
        if let Some((scope, name)) = qualified_name(ids, types, index) {
            count += 1;
            size += scope.len() + name.len();
        }
    }
    writeln!(out, "{count} {size}").unwrap();
}

fn main() {
    let words: Vec<String> = std::env::args().collect();
    let file = File::open(&words[1]);
    let mut out = Vec::new();
    let mut rest = words[2..].iter();
    let mut kept = None;
    while let Some(word) = rest.next() {
        if word == "names" {
            names(&mut out, &file.stream(1));
            continue;
        }
        if word == "finder" {
            finder(&mut out, &Items::new(&file.stream(4)));
            continue;
        }
        if word == "named" || word == "names-of-types" {
            named(&mut out, &Items::new(&file.stream(2)), word != "named");
            continue;
        }
        if word == "qualified" {
            qualified(&mut out, &Items::new(&file.stream(4)), &Items::new(&file.stream(2)));
            continue;
        }
        let (dbi, starts) = kept.get_or_insert_with(|| modules_of(&file));
        match word.as_str() {
            "find" => find(&mut out, &file.stream(u16_at(dbi, 20).into())),
            "globals" => symbols(&mut out, &file.stream(u16_at(dbi, 20).into()), 0),
            "modules" => modules(&mut out, dbi),
            "contributions" => contributions(&mut out, dbi),
            _ => {
                let at = starts[rest.next().unwrap().parse::<usize>().unwrap()];
                let own = file.stream(u16_at(dbi, at + 34).into());
                let (own, data) = own.split_at(u32_at(dbi, at + 36) as usize);
                match word.as_str() {
                    "symbols" => symbols(&mut out, own, 4),
                    "lines" => lines(&mut out, data),
                    "files" => files(&mut out, part(data, 0xf4)),
                    "exports" => exports(&mut out, part(data, 0xf8)),
                    _ => inlinees(&mut out, own, data),
                }
            }
        }
    }
    std::io::stdout().write_all(&out).unwrap();
}
