// The names of types in plain Rust, of files that aren't damaged: the measure beside which `pdb_types` is put.
use super::container::{cstring, decimal, u16_at, u32_at, Items};
use std::collections::HashMap;
use std::io::Write;

// How deep records may stand in one another.
const DEPTH: u32 = 64;

#[derive(Clone, Copy, PartialEq)]
enum Shape {
    Plain,
    Array,
    Function,
}

#[derive(Clone, Copy)]
enum Type<'a> {
    Modifier { of: u32, words: u16 },
    Pointer { to: u32, attributes: u32, class: u32 },
    Array { of: u32, size: u64 },
    Bits { of: u32, len: u8 },
    Function { returned: u32, this: u32, arguments: u32 },
    List(&'a [u8]),
    Named(&'a [u8]),
    Table(u16),
    Fields,
}

pub struct Types<'a> {
    items: &'a Items<'a>,
    definitions: HashMap<(u16, &'a [u8]), u32>,
}

/// A number with a prefix, and where it ends.
fn number(b: &[u8], at: usize) -> (u64, usize) {
    match u16_at(b, at) {
        0x8002 => (u16_at(b, at + 2).into(), at + 4),
        0x8003 | 0x8004 => (u32_at(b, at + 2).into(), at + 6),
        0x8009 | 0x800a => (u64::from_le_bytes(b[at + 2..at + 10].try_into().unwrap()), at + 10),
        small => (small.into(), at + 2),
    }
}

/// Where the size of a class or a union stands.
fn size_place(kind: u16) -> usize {
    if kind == 0x1506 { 10 } else { 18 }
}

/// The name of a class, a union or an enumeration, by which its definition is found.
fn key(b: &[u8]) -> Option<(u16, &[u8])> {
    let kind = u16_at(b, 0);
    let at = match kind {
        0x1504 | 0x1505 | 0x1519 | 0x1506 => number(b, size_place(kind)).1,
        0x1507 => 14,
        _ => return None,
    };
    let name = cstring(b, at);
    let unique = u16_at(b, 4) & 0x200 != 0;
    Some((kind, if unique { cstring(b, at + name.len() + 1) } else { name }))
}

/// The name and the size of a simple type.
fn simple(kind: u32) -> (&'static [u8], u64) {
    match kind {
        0x00 => (b"<no type>", 0),
        0x03 => (b"void", 0),
        0x10 => (b"signed char", 1),
        0x11 => (b"short", 2),
        0x12 => (b"long", 4),
        0x13 | 0x76 => (b"__int64", 8),
        0x20 => (b"unsigned char", 1),
        0x21 => (b"unsigned short", 2),
        0x22 => (b"unsigned long", 4),
        0x23 | 0x77 => (b"unsigned __int64", 8),
        0x30 => (b"bool", 1),
        0x40 => (b"float", 4),
        0x41 => (b"double", 8),
        0x70 => (b"char", 1),
        0x71 => (b"wchar_t", 2),
        0x74 => (b"int", 4),
        0x75 => (b"unsigned", 4),
        0x7a => (b"char16_t", 2),
        0x7b => (b"char32_t", 4),
        _ => (b"??", 0),
    }
}

impl<'a> Types<'a> {
    pub fn new(items: &'a Items<'a>) -> Self {
        let mut definitions = HashMap::new();
        for index in 0x1000.. {
            let Some(item) = items.find(index) else { break };
            match key(item) {
                Some(key) if u16_at(item, 4) & 0x80 == 0 => definitions.entry(key).or_insert(index),
                _ => continue,
            };
        }
        Types { items, definitions }
    }

    fn parse(&self, index: u32) -> Option<Type<'a>> {
        let b = self.items.find(index)?;
        let kind = u16_at(b, 0);
        Some(match kind {
            0x1001 => Type::Modifier { of: u32_at(b, 2), words: u16_at(b, 6) },
            0x1002 => {
                let attributes = u32_at(b, 6);
                let class = if matches!(attributes >> 5 & 7, 2 | 3) { u32_at(b, 10) } else { 0 };
                Type::Pointer { to: u32_at(b, 2), attributes, class }
            }
            0x1503 => Type::Array { of: u32_at(b, 2), size: number(b, 10).0 },
            0x1205 => Type::Bits { of: u32_at(b, 2), len: b[6] },
            0x1008 => Type::Function { returned: u32_at(b, 2), this: 0, arguments: u32_at(b, 10) },
            0x1009 => Type::Function { returned: u32_at(b, 2), this: u32_at(b, 10), arguments: u32_at(b, 18) },
            0x1201 => Type::List(&b[6..6 + 4 * u32_at(b, 2) as usize]),
            0x1504 | 0x1505 | 0x1519 | 0x1506 => Type::Named(cstring(b, number(b, size_place(kind)).1)),
            0x1507 => Type::Named(cstring(b, 14)),
            0x000a => Type::Table(u16_at(b, 2)),
            0x1203 => Type::Fields,
            _ => return None,
        })
    }

    fn size(&self, index: u32) -> Option<u64> {
        if index < 0x1000 {
            return Some(if index >> 8 == 0 { simple(index).1 } else if index >> 8 == 6 { 8 } else { 4 });
        }
        match self.parse(index)? {
            Type::Modifier { of, .. } | Type::Bits { of, .. } => self.size(of),
            Type::Pointer { attributes, .. } => Some(if attributes & 31 == 12 { 8 } else { 4 }),
            Type::Array { size, .. } => Some(size),
            Type::Named(_) => {
                let item = self.items.find(index)?;
                let full = if u16_at(item, 4) & 0x80 == 0 { item } else { self.items.find(*self.definitions.get(&key(item)?)?)? };
                match u16_at(full, 0) {
                    0x1507 => self.size(u32_at(full, 6)),
                    kind => Some(number(full, size_place(kind)).0),
                }
            }
            _ => None,
        }
    }

    fn shape(&self, index: u32, depth: u32) -> Shape {
        if index < 0x1000 || depth == 0 {
            return Shape::Plain;
        }
        match self.parse(index) {
            Some(Type::Modifier { of, .. }) => self.shape(of, depth - 1),
            Some(Type::Array { .. }) => Shape::Array,
            Some(Type::Function { .. }) => Shape::Function,
            _ => Shape::Plain,
        }
    }

    fn is_right(&self, index: u32, depth: u32) -> bool {
        if index < 0x1000 || depth == 0 {
            return index >> 8 != 0 && index < 0x1000;
        }
        match self.parse(index) {
            Some(Type::Modifier { of, .. } | Type::Array { of, .. }) => self.is_right(of, depth - 1),
            Some(Type::Pointer { .. }) => true,
            _ => false,
        }
    }

    fn put_front(&self, out: &mut Vec<u8>, index: u32, depth: u32) {
        if index < 0x1000 {
            let mode = index >> 8;
            out.extend_from_slice(if index == 0x103 { b"std::nullptr_t" } else { simple(index & 0xff).0 });
            if mode != 0 && index != 0x103 {
                out.push(b'*');
            }
            return;
        }
        if depth == 0 {
            return out.extend_from_slice(b"<...>");
        }
        let depth = depth - 1;
        match self.parse(index) {
            None => out.extend_from_slice(b"??"),
            Some(Type::Modifier { of, words }) => self.put_modifier(out, of, words, depth),
            Some(Type::Pointer { to, attributes, class }) => self.put_pointer(out, to, attributes, class, depth),
            Some(Type::Array { of, .. } | Type::Bits { of, .. } | Type::Function { returned: of, .. }) => self.put_front(out, of, depth),
            Some(Type::List(list)) => self.put_list(out, list, depth),
            Some(Type::Named(name)) => out.extend_from_slice(if name.is_empty() { b"??" } else { name }),
            Some(Type::Table(methods)) => write!(out, "<vftable {methods} methods>").unwrap(),
            Some(Type::Fields) => out.extend_from_slice(b"<field list>"),
        }
    }

    fn put_modifier(&self, out: &mut Vec<u8>, of: u32, words: u16, depth: u32) {
        let words = [(1, "const"), (2, "volatile"), (4, "__unaligned")].into_iter().filter(|(bit, _)| words & bit != 0);
        if self.is_right(of, depth) {
            self.put_front(out, of, depth);
            for (_, word) in words {
                out.push(b' ');
                out.extend_from_slice(word.as_bytes());
            }
        } else {
            for (_, word) in words {
                out.extend_from_slice(word.as_bytes());
                out.push(b' ');
            }
            self.put_front(out, of, depth);
        }
    }

    fn put_pointer(&self, out: &mut Vec<u8>, to: u32, attributes: u32, class: u32, depth: u32) {
        self.put_front(out, to, depth);
        let plain = self.shape(to, depth) == Shape::Plain;
        match attributes >> 5 & 7 {
            2 | 3 => {
                out.extend_from_slice(if plain { b" " } else { b" (" });
                self.put_name_at(out, class, depth);
                out.extend_from_slice(b"::*");
            }
            mode => {
                if !plain {
                    out.extend_from_slice(b" (");
                }
                out.extend_from_slice(if mode == 0 { b"*" } else if mode == 1 { b"&" } else { b"&&" });
            }
        }
        for (bit, word) in [(10, " const"), (9, " volatile"), (11, " __unaligned"), (12, " __restrict")] {
            if attributes >> bit & 1 != 0 {
                out.extend_from_slice(word.as_bytes());
            }
        }
    }

    fn put_back(&self, out: &mut Vec<u8>, index: u32, depth: u32) {
        if index < 0x1000 || depth == 0 {
            return;
        }
        let depth = depth - 1;
        match self.parse(index) {
            Some(Type::Modifier { of, .. }) => self.put_back(out, of, depth),
            Some(Type::Pointer { to, .. }) => {
                if self.shape(to, depth) != Shape::Plain {
                    out.push(b')');
                }
                self.put_back(out, to, depth);
            }
            Some(Type::Array { of, size }) => {
                out.push(b'[');
                match self.size(of) {
                    Some(element) if element > 0 && size % element == 0 => decimal(out, (size / element) as u32),
                    _ if size > 0 => out.push(b'?'),
                    _ => {}
                }
                out.push(b']');
                self.put_back(out, of, depth);
            }
            Some(Type::Bits { of, len }) => {
                self.put_back(out, of, depth);
                out.extend_from_slice(b" : ");
                decimal(out, len.into());
            }
            Some(Type::Function { returned, this, arguments }) => {
                match self.parse(arguments) {
                    Some(Type::List(list)) => self.put_list(out, list, depth - 1),
                    _ => out.extend_from_slice(b"(??)"),
                }
                self.put_object(out, this);
                self.put_back(out, returned, depth);
            }
            _ => {}
        }
    }

    fn put_object(&self, out: &mut Vec<u8>, this: u32) {
        let Some(Type::Pointer { to, attributes, .. }) = self.parse(this) else { return };
        if let Some(Type::Modifier { words, .. }) = self.parse(to) {
            if words & 1 != 0 {
                out.extend_from_slice(b" const");
            }
            if words & 2 != 0 {
                out.extend_from_slice(b" volatile");
            }
        }
        if attributes >> 20 & 1 != 0 {
            out.extend_from_slice(b" &");
        } else if attributes >> 21 & 1 != 0 {
            out.extend_from_slice(b" &&");
        }
    }

    fn put_list(&self, out: &mut Vec<u8>, list: &[u8], depth: u32) {
        out.push(b'(');
        for (k, argument) in list.chunks_exact(4).enumerate() {
            if k > 0 {
                out.extend_from_slice(b", ");
            }
            match u32_at(argument, 0) {
                0 if 4 * (k + 1) == list.len() => out.extend_from_slice(b"..."),
                index => self.put_name_at(out, index, depth),
            }
        }
        out.push(b')');
    }

    /// Puts the name of a type.
    pub fn put_name(&self, out: &mut Vec<u8>, index: u32) {
        self.put_name_at(out, index, DEPTH);
    }

    fn put_name_at(&self, out: &mut Vec<u8>, index: u32, depth: u32) {
        self.put_front(out, index, depth);
        if self.shape(index, depth) == Shape::Function {
            out.push(b' ');
        }
        self.put_back(out, index, depth);
    }
}
