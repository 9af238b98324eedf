// What the plain Rust programs have in common: the container, numbers, and the items of types and ids. It trusts its input.

pub fn u16_at(b: &[u8], p: usize) -> u16 {
    u16::from_le_bytes(b[p..p + 2].try_into().unwrap())
}

pub fn u32_at(b: &[u8], p: usize) -> u32 {
    u32::from_le_bytes(b[p..p + 4].try_into().unwrap())
}

pub fn cstring(b: &[u8], p: usize) -> &[u8] {
    let end = b[p..].iter().position(|&x| x == 0).unwrap();
    &b[p..p + end]
}

pub fn decimal(out: &mut Vec<u8>, mut n: u32) {
    let mut text = [0; 10];
    let mut at = text.len();
    loop {
        at -= 1;
        text[at] = b'0' + (n % 10) as u8;
        n /= 10;
        if n == 0 {
            break;
        }
    }
    out.extend_from_slice(&text[at..]);
}

pub struct File {
    bytes: Vec<u8>,
    streams: Vec<(usize, Vec<u32>)>,
}

impl File {
    pub fn open(path: &str) -> File {
        let bytes = std::fs::read(path).unwrap();
        let page = u32_at(&bytes, 32) as usize;
        let size = u32_at(&bytes, 44) as usize;
        let join = |numbers: &[u32], size: usize| {
            let mut all = Vec::with_capacity(size);
            for &n in numbers {
                let from = n as usize * page;
                all.extend_from_slice(&bytes[from..from + page.min(size - all.len())]);
            }
            all
        };
        let numbers = |b: &[u8]| b.chunks_exact(4).map(|x| u32_at(x, 0)).collect::<Vec<_>>();
        let pages = |size: usize| size.div_ceil(page);
        let lists = pages(4 * pages(size));
        let list = join(&numbers(&bytes[52..52 + 4 * lists]), 4 * pages(size));
        let directory = join(&numbers(&list), size);
        let count = u32_at(&directory, 0) as usize;
        let mut at = 4 + 4 * count;
        let mut streams = Vec::with_capacity(count);
        for s in 0..count {
            let size = match u32_at(&directory, 4 + 4 * s) {
                u32::MAX => 0,
                size => size as usize,
            };
            streams.push((size, numbers(&directory[at..at + 4 * pages(size)])));
            at += 4 * pages(size);
        }
        File { bytes, streams }
    }

    pub fn stream(&self, n: usize) -> Vec<u8> {
        let (size, pages) = &self.streams[n];
        let page = u32_at(&self.bytes, 32) as usize;
        let mut all = Vec::with_capacity(*size);
        for &n in pages {
            let from = n as usize * page;
            all.extend_from_slice(&self.bytes[from..from + page.min(size - all.len())]);
        }
        all
    }
}

/// The items of a stream of types or ids by their indices.
pub struct Items<'a> {
    first: u32,
    records: &'a [u8],
    places: Vec<u32>,
}

impl<'a> Items<'a> {
    pub fn new(b: &'a [u8]) -> Self {
        let start = u32_at(b, 4) as usize;
        let records = &b[start..start + u32_at(b, 16) as usize];
        let (mut places, mut at) = (Vec::new(), 0);
        while at < records.len() {
            places.push(at as u32);
            at += 2 + u16_at(records, at) as usize;
        }
        Items { first: u32_at(b, 8), records, places }
    }

    pub fn find(&self, index: u32) -> Option<&'a [u8]> {
        let at = *self.places.get(index.checked_sub(self.first)? as usize)? as usize;
        Some(&self.records[at + 2..at + 2 + u16_at(self.records, at) as usize])
    }
}

/// The DBI stream, and where each module's record begins in it.
pub fn modules_of(file: &File) -> (Vec<u8>, Vec<usize>) {
    let dbi = file.stream(3);
    let end = 64 + u32_at(&dbi, 24) as usize;
    let mut at = 64;
    let mut starts = Vec::new();
    while at < end {
        starts.push(at);
        let name = cstring(&dbi, at + 64).len();
        at += (66 + name + cstring(&dbi, at + 65 + name).len() + 3) & !3;
    }
    (dbi, starts)
}
