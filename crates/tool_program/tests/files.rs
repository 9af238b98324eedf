//! Files of few streams.

use std::alloc::{AllocError, Global};

fn put(bytes: &mut [u8], at: usize, part: &[u8]) {
    for (place, byte) in bytes.iter_mut().skip(at).zip(part) {
        *place = *byte;
    }
}

/// A file of nine streams of at most a page of 512 bytes each; none is a stream that isn't there. Page 1 has the
/// directory's page number, and page 2 the directory.
pub fn file_of(alloc: Global, streams: &[Option<&[u8]>; 9]) -> Result<Vec<u8>, AllocError> {
    let mut bytes = vec![in alloc; 0u8; 6144]?;
    let mut pages = Vec::new(alloc);
    let mut directory = Vec::new(alloc);
    directory.extend_from_slice(&[9, 0, 0, 0])?;
    let mut page = 3u8;
    for stream in streams {
        match stream {
            Some(stream) => {
                let size = stream.len().min(512) as u32;
                directory.extend_from_slice(&size.to_le_bytes())?;
                if size > 0 {
                    pages.extend_from_slice(&[page, 0, 0, 0])?;
                    put(&mut bytes, 512 * page as usize, stream);
                    page = page.saturating_add(1);
                }
            }
            None => directory.extend_from_slice(&[0xff, 0xff, 0xff, 0xff])?,
        }
    }
    directory.extend_from_slice(&pages)?;
    let size = directory.len().min(512) as u32;
    put(&mut bytes, 0, b"Microsoft C/C++ MSF 7.00\r\n\x1aDS\0\0\0");
    put(&mut bytes, 32, &512u32.to_le_bytes());
    put(&mut bytes, 40, &12u32.to_le_bytes());
    put(&mut bytes, 44, &size.to_le_bytes());
    put(&mut bytes, 52, &1u32.to_le_bytes());
    put(&mut bytes, 512, &2u32.to_le_bytes());
    put(&mut bytes, 1024, &directory);
    Ok(bytes)
}

/// A module's record: its stream, and the sizes of its symbols and of its newer lines.
pub fn module_record(stream: u16, symbols: u8, lines: u8) -> [u8; 68] {
    let mut record = [0; 68];
    record[34..36].copy_from_slice(&stream.to_le_bytes());
    record[36] = symbols;
    record[44] = lines;
    record[64] = b'a';
    record[66] = b'b';
    record
}

/// A DBI stream of these parts, with this stream of global symbols.
pub fn debug_stream(
    alloc: Global,
    globals: u16,
    modules: &[u8],
    contributions: &[u8],
    numbers: &[u8],
) -> Result<Vec<u8>, AllocError> {
    let mut stream = vec![in alloc; 0u8; 64]?;
    put(&mut stream, 0, &u32::MAX.to_le_bytes());
    put(&mut stream, 4, &19990903u32.to_le_bytes());
    put(&mut stream, 20, &globals.to_le_bytes());
    put(
        &mut stream,
        24,
        &(modules.len().min(512) as u32).to_le_bytes(),
    );
    put(
        &mut stream,
        28,
        &(contributions.len().min(512) as u32).to_le_bytes(),
    );
    put(
        &mut stream,
        48,
        &(numbers.len().min(512) as u32).to_le_bytes(),
    );
    stream.extend_from_slice(modules)?;
    stream.extend_from_slice(contributions)?;
    stream.extend_from_slice(numbers)?;
    Ok(stream)
}
