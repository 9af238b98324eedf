//! Folders of symbol files in `_NT_SYMBOL_PATH`.

use super::fakes::is;
use crate::symbol_folders;
use std::test::Fail;

#[test]
fn folders_of_values(rt: HostRuntime) -> Result<(), Fail> {
    let rows: [(&[u8], &[u8]); 9] = [
        (
            b"srv*C:\\sym*https://x.y/z;D:\\mine;cache*E:\\c;SRV*F:\\a*G:\\b",
            b"C:\\sym|D:\\mine|E:\\c|F:\\a|G:\\b|",
        ),
        (
            b"symsrv*symsrv.dll*a*b;srv**c;srv*;foo*d; e ",
            b"a|b|c| e |",
        ),
        (b"", b""),
        (b";;", b""),
        (b"srv", b"srv|"),
        (b"SymSrv*symsrv.dll", b""),
        (b"symsrv*symsrv.dll*", b""),
        (b"http://a.b/c;:/;a:/", b":/|a:/|"),
        (b"*a;*", b""),
    ];
    for (value, wanted) in rows {
        let mut out = Vec::new(rt.alloc());
        for folder in symbol_folders(rt.alloc(), value)?.iter() {
            out.extend_from_slice(folder)?;
            out.push(b'|')?;
        }
        is(&rt, "folders", &out.as_slice(), &wanted);
    }
    Ok(())
}
