//! Tests of `symbol_values`.

use crate::symbol_values::symbol_values;
use crate::tests::fakes::{is, words};
use std::test::Fail;

#[test]
fn folders_that_arguments_name(rt: HostRuntime) -> Result<(), Fail> {
    let rows: [(&str, &[(usize, &str)]); 9] = [
        ("a b", &[]),
        ("--symbols=s a", &[(1, "s")]),
        (
            "--symbols s a --symbols=t --json --symbols u",
            &[(2, "s"), (4, "t"), (7, "u")],
        ),
        ("--symbols= a", &[(1, "")]),
        ("--symbols=a=b", &[(1, "a=b")]),
        (
            "--symbols --symbols --symbols --",
            &[(2, "--symbols"), (4, "--")],
        ),
        // The value of another option, and what stands behind the end of options, names none.
        ("--image --symbols a --key --symbols=b", &[]),
        ("a -- --symbols=s --symbols t", &[]),
        ("--symbols", &[]),
    ];
    for (line, wanted) in rows {
        let words = words(rt.alloc(), line)?;
        let given = symbol_values(rt.alloc(), &words, 1)?;
        is(&rt, line, &given.len(), &wanted.len());
        for (folder, (argument, word)) in given.iter().zip(wanted) {
            is(&rt, line, &folder.argument, argument);
            is(&rt, line, &folder.word, word);
        }
    }
    Ok(())
}
