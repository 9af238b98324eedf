//! Tests of `command`.

use crate::command::{Command, asks_for_sample, names_module, parse_commands};
use crate::tests::fakes::is;
use pdb_text::WordsError;
use std::alloc::{AllocError, Global};
use std::test::Fail;

fn texts(alloc: Global, words: &[&str]) -> Result<Vec<String>, Fail> {
    let mut all = Vec::new(alloc);
    for word in words {
        all.push(String::from_str(alloc, word)?)?;
    }
    Ok(all)
}

fn parsed(alloc: Global, words: &[&str]) -> Result<Result<Vec<Command>, WordsError>, Fail> {
    Ok(parse_commands(alloc, &texts(alloc, words)?))
}

#[test]
fn words_and_bad_words(rt: HostRuntime) -> Result<(), Fail> {
    let alloc = rt.alloc();
    let globals = Command::Globals;
    let one = parsed(alloc, &["globals"])?.expect(&rt, "a command");
    is(
        &rt,
        "one.as_slice()",
        &one.as_slice(),
        &[globals].as_slice(),
    );
    let all = parsed(
        alloc,
        &["info", "names", "modules", "contributions", "globals"],
    )?
    .expect(&rt, "commands");
    let five = [
        Command::Info,
        Command::Names,
        Command::Modules,
        Command::Contributions,
        Command::Globals,
    ];
    is(&rt, "all.as_slice()", &all.as_slice(), &five.as_slice());
    let three = parsed(alloc, &["globals", "globals", "globals"])?.expect(&rt, "commands");
    is(
        &rt,
        "three.as_slice()",
        &three.as_slice(),
        &[globals, globals, globals].as_slice(),
    );
    let none = parsed(alloc, &[])?.expect(&rt, "no command");
    assert!(rt; none.is_empty());
    is(
        &rt,
        "parsed(alloc, &['globals', 'x'])?.err()",
        &parsed(alloc, &["globals", "x"])?.err(),
        &Some(WordsError::BadWord(1)),
    );
    is(
        &rt,
        "parsed(alloc, &['', 'x'])?.err()",
        &parsed(alloc, &["", "x"])?.err(),
        &Some(WordsError::BadWord(0)),
    );
    is(
        &rt,
        "parsed(alloc, &['globals', 'globals', 'Globa",
        &parsed(alloc, &["globals", "globals", "Globals"])?.err(),
        &Some(WordsError::BadWord(2)),
    );
    is(
        &rt,
        "parsed(alloc, &['global'])?.err()",
        &parsed(alloc, &["global"])?.err(),
        &Some(WordsError::BadWord(0)),
    );
    Ok(())
}

#[test]
fn words_for_the_sample(rt: HostRuntime) -> Result<(), Fail> {
    let alloc = rt.alloc();
    assert!(rt; asks_for_sample(&texts(alloc, &[])?));
    assert!(rt; asks_for_sample(&texts(alloc, &["sample"])?));
    assert!(rt; !asks_for_sample(&texts(alloc, &["globals"])?));
    assert!(rt; !asks_for_sample(&texts(alloc, &["sample", "globals"])?));
    Ok(())
}
