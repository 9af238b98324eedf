//! Tests of `operands`.

use crate::code_address::SpelledAddress;
use crate::mistakes::{Mistake, TaskError, Wrong};
use crate::operands::*;
use crate::sources_asked::asks_for;
use crate::tests::fakes::{is, words};
use pdb_base::PdbInternalSectionOffset;
use std::process::Abort;
use std::test::Fail;

/// Whether the operands of a line are these, of which each has the index beside it.
fn operands_are(
    rt: &(impl Abort + AllocGlobal),
    line: &str,
    wanted: &[(usize, &str)],
) -> Result<(), Fail> {
    let words = words(rt.alloc(), line)?;
    let given = operands_in(rt.alloc(), &words, 1)?;
    is(rt, line, &given.len(), &wanted.len());
    for (operand, (argument, word)) in given.iter().zip(wanted) {
        is(rt, line, &operand.argument, argument);
        is(rt, line, &operand.word, word);
    }
    Ok(())
}

#[test]
fn operands_are_neither_options_nor_their_values(rt: HostRuntime) -> Result<(), Fail> {
    operands_are(&rt, "a b", &[(1, "a"), (2, "b")])?;
    operands_are(&rt, "", &[(1, "")])?;
    operands_are(
        &rt,
        "--base 7 a --addresses 1 --base=2 2",
        &[(3, "a"), (5, "1"), (7, "2")],
    )?;
    operands_are(&rt, "a --base --base 3", &[(1, "a"), (4, "3")])?;
    operands_are(&rt, "--key 1 a --image 2 b", &[(3, "a"), (6, "b")])?;
    operands_are(&rt, "--json a - --all -", &[(2, "a"), (3, "-"), (5, "-")])?;
    operands_are(&rt, "--base", &[])?;
    // Behind dashes all are, also further dashes; the dashes themselves are none.
    operands_are(
        &rt,
        "a -- --base 7 -- -x",
        &[(1, "a"), (3, "--base"), (4, "7"), (5, "--"), (6, "-x")],
    )?;
    operands_are(&rt, "--base -- 7 -- --", &[(3, "7"), (5, "--")])?;
    operands_are(&rt, "--", &[])
}

/// Two operands.
const OPERANDS: [Operand<'static>; 2] = [
    Operand {
        argument: 3,
        word: "11",
    },
    Operand {
        argument: 5,
        word: "2",
    },
];

/// An operand that is neither an address nor a number.
const WRONG: Operand<'static> = Operand {
    argument: 9,
    word: "x",
};

fn mistake(argument: usize, wrong: Wrong) -> Option<TaskError> {
    Some(TaskError::Mistake(Mistake { argument, wrong }))
}

#[test]
fn operands_are_addresses(rt: HostRuntime) -> Result<(), Fail> {
    let alloc = rt.alloc();
    let given = all_addresses(alloc, &OPERANDS)
        .ok()
        .expect(&rt, "addresses");
    is(&rt, "count", &given.len(), &2);
    let first = SpelledAddress::Number(0x11);
    is(&rt, "first", &given[0].address, &first);
    is(&rt, "argument", &given[0].argument, &OPERANDS[0].argument);
    is(&rt, "word", &given[0].word, &b"11".as_slice());
    is(&rt, "last", &given[1].address, &SpelledAddress::Number(2));
    is(&rt, "word", &given[1].word, &b"2".as_slice());
    let place = Operand {
        argument: 4,
        word: "1:10c",
    };
    let given = all_addresses(alloc, &[place]).ok().expect(&rt, "a place");
    let wanted = SpelledAddress::Place(PdbInternalSectionOffset {
        section: 1,
        offset: 0x10c,
    });
    is(&rt, "place", &given[0].address, &wanted);
    let far = Operand {
        argument: 7,
        word: "140001108",
    };
    is(&rt, "far", &all_addresses(alloc, &[far])?.len(), &1);
    let given = all_addresses(alloc, &[OPERANDS[0], WRONG]).err();
    is(&rt, "wrong", &given, &mistake(9, Wrong::BadAddress));
    is(&rt, "none", &all_addresses(alloc, &[])?.len(), &0);
    Ok(())
}

#[test]
fn operands_are_indices(rt: HostRuntime) -> Result<(), Fail> {
    let alloc = rt.alloc();
    let modules = all_modules(alloc, &OPERANDS)?;
    is(&rt, "modules", &modules.as_slice(), &[11, 2].as_slice());
    let given = all_modules(alloc, &[OPERANDS[1], WRONG]).err();
    is(&rt, "no module", &given, &mistake(9, Wrong::BadModule));
    let types = all_types(alloc, &OPERANDS)?;
    is(&rt, "types", &types.as_slice(), &[0x11, 2].as_slice());
    let given = all_types(alloc, &[OPERANDS[0], OPERANDS[1], WRONG]).err();
    is(&rt, "no type", &given, &mistake(9, Wrong::BadType));
    let far = Operand {
        argument: 4,
        word: "100000000",
    };
    let given = all_types(alloc, &[far, WRONG]).err();
    is(&rt, "far", &given, &mistake(4, Wrong::BadType));
    Ok(())
}

#[test]
fn operands_are_lines_of_source_files(rt: HostRuntime) -> Result<(), Fail> {
    let operands = [
        Operand {
            argument: 3,
            word: "a.c:7",
        },
        Operand {
            argument: 5,
            word: ":7",
        },
        Operand {
            argument: 6,
            word: "",
        },
    ];
    let given = all_sources(rt.alloc(), &operands).err();
    is(&rt, "the argument", &given, &mistake(5, Wrong::BadSource));
    let given = all_sources(rt.alloc(), &operands[2..]).err();
    is(&rt, "empty", &given, &mistake(6, Wrong::BadSource));
    let lines = Operand {
        argument: 4,
        word: "a.c:9-7",
    };
    let given = all_sources(rt.alloc(), &[operands[0], lines]).err();
    is(&rt, "no lines", &given, &mistake(4, Wrong::BadLines));
    let given = all_sources(rt.alloc(), &operands[..1])
        .ok()
        .expect(&rt, "a source file");
    is(&rt, "its line", &asks_for(&given, b"x/a.c", 7), &true);
    is(&rt, "another line", &asks_for(&given, b"x/a.c", 8), &false);
    is(&rt, "the first", &first_empty(&operands), &Some(6));
    is(&rt, "none", &first_empty(&operands[..2]), &None);
    Ok(())
}
