//! What lines say of those behind them.

use super::fakes::is;
use crate::{Course, Heading, ListedModule, ReturnAddresses, Span};
use std::test::Fail;

/// A module of a list.
fn module() -> Heading {
    let name = Span { start: 0, end: 1 };
    Heading::Module(ListedModule {
        start: 0x1_0000,
        size: 1,
        name,
    })
}

#[test]
fn lists_of_unloaded_modules(rt: HostRuntime) -> Result<(), Fail> {
    let begun = Course::begin();
    is(&rt, "before", &begun.lists_unloaded, &false);
    let unloaded = begun.after(Heading::Unloaded, false);
    is(&rt, "begins", &unloaded.lists_unloaded, &true);
    let listed = unloaded.after(module(), false).after(module(), false);
    is(&rt, "goes on", &listed.lists_unloaded, &true);
    is(
        &rt,
        "ends",
        &listed.after(Heading::Other, false).lists_unloaded,
        &false,
    );
    is(
        &rt,
        "ends at an inlined function",
        &listed.after(Heading::Inline, false).lists_unloaded,
        &false,
    );
    is(
        &rt,
        "doesn't begin",
        &begun.after(module(), false).lists_unloaded,
        &false,
    );
    Ok(())
}

#[test]
fn lines_before_had_references(rt: HostRuntime) -> Result<(), Fail> {
    let begun = Course::begin();
    is(&rt, "before", &begun.had_references, &false);
    let had = begun.after(Heading::Other, true);
    is(&rt, "had", &had.had_references, &true);
    is(
        &rt,
        "left out of count",
        &had.after(Heading::Inline, false).had_references,
        &true,
    );
    is(
        &rt,
        "left out of count without",
        &begun.after(Heading::Inline, false).had_references,
        &false,
    );
    is(
        &rt,
        "had none",
        &had.after(Heading::Other, false).had_references,
        &false,
    );
    is(
        &rt,
        "behind a module",
        &had.after(module(), false).had_references,
        &false,
    );
    is(
        &rt,
        "behind a list",
        &had.after(Heading::Unloaded, false).had_references,
        &false,
    );
    Ok(())
}

#[test]
fn return_addresses(rt: HostRuntime) -> Result<(), Fail> {
    let begun = Course::begin();
    let had = begun.after(Heading::Other, true);
    for course in [begun, had] {
        for number in [None, Some(0), Some(1)] {
            is(
                &rt,
                "never",
                &course.has_return_addresses(ReturnAddresses::Never, number),
                &false,
            );
            is(
                &rt,
                "always",
                &course.has_return_addresses(ReturnAddresses::Always, number),
                &true,
            );
        }
        is(
            &rt,
            "frame 0",
            &course.has_return_addresses(ReturnAddresses::ButFirst, Some(0)),
            &false,
        );
        is(
            &rt,
            "frame 1",
            &course.has_return_addresses(ReturnAddresses::ButFirst, Some(1)),
            &true,
        );
    }
    is(
        &rt,
        "first line",
        &begun.has_return_addresses(ReturnAddresses::ButFirst, None),
        &false,
    );
    is(
        &rt,
        "next line",
        &had.has_return_addresses(ReturnAddresses::ButFirst, None),
        &true,
    );
    Ok(())
}
