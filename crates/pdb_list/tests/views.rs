//! Views of the source that fail.

use super::texts::{INFORMATION, TEXTS, joined};
use crate::SAMPLE_COMMANDS;
use crate::command::Command;
use crate::engine::{RunError, run, run_reading};
use crate::tests::fakes::{Slow, is};
use pdb::{Error, Meaning, MemorySource, Source, SourceSlice, View};
use pdb_sample::FailingSource;
use std::alloc::Global;
use std::cell::Cell;
use std::process::Abort;
use std::test::Fail;

const REFUSED: &[u8] = b"error 21\n";

/// `info` where its second stream is refused.
const HALF: &[u8] = b"info 20000404 1 2 00112233445566778899aabbccddeeff\nerror 21\n";

/// These texts, one after the other, with another one at a place.
fn with_text<'b>(
    alloc: Global,
    texts: &[&'b [u8]; 12],
    at: usize,
    text: &'b [u8],
) -> Result<Vec<u8>, Fail> {
    let mut all = *texts;
    if at < 12 {
        all[at] = text;
    }
    joined(alloc, &all)
}

/// The place of the one text that is refused in what was written, where all others stand.
fn refused_at(
    alloc: Global,
    texts: &[&[u8]; 12],
    info: usize,
    written: &[u8],
) -> Result<Option<usize>, Fail> {
    for at in 0..12usize {
        if with_text(alloc, texts, at, REFUSED)?.as_slice() == written {
            return Ok(Some(at));
        }
    }
    if with_text(alloc, texts, info, HALF)?.as_slice() == written {
        return Ok(Some(info));
    }
    Ok(None)
}

/// A file in memory, of which the views are counted.
#[derive(Drop)]
struct Counting<'s, 'c> {
    source: MemorySource<'s>,
    views: &'c Cell<u64>,
}

impl<'s, 'c> Meaning for Counting<'s, 'c> {
    ghost use Rattle.pdb.specs.Source.{in_memory};

    ghost state = { λ s. in_memory s.source };
}

impl<'s, 'c> Source<'s> for Counting<'s, 'c> {
    fn view(&mut self, alloc: Global, slices: &[SourceSlice]) -> pdb::Result<View<'s>> {
        self.views.set(self.views.get().saturating_add(1));
        self.source.view(alloc, slices)
    }

    fn failures(&self) -> u64 {
        0
    }

    fn steady(&self) -> bool {
        true
    }
}

/// How many views a run of these commands asks for.
fn views_of(rt: &impl Abort, alloc: Global, commands: &[Command; 12]) -> Result<u64, Fail> {
    let file = pdb_sample::file(alloc)?;
    let views = Cell::new(0);
    let mut out = Slow::new(alloc, 4096, 4096);
    let source = Counting {
        source: MemorySource::new(&file),
        views: &views,
    };
    let ended = run(alloc, source, commands, &mut out);
    is(rt, "ended", &ended, &Ok(()));
    Ok(views.get())
}

/// Each view behind those of opening fails in turn. Each time the text of one command is refused, and the others stand;
/// for a later view it is the same command or a later one. So no view that failed is asked for again.
fn fails_in_turn(
    rt: &impl Abort,
    alloc: Global,
    commands: &[Command; 12],
    texts: &[&[u8]; 12],
    info: usize,
) -> Result<(), Fail> {
    let file = pdb_sample::file(alloc)?;
    let whole = joined(alloc, texts)?;
    let mut last = 0;
    let views = views_of(rt, alloc, commands)?;
    is(rt, "each command asks for a view", &(views >= 14), &true);
    for k in 4..=views {
        let mut out = Slow::new(alloc, 4096, 4096);
        let source = FailingSource::new(MemorySource::new(&file), k);
        let ended = run(alloc, source, commands, &mut out);
        is(rt, "ended", &ended, &Ok(()));
        if k == views {
            is(rt, "no view failed", &out.taken(), &whole.as_slice());
            return Ok(());
        }
        let refused = refused_at(alloc, texts, info, out.taken())?;
        is(rt, "one text, in turn", &(refused >= Some(last)), &true);
        last = refused.unwrap_or(last);
    }
    Ok(())
}

#[test]
fn one_failing_view_hides_the_text_of_one_command(rt: HostRuntime) -> Result<(), Fail> {
    fails_in_turn(&rt, rt.alloc(), &SAMPLE_COMMANDS, &TEXTS, 0)
}

#[test]
fn one_failing_view_with_the_commands_the_other_way_round(rt: HostRuntime) -> Result<(), Fail> {
    let [a, b, c, d, e, f, g, h, i, j, k, l] = SAMPLE_COMMANDS;
    let commands = [l, k, j, i, h, g, f, e, d, c, b, a];
    let [a, b, c, d, e, f, g, h, i, j, k, l] = TEXTS;
    let texts = [l, k, j, i, h, g, f, e, d, c, b, a];
    fails_in_turn(&rt, rt.alloc(), &commands, &texts, 11)
}

/// A run of all commands over this source doesn't open the file, and writes nothing.
fn is_not_opened<'s, S: Source<'s>>(rt: &impl Abort, alloc: Global, source: S) {
    let mut out = Slow::new(alloc, 4096, 4096);
    let ended = run(alloc, source, &SAMPLE_COMMANDS, &mut out);
    is(rt, "ended", &ended, &Err(RunError::Open(Error::IoError)));
    is(rt, "nothing", &out.taken(), &b"".as_slice());
}

#[test]
fn a_failing_view_of_opening_stops_the_run(rt: HostRuntime) -> Result<(), Fail> {
    let file = pdb_sample::file(rt.alloc())?;
    for k in 0..4u64 {
        let source = FailingSource::new(MemorySource::new(&file), k);
        is_not_opened(&rt, rt.alloc(), source);
    }
    is_not_opened(
        &rt,
        rt.alloc(),
        FailingSource::spent(MemorySource::new(&file)),
    );
    Ok(())
}

/// This view fails in a run of a command twice, which writes these two texts.
fn twice(
    rt: &impl Abort,
    alloc: Global,
    k: u64,
    command: Command,
    texts: &[&[u8]],
) -> Result<(), Fail> {
    let file = pdb_sample::file(alloc)?;
    let text = joined(alloc, texts)?;
    let mut out = Slow::new(alloc, 4096, 4096);
    let source = FailingSource::new(MemorySource::new(&file), k);
    let ended = run(alloc, source, &[command, command], &mut out);
    is(rt, "ended", &ended, &Ok(()));
    is(rt, "text", &out.taken(), &text.as_slice());
    Ok(())
}

#[test]
fn a_refused_command_answers_when_it_is_asked_again(rt: HostRuntime) -> Result<(), Fail> {
    for (command, text) in SAMPLE_COMMANDS.iter().zip(TEXTS.iter()) {
        twice(&rt, rt.alloc(), 4, *command, &[REFUSED, text])?;
    }
    let info = Command::Info;
    let texts = [INFORMATION, REFUSED, TEXTS[0]];
    twice(&rt, rt.alloc(), 5, info, &texts)
}

/// How many of these texts were written, whole, where nothing else was.
pub fn whole_texts(alloc: Global, texts: &[&[u8]], written: &[u8]) -> Result<Option<usize>, Fail> {
    for count in 0..=texts.len() {
        if joined(alloc, texts.get(..count).unwrap_or(texts))?.as_slice() == written {
            return Ok(Some(count));
        }
    }
    Ok(None)
}

#[test]
fn a_failing_view_ends_a_run_that_reads_behind_whole_texts(rt: HostRuntime) -> Result<(), Fail> {
    let file = pdb_sample::file(rt.alloc())?;
    let views = views_of(&rt, rt.alloc(), &SAMPLE_COMMANDS)?;
    let mut last = 0;
    for k in 0..views {
        let mut out = Slow::new(rt.alloc(), 4096, 4096);
        let source = FailingSource::new(MemorySource::new(&file), k);
        let ended = run_reading(rt.alloc(), source, &SAMPLE_COMMANDS, &mut out);
        is(&rt, "ended", &ended, &Err(RunError::Read));
        let written = whole_texts(rt.alloc(), &TEXTS, out.taken())?;
        is(&rt, "whole texts, in turn", &(written >= Some(last)), &true);
        last = written.unwrap_or(12);
    }
    is(&rt, "the last view is the last text's", &last, &11);
    let mut out = Slow::new(rt.alloc(), 4096, 4096);
    let source = FailingSource::new(MemorySource::new(&file), views);
    let ended = run_reading(rt.alloc(), source, &SAMPLE_COMMANDS, &mut out);
    is(&rt, "ended", &ended, &Ok(()));
    is(
        &rt,
        "all texts",
        &whole_texts(rt.alloc(), &TEXTS, out.taken())?,
        &Some(12),
    );
    Ok(())
}
