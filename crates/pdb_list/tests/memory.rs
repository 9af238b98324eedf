//! Memory that is refused inside a command.

use super::{TEXT, first_lines};
use crate::command::Command;
use crate::engine::{RunError, run};
use crate::tests::fakes::{Slow, is};
use pdb::{Error, Meaning, MemorySource, Source, SourceSlice, View};
use std::alloc::Global;
use std::test::Fail;

/// A file in memory, of which all views want memory that isn't there from the one of number `left` on, counted from 0.
#[derive(Drop)]
struct Wanting<'s> {
    source: MemorySource<'s>,
    left: u32,
}

impl<'s> Meaning for Wanting<'s> {
    ghost use Rattle.pdb.specs.Source.{in_memory};

    ghost state = { λ s. in_memory s.source };
}

impl<'s> Source<'s> for Wanting<'s> {
    fn view(&mut self, alloc: Global, slices: &[SourceSlice]) -> pdb::Result<View<'s>> {
        let view = self.source.view(alloc, slices)?;
        if self.left == 0 {
            return Err(Error::OutOfMemory);
        }
        self.left -= 1;
        Ok(view)
    }

    fn failures(&self) -> u64 {
        0
    }

    fn steady(&self) -> bool {
        true
    }
}

#[test]
fn want_of_memory_ends_a_run_behind_whole_texts(rt: HostRuntime) -> Result<(), Fail> {
    let file = pdb_sample::file(rt.alloc())?;
    let commands = [Command::Globals, Command::Globals];
    for (left, lines) in [(0, 0), (3, 0), (4, 0), (5, 0), (6, 6)] {
        let mut out = Slow::new(rt.alloc(), 4096, 4096);
        let source = MemorySource::new(&file);
        let ended = run(rt.alloc(), Wanting { source, left }, &commands, &mut out);
        is(&rt, "run", &ended, &Err(RunError::OutOfMemory));
        is(&rt, "text", &out.taken(), &first_lines(lines));
    }
    let mut out = Slow::new(rt.alloc(), 4096, 4096);
    let source = MemorySource::new(&file);
    let ended = run(rt.alloc(), Wanting { source, left: 7 }, &commands, &mut out);
    is(&rt, "run", &ended, &Ok(()));
    is(&rt, "text", &out.taken().len(), &(2 * TEXT.len()));
    Ok(())
}
