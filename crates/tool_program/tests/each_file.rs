//! Commands over several files.

use crate::tests::fakes::{Narrow, is};
use pdb::Error;
use pdb_text::CountedWriter;
use std::alloc::Global;
use std::io::Write;
use std::test::Fail;
use tool_arguments::operands::Operand;
use tool_output::each_file::{EachFile, FileText, print_each_file};
use tool_output::fault::Fault;
use tool_output::stop::{Stop, Unopened};
use tool_printing::Printout;

/// The files `good`, `bad` and `none`, and the file `memory`, for which there is none.
#[derive(Drop)]
struct Fake {
    alloc: Global,
}

impl EachFile for Fake {
    ghost use Rattle.std.specs.Prelude.{false, Err};
    ghost use Rattle.tool_output.specs.declared.stop.Stop.TheVariants.{Read};

    ghost is_known = { λ _. false };

    ghost printed = { λ _ _. Err Read };

    fn text_of(&self, name: Operand<'_>) -> Result<FileText, Stop> {
        let mut text = Vec::new(self.alloc);
        match name.word {
            "good" => text.extend_from_slice(b"<good>")?,
            "bad" => text.extend_from_slice(b"<bad>")?,
            "memory" => return Err(Stop::Memory),
            "open" => return Err(Stop::Open(Error::UnexpectedEof)),
            _ => return Err(Stop::Unopened(Unopened::Missing)),
        }
        Ok(FileText {
            text,
            is_well: name.word == "good",
        })
    }

    fn pass_over<E: Write>(&self, stop: Stop, name: Operand<'_>, err: &mut E) {
        let _ = err.write(if stop == Stop::Unopened(Unopened::Missing) {
            b"missing "
        } else {
            b"damaged "
        });
        let _ = err.write(name.word.as_bytes());
        let _ = err.write(b"\n");
    }
}

/// Names, the first at the argument 1.
fn names<'w>(alloc: Global, words: &[&'w str]) -> Result<Vec<Operand<'w>>, Fail> {
    let mut all = Vec::new(alloc);
    for (index, word) in words.iter().enumerate() {
        all.push(Operand {
            argument: index.saturating_add(1),
            word,
        })?;
    }
    Ok(all)
}

#[test]
fn each_file_has_its_text_and_none_hides_another(rt: HostRuntime) -> Result<(), Fail> {
    let files = Fake { alloc: rt.alloc() };
    let rows: [(&[&str], Result<bool, Fault>, &[u8], &[u8]); 7] = [
        (&["good"], Ok(true), b"<good>", b""),
        (&["bad"], Ok(false), b"<bad>", b""),
        (&["bad", "good"], Ok(false), b"<bad><good>", b""),
        (
            &["good", "none", "good"],
            Ok(false),
            b"<good><good>",
            b"missing none\n",
        ),
        (
            &["open", "bad", "good", "none"],
            Ok(false),
            b"<bad><good>",
            b"damaged open\nmissing none\n",
        ),
        (
            &["memory", "good"],
            Err(Fault::Stopped(Stop::Memory, 1)),
            b"",
            b"",
        ),
        (
            &["good", "none", "memory", "good"],
            Err(Fault::Stopped(Stop::Memory, 3)),
            b"<good>",
            b"missing none\n",
        ),
    ];
    for (words, wanted, text, said) in rows {
        let all = names(rt.alloc(), words)?;
        let mut out = Vec::new(rt.alloc());
        let mut err = Vec::new(rt.alloc());
        let given = print_each_file(
            &files,
            &all,
            &mut Printout::new(&mut CountedWriter::counting(&mut out)),
            &mut err,
        );
        is(&rt, "given", &given, &wanted);
        is(&rt, "out", &out.as_slice(), &text);
        is(&rt, "err", &err.as_slice(), &said);
    }
    Ok(())
}

#[test]
fn a_writer_that_fails_ends_the_files_behind_a_beginning(rt: HostRuntime) -> Result<(), Fail> {
    let files = Fake { alloc: rt.alloc() };
    let all = names(rt.alloc(), &["good", "none", "bad"])?;
    let whole: &[u8] = b"<good><bad>";
    for size in 0..whole.len() {
        let mut out = Narrow::new(rt.alloc(), size);
        let mut err = Vec::new(rt.alloc());
        let given = print_each_file(
            &files,
            &all,
            &mut Printout::new(&mut CountedWriter::counting(&mut out)),
            &mut err,
        );
        is(&rt, "given", &given, &Err(Fault::Stopped(Stop::Write, 0)));
        is(&rt, "out.taken()", &out.taken(), &&whole[..size]);
    }
    Ok(())
}
