//! Tests of `tasks`.

use crate::commands::Command;
use crate::mistakes::{Mistake, TaskError, Wrong};
use crate::operands::Operand;
use crate::option_names::OptionName;
use crate::options::{Detail, KeyFormat, Options, OutputFormat, ValueAt, Wanted};
use crate::streams_asked::StreamAsked;
use crate::tasks::*;
use crate::tests::fakes::{is, words};
use std::alloc::{AllocError, Global};
use std::test::Fail;

/// The kind of a task, the indices of the file and of the first operand behind it, or the first number; and how many
/// operands or numbers there are behind the file.
type Seen = (&'static str, usize, usize, usize);

fn operands_seen(name: &'static str, file: Operand<'_>, rest: &[Operand<'_>]) -> Seen {
    let first = match rest.first() {
        Some(operand) => operand.argument,
        None => 0,
    };
    (name, file.argument, first, rest.len())
}

fn files_seen(name: &'static str, files: &[Operand<'_>]) -> Seen {
    match files.split_first() {
        Some((file, rest)) => operands_seen(name, *file, rest),
        None => (name, 0, 0, 0),
    }
}

fn numbers_seen(name: &'static str, file: Operand<'_>, numbers: &[u32]) -> Seen {
    let first = match numbers.first() {
        Some(number) => *number as usize,
        None => 0,
    };
    (name, file.argument, first, numbers.len())
}

fn file_task_seen(file: Operand<'_>, task: FileTask<'_>) -> Seen {
    match task {
        FileTask::Code(_, addresses) => ("code", file.argument, 0, addresses.len()),
        FileTask::Lines(numbers) => numbers_seen("lines", file, &numbers),
        FileTask::Scopes(numbers) => numbers_seen("scopes", file, &numbers),
        FileTask::Symbols(numbers) => numbers_seen("symbols", file, &numbers),
        FileTask::AllSymbols => ("all symbols", file.argument, 0, 0),
        FileTask::Types(indices) => numbers_seen("types", file, &indices),
        FileTask::Sources(OutputFormat::Text, numbers) => numbers_seen("sources", file, &numbers),
        FileTask::Sources(_, numbers) => numbers_seen("sources, JSON", file, &numbers),
        FileTask::Find(OutputFormat::Text, names) => operands_seen("find", file, &names),
        FileTask::Find(_, names) => operands_seen("find, JSON", file, &names),
        FileTask::Where(OutputFormat::Text, lines) => ("where", file.argument, 0, lines.len()),
        FileTask::Where(_, lines) => ("where, JSON", file.argument, 0, lines.len()),
        FileTask::Modules(OutputFormat::Text) => ("modules", file.argument, 0, 0),
        FileTask::Modules(_) => ("modules, JSON", file.argument, 0, 0),
        FileTask::Sections(OutputFormat::Text) => ("sections", file.argument, 0, 0),
        FileTask::Sections(_) => ("sections, JSON", file.argument, 0, 0),
        FileTask::Streams(OutputFormat::Text) => ("streams", file.argument, 0, 0),
        FileTask::Streams(_) => ("streams, JSON", file.argument, 0, 0),
        FileTask::Frames(OutputFormat::Text) => ("frames", file.argument, 0, 0),
        FileTask::Frames(_) => ("frames, JSON", file.argument, 0, 0),
    }
}

fn task_seen(task: Task<'_>) -> Seen {
    match task {
        Task::Help(None) => ("help", 0, 0, 0),
        Task::Help(Some(command)) => (command.name(), 0, 0, 0),
        Task::ListHelp => ("help of pdb_list", 0, 0, 0),
        Task::Version => ("the version", 0, 0, 0),
        Task::Keys(KeyFormat::Names, files) => files_seen("keys", &files),
        Task::Keys(KeyFormat::Paths, files) => files_seen("paths of keys", &files),
        Task::Keys(KeyFormat::Json, files) => files_seen("keys, JSON", &files),
        Task::Checks(OutputFormat::Text, files) => files_seen("checks", &files),
        Task::Checks(_, files) => files_seen("checks, JSON", &files),
        Task::Store(storing, files) if storing.replaces => files_seen("replaced", &files),
        Task::Store(_, files) => files_seen("stored", &files),
        Task::Resolve(_, file, addresses) => ("addresses", file.argument, 0, addresses.len()),
        Task::ResolveLines(_, file) => ("lines of input", file.argument, 0, 0),
        Task::Stream(file, StreamAsked::Number(number)) => {
            ("stream of a number", file.argument, number as usize, 0)
        }
        Task::Stream(file, StreamAsked::Name(name)) => {
            ("stream of a name", file.argument, name.len(), 0)
        }
        Task::File(file, task) => file_task_seen(file, task),
    }
}

/// What a line asks for.
fn asked(alloc: Global, line: &str) -> Result<Seen, TaskError> {
    Ok(task_seen(task_in(alloc, &words(alloc, line)?)?))
}

#[test]
fn each_command_has_its_task(rt: HostRuntime) {
    let rows = [
        ("-V", ("the version", 0, 0, 0)),
        ("--version", ("the version", 0, 0, 0)),
        ("version", ("the version", 0, 0, 0)),
        ("version --", ("the version", 0, 0, 0)),
        ("key a", ("keys", 1, 0, 0)),
        ("key a b c", ("keys", 1, 2, 2)),
        ("key a --path b", ("paths of keys", 1, 3, 1)),
        ("key a --json b", ("keys, JSON", 1, 3, 1)),
        ("key -", ("keys", 1, 0, 0)),
        ("check a b", ("checks", 1, 2, 1)),
        ("check --json a", ("checks, JSON", 2, 0, 0)),
        ("resolve --base 7 a 9", ("addresses", 3, 0, 1)),
        ("resolve a 9 --base=7 1:2", ("addresses", 1, 0, 2)),
        ("resolve a", ("lines of input", 1, 0, 0)),
        ("resolve --json -- -a", ("lines of input", 3, 0, 0)),
        ("variables a 9 8 7", ("addresses", 1, 0, 3)),
        ("variables a", ("lines of input", 1, 0, 0)),
        ("lines a 7 5", ("lines", 1, 7, 2)),
        ("lines a", ("lines", 1, 0, 0)),
        ("scopes a 6", ("scopes", 1, 6, 1)),
        ("symbols a 5", ("symbols", 1, 5, 1)),
        ("symbols a", ("symbols", 1, 0, 0)),
        ("symbols a --all", ("all symbols", 1, 0, 0)),
        ("symbols --all -- a", ("all symbols", 3, 0, 0)),
        ("sources a 4 4 4", ("sources", 1, 4, 3)),
        ("sources a 4 --json", ("sources, JSON", 1, 4, 1)),
        ("types a", ("types", 1, 0, 0)),
        ("types a 10 0X1a2b 1000", ("types", 1, 16, 3)),
        ("types a ffffffff", ("types", 1, 4294967295, 1)),
        ("find a b c", ("find", 1, 2, 2)),
        ("find a --json b", ("find, JSON", 1, 3, 1)),
        ("find a b -- --json", ("find", 1, 2, 2)),
        ("find -- --a --b", ("find", 2, 3, 1)),
        ("find - -", ("find", 1, 2, 1)),
        ("where a b:3", ("where", 1, 0, 1)),
        ("where a b:3 c --json", ("where, JSON", 1, 0, 2)),
        ("modules a", ("modules", 1, 0, 0)),
        ("modules --json a", ("modules, JSON", 2, 0, 0)),
        ("sections a", ("sections", 1, 0, 0)),
        ("sections a --json", ("sections, JSON", 1, 0, 0)),
        ("streams a", ("streams", 1, 0, 0)),
        ("streams --json -- --json", ("streams, JSON", 3, 0, 0)),
        ("frames a", ("frames", 1, 0, 0)),
        ("frames a --json", ("frames, JSON", 1, 0, 0)),
        ("stream a 7", ("stream of a number", 1, 7, 0)),
        (
            "stream a 9999999999",
            ("stream of a number", 1, 9999999999, 0),
        ),
        ("stream a 99999999999", ("stream of a name", 1, 11, 0)),
        ("stream a 0x7", ("stream of a name", 1, 3, 0)),
        ("stream a -- -7", ("stream of a name", 1, 2, 0)),
        ("store --symbols=d a", ("stored", 2, 0, 0)),
        ("store --symbols d a b c", ("stored", 3, 4, 2)),
        ("store a --replace b --symbols=d", ("replaced", 1, 3, 1)),
    ];
    for (line, wanted) in rows {
        is(&rt, line, &asked(rt.alloc(), line), &Ok(wanted));
    }
}

#[test]
fn help_is_asked_for_anywhere_before_dashes(rt: HostRuntime) -> Result<(), Fail> {
    let rows = [
        ("help", "help"),
        ("-h", "help"),
        ("--help", "help"),
        ("--help find", "help"),
        ("-h --nothing", "help"),
        ("help help", "help"),
        ("help list", "help of pdb_list"),
        ("help find", "find"),
        ("help version", "version"),
        ("help -- check", "check"),
        ("find -h", "find"),
        ("find --help", "find"),
        ("find a b -h", "find"),
        ("modules a b c --help", "modules"),
        ("lines a x -h", "lines"),
        ("resolve --nothing --help", "resolve"),
        ("resolve --base=x -h", "resolve"),
        ("key --json --json -h", "key"),
        ("symbols -h -- -h", "symbols"),
        ("help -h", "help"),
        ("help find -h", "help"),
        ("version --help", "version"),
        ("-V -h", "version"),
    ];
    for (line, name) in rows {
        is(&rt, line, &asked(rt.alloc(), line), &Ok((name, 0, 0, 0)));
    }
    is(
        &rt,
        "no argument",
        &task_seen(task_in(rt.alloc(), &[])?),
        &("help", 0, 0, 0),
    );
    // Behind dashes it is an operand.
    let line = "find a -- -h";
    is(&rt, line, &asked(rt.alloc(), line), &Ok(("find", 1, 3, 1)));
    let line = "key -- --help";
    is(&rt, line, &asked(rt.alloc(), line), &Ok(("keys", 2, 0, 0)));
    Ok(())
}

#[test]
fn the_first_wrong_argument_is_named(rt: HostRuntime) {
    let rows = [
        ("reslove a", 0, Wrong::UnknownCommand),
        ("", 0, Wrong::UnknownCommand),
        ("-j", 0, Wrong::UnknownCommand),
        ("list", 0, Wrong::UnknownCommand),
        ("Find a b", 0, Wrong::UnknownCommand),
        ("-- find a b", 0, Wrong::UnknownCommand),
        ("help nothing", 1, Wrong::UnknownCommand),
        ("help pdb_list", 1, Wrong::UnknownCommand),
        ("help find x", 2, Wrong::FurtherOperand),
        ("help list key", 2, Wrong::FurtherOperand),
        ("version x", 1, Wrong::FurtherOperand),
        ("-V -- x", 2, Wrong::FurtherOperand),
        ("modules a 0", 2, Wrong::FurtherOperand),
        ("modules a --json 0", 3, Wrong::FurtherOperand),
        ("sections a b c", 2, Wrong::FurtherOperand),
        ("streams a b", 2, Wrong::FurtherOperand),
        ("resolve", 1, Wrong::MissingFile),
        ("resolve --", 2, Wrong::MissingFile),
        ("resolve --base=7", 2, Wrong::MissingFile),
        ("resolve --image b", 3, Wrong::MissingFile),
        ("key", 1, Wrong::MissingFile),
        ("check --json", 2, Wrong::MissingFile),
        ("find", 1, Wrong::MissingFile),
        ("find a", 2, Wrong::MissingName),
        ("find a --json", 3, Wrong::MissingName),
        ("find a ", 2, Wrong::EmptyName),
        ("find --json a b  c", 4, Wrong::EmptyName),
        ("where a", 2, Wrong::MissingSource),
        ("where a --", 3, Wrong::MissingSource),
        ("where a :1 b", 2, Wrong::BadSource),
        ("stream a", 2, Wrong::MissingStream),
        ("stream a 1 2", 3, Wrong::FurtherOperand),
        ("stream", 1, Wrong::MissingFile),
        ("frames a b", 2, Wrong::FurtherOperand),
        ("store --symbols=d", 2, Wrong::MissingFile),
        ("store a b", 3, Wrong::MissingFolder),
        ("where a b ", 3, Wrong::BadSource),
        ("symbols --all a 0 x", 3, Wrong::ModuleOfAll),
        ("symbols a x --all", 2, Wrong::ModuleOfAll),
        ("lines a 0 x y", 3, Wrong::BadModule),
        ("types a 100000000", 2, Wrong::BadType),
        ("types a 10 1:1", 3, Wrong::BadType),
        ("resolve a 1 x", 3, Wrong::BadAddress),
        ("resolve a - 1", 2, Wrong::BadAddress),
        ("variables a 1 100000000 x", 4, Wrong::BadAddress),
        ("resolve -- a --base=1", 3, Wrong::BadAddress),
        ("lines -- a --help", 3, Wrong::BadModule),
        // Options are judged before operands.
        ("modules a b --x", 3, Wrong::UnknownOption),
        ("resolve a x --base", 4, Wrong::NeedsValue(OptionName::Base)),
        ("find --json", 2, Wrong::MissingFile),
    ];
    for (line, argument, wrong) in rows {
        let wanted = Err(TaskError::Mistake(Mistake { argument, wrong }));
        is(&rt, line, &asked(rt.alloc(), line), &wanted);
    }
}

/// The options of a line that asks for the code at addresses, the index of its file, and how many addresses there are.
fn code_asked(alloc: Global, line: &str) -> Result<(Options, usize, usize), TaskError> {
    match task_in(alloc, &words(alloc, line)?)? {
        Task::Resolve(options, file, addresses) => Ok((options, file.argument, addresses.len())),
        Task::ResolveLines(options, file) => Ok((options, file.argument, 0)),
        _ => Err(TaskError::from(AllocError)),
    }
}

#[test]
fn options_of_addresses_are_kept(rt: HostRuntime) {
    let none = Options::default();
    let image = Options {
        wanted: Some(Wanted::Image(ValueAt {
            argument: 1,
            is_joined: true,
        })),
        ..none
    };
    let offsets = Options {
        detail: Detail::Offsets,
        base: Some(7),
        ..none
    };
    let variables = Options {
        detail: Detail::Variables,
        addresses: true,
        ..none
    };
    let rows = [
        // The image's base is not known before it is read: each address will do.
        ("resolve --image=x.exe a 140001108", (image, 2, 1)),
        ("resolve --image=x.exe a 1", (image, 2, 1)),
        ("resolve --image=x.exe a", (image, 2, 0)),
        ("resolve --offsets --base 7 a 9", (offsets, 4, 1)),
        ("resolve a --offsets --base 7", (offsets, 1, 0)),
        ("variables a --addresses 1 2", (variables, 1, 2)),
        ("variables --addresses a", (variables, 2, 0)),
        ("resolve a", (none, 1, 0)),
    ];
    for (line, wanted) in rows {
        is(&rt, line, &code_asked(rt.alloc(), line), &Ok(wanted));
    }
    let line = "resolve --image=x.exe a 140001108 x";
    let wanted = Mistake {
        argument: 4,
        wrong: Wrong::BadAddress,
    };
    is(
        &rt,
        line,
        &code_asked(rt.alloc(), line),
        &Err(TaskError::from(wanted)),
    );
}

#[test]
fn help_of_each_command_is_its_own(rt: HostRuntime) -> Result<(), Fail> {
    let words = words(rt.alloc(), "help key")?;
    let Ok(Task::Help(command)) = task_in(rt.alloc(), &words) else {
        return Err(Fail::from(AllocError));
    };
    is(&rt, "help key", &command, &Some(Command::Key));
    Ok(())
}
