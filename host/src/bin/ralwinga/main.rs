//! The command that a shift works with. It reads, asks the proved library and writes; what is proved of that is said by `--help`.

mod allocation;
mod arguments;
mod calls;
mod groups;
mod identity;
mod input;
mod many;
mod memory;
mod one;
mod output;
mod pictures;
mod planning;
mod progress;
mod standard;
mod stop;
mod table;
mod ways;

use arguments::{in_one_line, misspelt, Arguments, Command, CompletionWords, PlanWords};
use clap::{CommandFactory, Parser};
use ralwinga::refusal_line;
use std::process::ExitCode;
use stop::{be_quiet, print, say, Stop};

fn main() -> ExitCode {
    let answer = match Arguments::try_parse() {
        Ok(words) => run(words),
        Err(error) if error.use_stderr() => Err(Stop::words(in_one_line(&error))),
        // help and version are answers
        Err(error) => print(error.to_string().as_bytes()).map(|()| true),
    };
    match answer {
        Ok(true) => ExitCode::SUCCESS,
        Ok(false) => ExitCode::FAILURE,
        Err(stop) => {
            if let Some(refusal) = stop.refusal() {
                let _ = print(&refusal_line(refusal));
            }
            say(&stop);
            ExitCode::from(stop.status())
        }
    }
}

/// Whether all was answered.
fn run(words: Arguments) -> Result<bool, Stop> {
    if let (None, Some(said)) = (&words.command, misspelt(&words.plan)) {
        return Err(Stop::words(said));
    }
    let command = words.command.unwrap_or(Command::Plan(words.plan));
    if command.is_quiet() {
        be_quiet();
    }
    match command {
        Command::Plan(words) => return plan(&words),
        Command::Assess(words) => calls::assess(&words)?,
        Command::Costs(words) => calls::costs(&words)?,
        Command::Curve(words) => calls::curve(&words)?,
        Command::Explain(words) => one::explain(&words.case, &words.options)?,
        Command::Completion(words) => complete(&words)?,
    }
    Ok(true)
}

/// The listing of one case, or the table of many.
fn plan(words: &PlanWords) -> Result<bool, Stop> {
    match words.cases.as_slice() {
        [case] if words.out.is_none() => one::plan(case, &words.options).map(|()| true),
        _ if words.options.svg.is_some() || words.options.html.is_some() => Err(Stop::words(
            "--svg and --html are for one case, without --out",
        )),
        _ => many::plan(words),
    }
}

fn complete(words: &CompletionWords) -> Result<(), Stop> {
    let mut script = Vec::new();
    clap_complete::generate(
        words.shell,
        &mut Arguments::command(),
        "ralwinga",
        &mut script,
    );
    print(&script)
}
