//! The command's words. `ralwinga CASE` is short for `ralwinga plan CASE`.

use clap::{Args, CommandFactory, Parser, Subcommand, ValueHint};
use clap_complete::Shell;
use ralwinga::nearest::nearest;
use std::path::PathBuf;

const PROVED: &str = "What is proved: each plan, profit, opportunity cost, cost figure and bid curve is an answer of the proved static library: the plan \
is the best of all schedules that keep the case, and the figures and the curve are what the specification defines. A case of at most 12,288 bytes is \
read by the proved reader too. What is not proved, but tested: this command, its readers of longer cases, of listings, of cost inputs and of a curve's \
points, the sums of `explain`, the drawings and the page.";

const EXITS: &str = "Exit status: 0 when all was answered, 1 when a case was refused or a file could not be read or written, 2 for bad arguments.";

const LONG_VERSION: &str = concat!(
    env!("CARGO_PKG_VERSION"),
    "\nThe library's answers are proved; the command around it is tested (see --help)."
);

/// Plans use-limited generating units over the proved library.
#[derive(Parser)]
#[command(
    name = "ralwinga",
    version,
    long_version = LONG_VERSION,
    after_help = EXITS,
    after_long_help = format!("{PROVED}\n\n{EXITS}"),
    args_conflicts_with_subcommands = true,
    subcommand_negates_reqs = true
)]
pub struct Arguments {
    #[command(subcommand)]
    pub command: Option<Command>,
    #[command(flatten)]
    pub plan: PlanWords,
}

#[derive(Subcommand)]
pub enum Command {
    /// Print the best plan of a case; of many, a table of their profits and adders
    Plan(PlanWords),
    /// Hand in the outputs of a listing and print their profit
    Assess(AssessWords),
    /// Print the cost figures vec, suc and mlc of a unit
    Costs(CostsWords),
    /// Print the bid curve of a unit as segments with a price each
    Curve(CurveWords),
    /// Tell the plan of a case as runs, limitations used and adders for the bid
    Explain(ExplainWords),
    /// Print the completion of the command for a shell
    Completion(CompletionWords),
}

#[derive(Args)]
pub struct PlanWords {
    /// Files with a case each, or - for standard input
    #[arg(value_name = "CASE", required = true, value_hint = ValueHint::FilePath)]
    pub cases: Vec<PathBuf>,
    /// Write what is printed for each case to DIR/NAME.listing.csv, NAME being the file's name without its ending
    #[arg(long, value_name = "DIR", value_hint = ValueHint::DirPath)]
    pub out: Option<PathBuf>,
    /// At most N cases side by side; fewer where the memory for all at once is not there [default: the cores]
    #[arg(long, value_name = "N", value_parser = positive)]
    pub jobs: Option<usize>,
    /// Print the table of many cases in quarter-cents, for programs: file,number,profit,starts,hours,mwh
    #[arg(long)]
    pub raw: bool,
    /// Print the table of many cases without its heading
    #[arg(long)]
    pub no_header: bool,
    #[command(flatten)]
    pub options: CaseOptions,
}

#[derive(Args)]
pub struct ExplainWords {
    /// A file with a case, or - for standard input
    #[arg(value_name = "CASE", value_hint = ValueHint::FilePath)]
    pub case: PathBuf,
    #[command(flatten)]
    pub options: CaseOptions,
}

/// What concerns every file that is read.
#[derive(Args)]
pub struct Common {
    /// Say nothing on standard error where all was answered
    #[arg(long)]
    pub quiet: bool,
    /// Take lines that end with CR LF, too
    #[arg(long)]
    pub crlf: bool,
}

/// What concerns a case wherever it is planned.
#[derive(Args)]
pub struct CaseOptions {
    /// At most N cells of 8 bytes for a case, which is planned in two layers where its long table does not fit or is slower [default: what free memory holds]
    #[arg(long, value_name = "N")]
    pub cells: Option<usize>,
    /// Draw prices and output, or the refusal, to FILE (one case)
    #[arg(long, value_name = "FILE", value_hint = ValueHint::FilePath)]
    pub svg: Option<PathBuf>,
    /// Write a page with drawing, runs, limitations and adders, or with the refusal, to FILE (one case)
    #[arg(long, value_name = "FILE", value_hint = ValueHint::FilePath)]
    pub html: Option<PathBuf>,
    #[command(flatten)]
    pub common: Common,
}

#[derive(Args)]
pub struct AssessWords {
    /// A file with a case, or - for standard input
    #[arg(value_name = "CASE", value_hint = ValueHint::FilePath)]
    pub case: PathBuf,
    /// A file with a listing as `plan` prints it, of which the table interval,mw is read; or -
    #[arg(value_name = "LISTING", value_hint = ValueHint::FilePath)]
    pub listing: PathBuf,
    #[command(flatten)]
    pub common: Common,
}

#[derive(Args)]
pub struct CostsWords {
    /// A file with cost inputs, or - for standard input
    #[arg(value_name = "INPUTS", value_hint = ValueHint::FilePath)]
    pub inputs: PathBuf,
    #[command(flatten)]
    pub common: Common,
}

#[derive(Args)]
pub struct CurveWords {
    /// A file with the inputs and the points of a bid curve, or - for standard input
    #[arg(value_name = "INPUTS", value_hint = ValueHint::FilePath)]
    pub inputs: PathBuf,
    /// Draw the curve, or the refusal, to FILE
    #[arg(long, value_name = "FILE", value_hint = ValueHint::FilePath)]
    pub svg: Option<PathBuf>,
    #[command(flatten)]
    pub common: Common,
}

#[derive(Args)]
pub struct CompletionWords {
    #[arg(value_name = "SHELL")]
    pub shell: Shell,
}

impl Command {
    /// Whether nothing is to be said of how things go.
    pub fn is_quiet(&self) -> bool {
        let common = match self {
            Command::Plan(words) => &words.options.common,
            Command::Explain(words) => &words.options.common,
            Command::Assess(words) => &words.common,
            Command::Costs(words) => &words.common,
            Command::Curve(words) => &words.common,
            Command::Completion(_) => return false,
        };
        common.quiet
    }
}

/// The words of a run without a subcommand whose first is no file, but nearly a subcommand.
pub fn misspelt(words: &PlanWords) -> Option<String> {
    let word = words.cases.first()?;
    let command = Arguments::command();
    let names: Vec<&str> = command.get_subcommands().map(|c| c.get_name()).collect();
    let known = nearest(word.to_str()?, &names)?;
    let word = word.display();
    (!words.cases[0].exists())
        .then(|| format!("'{word}' is no file and no subcommand; did you mean '{known}'?"))
}

fn positive(word: &str) -> Result<usize, String> {
    match word.parse() {
        Ok(0) | Err(_) => Err("a number from 1 on belongs here".to_string()),
        Ok(number) => Ok(number),
    }
}

/// What is wrong with the words and how they go, in one line.
pub fn in_one_line(error: &clap::Error) -> String {
    let text = error.to_string();
    let usage = Arguments::command().render_usage().to_string();
    let wrong = text.split("\n\n").next().unwrap_or_default();
    let usage = text
        .split("\n\n")
        .find(|part| part.starts_with("Usage:"))
        .unwrap_or(&usage);
    let trimmed = |part: &str, front: &str, between: &str| {
        let part = part.trim_start_matches(front);
        part.lines()
            .map(str::trim)
            .collect::<Vec<_>>()
            .join(between)
    };
    format!(
        "{}; usage: {}; --help tells more",
        trimmed(wrong, "error: ", " "),
        trimmed(usage, "Usage: ", ", or ")
    )
}

#[cfg(test)]
mod tests {
    use super::*;
    use ralwinga::reader::{horizon, read_case, UNIT_NAMES, WINDOW_NAMES};
    use ralwinga::Refusal;

    const PAGE: &str = include_str!("../../../ralwinga.1");

    #[test]
    fn words_are_in_order() {
        Arguments::command().debug_assert();
    }

    /// The manual page has each subcommand and each option of each.
    #[test]
    fn the_manual_page_has_every_word() {
        let page = PAGE.replace("\\-", "-");
        let command = Arguments::command();
        for subcommand in command.get_subcommands() {
            let name = subcommand.get_name();
            assert!(page.contains(&format!("\nralwinga {name}")), "{name}");
            let options = subcommand.get_arguments().filter_map(|a| a.get_long());
            for option in options {
                assert!(
                    page.contains(&format!("\n.BR --{option}"))
                        || page.contains(&format!("\n.BI --{option} ")),
                    "{option}"
                );
            }
        }
        assert!(page.contains(env!("CARGO_PKG_VERSION")));
    }

    /// The manual page has the names of a case with their ranges, which are the library's.
    #[test]
    fn the_manual_page_has_every_name_of_a_case() {
        let page = PAGE.replace("\\-", "-");
        let (_, table) = page.split_once("name|meaning|range\n").expect("a table");
        let (table, _) = table.split_once("\n.TE\n").expect("an end");
        let rows: Vec<Vec<&str>> = table.lines().map(|row| row.split('|').collect()).collect();
        let names: Vec<&str> = rows.iter().map(|row| row[0]).collect();
        let unit = [&UNIT_NAMES[..], &WINDOW_NAMES].concat();
        assert_eq!(names, [&unit[..], &["price"]].concat());
        for (place, row) in rows.iter().enumerate() {
            let mut values = ["1"; 18];
            values[13] = "2024";
            values[place] = "9999999999";
            let (unit_values, price) = (values[..17].join(","), values[17]);
            let text = format!("{}\n{unit_values}\n\nprice\n{price}\n", unit.join(","));
            let said = read_case(text.as_bytes()).expect_err(row[0]).to_string();
            let told = format!("{} '9999999999' is outside its range, {} (", row[0], row[2]);
            assert!(said.contains(&told), "{said}");
        }
        assert!(page.contains(&format!("There are 1 to {} prices.", horizon())));
    }

    /// The manual page has the numbers with their meaning, in the order in which causes are given.
    #[test]
    fn the_manual_page_has_every_number() {
        let causes: Vec<String> = PAGE
            .split(".IP ")
            .skip(1)
            .map(|entry| {
                let (head, said) = entry.split_once('\n').expect("a line");
                let number = head.split(' ').next().expect("a number");
                format!("{number}: {}", said.lines().next().expect("a meaning"))
            })
            .collect();
        let given = Refusal::ALL.map(|r| format!("{}: {}", r.number(), r.meaning()));
        assert_eq!(causes, given);
    }
}
