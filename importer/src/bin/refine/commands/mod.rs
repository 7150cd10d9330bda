//! The commands of `refine`: a file for each, and an entry for each in the table below. Which
//! command runs and what the usage text says both come from the table.

mod batch;
mod compare;
mod draw;
mod gaps;
mod help;
mod load;
mod place;
mod reasons;
mod score;
mod version;
mod whatif;

use crate::memory::zeros;
use crate::mistake::Mistake;
use crate::report::Report;
use crate::words::{ask, Switch};
use importer::calls;
use std::collections::HashSet;
use std::ffi::{OsStr, OsString};
use std::slice;

struct Command {
    /// The words that name it, the usual one first; none for `refine` alone.
    words: &'static [&'static str],
    /// What stands behind the word.
    arguments: &'static str,
    /// What it prints for an answer.
    prints: &'static str,
    /// The options that it has besides [`HELP`].
    options: &'static [Switch],
    /// Runs it on the words behind its name.
    run: fn(&[OsString]) -> Result<Report, Mistake>,
}

/// `refine` alone.
const PLACE: Command = Command {
    words: &[],
    arguments: "[-p] [JOB]",
    prints: "`cost,steps,sites shifted,mirrored,changed,drift[,filled steps]`, then a cheapest legal placement",
    options: place::OPTIONS,
    run: place::run,
};

const COMMANDS: &[Command] = &[
    PLACE,
    Command {
        words: &["score"],
        arguments: "[--check] JOB PLACEMENT",
        prints: "`legal,cost,steps,sites shifted,mirrored,changed,drift[,filled steps]`, or `broken,rule,cell`",
        options: score::OPTIONS,
        run: score::run,
    },
    Command {
        words: &["reasons"],
        arguments: "JOB PLACEMENT",
        prints: "`legal.`, or the first broken rule and every cell that breaks it, in a sentence",
        options: &[],
        run: reasons::run,
    },
    Command {
        words: &["gaps"],
        arguments: "[--table] JOB PLACEMENT",
        prints: "the verdict, each row's gaps by width and the fillers that close them, and gaps that none close",
        options: gaps::OPTIONS,
        run: gaps::run,
    },
    Command {
        words: &["compare"],
        arguments: "[--table] [--max-loss N] JOB PLACEMENT",
        prints: "the placement's numbers, the cheapest's, what is saved, and the cells and steps that differ",
        options: compare::OPTIONS,
        run: compare::run,
    },
    Command {
        words: &["whatif"],
        arguments: "[--table] JOB",
        prints: "the cheapest cost for each D and R, and of a job without a placement what gives it one",
        options: whatif::OPTIONS,
        run: whatif::run,
    },
    Command {
        words: &["draw"],
        arguments: "[--best] JOB [PLACEMENT]",
        prints: "a picture (SVG) of the given rows or of the placement; with `--best` a cheapest one below",
        options: draw::OPTIONS,
        run: draw::run,
    },
    Command {
        words: &["batch"],
        arguments: "[-j N] [--csv FILE] [--html DIR] PATH...",
        prints: "how many of the jobs are answered and refused, and how fast; each answer goes to `NAME.out`",
        options: batch::OPTIONS,
        run: batch::run,
    },
    Command {
        words: &["load"],
        arguments: "SEED CELLS",
        prints: "the farm's job of a seed, 0 to 4294967295, with so many cells, 0 to 64",
        options: &[],
        run: load::run,
    },
    Command {
        words: &["help", "--help", "-h"],
        arguments: "[COMMAND]",
        prints: "the commands, each with what it prints",
        options: &[],
        run: help::run,
    },
    Command {
        words: &["--version", "-V"],
        arguments: "",
        prints: "the version, the kit that proved the archive, and the archive's SHA-256",
        options: &[],
        run: version::run,
    },
];

/// An option of every command.
const HELP: Switch = Switch {
    words: &["-h", "--help"],
    takes: None,
    does: "print how the command is typed and what it prints",
};

/// An option of the commands that print tables.
const TABLE: Switch = Switch {
    words: &["--table"],
    takes: None,
    does: "print tables for people",
};

/// What holds for every command.
const ENDING: &str = "\
JOB and PLACEMENT are files; `-`, and no JOB at all, is standard input.
The filled steps are printed of a JOB whose first line is led by `K`.
A refusal prints `refused,number,line`; the line itself, if one is at fault, and the reason go to
standard error.
Exit status: 0 an answer, 1 a refusal or a check that is not passed, 2 a usage or input error.
";

impl Command {
    /// How it is typed.
    fn line(&self) -> String {
        let mut line = vec!["refine"];
        line.extend(self.words.first());
        if !self.arguments.is_empty() {
            line.push(self.arguments);
        }
        line.join(" ")
    }
}

/// The command that a word names.
fn named(word: &OsStr) -> Option<&'static Command> {
    let names = |command: &&Command| command.words.iter().any(|known| word == *known);
    COMMANDS.iter().find(names)
}

/// Runs the command that the first word names on those behind it, or `refine` alone on all.
pub fn run(words: &[OsString]) -> Report {
    let first = words.split_first();
    let named = first.and_then(|(word, rest)| Some((named(word)?, rest)));
    let (command, rest) = named.unwrap_or((&PLACE, words));
    if ask(rest, &HELP) {
        return help_of(command);
    }
    match (command.run)(rest) {
        Ok(report) => report,
        Err(Mistake::Usage(reason)) => {
            let line = command.line();
            usage_error(&format!("{reason}; the command is `{line}`"))
        }
        Err(Mistake::Unknown(word)) => usage_error(&format!("there is no command {word}")),
        Err(Mistake::Absent(name)) => {
            Report::error(&format!("cannot open {name}: there is no such file"))
        }
        Err(Mistake::Input(reason) | Mistake::Memory(reason)) => Report::error(&reason),
    }
}

fn usage_error(mistake: &str) -> Report {
    Report::error(&format!("{mistake}\n{}", usage(COMMANDS)))
}

/// The usage text of one command.
fn help_of(command: &Command) -> Report {
    Report::answer(usage(slice::from_ref(command)))
}

/// Commands as a text: how each is typed and what it prints, then what each option does.
fn usage(commands: &[Command]) -> String {
    let entry = |typed: &str, says: &str| format!("  {typed}\n      {says}\n");
    let command = |command: &Command| entry(&command.line(), command.prints);
    let option = |switch: &Switch| entry(&switch.line(), switch.does);
    let lines: String = commands.iter().map(command).collect();
    let options = commands.iter().flat_map(|command| command.options);
    let mut options: Vec<String> = options.chain([&HELP]).map(option).collect();
    let mut said = HashSet::new();
    options.retain(|option| said.insert(option.clone()));
    let options = options.concat();
    format!("usage:\n{lines}options:\n{options}{ENDING}")
}

/// The line that Score reports of two texts, as the refiner copies it; an empty output is lent
/// first, for the line's length. Nothing if there is no memory for it.
fn fault_line(job: &[u8], placement: &[u8]) -> Vec<u8> {
    let mut part = [0; 3];
    calls::fault_line(job, placement, &mut [], &mut part);
    let [_, _, length] = part;
    let length = usize::try_from(length).unwrap_or_default();
    let mut line = zeros(length, "the line").unwrap_or_default();
    calls::fault_line(job, placement, &mut line, &mut part);
    line
}
