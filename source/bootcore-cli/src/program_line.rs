//! The command line, by clap of the registry. It stands for the crates program_line and program_arguments, and answers as they do.

use bootcore::shim::alloc::Global;
use clap::error::ErrorKind;
use clap::{Arg, ArgAction, ArgMatches, Command};
use core::fmt;

/// The order in which a file's pieces come: as they were asked for, or the last one first.
#[derive(Clone, Copy, Debug, PartialEq, Eq)]
pub enum Order {
    Forward,
    Reverse,
}

/// What the program is to do, with the paths of its files.
#[derive(Clone, Debug, PartialEq, Eq)]
pub enum Job {
    Boot { description: String, image: String, order: Order },
    Map { description: String },
    Walk { image: String },
    Convert { image: String, new: String },
    Explain { description: String, order: Order },
    Digest { description: String },
    DigestImage { image: String },
}

/// Why a command line gives no job. Of want of memory clap says nothing: the process ends.
#[derive(Clone, Copy, Debug, PartialEq, Eq)]
pub enum LineFault {
    Help,
    Refused,
}

impl fmt::Display for LineFault {
    fn fmt(&self, f: &mut fmt::Formatter<'_>) -> fmt::Result {
        f.write_str(match self {
            LineFault::Help => "help",
            LineFault::Refused => "bad command line",
        })
    }
}

impl core::error::Error for LineFault {}

fn command_of(name: &'static str, id: &'static str) -> Command {
    Command::new(name).arg(Arg::new(id).required(true))
}

fn line_command() -> Command {
    let out = || Arg::new("out").long("out").required(true);
    let order = || Arg::new("order").long("order").value_parser(["forward", "reverse"]);
    let image = Arg::new("image").long("image").action(ArgAction::SetTrue);
    Command::new("bootcore")
        .subcommand_required(true)
        .disable_help_subcommand(true)
        .subcommand(command_of("boot", "desc").arg(out()).arg(order()))
        .subcommand(command_of("map", "desc"))
        .subcommand(command_of("walk", "image"))
        .subcommand(command_of("convert", "image").arg(out()))
        .subcommand(command_of("explain", "desc").arg(order()))
        .subcommand(command_of("digest", "file").arg(image))
}

/// The text of an argument, empty where it has none.
fn argument_text(matches: &ArgMatches, id: &str) -> String {
    matches.get_one::<String>(id).cloned().unwrap_or_default()
}

/// The order that is named, forward where none is; to ask for an argument that a command has not would be a panic.
fn order_of(matches: &ArgMatches) -> Order {
    match matches.get_one::<String>("order").map(String::as_str) {
        Some("reverse") => Order::Reverse,
        _ => Order::Forward,
    }
}

fn job_of(name: &str, matches: &ArgMatches) -> Option<Job> {
    let text = |id| argument_text(matches, id);
    Some(match name {
        "boot" => Job::Boot { description: text("desc"), image: text("out"), order: order_of(matches) },
        "map" => Job::Map { description: text("desc") },
        "walk" => Job::Walk { image: text("image") },
        "convert" => Job::Convert { image: text("image"), new: text("out") },
        "explain" => Job::Explain { description: text("desc"), order: order_of(matches) },
        "digest" if matches.get_flag("image") => Job::DigestImage { image: text("file") },
        "digest" => Job::Digest { description: text("file") },
        _ => return None,
    })
}

/// The job that a command line asks for; its first word is the program's name.
pub fn read_line(_global: Global, words: &[&str]) -> Result<Job, LineFault> {
    match line_command().try_get_matches_from(words) {
        Ok(matches) => {
            let (name, inner) = matches.subcommand().ok_or(LineFault::Refused)?;
            job_of(name, inner).ok_or(LineFault::Refused)
        }
        Err(error) if error.kind() == ErrorKind::DisplayHelp => Err(LineFault::Help),
        Err(_) => Err(LineFault::Refused),
    }
}
