//! Compares this program with another over a process boundary, and answers requests itself.

mod compare;
mod describe;
mod generate;
mod landings;
mod requests;
mod select;
mod tally;

use generate::Kind;
use requests::Request;
use std::io::{self, BufReader, BufWriter, Write};
use std::process::ExitCode;
use tally::Tally;

const USAGE: &str = "\
second KIND --seed S --count N [--first I] [-- COMMAND ..]
    compares a fixed set of calls and N random ones after it with the answers of the
    command, byte by byte; without a command this program answers itself.
    KIND is values, load, check, run, text, assemble or source; --first leaves out the
    calls before the I-th
second landings --seed S --count N [-- COMMAND ..]
    runs N programs that check passes with several landing lists each and
    compares them with the plain machine
second record KIND --seed S --count N [--first I] [--only I] > requests
    writes the N random requests, with --first 0 the fixed set before them, with --only
    just the I-th, all counted from 0
second select KIND --seed S --count N --each K --most B > requests
    writes the fixed set and, of the N random requests that are no larger than about B
    bytes, K for each cause
second expect < requests > answers
second replay < requests > answers
    answers requests as this program does
";

/// The form of a subcommand in one line, for whoever wrote another.
const COMPARE: &str = "second KIND --seed S --count N [--first I] [-- COMMAND ..]";
const LANDINGS: &str = "second landings --seed S --count N [-- COMMAND ..]";
const RECORD: &str = "second record KIND --seed S --count N [--first I] [--only I] > requests; \
    KIND is values, load, check, run, text, assemble or source";
const SELECT: &str = "second select KIND --seed S --count N --each K --most B > requests; \
    KIND is values, load, check, run, text, assemble or source";

/// What stands on the command line after the subcommand.
struct Options {
    seed: u64,
    count: u64,
    first: Option<u64>,
    only: Option<u64>,
    each: u64,
    most: u64,
    command: Vec<String>,
}

fn options(arguments: &[String], form: &str) -> Result<Options, String> {
    let mut options =
        Options { seed: 1, count: 1000, first: None, only: None, each: 10, most: 1000, command: Vec::new() };
    let mut rest = arguments.iter();
    while let Some(name) = rest.next() {
        if name == "--" {
            options.command = rest.cloned().collect();
            break;
        }
        let mut number = || {
            let value = rest.next().and_then(|value| value.parse::<u64>().ok());
            value.ok_or_else(|| format!("{name} needs a number: {form}"))
        };
        match name.as_str() {
            "--seed" => options.seed = number()?,
            "--count" => options.count = number()?,
            "--first" => options.first = Some(number()?),
            "--only" => options.only = Some(number()?),
            "--each" => options.each = number()?,
            "--most" => options.most = number()?,
            _ => return Err(format!("no option {name:?}: {form}")),
        }
    }
    Ok(options)
}

fn main() -> ExitCode {
    let arguments: Vec<String> = std::env::args().skip(1).collect();
    match command(&arguments) {
        Ok(true) => ExitCode::SUCCESS,
        Ok(false) => ExitCode::FAILURE,
        Err(message) => {
            eprintln!("{message}");
            ExitCode::from(2)
        }
    }
}

/// True if all went well, false at a difference.
fn command(arguments: &[String]) -> Result<bool, String> {
    let words: Vec<&str> = arguments.iter().map(String::as_str).collect();
    let kind = |words: &[&str], form: &str| {
        let name = words.first().ok_or_else(|| format!("which kind: {form}"))?;
        Kind::named(name).ok_or_else(|| format!("no kind {name:?}: {form}"))
    };
    match words.as_slice() {
        [] | ["--help"] | ["-h"] => {
            print!("{USAGE}");
            Ok(true)
        }
        ["expect"] | ["replay"] => replay().map(|()| true).map_err(|error| error.to_string()),
        [name @ ("expect" | "replay"), ..] => Err(format!("no arguments: second {name} < requests > answers")),
        ["record", rest @ ..] => {
            let kind = kind(rest, RECORD)?;
            record(kind, &options(&arguments[2..], RECORD)?).map(|()| true).map_err(|error| error.to_string())
        }
        ["select", rest @ ..] => {
            let kind = kind(rest, SELECT)?;
            selected(kind, &options(&arguments[2..], SELECT)?).map(|()| true).map_err(|error| error.to_string())
        }
        ["landings", ..] => landed(&options(&arguments[1..], LANDINGS)?),
        [name, ..] => {
            let kind = Kind::named(name).ok_or_else(|| format!("no subcommand {name:?}: second --help lists them"))?;
            compared(kind, &options(&arguments[1..], COMPARE)?)
        }
    }
}

fn compared(kind: Kind, options: &Options) -> Result<bool, String> {
    let seed = options.seed;
    let indices = options.first.unwrap_or(0)..kind.fixed() + options.count;
    let requests = indices.map(move |index| (index, kind.request(seed, index)));
    let mut tally = Tally::default();
    let good = compare::compare(requests, &options.command, &compare::same_bytes, &mut tally)?;
    tally.print();
    Ok(good)
}

fn landed(options: &Options) -> Result<bool, String> {
    let requests = (0..).zip(landings::requests(options.seed, options.count));
    let mut tally = Tally::default();
    let good = compare::compare(requests, &options.command, &landings::as_plain, &mut tally)?;
    if good {
        println!("{} programs, {} landing lists each: as the plain machine, never 11", options.count, landings::LISTS);
    }
    tally.print();
    Ok(good)
}

fn record(kind: Kind, options: &Options) -> io::Result<()> {
    let mut output = BufWriter::new(io::stdout().lock());
    let indices = match options.only {
        Some(only) => only..only + 1,
        None => options.first.unwrap_or(kind.fixed())..kind.fixed() + options.count,
    };
    for index in indices {
        kind.request(options.seed, index).write(&mut output)?;
    }
    output.flush()
}

fn selected(kind: Kind, options: &Options) -> io::Result<()> {
    let mut output = BufWriter::new(io::stdout().lock());
    for request in select::selected(kind, options.seed, options.count, options.each, options.most as usize) {
        request.write(&mut output)?;
    }
    output.flush()
}

fn replay() -> io::Result<()> {
    let mut input = BufReader::new(io::stdin().lock());
    let mut output = BufWriter::new(io::stdout().lock());
    while let Some(request) = Request::read(&mut input)? {
        output.write_all(&request.answer())?;
    }
    output.flush()
}
