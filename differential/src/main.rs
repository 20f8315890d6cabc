//! The driver: the Rust as oracle, a plain reading of document 01, of the page, of big-endian metadata, of the measures and of strict
//! export beside it, and what is run with both.
//!
//! Status: 0 done; 1 the answer is a refusal, or something was found to differ; 2 wrong arguments or unreadable input.

mod answer;
mod bench;
mod by_hand;
mod call;
mod causes;
mod compare;
mod demand3;
mod failure;
mod generator;
#[path = "../../host/rust/src/raw.rs"]
mod juzontefa;
mod library;
mod model;
mod mutants;
mod oracle;
mod records;
mod refusal;
mod strict_return;
mod trip;
mod visits;

use std::io::{Read, Write};
use std::process::ExitCode;

use answer::{Answer, Answered};
use call::{Call, Input, Request, ORDERS};
use compare::{Scope, TRIPS};
use failure::Failure;
use model::Model;
use oracle::Rust;

const USAGE: &str = "usage: juzontefa-differential answer CALL [NUMBER] | model CALL [NUMBER] | compare N [SEED [CALL]] | \
    strict N [SEED] | demand3 N [SEED] | by_hand N [SEED] | mutants [N [SEED]] | record SEED | check FILE | bench [ROUNDS [CALL]] | workloads FOLDER CALL";

/// Deep sheets are read by recursion in the plain reading, and dropped by recursion in the Rust.
const STACK: usize = 256 << 20;

fn main() -> ExitCode {
    let arguments: Vec<String> = match std::env::args_os().skip(1).map(|argument| argument.into_string()).collect() {
        Ok(arguments) => arguments,
        Err(_) => return fail(2, "an argument is not UTF-8"),
    };
    let run = std::thread::Builder::new().stack_size(STACK).spawn(move || run(&arguments));
    match run.map(|thread| thread.join()) {
        Ok(Ok(Ok(()))) => ExitCode::SUCCESS,
        Ok(Ok(Err(Failure::Refused))) => ExitCode::from(1),
        Ok(Ok(Err(Failure::Found(what)))) => fail(1, &what),
        Ok(Ok(Err(Failure::Wrong(what)))) => fail(2, &what),
        _ => fail(2, "the thread of the command ended early"),
    }
}

fn fail(status: u8, what: &str) -> ExitCode {
    // Nothing is left to be said where standard error is shut.
    let _ = writeln!(std::io::stderr(), "juzontefa-differential: {what}");
    ExitCode::from(status)
}

fn run(arguments: &[String]) -> Result<(), Failure> {
    let words: Vec<&str> = arguments.iter().map(String::as_str).collect();
    let out = &mut std::io::stdout();
    match words[..] {
        ["answer", ref rest @ ..] => answer_call(rest, out, |request, sheet| match request.is_in_rust() {
            true => Ok(Rust::new().own_answer(request, sheet)),
            false => Err(Failure::Wrong(format!("{request} is not in the Rust: ask `model {}`", rest.join(" ")))),
        }),
        ["model", ref rest @ ..] => answer_call(rest, out, |request, sheet| Ok(Model::new().answer(request, sheet))),
        ["compare", sheets, seed, call] => {
            let scope = scope_of(call)?;
            compare::compare(&Rust::new(), number("N", sheets)?, number("SEED", seed)?, scope, out)
        }
        ["compare", ref rest @ ..] => {
            let (sheets, seed) = number_and_seed(rest, None)?;
            compare::compare(&Rust::new(), sheets, seed, Scope::All, out)
        }
        ["strict", ref rest @ ..] => {
            let (sheets, seed) = number_and_seed(rest, None)?;
            compare::compare(&Rust::new(), sheets, seed, Scope::Strict, out)
        }
        ["demand3", ref rest @ ..] => {
            let (fields, seed) = number_and_seed(rest, None)?;
            demand3::demand3(&Rust::new(), fields, seed, out)
        }
        ["by_hand", ref rest @ ..] => {
            let (sheets, seed) = number_and_seed(rest, None)?;
            by_hand::by_hand(sheets, seed, out)
        }
        ["mutants", ref rest @ ..] => {
            let (limit, seed) = number_and_seed(rest, Some(1_000_000))?;
            mutants::mutants(&Rust::new(), limit, seed, out)
        }
        ["record", seed] => records::record(&Rust::new(), number("SEED", seed)?, out),
        ["check", file] => {
            let list = std::fs::read(file).map_err(|error| Failure::Wrong(format!("{file}: {error}")))?;
            records::check(&Rust::new(), &list, out)
        }
        ["bench"] => bench::bench(&Rust::new(), 100, None, out),
        ["bench", rounds] => bench::bench(&Rust::new(), number("ROUNDS", rounds)?.max(1), None, out),
        ["bench", rounds, call] => {
            let call = timed_call(call)?;
            bench::bench(&Rust::new(), number("ROUNDS", rounds)?.max(1), Some(call), out)
        }
        ["workloads", folder, call] => bench::workloads(&Rust::new(), folder, timed_call(call)?),
        _ => Err(Failure::Wrong(USAGE.to_string())),
    }
}

fn answer_call(
    words: &[&str],
    out: &mut dyn Write,
    answer: impl Fn(Request, &[u8]) -> Result<Answered, Failure>,
) -> Result<(), Failure> {
    let request = request_of(words)?;
    let mut sheet = Vec::new();
    if request.call.input() != Input::Place {
        std::io::stdin().read_to_end(&mut sheet).map_err(|error| Failure::Wrong(format!("standard input: {error}")))?;
    }
    let (text, result) = match answer(request, &sheet)? {
        Ok(Answer::Sheet(sheet)) => (sheet, Ok(())),
        Ok(Answer::Values(first, second)) if request.call == Call::ToPhysicalType || request.measured().is_some() => {
            (format!("{first} {second}\n").into(), Ok(()))
        }
        Ok(Answer::Values(first, _)) => (format!("{first}\n").into(), Ok(())),
        Err(number) => (format!("refused {number}\n").into(), Err(Failure::Refused)),
    };
    out.write_all(&text)?;
    result
}

fn request_of(words: &[&str]) -> Result<Request, Failure> {
    let (name, argument) = match words {
        [name] => (name, None),
        [name, argument] => (name, Some(number("NUMBER", argument)?)),
        _ => return Err(Failure::Wrong(USAGE.to_string())),
    };
    let call = call_of(name)?;
    match argument {
        Some(argument) if call.takes_argument() || call.takes_order() => Ok(Request::new(call, argument)),
        Some(_) => Err(Failure::Wrong(format!("{name} takes no number"))),
        None if call.takes_argument() => Err(Failure::Wrong(format!("{name} needs an index or a place"))),
        None => Ok(Request::new(call, 0)),
    }
}

fn call_of(name: &str) -> Result<Call, Failure> {
    Call::named(name).ok_or_else(|| Failure::Wrong(format!("no call {name}")))
}

/// What `compare` is asked to compare, by its last word.
fn scope_of(name: &str) -> Result<Scope, Failure> {
    let (scope, can_be) = match TRIPS.iter().find(|(_, trip)| *trip == name) {
        Some((export, _)) => {
            let can_be = ORDERS.into_iter().any(|order| library::has_round_trip(*export, order));
            (Scope::RoundTrips(*export), can_be)
        }
        None => {
            let request = Request::new(call_of(name)?, 0);
            (Scope::Only(request.call), request.is_partly_in_rust() || library::has(request))
        }
    };
    match can_be {
        true => Ok(scope),
        false => Err(Failure::Wrong(format!("{name} is not in the Rust, and no library with it is linked"))),
    }
}

/// A call that the bench has workloads for.
fn timed_call(name: &str) -> Result<Call, Failure> {
    let call = call_of(name)?;
    match bench::CALLS.contains(&call) {
        true => Ok(call),
        false => Err(Failure::Wrong(format!("no workloads for {name}"))),
    }
}

fn number(what: &str, word: &str) -> Result<u64, Failure> {
    word.parse().map_err(|_| Failure::Wrong(format!("{what} is not a number: {word}")))
}

/// The number may be left out where it has a default; the seed is 1 by default.
fn number_and_seed(words: &[&str], default: Option<u64>) -> Result<(u64, u64), Failure> {
    match (words, default) {
        ([], Some(count)) => Ok((count, 1)),
        ([count], _) => Ok((number("N", count)?, 1)),
        ([count, seed], _) => Ok((number("N", count)?, number("SEED", seed)?)),
        _ => Err(Failure::Wrong(USAGE.to_string())),
    }
}
