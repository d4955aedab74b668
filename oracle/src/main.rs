//! Runs the proved arena against the given Rust, damages it on its own, and records a sample of the Rust's answers.

mod calls;
mod choose;
mod damaged;
mod drive;
mod exhaustive;
mod fence;
mod held;
mod image;
mod judge;
mod limit;
mod model;
mod mutants;
mod random;
mod record;
mod rules;
mod sides;
mod watch;
mod wide;

use std::process::ExitCode;
use std::{env, fs};

use choose::Caps;
use drive::{Difference, Make};
use judge::Answers;
use sides::{Ours, Side};

const USAGE: &str = "\
oracle compare [--calls N] [--seed S]   random calls on both sides, compared after every call
oracle wide [--calls N] [--seed S]      the same on arenas of 65,537 to 2,097,152 bytes
oracle exhaustive                       every short sequence of calls on small arenas
oracle limit                            some calls on buffers of the largest length (two gigabytes)
oracle damaged [--calls N] [--seed S]   damaged headers and buffers and any numbers, our side alone; and a fifteenth
                                        as many calls on arenas of up to 2,097,152 bytes with long lists
oracle mutants [--seed S]               wrong programs, each of which the comparison must see
oracle record [--calls N] [--seed S] --out FILE   a sample of the Rust's answers";

fn main() -> ExitCode {
    let arguments: Vec<String> = env::args().skip(1).collect();
    match run(&arguments) {
        Ok(true) => ExitCode::SUCCESS,
        Ok(false) => ExitCode::FAILURE,
        Err(why) => {
            eprintln!("{why}\n{USAGE}");
            ExitCode::from(2)
        }
    }
}

fn run(arguments: &[String]) -> Result<bool, String> {
    let (command, options) = arguments.split_first().ok_or("a command is missing")?;
    let options = Options::read(options)?;
    match command.as_str() {
        "compare" => Ok(compare(command, options.calls.unwrap_or(1_000_000), options.seed, 4_000)),
        "wide" => Ok(compare(command, options.calls.unwrap_or(100_000), options.seed, 1)),
        "exhaustive" => Ok(exhaustive()),
        "limit" => Ok(limit()),
        "damaged" => Ok(damaged(options.calls.unwrap_or(1_000_000), options.seed)),
        "mutants" => Ok(mutants(options.seed)),
        "record" => record(options.calls.unwrap_or(2_400), options.seed, options.out.ok_or("--out is missing")?),
        other => Err(format!("no command {other}")),
    }
}

struct Options {
    calls: Option<u64>,
    seed: u64,
    out: Option<String>,
}

impl Options {
    fn read(arguments: &[String]) -> Result<Self, String> {
        let mut options = Options { calls: None, seed: 1, out: None };
        for pair in arguments.chunks(2) {
            let [name, value] = pair else {
                return Err(format!("{} has no value", pair[0]));
            };
            let number = || value.parse().map_err(|_| format!("{value} is no number"));
            match name.as_str() {
                "--calls" => options.calls = Some(number()?),
                "--seed" => options.seed = number()?,
                "--out" => options.out = Some(value.clone()),
                _ => return Err(format!("no option {name}")),
            }
        }
        Ok(options)
    }
}

const OURS: Make = &|setup| Ok(Box::new(Ours::create(setup)?) as Box<dyn Side>);

fn compare(command: &str, calls: u64, seed: u64, large: u64) -> bool {
    let (tally, difference) = drive::compare(calls, seed, Caps { most: 65_536, large }, OURS);
    println!("{tally}");
    let same = tell(&difference);
    println!("{command}: {} calls compared, seed {seed}, {} differences", tally.compared, u8::from(!same));
    same
}

fn exhaustive() -> bool {
    let (count, difference) = exhaustive::run(OURS);
    let same = tell(&difference);
    println!(
        "exhaustive: {} starts, {} sequences, {} calls compared, {} differences",
        count.setups,
        count.sequences,
        count.compared,
        u8::from(!same)
    );
    same
}

fn limit() -> bool {
    let (compared, difference) = limit::run(OURS);
    let same = tell(&difference);
    println!("limit: {compared} calls compared, {} differences", u8::from(!same));
    same
}

/// Shows a difference, if there is one, and whether there is none.
fn tell(difference: &Option<Difference>) -> bool {
    if let Some(difference) = difference {
        println!("the sides differ after:\n{difference}");
    }
    difference.is_none()
}

fn damaged(calls: u64, seed: u64) -> bool {
    let (count, outcome) = damaged::run(calls, seed);
    if let Err(what) = &outcome {
        println!("{what}");
    }
    println!("setups: {}", by_answer(&count.setups));
    println!("calls: {}", by_answer(&count.calls));
    println!("wide calls: {}", by_answer(&count.wide.calls));
    println!("{}", count.wide);
    let [calls, wide]: [u64; 2] = [count.calls, count.wide.calls].map(|answers| answers.iter().sum());
    println!("damaged: {calls} calls and {wide} wide ones, seed {seed}, {} faults", u8::from(outcome.is_err()));
    outcome.is_ok()
}

fn by_answer(counts: &Answers) -> String {
    let refused: Vec<String> = (1..10).map(|no| format!("{no}: {}", counts[no])).collect();
    format!("{} not refused; refused {}", counts[0], refused.join(", "))
}

fn mutants(seed: u64) -> bool {
    let mut missed = 0;
    for mutant in &mutants::MUTANTS {
        match mutants::seen(mutant, seed) {
            Some((calls, shortest)) => {
                println!("seen after {calls} calls, shown by {shortest}: {}", mutant.name);
            }
            None => {
                missed += 1;
                println!("MISSED: {}", mutant.name);
            }
        }
    }
    println!("mutants: {} tried, {missed} missed", mutants::MUTANTS.len());
    missed == 0
}

fn record(calls: u64, seed: u64, out: String) -> Result<bool, String> {
    let (text, count) = record::text(calls, seed);
    fs::write(&out, text).map_err(|e| format!("{out}: {e}"))?;
    println!("record: {count} calls in {out}");
    Ok(true)
}
