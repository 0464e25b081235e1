//! Compares every call of the proved library with an independent one, bit for bit, all lent memory with it.
//!
//!     cargo run --release -- [--stored] [--case NAME] [--seed S] [--calls N] [--at INPUT] [--broken NAME] [--faulty NAME] [--self-test]
//!
//! First come the stored cases (folder cases), whose outcome both must have; `--stored` ends there, and `--case` makes only those of
//! a name and prints what they give. Then come inputs that are drawn from the seed, which is printed; each can be drawn again alone
//! (`--at`). The program ends with status 1 at the first difference, or where an answer that a call can give, a kind of job with
//! zones left out or not returned, a side in a list of sides, a tie in a hot list, or a kind of desks of a rank came too seldom or never;
//! with status 2 where a stored case cannot be read.
//! With `--broken` a wrong independent call is swapped in, with `--faulty` a faulty archive, and a difference must come; `--self-test`
//! does so with each of them, and wants one from each among the drawn inputs.
//! DCA_LIB_DIR names the folder of the archive libexports.a, if it is not crates/exports/out.

mod compare;

use compare::stored::{self, Case};
use compare::{broken, faulty, Plan, Swapped, Tally};
use std::collections::BTreeSet;
use std::process::ExitCode;
use std::time::Instant;

const SEED: u64 = 20_240_601;
const CALLS: u64 = 600_000;
/// With fewer inputs than these some answer may well be missing.
const ENOUGH: u64 = 100_000;

struct Arguments {
    seed: u64,
    calls: u64,
    at: Option<u64>,
    stored: bool,
    case: Option<String>,
    broken: Option<String>,
    faulty: Option<String>,
    self_test: bool,
}

impl Arguments {
    fn swapped(&self) -> Swapped<'_> {
        Swapped {
            broken: self.broken.as_deref(),
            faulty: self.faulty.as_deref(),
        }
    }
}

fn arguments() -> Result<Arguments, String> {
    let mut given = Arguments {
        seed: SEED,
        calls: CALLS,
        at: None,
        stored: false,
        case: None,
        broken: None,
        faulty: None,
        self_test: false,
    };
    let mut rest = std::env::args().skip(1);
    while let Some(word) = rest.next() {
        let mut next = || rest.next().ok_or(format!("{word} wants a word behind it"));
        match word.as_str() {
            "--seed" => given.seed = number(&next()?)?,
            "--calls" => given.calls = number(&next()?)?,
            "--at" => given.at = Some(number(&next()?)?),
            "--stored" => given.stored = true,
            "--case" => given.case = Some(next()?),
            "--broken" => given.broken = Some(known(next()?, &broken::NAMES)?),
            "--faulty" => given.faulty = Some(known(next()?, &faulty::NAMES)?),
            "--self-test" => given.self_test = true,
            _ => return Err(format!("{word} is not an argument")),
        }
    }
    Ok(given)
}

fn number(text: &str) -> Result<u64, String> {
    let parsed = text.parse();
    parsed.map_err(|_| format!("{text} is not a whole number"))
}

/// The name, if it is one of these.
fn known(name: String, names: &[(&str, &str)]) -> Result<String, String> {
    let known: Vec<&str> = names.iter().map(|&(known, _)| known).collect();
    if known.contains(&name.as_str()) {
        return Ok(name);
    }
    Err(format!("{name} is none of: {}", known.join(", ")))
}

/// Makes the stored cases of a name alone, and prints what each gives.
fn run_named(given: &Arguments, cases: &[Case], name: &str) -> bool {
    let named: Vec<&Case> = cases.iter().filter(|case| case.name == name).collect();
    let mut good = !named.is_empty();
    if !good {
        println!("no stored case has the name {name}");
    }
    for case in named {
        match case.compare(&mut Tally::default(), given.swapped()) {
            Ok(()) => {
                println!("{}: {} gives {}", case.place(), case.call, case.gives);
                case.changes().for_each(|line| println!("    {line}"));
            }
            Err(what) => {
                println!("DIFFERENCE at {}: {what}", case.place());
                good = false;
            }
        }
    }
    good
}

fn run_stored(given: &Arguments, cases: &[Case]) -> bool {
    for (file, _) in stored::FILES {
        let own: Vec<&Case> = cases.iter().filter(|case| case.file == file).collect();
        let calls: BTreeSet<&str> = own.iter().map(|case| case.call).collect();
        let refused = own.iter().filter(|case| case.gives != 0).count();
        let cases = own.len();
        let calls = Vec::from_iter(calls).join(", ");
        println!("{file}: {cases} cases, {refused} of them refused, of {calls}");
    }
    match stored::compare(cases, given.swapped()) {
        Ok(tally) => {
            tally.print();
            println!("{} stored cases, no difference", cases.len());
            true
        }
        Err(what) => {
            println!("DIFFERENCE at {what}");
            false
        }
    }
}

fn run_drawn(given: &Arguments) -> bool {
    let started = Instant::now();
    let plan = Plan {
        seed: given.seed,
        inputs: given.at.map_or(0..given.calls, |at| at..at + 1),
        swapped: given.swapped(),
    };
    println!("seed {}", given.seed);
    let tally = match compare::compare(&plan) {
        Ok(tally) => tally,
        Err(found) => {
            println!("DIFFERENCE at seed {}, input {}:", given.seed, found.input);
            println!("{}", found.what);
            return false;
        }
    };
    tally.print();
    println!();
    tally.print_kinds();
    println!();
    tally.print_sides();
    println!();
    tally.print_ties();
    println!();
    tally.print_desks();
    let calls = plan.inputs.end - plan.inputs.start;
    let seconds = started.elapsed().as_secs_f64();
    println!("{calls} inputs, no difference, {seconds:.1} s");
    if calls < ENOUGH {
        println!("Fewer than {ENOUGH} inputs: whether every answer came is not asked.");
        return true;
    }
    let faults = tally.faults();
    for fault in &faults {
        println!("ANSWERS NOT AS THEY MUST BE: {fault}");
    }
    faults.is_empty()
}

/// Swaps in one wrong function, and prints what shows it. Answers whether a drawn input does; a stored case need not.
fn is_found(given: &Arguments, cases: &[Case], title: &str, swapped: Swapped) -> bool {
    let plan = Plan {
        seed: given.seed,
        inputs: 0..given.calls,
        swapped,
    };
    let found = compare::compare(&plan).err();
    match &found {
        Some(found) => println!("{title}: input {}, {}", found.input, found.what),
        None => println!("{title}: NO DIFFERENCE in {} inputs", given.calls),
    }
    match stored::compare(cases, swapped) {
        Ok(_) => println!("    by the stored cases alone: not found"),
        Err(what) => println!("    by the stored cases alone: {what}"),
    }
    found.is_some()
}

/// Swaps in each wrong version of the independent code and each faulty archive; answers whether each made a difference.
fn self_test(given: &Arguments, cases: &[Case]) -> bool {
    println!("seed {}", given.seed);
    let mut all = true;
    for (name, what) in broken::NAMES {
        let swapped = Swapped {
            broken: Some(name),
            faulty: None,
        };
        all &= is_found(given, cases, &format!("broken {name} ({what})"), swapped);
    }
    for (name, what) in faulty::NAMES {
        let swapped = Swapped {
            broken: None,
            faulty: Some(name),
        };
        all &= is_found(given, cases, &format!("faulty {name} ({what})"), swapped);
    }
    all
}

fn run(given: &Arguments, cases: &[Case]) -> bool {
    if given.self_test {
        return self_test(given, cases);
    }
    if let Some(name) = &given.case {
        return run_named(given, cases, name);
    }
    if given.at.is_none() && !run_stored(given, cases) {
        return false;
    }
    given.stored || run_drawn(given)
}

fn main() -> ExitCode {
    let given = match arguments() {
        Ok(given) => given,
        Err(what) => {
            eprintln!("{what}");
            return ExitCode::from(2);
        }
    };
    let cases = match stored::cases() {
        Ok(cases) => cases,
        Err(what) => {
            eprintln!("{what}");
            return ExitCode::from(2);
        }
    };
    ExitCode::from(u8::from(!run(&given, &cases)))
}
