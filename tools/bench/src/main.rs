//! Measures the proved calls beside the independent ones of tools/differential, on the same machine and the same input.
//!
//!     cargo run --release -- [--goals] [--rounds N]
//!
//! Prints four markdown tables: proved against independent, with the goals, how the proved calls' cost grows, and what they cost where
//! zones are left out or not returned. With `--goals` it ends with status 1 where a ratio is above its goal by more than 0.15, since a machine is never
//! quiet.
//! DCA_LIB_DIR names the folder of the archive libexports.a, if it is not crates/exports/out. DCA_BEFORE_DIR names the folder of an
//! earlier libexports.a: then the calls are measured beside those of that archive instead, and one table is printed, now against before.
//! Both are paths from the root. build.rs links the earlier archive under other names, so that the program is built anew for it.
//! That may be one from before request A.9: its rank is called without desks. The counts of all desks together must be those of before.

mod calls;
mod input;

use calls::cases::{self, Case};
use calls::{proved, Calls, Placed};
use differential::RANK_COUNTS;
use input::{Input, Refused};
use std::process::ExitCode;
use std::time::{Duration, Instant};

const ROUNDS: usize = 200;
/// One measurement repeats its call until it takes about so long.
const BATCH: Duration = Duration::from_micros(1500);
/// Beside an earlier archive a round is short, so that in most of them neither call is interrupted.
const SHORT_BATCH: Duration = Duration::from_micros(300);
/// The zones that touch nobody, or send no value, in the last table, the first and the last among them.
const LEFT_OUT: [usize; 5] = [0, 9, 26, 40, 63];
/// By how much a ratio may exceed its goal before the program complains.
const MARGIN: f64 = 0.15;

fn time(case: &mut Case, repeats: u32) -> f64 {
    let started = Instant::now();
    for _ in 0..repeats {
        case();
    }
    started.elapsed().as_secs_f64() * 1e6 / f64::from(repeats)
}

/// How often a call is repeated in one measurement.
fn repeats(case: &mut Case, batch: Duration) -> u32 {
    let mut repeats = 1;
    loop {
        let took = time(case, repeats) * f64::from(repeats);
        if took * 1.5 > batch.as_micros() as f64 || repeats > 1_000_000 {
            return repeats;
        }
        repeats *= 2;
    }
}

/// The least time of each case in microseconds, measured in turn round after round.
fn least(cases: &mut [Case], rounds: usize) -> Vec<f64> {
    let own = |case: &mut Case| repeats(case, BATCH);
    let repeats: Vec<u32> = cases.iter_mut().map(own).collect();
    let mut least = vec![f64::INFINITY; cases.len()];
    for _ in 0..rounds {
        for ((case, &repeats), least) in cases.iter_mut().zip(&repeats).zip(&mut least) {
            *least = least.min(time(case, repeats));
        }
    }
    least
}

/// What a quarter, a half and three quarters of the list do not exceed; the half's is the median.
fn quartiles(mut list: Vec<f64>) -> [f64; 3] {
    list.sort_by(f64::total_cmp);
    [1, 2, 3].map(|quarters| list[list.len() * quarters / 4])
}

/// What is measured.
struct Inputs {
    job: Input,
    small: Input,
    no_shuffles: Input,
    refused_first: Refused,
    refused_last: Refused,
    ratios: Vec<(i64, i64)>,
}

impl Inputs {
    fn new() -> Self {
        let job = Input::new(64, 499);
        Inputs {
            small: Input::new(8, 0),
            no_shuffles: Input::new(64, 0),
            refused_first: job.refused_first(),
            refused_last: job.refused_last(),
            ratios: input::ratios(),
            job,
        }
    }
}

/// A case, with the goal of its ratio to independent code.
type Row<'a> = (&'static str, Option<f64>, Case<'a>);

/// The cases that have a goal.
fn goal_rows<'a>(job: &'a Input, calls: &Calls) -> Vec<Row<'a>> {
    let account = cases::account(job, calls.account);
    let class_account = cases::class_account(job, calls.class_account);
    let float_report = cases::float_report(job, calls.float_report);
    vec![
        (
            "rank, 499 shuffles",
            Some(1.1),
            cases::rank(job, calls.rank),
        ),
        ("account", Some(1.3), account),
        ("class account", Some(1.3), class_account),
        ("float report", Some(1.3), float_report),
        ("read", Some(1.3), cases::read(job, calls.read)),
        ("write", Some(1.3), cases::write(job, calls.write)),
        ("report", Some(1.3), cases::report(job, calls.report)),
    ]
}

/// The others.
fn other_rows<'a>(inputs: &'a Inputs, calls: &Calls) -> Vec<Row<'a>> {
    let job = &inputs.job;
    let small = cases::account(&inputs.small, calls.account);
    let no_shuffles = cases::report(&inputs.no_shuffles, calls.report);
    let refused_last = cases::refused(&inputs.refused_last, calls.report);
    let refused_first = cases::refused(&inputs.refused_first, calls.report);
    let nearest = cases::nearest(&inputs.ratios, calls.nearest);
    vec![
        ("account, 8 zones", None, small),
        ("report, no shuffles", None, no_shuffles),
        ("report, refused at the last shuffle", None, refused_last),
        ("report, refused at the first count", None, refused_first),
        ("hot list", Some(1.2), cases::hot_list(job, calls.hot_list)),
        ("join table", None, cases::join_table(job, calls.join_table)),
        ("gabriel", None, cases::gabriel(job, calls.gabriel)),
        ("bands", None, cases::bands(job, calls.bands)),
        ("grid, rook", None, cases::grid(calls.grid_rook)),
        ("grid, bishop", None, cases::grid(calls.grid_bishop)),
        ("grid, queen", None, cases::grid(calls.grid_queen)),
        ("nearest, 256 ratios", None, nearest),
    ]
}

/// All cases, of one set of calls and of another.
fn both<'a>(
    inputs: &'a Inputs,
    one: &Calls,
    other: &Calls,
) -> impl Iterator<Item = (Row<'a>, Row<'a>)> {
    let rows = |calls| {
        let mut rows = goal_rows(&inputs.job, calls);
        rows.extend(other_rows(inputs, calls));
        rows
    };
    rows(one).into_iter().zip(rows(other))
}

/// One line of the first table; answers whether the goal is met, the margin with it.
fn row(name: &str, goal: Option<f64>, rounds: usize, proved: Case, own: Case) -> bool {
    let least = least(&mut [proved, own], rounds);
    let ratio = least[0] / least[1];
    let (goal_text, met) = match goal {
        Some(goal) if ratio <= goal => (format!("{goal}"), "yes"),
        Some(goal) if ratio <= goal + MARGIN => (format!("{goal}"), "within the margin"),
        Some(goal) => (format!("{goal}"), "NO"),
        None => (String::from("-"), "-"),
    };
    println!(
        "| {name} | {:.2} | {:.2} | {ratio:.2} | {goal_text} | {met} |",
        least[0], least[1]
    );
    met != "NO"
}

/// Measures both versions of each call; answers whether every goal is met.
fn against(rounds: usize) -> bool {
    let inputs = &Inputs::new();
    println!("| call | proved, us | independent, us | ratio | goal | met |");
    println!("|---|---:|---:|---:|---:|---|");
    let mut met = true;
    let both = both(inputs, &calls::PROVED, &calls::INDEPENDENT);
    for ((name, goal, proved), (_, _, own)) in both {
        let rounds = if goal.is_some() { rounds } else { rounds / 2 };
        met &= row(name, goal, rounds, proved, own);
    }
    met
}

/// One call of the archive and of an earlier one, at one placement, with what was measured of them.
struct Beside<'a> {
    now: Case<'a>,
    before: Case<'a>,
    nows: Vec<f64>,
    befores: Vec<f64>,
}

impl Beside<'_> {
    /// Measures both, one of them first in every other round.
    fn measure(&mut self, round: usize, repeats: u32) {
        let early = round
            .is_multiple_of(2)
            .then(|| time(&mut self.now, repeats));
        self.befores.push(time(&mut self.before, repeats));
        self.nows
            .push(early.unwrap_or_else(|| time(&mut self.now, repeats)));
    }

    /// The ratio of each round.
    fn ratios(&self) -> Vec<f64> {
        let both = self.nows.iter().zip(&self.befores);
        both.map(|(now, before)| now / before).collect()
    }
}

/// One line of the table of an earlier archive. Both are measured by turns at one placement after the other, round after round, and what
/// counts are the ratios of the rounds: their median at each placement, and that of all.
fn earlier_row(name: &str, rounds: usize, placed: &mut [Beside]) {
    let own = |case: &mut Case| repeats(case, SHORT_BATCH);
    let repeats = own(&mut placed[0].now).min(own(&mut placed[0].before));
    for round in 0..rounds {
        for beside in &mut *placed {
            beside.measure(round, repeats);
        }
    }
    let median = |list: Vec<f64>| quartiles(list)[1];
    let each: Vec<String> = placed
        .iter()
        .map(|beside| format!("{:.2}", median(beside.ratios())))
        .collect();
    let now = median(placed.iter().flat_map(|b| b.nows.clone()).collect());
    let before = median(placed.iter().flat_map(|b| b.befores.clone()).collect());
    let [low, ratio, high] = quartiles(placed.iter().flat_map(Beside::ratios).collect());
    println!(
        "| {name} | {now:.2} | {before:.2} | {} | {ratio:.2} | {low:.2} to {high:.2} |",
        each.join(" | ")
    );
}

/// Less, equal and greater of all desks together, since an earlier archive may have no desks.
fn counts_of_all(input: &Input, rank: cases::Rank) -> [u64; 3] {
    let mut counts = [0; RANK_COUNTS];
    let number = rank(
        input.n,
        &input.values,
        &input.weights,
        &input.shuffles,
        &input.desks,
        &mut counts,
    );
    assert_eq!(number, 0, "rank");
    [0, 1, 2].map(|count| counts.iter().skip(count).step_by(3).sum())
}

/// Measures each call beside that of an earlier archive.
fn beside_earlier(rounds: usize, placements: &[Placed]) {
    let inputs = &Inputs::new();
    let at: Vec<String> = placements.iter().map(|p| p.at.to_string()).collect();
    println!("The archive and an earlier one by turns, {rounds} rounds with functions at multiples of {}: the medians of the times, and of the ratios of the rounds.", at.join(", "));
    println!();
    println!(
        "| call | now, us | before, us | {} | all | half of the rounds |",
        at.join(" | ")
    );
    println!("|---|{}", "---:|".repeat(at.len() + 4));
    let mut lines: Vec<(&str, Vec<Beside>)> = Vec::new();
    for placed in placements {
        let before = placed.before();
        let [counts, former] =
            [placed.now.rank, before.rank].map(|rank| counts_of_all(&inputs.job, rank));
        assert_eq!(counts, former, "the counts of all desks, now and before");
        let lines_here = both(inputs, &placed.now, &before);
        for (line, ((name, _, now), (_, _, before))) in lines_here.enumerate() {
            if line == lines.len() {
                lines.push((name, Vec::new()));
            }
            let (nows, befores) = (Vec::new(), Vec::new());
            lines[line].1.push(Beside {
                now,
                before,
                nows,
                befores,
            });
        }
    }
    for (name, mut placed) in lines {
        earlier_row(name, rounds, &mut placed);
    }
}

fn growth_row(name: &str, rounds: usize, mut cases: Vec<Case>) {
    let least = least(&mut cases, rounds);
    let times: Vec<String> = least.iter().map(|time| format!("{time:.2}")).collect();
    let ratios: Vec<String> = least
        .iter()
        .map(|time| format!("{:.1}", time / least[0]))
        .collect();
    println!(
        "| {name} | {} | {} |",
        times.join(" | "),
        ratios.join(" : ")
    );
}

/// A line for each of these calls over the inputs.
macro_rules! rows {
    ($row:ident, $rounds:ident, $inputs:ident, $($name:literal $call:ident;)*) => {
        $($row(
            $name,
            $rounds,
            $inputs.iter().map(|input| cases::$call(input, proved::$call)).collect(),
        );)*
    };
}

fn growth(rounds: usize) {
    let sizes = [8, 16, 32, 64].map(|n| Input::new(n, 0));
    let lists = [0, 124, 249, 499].map(|rows| Input::new(64, rows));
    println!("| proved, us | 8 zones | 16 zones | 32 zones | 64 zones | as ratios |");
    println!("|---|---:|---:|---:|---:|---|");
    rows! {
        growth_row, rounds, sizes,
        "account" account;
        "class account" class_account;
        "float report" float_report;
        "report, no shuffles" report;
        "read, no shuffles" read;
    }
    println!();
    println!("| proved, us, 64 zones | 0 shuffles | 124 shuffles | 249 shuffles | 499 shuffles | as ratios |");
    println!("|---|---:|---:|---:|---:|---|");
    rows! {
        growth_row, rounds, lists,
        "rank" rank;
        "read" read;
        "write" write;
        "report" report;
    }
}

fn left_out_row(name: &str, rounds: usize, mut cases: Vec<Case>) {
    let least = least(&mut cases, rounds);
    let [all, fewer, missing] = [least[0], least[1], least[2]];
    println!(
        "| {name} | {all:.2} | {fewer:.2} | {:.2} | {missing:.2} | {:.2} |",
        fewer / all,
        missing / all
    );
}

/// The job as it is, and the same job of which five zones touch nobody, or send no value.
fn left_out(rounds: usize) {
    let inputs = [
        Input::new(64, 499),
        Input::leaving_out(&LEFT_OUT, 64, 499),
        Input::not_returning(&LEFT_OUT, 64, 499),
    ];
    println!("| proved, us, 64 zones | all kept | 5 left out | ratio | 5 not returned | ratio |");
    println!("|---|---:|---:|---:|---:|---:|");
    rows! {
        left_out_row, rounds, inputs,
        "account" account;
        "class account" class_account;
        "float report" float_report;
        "rank, 499 shuffles" rank;
        "join table" join_table;
        "read" read;
        "write" write;
        "report" report;
    }
}

/// Whether goals are asked for, and the rounds; nothing where a word is no argument.
fn arguments() -> Option<(bool, usize)> {
    let (mut goals, mut rounds) = (false, ROUNDS);
    let mut words = std::env::args().skip(1);
    while let Some(word) = words.next() {
        match word.as_str() {
            "--goals" => goals = true,
            "--rounds" => rounds = words.next()?.parse::<usize>().ok()?.max(2),
            _ => return None,
        }
    }
    Some((goals, rounds))
}

fn main() -> ExitCode {
    let Some((goals, rounds)) = arguments() else {
        eprintln!("arguments: [--goals] [--rounds N]");
        return ExitCode::from(2);
    };
    println!("Request A.4's job: 64 zones, 499 shuffles, categories, places, 8 bands. Buffers are not cleared between calls.");
    if !calls::NOW_AND_BEFORE.is_empty() {
        beside_earlier(rounds, calls::NOW_AND_BEFORE);
        return ExitCode::SUCCESS;
    }
    println!("Both built for release; proved and independent in turn, {rounds} rounds, the least time of a call.");
    println!();
    let met = against(rounds);
    println!();
    growth(rounds / 2);
    println!();
    left_out(rounds / 2);
    if goals && !met {
        println!();
        println!("A goal is missed by more than {MARGIN}.");
        return ExitCode::FAILURE;
    }
    ExitCode::SUCCESS
}
