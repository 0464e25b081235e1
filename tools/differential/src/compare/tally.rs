//! Which answers came, and how often.

use super::desks::{DeskKinds, DESK_KINDS};
use super::left_out::{Kinds, KINDS};
use super::lent::Memory;
use super::ties::{Ties, TIES};
use std::collections::BTreeMap;

#[cfg(test)]
mod tests;

/// The numbers that each call can give.
const CAN_GIVE: [(&str, &[u8]); 15] = [
    ("dca_account", &[1, 2, 3, 4, 5, 6, 7]),
    ("dca_class_account", &[1, 2, 3, 4, 5, 6, 7, 9]),
    ("dca_float_report", &[1, 2, 3, 4, 5, 6, 7, 9]),
    ("dca_nearest", &[2, 18]),
    ("dca_hot_list", &[1, 2, 3, 4, 5, 6, 7]),
    ("dca_rank", &[1, 2, 3, 4, 5, 6, 7, 13, 24]),
    (JOIN_TABLE, &[1, 2, 3, 4, 5, 8]),
    ("dca_gabriel", &[1, 2, 10, 11]),
    ("dca_bands", &[1, 2, 10, 11, 12]),
    ("dca_grid_rook", &[1, 2]),
    ("dca_grid_bishop", &[1, 2]),
    ("dca_grid_queen", &[1, 2]),
    (
        "dca_read",
        &[1, 2, 3, 4, 5, 6, 7, 8, 10, 11, 12, 13, 14, 15, 16, 17],
    ),
    (
        "dca_write",
        &[1, 2, 3, 4, 5, 6, 7, 8, 10, 11, 12, 13, 15, 19],
    ),
    (
        "dca_report",
        &[1, 2, 3, 4, 5, 6, 7, 8, 10, 11, 12, 13, 14, 15, 16, 17],
    ),
];

/// The call that has no 6 and no 7: it takes the jobs that others refuse so.
const JOIN_TABLE: &str = "dca_join_table";

/// The calls that work a job, so that they leave zones out, or their weights.
const LEAVE_OUT: [&str; 9] = [
    "dca_account",
    "dca_class_account",
    "dca_float_report",
    "dca_hot_list",
    "dca_rank",
    JOIN_TABLE,
    "dca_read",
    "dca_write",
    "dca_report",
];

/// The lists of sides, by their calls. Each side must come in each of them.
const SIDES: [(&str, &str); 4] = [
    ("dca_nearest", "side"),
    ("dca_float_report", "global_sides"),
    ("dca_float_report", "local_sides"),
    ("dca_float_report", "pair_sides"),
];

/// What a side says, by its number.
const SAID: [&str; 3] = ["equal", "below", "above"];

/// The calls that put zones in hot-list order. Each tie must come in each of them.
const ORDERED: [&str; 2] = ["dca_hot_list", "dca_report"];

/// What comes less often than this was not tried well.
const SELDOM: u64 = 20;

#[derive(Default)]
pub struct Tally {
    /// By call and number.
    answers: BTreeMap<&'static str, BTreeMap<u8, u64>>,
    /// By call and kind of job, those that got the number of the kind.
    kinds: BTreeMap<&'static str, [u64; KINDS.len()]>,
    /// By list of sides and side, those that were stored.
    sides: [[u64; SAID.len()]; SIDES.len()],
    /// By ordering call and tie, those that were accepted.
    ties: [[u64; TIES.len()]; ORDERED.len()],
    /// By kind of a rank's desks, those that got the number of the kind.
    desks: [u64; DESK_KINDS.len()],
}

impl Tally {
    pub fn add(&mut self, call: &'static str, number: u8, kinds: &Kinds) {
        let numbers = self.answers.entry(call).or_default();
        *numbers.entry(number).or_default() += 1;
        let counts = self.kinds.entry(call).or_default();
        for ((count, &is), (_, of)) in counts.iter_mut().zip(kinds).zip(KINDS) {
            let of = if call == JOIN_TABLE && [6, 7].contains(&of) {
                0
            } else {
                of
            };
            *count += u64::from(is && number == of);
        }
    }

    /// Counts what is stored in a list of sides; the other lists are passed over.
    pub fn add_sides(&mut self, call: &str, list: &str, memory: &dyn Memory) {
        if let Some(place) = SIDES.iter().position(|of| *of == (call, list)) {
            for side in memory.stored() {
                self.sides[place][side as usize] += 1;
            }
        }
    }

    /// Counts the ties of an accepted job; of a call that orders nothing they are passed over.
    pub fn add_ties(&mut self, call: &str, number: u8, ties: &Ties) {
        let place = ORDERED.iter().position(|of| *of == call);
        if let (Some(place), 0) = (place, number) {
            let counts = self.ties[place].iter_mut().zip(ties);
            counts.for_each(|(count, &is)| *count += u64::from(is));
        }
    }

    /// Counts the kinds of a rank's desks; another call has none.
    pub fn add_desks(&mut self, number: u8, kinds: &DeskKinds) {
        let counts = self.desks.iter_mut().zip(kinds).zip(DESK_KINDS);
        for ((count, &is), (_, of)) in counts {
            *count += u64::from(is && number == of);
        }
    }

    fn count(&self, call: &str, number: u8) -> u64 {
        let numbers = self.answers.get(call);
        numbers.and_then(|n| n.get(&number)).copied().unwrap_or(0)
    }

    pub fn print(&self) {
        println!("| call | calls | accepted | refusals, number:times |");
        println!("|---|---:|---:|---|");
        for (call, numbers) in CAN_GIVE {
            let calls: u64 = self.answers.get(call).map_or(0, |n| n.values().sum());
            if calls == 0 {
                continue;
            }
            let accepted = self.count(call, 0);
            let refusals: Vec<String> = numbers
                .iter()
                .map(|&number| format!("{number}:{}", self.count(call, number)))
                .collect();
            println!("| {call} | {calls} | {accepted} | {} |", refusals.join(" "));
        }
    }

    /// The kinds of jobs under requests A.6 and A.7.
    pub fn print_kinds(&self) {
        let names: Vec<&str> = KINDS.iter().map(|&(kind, _)| kind).collect();
        println!("| call | {} |", names.join(" | "));
        println!("|---|{}", "---:|".repeat(KINDS.len()));
        for call in LEAVE_OUT {
            let counts = self.kinds.get(call).copied().unwrap_or_default();
            println!(
                "| {call} | {} |",
                counts.map(|count| count.to_string()).join(" | ")
            );
        }
    }

    pub fn print_sides(&self) {
        println!("| sides | {} |", SAID.join(" | "));
        println!("|---|{}", "---:|".repeat(SAID.len()));
        for ((call, list), counts) in SIDES.iter().zip(self.sides) {
            let counts = counts.map(|count| count.to_string()).join(" | ");
            println!("| {call}, {list} | {counts} |");
        }
    }

    pub fn print_ties(&self) {
        println!("| ties | {} |", ORDERED.join(" | "));
        println!("|---|{}", "---:|".repeat(ORDERED.len()));
        for (place, tie) in TIES.iter().enumerate() {
            let counts = self.ties.map(|counts| counts[place].to_string());
            println!("| {tie} | {} |", counts.join(" | "));
        }
    }

    pub fn print_desks(&self) {
        println!("| desks of dca_rank | answer | came |");
        println!("|---|---:|---:|");
        for ((kind, of), came) in DESK_KINDS.iter().zip(self.desks) {
            println!("| {kind} | {of} | {came} |");
        }
    }

    /// The kinds of desks that came too seldom.
    fn desk_faults(&self) -> impl Iterator<Item = String> + '_ {
        let kinds = DESK_KINDS.iter().zip(self.desks);
        let seldom = kinds.filter(|&(_, came)| came < SELDOM);
        seldom
            .map(|((kind, of), came)| format!("dca_rank: {kind} came {came} times only, with {of}"))
    }

    /// The ties that came too seldom.
    fn tie_faults(&self) -> impl Iterator<Item = String> + '_ {
        ORDERED.iter().zip(self.ties).flat_map(|(call, counts)| {
            let seldom = TIES.iter().zip(counts).filter(|&(_, came)| came < SELDOM);
            seldom
                .map(move |(tie, came)| format!("{call}: a tie where {tie} came {came} times only"))
        })
    }

    /// The sides that came too seldom.
    fn side_faults(&self) -> impl Iterator<Item = String> + '_ {
        let lists = SIDES.iter().zip(self.sides);
        lists.flat_map(|((call, list), counts)| {
            let came = SAID.iter().zip(counts);
            let seldom = came.filter(|&(_, came)| came < SELDOM);
            seldom.map(move |(side, came)| format!("{call}, {list}: {side} came {came} times only"))
        })
    }

    /// The kinds of jobs that came too seldom.
    fn kind_faults(&self) -> impl Iterator<Item = String> + '_ {
        LEAVE_OUT.iter().flat_map(|&call| {
            let counts = self.kinds.get(call).copied().unwrap_or_default();
            let seldom = KINDS
                .into_iter()
                .zip(counts)
                .filter(|&(_, came)| came < SELDOM);
            seldom.map(move |((kind, _), came)| format!("{call}: {kind} came {came} times only"))
        })
    }

    /// The answers that came too seldom though the call can give them, those that came though it cannot, and the kinds of jobs, the sides,
    /// the ties and the kinds of desks that came too seldom.
    pub fn faults(&self) -> Vec<String> {
        let mut faults: Vec<String> = self
            .kind_faults()
            .chain(self.side_faults())
            .chain(self.tie_faults())
            .chain(self.desk_faults())
            .collect();
        for (call, numbers) in CAN_GIVE {
            for number in 0..=u8::MAX {
                let came = self.count(call, number);
                let can = number == 0 || numbers.contains(&number);
                if can && came < SELDOM {
                    faults.push(format!("{call}: answer {number} came {came} times only"));
                } else if !can && came > 0 {
                    faults.push(format!("{call}: answer {number} came, but cannot"));
                }
            }
        }
        faults
    }
}
