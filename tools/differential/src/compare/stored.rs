//! Stored cases: arguments of a call, and the outcome that the proved call and the independent one must both have.
//! cases/README.md says how they are written.

use super::calls::{self, Comparison, Outcome, Run};
use super::desks;
use super::draw::Draw;
use super::left_out;
use super::lent::Lent;
use super::required;
use super::tally::Tally;
use super::ties;
use super::written::{entries, Written};
use super::Swapped;
use std::str::FromStr;

#[cfg(test)]
mod tests;

pub const FILES: [(&str, &str); 6] = [
    ("cases/jobs.txt", include_str!("../../cases/jobs.txt")),
    ("cases/floats.txt", include_str!("../../cases/floats.txt")),
    ("cases/sides.txt", include_str!("../../cases/sides.txt")),
    (
        "cases/networks.txt",
        include_str!("../../cases/networks.txt"),
    ),
    ("cases/images.txt", include_str!("../../cases/images.txt")),
    ("cases/reports.txt", include_str!("../../cases/reports.txt")),
];

/// The stored cases of all files. A text that cannot be read, or that does not fit its call, is said with its file and line.
pub fn cases() -> Result<Vec<Case<'static>>, String> {
    let mut all = Vec::new();
    for (file, text) in FILES {
        all.extend(parse(file, text)?);
    }
    required::among(all.iter())?;
    Ok(all)
}

/// Compares the stored cases up to the first difference, which is said with its place.
pub fn compare(cases: &[Case], swapped: Swapped) -> Result<Tally, String> {
    let mut tally = Tally::default();
    for case in cases {
        let outcome = case.compare(&mut tally, swapped);
        outcome.map_err(|what| format!("{}: {what}", case.place()))?;
    }
    Ok(tally)
}

/// A line: where it stands, its first word, and what follows that.
#[derive(Clone, Copy)]
struct Line<'a> {
    number: usize,
    word: &'a str,
    rest: &'a str,
}

pub struct Case<'a> {
    pub file: &'a str,
    pub name: &'a str,
    pub call: &'a str,
    /// The number of the refusal, 0 where there is none.
    pub gives: u8,
    /// The lines of `case`, `call` and `gives`.
    first: usize,
    second: usize,
    last: usize,
    arguments: Vec<Line<'a>>,
}

/// The lines that are neither empty nor a comment.
fn lines(text: &str) -> impl Iterator<Item = Line<'_>> {
    let trimmed = text.lines().map(str::trim).zip(1..);
    let lines = trimmed.filter(|(line, _)| !line.is_empty() && !line.starts_with('#'));
    lines.map(|(line, number)| {
        let (word, rest) = line.split_once(' ').unwrap_or((line, ""));
        let rest = rest.trim();
        Line { number, word, rest }
    })
}

fn at(file: &str, line: usize, what: &str) -> String {
    format!("{file}, line {line}: {what}")
}

/// The cases of a file's text, each of which fits its call.
pub fn parse<'a>(file: &'a str, text: &'a str) -> Result<Vec<Case<'a>>, String> {
    let mut cases: Vec<Case> = Vec::new();
    let mut open = Vec::new();
    for line in lines(text) {
        open.push(line);
        if line.word == "gives" {
            let case = Case::of_lines(file, &open, cases.last());
            let case = case.map_err(|(line, what)| at(file, line, what))?;
            drop(case.comparison()?);
            cases.push(case);
            open.clear();
        }
    }
    let unended = "a case that does not end with `gives`";
    let first = open.first();
    first.map_or(Ok(cases), |line| Err(at(file, line.number, unended)))
}

impl<'a> Case<'a> {
    /// The case of these lines, of which the last is `gives`; or a line, and what is wrong with it.
    fn of_lines(
        file: &'a str,
        lines: &[Line<'a>],
        before: Option<&Self>,
    ) -> Result<Self, (usize, &'static str)> {
        let [head, call, arguments @ .., gives] = lines else {
            return Err((lines[0].number, "a case has `case`, `call` and `gives`"));
        };
        if head.word != "case" || head.rest.is_empty() {
            return Err((head.number, "`case` and a name must be here"));
        }
        if call.word != "call" || call.rest.is_empty() {
            return Err((call.number, "`call` and a name must be here"));
        }
        let mut arguments = arguments.to_vec();
        for line in &mut arguments {
            if line.rest == "=" {
                let rest = before.and_then(|case| case.read_before(line.word));
                line.rest = rest.ok_or((line.number, "the case before has no such list"))?;
            }
        }
        let number = gives.rest.parse();
        Ok(Case {
            file,
            name: head.rest,
            call: call.rest,
            gives: number.map_err(|_| (gives.number, "`gives` wants a number up to 255"))?,
            first: head.number,
            second: call.number,
            last: gives.number,
            arguments,
        })
    }

    /// The text of a list that was only read.
    fn read_before(&self, word: &str) -> Option<&'a str> {
        let line = self.arguments.iter().find(|line| line.word == word)?;
        (!line.rest.contains("->")).then_some(line.rest)
    }

    /// Whether the case has this line, word for word.
    pub fn has(&self, line: &str) -> bool {
        let line = line.split_once(' ').unwrap_or((line, ""));
        let mut lines = self.arguments.iter();
        lines.any(|has| line == (has.word, has.rest))
    }

    /// The lists that the call changes, as they are written.
    pub fn changes(&self) -> impl Iterator<Item = String> + '_ {
        let lines = self.arguments.iter();
        let changed = lines.filter(|line| line.rest.contains("->"));
        changed.map(|line| format!("{} {}", line.word, line.rest))
    }

    /// Where it stands, and its name.
    pub fn place(&self) -> String {
        format!("{}, line {}, {}", self.file, self.first, self.name)
    }

    /// Reads the arguments, as the call has them.
    fn comparison(&self) -> Result<Comparison, String> {
        let call = calls::STORED.iter().find(|(name, _)| *name == self.call);
        let (_, stored) = call.ok_or_else(|| at(self.file, self.second, "no such call"))?;
        stored(&mut Arguments {
            case: self,
            rest: self.arguments.iter(),
            draw: Draw::new(0, self.first as u64),
        })
    }

    /// Makes both calls, and holds both against what the case says.
    pub fn compare(&self, tally: &mut Tally, swapped: Swapped) -> Outcome {
        self.comparison()?(&mut Run {
            tally,
            swapped,
            expected: Some(self.gives),
            kinds: left_out::NONE,
            ties: ties::NONE,
            desks: desks::NONE,
        })
    }
}

/// The arguments of a case, which a call takes in its order.
pub struct Arguments<'a> {
    case: &'a Case<'a>,
    rest: std::slice::Iter<'a, Line<'a>>,
    /// For the guards.
    draw: Draw,
}

impl<'a> Arguments<'a> {
    fn at(&self, line: usize, what: &str) -> String {
        at(self.case.file, line, what)
    }

    fn next(&mut self, word: &str) -> Result<&'a Line<'a>, String> {
        let line = self.rest.next();
        if let Some(line) = line.filter(|line| line.word == word) {
            return Ok(line);
        }
        let number = line.map_or(self.case.last, |line| line.number);
        Err(self.at(number, &format!("`{word}` must be here")))
    }

    fn entries<T: Written>(&self, line: &Line, text: &str) -> Result<Vec<T>, String> {
        let read = entries(text);
        read.map_err(|word| self.at(line.number, &format!("{word} cannot be read")))
    }

    /// A plain number.
    pub fn number<T: FromStr>(&mut self, word: &str) -> Result<T, String> {
        let line = self.next(word)?;
        let number = line.rest.parse();
        number.map_err(|_| self.at(line.number, "not a number of this argument"))
    }

    /// A list that is only read.
    pub fn read<T: Written>(&mut self, word: &str) -> Result<Lent<T>, String> {
        let line = self.next(word)?;
        let list = self.entries(line, line.rest)?;
        Ok(Lent::stored(&mut self.draw, &list, &list))
    }

    /// A list that the call may store to.
    pub fn lent<T: Written>(&mut self, word: &str) -> Result<Lent<T>, String> {
        let line = self.next(word)?;
        let (before, after) = line.rest.split_once("->").unwrap_or((line.rest, line.rest));
        let before = self.entries(line, before)?;
        let after = self.entries(line, after)?;
        if before.len() != after.len() {
            return Err(self.at(line.number, "not as many entries after as before"));
        }
        Ok(Lent::stored(&mut self.draw, &before, &after))
    }

    /// No argument may be left.
    pub fn end(&mut self) -> Result<(), String> {
        match self.rest.next() {
            Some(line) => Err(self.at(line.number, "the call has no such argument here")),
            None => Ok(()),
        }
    }
}
