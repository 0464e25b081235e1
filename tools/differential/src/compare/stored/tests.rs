//! The text of stored cases can be refused, and what they say can be found wrong, of the proved call and of the independent one.

use super::{cases, compare, parse, required, Case, Swapped, Tally};

const ACCOUNT: &str = "\
case one
call dca_account
n 3
values 1 2 6
weights 0 1 0 1 0 1 0 1 0
locals 3*7 -> 18 -9 -27
sums 7*7 -> 9 42 4 -18 34 3 0
gives 0
";

/// Two zones of which class 1 has all the weight.
const REPORT: &str = "\
case two
call dca_float_report
n 2
values 0 1
weights x:00010100
classes 4*1
globals 2*3fe0000000000000 -> bff0000000000000 3ff0000000000000
global_sides 2*7 -> 2*0
locals 2*3fe0000000000000 -> 2*bff0000000000000
local_sides 2*7 -> 2*0
pairs 18*3fe0000000000000 -> 2*3fe0000000000000 bff0000000000000 3ff0000000000000 14*3fe0000000000000
pair_sides 18*7 -> 2*7 2*0 14*7
has_pair 9*7 -> 0 1 7*0
gives 0
";

const QUEEN: &str = "\
case three
call dca_grid_queen
rows 1
columns 2
weights 5*7
gives 2
";

const JOINS: &str = "\
case four
call dca_join_table
n 2
values 0 0
categories 0 0
weights 1 0 0 0
table 64*7
gives 5
";

const HOT: &str = "\
case five
call dca_hot_list
n 2
values 1 0
weights 0 1 0 0
zones 7 7 -> 1 0
gives 0
";

/// What is said of a text, be it refused or its cases found wrong.
fn said(text: &str, swapped: Swapped) -> String {
    let cases = parse("text", text);
    let outcome = cases.and_then(|cases| compare(&cases, swapped).map(drop));
    outcome.err().unwrap_or_default()
}

fn must_say(text: &str, swapped: Swapped, part: &str) {
    let said = said(text, swapped);
    assert!(said.contains(part), "{text}\nmust say {part}, says: {said}");
}

/// The text with one thing changed.
fn changed(text: &str, from: &str, to: &str) -> String {
    assert!(text.contains(from), "{from}");
    text.replacen(from, to, 1)
}

const NOTHING: Swapped = Swapped {
    broken: None,
    faulty: None,
};

fn broken(name: &str) -> Swapped<'_> {
    Swapped {
        broken: Some(name),
        faulty: None,
    }
}

fn faulty(name: &str) -> Swapped<'_> {
    Swapped {
        broken: None,
        faulty: Some(name),
    }
}

#[test]
fn good_text() {
    let again = changed(ACCOUNT, "values 1 2 6", "# said above\n\nvalues =");
    let twice = format!("{ACCOUNT}{again}");
    for text in [ACCOUNT, REPORT, QUEEN, JOINS, HOT, &twice] {
        assert_eq!(said(text, NOTHING), "");
    }
}

#[test]
fn bad_lines() {
    for (from, to, part) in [
        ("case one", "cases one", "line 1: `case`"),
        ("case one", "case", "line 1: `case`"),
        ("call dca_account\n", "", "line 2: `call`"),
        ("dca_account", "dca_accounts", "line 2: no such call"),
        ("n 3\n", "", "line 3: `n` must"),
        ("n 3", "n -3", "line 3: not a number"),
        ("n 3", "n 3 3", "line 3: not a number"),
        ("values", "value", "line 4: `values` must"),
        ("weights", "classes", "line 5: `weights` must"),
        ("gives 0", "rows 0\ngives 0", "line 8: the call has no such"),
        ("gives 0", "gives 256", "line 8: `gives`"),
        ("gives 0", "gives", "line 8: `gives`"),
        ("gives 0", "", "line 1: a case that does not end"),
        ("sums 7*7 -> 9 42 4 -18 34 3 0\n", "", "line 7: `sums` must"),
    ] {
        must_say(&changed(ACCOUNT, from, to), NOTHING, part);
    }
    must_say("gives 0", NOTHING, "line 1: a case has");
    let unended = changed(ACCOUNT, "gives 0\n", "") + ACCOUNT;
    must_say(&unended, NOTHING, "line 8: the call has no such");
}

#[test]
fn bad_lists() {
    for (from, to, part) in [
        ("2 6", "2 six", "line 4: six cannot"),
        ("2 6", "2 3000000000", "line 4: 3000000000 cannot"),
        ("2 6", "2 x:06", "line 4: x:06 cannot"),
        ("2 6", "2 6 -> 1 2 6", "line 4: -> cannot"),
        ("1 2 6", "=", "line 4: the case before"),
        ("0 1 0", "0 256 0", "line 5: 256 cannot"),
        ("0 1 0", "0 -1 0", "line 5: -1 cannot"),
        ("0 1 0", "x:00010", "line 5: x:00010 cannot"),
        ("0 1 0", "x:+1", "line 5: x:+1 cannot"),
        ("3*7", "~3", "line 6: ~3 cannot"),
        ("3*7", "*7", "line 6: *7 cannot"),
        ("3*7", "3*", "line 6: 3* cannot"),
        ("3*7", "0*7", "line 6: 0*7 cannot"),
        ("3*7", "100001*7", "line 6: 100001*7 cannot"),
        ("18 -9 -27", "18 -9", "line 6: not as many"),
        ("7*7 ->", "7*7 -> 7*7 ->", "line 7: -> cannot"),
    ] {
        must_say(&changed(ACCOUNT, from, to), NOTHING, part);
    }
    let short = changed(REPORT, "3ff0000000000000", "3ff000000000000");
    must_say(&short, NOTHING, "line 7: 3ff000000000000 cannot");
    let stored = format!("{ACCOUNT}{}", changed(ACCOUNT, "3*7 -> 18 -9 -27", "="));
    must_say(&stored, NOTHING, "line 14: the case before");
}

#[test]
fn wrong_numbers() {
    let text = changed(ACCOUNT, "gives 0", "gives 3");
    must_say(&text, NOTHING, "proved answers 0, expected 3");
    let part = "independent answers 0, expected 2";
    must_say(QUEEN, broken("queen-counts"), part);
    let part = "proved answers 4, expected 5";
    must_say(JOINS, faulty("diagonal-as-four"), part);
}

#[test]
fn wrong_entries() {
    let text = changed(ACCOUNT, "18 -9 -27", "18 -9 -26");
    must_say(&text, NOTHING, "locals: entry 2 of 3: proved, expected");
    let part = "locals: entry 2 of 3: independent, expected";
    must_say(ACCOUNT, broken("last-local"), part);
    let part = "sums: entry 7 of 7: proved, expected";
    must_say(ACCOUNT, faulty("beyond-end"), part);
}

#[test]
fn wrong_kept_entries() {
    let kept = "14*3fe0000000000000";
    let text = changed(REPORT, kept, &format!("0000000000000000 13{}", &kept[2..]));
    must_say(&text, NOTHING, "pairs: entry 4 of 18: proved, expected");
    let part = "pairs: entry 0 of 18: independent, expected";
    must_say(REPORT, broken("weightless"), part);
    let part = "pairs: entry 0 of 18: proved, expected";
    must_say(REPORT, faulty("weightless-zeros"), part);
    let part = "pair_sides: entry 0 of 18: independent, expected";
    must_say(REPORT, broken("weightless-sides"), part);
    let part = "pair_sides: entry 0 of 18: proved, expected";
    must_say(REPORT, faulty("side-of-weightless"), part);
    let text = changed(ACCOUNT, " -> 9 42 4 -18 34 3 0", "");
    must_say(&text, NOTHING, "sums: entry 0 of 7: proved, expected");
    let text = changed(QUEEN, "5*7", "5*7 -> 4*7 8");
    must_say(&text, NOTHING, "weights: entry 4 of 5: proved, expected");
    let part = "values: changed, though only read: entry 0 of 2: proved";
    must_say(HOT, faulty("values-sorted"), part);
}

/// In every case of the files another number is found, and each list that is no more said to change.
#[test]
fn whole_outcomes() {
    for mut case in cases().expect("the files are read") {
        let place = case.place();
        let is_found = |case: &Case| case.compare(&mut Tally::default(), NOTHING).is_err();
        assert!(!is_found(&case), "{place}");
        for k in 0..case.arguments.len() {
            let line = case.arguments[k];
            if let Some((before, _)) = line.rest.split_once(" ->") {
                case.arguments[k].rest = before;
                assert!(is_found(&case), "{place}, {}", line.word);
                case.arguments[k] = line;
            }
        }
        case.gives += 1;
        assert!(is_found(&case), "{place}");
    }
}

#[test]
fn required_cases() {
    let cases = cases().expect("the files are read");
    let one_less = |name: &str| {
        let others = cases.iter().filter(|case| case.name != name);
        required::among(others)
    };
    assert_eq!(one_less(""), Ok(()));
    for (name, call) in [
        ("on-the-circle", "dca_gabriel"),
        ("left-out-hot-list", "dca_hot_list"),
        ("nothing-left", "dca_account"),
        ("desks-falling", "dca_rank"),
        ("desk-4-and-shuffle", "dca_rank"),
    ] {
        let said = one_less(name).unwrap_err();
        assert!(said.contains(&format!("{name} of {call}")), "{said}");
    }
}
