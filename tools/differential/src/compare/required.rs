//! Document 01's run-only cases, its figures (g) to (j) with their sides, and cases of requests A.2, A.6, A.7, A.9 and A.10. Each must be
//! among the stored ones.

use super::stored::Case;

/// Name, call, number, and a line of the case.
const REQUIRED: [(&str, &str, u8, &str); 77] = [
    (
        "example-2",
        "dca_account",
        0,
        "sums 7*7 -> 1654 4572 14 -9416 1864 8 0",
    ),
    ("n-1", "dca_account", 1, "n 1"),
    ("n-65", "dca_account", 1, "n 65"),
    ("two-zones", "dca_account", 0, "n 2"),
    ("request-a4", "dca_account", 0, "n 64"),
    ("request-a4", "dca_rank", 0, "counts 12*7 -> 271 0 228 9*0"),
    ("value-100000", "dca_account", 0, "values 1 100000 6"),
    ("value-100001", "dca_account", 3, "values 1 100001 6"),
    ("weight-9", "dca_account", 0, "weights 0 1 0 1 0 9 0 1 0"),
    ("weight-10", "dca_account", 4, "weights 0 1 0 1 0 10 0 1 0"),
    ("equal", "dca_account", 7, "values 4 4 4"),
    (
        "on-the-circle",
        "dca_gabriel",
        0,
        "weights 9*7 -> 0 0 1 0 0 1 1 1 0",
    ),
    (
        "left-out-none",
        "dca_account",
        0,
        "sums 7*7 -> 12 56 10 -64 76 4 0",
    ),
    (
        "left-out-one",
        "dca_account",
        0,
        "locals 4*7 -> 18 0 -9 -27",
    ),
    (
        "left-out-first",
        "dca_account",
        0,
        "locals 4*7 -> 0 18 -9 -27",
    ),
    (
        "left-out-last",
        "dca_account",
        0,
        "locals 4*7 -> 18 -9 -27 0",
    ),
    (
        "left-out-all-but-two",
        "dca_account",
        0,
        "sums 7*7 -> 1 1 2 -2 2 2 0",
    ),
    (
        "column-only-kept",
        "dca_account",
        0,
        "sums 7*7 -> 9 42 4 -72 52 3 0",
    ),
    (
        "row-only-kept",
        "dca_account",
        0,
        "sums 7*7 -> 9 42 4 -72 52 3 0",
    ),
    ("equal-kept", "dca_account", 7, "values 5 5 5 9"),
    (
        "left-out-value-100001",
        "dca_account",
        3,
        "values 1 2 6 100001",
    ),
    ("left-out-shuffle", "dca_rank", 0, "counts 12*7 -> 10*0 2 0"),
    (
        "left-out-hot-list",
        "dca_hot_list",
        0,
        "zones 5*7 -> 1 2 4 0 3",
    ),
    (
        "not-returned-one",
        "dca_account",
        0,
        "sums 7*7 -> 9 42 4 -18 34 3 1",
    ),
    (
        "not-returned-and-alone",
        "dca_account",
        0,
        "sums 7*7 -> 9 42 4 -18 34 3 1",
    ),
    (
        "not-returned-around",
        "dca_account",
        0,
        "sums 7*7 -> 9 42 4 -18 34 3 4",
    ),
    (
        "not-returned-all",
        "dca_account",
        6,
        "weights 0 1 0 1 0 1 0 1 0",
    ),
    ("nothing-left", "dca_account", 6, "values 1 -2147483648 6 7"),
    (
        "not-returned-equal",
        "dca_account",
        7,
        "values 5 5 -2147483648 9 9",
    ),
    (
        "not-returned-value--2147483647",
        "dca_account",
        3,
        "values 1 -2147483648 -2147483647",
    ),
    (
        "not-returned-weight-10",
        "dca_account",
        4,
        "values 1 2 6 -2147483648",
    ),
    (
        "not-returned-diagonal",
        "dca_account",
        5,
        "values 1 2 6 -2147483648",
    ),
    (
        "not-returned-all",
        "dca_join_table",
        0,
        "table 64*7 -> 64*0",
    ),
    (
        "value-100001",
        "dca_join_table",
        3,
        "values 0 100001 -2147483648",
    ),
    ("not-returned-last", "dca_write", 0, "length 7 -> 62"),
    ("nothing-left", "dca_read", 6, "counts 6*7"),
    ("figure-g", "dca_nearest", 0, "side 7 -> 1"),
    ("figure-h", "dca_nearest", 0, "side 7 -> 2"),
    ("figure-i", "dca_nearest", 0, "side 7 -> 2"),
    ("figure-j", "dca_nearest", 0, "side 7 -> 2"),
    ("zero-over-7", "dca_nearest", 0, "side 7 -> 0"),
    ("tie-inward-negative", "dca_nearest", 0, "side 7 -> 2"),
    ("tie-outward-negative", "dca_nearest", 0, "side 7 -> 1"),
    ("refused-side-kept", "dca_nearest", 18, "side 200"),
    ("long-side", "dca_nearest", 2, "side 7 7"),
    (
        "weightless-sides-kept",
        "dca_float_report",
        0,
        "global_sides 200 201 -> 2*0",
    ),
    (
        "left-out-side",
        "dca_float_report",
        0,
        "local_sides 3*7 2 -> 1 2 1 0",
    ),
    ("short-pair_sides", "dca_float_report", 2, "pair_sides 17*7"),
    ("report", "dca_report", 0, "length 7 -> 355"),
    (
        "ties-by-row-sum",
        "dca_hot_list",
        0,
        "zones 6*7 -> 1 3 2 0 5 4",
    ),
    (
        "ties-of-equal-row-sums",
        "dca_hot_list",
        0,
        "zones 7*7 -> 0 1 2 3 4 6 5",
    ),
    (
        "ties-left-out",
        "dca_hot_list",
        0,
        "zones 9*7 -> 4 7 1 2 6 5 0 3 8",
    ),
    (
        "ties-not-returned",
        "dca_hot_list",
        0,
        "zones 7*7 -> 1 2 4 6 0 3 5",
    ),
    ("ties-by-row-sum", "dca_report", 0, "length 7 -> 299"),
    (
        "request-a4-by-turns",
        "dca_rank",
        0,
        "counts 12*7 -> 68 0 57 72 0 53 69 0 56 62 0 62",
    ),
    (
        "desks-without-rows-or-desks",
        "dca_rank",
        0,
        "counts 12*7 -> 12*0",
    ),
    (
        "desks-of-their-own",
        "dca_rank",
        0,
        "counts 12*7 -> 1 3*0 1 3*0 1 1 0 0",
    ),
    (
        "desks-falling",
        "dca_rank",
        0,
        "counts 12*7 -> 1 4*0 1 0 1 0 1 0 0",
    ),
    ("desks-all-3", "dca_rank", 0, "counts 12*7 -> 9*0 2 1 1"),
    (
        "desks-one-without-rows",
        "dca_rank",
        0,
        "counts 12*7 -> 0 1 1 3*0 2 0 1 0 1 0",
    ),
    (
        "desks-of-others",
        "dca_rank",
        0,
        "counts 12*7 -> 1 3*0 1 0 1 0 2 1 0 0",
    ),
    (
        "desks-of-others",
        "dca_rank",
        0,
        "counts 12*7 -> 0 1 4*0 1 0 2 0 0 2",
    ),
    (
        "desks-left-out",
        "dca_rank",
        0,
        "counts 12*7 -> 0 0 1 2 6*0 2 1",
    ),
    ("desk-4", "dca_rank", 24, "desks 4*4"),
    ("desk-4-first", "dca_rank", 24, "desks 4 0 1 2"),
    ("desk-4-last", "dca_rank", 24, "desks 0 1 2 4"),
    ("desk-4-last-of-499", "dca_rank", 24, "desks 498*3 4"),
    ("desk-255", "dca_rank", 24, "desks 3*0 255"),
    ("desk-4-and-shuffle", "dca_rank", 13, "desks 4 0"),
    ("desk-4-and-equal", "dca_rank", 7, "desks 0 4"),
    ("desks-one-less", "dca_rank", 2, "desks 0 1 2"),
    ("desks-one-more", "dca_rank", 2, "desks 0 1 2 3 0"),
    ("desks-lacking", "dca_rank", 2, "desks"),
    ("desks-for-every-entry", "dca_rank", 2, "desks 12*0"),
    ("desks-without-rows", "dca_rank", 2, "desks 0"),
    ("counts-3", "dca_rank", 2, "counts 3*7"),
    ("counts-13", "dca_rank", 2, "counts 13*7"),
];

/// Says which one is not among the cases.
pub fn among<'a>(cases: impl Iterator<Item = &'a Case<'a>> + Clone) -> Result<(), String> {
    for (name, call, gives, line) in REQUIRED {
        let is_it = |case: &Case| {
            (case.name, case.call, case.gives) == (name, call, gives) && case.has(line)
        };
        if !cases.clone().any(is_it) {
            return Err(format!(
                "no stored case is {name} of {call}, with `{line}` and `gives {gives}`"
            ));
        }
    }
    Ok(())
}
