//! Every call, proved and independent, on the same lent memory: what it takes, what is compared, and what can be swapped in.

use super::broken::{self, Job};
use super::desks::DeskKinds;
use super::left_out::Kinds;
use super::lent::{Lent, Memory};
use super::stored::Arguments;
use super::tally::Tally;
use super::ties::Ties;
use super::{faulty, Swapped};
use dca::raw;
use differential as own;

pub type Outcome = Result<(), String>;

/// A stored case whose arguments are read.
pub type Comparison = Box<dyn FnOnce(&mut Run) -> Outcome>;

/// What one input is compared with.
pub struct Run<'a> {
    pub tally: &'a mut Tally,
    pub swapped: Swapped<'a>,
    /// The number that a stored case says.
    pub expected: Option<u8>,
    /// What a drawn job shows of requests A.6 and A.7.
    pub kinds: Kinds,
    /// What ties it shows, of those that request A.2 settles.
    pub ties: Ties,
    /// What the desks of a drawn rank show of request A.9.
    pub desks: DeskKinds,
}

impl Run<'_> {
    fn wrong_number(&self, proved: u8, own: u8) -> Option<String> {
        let expected = |number| self.expected.filter(|&expected| expected != number);
        if let Some(expected) = expected(proved) {
            return Some(format!("proved answers {proved}, expected {expected}"));
        }
        if let Some(expected) = expected(own) {
            return Some(format!("independent answers {own}, expected {expected}"));
        }
        (proved != own).then(|| format!("proved answers {proved}, independent {own}"))
    }

    fn judge(
        &mut self,
        call: &'static str,
        proved: u8,
        own: u8,
        inputs: &[(&str, &dyn Memory)],
        outputs: &[(&str, &dyn Memory)],
    ) -> Outcome {
        self.tally.add(call, own, &self.kinds);
        self.tally.add_ties(call, own, &self.ties);
        self.tally.add_desks(own, &self.desks);
        if let Some(what) = self.wrong_number(proved, own) {
            return Err(format!("{call}: {what}"));
        }
        let at = |name: &str, what: String| format!("{call} (answer {own}), {name}: {what}");
        for (name, memory) in inputs {
            if let Some(change) = memory.change() {
                return Err(at(name, format!("changed, though only read: {change}")));
            }
        }
        for (name, memory) in outputs {
            if let Some(difference) = memory.unexpected().or_else(|| memory.difference()) {
                return Err(at(name, difference));
            }
            if own != 0 {
                if let Some(change) = memory.change() {
                    return Err(at(name, format!("changed on a refusal: {change}")));
                }
            }
            self.tally.add_sides(call, name, *memory);
        }
        Ok(())
    }
}

/// What is left of a job without the values not returned.
fn left(values: &Lent<i32>, weights: &Lent<u8>) -> Job {
    Job::left(values.own(), weights.own())
}

/// For each call a module with two functions: `compare`, and `stored`, which takes the arguments from a stored case. Arguments have the
/// names of include/dca.h. `stores` and `answers` list the wrong versions of the independent call, by what is wrong with them.
macro_rules! calls {
    ($(
        $name:ident: $call:ident
        numbers($($number:ident: $whole:ty),*)
        reads($($input:ident: $read:ty),*)
        lends($($output:ident: $lent:ty),*)
        independent($right:path)
        stores($($stored:literal: $store:path [$($stored_by:expr),*]),*)
        answers($($answered:literal: $answer:path [$($answered_by:expr),*]),*)
        faulty($($fault:literal: $spoil:path [$($spoiled:ident),*]),*);
    )*) => {
        $(pub mod $name {
            use super::*;

            #[allow(clippy::too_many_arguments)]
            pub fn compare(
                run: &mut Run,
                $($number: $whole,)*
                $($input: &mut Lent<$read>,)*
                $($output: &mut Lent<$lent>),*
            ) -> Outcome {
                // SAFETY: each list is live memory of the length that is told with it.
                #[allow(unused_mut)]
                let mut proved = unsafe {
                    raw::$call(
                        $($number,)*
                        $($input.proved().cast_const(), $input.len(),)*
                        $($output.proved(), $output.len()),*
                    )
                };
                $(if run.swapped.faulty == Some($fault) {
                    proved = $spoil(proved, $($spoiled),*);
                })*
                #[allow(unused_mut)]
                let mut own = $right($($number,)* $($input.own(),)* $($output.own_mut()),*);
                $(if run.swapped.broken == Some($stored) && own == 0 {
                    $store($($stored_by),*);
                })*
                $(if run.swapped.broken == Some($answered) {
                    own = $answer(own, $($answered_by),*);
                })*
                let inputs = [$((stringify!($input), &*$input as &dyn Memory)),*];
                let outputs = [$((stringify!($output), &*$output as &dyn Memory)),*];
                run.judge(stringify!($call), proved, own, &inputs, &outputs)
            }

            pub fn stored(given: &mut Arguments) -> Result<Comparison, String> {
                $(let $number = given.number::<$whole>(stringify!($number))?;)*
                $(let mut $input = given.read::<$read>(stringify!($input))?;)*
                $(let mut $output = given.lent::<$lent>(stringify!($output))?;)*
                given.end()?;
                Ok(Box::new(move |run| {
                    compare(run, $($number,)* $(&mut $input,)* $(&mut $output),*)
                }))
            }
        })*

        type Stored = fn(&mut Arguments) -> Result<Comparison, String>;

        /// The calls by the names that stored cases have for them.
        pub const STORED: &[(&str, Stored)] = &[$((stringify!($call), $name::stored)),*];
    };
}

calls! {
    account: dca_account
        numbers(n: usize)
        reads(values: i32, weights: u8)
        lends(locals: i64, sums: i64)
        independent(own::account)
        stores(
            "last-local": broken::last_local [locals.before()[n - 1], locals.own_mut()],
            "d-of-all": broken::d_of_all [&left(values, weights), locals.own_mut(), sums.own_mut()],
            "column-alone": broken::column_alone [&left(values, weights), locals.own_mut(), sums.own_mut()],
            "row-alone": broken::row_alone [values.own(), weights.own(), locals.own_mut(), sums.own_mut()],
            "mark-in-sum": broken::mark_in_sum [sums.own_mut()]
        )
        answers(
            "seven-of-all": broken::seven_of_all [values.own()],
            "mark-refused": broken::mark_refused [values.own()],
            "four-as-left": broken::four_as_left [values.own(), weights.own()]
        )
        faulty(
            "beyond-end": faulty::beyond_end [sums],
            "count-of-all": faulty::count_of_all [n, sums],
            "missing-as-left-out": faulty::missing_as_left_out [n, sums]
        );

    class_account: dca_class_account
        numbers(n: usize)
        reads(values: i32, weights: u8, classes: u8)
        lends(rows: i64, class_locals: i64)
        independent(own::class_account)
        stores(
            "class-eight": broken::class_eight [
                &left(values, weights), classes.own(), rows.own_mut(), class_locals.own_mut()
            ],
            "sum-of-all": broken::sum_of_all [
                &left(values, weights), classes.own(), rows.own_mut(), class_locals.own_mut()
            ],
            "column-alone-missed": broken::column_alone_missed [
                values.own(), weights.own(), classes.own(), rows.own_mut(), class_locals.own_mut()
            ]
        )
        answers()
        faulty("stored-then-refused": faulty::stored_then_refused [class_locals]);

    float_report: dca_float_report
        numbers(n: usize)
        reads(values: i32, weights: u8, classes: u8)
        lends(globals: f64, global_sides: u8, locals: f64, local_sides: u8, pairs: f64, pair_sides: u8, has_pair: u8)
        independent(own::float_report)
        stores(
            "weightless": broken::weightless [pairs.own_mut(), has_pair.own()],
            "weightless-sides": broken::weightless [pair_sides.own_mut(), has_pair.own()],
            "geary-of-all": broken::geary_of_all [&left(values, weights), globals.own_mut(), global_sides.own_mut()],
            "lonely-kept": broken::lonely_kept [values.own(), weights.own(), globals.own_mut(), global_sides.own_mut()],
            "global-side-of-size": broken::side_of_size [globals.own(), global_sides.own_mut()],
            "local-side-of-size": broken::side_of_size [locals.own(), local_sides.own_mut()],
            "pair-side-of-size": broken::pair_side_of_size [pairs.own(), pair_sides.own_mut(), has_pair.own()]
        )
        answers()
        faulty(
            "weightless-zeros": faulty::weightless_zeros [pairs, has_pair],
            "payload-lost": faulty::payload_lost [pairs, has_pair],
            "side-of-weightless": faulty::side_of_weightless [pair_sides, has_pair],
            "figures-quieted": faulty::figures_quieted [locals],
            "sides-on-refusal": faulty::sides_on_refusal [global_sides],
            "minus-zero": faulty::minus_zero [values, weights, locals],
            "left-out-side-kept": faulty::left_out_side_kept [values, weights, local_sides]
        );

    nearest: dca_nearest
        numbers(p: i64, q: i64)
        reads()
        lends(out: f64, side: u8)
        independent(own::nearest)
        stores(
            "tie-away": broken::tie_away [p, q, out.own_mut(), side.own_mut()],
            "sides-exchanged": broken::sides_exchanged [side.own_mut()],
            "side-of-size": broken::side_of_size [out.own(), side.own_mut()],
            "equal-by-product": broken::equal_by_product [p, q, out.own(), side.own_mut()],
            "side-before-tie": broken::side_before_tie [p, q, out.own(), side.own_mut()]
        )
        answers()
        faulty(
            "nan-quieted": faulty::nan_quieted [out],
            "nan-negated": faulty::nan_negated [out],
            "side-anyway": faulty::side_anyway [p, side],
            "beyond-side": faulty::beyond_end [side]
        );

    hot_list: dca_hot_list
        numbers(n: usize)
        reads(values: i32, weights: u8)
        lends(zones: u8)
        independent(own::hot_list)
        stores(
            "hot-ties": broken::hot_ties [values.own(), weights.own(), zones.own_mut()],
            "ties-by-number": broken::ties_by_number [values.own(), weights.own(), zones.own_mut()],
            "ties-by-smaller": broken::ties_by_smaller [values.own(), weights.own(), zones.own_mut()],
            "ties-by-column": broken::ties_by_column [values.own(), weights.own(), zones.own_mut()],
            "ties-by-both": broken::ties_by_both [values.own(), weights.own(), zones.own_mut()],
            "ties-as-lent": broken::ties_as_lent [values.own(), weights.own(), zones.own_mut()],
            "ties-in-a-byte": broken::ties_in_a_byte [values.own(), weights.own(), zones.own_mut()],
            "left-out-as-zero": broken::left_out_as_zero [values.own(), weights.own(), zones.own_mut()]
        )
        answers("five-as-left": broken::five_as_left [values.own(), weights.own()])
        faulty(
            "values-sorted": faulty::values_sorted [values],
            "left-out-falling": faulty::left_out_falling [values, weights, zones],
            "left-out-by-weight": faulty::left_out_by_weight [values, weights, zones],
            "former-ties": faulty::former_ties [values, weights, zones]
        );

    rank: dca_rank
        numbers(n: usize)
        reads(values: i32, weights: u8, shuffles: u8, desks: u8)
        lends(counts: u64)
        independent(own::rank)
        stores(
            "rank-inverse": broken::rank_inverse [
                &left(values, weights), shuffles.own(), desks.own(), counts.own_mut()
            ],
            "by-place": broken::by_place [&left(values, weights), shuffles.own(), desks.own(), counts.own_mut()],
            "lonely-shuffled": broken::lonely_shuffled [
                values.own(), weights.own(), shuffles.own(), desks.own(), counts.own_mut()
            ],
            "desk-by-place": broken::desk_by_place [&left(values, weights), shuffles.own(), counts.own_mut()],
            "every-desk": broken::every_desk [counts.own_mut()],
            "desk-0-twice": broken::desk_0_twice [counts.own_mut()],
            "less-of-all-first": broken::less_of_all_first [counts.own_mut()]
        )
        answers(
            "desk-before-shuffle": broken::desk_before_shuffle [desks.own()],
            "desk-3-refused": broken::desk_3_refused [desks.own()],
            "desk-4-taken": broken::desk_4_taken [desks.own()],
            "desks-unjudged": broken::desks_unjudged [
                n, values.own(), weights.own(), shuffles.own(), desks.own(), counts.own_mut()
            ]
        )
        faulty(
            "weights-reduced": faulty::weights_reduced [values, weights],
            "desks-sorted": faulty::desks_sorted [desks],
            "desk-as-13": faulty::desk_as_13 [],
            "greater-first": faulty::greater_first [counts],
            "former-counts": faulty::former_counts [counts],
            "beyond-counts": faulty::beyond_end [counts],
            "counted-then-refused": faulty::counted_then_refused [counts],
            "counts-cleared": faulty::counts_cleared [counts]
        );

    join_table: dca_join_table
        numbers(n: usize)
        reads(values: i32, categories: u8, weights: u8)
        lends(table: i64)
        independent(own::join_table)
        stores(
            "transposed": broken::transposed [table.own_mut()],
            "joins-as-lent": broken::joins_as_lent [weights.own(), categories.own(), table.own_mut()]
        )
        answers("table-six": broken::table_six [values.own(), weights.own()])
        faulty("diagonal-as-four": faulty::diagonal_as_four []);

    gabriel: dca_gabriel
        numbers(n: usize)
        reads(places: i32)
        lends(weights: u8)
        independent(own::gabriel)
        stores("on-circle": broken::on_circle [n, places.own(), weights.own_mut()])
        answers()
        faulty("before-start": faulty::before_start [weights]);

    bands: dca_bands
        numbers(n: usize)
        reads(places: i32, bands: u32)
        lends(classes: u8)
        independent(own::bands)
        stores()
        answers("stored-anyway": broken::stored_anyway [classes.own_mut()])
        faulty();

    grid_rook: dca_grid_rook
        numbers(rows: usize, columns: usize)
        reads()
        lends(weights: u8)
        independent(own::grid_rook)
        stores()
        answers("wrapped": broken::wrapped [rows, columns, weights.own()])
        faulty();

    grid_bishop: dca_grid_bishop
        numbers(rows: usize, columns: usize)
        reads()
        lends(weights: u8)
        independent(own::grid_bishop)
        stores("bishop-corner": broken::bishop_corner [rows * columns, weights.own_mut()])
        answers()
        faulty();

    grid_queen: dca_grid_queen
        numbers(rows: usize, columns: usize)
        reads()
        lends(weights: u8)
        independent(own::grid_queen)
        stores()
        answers("queen-counts": broken::queen_counts [rows, columns, weights.own_mut()])
        faulty("refused-at-64": faulty::refused_at_64 [rows, columns]);

    read: dca_read
        numbers()
        reads(image: u8)
        lends(values: i32, categories: u8, weights: u8, places: i32, bands: u32, shuffles: u8, counts: u64)
        independent(own::read)
        stores("unused-cleared": broken::unused_cleared [bands.own_mut(), counts.own()])
        answers(
            "read-seven-of-all": broken::read_seven_of_all [image.own()],
            "read-six-as-listed": broken::read_six_as_listed [image.own()]
        )
        faulty(
            "unused-changed": faulty::unused_changed [shuffles, counts],
            "mark-as-zero": faulty::mark_as_zero [values, counts],
            "joins-reduced": faulty::joins_reduced [values, weights, counts]
        );

    write: dca_write
        numbers()
        reads(values: i32, categories: u8, weights: u8, places: i32, bands: u32, shuffles: u8, counts: u64)
        lends(out: u8, length: u64)
        independent(own::write)
        stores("joins-dropped": broken::joins_dropped [
            values.own(), categories.own(), weights.own(), places.own(), bands.own(), shuffles.own(), counts.own(),
            out.own_mut(), length.own_mut()
        ])
        answers(
            "four-first": broken::four_first [weights.own(), counts.own()],
            "write-seven-of-all": broken::write_seven_of_all [values.own(), counts.own()],
            "write-six-as-lent": broken::write_six_as_lent [weights.own(), counts.own()]
        )
        faulty("length-anyway": faulty::length_anyway [length]);

    report: dca_report
        numbers()
        reads(image: u8)
        lends(text: u8, length: u64)
        independent(own::report)
        stores(
            "local-ties-by-number": broken::local_ties_by_number [image.own(), text.own_mut(), length.own_mut()],
            "local-ties-as-lent": broken::local_ties_as_lent [image.own(), text.own_mut(), length.own_mut()],
            "lower-case": broken::lower_case [text.own_mut(), length.own()],
            "expected-of-all": broken::expected_of_all [image.own(), text.own_mut(), length.own_mut()],
            "missing-said": broken::missing_said [image.own(), text.own_mut(), length.own_mut()],
            "signs-exchanged": broken::signs_exchanged [text.own_mut(), length.own()],
            "sign-spaced": broken::sign_spaced [text.own_mut(), length.own_mut()],
            "weightless-signed": broken::weightless_signed [text.own_mut(), length.own_mut()]
        )
        answers("refused-as-text": broken::refused_as_text [text.own_mut(), length.own_mut()])
        faulty(
            "zero-behind": faulty::zero_behind [text, length],
            "refused-line": faulty::refused_line [text],
            "refused-length": faulty::refused_length [length]
        );
}
