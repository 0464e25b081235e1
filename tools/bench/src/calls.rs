//! The proved calls over slices, with the arguments of the independent ones, so that either can be measured.
//!
//! Each function of `cases` lends a call its lists and answers a closure that makes the call once.

use differential::RANK_COUNTS;

/// Each call over slices, of those that `raw` declares.
macro_rules! over_slices {
    ($($name:ident = $call:ident [$($number:ident: $kind:ty),*]
        [$($input:ident: $in_kind:ty),*] [$($output:ident: $out_kind:ty),*];)*) => {
        $(#[allow(clippy::too_many_arguments)]
        pub fn $name($($number: $kind,)* $($input: &[$in_kind],)* $($output: &mut [$out_kind]),*) -> u8 {
            // SAFETY: each list is told with its length.
            unsafe {
                raw::$call(
                    $($number,)*
                    $($input.as_ptr(), $input.len(),)*
                    $($output.as_mut_ptr(), $output.len()),*
                )
            }
        })*
    };
}

/// The declarations of the calls of a copy that build.rs makes, which have something in front of their names.
#[cfg(before)]
macro_rules! declare {
    ($front:literal; $($name:ident = $call:ident [$($number:ident: $kind:ty),*]
        [$($input:ident: $in_kind:ty),*] [$($output:ident: $out_kind:ty),*];)*) => {
        extern "C" {
            $(#[link_name = concat!($front, stringify!($call))]
            pub fn $call(
                $($number: $kind,)*
                $($input: *const $in_kind, _: usize,)*
                $($output: *mut $out_kind, _: usize),*
            ) -> u8;)*
        }
    };
}

/// Every call with its numbers, the lists that are read and those that are lent.
macro_rules! every_call {
    ($make:ident $($front:literal)?) => {
        $make! {
            $($front;)?
            account = dca_account [n: usize] [values: i32, weights: u8] [locals: i64, sums: i64];
            class_account = dca_class_account [n: usize] [values: i32, weights: u8, classes: u8] [rows: i64, locals: i64];
            float_report = dca_float_report [n: usize] [values: i32, weights: u8, classes: u8]
                [globals: f64, global_sides: u8, locals: f64, local_sides: u8, pairs: f64, pair_sides: u8, has_pair: u8];
            nearest = dca_nearest [p: i64, q: i64] [] [out: f64, side: u8];
            hot_list = dca_hot_list [n: usize] [values: i32, weights: u8] [zones: u8];
            rank = dca_rank [n: usize] [values: i32, weights: u8, shuffles: u8, desks: u8] [counts: u64];
            join_table = dca_join_table [n: usize] [values: i32, categories: u8, weights: u8] [table: i64];
            gabriel = dca_gabriel [n: usize] [places: i32] [weights: u8];
            bands = dca_bands [n: usize] [places: i32, bands: u32] [classes: u8];
            grid_rook = dca_grid_rook [rows: usize, columns: usize] [] [weights: u8];
            grid_bishop = dca_grid_bishop [rows: usize, columns: usize] [] [weights: u8];
            grid_queen = dca_grid_queen [rows: usize, columns: usize] [] [weights: u8];
            read = dca_read [] [image: u8]
                [values: i32, categories: u8, weights: u8, places: i32, bands: u32, shuffles: u8, counts: u64];
            write = dca_write []
                [values: i32, categories: u8, weights: u8, places: i32, bands: u32, shuffles: u8, counts: u64]
                [out: u8, length: u64];
            report = dca_report [] [image: u8] [text: u8, length: u64];
        }
    };
}

/// The rank as it was before request A.9, when it took no desks.
#[cfg(before)]
macro_rules! rank_without_desks {
    ($make:ident $($front:literal)?) => {
        $make! {
            $($front;)?
            rank = dca_rank [n: usize] [values: i32, weights: u8, shuffles: u8] [counts: u64];
        }
    };
}

/// The proved calls.
pub mod proved {
    use dca::raw;

    every_call!(over_slices);
}

/// The copies of the archive and of an earlier one that build.rs makes.
#[cfg(before)]
mod copies {
    macro_rules! copies {
        ($($name:ident = $front:literal;)*) => {
            $(pub mod $name {
                mod raw {
                    every_call!(declare $front);
                }

                every_call!(over_slices);

                /// What an archive from before request A.9 has in the place of the call above; else it is not called.
                #[allow(dead_code)]
                pub mod without_desks {
                    #[allow(clashing_extern_declarations)]
                    mod raw {
                        rank_without_desks!(declare $front);
                    }

                    rank_without_desks!(over_slices);
                }
            })*
        };
    }

    copies! {
        now16 = "now16_";
        before16 = "before16_";
        now32 = "now32_";
        before32 = "before32_";
        now64 = "now64_";
        before64 = "before64_";
        now128 = "now128_";
        before128 = "before128_";
    }
}

/// All the calls, as one place has them.
#[derive(Clone, Copy)]
pub struct Calls {
    pub account: cases::Account,
    pub class_account: cases::ClassAccount,
    pub float_report: cases::FloatReport,
    pub nearest: cases::Nearest,
    pub hot_list: cases::HotList,
    pub rank: cases::Rank,
    pub join_table: cases::JoinTable,
    pub gabriel: cases::Gabriel,
    pub bands: cases::Bands,
    pub grid_rook: cases::Grid,
    pub grid_bishop: cases::Grid,
    pub grid_queen: cases::Grid,
    pub read: cases::Read,
    pub write: cases::Write,
    pub report: cases::Report,
}

macro_rules! calls_of {
    ($place:ident) => {
        Calls {
            account: $place::account,
            class_account: $place::class_account,
            float_report: $place::float_report,
            nearest: $place::nearest,
            hot_list: $place::hot_list,
            rank: $place::rank,
            join_table: $place::join_table,
            gabriel: $place::gabriel,
            bands: $place::bands,
            grid_rook: $place::grid_rook,
            grid_bishop: $place::grid_bishop,
            grid_queen: $place::grid_queen,
            read: $place::read,
            write: $place::write,
            report: $place::report,
        }
    };
}

pub const PROVED: Calls = calls_of!(proved);
pub const INDEPENDENT: Calls = calls_of!(differential);

/// Where functions begin at multiples of a number: now and before.
pub struct Placed {
    pub at: usize,
    pub now: Calls,
    /// With the arguments that the calls have now.
    before: Calls,
    /// With those that it had before request A.9: the desks that it is lent are dropped, and the counts of all rows stand as desk 0's.
    rank_without_desks: cases::Rank,
}

impl Placed {
    /// The earlier calls, each with the arguments of its archive.
    pub fn before(&self) -> Calls {
        let rank = if takes_desks(self.before.rank) {
            self.before.rank
        } else {
            self.rank_without_desks
        };
        Calls {
            rank,
            ..self.before
        }
    }
}

/// Whether the archive is one from after request A.9: an earlier rank takes the list of one desk for counts, which are too few.
fn takes_desks(rank: cases::Rank) -> bool {
    let mut counts = [0; RANK_COUNTS];
    let number = rank(2, &[0, 1], &[0, 1, 1, 0], &[0, 1], &[0], &mut counts);
    assert!([0, 2].contains(&number), "the rank of one shuffle");
    number == 0
}

#[cfg(before)]
macro_rules! placed {
    ($at:literal $now:ident $before:ident) => {
        Placed {
            at: $at,
            now: calls_of!($now),
            before: calls_of!($before),
            rank_without_desks: |n, values, weights, shuffles, _, counts| {
                let (of_all, _) = counts.split_at_mut(3);
                $before::without_desks::rank(n, values, weights, shuffles, of_all)
            },
        }
    };
}

/// A pair for each placement, if build.rs was told of an earlier archive.
#[cfg(before)]
pub const NOW_AND_BEFORE: &[Placed] = {
    use copies::{before128, before16, before32, before64, now128, now16, now32, now64};
    &[
        placed!(16 now16 before16),
        placed!(32 now32 before32),
        placed!(64 now64 before64),
        placed!(128 now128 before128),
    ]
};
#[cfg(not(before))]
pub const NOW_AND_BEFORE: &[Placed] = &[];

pub mod cases {
    use crate::input::{Input, Refused};
    use differential::{RANK_COUNTS, SUMS, TEXT};
    use std::hint::black_box;

    pub type Case<'a> = Box<dyn FnMut() + 'a>;

    pub type Account = fn(usize, &[i32], &[u8], &mut [i64], &mut [i64]) -> u8;
    pub type ClassAccount = fn(usize, &[i32], &[u8], &[u8], &mut [i64], &mut [i64]) -> u8;
    #[rustfmt::skip]
    pub type FloatReport = fn(
        usize, &[i32], &[u8], &[u8], &mut [f64], &mut [u8], &mut [f64], &mut [u8], &mut [f64], &mut [u8], &mut [u8],
    ) -> u8;
    pub type Nearest = fn(i64, i64, &mut [f64], &mut [u8]) -> u8;
    pub type HotList = fn(usize, &[i32], &[u8], &mut [u8]) -> u8;
    pub type Rank = fn(usize, &[i32], &[u8], &[u8], &[u8], &mut [u64]) -> u8;
    pub type JoinTable = fn(usize, &[i32], &[u8], &[u8], &mut [i64]) -> u8;
    pub type Gabriel = fn(usize, &[i32], &mut [u8]) -> u8;
    pub type Bands = fn(usize, &[i32], &[u32], &mut [u8]) -> u8;
    pub type Grid = fn(usize, usize, &mut [u8]) -> u8;
    #[rustfmt::skip]
    pub type Read = fn(
        &[u8], &mut [i32], &mut [u8], &mut [u8], &mut [i32], &mut [u32], &mut [u8], &mut [u64],
    ) -> u8;
    #[rustfmt::skip]
    pub type Write = fn(
        &[i32], &[u8], &[u8], &[i32], &[u32], &[u8], &[u64], &mut [u8], &mut [u64],
    ) -> u8;
    pub type Report = fn(&[u8], &mut [u8], &mut [u64]) -> u8;

    /// A case: the call on the input, whose lent lists live as long as the closure.
    macro_rules! case {
        ($name:ident, $kind:ty, $input:ident, [$($number:expr),*], [$($given:expr),*], [$($lent:ident = $list:expr),*]) => {
            pub fn $name($input: &Input, call: $kind) -> Case<'_> {
                $(let mut $lent = $list;)*
                Box::new(move || {
                    let number = call(
                        $(black_box($number),)*
                        $(black_box(&$given),)*
                        $(black_box(&mut $lent)),*
                    );
                    assert_eq!(number, 0, stringify!($name));
                })
            }
        };
    }

    case!(
        account,
        Account,
        input,
        [input.n],
        [input.values, input.weights],
        [locals = vec![0; input.n], sums = [0; SUMS]]
    );
    case!(
        class_account,
        ClassAccount,
        input,
        [input.n],
        [input.values, input.weights, input.classes],
        [rows = [0; 27], locals = vec![0; 9 * input.n]]
    );
    case!(
        float_report,
        FloatReport,
        input,
        [input.n],
        [input.values, input.weights, input.classes],
        [
            globals = [0.0; 2],
            global_sides = [0; 2],
            locals = vec![0.0; input.n],
            local_sides = vec![0; input.n],
            pairs = [0.0; 18],
            pair_sides = [0; 18],
            has_pair = [0; 9]
        ]
    );
    case!(
        hot_list,
        HotList,
        input,
        [input.n],
        [input.values, input.weights],
        [zones = vec![0; input.n]]
    );
    case!(
        rank,
        Rank,
        input,
        [input.n],
        [input.values, input.weights, input.shuffles, input.desks],
        [counts = [0; RANK_COUNTS]]
    );
    case!(
        join_table,
        JoinTable,
        input,
        [input.n],
        [input.values, input.categories, input.weights],
        [table = [0; 64]]
    );
    case!(
        gabriel,
        Gabriel,
        input,
        [input.n],
        [input.places],
        [weights = vec![0; input.n * input.n]]
    );
    case!(
        bands,
        Bands,
        input,
        [input.n],
        [input.places, input.bands],
        [classes = vec![0; input.n * input.n]]
    );
    case!(
        read,
        Read,
        input,
        [],
        [input.image],
        [
            values = vec![0; 64],
            categories = vec![0; 64],
            weights = vec![0; 4096],
            places = vec![0; 128],
            bands = vec![0; 8],
            shuffles = vec![0; 31_936],
            counts = [0; 6]
        ]
    );
    case!(
        report,
        Report,
        input,
        [],
        [input.image],
        [text = vec![0; TEXT], length = [0]]
    );

    pub fn write(input: &Input, call: Write) -> Case<'_> {
        let lent = input.buffers();
        let counts = input.counts();
        let (mut out, mut length) = (vec![0; 44_908], [0]);
        Box::new(move || {
            let number = call(
                black_box(&lent.values),
                black_box(&lent.categories),
                black_box(&lent.weights),
                black_box(&lent.places),
                black_box(&lent.bands),
                black_box(&lent.shuffles),
                black_box(&counts),
                black_box(&mut out),
                black_box(&mut length),
            );
            assert_eq!(number, 0, "write");
        })
    }

    /// The grid of 8 rows and 8 columns.
    pub fn grid<'a>(call: Grid) -> Case<'a> {
        let mut weights = vec![0; 4096];
        Box::new(move || {
            let number = call(black_box(8), black_box(8), black_box(&mut weights));
            assert_eq!(number, 0, "grid");
        })
    }

    /// The report of an image that is refused.
    pub fn refused(input: &Refused, call: Report) -> Case<'_> {
        let (mut text, mut length) = (vec![0; TEXT], [0]);
        Box::new(move || {
            let image = black_box(&input.image);
            let number = call(image, black_box(&mut text), black_box(&mut length));
            assert_eq!(number, input.number, "refused report");
        })
    }

    /// All the ratios, one after the other.
    pub fn nearest(ratios: &[(i64, i64)], call: Nearest) -> Case<'_> {
        let (mut out, mut side) = ([0.0], [0]);
        Box::new(move || {
            for &(p, q) in ratios {
                let (out, side) = (black_box(&mut out), black_box(&mut side));
                let number = call(black_box(p), black_box(q), out, side);
                assert_eq!(number, 0, "nearest");
            }
        })
    }
}
