//! The calls as the archive has them: each list is a pointer and a length. What each one does, and what it refuses, is said in
//! include/dca.h.
#![allow(clippy::too_many_arguments)]

extern "C" {
    pub fn dca_account(
        n: usize,
        values: *const i32, values_len: usize,
        weights: *const u8, weights_len: usize,
        locals: *mut i64, locals_len: usize,
        sums: *mut i64, sums_len: usize,
    ) -> u8;

    pub fn dca_class_account(
        n: usize,
        values: *const i32, values_len: usize,
        weights: *const u8, weights_len: usize,
        classes: *const u8, classes_len: usize,
        rows: *mut i64, rows_len: usize,
        class_locals: *mut i64, class_locals_len: usize,
    ) -> u8;

    pub fn dca_float_report(
        n: usize,
        values: *const i32, values_len: usize,
        weights: *const u8, weights_len: usize,
        classes: *const u8, classes_len: usize,
        globals: *mut f64, globals_len: usize,
        global_sides: *mut u8, global_sides_len: usize,
        locals: *mut f64, locals_len: usize,
        local_sides: *mut u8, local_sides_len: usize,
        pairs: *mut f64, pairs_len: usize,
        pair_sides: *mut u8, pair_sides_len: usize,
        has_pair: *mut u8, has_pair_len: usize,
    ) -> u8;

    pub fn dca_nearest(
        p: i64, q: i64,
        out: *mut f64, out_len: usize,
        side: *mut u8, side_len: usize,
    ) -> u8;

    pub fn dca_hot_list(
        n: usize,
        values: *const i32, values_len: usize,
        weights: *const u8, weights_len: usize,
        zones: *mut u8, zones_len: usize,
    ) -> u8;

    pub fn dca_rank(
        n: usize,
        values: *const i32, values_len: usize,
        weights: *const u8, weights_len: usize,
        shuffles: *const u8, shuffles_len: usize,
        desks: *const u8, desks_len: usize,
        counts: *mut u64, counts_len: usize,
    ) -> u8;

    pub fn dca_join_table(
        n: usize,
        values: *const i32, values_len: usize,
        categories: *const u8, categories_len: usize,
        weights: *const u8, weights_len: usize,
        table: *mut i64, table_len: usize,
    ) -> u8;

    pub fn dca_gabriel(
        n: usize,
        places: *const i32, places_len: usize,
        weights: *mut u8, weights_len: usize,
    ) -> u8;

    pub fn dca_bands(
        n: usize,
        places: *const i32, places_len: usize,
        bands: *const u32, bands_len: usize,
        classes: *mut u8, classes_len: usize,
    ) -> u8;

    pub fn dca_grid_rook(rows: usize, columns: usize, weights: *mut u8, weights_len: usize) -> u8;
    pub fn dca_grid_bishop(rows: usize, columns: usize, weights: *mut u8, weights_len: usize) -> u8;
    pub fn dca_grid_queen(rows: usize, columns: usize, weights: *mut u8, weights_len: usize) -> u8;

    pub fn dca_read(
        image: *const u8, image_len: usize,
        values: *mut i32, values_len: usize,
        categories: *mut u8, categories_len: usize,
        weights: *mut u8, weights_len: usize,
        places: *mut i32, places_len: usize,
        bands: *mut u32, bands_len: usize,
        shuffles: *mut u8, shuffles_len: usize,
        counts: *mut u64, counts_len: usize,
    ) -> u8;

    pub fn dca_write(
        values: *const i32, values_len: usize,
        categories: *const u8, categories_len: usize,
        weights: *const u8, weights_len: usize,
        places: *const i32, places_len: usize,
        bands: *const u32, bands_len: usize,
        shuffles: *const u8, shuffles_len: usize,
        counts: *const u64, counts_len: usize,
        out: *mut u8, out_len: usize,
        length: *mut u64, length_len: usize,
    ) -> u8;

    pub fn dca_report(
        image: *const u8, image_len: usize,
        text: *mut u8, text_len: usize,
        length: *mut u64, length_len: usize,
    ) -> u8;
}
