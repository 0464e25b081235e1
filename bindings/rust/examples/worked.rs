//! The worked job of document 01, through every kind of call: prints what bindings/c/example.c prints. Its last zone touches nobody
//! and is left out. Then its first zone sends no value.

use dca::{Buffers, Given, Refusal, Rounded};

const N: usize = 4;
const CATEGORIES_USED: usize = 2;
const VALUES: [i32; N] = [1, 1, 3, 3];
const CATEGORIES: [u8; N] = [0, 0, 1, 1];
#[rustfmt::skip]
const WEIGHTS: [u8; N * N] = [
    0, 3, 0, 0,
    3, 0, 1, 0,
    0, 1, 0, 0,
    0, 0, 0, 0,
];
const PLACES: [i32; 2 * N] = [0, 0, 1, 0, 3, 0, 9, 9];
const BANDS: [u32; 2] = [1, 4];
const SHUFFLES: [u8; 2 * N] = [0, 1, 2, 3, 2, 1, 0, 3];

/// A float by its decimals and by its 64 bits, with the sign of its side right behind them.
fn shown(figure: Rounded) -> String {
    format!("{:.6} ({:016X}{})", figure.float, figure.float.to_bits(), figure.side.sign())
}

fn print_sums(of: &str, sums: dca::Sums) {
    println!(
        "{of}: S {}, M {}, W {}, P {}, G {}, zones kept {} of {N}, not returned {}",
        sums.total, sums.spread, sums.weight, sums.cross, sums.squares, sums.kept, sums.missing
    );
}

fn show_account() -> Result<(), Refusal> {
    let mut locals = [0; N];
    print_sums("account", dca::account(N, &VALUES, &WEIGHTS, &mut locals)?);
    for (zone, local) in locals.iter().enumerate() {
        println!("  zone {zone}: L {local}");
    }
    Ok(())
}

fn print_hot_list(of: &str, values: &[i32; N]) -> Result<(), Refusal> {
    let mut zones = [0; N];
    dca::hot_list(N, values, &WEIGHTS, &mut zones)?;
    println!("{of}: {}", zones.map(|zone| zone.to_string()).join(" "));
    Ok(())
}

/// With the other values every L is 0, so that the row sums of the weights say the order: 3, 4 and 1 at the zones kept.
fn show_hot_list() -> Result<(), Refusal> {
    print_hot_list("hot list", &VALUES)?;
    print_hot_list("hot list where every L is 0", &[1, 2, 3, 3])
}

/// The class of each pair comes from the bands of squared distance.
fn show_float_report() -> Result<(), Refusal> {
    let mut classes = [0; N * N];
    let mut locals = [Rounded::default(); N];
    dca::bands(N, &PLACES, &BANDS, &mut classes)?;
    let report = dca::float_report(N, &VALUES, &WEIGHTS, &classes, &mut locals)?;
    let of = |pair: dca::Pair| format!("Moran {}, Geary {}", shown(pair.moran), shown(pair.geary));
    println!("float report: {}", of(report.globals));
    for (zone, local) in locals.iter().enumerate() {
        println!("  zone {zone}: local Moran {}", shown(*local));
    }
    for (k, pair) in report.classes.iter().enumerate().take(BANDS.len() + 1) {
        match pair {
            Some(pair) => println!("  class {k}: {}", of(*pair)),
            None => println!("  class {k}: no weight, no coefficient"),
        }
    }
    Ok(())
}

/// The figures of the job above are exact. A third is not: its float is below it, and that of minus a third above.
fn show_nearest() -> Result<(), Refusal> {
    for (p, q) in [(1, 2), (1, 3), (-1, 3)] {
        println!("nearest to {p}/{q}: {}", shown(dca::nearest(p, q)?));
    }
    Ok(())
}

fn show_join_table() -> Result<(), Refusal> {
    let mut table = [0; dca::JOIN_TABLE];
    dca::join_table(N, &VALUES, &CATEGORIES, &WEIGHTS, &mut table)?;
    println!("join table:");
    for r in 0..CATEGORIES_USED {
        for s in 0..CATEGORIES_USED {
            println!("  from category {r} to {s}: {}", table[8 * r + s]);
        }
    }
    Ok(())
}

/// The first zone sends no value: its weights, 3 each way, count as 0.
fn show_not_returned() -> Result<(), Refusal> {
    let fewer = [dca::NOT_RETURNED, 1, 3, 3];
    let (mut locals, mut table) = ([0; N], [0; dca::JOIN_TABLE]);
    let sums = dca::account(N, &fewer, &WEIGHTS, &mut locals)?;
    print_sums("the same without the value of zone 0", sums);
    dca::join_table(N, &fewer, &CATEGORIES, &WEIGHTS, &mut table)?;
    println!("  from category 0 to 0: {}", table[0]);
    Ok(())
}

fn print_counts(of: &str, counts: dca::Counts) {
    println!("{of}: less {}, equal {}, greater {}", counts.less, counts.equal, counts.greater);
}

/// All shuffles of desk 0, then each of a desk of its own.
fn show_rank() -> Result<(), Refusal> {
    let [only, ..] = dca::rank(N, &VALUES, &WEIGHTS, &SHUFFLES, &[0, 0])?;
    print_counts("rank", only);
    println!("rank where desk 1 sends the second shuffle:");
    let [first, second, ..] = dca::rank(N, &VALUES, &WEIGHTS, &SHUFFLES, &[0, 1])?;
    print_counts("  desk 0", first);
    print_counts("  desk 1", second);
    Ok(())
}

/// The joined pairs i < j of a network.
fn joined(network: &[u8; N * N]) -> String {
    let pairs = (0..N).flat_map(|i| (i + 1..N).map(move |j| (i, j)));
    pairs
        .filter(|(i, j)| network[N * i + j] > 0)
        .map(|(i, j)| format!(" {i}-{j}"))
        .collect()
}

/// Two networks that are worked rather than given.
fn show_networks() -> Result<(), Refusal> {
    let mut network = [0; N * N];
    dca::gabriel(N, &PLACES, &mut network)?;
    println!("gabriel network of the places:{}", joined(&network));
    dca::grid(2, 2, dca::Move::Rook, &mut network)?;
    println!("rook network of a 2 by 2 grid:{}", joined(&network));
    Ok(())
}

/// Writes the job as an image and reads the image back; returns the image.
fn show_image() -> Result<Vec<u8>, Refusal> {
    let mut own = Buffers::new();
    own.values[..N].copy_from_slice(&VALUES);
    own.categories[..N].copy_from_slice(&CATEGORIES);
    own.weights[..N * N].copy_from_slice(&WEIGHTS);
    own.places[..2 * N].copy_from_slice(&PLACES);
    own.bands[..BANDS.len()].copy_from_slice(&BANDS);
    own.shuffles[..SHUFFLES.len()].copy_from_slice(&SHUFFLES);
    let given = Given {
        values: N,
        categories: N,
        places: N,
        bands: BANDS.len(),
        shuffles: SHUFFLES.len() / N,
    };
    let mut image = vec![0; dca::IMAGE_MOST];
    let length = dca::write(&own, given, &mut image)?;
    image.truncate(length);
    let mut back = Buffers::new();
    let counts = dca::read(&image, &mut back)?;
    println!("image: {length} bytes");
    println!(
        "  read back: values {}, categories {}, joins {}, places {}, bands {}, shuffles {}",
        counts.values, counts.categories, counts.joins, counts.places, counts.bands, counts.shuffles
    );
    println!("  the same job: {}", if own == back { "yes" } else { "no" });
    Ok(image)
}

fn show_report(image: &[u8]) -> Result<(), Refusal> {
    let mut text = [0; dca::REPORT_TEXT];
    print!("report:\n{}", String::from_utf8_lossy(dca::report(image, &mut text)?));
    Ok(())
}

fn show_refusal<T>(of: &str, answer: Result<T, Refusal>) {
    match answer {
        Ok(_) => println!("{of}: taken"),
        Err(refusal) => println!("{of}: refused {} ({})", refusal.number(), refusal.text()),
    }
}

fn show_kept(kept: bool) {
    println!("  lent lists as they were: {}", if kept { "yes" } else { "no" });
}

/// An image that is cut is refused, and the lent text is as it was.
fn show_refused_report(image: &[u8]) {
    let mut text = [b'#'; dca::REPORT_TEXT];
    show_refusal("report of the same image without its last byte", dca::report(image, &mut text));
    show_kept(text == [b'#'; dca::REPORT_TEXT]);
}

/// Equal values have no spread: the job is refused, and the lent list is as it was.
fn show_refused_job() {
    let mut locals = [-1; N];
    show_refusal("a job of equal values", dca::account(N, &[5; N], &WEIGHTS, &mut locals));
    show_kept(locals == [-1; N]);
}

fn main() -> Result<(), Refusal> {
    show_account()?;
    show_hot_list()?;
    show_float_report()?;
    show_nearest()?;
    show_join_table()?;
    show_rank()?;
    show_networks()?;
    let image = show_image()?;
    show_report(&image)?;
    show_not_returned()?;
    show_refused_report(&image[..image.len() - 1]);
    show_refused_job();
    Ok(())
}
