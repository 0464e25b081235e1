//! The comparison: every input is drawn or stored, given to both, and all lent memory is looked at.

pub mod broken;
mod calls;
mod desks;
mod draw;
mod drawn;
pub mod faulty;
mod left_out;
mod lent;
mod required;
pub mod stored;
mod tally;
mod ties;
mod written;

use calls::Run;
use draw::{Draw, Sections};
pub use tally::Tally;

type Call = fn(&mut Run, &mut Draw) -> Result<(), String>;

/// Each call with its share of the drawn inputs.
const SHARES: [(Call, usize); 15] = [
    (drawn::account, 10),
    (drawn::class_account, 10),
    (drawn::float_report, 10),
    (drawn::nearest, 16),
    (drawn::hot_list, 6),
    (drawn::rank, 7),
    (drawn::join_table, 6),
    (drawn::gabriel, 6),
    (drawn::bands, 7),
    (drawn::grid_rook, 3),
    (drawn::grid_bishop, 3),
    (drawn::grid_queen, 3),
    (drawn::read, 12),
    (drawn::write, 10),
    (drawn::report, 9),
];

/// The image of document 01's report.
fn sample() -> Vec<u8> {
    let mut weights = vec![0; 16];
    for (from, to, weight) in [(0, 1, 3), (1, 0, 3), (1, 2, 1), (2, 1, 1)] {
        weights[4 * from + to] = weight;
    }
    let sections = Sections {
        n: 4,
        values: vec![1, 1, 3, 3],
        categories: vec![0, 0, 1, 1],
        joins: draw::joins(4, &weights),
        weights,
        places: vec![0, 0, 1, 0, 3, 0, 9, 9],
        bands: vec![1, 4],
        shuffles: vec![0, 1, 2, 3, 2, 1, 0, 3],
        kinds: left_out::NONE,
    };
    sections.encode(sections.counts())
}

/// The sample's image cut at every place and with every byte changed to these, in turn.
const CHANGES: [u8; 16] = [0, 1, 2, 3, 4, 5, 7, 8, 9, 10, 64, 65, 127, 128, 254, 255];

fn changed_sample(image: &mut Vec<u8>, number: u64) {
    let (length, number) = (image.len(), number as usize);
    if number <= length {
        image.truncate(number);
    } else {
        let (place, change) = (number % length, number / length - 1);
        image[place] = CHANGES[change % CHANGES.len()];
    }
}

/// What is swapped in for a right call, by its name: a wrong version of the independent code, a faulty archive.
#[derive(Clone, Copy, Default)]
pub struct Swapped<'a> {
    pub broken: Option<&'a str>,
    pub faulty: Option<&'a str>,
}

/// What a run is told.
pub struct Plan<'a> {
    pub seed: u64,
    pub inputs: std::ops::Range<u64>,
    pub swapped: Swapped<'a>,
}

/// Where the two differ.
pub struct Difference {
    pub input: u64,
    pub what: String,
}

/// Compares drawn input after drawn input up to the first difference.
pub fn compare(plan: &Plan) -> Result<Tally, Difference> {
    let mut tally = Tally::default();
    let sample = sample();
    let systematic = (sample.len() * (CHANGES.len() + 1)) as u64;
    let total: usize = SHARES.iter().map(|(_, share)| share).sum();
    for input in plan.inputs.clone() {
        let mut draw = Draw::new(plan.seed, input);
        let mut run = Run {
            tally: &mut tally,
            swapped: plan.swapped,
            expected: None,
            kinds: left_out::NONE,
            ties: ties::NONE,
            desks: desks::NONE,
        };
        let outcome = if input < 2 * systematic {
            let mut image = sample.clone();
            changed_sample(&mut image, input / 2);
            if input % 2 == 0 {
                drawn::read_image(&mut run, &mut draw, &image)
            } else {
                drawn::report_image(&mut run, &mut draw, &image)
            }
        } else {
            let mut place = draw.below(total);
            let chosen = SHARES.iter().find(|&&(_, share)| {
                let here = place < share;
                place = place.wrapping_sub(share);
                here
            });
            let (call, _) = chosen.expect("the shares add up to the total");
            call(&mut run, &mut draw)
        };
        outcome.map_err(|what| Difference { input, what })?;
    }
    Ok(tally)
}
