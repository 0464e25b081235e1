//! Floats are lent with any bits, and compared by them.

use super::{Draw, Lent, Memory};
use std::collections::BTreeSet;

const SIGN: u64 = 1 << 63;
const QUIET: u64 = 1 << 51;
const PAYLOAD: u64 = QUIET - 1;

/// NaNs of each kind and no NaNs, many of each, and no payload twice.
#[test]
fn drawn_floats() {
    let lent = Lent::<f64>::noise(&mut Draw::new(1, 0), 8000);
    let bits = lent.own().iter().map(|x| x.to_bits());
    let (nans, others): (Vec<u64>, Vec<u64>) =
        bits.partition(|&bits| f64::from_bits(bits).is_nan());
    assert!(others.len() > 3000);
    for (sign, quiet) in [(0, 0), (0, QUIET), (SIGN, 0), (SIGN, QUIET)] {
        let kind = |bits: &&u64| (**bits & SIGN, **bits & QUIET) == (sign, quiet);
        let payloads: Vec<u64> = nans
            .iter()
            .filter(kind)
            .map(|bits| bits & PAYLOAD)
            .collect();
        let different: BTreeSet<&u64> = payloads.iter().collect();
        assert!(payloads.len() > 800 && different.len() == payloads.len());
    }
}

/// A bit of a NaN that either call changes is found, be it of the sign, of quietness or of the payload.
#[test]
fn changed_bits_of_a_nan() {
    for nan in [
        0x7FF8_0000_0000_0000,
        0xFFF8_0000_0000_1234,
        0x7FF0_0000_0000_0003,
        0xFFF4_0000_0000_0001,
    ] {
        for bit in [SIGN, QUIET, 1 << 50, 2] {
            let before = f64::from_bits(nan);
            let after = f64::from_bits(nan ^ bit);
            let mut lent = Lent::list(&mut Draw::new(1, 1), &[before]);
            assert!(lent.difference().or(lent.change()).is_none());
            lent.proved_list()[0] = after;
            assert!(lent.difference().is_some() && lent.change().is_some());
            lent.own_mut()[0] = after;
            assert!(lent.difference().is_none() && lent.change().is_some());
            let stored = Lent::stored(&mut Draw::new(1, 2), &[before], &[after]);
            assert!(stored.unexpected().is_some());
        }
    }
}
