//! A run in which a list of sides lacks one says so.

use super::super::draw::Draw;
use super::super::lent::Lent;
use super::Tally;

#[test]
fn a_side_that_lacks() {
    let mut draw = Draw::new(1, 0);
    let mut tally = Tally::default();
    let lacks = |tally: &Tally, side: &str| {
        let fault = format!("dca_nearest, side: {side} came");
        tally.faults().iter().any(|said| said.starts_with(&fault))
    };
    for _ in 0..20 {
        assert!(lacks(&tally, "equal") && lacks(&tally, "above"));
        let mut sides = Lent::list(&mut draw, &[7, 7, 1]);
        // Of these only the first is stored: the second was so before.
        sides.own_mut().copy_from_slice(&[2, 7, 1]);
        tally.add_sides("dca_nearest", "side", &sides);
        sides.own_mut()[0] = 0;
        tally.add_sides("dca_nearest", "out", &sides);
    }
    assert!(lacks(&tally, "equal") && lacks(&tally, "below"));
    assert!(!lacks(&tally, "above"));
}
