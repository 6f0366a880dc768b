//! The variants of the independent implementation agree with each other.

use compare::Cases;
use reference::{Reference, Shortcuts};

#[test]
fn no_difference() {
    let cases = Cases { seed: 11, first: 0, number: 4_000, margin: 24 };
    let compared = compare::compare(&Shortcuts, &[&Reference], cases);
    assert_eq!(compared.err(), None);
}
